"""Tests of a built ctfd with dictionaries that are built by hand.

They are checked, opened and asked like any other.
"""
