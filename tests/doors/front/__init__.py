"""Tests of `ctfd-front`: many clients on one socket."""
