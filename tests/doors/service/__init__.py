"""Tests of `ctfd serve`: lines in, a reply to each out."""
