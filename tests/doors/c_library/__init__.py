"""Tests of the library for C, and of libctf's calls."""
