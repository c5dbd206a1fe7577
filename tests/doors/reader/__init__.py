"""Tests of the reader of programs, which `ctfd-convert` and other commands use."""
