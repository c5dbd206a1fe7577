"""Tests of `ctfd dump`, and of other programs that read our dictionaries."""
