"""Tests the stack size that docs/LIMITS.md says is enough."""
