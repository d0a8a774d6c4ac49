"""Proved code against the independent decoder of tests/reference: python3 -m tests.evidence."""
