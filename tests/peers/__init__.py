"""Damaged files, put to Skeptolyr and to other readers: python3 -m tests.peers."""
