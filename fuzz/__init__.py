"""The proved code under libFuzzer: python3 -m fuzz."""
