"""How fast the proved code is: python3 -m bench."""
