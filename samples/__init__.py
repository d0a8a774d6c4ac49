"""The samples, and the scripts that make them."""
