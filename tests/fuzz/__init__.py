"""Broken files, and what the program has to say of them."""
