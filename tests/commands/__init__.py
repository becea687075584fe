"""Rows that are asked of the built program."""
