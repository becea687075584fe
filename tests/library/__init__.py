"""Tests of the library for C and Python."""
