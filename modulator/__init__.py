"""The modulator, by its program in C."""
