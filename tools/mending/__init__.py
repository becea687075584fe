"""What tools/mend finds in broken DSDIFF and DSF files, and what it makes of them."""
