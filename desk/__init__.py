"""The desk: takes and a mix of them in a browser, to see, hear, cut and make a master (docs/DESK.md)."""
