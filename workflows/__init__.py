"""What the scripts over whole archives share."""
