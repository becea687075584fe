"""What the scripts of cuts/ share, and albums."""
