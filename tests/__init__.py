"""What tries the built program and the scripts."""
