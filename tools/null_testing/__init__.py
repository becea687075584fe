"""What tools/null_test is made of: the mix text, exact sums, the judging of a master, and decibels."""
