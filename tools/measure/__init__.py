"""What measures the program, called by hand."""
