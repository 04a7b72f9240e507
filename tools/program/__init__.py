"""What checks the program."""
