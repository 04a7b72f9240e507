"""What checks the library and its clients."""
