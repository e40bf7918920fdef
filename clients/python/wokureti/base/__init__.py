"""What all layers use: request lines, arguments, programs, folders, and what is said of progress."""
