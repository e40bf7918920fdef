"""The page of `wokureti open`: what it asks for, next to its own files."""
