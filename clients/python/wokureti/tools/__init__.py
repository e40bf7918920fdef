"""What the commands of `wokureti` are made of: files, containers, sound, repairs, comparisons."""
