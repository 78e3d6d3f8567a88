"""The parts of tools/check. They prove nothing: what is proved is the program, and these are held against it."""
