"""Which files of specs a reader has to read for a clause of a contract, and which calls are public."""
