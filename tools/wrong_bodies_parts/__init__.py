"""The parts of tools/wrong_bodies. They prove nothing: the prover refuses an edit, and these ask it and keep its answer."""
