"""Files, the system's generator, and runs of the program `ballot_store`."""
