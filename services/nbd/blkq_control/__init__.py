"""The parts of blkqctl."""
