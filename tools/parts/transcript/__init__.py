"""The parts of tools/transcript."""
