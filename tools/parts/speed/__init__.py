"""The parts of tools/speed: what is measured, beside which rivals, and how."""
