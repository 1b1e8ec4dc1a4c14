"""Scripts whose callers make their calls at once on a kernel, and an order of the calls that fsc check
certifies."""
