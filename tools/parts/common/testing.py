"""A count of what a test expects, and of what differs."""


class Expectations:
    """Compares values with those that are expected, and prints each that differs."""

    def __init__(self, name):
        self.name, self.passed, self.failed = name, 0, 0

    def expect(self, what, expected, found):
        """Counts whether what was found is what is expected."""
        if expected == found:
            self.passed += 1
        else:
            self.failed += 1
            print(f"{self.name}: {what}: expected {expected!r}, found {found!r}")

    def expect_fault(self, what, kind, message, action):
        """Counts whether the action raises a fault of this kind with a message that contains this one."""
        try:
            result = action()
        except kind as fault:
            self.expect(what, True, message in str(fault))
        else:
            self.expect(what, f"{kind.__name__}: {message}", result)

    def report(self):
        """Prints the counts, and returns the exit status."""
        print(f"{self.name}: {self.passed} passed, {self.failed} failed")
        return 1 if self.failed else 0
