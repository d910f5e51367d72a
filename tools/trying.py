"""What tests of the scripts of this folder are counted by."""


class Tests:
    """What was tried, and what of it failed."""

    def __init__(self):
        self.passed, self.failed = 0, 0

    def expect(self, what, holds, more=""):
        """Counts one test, and says which it is where it failed."""
        if holds:
            self.passed += 1
        else:
            self.failed += 1
            print(f"failed: {what}\n{more}")

    def end(self):
        """Prints the last line. The status."""
        print(f"{self.passed} passed, {self.failed} failed")
        return 1 if self.failed else 0
