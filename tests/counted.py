"""The count of what passed."""
import sys


class Counted:
    def __init__(self):
        self.passed = self.failed = 0

    def same(self, name, got, want):
        """Counts whether this is what it has to be, and tells it where it is not."""
        self.wrong(name, None if got == want else f"{shown(got)}\n    and not {shown(want)}")

    def wrong(self, name, wrong):
        """Counts whether nothing is wrong, and tells what is."""
        if wrong is None:
            self.passed += 1
        else:
            self.failed += 1
            print(f"{name}: {wrong}")

    def end(self):
        """Prints the count, and ends."""
        print(f"{self.passed} passed, {self.failed} failed")
        sys.exit(1 if self.failed else 0)


def shown(value):
    text = repr(value)
    return text if len(text) <= 400 else f"{text[:400]} .."
