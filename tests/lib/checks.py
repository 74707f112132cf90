"""What a script checks: the count of what held, a line for what didn't, and the last line that the runner reads."""


class Checks:
    """Counts what was checked, and prints what failed."""

    def __init__(self, tells_all=False):
        self.tells_all = tells_all
        self.passed = []
        self.failed = []

    def expect(self, name, wanted, got):
        self.holds(name, wanted == got, f"wanted {wanted!r}, got {got!r}")

    def holds(self, name, is_so, otherwise):
        if is_so:
            self.passed.append(name)
            if self.tells_all:
                print(f"PASSED {name}:", flush=True)
        else:
            self.failed.append(name)
            if self.failed.count(name) <= 5:
                print(f"FAILED {name}: {otherwise}", flush=True)

    def end(self):
        """The exit status, after a last line."""
        print(f"{len(self.passed)} passed, {len(self.failed)} failed", flush=True)
        return 1 if self.failed else 0
