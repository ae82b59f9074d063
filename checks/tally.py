"""What the checks expect, and how much of it held."""


class Tally:
    def __init__(self):
        self.count = 0
        self.failures = []

    def expect(self, name, got, want):
        self.count += 1
        if got != want:
            self.failures.append(f"{name}: got {str(got)[:200]}, wanted {str(want)[:200]}")

    def close(self, what):
        """Says how much held, and answers the exit status."""
        for failure in self.failures:
            print("checks:", failure)
        print(f"{what}: {self.count - len(self.failures)} passed, {len(self.failures)} failed")
        return 1 if self.failures else 0
