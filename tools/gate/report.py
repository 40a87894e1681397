"""What a stage tried: a line for each thing, and at the end their count, 'N passed, M failed', which `.ci/run` reads."""

from typing import List


class Report:
    def __init__(self) -> None:
        self.passed = 0
        self.failed: List[str] = []

    def ok(self, words: str) -> None:
        self.passed += 1
        print(f"gate: {words}", flush=True)

    def bad(self, words: str) -> None:
        self.failed.append(words)
        print(f"gate: FAILED: {words}", flush=True)

    def judge(self, words: str, why: str) -> None:
        """One thing that holds, unless there is a reason why it does not."""
        if why:
            self.bad(f"{words}: {why}")
        else:
            self.ok(words)

    def end(self) -> int:
        """Prints the count, and answers the exit status: 0 where something passed and nothing failed."""
        print(f"{self.passed} passed, {len(self.failed)} failed", flush=True)
        return 0 if self.passed and not self.failed else 1
