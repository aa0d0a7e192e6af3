"""What .ci/run returns and prints last, over a `bench/gate` and tests that only say something."""
import subprocess
import tempfile
import unittest
from pathlib import Path

from loading import TOP


class Gate(unittest.TestCase):
    # What is called behind the gate.
    TESTS = ["scripts/test", "wrong-bodies/read --names", "tests/run", "examples/test", "rust/test"]

    def run_of(self, gate: int, failed: str = "") -> tuple[int, list[str]]:
        """The status, and what is printed, where the gate returns this, and those behind it 1 if they fail."""
        said = [(it, it.split()[0] + ' "$@"', int(it == failed)) for it in self.TESTS]
        with tempfile.TemporaryDirectory() as room:
            others = [("bench/gate", "costs; echo gate >&2", gate), ("bench/english", "english", 0)]
            for name, text, status in [*said, *others]:
                file = Path(room) / name.split()[0]
                file.parent.mkdir(exist_ok=True)
                file.write_text(f"#!/bin/sh\necho {text}\nexit {status}\n")
                file.chmod(0o755)
            ran = subprocess.run([TOP / ".ci/run"], cwd=room, stdout=subprocess.PIPE, text=True)
            return ran.returncode, ran.stdout.splitlines()

    def test_it_passes_where_all_do(self) -> None:
        self.assertEqual(self.run_of(0), (0, ["gate", *self.TESTS, "english", "costs", "gate"]))

    def test_it_fails_where_one_does(self) -> None:
        self.assertEqual(self.run_of(1), (1, ["gate", "costs", "gate"]))
        for failed in self.TESTS:
            told = [it for test in self.TESTS for it in [test, f".ci/run: {test} failed"][: 1 + (test == failed)]]
            self.assertEqual(self.run_of(0, failed), (1, ["gate", *told, "english", "costs", "gate"]))


if __name__ == "__main__":
    unittest.main()
