"""scripts/words judges the words of a command line as the program does."""
import os
import subprocess
import unittest

from loading import TOP

# Words that are refused, with the begin of what is said.
REFUSED = {
    "": "error: 'arachne' requires a subcommand",
    "runs": "error: unrecognized subcommand 'runs'",
    "--names run": "error: unexpected argument '--names' found",
    "-h": "Run and evaluate programs",
    "help": "Run and evaluate programs",
    "help eval": "Evaluate the task text",
    "run --cores 2 --help": "Run the task text",
    "--version": "arachne ",
    "check --names": "error: unexpected argument '--names' found",
    "check FILE": "error: unexpected argument 'FILE' found",
    "run --cores": "error: a value is required for '--cores <N>'",
    "run --cores two": "error: invalid value 'two' for '--cores <N>'",
    "run --seed 18446744073709551616": "error: invalid value '18446744073709551616' for '--seed <N>'",
    "run --names=yes": "error: unexpected value 'yes' for '--names' found",
    "run --cores 2 --cores=2": "error: the argument '--cores <N>' cannot be used multiple times",
    "run -x": "error: unexpected argument '-x' found",
    "run 1:grant:1 FILE": "fault 26 order 1",
    "run 01:grant:1": "fault 26 order 0",
    "run 1:grant:18446744073709551616": "fault 26 order 0",
    "run -- --names": "fault 26 order 0",
}
TAKEN = [
    "run",
    "eval --names",
    "policy --max=7",
    "run --cores 0 --names",
    "run --seed +18446744073709551615 --quantum 007",
    "run 1:grant:1 --slots 3 18446744073709551615:release:2",
    "run -- 1:release:2",
]


class Words(unittest.TestCase):
    def judged(self, program: os.PathLike[str] | str, words: str) -> tuple[int, str]:
        """The status, and the first line on standard error, where nothing is on standard input."""
        how = {"stdin": subprocess.DEVNULL, "stdout": subprocess.DEVNULL, "stderr": subprocess.PIPE, "text": True}
        ran = subprocess.run([program, *words.split()], **how)
        return ran.returncode, ran.stderr.partition("\n")[0]

    def test_what_is_refused_and_what_is_taken(self) -> None:
        for words, told in REFUSED.items():
            with self.subTest(words):
                status, line = self.judged(TOP / "scripts/words", words)
                self.assertEqual((status, line[: len(told)]), (2, told))
        for words in TAKEN:
            with self.subTest(words):
                self.assertEqual(self.judged(TOP / "scripts/words", words), (0, ""))

    def test_the_program_says_the_same(self) -> None:
        program = os.environ.get("ARACHNE", TOP / "crates/arachne/out/arachne")
        if not os.access(program, os.X_OK):
            self.skipTest("the program is not built")
        for words in [*REFUSED, *TAKEN]:
            with self.subTest(words):
                status, line = self.judged(program, words)
                if words in TAKEN:
                    self.assertNotEqual(status, 2)
                else:
                    # (the program may say more of a value)
                    self.assertEqual((status, line[: len(REFUSED[words])]), (2, REFUSED[words]))


if __name__ == "__main__":
    unittest.main()
