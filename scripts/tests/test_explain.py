"""What scripts/explain shows of a text, and how long it takes."""
import resource
import subprocess
import tempfile
import unittest
from pathlib import Path

EXPLAIN = Path(__file__).resolve().parents[1] / "explain"


def explained(text: bytes, *words: str) -> str:
    """What is explained of a text, for a fault and the words of the command line."""
    with tempfile.NamedTemporaryFile() as file:
        file.write(text)
        file.flush()
        return subprocess.run([EXPLAIN, file.name, *words], stderr=subprocess.PIPE, check=True).stderr.decode("latin-1")


class Explain(unittest.TestCase):
    def test_control_characters_are_not_shown(self) -> None:
        odd = bytes([*range(10), *range(11, 32), *range(127, 160)])
        told = [
            explained(odd + b"\n", "fault 2 at 5", "run"),
            explained(b"1 1 1 1 1\n" + odd, "fault 12 line 2", "policy"),
            explained(b"", "fault 23 order 0", "run", "1:\x1b]0;title\x07release:0\x7f"),
        ]
        for it in told:
            self.assertTrue(all(32 <= ord(c) < 127 or c == "\n" for c in it), repr(it))

    def test_a_byte_is_at_its_line_and_column(self) -> None:
        text = b"arachne 1\nledgers 0\nlocks 0\n(add  (num 1) (num 1))\n"
        first, line, caret = explained(text, "fault 2 at 33", "run").splitlines()
        self.assertTrue(first.startswith("line 4, column 6: a space too many"), first)
        self.assertEqual((line, caret), ("  (add  (num 1) (num 1))", "       ^"))
        self.assertTrue(explained(text, "fault 2 at 10", "run").startswith("line 2, column 1:"))
        self.assertTrue(explained(text, "fault 8 node 1", "run").startswith("line 4, column 7:"))

    def test_the_caret_is_below_the_byte_in_a_long_line(self) -> None:
        text = b"arachne 1\nledgers 0\nlocks 0\n(add (num 1) (num 1))".ljust(200) + b"@" + 100 * b" "
        first, line, caret = explained(text, "fault 2 at 200", "run").splitlines()
        self.assertTrue(first.startswith("line 4, column 173: no text goes on"), first)
        self.assertEqual((line.index("@"), caret), (61, 61 * " " + "^"))
        self.assertLessEqual(len(line), 112)

    def test_the_order_and_the_language_are_named(self) -> None:
        told = explained(b"", "fault 25 order 1", "run", "--cores", "2", "--names", "3:grant:1", "2:grant:1")
        self.assertTrue(told.startswith("2:grant:1: the order is due before"), told)
        for text in (b"# a comment\n7\n", b"(add 1 2)\n"):
            self.assertIn("./arachne --named", explained(text, "fault 1 at 0", "run"))

    def test_fault_12_names_its_conditions(self) -> None:
        self.assertIn("line 1: cores are 1 to --max, elapsed is 1 or more", explained(b"0 1 1 1 1\n", "fault 12 line 1", "policy"))

    def test_the_end_of_a_large_text_takes_no_long_time(self) -> None:
        text = b"arachne 1\narray" + 1_500_000 * b" 1234567890123456789" + b"\nx"
        before = resource.getrusage(resource.RUSAGE_CHILDREN)
        self.assertTrue(explained(text, f"fault 2 at {len(text) - 1}", "run").startswith("line 3, column 1:"))
        self.assertTrue(explained(text, f"fault 2 at {len(text) - 2}", "run").startswith(f"line 2, column {len(text) - 11}:"))
        after = resource.getrusage(resource.RUSAGE_CHILDREN)
        self.assertLess(after.ru_utime - before.ru_utime, 4)


if __name__ == "__main__":
    unittest.main()
