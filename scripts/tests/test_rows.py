"""tests/run reads each line of a table, and says which run ends otherwise than its row has it."""
import contextlib
import io
import tempfile
import unittest
from pathlib import Path
from unittest import mock

from loading import TOP, load

run = load("run", "tests")

# A program that reads its input, and says how many words and bytes it got; it refuses the word `no`.
PROGRAM = """#!/bin/sh
[ "$1" != no ] || { echo "error: no" >&2; exit 2; }
[ "$1" != late ] || sleep 5
echo $# $(cat | wc -c)
[ "$1" != bad ] || { echo "fault 1" >&2; exit 1; }
"""


class Rows(unittest.TestCase):
    def ends(self, table: str) -> tuple[int, list[str]]:
        """The status, and what is printed, where this is the only table."""
        with tempfile.TemporaryDirectory() as room:
            program = Path(room) / "program"
            program.write_text(PROGRAM)
            program.chmod(0o755)
            (Path(room) / "some.rows").write_text(table)
            with mock.patch.object(run, "HERE", Path(room)), contextlib.redirect_stdout(io.StringIO()) as told:
                status = run.main(program)
        return status, told.getvalue().splitlines()

    def test_each_line_of_the_tables_is_read(self) -> None:
        tables = sorted((TOP / "tests").glob("*.rows"))
        self.assertTrue(tables)
        for it in tables:
            with self.subTest(it.name):
                self.assertTrue([*run.rows_of(it.name, it.read_text(encoding="utf-8"))])

    def test_texts_as_tables_spell_them(self) -> None:
        self.assertEqual(run.spelled(r"a|[b *2]c[||*1]\x00\xff\r"), b"a\nb b c\n\n\x00\xff\r")
        self.assertEqual([*run.fronts("ab|")], [b"ab\n"])
        self.assertEqual([*run.fronts("a^b|")], [b"a", b"ab"])
        self.assertEqual([*run.fronts("^")], [])

    def test_rows_that_hold(self) -> None:
        table = "# one\n$ arachne\n$ arachne 'a |' b => 0 2 3|\nabc => 0 0 3|\n\n\n"
        table += "$ arachne bad\na^b => 1 1 ^|!fault 1|\n"
        self.assertEqual(self.ends(table), (0, ["tests/run: 3 runs of 1 tables, 0 differ"]))
        self.assertEqual(self.ends("$ arachne no\nabc => 2 !usage\nabc => 2 !error: no|\n")[0], 0)

    def test_rows_that_differ(self) -> None:
        for row, told in {
            "$ arachne bad\n => 0 1 0|!fault 1|": "status: expected 0, found 1",
            "$ arachne a\n => 0 0 0|": r"output: expected b'0 0\n', found b'1 0\n'",
            "$ arachne bad\n => 1 1 0|": r"standard error: expected b'', found b'fault 1\n'",
            "$ arachne bad\n => 1 1 0|!usage": r"standard error: expected b'usage', found b'fault 1\n'",
            "$ arachne a\n => 0 1 0|!usage": "standard error: expected b'usage', found b''",
            "$ arachne\nabc => 2 0 3|": "bytes read: expected 0, found 3",
        }.items():
            with self.subTest(row):
                status, lines = self.ends(row)
                self.assertEqual((status, lines[-1]), (1, "tests/run: 1 runs of 1 tables, 1 differ"))
                found = [it for it in lines if it.endswith(told)]
                self.assertTrue(found and found[0].startswith("tests/run: some.rows:2: arachne"), lines)

    def test_which_programs_have_a_row(self) -> None:
        for command, programs, of_given in [
            ("$ arachne run", [run.PROGRAM], ["given"]),
            ("$ arachne eval --names", [run.PROGRAM, run.SERIAL], ["given"]),
            ("$ arachne_eval run", [run.SERIAL], []),
        ]:
            row = run.row_of("some.rows:1", command, b"", "2 !usage")
            self.assertEqual((run.programs_of(row), run.programs_of(row, "given")), (programs, of_given))

    def test_a_run_that_does_not_end(self) -> None:
        with mock.patch.object(run, "LIMIT", 0.2):
            self.assertEqual(self.ends("$ arachne late\n => 0 1 0|")[0], 1)

    def test_tables_that_test_nothing(self) -> None:
        for table in ["$ arachne\n", "abc => 0\n", "$ arachne\nabc\n", "$ other\nabc => 0\n", "$ arachne\nabc=> 0\n"]:
            with self.subTest(table), self.assertRaises(SystemExit) as ended:
                self.ends(table)
            self.assertTrue(str(ended.exception.code).startswith("tests/run: some.rows:"))
        self.assertEqual(self.ends("# nothing\n")[0], 1)

    def test_no_program(self) -> None:
        with self.assertRaises(SystemExit) as ended:
            run.main("/nowhere")
        self.assertIn("there is no program", str(ended.exception.code))


if __name__ == "__main__":
    unittest.main()
