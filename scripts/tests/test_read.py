"""Wrong bodies (mutants) apply to today's sources, and those that the compiler refuses are found among many."""
import contextlib
import io
import tempfile
import unittest
from pathlib import Path
from unittest import mock

from loading import TOP, load

read = load("read", "wrong-bodies")

TEXT = "".join(f"line {it};\n" for it in range(100))


# A `rattle fmt --check` of one file, in which a line with the word bad does not parse, and wide is not in the layout.
FMT = """#!/bin/sh
sed -n "/bad/{=;q}" "$3" | sed "s|.*|$3: it does not parse: at &:5: error[some]: bad|"
! grep -q "bad\\|wide" "$3"
"""


def edit(line: int, new: str = "fine") -> "read.Edit":
    """An edit of that line."""
    return read.Edit(f"at_{line}", "src/a.rt", ((f"line {line};", new),))


def compiler(_: Path, texts: dict[str, str]) -> list[tuple[str, int, str]]:
    """A compiler that refuses each line with the word bad, and says where, and says only that it has found worse."""
    lines = texts["src/a.rt"].splitlines()
    found = [("src/a.rt", at + 1, "error: bad") for at, it in enumerate(lines) if "bad" in it]
    return found or [("", 0, "error: worse") for it in lines if "worse" in it]


class Read(unittest.TestCase):
    def refused(self, *edits: "read.Edit") -> list[str]:
        """The names of those that this compiler refuses."""
        return sorted(it.name for it, _ in read.refused(Path(), {"src/a.rt": TEXT}, list(edits), compiler))

    def test_each_applies(self) -> None:
        self.assertTrue(read.crates())
        for crate in read.crates():
            for it in read.edits_of(crate):
                text = (TOP / "crates" / crate / it.file).read_text(encoding="utf-8")
                self.assertIsNotNone(read.applied(it, text), f"{crate}: {it.name}")

    def test_one_that_stands_nowhere_or_twice_does_not_apply(self) -> None:
        self.assertIsNone(read.applied(edit(100), TEXT))
        self.assertIsNone(read.applied(edit(7), TEXT + TEXT))
        self.assertEqual(read.applied(edit(7), TEXT), (TEXT.replace("line 7;", "fine"), [8]))

    def test_edits_that_stand_close_are_read_one_after_the_other(self) -> None:
        _, taken, left = read.together([edit(10), edit(11), edit(30)], {"src/a.rt": TEXT})
        self.assertEqual(([it.name for it in taken], [it.name for it in left]), (["at_10", "at_30"], ["at_11"]))

    def test_those_that_are_refused_are_found(self) -> None:
        fine = [edit(it) for it in range(0, 100, 10)]
        self.assertEqual(self.refused(*fine), [])
        self.assertEqual(self.refused(*fine, edit(25, "bad"), edit(33, "bad"), edit(27, "bad")), ["at_25", "at_27", "at_33"])

    @mock.patch.object(read, "command")
    def test_each_that_is_refused_counts(self, _: mock.Mock) -> None:
        for errors in [], [("", 0, "error: bad")]:
            with mock.patch.object(read, "read", lambda *_, **__: errors), contextlib.redirect_stdout(io.StringIO()) as told:
                self.assertEqual(read.judge("arachne_handle", left=True), len(errors))
            self.assertIn(f"1 of 1 apply, {len(errors)} do not compile", told.getvalue())

    def test_a_block_says_whether_it_compiles(self) -> None:
        edits = [edit(10), edit(20)._replace(compiles=False), edit(30), edit(40)._replace(compiles=False)]
        found = [(it, "error: bad") for it in edits[:2]]
        with mock.patch.multiple(read, command=mock.DEFAULT, copy=mock.DEFAULT, refused=lambda *_: found) as fakes:
            fakes["copy"].return_value = Path("/nowhere")
            with mock.patch.object(read, "edits_of", lambda _: edits), mock.patch.object(read, "applied"):
                with mock.patch.multiple(Path, exists=lambda _: True, read_text=lambda _: TEXT):
                    with contextlib.redirect_stdout(io.StringIO()) as told:
                        self.assertEqual(read.judge("some"), 2)
        self.assertIn("some: at_10 does not compile\nsome: at_40 compiles, and", told.getvalue())

    def test_words_that_nothing_declares_are_found(self) -> None:
        there = {"if", "let", "self", "ready", "x"}
        for new, names in {
            "if self.ready(x) {": [],
            'if self.ready("gone") == 0xff || x == b\'g\' { // gone': [],
            "let seen = self.ready(x); if seen {": [],
            "let _seen = self.ready(x);": [],
            "if self.gone(x) {": ["gone"],
            "self.gone(x); self.gone(x);": ["gone"],
            "if gone::ready(lost) {": ["gone", "lost"],
        }.items():
            with self.subTest(new):
                self.assertEqual(read.unknown(edit(7, new), there), names)

    def test_one_that_does_not_parse_is_found(self) -> None:
        with tempfile.TemporaryDirectory() as room:
            (Path(room) / "bin").mkdir()
            fmt = Path(room) / "bin/rattle"
            fmt.write_text(FMT)
            fmt.chmod(0o755)
            with mock.patch.object(read, "kit", lambda: Path(room)):
                edits = [edit(10), edit(20, "bad"), edit(30, "wide")]
                found = [*read.refused(Path(room) / "some", {"src/a.rt": TEXT}, edits, read.parse)]
        self.assertEqual(found, [(edits[1], "error[some]: bad")])

    def test_those_without_words_or_parse_count(self) -> None:
        edits, texts = [edit(10), edit(20, "gone"), edit(30, "bad")], {"src/a.rt": TEXT}
        fakes = {"split": lambda *_: (edits, [], texts), "parse": compiler, "declared": lambda _: {"fine", "bad"}}
        with mock.patch.multiple(read, **fakes):
            with contextlib.redirect_stdout(io.StringIO()) as told:
                self.assertEqual(read.look("some"), 2)
        expected = ["some: at_20: nothing declares gone", "some: at_30: error: bad"]
        self.assertEqual(sorted(told.getvalue().splitlines()), expected)

    def test_one_is_found_where_no_line_is_told(self) -> None:
        self.assertEqual(self.refused(*(edit(it) for it in range(0, 100, 10)), edit(45, "worse")), ["at_45"])


if __name__ == "__main__":
    unittest.main()
