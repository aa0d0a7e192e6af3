"""The page of promises: what carries each is declared where it says, and each wrong body (mutant) breaks one of them."""
import functools
import re
import subprocess
import unittest
from typing import NamedTuple

from loading import TOP, load

read = load("read", "wrong-bodies")

PAGE = (TOP / "docs/promises.md").read_text(encoding="utf-8")
DECLARED = re.compile(r"^ *(?:pub(?:\(\w+\))? )?(?:fn|struct|enum|trait|record|abbrev|data) (?:pub )?(\w+)", re.M)
CLAUSE = re.compile(r"\bensures\s+(\w+)\s+\{|^\s+pub (\w+) :", re.M)


class Row(NamedTuple):
    """A promise: its name, the folders of the crates in the heading above it, what carries it, what is refused for it."""

    name: str
    folders: tuple
    carried: str
    refused: str

    def names(self) -> list[str]:
        """The wrong bodies that the row names."""
        return re.findall(r"`(\w+)`", self.refused)


def rows(page: str) -> list[Row]:
    """The rows of a page."""
    found = []
    for section in re.split(r"^## ", page, flags=re.M)[1:]:
        heading, *lines = section.splitlines()
        crates = [it if it.startswith("example_") else f"arachne_{it}" for it in re.findall(r"`(\w+)`", heading)]
        folders = tuple(TOP / "crates" / crate / part for crate in crates for part in ("src", "specs"))
        cells = [re.split(r" *\| *", it)[1:-1] for it in lines if re.match(r"\| (?!Promise)\w", it)]
        found += [Row(it[0], folders, it[2], it[3]) for it in cells]
    return found


@functools.cache
def declared(row: Row, file: str) -> dict[str, set[str]]:
    """What a file of the row's crates declares, each with its clauses or fields."""
    found: dict[str, set[str]] = {}
    for path in (it / file for it in row.folders if (it / file).exists()):
        _, *parts = DECLARED.split(path.read_text(encoding="utf-8"))
        for name, text in zip(parts[::2], parts[1::2]):
            found.setdefault(name, set()).update(a or b for a, b in CLAUSE.findall(text))
    return found


def undeclared(row: Row) -> list[str]:
    """What is said to carry a promise and isn't declared in the file that is named."""
    found = []
    for names, file in re.findall(r"([^()]*)\(([\w/]+\.\w+)\)", row.carried):
        there = declared(row, file)
        for group in names.split(";"):
            heads, _, clauses = (re.findall(r"`(\w+)`", it) for it in group.partition(":"))
            found += [it for it in heads if it not in there]
            found += [it for it in clauses if not any(it in there.get(head, ()) for head in heads)]
    if "`" in re.sub(r"[^()]*\([\w/]+\.\w+\)", "", row.carried):
        found.append("a name without its file")
    return found


def wrong(page: str, broken: dict[tuple[str, str], str], tried: set[str]) -> list[str]:
    """What is wrong with a page, by the promise that each wrong body breaks, and those that the merge gate tries."""
    every = rows(page)
    found = [f"{row.name}: {it} is not declared there" for row in every for it in undeclared(row)]
    found += [f"{it}: two rows" for it in {row.name for row in every if [r.name for r in every].count(row.name) > 1}]
    found += [f"{it}: breaks no promise of the page" for it, promise in broken.items() if promise not in {r.name for r in every}]
    for row in every:
        breaking = {name for (_, name), promise in broken.items() if promise == row.name}
        found += [f"{row.name}: {it} is no wrong body of it" for it in row.names() if it not in breaking | tried]
        if not row.names() and (breaking or not re.match(r"law$|tests: ", row.refused)):
            found.append(f"{row.name}: names no wrong body")
        if not re.search(r"`\w+`|^the check of each body$", row.carried):
            found.append(f"{row.name}: nothing carries it")
    named = {it for row in every for it in row.names()}
    return found + [f"{it}: the merge gate tries it, and no row names it" for it in tried - named]


def breaks() -> dict[tuple[str, str], str]:
    """The promise that each wrong body breaks, by crate and name."""
    found = {}
    for crate in read.crates():
        promise = ""
        for line in (TOP / f"wrong-bodies/{crate}.edits").read_text().splitlines():
            if line.startswith("breaks: "):
                promise = line[8:]
            elif line.startswith("== "):
                found[crate, line[3:]] = promise
    return found


def tried() -> set[str]:
    """The names of those that the merge gate tries."""
    return {it.stem for it in TOP.glob("crates/*/must-fail/*.edit")}


class Promises(unittest.TestCase):
    def test_the_page_is_right(self) -> None:
        self.assertGreater(len(rows(PAGE)), 90)
        self.assertGreater(len(breaks()), 1000)
        self.assertEqual(wrong(PAGE, breaks(), tried()), [])

    def test_planted_errors_are_seen(self) -> None:
        for old, new in {
            "`accepted`, `every_text`": "`accepted`, `any_text`",
            "`parse`: `first_fault`": "`print`: `first_fault`",
            "`fetch`: `missed` (cell.rt)": "`fetch`: `missed` (spare.rt)",
            "`fault_one_byte_late`": "`fault_two_bytes_late`",
            "`check_skips_a_node`": "`fault_one_byte_late`",
            "`runs_keep_owned_once`": "`runs_keep_owned`",
            "`a_number_past_the_last`": "law",
            "| one holder |": "| owned once |",
            "| meaning |": "| means |",
            "`held_tells_another_id`, ": "",
            "the check of each body": "",
        }.items():
            with self.subTest(old):
                self.assertIn(old, PAGE)
                self.assertTrue(wrong(PAGE.replace(old, new), breaks(), tried()))

    def test_a_wrong_body_that_breaks_nothing_is_seen(self) -> None:
        for promise in "", "no such promise", "meaning|meaning":
            self.assertTrue(wrong(PAGE, {**breaks(), ("arachne_lang", "planted"): promise}, tried()))

    def test_they_are_listed(self) -> None:
        def listed(*words: str) -> set[tuple[str, ...]]:
            told = subprocess.run([TOP / "wrong-bodies/list", *words], stdout=subprocess.PIPE, text=True, check=True).stdout
            return {tuple(it.split("\t")) for it in told.splitlines()}

        every = {(promise, crate, name) for (crate, name), promise in breaks().items()}
        self.assertEqual(listed(), every)
        self.assertEqual(listed("arachne_sleep"), {it for it in every if it[1] == "arachne_sleep"})


if __name__ == "__main__":
    unittest.main()
