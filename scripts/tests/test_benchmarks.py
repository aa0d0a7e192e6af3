"""Each benchmark's line of uses.txt names the libraries that its program uses, and bench/run brings them along."""
import os
import re
import shutil
import subprocess
import tempfile
import unittest
from pathlib import Path

TOP = Path(__file__).resolve().parents[2]


def crates() -> set[str]:
    """The crates of crates.txt."""
    return set(subprocess.run([TOP / "scripts/below"], stdout=subprocess.PIPE, text=True, check=True).stdout.split())


class Benchmarks(unittest.TestCase):
    def test_each_names_what_its_program_uses(self) -> None:
        kit = Path(shutil.which("rt") or "").resolve().parents[1] / "rlibs"
        of_kit = {it.stem for it in kit.glob("*.rlib")}
        found = sorted(TOP.glob("bench/*/uses.txt"))
        self.assertTrue(found)
        for file in found:
            with self.subTest(file.parent.name):
                lines = file.read_text().splitlines()
                self.assertEqual(len(lines), 1, "uses.txt has one line, that of the program")
                head, _, libraries = lines[0].partition(":")
                named = set(libraries.split())
                self.assertEqual(named - crates() - of_kit, set())
                sources = [it.read_text() for it in (file.parent / head.split()[0]).glob("src/**/*.rt.in")]
                self.assertTrue(sources)
                pattern, known = r"(?:\buse |\bRattle\.)([a-z]\w*)(?=::|\.)", crates() | of_kit
                used = {it for text in sources for it in re.findall(pattern, text)} & known
                self.assertEqual(used - named - {"std", "core"}, set(), "not named in uses.txt")

    def test_each_runs_in_a_folder_with_all_that_it_stands_on(self) -> None:
        for file in sorted(TOP.glob("bench/*/uses.txt")):
            with self.subTest(file.parent.name), tempfile.TemporaryDirectory() as room:
                tool = Path(room) / "rt"
                tool.write_text('#!/bin/sh\necho "$1 $PWD" > "$SEEN"\necho "[]"\n')
                tool.chmod(0o755)
                work, seen = Path(room) / "work", Path(room) / "seen"
                place = {"PATH": f"{room}:{os.environ['PATH']}", "HOW": "try", "SEEN": str(seen)}
                ran = [TOP / "bench/run", file.parent.name, work]
                # (what is made of the trace, of which there is none here, isn't looked at)
                how = {"stdin": subprocess.DEVNULL, "stdout": subprocess.DEVNULL, "stderr": subprocess.DEVNULL}
                subprocess.run(ran, env={**os.environ, **place}, **how)
                head, _, libraries = file.read_text().partition(":")
                program = head.split()[0]
                self.assertEqual(seen.read_text(), f"try {work}/crates/{program}\n")
                self.assertTrue([*(work / "crates" / program).glob("src/**/*.rt")])
                self.assertTrue((work / "HANDLES").exists())
                lines = [it for it in (work / "crates.txt").read_text().splitlines() if it]
                named = {it.partition(":")[0].split()[0]: set(it.partition(":")[2].split()) for it in lines}
                self.assertEqual(len(named), len(lines))
                self.assertEqual(crates() & set().union(*named.values()), set(named) - {program})
                self.assertTrue(all((work / "crates" / it / "src").is_dir() for it in named))

    def test_the_table_of_the_gate_is_written_where_it_passes(self) -> None:
        for passes, written in ((True, True), (False, False)):
            with self.subTest(passes), tempfile.TemporaryDirectory() as room:
                top = Path(room)
                (top / "bench").mkdir()
                gate, page, tool = top / "bench/gate", top / "bench/GATE.md", top / "rt"
                shutil.copy(TOP / "bench/gate", gate)
                (top / "crates.txt").write_text("lower:\nupper: lower\n")
                around = re.split(r"(?<=-->\n).*?(?=<!--)", (TOP / "bench/GATE.md").read_text(), flags=re.S)
                self.assertEqual(len(around), 2, "the page has one place for the table")
                page.write_text("the last table\n".join(around))
                helps = '[ "$1" != help ] || exec echo --anew >&2'
                tool.write_text(f"#!/bin/sh\n{helps}\necho 2 passed\nexit {int(not passes)}\n")
                tool.chmod(0o755)
                place = {**os.environ, "PATH": f"{room}:{os.environ['PATH']}"}
                how = {"stdout": subprocess.PIPE, "stderr": subprocess.DEVNULL, "text": True, "env": place}
                ran = subprocess.run([gate, "--write"], **how)
                self.assertEqual(ran.returncode, int(not passes))
                self.assertIn("`rt ci --anew` on ", ran.stdout)
                self.assertIn(": `2 passed`, 0 minutes by the clock.", ran.stdout)
                self.assertIn("| `upper` | 0 | 0 | 0 | 0 |\n", ran.stdout)
                self.assertIn(" was not proved.", ran.stdout)
                self.assertEqual(page.read_text(), (ran.stdout if written else "the last table\n").join(around))

    def test_the_unit_is_a_crate_of_a_fixed_commit(self) -> None:
        with tempfile.TemporaryDirectory() as room:
            tool, seen = Path(room) / "rt", Path(room) / "seen"
            # (a crate of the unit's name, which takes some time)
            prover = 'exec -a rattle sh -c "i=0; while [ \\$i -lt 200000 ]; do i=\\$((i + 1)); done; :" --crate-name arachne_core'
            # (rt of the gate itself does nothing)
            asked = '[ "$1" != help ] || exec echo --anew >&2\n[ "$1 $2" = "ci --anew" ] && [ -n "$RT_JOBS" ] || exit 0'
            text = f'#!/bin/bash\n{asked}\ncat crates.txt crates/*/src/lib.rt > {seen}\n({prover})\n'
            tool.write_text(text)
            tool.chmod(0o755)
            place = {**os.environ, "PATH": f"{room}:{os.environ['PATH']}"}
            ran = subprocess.run([TOP / "bench/gate"], env=place, stdout=subprocess.PIPE, stderr=subprocess.DEVNULL, text=True)
            if not seen.exists():
                self.skipTest("the history has no such commit")
            self.assertIn("The unit, `arachne_core` of ab3d6c87, took ", ran.stdout)
            self.assertTrue(seen.read_text().startswith("arachne_core:\n//! "))


if __name__ == "__main__":
    unittest.main()
