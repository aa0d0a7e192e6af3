"""What scripts/release makes of a repository whose archive stands in for the proved one, over a kit that only answers."""
import os
import shutil
import subprocess
import tempfile
import unittest
from pathlib import Path

from loading import TOP

SAYS = "#!/bin/sh\ncase $1 in doc) echo {kit}/START-HERE.md ;; version) echo kit-1 logic 2 ;; *) exit 1 ;; esac\n"
MAKES = "#!/bin/sh\nmkdir -p crates/$1/out && echo proved > crates/$1/out/lib$1.a\n"
IS_GIT = ["git", "-c", "user.name=t", "-c", "user.email=t@t"]


class Release(unittest.TestCase):
    def setUp(self) -> None:
        room = tempfile.TemporaryDirectory()
        self.addCleanup(room.cleanup)
        self.top = Path(room.name) / "repository"
        self.to = Path(room.name) / "made"
        self.kit = Path(room.name) / "kit"
        (self.kit / "c").mkdir(parents=True)
        (self.kit / "c/liblibc_c.a").write_text("libc")
        self.command(self.kit / "rt", SAYS.format(kit=self.kit))
        for name in ("rust/arachne", "rust/examples/src/bin/echo.rs", "examples/c/arachne_exec.h", "scripts/release"):
            (self.top / name).parent.mkdir(parents=True, exist_ok=True)
            copy = shutil.copytree if (TOP / name).is_dir() else shutil.copy
            copy(TOP / name, self.top / name)
        self.command(self.top / "scripts/archive", MAKES)
        (self.top / ".gitignore").write_text("out/\ntarget\n")
        for words in (["init", "-q"], ["add", "-A"], ["commit", "-qm", "all"]):
            subprocess.run([*IS_GIT, *words], cwd=self.top, check=True)

    def command(self, file: Path, does: str) -> None:
        file.write_text(does)
        file.chmod(0o755)

    def made(self, *words: str | Path) -> tuple[int, str]:
        path = {**os.environ, "PATH": f"{self.kit}:{os.environ['PATH']}"}
        ran = subprocess.run([self.top / "scripts/release", *words], env=path, stdout=subprocess.PIPE, text=True)
        return ran.returncode, ran.stdout

    def test_the_manifest_says_what_the_folder_was_made_of(self) -> None:
        status, told = self.made(self.to, "gate: passed")
        self.assertEqual(status, 0, told)
        lines = (self.to / "MANIFEST").read_text().splitlines()
        commit = subprocess.run(["git", "rev-parse", "HEAD"], cwd=self.top, stdout=subprocess.PIPE, text=True, check=True)
        self.assertEqual(lines[:2], [f"# commit {commit.stdout.strip()}", "# kit kit-1 logic 2"])
        self.assertEqual(lines[3], "# gate gate: passed")
        sums = {line.split("  ")[1] for line in lines[4:]}
        files = {str(it.relative_to(self.to)) for it in self.to.rglob("*") if it.is_file()} - {"MANIFEST"}
        self.assertEqual(sums, files)
        self.assertEqual((self.to / "libarachne_exec_c.a").read_text(), "proved\n")
        self.assertLessEqual({"arachne/Cargo.toml", "arachne/src/net/tcp.rs", "echo/src/main.rs", "arachne_exec.h"}, files)
        check = ["sha256sum", "--quiet", "--strict", "-c", "MANIFEST"]
        subprocess.run(check, cwd=self.to, check=True)
        (self.to / "libarachne_exec_c.a").write_text("another")
        changed = subprocess.run(check, cwd=self.to, stdout=subprocess.PIPE, stderr=subprocess.DEVNULL)
        self.assertEqual(changed.returncode, 1)

    def test_without_the_gate_there_is_no_line_of_it(self) -> None:
        self.made(self.to)
        self.assertNotIn("# gate", (self.to / "MANIFEST").read_text())

    def test_nothing_is_made_of_what_no_commit_has(self) -> None:
        (self.top / "rust/arachne/src/lib.rs").write_text("// changed")
        status, told = self.made(self.to)
        self.assertEqual((status, "no commit has" in told, list(self.to.iterdir())), (1, True, []))

    def test_a_folder_that_has_something_stays_as_it_is(self) -> None:
        self.made(self.to)
        before = (self.to / "MANIFEST").read_text()
        self.assertEqual(self.made(self.to)[0], 1)
        self.assertEqual((self.to / "MANIFEST").read_text(), before)

    def test_nothing_is_said_of_an_archive_that_is_not_made(self) -> None:
        self.command(self.top / "scripts/archive", "#!/bin/sh\nexit 1\n")
        subprocess.run([*IS_GIT, "commit", "-qam", "no archive"], cwd=self.top, check=True)
        self.assertEqual(self.made(self.to)[0], 1)
        self.assertFalse((self.to / "MANIFEST").exists())


if __name__ == "__main__":
    unittest.main()
