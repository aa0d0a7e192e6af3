"""What scripts/archive proves, over a kit whose commands only say what they were asked for."""
import os
import shutil
import subprocess
import tempfile
import time
import unittest
from pathlib import Path

from loading import TOP

SAYS = '#!/bin/sh\n[ "$1" = doc ] && echo {kit}/START-HERE.md && exit\necho {name} "$1"\n'
MAKES = 'while [ $# -gt 1 ]; do [ "$1" != -o ] || echo made > "$2"; shift; done\n'


class Archive(unittest.TestCase):
    def setUp(self) -> None:
        room = tempfile.TemporaryDirectory()
        self.addCleanup(room.cleanup)
        self.top = Path(room.name)
        kit = self.top / "kit"
        (kit / "bin").mkdir(parents=True)
        (kit / "WHAT").touch()
        self.command("rt", kit, "mkdir -p out && echo made > out/libhigh.a\n")
        self.command("rattle", kit, MAKES)
        (self.top / "crates.txt").write_text("low:\nhigh staticlib: low\n")
        for name in ("low", "high"):
            (self.top / f"crates/{name}/src").mkdir(parents=True)
            (self.top / f"crates/{name}/src/lib.rt").touch()
        (self.top / "scripts").mkdir()
        for name in ("archive", "below", "over"):
            shutil.copy(TOP / "scripts" / name, self.top / "scripts")

    def command(self, name: str, kit: Path, does: str) -> None:
        file = kit / "bin" / name
        file.write_text(SAYS.format(kit=kit, name=name) + does)
        file.chmod(0o755)

    def leave(self) -> Path:
        """What `rt ci` leaves of the crate below."""
        time.sleep(0.02)
        out = self.top / "crates/low/out"
        (out / "rlib/low.rlib").mkdir(parents=True)
        (out / "rlib/low.rlib/format").touch()
        return out

    def said(self) -> list[str]:
        """What was asked for."""
        path = {**os.environ, "PATH": f"{self.top}/kit/bin:{os.environ['PATH']}"}
        ran = subprocess.run([self.top / "scripts/archive", "high"], env=path, stdout=subprocess.PIPE, text=True, check=True)
        self.assertEqual((self.top / "crates/high/out/libhigh.a").read_text(), "made\n")
        return [it for it in ran.stdout.splitlines() if not it.startswith("scripts/archive: ")]

    def test_what_the_gate_left_is_not_proved_again(self) -> None:
        self.leave()
        self.assertEqual(self.said(), ["rattle build"])

    def test_all_is_proved_where_it_left_nothing(self) -> None:
        self.assertEqual(self.said(), ["rt lib"])

    def test_all_is_proved_where_a_source_is_younger(self) -> None:
        self.leave()
        time.sleep(0.02)
        (self.top / "crates/low/src/lib.rt").write_text("// changed")
        self.assertEqual(self.said(), ["rt lib"])

    def test_all_is_proved_where_a_library_has_a_stamp(self) -> None:
        (self.leave() / "rlib/stamp").touch()
        self.assertEqual(self.said(), ["rt lib"])

    def test_all_is_proved_where_the_libraries_do_not_serve(self) -> None:
        self.leave()
        self.command("rattle", self.top / "kit", "exit 1\n")
        self.assertEqual(self.said(), ["rattle build", "rt lib"])

    def test_an_archive_stays_until_a_source_changes(self) -> None:
        self.leave()
        self.assertEqual((self.said(), self.said()), (["rattle build"], []))
        time.sleep(0.02)
        (self.top / "crates/high/src/lib.rt").write_text("// changed")
        self.assertEqual(self.said(), ["rattle build"])


if __name__ == "__main__":
    unittest.main()
