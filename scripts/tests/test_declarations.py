"""What scripts/declarations says of a copy of the sources in which something has changed."""
import shutil
import subprocess
import tempfile
import unittest
from pathlib import Path

from loading import TOP

COPIED = [f"crates/{name}/src" for name in ("arachne_exec_c", "arachne_grants_c", "arachne_policy")]


class Declarations(unittest.TestCase):
    def setUp(self) -> None:
        room = tempfile.TemporaryDirectory()
        self.addCleanup(room.cleanup)
        self.top = Path(room.name)
        for name in (*COPIED, "examples/c", "examples/rust", "scripts/declarations"):
            (self.top / name).parent.mkdir(parents=True, exist_ok=True)
            copy = shutil.copytree if (TOP / name).is_dir() else shutil.copy
            copy(TOP / name, self.top / name)

    def changed(self, file: str, old: str, new: str) -> str:
        """What --check says once a text that stands once in a file of arachne_exec_c is another."""
        path = self.top / COPIED[0] / file
        text = path.read_text()
        self.assertEqual(text.count(old), 1)
        path.write_text(text.replace(old, new))
        told = self.check()
        path.write_text(text)
        return told

    def check(self) -> str:
        ran = subprocess.run([self.top / "scripts/declarations", "--check"], stdout=subprocess.PIPE, text=True)
        self.assertEqual(ran.returncode, 1 if ran.stdout else 0)
        return ran.stdout

    def test_nothing_differs_in_the_repository(self) -> None:
        self.assertEqual(self.check(), "")

    def test_another_comment_needs_no_version(self) -> None:
        told = self.changed("exec.rt", "/// Creates an executor with", "/// Makes an executor with")
        self.assertEqual(told, "differs: examples/c/arachne_exec.h\ndiffers: examples/rust/arachne_exec/declared.rs\n")

    def test_another_code_type_or_call_needs_a_version(self) -> None:
        for file, old, new in [
            ("codes.rt", "RUN: u32 = 13", "RUN: u32 = 33"),
            ("exec_told.rt", "pub unpark: u32", "pub unpark: u64"),
            ("exec.rt", "block: usize,\n    most: u32,", "block: usize,\n    most: u64,"),
        ]:
            self.assertIn("arachne_exec_c has changed: raise its version here, to (2, ", self.changed(file, old, new))

    def test_each_call_says_beside_which_it_is_safe(self) -> None:
        for name in ("arachne_exec", "arachne_grants"):
            text = (TOP / f"examples/c/{name}.h").read_text()
            calls = [it for it in text.split("\n\n") if "(" in it.rsplit("*/", 1)[-1] and it.endswith(");")]
            self.assertGreater(len(calls), 10)
            for it in calls:
                self.assertRegex(it, r"\n \* Threads: safe beside .* \*/\n\w")


if __name__ == "__main__":
    unittest.main()
