"""The time that scripts/build says is left, over a made-up run, and a build by an `rt` that proves nothing."""
import os
import shutil
import signal
import subprocess
import tempfile
import time
import unittest
from pathlib import Path
from typing import Any
from unittest import mock

from loading import TOP, load, run_on_terminal

build = load("build")

# An `rt` that says of each crate that it is proved, or kept if there is a file KEPT, and leaves a program. If LOOK is
# set, that is the fault of an unproved build.
FAKE = """#!/bin/sh
echo "$1 $PWD" >> "$SEEN"
if [ "$1" = try ]; then
  if [ -n "$LOOK" ]; then echo "fault $LOOK" >&2; else echo value 5; fi
  echo "run=ended status=0" >&2
  [ -z "$LOOK" ]; exit
fi
if [ -n "$WAITS" ]; then sleep 60 & echo $! > "$WAITS"; wait; fi
for crate in $(sed 's/[ :].*//' crates.txt); do
  if [ -e "$KEPT" ]; then echo "rt: $crate is kept: an earlier run on this machine proved the same files"; else echo "rt: $crate proved"; fi
done
for name in arachne arachne_eval; do
  [ -e crates/$name ] || continue
  mkdir -p crates/$name/out
  printf '#!/bin/sh\\necho value 5\\n' > crates/$name/out/$name && chmod +x crates/$name/out/$name
done
[ -z "$FAILS" ] || { echo "rt: arachne NOT PROVED"; echo "2 passed, 1 failed"; exit 1; }
echo "3 passed, 0 failed"
"""


class Estimates(unittest.TestCase):
    def run_of(self, slowness: float, first: tuple[float, float]) -> list[tuple[float, int]]:
        """The minutes that are left and those that are said, at each crate's end, on a machine of four lanes so many
        times slower than the table's."""
        below, table = build.crates(), build.table()
        seconds = {it: table.get(it, 60) for it in below}
        estimate, began, ended, now, told = build.Estimate(seconds, below, 4, first), {}, set(), 0.0, []
        while len(ended) < len(below):
            for it in sorted(seconds, key=lambda it: -seconds[it]):
                if it not in began and len(began) - len(ended) < 4 and set(below[it]) <= ended:
                    began[it] = now
            name = min(set(began) - ended, key=lambda it: began[it] + slowness * seconds[it])
            now = began[name] + slowness * seconds[name]
            ended.add(name)
            estimate.proved(name, now - began[name])
            told.append((now, estimate.minutes({it: now - began[it] for it in set(began) - ended})))
        return [((now - then) / 60, minutes) for then, minutes in told]

    def test_the_time_left_is_near_the_truth_from_the_first_crate_on(self) -> None:
        for slowness, first in [(1, (60, 60)), (3, (180, 60)), (2, (60, 60)), (1, (180, 60)), (4, (300, 300)), (1, (1200, 300))]:
            with self.subTest(slowness=slowness, first=first):
                for left, minutes in self.run_of(slowness, first)[:-1]:
                    self.assertLess(minutes, 4 * left + 2)
                    self.assertGreater(minutes, left / 4 - 1)

    def test_the_share_counts_a_crate_in_work_but_never_as_proved(self) -> None:
        estimate = build.Estimate({"lower": 60, "upper": 40}, {"lower": [], "upper": ["lower"]}, 4, (120, 60))
        self.assertEqual([estimate.share({"lower": it}) for it in (0, 60, 600)], [0, 30, 57])
        estimate.proved("lower", 120)
        self.assertEqual(estimate.share({}), 60)

    def test_a_look_counts_for_three_times_the_usual_at_most(self) -> None:
        with tempfile.TemporaryDirectory() as out, mock.patch.object(build, "OUT", Path(out)):
            self.assertEqual(build.speed(10_000), (180, 60))
            self.assertEqual(build.speed(53), (60, 60))
            self.assertEqual(build.speed(0), (60, 60))

    def test_what_was_proved_here_counts_more_than_a_look_and_not_for_ever(self) -> None:
        with tempfile.TemporaryDirectory() as out, mock.patch.object(build, "OUT", Path(out)):
            for kept, speed in [("200 100", (200, 100)), ("4000 1000", (1200, 300)), ("0 0", (180, 60)), ("x", (180, 60))]:
                (Path(out) / ".speed").write_text(kept)
                self.assertEqual(build.speed(10_000), speed)

    def test_no_more_lanes_than_processors(self) -> None:
        self.assertIn(build.lanes(), range(1, len(os.sched_getaffinity(0)) + 1))

    def test_the_crate_in_work_is_found_among_all_that_was_started(self) -> None:
        prover = 'exec -a /kit/rattle sh -c "sleep 60; :" --crate-name lower'
        ran = subprocess.Popen(["bash", "-c", f"({prover}) & wait"], start_new_session=True)
        try:
            found, end = set(), time.monotonic() + 20
            while not found and time.monotonic() < end:
                found = build.in_work(ran.pid)
        finally:
            os.killpg(ran.pid, signal.SIGKILL)
            ran.wait()
        self.assertEqual(found, {"lower"})

    def test_the_table_has_most_of_the_crates(self) -> None:
        below = build.crates()
        self.assertEqual([*below][-1], "arachne")
        self.assertGreater(len(set(below) & set(build.table())), len(below) * 2 / 3)


class Builds(unittest.TestCase):
    def setUp(self) -> None:
        held = tempfile.TemporaryDirectory()
        self.addCleanup(held.cleanup)
        self.top = Path(held.name) / "repository"
        for name in ("lower", "upper", "arachne", "arachne_eval"):
            (self.top / "crates" / name / "src").mkdir(parents=True)
            (self.top / "crates" / name / "src/lib.rt").touch()
        shutil.copytree(TOP / "tests/help", self.top / "tests/help")
        (self.top / "crates.txt").write_text("lower:\nupper: lower\narachne may_wait=1: upper\narachne_eval: lower\nunused: lower\n")
        (self.top / "HANDLES").write_text("Handles allowed: Wait.\n")
        for name in ("scripts", "bench"):
            (self.top / name).mkdir()
        (self.top / "bench/GATE.md").write_text("| `lower` | 100 | 0 | 0 | 100 |\n")
        for name in ("arachne", "scripts/build", "scripts/below", "scripts/take", "scripts/words"):
            (self.top / name).write_bytes((TOP / name).read_bytes())
            (self.top / name).chmod(0o755)
        (self.top / "rt").write_text(FAKE)
        (self.top / "rt").chmod(0o755)

    def place(self, **more: str) -> dict[str, str]:
        """The environment, where `rt` is the one above."""
        paths = {"PATH": f"{self.top}:{os.environ['PATH']}", "SEEN": f"{self.top}/seen", "KEPT": f"{self.top}/kept"}
        return {**os.environ, **paths, "FAILS": "", "WAITS": "", "LOOK": "", **more}

    def call(self, *words: str, text: str = "", **more: str) -> subprocess.CompletedProcess[str]:
        """Runs a script of the repository."""
        how = {"input": text, "stdout": subprocess.PIPE, "stderr": subprocess.PIPE, "text": True}
        return subprocess.run([self.top / words[0], *words[1:]], env=self.place(**more), **how)

    def seen(self) -> list[str]:
        """What `rt` was called for."""
        return (self.top / "seen").read_text().splitlines()

    def test_it_proves_elsewhere_and_leaves_the_program(self) -> None:
        ran = self.call("scripts/build")
        self.assertEqual(ran.returncode, 0, ran.stderr)
        self.assertIn("arachne: lower is proved (1 of 3)", ran.stderr)
        self.assertTrue((self.top / "crates/arachne/out/.speed").exists(), "the next call counts from this one")
        self.assertTrue((self.top / "crates/arachne/out/arachne").exists())
        marked = self.top / "crates/arachne/out/.built"
        self.assertLess(marked.stat().st_mtime, (self.top / "seen").stat().st_mtime, "the mark has the begin's time")
        room = Path(self.seen()[0].removeprefix("ci "))
        self.assertNotEqual(room, self.top)
        self.assertFalse(room.exists())

    def test_what_is_kept_is_not_told_of_as_proved(self) -> None:
        (self.top / "kept").touch()
        ran = self.call("scripts/build")
        self.assertEqual((ran.returncode, ran.stderr.splitlines()[1:]), (0, ["arachne: built"]))

    def test_it_fails_as_the_gate_does(self) -> None:
        ran = self.call("scripts/build", FAILS="yes")
        self.assertEqual(ran.returncode, 1)
        self.assertIn("rt: arachne NOT PROVED", ran.stderr)
        self.assertFalse((self.top / "crates/arachne/out/.built").exists())
        Path(ran.stderr.split()[-1]).unlink()

    def begun(self, *words: str, **more: str) -> tuple[subprocess.Popen[bytes], int]:
        """A build whose `rt` waits for a process of its own, and that process."""
        waits = self.top / "waits"
        waits.unlink(missing_ok=True)
        # (what runs in the background, as by `nohup`, may have been started with these ignored)
        heed = lambda: [signal.signal(it, signal.SIG_DFL) for it in (signal.SIGINT, signal.SIGHUP)]
        how = {"stdin": subprocess.DEVNULL, "stderr": subprocess.DEVNULL, "preexec_fn": heed}
        ran = subprocess.Popen(words, cwd=self.top, env=self.place(WAITS=str(waits), **more), **how)
        while not waits.exists() or not waits.read_text().endswith("\n"):
            time.sleep(0.05)
        return ran, int(waits.read_text())

    def has_ended(self, process: int) -> bool:
        """A process ends within some seconds."""
        for _ in range(200):
            state = Path(f"/proc/{process}/stat")
            if not state.exists() or state.read_text().rpartition(")")[2].split()[0] == "Z":
                return True
            time.sleep(0.05)
        os.kill(process, signal.SIGKILL)
        return False

    def test_an_interrupt_ends_all_that_was_started(self) -> None:
        for sent in (signal.SIGTERM, signal.SIGINT, signal.SIGHUP):
            with self.subTest(sent=sent):
                ran, process = self.begun("scripts/build")
                ran.send_signal(sent)
                self.assertEqual(ran.wait(), 130)
                self.assertTrue(self.has_ended(process))
                self.assertFalse((self.top / "crates/arachne/out/.built").exists())

    def test_an_interrupt_while_the_proofs_are_started_ends_them(self) -> None:
        begin = subprocess.Popen

        def is_interrupted(*words: str, **how: Any) -> subprocess.Popen[str]:
            gate = begin(*words, **how)
            os.kill(os.getpid(), signal.SIGINT)
            return gate

        made = build.Build(str(self.top), "lower", build.Estimate({}, {}, 1, (1, 1)))
        self.addCleanup(signal.signal, signal.SIGINT, signal.signal(signal.SIGINT, signal.default_int_handler))
        with (
            mock.patch.dict(os.environ, self.place(WAITS=f"{self.top}/waits")),
            mock.patch.object(build.subprocess, "run"),
            mock.patch.object(build.subprocess, "Popen", is_interrupted),
            self.assertRaises(KeyboardInterrupt),
        ):
            made.start()
        self.assertTrue(made.gate)
        made.stop()
        self.assertEqual(made.gate.returncode, -signal.SIGTERM)

    def test_the_end_of_the_caller_ends_all_that_was_started(self) -> None:
        ran, process = self.begun("sh", "-c", "scripts/build & wait")
        ran.kill()
        ran.wait()
        self.assertTrue(self.has_ended(process))

    def test_a_call_that_resumes_makes_no_second_look(self) -> None:
        first = self.call("arachne", "run", FAILS="yes")
        self.assertEqual((first.returncode, first.stdout), (1, ""))
        self.assertIn("a first look, of a build that is not proved:\nvalue 5\n", first.stderr)
        Path(first.stderr.split()[-1]).unlink()
        second = self.call("arachne", "run")
        self.assertEqual((second.returncode, second.stdout), (0, "value 5\n"), second.stderr)
        self.assertEqual([it.split()[0] for it in self.seen()], ["try", "ci", "ci"])
        third = self.call("arachne", "run")
        self.assertEqual((third.returncode, third.stdout, third.stderr), (0, "value 5\n", ""))
        self.assertEqual(len(self.seen()), 3)
        (self.top / "crates/lower/src/lib.rt").write_text("changed")
        self.assertEqual(self.call("arachne", "--first-look", "run").returncode, 0)
        self.assertEqual([it.split()[0] for it in self.seen()], ["try", "ci", "ci", "try"])

    def test_a_look_that_differs_is_an_error_unless_it_lacked_memory(self) -> None:
        for fault, status in [("9 node 0", 3), ("30", 0)]:
            with self.subTest(fault):
                for it in ("built", "looked"):
                    (self.top / f"crates/arachne/out/.{it}").unlink(missing_ok=True)
                ran = self.call("arachne", "run", LOOK=fault)
                self.assertEqual(ran.returncode, status, ran.stderr)
                self.assertIn(f"a first look, of a build that is not proved:\nfault {fault}\n", ran.stderr)

    def test_what_the_gate_built_is_taken_unless_a_source_is_younger(self) -> None:
        crates, then = self.top / "crates", time.time() - 100
        for it in (self.top / "crates.txt", *crates.glob("*/src/lib.rt")):
            os.utime(it, (then, then))
        for it in ("lower", "upper"):
            (crates / it / "out").mkdir()
        time.sleep(1.1)
        (crates / "arachne/out").mkdir()
        for it in ("stdout", "out/stdout", "out/stdout.by-rattle"):
            (crates / "arachne" / it).write_text("value 5\n")
        program = crates / "arachne/out/arachne"
        program.write_text("#!/bin/sh\necho value 5\n")
        program.chmod(0o755)
        born = subprocess.run(["stat", "-c", "%W", program.parent], stdout=subprocess.PIPE, text=True, check=True).stdout
        if int(born) == 0:
            self.skipTest("this file system doesn't keep when a folder was made")
        ran = self.call("arachne", "run")
        self.assertEqual((ran.returncode, ran.stdout, ran.stderr), (0, "value 5\n", ""))
        # (changed once the proof of its crate had begun, and before that of the last one)
        os.utime(crates / "lower/src/lib.rt", (int(born) - 0.01, int(born) - 0.01))
        self.assertEqual(self.call("arachne", "run").returncode, 0)
        self.assertEqual([it.split()[0] for it in self.seen()], ["ci"])

    def test_what_needs_no_run_is_proved_by_itself_until_the_whole_program_is_built(self) -> None:
        for command in ("eval", "check", "policy"):
            ran = self.call("arachne", command)
            self.assertEqual((ran.returncode, ran.stdout), (0, "value 5\n"), ran.stderr)
        self.assertEqual([it.split()[0] for it in self.seen()], ["try", "ci"])
        self.assertTrue(self.seen()[0].endswith("/crates/arachne_eval"))
        self.assertEqual(self.call("arachne", "run").returncode, 0)
        self.assertEqual([it.split()[0] for it in self.seen()], ["try", "ci", "try", "ci"])
        (self.top / "crates/arachne_eval/out/.built").unlink()
        self.assertEqual(self.call("arachne", "eval").stdout, "value 5\n")
        self.assertEqual(len(self.seen()), 4, "the whole program has each command")

    def test_a_crate_of_runs_alone_leaves_the_others_built(self) -> None:
        self.assertEqual(self.call("arachne", "eval").returncode, 0)
        time.sleep(0.02)
        (self.top / "crates/upper/src/lib.rt").write_text("changed")
        self.assertEqual(self.call("arachne", "eval").stderr, "")

    def test_other_sources_get_a_look(self) -> None:
        Path(self.call("arachne", "run", FAILS="yes").stderr.split()[-1]).unlink()
        time.sleep(0.02)
        (self.top / "crates/lower/src/lib.rt").write_text("changed")
        self.assertIn("a first look", self.call("arachne", "run").stderr)


class Named(unittest.TestCase):
    """`./arachne --named`, over a program that says what it is to say."""

    def setUp(self) -> None:
        held = tempfile.TemporaryDirectory()
        self.addCleanup(held.cleanup)
        self.top = Path(held.name)
        (self.top / "crates/arachne/out").mkdir(parents=True)
        (self.top / "scripts").mkdir()
        (self.top / "crates.txt").write_text("arachne:\n")
        for name in ("arachne", "scripts/below", "scripts/explain", "scripts/named"):
            (self.top / name).write_bytes((TOP / name).read_bytes())
            (self.top / name).chmod(0o755)
        program = self.top / "crates/arachne/out/arachne"
        program.write_text('#!/bin/sh\ncat\n[ -z "$SAYS" ] || { echo "$SAYS" >&2; exit ${STATUS:-1}; }\n')
        program.chmod(0o755)
        (self.top / "crates/arachne/out/.built").touch()

    def call(self, text: str, says: str = "", status: int = 1, command: str = "run") -> tuple[int, str, str]:
        how = {"input": text, "text": True, "capture_output": True}
        room = self.top / "room"
        room.mkdir(exist_ok=True)
        place = {**os.environ, "SAYS": says, "STATUS": str(status), "TMPDIR": str(room)}
        ran = subprocess.run([self.top / "arachne", "--named", command], env=place, **how)
        self.assertEqual([*room.iterdir()], [], "nothing is left behind")
        return ran.returncode, ran.stdout, ran.stderr

    def test_the_program_reads_the_task_text(self) -> None:
        self.assertEqual(self.call("(add 1 2)"), (0, "arachne 1\nledgers 0\nlocks 0\n(add (num 1) (num 2))\n", ""))

    def test_a_slip_is_answered_by_the_translator_alone(self) -> None:
        self.assertEqual(self.call("(add 1 b)"), (1, "", "fault 8 at 7\n"))

    def test_a_fault_of_the_program_is_shown_in_the_named_text(self) -> None:
        text = "(lock l)\n(hold l\n  (hold l 1))"
        self.assertEqual(self.call(text, "fault 9 node 1")[::2], (1, f"fault 9 at {text.rindex('(hold')}\n"))
        self.assertEqual(self.call(text, "fault 35")[::2], (1, "fault 35\n"))
        self.assertEqual(self.call(text, "fault 26 order 0", 2), (2, "", "fault 26 order 0\n"))

    def test_samples_have_no_names(self) -> None:
        told = "error: 'policy' reads samples, and --named is for programs\n"
        self.assertEqual(self.call("1 1 1 1 1\n", command="policy"), (2, "", told))

    def test_a_terminal_gets_no_control_character_of_a_word(self) -> None:
        words = [self.top / "arachne", "\x1b]0;title\x07", self.top / "crates.txt", "--named"]
        place = {**os.environ, "SAYS": "error: \x1b]0;title\x07", "STATUS": "2"}
        ran, told = run_on_terminal(words, env=place, stdin=subprocess.DEVNULL)
        self.assertEqual(ran.returncode, 2)
        self.assertIn("crates.txt is a file", told)
        self.assertIn("--named stands before the command", told)
        self.assertTrue(all(" " <= it < "\x7f" or it in "\r\n" for it in told), repr(told))


if __name__ == "__main__":
    unittest.main()
