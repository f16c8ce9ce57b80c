#!/usr/bin/env python3
"""Tries .ci/run and tests/side_by_side.py with commands of its own in place of `rt` and of the tests: what the last line counts, the exit
status, limits, order, and that what two tests write is not mixed.
"""
import os
import pathlib
import shutil
import subprocess
import tempfile
import unittest

ROOT = pathlib.Path(__file__).resolve().parent.parent


class Gate(unittest.TestCase):
    def setUp(self):
        holder = tempfile.TemporaryDirectory()
        self.addCleanup(holder.cleanup)
        self.folder = pathlib.Path(holder.name)
        for name in (".ci/run", "tests/side_by_side.py"):
            (self.folder / name).parent.mkdir(exist_ok=True)
            shutil.copy(ROOT / name, self.folder / name)

    def gate(self, rt, *tests):
        """Exit status and lines of .ci/run, with this script as `rt` and these lines as the list."""
        program = self.folder / "rt"
        program.write_text(f"#!/bin/sh\n{rt}\n")
        program.chmod(0o755)
        (self.folder / "tests/gate.txt").write_text("".join(f"{test}\n" for test in tests))
        path = f"{self.folder}:{os.environ['PATH']}"
        done = subprocess.run(["bash", ".ci/run"], cwd=self.folder, env={**os.environ, "PATH": path}, text=True,
                              stdout=subprocess.PIPE, stderr=subprocess.STDOUT, check=False, timeout=60)
        return done.returncode, done.stdout.splitlines()

    def counts(self, last, rt, *tests):
        """The last line, and the exit status that belongs to it."""
        status, lines = self.gate(rt, *tests)
        self.assertEqual((lines[-1], status), (last, 0 if last.endswith(" 0 failed") else 1), lines)
        return lines

    def test_all_pass(self):
        self.counts("8 passed, 0 failed", "echo '5 passed, 0 failed'", "a 9 - true", "b 9 a true", "c 9 - true # a comment")

    def test_a_failing_test_is_counted(self):
        lines = self.counts("6 passed, 2 failed", "echo '5 passed, 0 failed'", "a 9 - false", "b 9 - true", "c 9 - echo no; exit 3")
        self.assertIn("test c: FAILED: exit status 3 (0 s)", lines)

    def test_nothing_runs_after_a_failed_rt(self):
        for said, last in (("3 passed, 1 failed", "3 passed, 1 failed"), ("3 passed, 0 failed", "3 passed, 1 failed"), ("no verdict", "0 passed, 1 failed")):
            lines = self.counts(last, f"echo '{said}'; exit 1", "a 9 - echo here")
            self.assertNotIn("here", lines)

    def test_rt_without_a_verdict(self):
        self.counts("0 passed, 1 failed", "echo fine", "a 9 - true")
        self.counts("0 passed, 1 failed", "kill -9 $$", "a 9 - true")

    def test_a_bad_edit_fails(self):
        line = "rt: ok; handles allowed: none; must-fail edits: 47 refused{}; done in this run: 3 of the 38 proofs"
        for bad, last in (("", "6 passed, 0 failed"), (", 1 of them only by a limit", "6 passed, 0 failed"), (", 2 bad", "5 passed, 1 failed"),
                          (", 1 of them only by a limit, 12 bad", "5 passed, 1 failed")):
            lines = self.counts(last, f"echo '{line.format(bad)}'; echo '5 passed, 0 failed'", "a 9 - echo here")
            self.assertEqual("here" in lines, last.endswith(" 0 failed"))

    def test_a_limit(self):
        lines = self.counts("5 passed, 1 failed", "echo '5 passed, 0 failed'", "a 1 - echo begun; sleep 30")
        self.assertEqual(lines[1:3], ["begun", "test a: FAILED: longer than 1 s (1 s)"])

    def test_what_waits_for_a_failed_test(self):
        lines = self.counts("5 passed, 2 failed", "echo '5 passed, 0 failed'", "a 9 - false", "b 9 a echo here")
        self.assertNotIn("here", lines)

    def test_a_bad_list(self):
        for tests in ((), ("a 9 b true", "b 9 - true"), ("a 9 - true", "a 9 - true"), ("a soon - true",), ("a 9 -",)):
            self.counts("5 passed, 1 failed", "echo '5 passed, 0 failed'", *tests)

    def test_two_at_a_time_and_not_mixed(self):
        one = "touch one; until [ -e two ]; do sleep 0.05; done; echo one; sleep 0.3; echo one"
        two = "touch two; until [ -e one ]; do sleep 0.05; done; echo two; sleep 0.3; echo two"
        lines = self.counts("7 passed, 0 failed", "echo '5 passed, 0 failed'", f"a 9 - {one}", f"b 9 - {two}")
        said = [line for line in lines if line in ("one", "two")]
        self.assertIn(said, (["one", "one", "two", "two"], ["two", "two", "one", "one"]))


if __name__ == "__main__":
    unittest.main()
