#!/usr/bin/env python3
"""Tries ./install-programs and ./histories: what they write, and what they say where that cannot be."""
import hashlib
import os
import re
import shutil
import signal
import stat
import subprocess
import unittest

from clone import BUSY, LIBRARY, LIMIT, PROGRAM, Clone, closure, runs


class Installed(Clone):
    FILES = {
        "lib/libcetomuhi.a": 0o644,
        "lib/pkgconfig/cetomuhi.pc": 0o644,
        "include/cetomuhi.h": 0o644,
        "bin/cetomuhi-check": 0o755,
        "bin/cetomuhi-desk": 0o755,
        "share/cetomuhi/sessions/one.hex": 0o644,
        "share/cetomuhi/sessions/README.md": 0o644,
    }

    def setUp(self):
        super().setUp()
        self.prefix = self.folder / "prefix with blanks"

    def found(self, prefix):
        paths = [path for path in prefix.rglob("*") if not path.is_dir()]
        return {str(path.relative_to(prefix)): stat.S_IMODE(path.stat().st_mode) for path in paths}

    def install(self, *words, **changed):
        return self.run_script("install-programs", *words, **{"CETOMUHI_LIB_DIR": str(LIBRARY.parent), **changed})

    def loses(self, word):
        """Lost output is told, and no success."""
        command = [self.root / "install-programs", word]
        with open("/dev/full", "w", encoding="ascii") as full:
            done = subprocess.run(command, stdout=full, stderr=subprocess.PIPE, check=False, env=self.environment(), timeout=LIMIT)
        self.assertEqual((done.returncode, done.stderr.count(b"\n")), (3, 1))

    def check_programs(self, prefix):
        total = hashlib.sha256(LIBRARY.read_bytes()).hexdigest()
        for (name, *words), expected in ((("cetomuhi-check",), f"{total}\n"), (("cetomuhi-desk", "0"), "<0>\n")):
            command = [prefix / "bin" / name, *words]
            done = subprocess.run(command, env={}, cwd="/", capture_output=True, check=False, text=True, timeout=LIMIT)
            self.assertEqual((done.returncode, done.stdout, done.stderr), (0, expected, ""))

    def test_all_files(self):
        previous = os.umask(0o077)
        self.addCleanup(os.umask, previous)
        for name in ("include/cetomuhi.h", "sessions/one.hex"):
            (self.root / name).chmod(0o600)
        status, output, error = self.install(self.prefix, CETOMUHI_LIB_DIR="")
        self.assertEqual(status, 0, error)
        self.assertIn("install: proved 21 of 21: cetomuhi_c", error)
        self.assertIn(f"installed under {self.prefix}", output)
        for file in self.FILES:
            self.assertIn(file if not file.startswith("share") else "share/cetomuhi/sessions", output)
        following = output.splitlines()[-1].removeprefix("next: ")
        done = subprocess.run(["sh", "-c", following], capture_output=True, check=False, timeout=LIMIT)
        self.assertEqual(done.returncode, 0)
        self.assertEqual(self.found(self.prefix), self.FILES)
        folders = [path for path in (self.prefix, *self.prefix.rglob("*")) if path.is_dir()]
        self.assertEqual({stat.S_IMODE(path.stat().st_mode) for path in folders}, {0o755})
        self.assertEqual((self.prefix / "lib/libcetomuhi.a").read_bytes(), LIBRARY.read_bytes())
        version = re.search(r"#define CETOMUHI_VERSION (\d+)", (self.root / "include/cetomuhi.h").read_text())[1]
        self.assertIn(f"Version: {version}\n", (self.prefix / "lib/pkgconfig/cetomuhi.pc").read_text())
        self.check_programs(self.prefix)
        self.loses(self.prefix)
        other = shutil.copytree(self.prefix, self.folder / "copied")
        shutil.rmtree(self.prefix)
        self.check_programs(other)

    def test_again_and_relative(self):
        (self.root / "a/b").mkdir(parents=True)
        for _ in range(2):
            status, _, error = self.install("a/b", cwd=self.folder, CDPATH=str(self.root))
            self.assertEqual((status, error), (0, ""))
            self.assertEqual(self.found(self.folder / "a/b"), self.FILES)
        self.assertEqual(self.rt_runs(), [])

    def refused(self, expected, *words, **changed):
        status, output, error = self.install(*words, **changed)
        self.assertEqual((status, output, len(error.splitlines())), (expected, "", 1), error)
        self.assertTrue(error.startswith("install: "))
        return error

    def test_words_that_are_wrong(self):
        for words in ((), ("",), ("--what",), ("a", "b")):
            self.assertEqual(self.refused(2, *words), "install: usage: ./install-programs PREFIX\n")
        status, output, error = self.install("--help")
        self.assertEqual((status, error), (0, ""))
        for file in ("usage: ./install-programs PREFIX", *list(self.FILES)[:5], "share/cetomuhi/sessions"):
            self.assertIn(file, output)
        self.loses("--help")

    def test_a_prefix_that_is_none(self):
        file = self.folder / "file"
        file.write_text("")
        for prefix in (file, file / "prefix", "/proc/self/prefix"):
            self.assertIn(str(prefix), self.refused(2, prefix))

    def test_a_place_that_is_taken(self):
        self.assertEqual(self.install(self.prefix)[0], 0)
        (self.root / "sessions/one.hex").write_text("00 01 01\n")
        desk = self.prefix / "bin/cetomuhi-desk"
        desk.unlink()
        desk.mkdir()
        self.assertIn(f"{desk} could not be written", self.refused(3, self.prefix))
        desk.rmdir()
        shutil.rmtree(self.prefix / "share/cetomuhi")
        (self.prefix / "share/cetomuhi").write_text("")
        self.assertIn("share/cetomuhi/sessions/one.hex could not be written", self.refused(3, self.prefix))
        self.assertEqual(set(self.found(self.prefix)), {*list(self.FILES)[:4], "share/cetomuhi"})

    def test_what_is_missing(self):
        self.assertIn("/nowhere/libcetomuhi.a is not there", self.refused(5, self.prefix, CETOMUHI_LIB_DIR="/nowhere"))
        self.assertIn("rt, which builds it", self.refused(5, self.prefix, CETOMUHI_LIB_DIR="", rt=False))
        self.assertIn("no-cc is not found", self.refused(5, self.prefix, CC="no-cc"))
        (self.root / "sessions/README.md").unlink()
        self.assertIn("sessions/README.md is missing", self.refused(5, self.prefix))
        (self.root / "tools/check/main.c").write_text("wrong")
        status, output, error = self.install(self.prefix)
        self.assertEqual((status, output), (5, ""))
        self.assertIn("tools/check could not be compiled", error)
        self.assertEqual(self.found(self.prefix), {})
        self.assertEqual(list(self.prefix.iterdir()), [])

    def test_an_interrupt(self):
        self.plan(BUSY)
        process = self.begin("install-programs", str(self.prefix))
        children = self.busy()
        process.terminate()
        output, _ = process.communicate(timeout=LIMIT)
        self.assertEqual((process.returncode, output), (-signal.SIGTERM, ""))
        self.assertFalse(any(map(runs, children)))
        self.assertEqual(list(self.prefix.iterdir()), [])
        self.nothing_left()


class Histories(Clone):
    LINES = "\n0A0000\n010000000A0000\n"

    def setUp(self):
        super().setUp()
        self.play('printf "\\n0A0000\\n010000000A0000\\n"')

    def play(self, text):
        """The program that rt makes runs this."""
        self.plan(PROGRAM.replace("{text}", text), "histories_list")
        shutil.rmtree(self.root / "target", ignore_errors=True)

    def to(self, words):
        """Status and error text of ./histories with standard output as a shell says."""
        command = ["bash", "-c", f'"$0" {words}', str(self.root / "histories")]
        done = subprocess.run(command, env=self.environment(), capture_output=True, check=False, text=True, timeout=LIMIT)
        self.assertEqual(done.stdout, "")
        return done.returncode, done.stderr

    def test_every_line(self):
        status, output, error = self.run_script("histories")
        self.assertEqual((status, output), (0, self.LINES), error)
        total = len(closure("histories_list"))
        self.assertIn(f"histories: proved {total} of {total}: histories_list", error)
        self.assertEqual(self.rt_runs(), ["histories_list: run"])
        self.assertEqual(self.run_script("histories"), (0, self.LINES, ""))
        self.assertEqual(self.run_script("histories", rt=False), (0, self.LINES, ""))
        os.utime(self.root / "crates/short_histories/src/lib.rt")
        self.assertIn("is older than crates/short_histories/src/lib.rt", self.run_script("histories", rt=False)[2])
        self.nothing_left()

    def test_a_program_that_is_gone(self):
        self.run_script("histories")
        (self.root / "target/bin/histories_list").unlink()
        self.assertEqual(self.run_script("histories")[:2], (0, self.LINES))

    def test_lost_output(self):
        self.run_script("histories")
        for words in (">/dev/full", ">&-", "--help >/dev/full", "--help >&-"):
            status, error = self.to(words)
            self.assertEqual((status, error.count("\n")), (3, 1), words)
            self.assertTrue(error.startswith("histories: standard output"), error)
        self.play("yes | head -n 100000")
        self.run_script("histories")
        self.assertEqual(self.to("| true; exit ${PIPESTATUS[0]}"), (3, ""))
        self.nothing_left()

    def test_a_program_that_fails(self):
        for text in ("echo a; echo lost >&2", ":", "echo a; exit 1", "echo a; kill -9 $$"):
            self.play(text)
            status, output, error = self.run_script("histories")
            self.assertEqual((status, output), (5, ""), text)
            self.assertIn("target/bin/histories_list failed", error.splitlines()[-1])
            self.nothing_left()

    def test_words_and_no_rt(self):
        status, output, error = self.run_script("histories", "--help")
        self.assertEqual((status, error), (0, ""))
        self.assertIn("usage: ./histories", output)
        for word in ("--all", "3", ""):
            self.assertEqual(self.run_script("histories", word), (2, "", f"histories: {word}: there are no words but --help\n"))
        status, output, error = self.run_script("histories", rt=False)
        self.assertEqual((status, output, len(error.splitlines())), (5, "", 1))
        self.assertIn("rt, which builds it, is not found", error)
        self.assertEqual(self.rt_runs(), [])


if __name__ == "__main__":
    unittest.main()
