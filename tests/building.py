#!/usr/bin/env python3
"""Tries how ./cetomuhi-desk builds: progress, what is old, how it is started, two at a time, interrupts."""
import os
import pty
import re
import shutil
import signal
import subprocess
import time
import unittest

from clone import ARCHIVE, BEGIN, BUSY, LIBRARY, LIMIT, Clone, closure, in_turn, programs, runs


class Progress(Clone):
    def told(self, error):
        """The numbers and the crates of the lines of progress."""
        return [(int(k), int(n), name) for k, n, name in re.findall(r"^desk: proved (\d+) of (\d+): (\w+) \(\d+ s so far\)$", error, re.M)]

    def test_a_line_a_crate(self):
        error = self.works()
        crates = closure("cetomuhi_c")
        self.assertEqual(len(crates), 21)
        log = self.root / "target/log/desk-build.log"
        first = error.splitlines()[0]
        for words in ("proving 21 crates", str(self.archive), "some minutes from nothing", str(log)):
            self.assertIn(words, first)
        expected = [(k, 21, name) for k, name in enumerate(in_turn("cetomuhi_c"), 1)]
        self.assertEqual(self.told(error), expected)
        self.assertEqual(len(error.splitlines()), 22)
        said = log.read_text()
        self.assertEqual(said.count(": note: "), 20)
        self.assertEqual(said.count("rt: "), 21)
        for word in ("note:", "rt:", "fn "):
            self.assertNotIn(word, error)
        self.assertEqual(self.rt_runs(), ["cetomuhi_c: lib"])
        self.nothing_left()

    def test_crates_that_are_proved_already(self):
        self.plan(ARCHIVE.replace("echo 'logic=", "printf 'logic='\nsleep 0.5\necho '"), unchanged=19)
        self.assertEqual(self.told(self.works()), [(20, 21, "cetomuhi"), (21, 21, "cetomuhi_c")])

    def test_a_long_silence(self):
        self.change("patience=60", "patience=1")
        self.plan(BEGIN + "sleep 1.5\n" + ARCHIVE)
        self.assertRegex(self.works(), r"desk: 20 of 21 are proved, the next is at work \(\d+ s so far\)\n")

    def test_minutes(self):
        said = f'. "{self.root}/tools/building.sh" desk; since=0; for SECONDS in 59 60 65 463; do so_far; echo; done'
        done = subprocess.run(["bash", "-uc", said], capture_output=True, check=True, text=True, timeout=LIMIT)
        self.assertEqual(done.stdout, "59 s so far\n1 min 00 s so far\n1 min 05 s so far\n7 min 43 s so far\n")

    def test_an_rt_that_fails(self):
        wrong = "for k in $(seq 30); do echo \"./proofs/Proof.antt:$k:1: error: expected\"; done\n"
        last = "rt: the library step did not build, so nothing above it was checked"
        self.plan(wrong + f"echo 'fn step::step: not proved'\necho '{last}'\nexit 1\n")
        for _ in range(2):
            status, output, error = self.run_script("cetomuhi-desk", "a.hex")
            self.assertEqual((status, output), (5, ""))
            shown = [line for line in error.splitlines() if line.startswith("desk:     ")]
            self.assertEqual(len(shown), 15)
            self.assertEqual(shown[0], "desk:     ./proofs/Proof.antt:18:1: error: expected")
            self.assertEqual(shown[-2:], ["desk:     fn step::step: not proved", f"desk:     {last}"])
            told = error.splitlines()[-1]
            self.assertIn("could not be built", told)
            self.assertIn(str(self.root / "target/log/desk-build.log"), told)
            self.assertFalse(self.archive.exists())
            self.nothing_left()
        self.assertEqual(len(self.rt_runs()), 2)

    def test_an_rt_that_says_nothing_that_tells(self):
        (self.stub / "rt").write_text("#!/bin/sh\necho Killed\nexit 137\n")
        status, _, error = self.run_script("cetomuhi-desk", "a.hex")
        self.assertEqual(status, 5)
        self.assertIn("desk:     Killed\n", error)

    def test_an_rt_that_makes_nothing(self):
        self.plan("mkdir -p out\n: >out/libcetomuhi_c.a\n")
        status, _, error = self.run_script("cetomuhi-desk", "a.hex")
        self.assertEqual(status, 5)
        self.assertIn("made no", error)


class Old(Clone):
    """What is old is built anew, once."""

    def test_no_rt_and_nothing_built(self):
        status, output, error = self.run_script("cetomuhi-desk", "a.hex", rt=False)
        self.assertEqual((status, output, len(error.splitlines())), (5, "", 1))
        for words in (f"desk: {self.archive} is not built", "rt", "./install-programs PREFIX", "copy PREFIX"):
            self.assertIn(words, error)

    def test_no_rt_and_old(self):
        self.works()
        self.age(self.root / "crates")
        self.assertEqual(self.works(rt=False), "")
        sources = [f"crates/{name}/src/lib.rt" for name in ("claims", "pages", "table")]
        for newest in sources:
            for source in sources:
                future = time.time() + (20 if source == newest else 10)
                os.utime(self.root / source, (future, future))
            error = self.works(rt=False)
            self.assertEqual(len(error.splitlines()), 1)
            self.assertIn(f"desk: {self.archive} is older than {newest}, and rt", error)

    def test_what_makes_it_old(self):
        self.works()
        self.assertEqual(self.works(), "")
        crates = self.root / "crates"
        for k, path in enumerate((crates / "table/src/lib.rt", crates / "table/src", self.root / "crates.txt"), 2):
            os.utime(path)
            self.assertIn("proved 21 of 21", self.works())
            self.assertEqual(self.works(), "", path)
            self.assertEqual(len(self.rt_runs()), k)
        (crates / "claims/specs").mkdir()
        self.assertIn("proved 21 of 21", self.works())
        self.assertEqual(self.works(), "")

    def test_what_does_not(self):
        self.works()
        (self.root / "docs/NEW.md").write_text("new")
        (self.root / "README.md").write_text("new")
        for name in ("session_rules", "histories_list", "console"):
            (self.root / "crates" / name).mkdir(exist_ok=True)
        os.utime(self.root / "crates/histories_list/src/lib.rt")
        os.utime(self.root / "crates/console/src/lib.rt")
        os.utime(self.root / "sessions/one.hex")
        self.assertEqual(self.works(), "")
        self.assertEqual(len(self.rt_runs()), 1)

    def test_a_source_that_changes_during_the_build(self):
        self.plan("sleep 0.1; touch ../table/src/lib.rt\n" + ARCHIVE)
        self.works()
        self.plan()
        self.assertIn("proved 21 of 21", self.works())
        self.assertEqual(self.works(), "")


class Started(Clone):
    """However the script is started, and what the program gets."""

    def test_through_links_and_from_elsewhere(self):
        self.works()
        other = self.folder / "other"
        other.mkdir()
        (other / "absolute").symlink_to(self.root / "cetomuhi-desk")
        (other / "relative").symlink_to("../the clone/cetomuhi-desk")
        (self.folder / "chain").symlink_to("other/relative")
        (self.folder / "folder").symlink_to("the clone")
        for script in (other / "absolute", other / "relative", self.folder / "chain", self.folder / "folder/cetomuhi-desk"):
            self.assertEqual(self.works(script, cwd="/"), "")
        self.assertEqual(self.works("./chain", cwd=self.folder), "")
        self.assertEqual(self.works("../chain", cwd=other), "")
        self.assertEqual(self.works("./cetomuhi-desk", cwd=self.root, CDPATH="/:/tmp"), "")
        (self.stub / "cetomuhi-desk").symlink_to(self.root / "cetomuhi-desk")
        done = subprocess.run(["cetomuhi-desk", "a", "0"], env=self.environment(), capture_output=True, check=False, text=True, timeout=LIMIT)
        self.assertEqual((done.returncode, done.stdout, done.stderr), (0, "<a>\n<0>\n", ""))
        self.assertEqual(len(self.rt_runs()), 1)

    def test_words_status_and_input(self):
        words = ("--map", "a b", "*", "", "$HOME", "-n", "4")
        status, output, error = self.run_script("cetomuhi-desk", *words)
        self.assertEqual((status, output), (4, "".join(f"<{word}>\n" for word in words)), error)
        self.assertEqual(self.run_script("cetomuhi-desk", "3"), (3, "<3>\n", ""))
        os.utime(self.root / "crates.txt")
        self.plan("cat >/dev/null\n" + ARCHIVE)
        status, output, error = self.run_script("cetomuhi-desk", "copy", give="from a pipe\n")
        self.assertEqual((status, output), (0, "from a pipe\n"))
        self.assertIn("proved 21 of 21", error)

    def test_another_archive(self):
        folder = str(LIBRARY.parent)
        self.assertEqual(self.works(CETOMUHI_LIB_DIR=folder), "")
        self.assertEqual(self.works(rt=False, CETOMUHI_LIB_DIR=folder), "")
        self.assertEqual(self.rt_runs(), [])
        self.assertFalse(self.program.exists())
        self.works()
        (self.folder / "libcetomuhi.a").write_text("none")
        status, output, _ = self.run_script("cetomuhi-desk", "a.hex", CETOMUHI_LIB_DIR=str(self.folder))
        self.assertEqual((status, output), (5, ""))
        missing = self.run_script("cetomuhi-desk", "a.hex", CETOMUHI_LIB_DIR="/nowhere")
        self.assertEqual(missing, (5, "", "desk: /nowhere/libcetomuhi.a is not there\n"))

    def test_help_with_nothing_built(self):
        for changed in ({}, {"rt": False}, {"CETOMUHI_LIB_DIR": "/nowhere"}):
            status, output, error = self.run_script("cetomuhi-desk", "--help", **changed)
            self.assertEqual((status, error), (0, ""))
            self.assertIn("usage: ./cetomuhi-desk FILE.hex", output)
            self.assertIn("rt", output)
        with open("/dev/full", "w", encoding="ascii") as full:
            command = [self.root / "cetomuhi-desk", "-h"]
            done = subprocess.run(command, stdout=full, stderr=subprocess.PIPE, check=False, env=self.environment(), timeout=LIMIT)
        self.assertEqual(done.returncode, 3)
        self.assertNotEqual(done.stderr, b"")
        self.assertEqual(self.rt_runs(), [])

    def test_help_is_the_programs(self):
        self.archive.parent.mkdir(parents=True)
        shutil.copy(LIBRARY, self.archive)
        self.age(self.archive.parent)
        os.utime(self.root / "crates.txt")
        self.assertEqual(self.run_script("cetomuhi-desk", "--help"), (0, "<--help>\n", ""))
        self.assertIn("usage: ./cetomuhi-desk", self.run_script("cetomuhi-desk", "--help", CC="no-cc")[1])
        self.assertEqual(self.rt_runs(), [])


class Compiled(Clone):
    def test_no_compiler(self):
        status, output, error = self.run_script("cetomuhi-desk", "a.hex", CC="no-cc", CETOMUHI_LIB_DIR=str(LIBRARY.parent))
        self.assertEqual((status, output, len(error.splitlines())), (5, "", 1))
        self.assertIn("C compiler", error)
        self.assertIn("no-cc is not found", error)
        self.assertEqual(self.run_script("cetomuhi-desk", "a.hex", CC="no-cc"), (5, "", error))
        self.assertEqual(self.rt_runs(), [])
        self.works()
        self.assertEqual(self.works(CC="no-cc"), "")

    def test_a_compiler_of_two_words(self):
        self.assertEqual(self.works(CC="env cc", CETOMUHI_LIB_DIR=str(LIBRARY.parent)), "")

    def test_an_error_in_a_source(self):
        self.works()
        before = self.program.read_bytes()
        (self.root / "tools/desk/main.c").write_text("int main(void) { return none; }\n")
        status, output, error = self.run_script("cetomuhi-desk", "a.hex")
        self.assertEqual((status, output), (5, ""))
        self.assertRegex(error, r"desk:     .*main.c:1:\d+: error: .none. undeclared")
        self.assertEqual(self.program.read_bytes(), before)
        self.nothing_left()

    # Times in seconds from the epoch: all parts at 1000, the program at 2000, then one part at 3000.
    def test_a_part_that_is_newer(self):
        self.works()
        tools = self.root / "tools/desk"
        parts = [tools, tools / "main.c", tools / "words.h", self.root / "include/cetomuhi.h", self.archive]
        for newer in (None, *parts):
            self.age(self.root)
            os.utime(self.program, (2000, 2000))
            if newer:
                os.utime(newer, (3000, 3000))
            self.assertEqual(self.works(), "")
            self.assertEqual(self.program.stat().st_mtime != 2000, newer is not None, newer)
        self.assertEqual(len(self.rt_runs()), 1)


    def test_a_source_that_changes_while_it_is_compiled(self):
        compiler = self.stub / "slow-cc"
        compiler.write_text(f'#!/bin/sh\nsleep 0.1\ntouch "{self.root}/tools/desk/words.h"\nsleep 0.1\nexec cc "$@"\n')
        compiler.chmod(0o755)
        self.works(CC="slow-cc")
        for anew in (True, False):
            before = self.program.stat().st_ino
            self.assertEqual(self.works(), "")
            self.assertEqual(self.program.stat().st_ino != before, anew)

    def test_a_program_that_cannot_be_run(self):
        self.works()
        self.program.write_bytes(b"\x7fELF\0\0")
        status, output, error = self.run_script("cetomuhi-desk", "a.hex")
        self.assertEqual((status, output), (5, ""))
        self.assertEqual(error.splitlines()[-1], f"desk: {self.program} cannot be run")


class Together(Clone):
    """Two at the same time, and interrupts."""

    # Half of the archive is there, and rt goes on when it may.
    HELD = """mkdir -p out
head -c 1000 "{library}" >out/libcetomuhi_c.a
echo $$ >"{stub}/half" && mv "{stub}/half" "{stub}/busy"
for _ in $(seq 1200); do [ -e "{stub}/go" ] || sleep 0.05; done
"""

    def held(self, then=ARCHIVE):
        """A script whose rt is held, and another that waits for it."""
        self.plan(self.HELD + then)
        first = self.begin("cetomuhi-desk", "a", "0")
        self.until((self.stub / "busy").exists)
        second = self.begin("cetomuhi-desk", "b", "0")
        self.assertIn("waits for another build", second.stderr.readline())
        return first, second

    def test_two_at_the_same_time(self):
        both = self.held()
        self.archive.write_text("half")
        self.assertIn("is not built", self.run_script("cetomuhi-desk", "a.hex", rt=False)[2])
        (self.stub / "go").touch()
        said = [process.communicate(timeout=LIMIT) for process in both]
        self.assertEqual([output for output, _ in said], ["<a>\n<0>\n", "<b>\n<0>\n"], said)
        self.assertIn("proved 21 of 21", said[0][1])
        self.assertEqual(said[1][1], "")
        self.assertEqual(len(self.rt_runs()), 1)
        self.nothing_left()

    def test_many_from_nothing(self):
        many = [self.begin("cetomuhi-desk", str(k), "0") for k in range(4)]
        said = [process.communicate(timeout=LIMIT) for process in many]
        self.assertEqual([output for output, _ in said], [f"<{k}>\n<0>\n" for k in range(4)], said)
        self.assertEqual(len(self.rt_runs()), 1)
        self.nothing_left()

    def test_a_program_that_still_runs(self):
        process = self.begin("cetomuhi-desk", "copy", stdin=subprocess.PIPE)
        self.until(lambda: os.readlink(f"/proc/{process.pid}/exe").endswith("cetomuhi-desk"))
        os.utime(self.root / "crates.txt")
        error = self.works()
        self.assertIn("proved 21 of 21", error)
        self.assertNotIn("waits", error)
        self.assertEqual(process.communicate("late\n", timeout=LIMIT)[0], "late\n")

    def test_no_flock(self):
        self.assertIn("proved 21 of 21", self.works(tools=programs(self.folder / "few", "flock")))

    def test_interrupts(self):
        for number, send in ((signal.SIGINT, os.killpg), (signal.SIGTERM, os.kill), (signal.SIGHUP, os.kill)):
            self.plan(BUSY)
            process = self.begin("cetomuhi-desk", "a.hex")
            children = self.busy()
            self.assertTrue(all(map(runs, children)))
            send(process.pid, number)
            output, error = process.communicate(timeout=LIMIT)
            self.assertEqual((process.returncode, output), (-number, ""), error)
            self.assertTrue(error.endswith("desk: interrupted\n"))
            self.assertFalse(any(map(runs, children)))
            self.assertFalse(self.archive.exists())
            self.nothing_left()
        self.plan()
        self.assertIn("proved 21 of 21", self.works())

    def at_a_terminal(self, *words):
        """Starts ./cetomuhi-desk at a terminal of its own."""
        process, terminal = pty.fork()
        if process == 0:
            os.execve(self.root / "cetomuhi-desk", ["cetomuhi-desk", *words], self.environment())
        self.addCleanup(os.close, terminal)
        return process, terminal

    def ended(self, process):
        """The status of a process, within the limit."""
        found = (0, 0)

        def over():
            nonlocal found
            found = os.waitpid(process, os.WNOHANG)
            return found[0] != 0

        self.until(over)
        return os.waitstatus_to_exitcode(found[1])

    def test_at_a_terminal(self):
        self.plan(BUSY)
        process, terminal = self.at_a_terminal("copy")
        children = self.busy()
        os.write(terminal, b"\x03")
        self.assertEqual(self.ended(process), -signal.SIGINT)
        self.assertFalse(any(map(runs, children)))
        self.nothing_left()
        self.plan()
        process, terminal = self.at_a_terminal("copy")
        os.write(terminal, b"typed\n\x04")
        self.assertEqual(self.ended(process), 0)
        self.assertEqual(os.read(terminal, 65536).count(b"typed"), 2)

    def test_an_interrupt_while_it_waits(self):
        first, second = self.held()
        second.terminate()
        second.communicate(timeout=LIMIT)
        self.assertEqual(second.returncode, -signal.SIGTERM)
        self.assertIsNone(first.poll())
        (self.stub / "go").touch()
        self.assertEqual(first.communicate(timeout=LIMIT)[0], "<a>\n<0>\n")

    def test_an_interrupt_of_the_compiler(self):
        compiler = self.stub / "slow-cc"
        compiler.write_text(f'#!/bin/sh\nfor out; do :; done\necho half >"$out"\nsleep 60 &\necho $! $$ >"{self.stub}/busy"\nwait\n')
        compiler.chmod(0o755)
        process = self.begin("cetomuhi-desk", "a.hex", CC="slow-cc")
        self.until(lambda: (self.stub / "busy").exists() and (self.stub / "busy").read_text().endswith("\n"))
        children = self.busy()
        process.terminate()
        process.communicate(timeout=LIMIT)
        self.assertEqual(process.returncode, -signal.SIGTERM)
        self.assertFalse(any(map(runs, children)))
        self.assertFalse(self.program.exists())
        self.nothing_left()
        self.works()

    def test_a_script_that_is_killed(self):
        first, second = self.held("")
        first.kill()
        self.assertTrue(all(map(runs, self.busy())))
        self.plan("exit 1\n")
        (self.stub / "go").touch()
        second.communicate(timeout=LIMIT)
        self.assertEqual(second.returncode, 5)
        self.assertFalse(self.archive.exists())
        self.plan()
        self.assertIn("proved 21 of 21", self.works())
        self.assertEqual(self.archive.read_bytes(), LIBRARY.read_bytes())
        self.nothing_left()


if __name__ == "__main__":
    unittest.main()
