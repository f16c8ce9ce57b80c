"""Small clones in which tests/building.py and tests/installing.py try the scripts, with an rt of their own.

The archive is that in CETOMUHI_LIB_DIR, or target/staticlib/libcetomuhi.a; the C compiler is cc. SCRIPTS_ROOT
names another folder for the scripts, in which faults are planted.
"""
import os
import pathlib
import shutil
import signal
import subprocess
import tempfile
import time
import unittest

ROOT = pathlib.Path(__file__).resolve().parent.parent
LIBRARY = pathlib.Path(os.environ.get("CETOMUHI_LIB_DIR") or ROOT / "target/staticlib").resolve() / "libcetomuhi.a"
SCRIPTS = pathlib.Path(os.environ.get("SCRIPTS_ROOT") or ROOT)
LIMIT = 60  # seconds, also where the machine has much else to do
PROGRAMS = """as awk bash cat cc chmod cp dirname env find flock grep head ld mkdir mktemp mv readlink rm sed seq sh sha256sum sleep tail
touch true yes"""

# Prints its words, or standard input for the word `copy`, and ends with the number that the last word is.
DESK = r"""#include "words.h"
#include <cetomuhi.h>
#include <stdio.h>
#include <stdlib.h>
#include <string.h>
int main(int argc, char **argv) {
    if (argc > 1 && strcmp(argv[1], "copy") == 0) for (int c; (c = getchar()) != EOF;) putchar(c);
    else for (int k = 1; k < argc; k++) printf("%s%s%s\n", OPEN, argv[k], CLOSE);
    return argc > 1 ? atoi(argv[argc - 1]) : cetomuhi_version() == CETOMUHI_VERSION ? 0 : 1;
}
"""
WORDS = '#define OPEN "<"\n#define CLOSE ">"\n'
CHECK = '#include <stdio.h>\nint main(void) { puts(ARCHIVE_SHA256); return 0; }\n'

# An rt that writes what the real one does in a crate's folder: of each crate that it proves, those below first, where it begins,
# notes, a line for each function, and that it is proved.
RT = """#!/bin/sh
echo "${PWD##*/}: $*" >>"{stub}/runs"
while read -r crate; do
    echo "rt: chose --jobs 2 for $crate" >&2
    echo "proofs/Proof.antt:49:12: note: large solution, no error" >&2
    echo "fn $crate::first: proved" >&2
    echo "logic=proved functions=1" >&2
    echo "logic=proved functions=1" >&2
done <"{stub}/before"
. "{stub}/then"
"""
BEGIN = """echo 'rt: chose --jobs 2 for cetomuhi_c'
"""
ARCHIVE = BEGIN + """mkdir -p out
cp "{library}" out/libcetomuhi_c.a
echo 'logic=proved functions=12'
"""
# Half of the archive is there, and a process of rt's own runs, when the file `busy` is.
BUSY = """mkdir -p out
head -c 1000 "{library}" >out/libcetomuhi_c.a
sleep 60 &
echo $! $$ >"{stub}/half" && mv "{stub}/half" "{stub}/busy"
wait
"""
PROGRAM = """mkdir -p out
printf '#!/bin/sh\\n%s\\n' '{text}' >out/histories_list
chmod +x out/histories_list
echo "rt: chose --jobs 2 for histories_list" >&2
echo "logic=proved functions=1" >&2
out/histories_list || true
"""


def crates():
    """The listed crates, each with those that it names."""
    lines = [line.split("#")[0].split(":") for line in (ROOT / "crates.txt").read_text().splitlines()]
    return {line[0].split()[0]: line[1].split() for line in lines if len(line) == 2}


def in_turn(wanted):
    """The crates that a crate stands on, and itself, each behind those that it stands on."""
    found = []

    def visit(crate):
        for below in crates()[crate]:
            if below in crates() and below not in found:
                visit(below)
        found.append(crate)

    visit(wanted)
    return found


def closure(wanted):
    """The listed crates that a crate stands on, and itself."""
    listed = crates()
    reached = {wanted}
    while more := {below for crate in reached for below in listed[crate]} & listed.keys() - reached:
        reached |= more
    return reached


def programs(folder, *without):
    """A folder with the programs that the scripts, the stubs and the compiler use, but these; rt is none of them."""
    folder.mkdir()
    for name in set(PROGRAMS.split()) - set(without):
        if place := shutil.which(name):
            (folder / name).symlink_to(place)
    return folder


def runs(process):
    """Whether there is such a process; one that ended and is not waited for is none."""
    try:
        return pathlib.Path(f"/proc/{process}/stat").read_text().rsplit(")", 1)[1].split()[0] != "Z"
    except OSError:
        return False


class Clone(unittest.TestCase):
    """A small clone, and an rt that builds for it."""

    def setUp(self):
        self.assertTrue(LIBRARY.is_file(), f"{LIBRARY} is not there; tools/made cetomuhi builds it")
        holder = tempfile.TemporaryDirectory()
        self.addCleanup(holder.cleanup)
        self.folder = pathlib.Path(holder.name).resolve()
        self.root = self.folder / "the clone"
        self.stub = self.folder / "stub"
        self.tools = programs(self.folder / "programs")
        for name in ("tools/desk", "tools/check", "sessions", "docs"):
            (self.root / name).mkdir(parents=True)
        for name in ("cetomuhi-desk", "install-programs", "histories", "tools/building.sh", "tools/proving.sh"):
            shutil.copy(SCRIPTS / name, self.root / name)
        for name in ("crates.txt", "sessions/README.md", "tools/made"):
            shutil.copy(ROOT / name, self.root / name)
        shutil.copytree(ROOT / "include", self.root / "include")
        self.change("pause=0.2", "pause=0.02")
        for name in closure("cetomuhi_c") | closure("histories_list") | closure("console"):
            (self.root / "crates" / name / "src").mkdir(parents=True)
            (self.root / "crates" / name / "src/lib.rt").write_text("")
        for name, text in (("desk/main.c", DESK), ("desk/words.h", WORDS), ("check/main.c", CHECK)):
            (self.root / "tools" / name).write_text(text)
        (self.root / "sessions/one.hex").write_text("00 02 01\n")
        (self.root / "sessions/one.out").write_text("0 0 0\n")
        self.age(self.root)
        self.stub.mkdir()
        self.archive = self.root / "target/staticlib/libcetomuhi.a"
        self.program = self.root / "target/tools/cetomuhi-desk"
        self.plan()

    def change(self, old, new):
        """The copy of tools/building.sh with another number."""
        script = self.root / "tools/building.sh"
        text = script.read_text()
        self.assertEqual(text.count(old), 1)
        script.write_text(text.replace(old, new))

    def age(self, folder):
        """Files that were there for long."""
        for path in (folder, *folder.rglob("*")):
            os.utime(path, (1000, 1000))

    def plan(self, then=ARCHIVE, crate="cetomuhi_c", unchanged=0):
        """What rt does: the crates below, but the first of them, which are unchanged, then the rest."""
        before = in_turn(crate)[unchanged:-1]
        (self.stub / "before").write_text("".join(f"{name}\n" for name in before))
        (self.stub / "then").write_text(then.replace("{library}", str(LIBRARY)).replace("{stub}", str(self.stub)))
        (self.stub / "rt").write_text(RT.replace("{stub}", str(self.stub)))
        (self.stub / "rt").chmod(0o755)

    def environment(self, rt=True, tools=None, **changed):
        path = f"{self.stub}:{tools or self.tools}" if rt else str(tools or self.tools)
        kept = {name: value for name, value in os.environ.items() if name not in ("CETOMUHI_LIB_DIR", "CC", "CDPATH")}
        return {**kept, "PATH": path, "TMPDIR": str(self.folder), **changed}

    def run_script(self, script, *words, cwd=None, give=None, **changed):
        """Status, output and error text."""
        command = [str(script if "/" in str(script) else self.root / script), *map(str, words)]
        environment = self.environment(**changed)
        done = subprocess.run(command, cwd=cwd, env=environment, capture_output=True, check=False, text=True, timeout=LIMIT, input=give)
        return done.returncode, done.stdout, done.stderr

    def begin(self, script, *words, stdin=subprocess.DEVNULL, **changed):
        """Starts a script; whatever the test does, it ends."""
        process = subprocess.Popen(
            [str(self.root / script), *words],
            env=self.environment(**changed),
            stdout=subprocess.PIPE,
            stderr=subprocess.PIPE,
            stdin=stdin,
            text=True,
            start_new_session=True,
            preexec_fn=lambda: signal.signal(signal.SIGINT, signal.SIG_DFL),
        )
        self.addCleanup(self.end, process)
        return process

    def end(self, process):
        if process.poll() is None:
            process.terminate()
        process.communicate(timeout=LIMIT)

    def until(self, condition):
        end = time.monotonic() + LIMIT
        while not condition():
            self.assertLess(time.monotonic(), end, "nothing came of it")
            time.sleep(0.02)

    def busy(self):
        path = self.stub / "busy"
        self.until(path.exists)
        processes = [int(word) for word in path.read_text().split()]
        path.unlink()
        return processes

    def rt_runs(self):
        """The folder and the words of each run of rt."""
        path = self.stub / "runs"
        return path.read_text().splitlines() if path.exists() else []

    def works(self, script="cetomuhi-desk", *words, **changed):
        """What a run that ends well said on standard error."""
        status, output, error = self.run_script(script, *(words or ("a.hex", "0")), **changed)
        self.assertEqual((status, output), (0, "".join(f"<{word}>\n" for word in words or ("a.hex", "0"))), error)
        return error

    def nothing_left(self):
        """No mark, no half of a file, no temporary folder."""
        folders = [path for name in ("staticlib", "tools", "bin") for path in (self.root / "target" / name).glob("**/*")]
        known = {"libcetomuhi.a", "cetomuhi-desk", "histories_list"}
        self.assertEqual([path for path in folders if path.is_file() and path.name not in known], [])
        self.assertEqual(list(self.folder.glob("tmp.*")), [])
