#!/usr/bin/env python3
"""Tries cetomuhi-check: what it prints and records, its exit statuses, and libraries that do not answer as they should.

The library is libcetomuhi.a in the folder that CETOMUHI_LIB_DIR names, or in target/staticlib.
"""

import datetime
import hashlib
import os
import pathlib
import re
import resource
import shutil
import signal
import subprocess
import tempfile
import time
import unittest

ROOT = pathlib.Path(__file__).resolve().parent.parent
ARCHIVE = pathlib.Path(os.environ.get("CETOMUHI_LIB_DIR") or ROOT / "target/staticlib").resolve() / "libcetomuhi.a"
SOURCES = sorted(map(str, ROOT.glob("tools/check/*.c")))
NAMES = [
    "lent-once", "crosses-over", "survivor", "nothing-lost", "take-masked", "claims", "takers", "load-filtered", "maps",
    "page-cost", "answered",
]  # fmt: skip
# The first four are the customer's checklist, word for word.
CHECKLIST = [
    "Take one range twice. Catches a range lent to two houses.",
    "Unmap an expander's page, give its frame to someone else, read it. Catches headwords that cross over.",
    "Start a revocation, go on storing old capabilities behind the sweep, collect. Catches a survivor.",
    "Fill the table, merge, split again. Catches an entry lost for good.",
]
QUICK = ("--seed", "3", "--orders", "10")
LIMIT = 60  # seconds for any one program, also where the machine has much else to do

# The twelve functions, none of which is the library's: WHEN_CALLED is what a start and a command do.
STUB = """
#include <cetomuhi.h>
#include <stdlib.h>
#define SIZES const uint16_t *n, size_t nl, const uint64_t *w, size_t wl, const uint8_t *m, size_t ml, const uint64_t *a, \\
    size_t al, const uint8_t *f, size_t fl, const uint64_t *r, size_t rl, const uint16_t *p, size_t pl, const uint8_t *fr, \\
    size_t frl, const uint64_t *pr, size_t prl, const uint16_t *c, size_t cl
#define STATE uint16_t *n, size_t nl, uint64_t *w, size_t wl, uint8_t *m, size_t ml, uint64_t *a, size_t al, uint8_t *f, \\
    size_t fl, uint64_t *r, size_t rl, uint16_t *p, size_t pl, uint8_t *fr, size_t frl, uint64_t *pr, size_t prl, uint16_t *c, \\
    size_t cl
#define LENT uint64_t *cells, size_t cells_len, uint8_t *tags, size_t tags_len, const uint8_t *input, size_t input_len
uint8_t cetomuhi_start(uint64_t v, uint64_t frames, STATE) { WHEN_CALLED; return 1; }
bool cetomuhi_well_formed(SIZES) { return false; }
uint8_t cetomuhi_page_cost(SIZES, uint64_t page, uint64_t *share, uint64_t *rest) { *share = *rest = 0; return 1; }
uint8_t cetomuhi_sharing(const uint64_t *r, size_t rl, uint64_t f, uint64_t c, uint16_t *b, size_t bl, uint64_t *n) { return 25; }
uint8_t cetomuhi_within(const uint64_t *r, size_t rl, uint64_t f, uint64_t c, uint16_t *b, size_t bl, uint64_t *n) { return 25; }
uint8_t cetomuhi_nearest(const uint64_t *r, size_t rl, uint64_t l, uint64_t c, uint64_t *f, uint64_t *b) { return 25; }
size_t cetomuhi_command(STATE, LENT, size_t at, uint64_t *answers, size_t room) { WHEN_CALLED; answers[0] = 1; return 1; }
size_t cetomuhi_commands(STATE, LENT, size_t *at, uint64_t *answers, size_t room) { return 0; }
size_t cetomuhi_write(const uint64_t *numbers, size_t length, uint8_t *out, size_t room) { return 0; }
size_t cetomuhi_read(const uint8_t *input, size_t length, size_t at, uint64_t *numbers, size_t room) { return 0; }
uint64_t cetomuhi_version(void) { return CETOMUHI_VERSION; }
size_t cetomuhi_size(uint64_t which) {
    static const size_t sizes[] = {6, 64, 64, 8, 8, 64, 256, 128, 32, 8192, 4, 7};
    return which < 12 ? sizes[which] : 0;
}
"""

# The library, but for commands of some kinds after so many calls: they are answered as REFUSED says. If that is 0, a refused
# one spoils a cell of lent memory; if it is below 0, the program ends.
AROUND = """
#include <cetomuhi.h>
#include <stdlib.h>
#define STATE uint16_t *n, size_t nl, uint64_t *w, size_t wl, uint8_t *m, size_t ml, uint64_t *a, size_t al, uint8_t *f, \\
    size_t fl, uint64_t *r, size_t rl, uint16_t *p, size_t pl, uint8_t *fr, size_t frl, uint64_t *pr, size_t prl, uint16_t *c, \\
    size_t cl, uint64_t *cells, size_t cells_len, uint8_t *tags, size_t tags_len, const uint8_t *input, size_t input_len, \\
    size_t at, uint64_t *answers, size_t room
#define GIVEN n, nl, w, wl, m, ml, a, al, f, fl, r, rl, p, pl, fr, frl, pr, prl, c, cl, cells, cells_len, tags, tags_len, input, \\
    input_len, at, answers, room
size_t __real_cetomuhi_command(STATE);
size_t __wrap_cetomuhi_command(STATE) {
    static unsigned long calls;
    const uint8_t kind = input[at];
    const size_t lengths[] = {[0x02] = 6, [0x12] = 7, [0x13] = 4};
    if (++calls > AFTER && (KINDS) && REFUSED > 0) {
        answers[0] = REFUSED;
        answers[1] = answers[2] = 0;
        answers[3] = lengths[kind];
        return 1;
    }
    if (calls > AFTER && REFUSED < 0)
        abort();
    const size_t done = __real_cetomuhi_command(GIVEN);
    if (calls > AFTER && REFUSED == 0 && answers[0] > 3)
        cells[0] ^= 1;
    return done;
}
"""

# Sums of some bytes by tools/check/sha256.c: each line of the input is how many letters a.
SUMS = """
#include "sha256.h"
#include <stdlib.h>
int main(void) {
    char digits[SHA256_DIGITS + 1];
    for (int length = 0; length < 200; length++) {
        sha256 sum;
        sha256_begin(&sum);
        for (int i = 0; i < length; i++)
            sha256_add(&sum, "a", 1);
        sha256_end(&sum, digits);
        puts(digits);
    }
    sha256_of_file(stdin, digits);
    puts(digits);
    return 0;
}
"""


def compile_c(*words):
    subprocess.run(["cc", "-std=c11", f"-I{ROOT / 'include'}", *map(str, words)], check=True, timeout=LIMIT)


def setUpModule():
    """An installation with the program as it is built for one, and the program's parts to link with other libraries."""
    global WORK, PREFIX, PROGRAM, SUM
    holder = tempfile.TemporaryDirectory()
    unittest.addModuleCleanup(holder.cleanup)
    WORK = pathlib.Path(holder.name).resolve()
    unittest.addModuleCleanup(end_leftovers)
    PREFIX = WORK / "site"
    PROGRAM = PREFIX / "bin/cetomuhi-check"
    SUM = hashlib.sha256(ARCHIVE.read_bytes()).hexdigest()
    for name in ("bin", "lib"):
        (PREFIX / name).mkdir(parents=True)
    shutil.copy(ARCHIVE, PREFIX / "lib/libcetomuhi.a")
    compile_c("-O2", f'-DARCHIVE_SHA256="{SUM}"', *SOURCES, ARCHIVE, "-o", PROGRAM)
    parts = WORK / "parts"
    parts.mkdir()
    subprocess.run(["cc", "-std=c11", f"-I{ROOT / 'include'}", "-c", *SOURCES], cwd=parts, check=True, timeout=LIMIT)


def linked(name, text, *words):
    """The program, linked with these lines of C and what the words name."""
    source = WORK / f"{name}.c"
    source.write_text(text)
    program = WORK / name
    compile_c("-w", source, *WORK.glob("parts/*.o"), *words, "-o", program)
    return program


def around(name, kinds, after, refused):
    """The program with the library and a fault around it."""
    text = f"#define KINDS {kinds}\n#define AFTER {after}\n#define REFUSED {refused}\n{AROUND}"
    return linked(name, text, ARCHIVE, "-Wl,--wrap=cetomuhi_command")


def run(*words, program=None, **changed):
    """Exit status, output and error text."""
    command = [str(program or PROGRAM), *map(str, words)]
    done = subprocess.run(command, capture_output=True, text=True, check=False, timeout=LIMIT, env={}, cwd="/", **changed)
    return done.returncode, done.stdout, done.stderr


def results(text):
    """The verdicts by name, and for each the sentence behind it, unfolded."""
    found = re.findall(r"^    (PASS|FAIL)  (\S+)  (.*(?:\n {10}\S.*)*)", text, re.MULTILINE)
    return {name: (verdict, re.sub(r"\s+", " ", sentence)) for verdict, name, sentence in found}


def closing(text):
    """The closing sentence, unfolded."""
    return re.sub(r"\s+", " ", text[text.index("\ncetomuhi-check: ") :]).strip()


def processes(program):
    """The numbers of those that run the program, which is in a folder of this test's own."""
    found = []
    for entry in pathlib.Path("/proc").glob("[0-9]*"):
        try:
            if os.readlink(entry / "exe") == str(program):
                found.append(int(entry.name))
        except OSError:
            pass
    return found


def end_leftovers():
    """What a test that failed has left running."""
    for program in [PROGRAM, *WORK.iterdir()]:
        for number in processes(program):
            os.kill(number, signal.SIGKILL)


def seconds_used():
    """Of the processor, by the programs that have ended."""
    used = resource.getrusage(resource.RUSAGE_CHILDREN)
    return used.ru_utime + used.ru_stime


def wait_for(claim):
    """Whether the claim comes to hold in time."""
    end = time.monotonic() + LIMIT
    while not claim() and time.monotonic() < end:
        time.sleep(0.01)
    return claim()


class Verdicts(unittest.TestCase):
    """The library that is installed."""

    def test_all_pass_with_nothing_around(self):
        before = seconds_used()
        status, output, error = run()
        self.assertLess(seconds_used() - before, 10)
        self.assertEqual((status, error), (0, ""), output)
        found = results(output)
        self.assertEqual(list(found), NAMES)
        self.assertEqual({verdict for verdict, _ in found.values()}, {"PASS"})
        for name, (_, sentence) in found.items():
            self.assertNotRegex(sentence, r"(^| )0 ", name)
        plain = re.sub(r"\s+", " ", output)
        for number, (name, sentence) in enumerate(zip(NAMES, CHECKLIST), 1):
            self.assertIn(f" {number} {name}: {sentence} ", f" {plain}")
        seed = re.search(r"\(seed (\d+)\)", plain)[1]
        self.assertEqual(closing(output), f"cetomuhi-check: all 11 checks PASS: version 5, archive sha256 {SUM}, seed {seed}")
        self.assertLessEqual(max(map(len, output.splitlines())), 80)
        self.assertEqual(plain.count(f"then 2,000 random orders (seed {seed})"), 11)

    def test_one_seed_gives_one_output(self):
        first = run(*QUICK)
        self.assertEqual(first, run(*QUICK))
        other = run("--seed", "4", "--orders", "10")
        self.assertEqual((first[0], other[0]), (0, 0))
        self.assertNotEqual(results(first[1]), results(other[1]))

    def test_the_clock_gives_seeds(self):
        seeds = {re.search(r"seed (\d+)", closing(run("--orders", "0", "--only", "maps")[1]))[1] for _ in range(2)}
        self.assertEqual(len(seeds), 2)

    def test_only(self):
        status, output, error = run(*QUICK, "--only", "takers", "--only", "lent-once", "--only", "takers")
        self.assertEqual((status, error), (0, ""))
        self.assertEqual(list(results(output)), ["lent-once", "takers"])
        self.assertRegex(output, r"(?m)^ 7  takers: ")
        self.assertIn("2 of 11 checks ran, all PASS", closing(output))
        whole = results(run(*QUICK)[1])
        self.assertEqual(results(output), {name: whole[name] for name in ("lent-once", "takers")})

    def test_another_archive_beside_it(self):
        installed = PREFIX / "lib/libcetomuhi.a"
        self.addCleanup(shutil.copy, ARCHIVE, installed)
        installed.write_bytes(ARCHIVE.read_bytes() + b"\n")
        record = WORK / "other.txt"
        status, output, _ = run(*QUICK, "--only", "maps", "--protocol", record)
        self.assertEqual(status, 1)
        words = "lib/libcetomuhi.a is not the archive that this program was linked with"
        self.assertIn(f"cetomuhi-check: FAIL: 1 of 1 checks PASS; {words}: ", closing(output))
        kept = record.read_text()
        self.assertIn(hashlib.sha256(installed.read_bytes()).hexdigest(), kept)
        self.assertEqual(closing(kept), closing(output))
        installed.unlink()
        status, output, _ = run(*QUICK, "--only", "maps", "--protocol", record)
        self.assertEqual(status, 0)
        self.assertIn("lib/libcetomuhi.a is not there", record.read_text())
        installed.mkdir()
        self.addCleanup(installed.rmdir)
        status, output, _ = run(*QUICK, "--only", "maps")
        self.assertEqual(status, 1)
        self.assertIn("cannot be read", closing(output))

    def test_no_sum_recorded(self):
        program = linked("no_sum", "", ARCHIVE)
        status, output, _ = run(*QUICK, "--only", "maps", program=program)
        self.assertEqual(status, 0)
        self.assertIn("archive sha256 not recorded, seed 3", closing(output))

    def test_sums(self):
        source = WORK / "sums.c"
        source.write_text(SUMS)
        compile_c(f"-I{ROOT / 'tools/check'}", source, ROOT / "tools/check/sha256.c", "-o", WORK / "sums")
        # FIPS 180-4's examples: of three bytes, and of 56, with which a second block begins.
        published = {
            b"": "e3b0c44298fc1c149afbf4c8996fb92427ae41e4649b934ca495991b7852b855",
            b"abc": "ba7816bf8f01cfea414140de5dae2223b00361a396177a9cb410ff61f20015ad",
            b"abcdbcdecdefdefgefghfghighijhijkijkljklmklmnlmnomnopnopq": "248d6a61d20638b8e5c026930c3e6039a33ce45964ff2167f6ecedd419db06c1",
        }
        alike = [hashlib.sha256(b"a" * length).hexdigest() for length in range(200)]
        for text, sum_of_text in published.items():
            done = subprocess.run([WORK / "sums"], input=text, capture_output=True, check=True, timeout=LIMIT)
            self.assertEqual(done.stdout.decode().split(), [*alike, sum_of_text])


class Records(unittest.TestCase):
    """--protocol."""

    def setUp(self):
        holder = tempfile.TemporaryDirectory()
        self.addCleanup(holder.cleanup)
        self.folder = pathlib.Path(holder.name)
        self.record = self.folder / "record.txt"

    def test_what_it_holds(self):
        before = datetime.datetime.now(datetime.timezone.utc).replace(microsecond=0)
        status, output, error = run(*QUICK, "--protocol", self.record)
        after = datetime.datetime.now(datetime.timezone.utc)
        self.assertEqual((status, error), (0, ""))
        text = self.record.read_text()
        date = re.search(r"(?m)^date +(\S+)$", text)[1]
        self.assertRegex(date, r"^\d{4}-\d\d-\d\dT\d\d:\d\d:\d\dZ$")
        self.assertTrue(before <= datetime.datetime.fromisoformat(date.replace("Z", "+00:00")) <= after)
        lines = ("program +built for version 5", "library +version 5", "seed +3", "orders +10 .*")
        for line in (*lines, f"sha256 +{SUM}", f"its sha256 {SUM}"):
            self.assertRegex(text, rf"(?m)^{line}$")
        self.assertIn("lib/libcetomuhi.a is the archive", text)
        self.assertEqual(text[text.index("\n 1  lent-once") + 1 :], output)
        self.assertLessEqual(max(map(len, text.splitlines())), 80)
        for number, name in enumerate(NAMES, 1):
            block = text[text.index(f"\n{number:2}  {name}: ") :]
            self.assertRegex(block, r"^\n.*\n(    \S.*\n)*    tried    .*\n(     .*\n)+    failure  .*\n(     .*\n)+    PASS  ")
        self.assertEqual(list(self.folder.iterdir()), [self.record])

    def test_a_record_is_replaced_whole(self):
        self.record.write_text("older\n")
        link = self.folder / "link.txt"
        link.symlink_to(self.record)
        self.assertEqual(run(*QUICK, "--only", "maps", "--protocol", link)[0], 0)
        self.assertTrue(link.is_symlink())
        self.assertTrue(self.record.read_text().startswith("A check of the installed library"))

    def test_it_cannot_be_made(self):
        for path in (self.folder / "missing/record.txt", self.folder):
            status, output, error = run(*QUICK, "--protocol", path)
            self.assertEqual((status, output, error.count("\n")), (2, "", 1), error)
            self.assertIn(f"cetomuhi-check: {path}: ", error)
        self.assertEqual(list(self.folder.iterdir()), [])

    def test_it_cannot_be_written(self):
        status, output, error = run(*QUICK, "--only", "maps", "--protocol", "/dev/full")
        self.assertEqual((status, error), (3, "cetomuhi-check: /dev/full: the record could not be written\n"))
        self.assertIn("all PASS", closing(output))
        self.assertTrue(pathlib.Path("/dev/full").is_char_device())
        self.record.write_text("older\n")
        small = {"preexec_fn": lambda: resource.setrlimit(resource.RLIMIT_FSIZE, (100, 100))}
        status, _, error = run(*QUICK, "--only", "maps", "--protocol", self.record, **small)
        self.assertEqual((status, error), (3, f"cetomuhi-check: {self.record}: the record could not be written\n"))
        self.assertEqual([path.name for path in self.folder.iterdir()], ["record.txt"])
        self.assertEqual(self.record.read_text(), "older\n")


class Words(unittest.TestCase):
    """The command line, and standard output that cannot be written."""

    def test_help_and_list(self):
        status, output, error = run("--help")
        self.assertEqual((status, error), (0, ""))
        for word in ("--seed", "--orders", "--limit", "--only", "--protocol", "--list", "--help"):
            self.assertRegex(output, rf"(?m)^  {word} ")
        for number in range(4):
            self.assertRegex(output, rf"(?m)^  {number}  \S")
        self.assertLessEqual(max(map(len, output.splitlines())), 80)
        self.assertEqual(run("--list"), (0, "".join(f"{name}\n" for name in NAMES), ""))

    def test_words_that_are_wrong(self):
        numbers = ("", "x", "-1", "+1", "1 ", "0x1", "18446744073709551616", "99999999999999999999999")
        wrong = [[option, number] for option in ("--seed", "--orders", "--limit") for number in numbers]
        wrong += [["--orders", "1000001"], ["--limit", "0"], ["--limit", "3601"], ["--only", "maps2"], ["--only", ""]]
        wrong += [["--seed"], ["--only"], ["--protocol"], ["extra"], ["--seeds", "1"], ["--seed=1"], [""], ["--"], ["-h"]]
        for words in wrong:
            status, output, error = run(*words)
            self.assertEqual((status, output, error.count("\n")), (2, "", 1), words)
            self.assertTrue(error.startswith("cetomuhi-check: "), words)
        self.assertEqual(run("--seed", "18446744073709551615", "--orders", "1", "--only", "maps")[0], 0)

    def test_output_that_is_lost(self):
        for words in ((*QUICK, "--only", "maps"), ("--help",), ("--list",)):
            for redirection in (">/dev/full", ">&-"):
                command = ["/bin/sh", "-c", f'"$0" "$@" {redirection}', str(PROGRAM), *words]
                done = subprocess.run(command, stderr=subprocess.PIPE, text=True, check=False, timeout=LIMIT)
                expected = (3, "cetomuhi-check: standard output could not be written\n")
                self.assertEqual((done.returncode, done.stderr), expected, command)

    def test_a_reader_that_goes_away(self):
        reading, writing = os.pipe()
        os.close(reading)
        done = subprocess.run([PROGRAM, *QUICK], stdout=writing, stderr=subprocess.PIPE, check=False, timeout=LIMIT)
        os.close(writing)
        self.assertEqual(done.returncode, 3)


class WrongLibraries(unittest.TestCase):
    """Libraries that end the program, never answer, refuse or spoil something."""

    def fails(self, program, *words):
        """The sentence of each check, all of which fail; nothing runs on."""
        status, output, _ = run(*words, program=program)
        self.assertEqual(status, 1, output)
        found = results(output)
        self.assertEqual({verdict for verdict, _ in found.values()}, {"FAIL"})
        self.assertTrue(closing(output).startswith(f"cetomuhi-check: FAIL: {len(found)} of {len(found)} checks FAIL ("))
        self.assertLessEqual(max(map(len, output.splitlines())), 80)
        self.assertTrue(wait_for(lambda: not processes(program)))
        return {name: sentence for name, (_, sentence) in found.items()}

    def test_it_ends_the_program(self):
        found = self.fails(linked("aborts", STUB, "-DWHEN_CALLED=abort()"), *QUICK)
        self.assertEqual(list(found), NAMES)
        for name, sentence in found.items():
            place = f"in the fixed order, before the first call on a machine; again by --only {name} --seed 3 --orders 0"
            expected = f"the library ended the program by signal 6; {place}"
            self.assertEqual(sentence == expected, name != "maps", sentence)
        found = self.fails(linked("exits", STUB, "-DWHEN_CALLED=exit(0)"), *QUICK, "--only", "claims")
        self.assertTrue(found["claims"].startswith("the library ended the program with status 0; "), found)
        found = self.fails(around("aborts_late", "0", 3000, -1), "--seed", "3", "--only", "nothing-lost")["nothing-lost"]
        words = r"^the library ended the program by signal 6; in random order (\d+), at or after call \d+, [a-z]+( \d+)+; "
        place = re.search(words, found)
        self.assertTrue(place, found)
        self.assertTrue(found.endswith(f"; again by --only nothing-lost --seed 3 --orders {place[1]}"), found)

    def test_it_never_answers(self):
        program = linked("hangs", STUB, "-DWHEN_CALLED=for(;;){}")
        found = self.fails(program, *QUICK, "--limit", "1", "--only", "survivor")
        self.assertEqual(list(found), ["survivor"])
        self.assertTrue(found["survivor"].startswith("no answer within 1 s; "), found)

    def test_nothing_runs_on_beside_the_next_check(self):
        """And meanwhile the record's place is taken by a folder."""
        program = linked("hangs_twice", STUB, "-DWHEN_CALLED=for(;;){}")
        counts = []
        with tempfile.TemporaryDirectory() as folder:
            record = pathlib.Path(folder, "record.txt")
            words = [program, "--limit", "1", "--only", "survivor", "--only", "takers", "--protocol", record]
            with subprocess.Popen(words, stdout=subprocess.DEVNULL, stderr=subprocess.DEVNULL) as started:

                def is_over():
                    counts.append(len(processes(program)))
                    return started.poll() is not None

                self.assertTrue(wait_for(lambda: os.listdir(folder)))
                record.mkdir()
                self.assertTrue(wait_for(is_over))
            self.assertEqual((started.returncode, max(counts), os.listdir(folder)), (3, 2, ["record.txt"]))

    def test_an_interrupt_leaves_nothing(self):
        program = linked("interrupted", STUB, "-DWHEN_CALLED=for(;;){}")
        for number in (signal.SIGINT, signal.SIGTERM, signal.SIGHUP, signal.SIGKILL):
            with tempfile.TemporaryDirectory() as folder:
                words = [program, "--protocol", f"{folder}/record.txt"]
                with subprocess.Popen(words, stdout=subprocess.DEVNULL, stderr=subprocess.DEVNULL) as started:
                    self.assertTrue(wait_for(lambda: len(processes(program)) == 2))
                    started.send_signal(number)
                    self.assertEqual(started.wait(timeout=LIMIT), -number)
                self.assertTrue(wait_for(lambda: not processes(program)), number)
                left = os.listdir(folder)
                self.assertNotIn("record.txt", left)
                self.assertEqual(len(left), number == signal.SIGKILL)  # which no program can heed

    def test_it_refuses_everything(self):
        found = self.fails(linked("refuses", STUB, "-DWHEN_CALLED="), *QUICK)
        self.assertEqual(list(found), NAMES)
        for name, sentence in found.items():
            self.assertEqual(sentence.startswith("untested: a start with V "), name != "maps", sentence)

    def test_a_step_of_the_setting_up_is_refused(self):
        program = around("no_splits", "kind == 0x02", 0, 9)
        found = self.fails(program, *QUICK, "--only", "lent-once", "--only", "survivor")
        for sentence in found.values():
            self.assertTrue(sentence.startswith("untested: split 0 0 16 was refused (9: the table has 64"), sentence)

    def test_what_random_orders_never_do_is_untested(self):
        program = around("no_claims", "(kind == 0x12 && input[at + 6] < 8 || kind == 0x13) && input[at + 1] < 8", 157, 20)
        few = run("--seed", "3", "--orders", "199", "--only", "page-cost", program=program)
        self.assertEqual((few[0], results(few[1])["page-cost"][0]), (0, "PASS"))
        found = self.fails(program, "--seed", "3", "--orders", "200", "--only", "page-cost")
        self.assertTrue(found["page-cost"].startswith("untested: in 200 random orders there were no pages with one"), found)

    def test_a_failure_can_be_seen_again(self):
        program = around("spoils", "0", 3000, 0)
        sentence = self.fails(program, "--seed", "3", "--only", "nothing-lost")["nothing-lost"]
        self.assertTrue(sentence.startswith("a refused call changed lent cells; in random order "), sentence)
        order = re.search(r"in random order (\d+), after (\d+) calls", sentence)
        self.assertRegex(sentence, r"; the last calls and answers:( [a-z ]+( \d+)+ -> \d+ \d+ \d+,?){6}; again by --only ")
        words = re.search(r"again by (.*)$", sentence)[1].split()
        self.assertEqual(words, ["--only", "nothing-lost", "--seed", "3", "--orders", order[1]])
        self.assertEqual(self.fails(program, *words)["nothing-lost"], sentence)
        status, output, _ = run(*words[:-1], int(order[1]) - 1, program=program)
        self.assertEqual((status, results(output)["nothing-lost"][0]), (0, "PASS"))

    def test_another_version(self):
        text = "#include <stdint.h>\nuint64_t __wrap_cetomuhi_version(void) { return 4; }\n"
        program = linked("older", text, ARCHIVE, "-Wl,--wrap=cetomuhi_version")
        status, output, _ = run(*QUICK, "--only", "maps", program=program)
        self.assertEqual((status, results(output)["maps"][0]), (1, "PASS"))
        self.assertIn("FAIL: 1 of 1 checks PASS; the library is not the one of version 5", closing(output))
        self.assertIn(": version 4, ", closing(output))


if __name__ == "__main__":
    unittest.main()
