#!/usr/bin/env python3
"""Tries cetomuhi-desk on files: what is read, what bad input is told, expected answers and exit statuses.

The lines that are expected here were worked out from document 01 and from what --help says.
"""

import os
import shutil
import subprocess
import unittest

# unittest calls setUpModule.
from desk_case import (DIFFERS, ENDED_EARLY, GOOD, LIMIT, NOT_BUILT, OUTPUT_LOST, ROOT, SESSIONS,
                       Case, compile_program, program, run, setUpModule)

DOCUMENT = ROOT / "sessions/document.hex"


class Words(Case):
    """The command line."""

    def test_help(self):
        for word in ("--help", "-h"):
            status, output, error = run(word)
            self.assertEqual((status, error), (GOOD, ""))
            for option in ("FILE.hex", "--explain", "--state=changes", "--state=end", "--map", "--bytes"):
                self.assertIn(option, output)
            for number in range(NOT_BUILT + 1):
                self.assertRegex(output.split("Exit status:")[1], rf"\b{number}, ")
            self.assertLess(max(map(len, output.splitlines())), 90)

    def test_words_that_are_wrong(self):
        self.refuses("no file is named; --help says how")
        self.refuses("no file is named; --help says how", "--explain")
        for word in ("--states", "--state=all", "--map=end", "-x", "--"):
            self.refuses(f"{word}: no such option; --help says which there are", DOCUMENT, word)
        self.refuses("a.hex and b.hex: one file at a time", "a.hex", "b.hex")
        both = ("--state=end", "--state=changes")
        self.refuses("--state=changes and --state=end: one of them", DOCUMENT, *both)
        self.refuses("no file is named; --help says how", *both)

    def test_a_file_that_is_read_once(self):
        for name in ("-", "/dev/stdin"):
            done = subprocess.run([program, name, "--explain"], input=DOCUMENT.read_bytes(),
                                  capture_output=True, check=False, timeout=LIMIT)
            status, output, _ = run(DOCUMENT, "--explain")
            self.assertEqual((done.returncode, done.stdout.decode()), (status, output))

    def test_another_library(self):
        include = shutil.copytree(ROOT / "include", self.folder / "include")
        header = (include / "cetomuhi.h").read_text()
        (include / "cetomuhi.h").write_text(header.replace("#define CETOMUHI_VERSION ", "#define CETOMUHI_VERSION 1"))
        other = self.folder / "other"
        compile_program(other, include)
        fault = "desk: the library is not the one that cetomuhi.h describes\n"
        self.assertEqual(run(DOCUMENT, program=other), (NOT_BUILT, "", fault))
        self.assertEqual(run("--help", program=other), run("--help"))


class Reader(Case):
    """Digits, blanks, comments and line ends; files that are none."""

    def gives(self, content, expected):
        done = subprocess.run([program, "--bytes", self.session(content)], capture_output=True, check=False,
                              timeout=LIMIT)
        self.assertEqual((done.returncode, done.stdout, done.stderr), (GOOD, expected, b""))

    def faulty(self, content, fault):
        path = self.session(content)
        for option in ("--bytes", "--explain", "--state", "--map"):
            self.refuses(f"{path}: {fault}", path, option)

    def test_digits_blanks_and_comments(self):
        self.gives("", b"")
        self.gives("# nothing 0A\n\n", b"")
        self.gives("0a 0B\t0C0d # 0E\nFF", b"\x0a\x0b\x0c\x0d\xff")
        self.gives("0 A 0\t0\n", b"\x0a\x00")
        self.gives(bytes(range(0x9, 0xE)) + b"7F # \xff\x00\x7f \xe2\x86\x92\n01", b"\x7f\x01")

    def test_line_ends(self):
        for end in ("\n", "\r\n", "\r"):
            self.gives(end.join(["00 # 11", "22", "# 33", "44"]), b"\x00\x22\x44")
            self.faulty(end.join(["00", "11", "2"]), "line 3: 1 digits, an odd count")

    def test_marks_of_unicode(self):
        self.gives(b"\xef\xbb\xbf00 01", b"\x00\x01")
        for content in ("\ufeff00 01".encode("utf-16-le"), "\ufeff00 01".encode("utf-16-be")):
            self.faulty(content, "line 1: the file is UTF-16 text; it must be ASCII or UTF-8")
        for content in (b"\xef\xbb00", b"\xef", b"\xff", b"\xff\xff", b"\xfe00"):
            self.faulty(content, f"line 1: byte {content[0]:02X} is no hexadecimal digit")

    def test_what_is_no_digit(self):
        self.faulty("00 02 01\n0A 0G 00\n", "line 2: 'G' is no hexadecimal digit")
        self.faulty("0x00", "line 1: 'x' is no hexadecimal digit")
        self.faulty(b"\n\n00 \xff", "line 3: byte FF is no hexadecimal digit")
        self.faulty(b"00 \x00", "line 1: byte 00 is no hexadecimal digit")
        self.faulty(b"\x7fELF\x02\x01\x01\x00", "line 1: byte 7F is no hexadecimal digit")
        self.faulty(program.read_bytes(), "line 1: byte 7F is no hexadecimal digit")

    def test_odd_counts(self):
        self.faulty("00 02 01\n\n0A 00 0 # 0\n", "line 3: 5 digits, an odd count")
        self.faulty("0\n0", "line 1: 1 digits, an odd count")

    def test_expected_answers_that_are_none(self):
        fault = "behind '# ->' stand three numbers: code, number and tag"
        for words in ("", " 0", " 0 0", " 0 0 x", " 0 0 0x", " 0 -1 0", " 0,0,0", " 0 18446744073709551616 0"):
            self.faulty(f"0002 01 # ok\n0A0000 # ->{words}\n", f"line 2: {fault}")
        self.gives("00 # -> 0 18446744073709551615 1\n01 #->1 2 3 words\n02 # a -> b", b"\x00\x01\x02")

    def test_a_long_comment(self):
        """Of a comment 120 characters are looked at; a number that they end with may be half of one."""
        self.gives("00 # " + "a->" * 100 + "\n01 #->1 2 3" + " words" * 100, b"\x00\x01")
        blanks = " " * 112
        self.gives(f"00 #->{blanks}0 0 1 2", b"\x00")
        self.faulty(f"00 # ->{blanks}0 0 10", "line 1: behind '# ->' stand three numbers: code, number and tag")

    def test_files_that_are_none(self):
        missing = self.folder / "missing.hex"
        self.refuses(f"{missing}: No such file or directory", missing)
        self.refuses(f"{self.folder}: Is a directory", self.folder, "--state")
        self.refuses(f"{missing}/x: No such file or directory", f"{missing}/x", "--map")
        self.refuses("/proc/self/mem: Input/output error", "/proc/self/mem")

    @unittest.skipIf(os.geteuid() == 0, "root may read every file")
    def test_a_file_that_may_not_be_read(self):
        path = self.session("0001 01")
        path.chmod(0)
        self.refuses(f"{path}: Permission denied", path)

    def test_a_link(self):
        link = self.folder / "link.hex"
        link.symlink_to(DOCUMENT)
        self.assertEqual(run(link)[:2], run(DOCUMENT)[:2])


class Lost(Case):
    """Output that does not get where it was to go."""

    OPTIONS = ((), ("--explain",), ("--state",), ("--state=changes",), ("--state=end",), ("--map",), ("--bytes",))

    def test_a_full_device(self):
        for options in (*self.OPTIONS, ("--help",)):
            with open("/dev/full", "w") as full:
                done = subprocess.run([program, DOCUMENT, *options], stdout=full, stderr=subprocess.PIPE,
                                      check=False, text=True, timeout=LIMIT)
            fault = "desk: standard output could not be written: No space left on device\n"
            self.assertEqual((done.returncode, done.stderr), (OUTPUT_LOST, fault), options)

    def test_a_closed_output(self):
        for options in self.OPTIONS:
            done = subprocess.run(["bash", "-c", '"$@" >&-', "-", program, DOCUMENT, *options],
                                  stderr=subprocess.PIPE, check=False, text=True, timeout=LIMIT)
            fault = "desk: standard output could not be written: Bad file descriptor\n"
            self.assertEqual((done.returncode, done.stderr), (OUTPUT_LOST, fault), options)

    def test_other_closed_descriptors(self):
        command = ["bash", "-c", '"$@" <&- 2>&-', "-", program, DOCUMENT]
        done = subprocess.run(command, stdout=subprocess.PIPE, check=False, text=True, timeout=LIMIT)
        self.assertEqual((done.returncode, done.stdout), (GOOD, DOCUMENT.with_suffix(".out").read_text()))

    def test_a_reader_that_goes_away(self):
        path = self.session("0001 01\n" + "0700\n" * 16000)
        command = ["bash", "-c", '"$@" --state | true; exit "${PIPESTATUS[0]}"', "-", program, path]
        done = subprocess.run(command, stderr=subprocess.PIPE, check=False, text=True, timeout=LIMIT)
        self.assertNotEqual(done.returncode, 0)
        self.assertNotIn("Traceback", done.stderr)


class Verdicts(Case):
    """Exit statuses, and what stands on standard error."""

    def test_every_session(self):
        for path in SESSIONS:
            stored = path.with_suffix(".out").read_text()
            count = len(stored.splitlines())
            output = self.told(path, f"{count} answers, each as the file expects", status=GOOD)
            self.assertEqual(output, stored)

    def test_the_first_difference_with_its_line(self):
        text = DOCUMENT.read_text()
        changed = text.replace("0 6 0 ", "0 7 0 ").replace("15 0 0", "15 1 0")
        number = next(n for n, line in enumerate(text.splitlines(), 1) if line.startswith("06 00 00 0A"))
        path = self.session(changed)
        self.told(
            path,
            f"line {number}: expected 0 7 0, answered 0 6 0: party 0 sweeps the next 10 cells: 6 cells left",
            f"2 of 18 expected answers did not come; the first is that of line {number}",
            status=DIFFERS,
        )

    def test_each_number_counts(self):
        for wrong in ("0 0 1", "0 1 0", "4 0 0"):
            path = self.session(f"0001 01\n0A0000 # -> {wrong}")
            self.told(
                path,
                f"line 2: expected {wrong}, answered 0 0 0: party 0 zeroes frame 0",
                "1 of 1 expected answers did not come; the first is that of line 2",
                status=DIFFERS,
            )

    def test_a_difference_that_is_a_refusal(self):
        path = self.session("0001 01 # -> 0 0 0\n\n01 00 0000 00 # -> 0 16 0\n01 00 0000 00 # -> 0 16 0\n")
        self.told(
            path,
            "line 4: expected 0 16 0, answered 7 0 0: party 0 takes the reservation at cell 0 into register 0; "
            "refused: it is Taken by party 0",
            "1 of 3 expected answers did not come; the first is that of line 4",
            status=DIFFERS,
        )

    def test_a_difference_before_others(self):
        path = self.session("0001 01 # -> 0 0 1\n07 00\n")
        self.told(
            path,
            "line 1: expected 0 0 1, answered 0 0 0: start with V 1 and F 1",
            "1 of 1 expected answers did not come; the first is that of line 1; refused and not stated: line 2 (11)",
            status=DIFFERS,
        )

    def test_the_last_command_of_a_line_is_meant(self):
        path = self.session("0001 01 0A0000 08000000 # -> 0 0 0\n0A0000 07 00 # -> 11 0 0\n")
        self.told(path, "5 answers, of which the file states 2, each as it came; "
                  "refused and not stated: line 2 (14)", status=GOOD)

    def test_a_line_without_a_command(self):
        path = self.session("0001 01\n# -> 0 0 0\n0A0000\n")
        self.told(
            path,
            "line 2: expected 0 0 0, but no command begins there",
            "1 of 1 expected answers did not come; the first is that of line 2",
            status=DIFFERS,
        )

    def test_refusals_that_the_file_does_not_state(self):
        refused = "".join(f"\n{'0C 00 00 0000 01' if n % 2 else '0A 00 00'}" for n in range(20))
        path = self.session("0001 01" + refused)
        self.told(
            path,
            "21 answers; the file states none that it expects; refused and not stated: line 3 (15), 4 (14), "
            "5 (15), 6 (14), 7 (15), 8 (14), 9 (15), 10 (14) and 11 more",
            status=GOOD,
        )
        self.told(self.session("0001 01"), "1 answer; the file states none that it expects", status=GOOD)
        path = self.session("0001 01" + "\n07 00" * 8)
        self.told(path, "9 answers; the file states none that it expects; refused and not stated: line 2 (11), 3 (11), "
                  "4 (11), 5 (11), 6 (11), 7 (11), 8 (11), 9 (11)", status=GOOD)


class Slips(Case):
    """A byte too few or too many in a file with a command a line."""

    def test_a_byte_left_out(self):
        lines = DOCUMENT.read_text().splitlines()
        number = next(n for n, line in enumerate(lines, 1) if line.startswith("0C 03 00 00 05 01"))
        lines[number - 1] = lines[number - 1].replace("0C 03 00 00 05 01", "0C 03 00 00 05")
        path = self.session("\n".join(lines))
        status, output, error = run(path)
        self.assertEqual(status, DIFFERS)
        told = error.splitlines()
        self.assertEqual(told[0], f"desk: {path}: line {number}: command 0C runs on into line {number + 1}")
        self.assertIn(f"line {number}: expected 0 0 0, answered ", told[1])
        self.assertIn("the session ends early: refused: ", told[2])
        self.assertEqual(len(told), 4)

    def test_it_is_told_where_nothing_is_expected(self):
        path = self.session("0001 01\n0A 00\n08 00 00 00\n07 00\n")
        self.told(
            path,
            "line 2: command 0A runs on into line 3",
            "line 3: the session ends early: refused: 00 is no command; 5 of 11 bytes are left",
            "3 answers; the file states none that it expects; refused and not stated: line 2 (12), 3 (3)",
            status=DIFFERS,
        )

    def test_a_byte_too_many(self):
        path = self.session("0001 01\n0A 00 00 07\n00 00\n")
        self.told(path, "line 2: command 07 runs on into line 3",
                  "line 3: the session ends early: refused: 00 is no command; 1 of 9 bytes are left",
                  "4 answers; the file states none that it expects; refused and not stated: line 2 (11), 3 (3)",
                  status=DIFFERS)

    def test_a_start_that_runs_on(self):
        path = self.session("00 01\n0A 00 00\n")
        self.told(path, "line 1: the start runs on into line 2",
                  "line 2: the session ends early: refused: 00 is no command; 2 of 5 bytes are left",
                  "2 answers; the file states none that it expects; refused and not stated: line 2 (3)",
                  status=DIFFERS)

    def test_the_last_line_cut(self):
        path = self.session("0001 01\n08 00\n# a comment\n00\n")
        self.told(path, "line 2: command 08 runs on into line 4",
                  "line 2: the session ends early: refused: the input ends within command 08; 3 of 6 bytes are left",
                  "2 answers; the file states none that it expects; refused and not stated: line 2 (3)",
                  status=DIFFERS)
        path = self.session("0001 01\n0E 00 00 0000000000\n0000\n")
        self.told(path, "line 2: command 0E runs on into line 3",
                  "line 2: the session ends early: refused: the input ends within command 0E; 10 of 13 bytes are left",
                  "2 answers; the file states none that it expects; refused and not stated: line 2 (3)",
                  status=DIFFERS)

    def test_a_file_without_a_command_a_line(self):
        data = bytes.fromhex("000101 0A0000 08000000 0700 06000001 0A0000 0700")
        for width in (7, 8, 16):
            pieces = [data[at : at + width].hex(" ") for at in range(0, len(data), width)]
            status, _, error = run(self.session("\n".join(pieces)))
            self.assertEqual(status, GOOD)
            self.assertNotIn("runs on", error)


class Ends(Case):
    """Sessions that end before their file does."""

    def test_refusals_1_to_3(self):
        for content, line, cause, left in (
            ("0101 01\n0700", 1, "start with V 257 and F 1; refused: V is not 1 to 256", "5 of 5"),
            ("0000 00 0700", 1, "start with V 0 and F 0; refused: V is not 1 to 256, and F is not 1 to 128", "5 of 5"),
            ("0001 81", 1, "start with V 1 and F 129; refused: F is not 1 to 128", "3 of 3"),
            ("00\n", 1, "refused: start, cut short", "1 of 1"),
            ("0001 01\n07 00\nFF 07 00", 3, "refused: FF is no command", "3 of 8"),
            ("0001 01\n07 00\n08 00 00", 3, "refused: the input ends within command 08", "3 of 8"),
        ):
            path = self.session(content)
            status, _, error = run(path)
            self.assertEqual(status, ENDED_EARLY)
            expected = f"desk: {path}: line {line}: the session ends early: {cause}; {left} bytes are left"
            self.assertEqual(error.splitlines()[0], expected)

    def test_files_without_a_byte(self):
        for content in ("", "\n\n", "# nothing\n", b"\xef\xbb\xbf"):
            path = self.session(content)
            output = self.told(
                path,
                "the session ends at its start: there is no byte",
                "1 answer; the file states none that it expects; refused and not stated: line 0 (1)",
                status=ENDED_EARLY,
            )
            self.assertEqual(output, "1 0 0\n")

    def test_an_end_that_the_file_states(self):
        for content in ("0101 01 # -> 1 0 0", "0001 01\nFF # -> 3 0 0\n# the end\n", "0001 01\n08 00 # -> 3 0 0"):
            self.assertEqual(run(self.session(content))[0], GOOD)
        self.assertEqual(run(self.session("0001 01\nFF # -> 3 0 0\n0700\n"))[0], ENDED_EARLY)
        for content in ("0001 01\nFF # -> 4 0 0\n", "00 # -> 0 0 0\n"):
            self.assertEqual(run(self.session(content))[0], DIFFERS)

    def test_expected_answers_behind_an_end(self):
        path = self.session("0001 01 # -> 0 0 0\nFF\n0700 # -> 11 0 0\n0700 # -> 11 0 0\n")
        self.told(
            path,
            "line 2: the session ends early: refused: FF is no command; 5 of 8 bytes are left",
            "2 answers, of which the file states 1, each as it came; refused and not stated: line 2 (3); "
            "2 expected answers were not reached",
            status=ENDED_EARLY,
        )

    def test_a_file_of_27_megabytes(self):
        path = self.session("0001 01\n" + "0A 00 00\n" * 3_000_000)
        output = self.told(
            path,
            "9000003 bytes, of which a session looks at the first 32,768: the rest, from line 10923 on, is not run",
            "line 10923: the session ends early: refused: the input ends within command 0A; "
            "8967237 of 9000003 bytes are left",
            "10923 answers; the file states none that it expects; refused and not stated: "
            + "line 3 (14), 4 (14), 5 (14), 6 (14), 7 (14), 8 (14), 9 (14), 10 (14) and 10913 more",
            status=ENDED_EARLY,
        )
        self.assertEqual(output, "0 0 0\n" * 2 + "14 0 0\n" * 10920 + "3 0 0\n")

    def test_a_file_just_cut(self):
        """32,765 bytes of commands fit: 3 are V and F."""
        body = "0E 00 00 0000000000000000\n" * 2978 + "0A 00 00\n" + "07 00\n" * 2
        status, output, error = run(self.session("0001 01\n" + body))
        self.assertEqual((status, len(error.splitlines())), (GOOD, 1))
        longer, more, told = run(self.session("0001 01\n" + body + "07 00\n"))
        self.assertEqual((longer, more), (ENDED_EARLY, output))
        self.assertIn("32770 bytes, of which a session looks at the first 32,768: the rest, from line 2983 on, "
                      "is not run", told)
        self.assertEqual(len(told.splitlines()), 2)

    def test_an_end_of_all_bytes(self):
        """3 bytes are V and F, and 11 times 2,978 leave 7."""
        body = "0001 01\n" + "0E 00 00 0000000000000000\n" * 2978 + "0A 00 00\n07 00\n08 00"
        path = self.session(body + " # -> 3 0 0\n")
        self.told(path, "2982 answers, of which the file states 1, each as it came; refused and not stated: line 2981 (11)",
                  status=GOOD)
        path = self.session(body)
        self.told(path, "line 2982: the session ends early: refused: the input ends within command 08; "
                  "2 of 32768 bytes are left",
                  "2982 answers; the file states none that it expects; refused and not stated: line 2981 (11), 2982 (3)",
                  status=ENDED_EARLY)


if __name__ == "__main__":
    unittest.main()
