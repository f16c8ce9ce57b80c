#!/usr/bin/env python3
"""Tries tools/hex: the reader of session files and the words for their calls."""

import pathlib
import subprocess
import tempfile
import unittest

ROOT = pathlib.Path(__file__).resolve().parent.parent


def hex_tool(text, *options):
    """Exit status, output and error text of tools/hex over a file with this text."""
    with tempfile.TemporaryDirectory() as folder:
        path = pathlib.Path(folder, "session.hex")
        path.write_bytes(text if isinstance(text, bytes) else text.encode())
        command = [ROOT / "tools/hex", path, *options]
        done = subprocess.run(command, capture_output=True, check=False)
        return done.returncode, done.stdout, done.stderr.decode().replace(f"{path}: ", "")


class Reader(unittest.TestCase):
    def gives(self, text, expected):
        self.assertEqual(hex_tool(text), (0, expected, ""))

    def refuses(self, text, fault):
        status, output, error = hex_tool(text)
        self.assertEqual((status, output, error.strip()), (1, b"", fault))

    def test_digits_blanks_and_comments(self):
        self.gives("", b"")
        self.gives("# nothing 0A\n\n", b"")
        self.gives("0a 0B\t0C0d # 0E\r\nFF", b"\x0a\x0b\x0c\x0d\xff")
        self.gives("0 A 0\t0\n", b"\x0a\x00")

    def test_bad_digits_name_their_line(self):
        self.refuses("00 02 01\n0A 0G 00\n", "line 2: 'G' is no hexadecimal digit")
        self.refuses("0x00", "line 1: 'x' is no hexadecimal digit")
        self.refuses(b"\n\n\xff", "line 3: 'ÿ' is no hexadecimal digit")

    def test_odd_counts_name_their_line(self):
        self.refuses("00 02 01\n\n0A 00 0 # 0\n", "line 3: 5 digits, an odd count")
        self.refuses("0\n0", "line 1: 1 digits, an odd count")

    def test_a_missing_file(self):
        command = [ROOT / "tools/hex", ROOT / "no such file"]
        done = subprocess.run(command, capture_output=True, check=False)
        self.assertEqual((done.returncode, done.stdout), (1, b""))
        self.assertIn(b"No such file", done.stderr)


class Words(unittest.TestCase):
    def words(self, text):
        status, output, error = hex_tool(text, "--explain-only")
        self.assertEqual((status, error), (0, ""))
        return output.decode().splitlines()

    def test_every_command_has_words(self):
        commands = {
            "01 01 0102 03": "party 1 takes the reservation at cell 258 into register 3",
            "02 01 0102 0304": "party 1 splits the reservation at cell 258, 772 cells below",
            "03 01 0102": "party 1 merges the reservation at cell 258 with the next one",
            "04 01 0102 03": "party 1 gives the reservation at cell 258 to party 3",
            "05 01 0102": "party 1 revokes the reservation at cell 258",
            "06 01 0102": "party 1 sweeps the next 258 cells",
            "07 01": "party 1 collects",
            "08 01 02 03": "party 1 maps page 2 to frame 3",
            "09 01 02": "party 1 unmaps page 2",
            "0A 01 02": "party 1 zeroes frame 2",
            "0B 01 02 0304 05": "party 1 loads through register 2, offset 772, into register 5",
            "0C 01 02 0304 05": "party 1 stores register 5 through register 2, offset 772",
            "0D 01 02 0304 0506 07 08": "party 1 narrows register 2 to 1286 cells from offset 772 "
            "on, permissions 7, into register 8",
            "0E 01 02 0000000000010000": "party 1 sets register 2 to the number 65536",
            "0F 01 02 03": "party 1 grants register 2 to party 3",
            "10 01 02": "party 1 receives into register 2",
            "11 01 0102 03 04": "party 1 takes the reservation at cell 258 into register 3 "
            "with mask 4",
            "12 01 02 03 0405 06": "party 1 creates principal 3 below principal 2 with limit 1029 "
            "for party 6",
            "13 01 02 03": "party 1 claims page 3 for principal 2",
            "14 01 02 03": "party 1 releases page 3 for principal 2",
            "15 01 02": "party 1 destroys principal 2",
        }
        text = "0100 80\n" + "\n".join(commands)
        self.assertEqual(self.words(text), ["start with V 256 and F 128", *commands.values()])

    def test_where_a_session_ends(self):
        start = "start with V 1 and F 1"
        self.assertEqual(self.words("0001"), ["start, cut short"])
        self.assertEqual(self.words("000101 FF 0700"), [start, "FF is no command"])
        self.assertEqual(self.words("000101 0B 00"), [start, "the input ends within command 0B"])
        for cut in ("11 00 0000 00", "12 00 00 01 0000", "13 00 00", "14 00 00", "15 00"):
            words = self.words(f"000101 {cut}")
            self.assertEqual(words, [start, f"the input ends within command {cut[:2]}"])

    def test_no_byte_beyond_the_limit(self):
        words = self.words("000101" + "0700" * 20000)
        self.assertEqual(len(words), 1 + 16382 + 1)
        self.assertEqual(words[-1], "the input ends within command 07")


class Explained(unittest.TestCase):
    def explained(self, data, lines):
        """Exit status, output and error text of tools/hex over these bytes and lines."""
        with tempfile.NamedTemporaryFile() as held, tempfile.NamedTemporaryFile("w") as text:
            held.write(bytes.fromhex(data))
            held.flush()
            text.write(lines)
            text.flush()
            command = [ROOT / "tools/hex", "--explain", held.name, text.name]
            done = subprocess.run(command, capture_output=True, check=False)
        return done.returncode, done.stdout.decode(), done.stderr.decode()

    def test_lines_stand_beside_their_calls(self):
        lines = "0 0 0\n11 0 0\n"
        expected = (
            "0 0 0   start with V 1 and F 1\n"
            "11 0 0  party 0 collects; refused: no revocation runs, or cells are left to sweep\n"
        )
        self.assertEqual(self.explained("000101 0700 0700", lines), (0, expected, ""))

    def test_refusals_of_a_take_by_mask(self):
        lines = "0 0 0\n4 0 0\n6 0 0\n7 0 0\n"
        words = "takes the reservation at cell 0 into register"
        expected = (
            "0 0 0  start with V 1 and F 1\n"
            f"4 0 0  party 8 {words} 9 with mask 15; "
            "refused: there is no party 8 and no register 9\n"
            f"6 0 0  party 1 {words} 0 with mask 0; "
            "refused: party 1 holds none that begins there\n"
            f"7 0 0  party 0 {words} 0 with mask 240; refused: it is not Open\n"
        )
        data = "000101 11080000090F 110100000000 1100000000F0"
        self.assertEqual(self.explained(data, lines), (0, expected, ""))

    def test_refusals_of_calls_on_claims(self):
        calls = [
            ("12 08 00 01 0000 09", "4", "there is no party 8 and no party 9"),
            ("12 01 02 00 0000 00", "20", "party 1 holds no principal 2, or 0 is taken or above 31"),
            ("12 00 00 01 2001 00", "21", "principal 0 has less than 8193 unspent"),
            ("13 08 00 00", "4", "there is no party 8"),
            ("13 00 00 01", "12", "there is no page 1"),
            ("13 01 02 00", "20", "party 1 holds no principal 2"),
            ("13 00 00 00", "21", "principal 0 has nothing unspent, or its count is 65,535"),
            ("14 08 00 00", "4", "there is no party 8"),
            ("14 00 00 01", "12", "there is no page 1"),
            ("14 01 02 00", "20", "party 1 holds no principal 2"),
            ("14 00 00 00", "21", "principal 0 does not claim the page"),
            ("15 08 00", "4", "there is no party 8"),
            ("15 00 00", "20", "there is no such principal, or party 0 does not hold its parent"),
            ("09 00 00", "22", "the page has a claim"),
        ]
        data = "000101" + "".join(call for call, _, _ in calls)
        lines = "0 0 0\n" + "".join(f"{code} 0 0\n" for _, code, _ in calls)
        status, output, error = self.explained(data, lines)
        self.assertEqual((status, error), (0, ""))
        reasons = [line.split("refused: ")[1] for line in output.splitlines()[1:]]
        self.assertEqual(reasons, [reason for _, _, reason in calls])

    def test_refusals_that_a_command_has_not(self):
        for data, code in (("15 00 00", 21), ("12 00 00 01 0000 00", 12), ("08 00 00 00", 22)):
            status, _, error = self.explained(f"000101 {data}", f"0 0 0\n{code} 0 0\n")
            self.assertEqual((status, error.strip()), (1, f"{data[:2]} has no refusal {code}"))

    def test_other_lines_stay(self):
        lines = "0 0 0\n    a table's line, longer than the answers\n\n0 0 0\n"
        expected = (
            "0 0 0  start with V 1 and F 1\n    a table's line, longer than the answers\n\n"
            "0 0 0  party 0 zeroes frame 0\n"
        )
        self.assertEqual(self.explained("000101 0A0000", lines), (0, expected, ""))

    def test_answers_that_no_session_has(self):
        for lines, fault in (
            ("0 0 0\n0 0 0\n", "the answer '0 0 0' has no command"),
            ("2 0 0\n", "start has no refusal 2"),
        ):
            status, _, error = self.explained("000101", lines)
            self.assertEqual((status, error.strip()), (1, fault))


if __name__ == "__main__":
    unittest.main()
