"""What `cast` grants, and why not. The numbers are by hand."""
import re

from test_describe import LARGE, quote
from test_lukaripe import CLI, WithProgram
from test_width import M32
from trial import M

# Base 8, elements of 1 byte from place 9 on, rounded to 4: sizes 12, 12, 12, 12, 16, ..
RECORD = "struct { [u32; 2], u8, [u8] }"
# No size without elements: M - 1 + up(1, 2).
NO_SIZE = f"struct(align 2) {{ {LARGE}, [[u8; 2]] }}"

# Type, other words and width; count, size, split and what is left over.
GRANTED = [
    (RECORD, "--length 12", 64, (3, 12, 12, "0 behind")),
    (RECORD, "--length 15", 64, (3, 12, 12, "3 behind")),
    (RECORD, "--length 16 --address 4096", 64, (7, 16, 16, "0 behind")),
    (RECORD, "--address 1 --length 15 --suffix", 64, (3, 12, 3, "3 before")),
    ("struct { [u32; 2], u8, [[u8; 9]] }", "--length=24", 64, (1, 20, 20, "4 behind")),
    ("u32", "--address 8 --length 9", 64, (0, 4, 4, "5 behind")),
    ("u32", "--address 3 --length 9 --suffix", 64, (0, 4, 5, "5 before")),
    ("[type:8:4]", "--address 4 --length 30", 64, (3, 24, 24, "6 behind")),
    ("bytes:10", "--address 3 --length 10", 64, (0, 10, 10, "0 behind")),
    ("[u8]", f"--length {M}", 64, (M, M, M, "0 behind")),
    ("[u8]", f"--address {M} --length 0", 64, (0, 0, 0, "0 behind")),
    ("[u8]", f"--address {M32} --length 1", 64, (1, 1, 1, "0 behind")),
    ("struct {}", "--length 0", 64, (0, 0, 0, "0 behind")),
    # Rounded to 8, and to 4: 8 + up(1 + n, 8) and 8 + up(1 + n, 4).
    ("struct { u64, u8, [u8] }", "--length 31", 64, (15, 24, 24, "7 behind")),
    ("struct { u64, u8, [u8] }", "--length 31", 32, (19, 28, 28, "3 behind")),
    ("struct { u8, u64 }", "--length 12", 32, (0, 12, 12, "0 behind")),
    ("struct { u8, u64 }", "--length 12 --address 4 --suffix", 32, (0, 12, 0, "0 before")),
    ("[u8]", f"--length {M32}", 32, (M32, M32, M32, "0 behind")),
]

# The same; what is said to be refused, the number, and the numbers that it is about.
REFUSED = [
    (RECORD, "--length 11", 64, "a prefix of 11 bytes at 0", 13, ": the least size is 12"),
    ("u32", "--length 1", 64, "a prefix of 1 byte at 0", 13, ": the least size is 4"),
    ("struct { u8, u64 }", "--length 12", 64, "a prefix of 12 bytes at 0", 13, ": the least size is 16"),
    (NO_SIZE, f"--length {M}", 64, f"a prefix of {M} bytes at 0", 13,
     ": the size without elements overflows (refusal 39)"),
    # Alignment before size.
    (RECORD, "--address 2 --length 3", 64, "a prefix of 3 bytes at 2", 12,
     ": the address, 2, is no multiple of the alignment 4, 2 short of one"),
    (RECORD, "--length 15 --suffix", 64, "a suffix of 15 bytes at 0", 12,
     ": the end, 15, is no multiple of the alignment 4, 1 short of one"),
    ("u64", "--address 4 --length 8", 64, "a prefix of 8 bytes at 4", 12,
     ": the address, 4, is no multiple of the alignment 8, 4 short of one"),
    ("[u8]", f"--address {M} --length 1", 64, f"a prefix of 1 byte at {M}", 11, ""),
    ("[u8]", f"--address 1 --length {M} --suffix", 64, f"a suffix of {M} bytes at 1", 11, ""),
    ("[u8]", f"--address {M32} --length 1", 32, f"a prefix of 1 byte at {M32}", 11, ""),
    ("struct { u8, [[u8; 0]] }", "--length 5", 64, "a prefix of 5 bytes at 0", 10, ""),
    ("[bytes:0]", "--length 5", 32, "a prefix of 5 bytes at 0", 10, ""),
]

# Type and length; the count.
EXACT = [(RECORD, 16, 7), (RECORD, 12, 3), ("[u16]", 0, 0), ("[u16]", 10, 5), ("[u8]", M, M)]
# Type, length and width, and which sizes there are.
NOT_EXACT = [
    (RECORD, 15, 64, "the nearest sizes are 12 and 16"),
    (RECORD, 11, 64, "the least size is 12"),
    ("[[u8; 2]]", M, 64, f"the greatest size is {M - 1}"),
    ("[[u8; 2]]", M32, 32, f"the greatest size is {M32 - 1}"),
    ("[[u8; 2]]", M32, 64, f"the nearest sizes are {M32 - 1} and {M32 + 1}"),
    ("u32", 4, 64, "the only size is 4"),
    ("struct { u8, [[u8; 0]] }", 1, 64, "the only size is 1"),
    (NO_SIZE, M, 64, "the size without elements overflows (refusal 39)"),
]


class Cast(WithProgram):
    def test_what_is_granted(self):
        for text, words, width, (count, size, split, left) in GRANTED:
            ran = self.run_shell(f"{CLI} cast {quote(text)} {words} --width {width}")
            self.assertEqual((ran.returncode, ran.stderr), (0, b""), (text, words))
            whole, empty, heads, row = ran.stdout.decode().splitlines()
            self.assertRegex(whole, "^whole: alignment ")
            self.assertEqual((empty, heads.split("  ")[-1]), ("", "left over"))
            self.assertEqual(re.split("  +", row.strip()), [str(count), str(size), str(split), left], (text, words))

    def test_all_that_is_said(self):
        said = """\
whole: alignment 4, elements of 1 byte from place 9 on

count  size  split  left over
    3    12     12  3 behind
"""
        self.says(f"tools/lukaripe cast {quote(RECORD)} --length 15", 0, said)
        said = "whole: alignment 4, size 4\n\ncount  size  split  left over\n    0     4      4  0 behind\n"
        self.says("tools/lukaripe cast u32 --address 4 --length 4", 0, said)

    def test_what_is_refused(self):
        causes = self.causes()
        for text, words, width, what, number, more in REFUSED:
            ran = self.run_shell(f"{CLI} cast {quote(text)} {words} --width {width}")
            said = f"lukaripe: {what}: {causes[number]} (refusal {number}){more}\n"
            self.assertEqual((ran.returncode, ran.stdout, ran.stderr.decode()), (1, b"", said), (text, words))

    def test_exact(self):
        for text, length, count in EXACT:
            ran = self.run_shell(f"{CLI} cast --exact {quote(text)} --length {length}")
            self.assertEqual((ran.returncode, ran.stderr), (0, b""), (text, length))
            heads, row = ran.stdout.decode().splitlines()[2:]
            self.assertEqual((heads.split(), row.split()), (["count", "size"], [str(count), str(length)]))
        cause = "no count of elements has exactly this size (refusal 14)"
        for text, length, width, which in NOT_EXACT:
            said = f"lukaripe: exactly {length} byte{'' if length == 1 else 's'}: {cause}: {which}\n"
            self.says(f"{CLI} cast --exact {quote(text)} --length {length} --width {width}", 1, "", said)

    def test_wrong_words(self):
        for words, said in [
            ("", "a TYPE is missing; see --help"),
            ("--length 5", "a TYPE is missing; see --help"),
            ("u8", "--length N is missing; see --help"),
            ("u8 --exact", "--length N is missing; see --help"),
            ("struct { u8 } --length 5", "a TYPE is one word, in quotes; see --help"),
            ("u8 --length", "--length takes a number; see --help"),
            ("u8 --length=", "--length takes a number, not ''; see --help"),
            ("u8 --length -1", "--length takes a number, not '-1'; see --help"),
            ("u8 --address 0x10 --length 1", "--address takes a number, not '0x10'; see --help"),
            (f"u8 --length {M + 1}", f"--length is out of range: {M + 1} is above 2^64 - 1"),
            (f"u8 --length {M32 + 1} --width 32", f"--length is out of range: {M32 + 1} is above 2^32 - 1"),
            (f"u8 --width 32 --length 1 --address {M + 1}", f"--address is out of range: {M + 1} is above 2^32 - 1"),
            ("u8 --length 1 --suffix=1", "an option takes no value; see --help"),
            ("u8 --length 1 --count 1", "unknown word '--count'; see --help"),
        ]:
            self.says(f"tools/lukaripe cast {words}", 2, "", f"lukaripe: {said}\n")
        for words in "--address 0", "--suffix":
            said = "lukaripe: --exact is of the length alone, without --address and --suffix; see --help\n"
            self.says(f"tools/lukaripe cast u8 --exact --length 1 {words}", 2, "", said)
