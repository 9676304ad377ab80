"""What `--width 32` changes of layouts and descriptions. The numbers are by hand."""
import re

from test_describe import LARGE, quote
from test_lukaripe import CLI, WithProgram
from test_members import record
from trial import HOME, line

# The greatest number.
M32 = 2**32 - 1

# Words, then of each member place, size, alignment and gap, then of the whole alignment, size and closing padding, with
# words of 32 bits.
FIXED = {
    "u8 u64": ([(0, 1, 1, 0), (4, 8, 4, 3)], (4, 12, 0)),
    "char bool f64 usize f32 u32": (
        [(0, 4, 4, 0), (4, 1, 1, 0), (8, 8, 4, 3), (16, 4, 4, 0), (20, 4, 4, 0), (24, 4, 4, 0)],
        (4, 28, 0),
    ),
    "--align 8 u8 usize u64": ([(0, 1, 1, 0), (4, 4, 4, 3), (8, 8, 4, 0)], (8, 16, 0)),
    "--packed 2 u8 u64": ([(0, 1, 1, 0), (2, 8, 4, 1)], (2, 10, 0)),
    f"bytes:{M32}": ([(0, M32, 1, 0)], (1, M32, 0)),
    f"type:8:8 bytes:{2**31}": ([(0, 8, 8, 0), (8, 2**31, 1, 0)], (8, 2**31 + 8, 0)),
}

# Types and their sizes at 64 bits and at 32.
SIZES = {
    "struct { u8, u64 }": (16, 12),
    "struct { u8, f64, u8 }": (24, 16),
    "struct { usize, u8 }": (16, 8),
    "[struct { u8, struct { usize, u64 } }; 3]": (72, 48),
    "struct(packed 1) { u8, u64 }": (9, 9),
    "struct(align 16) { u64 }": (16, 16),
}


class Layout(WithProgram):
    def test_fixed_records(self):
        for words, (members, (align, size, closing)) in FIXED.items():
            text = self.shows(f"--width 32 {words}")
            self.assertEqual(self.members(text), [tuple(map(str, member)) for member in members], words)
            self.assertIn(f"\nwhole: alignment {align}, size {size}, closing padding {closing}; ", text, words)

    def test_types(self):
        for text, sizes in SIZES.items():
            for width, size in zip((64, 32), sizes):
                for where in f"--width {width} {quote(text)}", f"{quote(text)} --width={width}":
                    self.assertIn(f", size {size}, ", self.shows(where), (text, width))

    def test_an_open_end(self):
        text = self.shows("--width 32 u64 u8 '[u8]'")
        self.assertIn("\nwhole: alignment 4, elements of 1 byte from place 9 on; ", text)
        # 8 + up(1 + n, 4).
        self.assertRegex(text, r"\n +0 +12 +3\n +1 +12 +2\n +2 +12 +1\n")
        none = "the size at this count of elements overflows (refusal 15)"
        text = self.shows(f"--width 32 u8 '[bytes:{M32}]'")
        self.assertEqual(re.findall(r"(?m)^ +([012]) +(-) +(-)  (.*)$", text), [(at, "-", "-", none) for at in "12"])

    def test_the_picture_has_the_same(self):
        said = [text.text for text in self.picture("--width 32 u8 u64").iter("{http://www.w3.org/2000/svg}text")]
        self.assertIn("alignment 4, size 12, closing padding 0; there may be padding", said)

    def refuses(self, words, what, number, **how):
        said = re.compile(rf"\Alukaripe: {re.escape(what)}: [^\n]+ \(refusal {number}\)\n\Z")
        self.says(f"{CLI} layout --width 32 {words}", 1, "", said, **how)

    def test_what_passes_the_greatest_number_at_32_bits_alone(self):
        for words, what, number in [
            (f"bytes:{M32} u8", "member 1 (u8)", 9),
            (f"bytes:{2**31} bytes:{2**31}", f"member 1 (bytes:{2**31})", 9),
            (f"type:0:8 bytes:{M32}", "the closing padding", 8),
            (f"bytes:{M32} u16", "member 1 (u16)", 8),
        ]:
            self.shows(words)
            self.refuses(words, what, number)
        self.shows("'[[u8; 65536]; 65536]'")
        said = line("lukaripe", "the array at column 1: the size of an array overflows (refusal 37)")
        first = f"{CLI} layout --width 32 '[[u8; 65536]; 65536]' 2>&1 >&- | head -1"
        self.assertRegex(self.output(first), said)

    def test_records(self):
        one = record(1, 1, 1, 0, 0, 0)
        self.shows("--records -", input=one + record(1, 0, 2**40, 0, 0, 0))
        self.refuses("--records -", "member 1", 43, input=one + record(1, 0, 2**40, 0, 0, 0))
        self.refuses("--records -", "member 0", 43, input=record(2**32, 0, 0, 0, 0, 0))
        self.refuses("--records -", "member 0", 43, input=record(1, 2, 0, 2**32, 1, 1))
        # Its own tests come before.
        self.refuses("--records -", "member 0", 1, input=record(3 * 2**40, 0, 0, 0, 0, 0))
        self.refuses("--records -", "the list of records", 20, input=bytes(47))
        text = self.shows("--width 32 --records -", input=record(8, 1, 8, 0, 0, 0))
        self.assertIn("alignment 8, size 8, ", text)

    def test_numbers_out_of_range(self):
        for number in M32 + 1, f"00{M32 + 1}", 2**64, 10**30:
            for word in f"bytes:{number}", f"type:{number}:4", f"unpadded:4:{number}", f"[bytes:{number}]":
                said = f"lukaripe: '{word}' is out of range: {number} is above 2^32 - 1\n"
                self.says(f"{CLI} layout --width 32 '{word}'", 2, "", said)
            for option in "--align", "--packed":
                said = f"lukaripe: {option} is out of range: {number} is above 2^32 - 1\n"
                self.says(f"{CLI} layout --width 32 {option} {number}", 2, "", said)


class Describe(WithProgram):
    def test_the_bytes_have_no_width(self):
        for text in SIZES:
            at64, at32 = (self.run_shell(f"{CLI} describe {quote(text)} --width {width}") for width in (64, 32))
            self.assertEqual((at64.returncode, at64.stdout), (at32.returncode, at32.stdout), text)

    def test_they_are_read(self):
        for text, sizes in SIZES.items():
            described = self.run_shell(f"{CLI} describe {quote(text)}").stdout
            for width, size in zip((64, 32), sizes):
                said = self.run_shell(f"{CLI} describe --read - --width {width}", input=described).stdout.decode()
                self.assertIn(f", size {size}, ", said, text)

    def test_what_does_not_fit_is_marked(self):
        said = "a number does not fit the chosen width (refusal 43)"
        text = "struct { u8, struct(packed 4294967296) {} }"
        self.says(f"{CLI} describe {quote(text)} >'{HOME}/type'")
        marked = f"lukaripe: the number at column 28: {said}\n{text}\n{' ' * 27}^\n"
        for command in "describe", "layout":
            self.says(f"{CLI} {command} --width 32 {quote(text)}", 1, "", marked)
        described = "0: 11 00 00 02 00 11 00 21 00\n" + " " * 24 + "^^\n"
        place = f"lukaripe: place 7 of standard input: {said}\n{described}"
        self.says(f"{CLI} describe --width 32 --read - <'{HOME}/type'", 1, "", place)
        # A power of 31 fits.
        self.assertIn("alignment 2147483648,", self.shows("--width 32 'struct(align 2147483648) {}'"))

    def test_what_is_above_the_greatest_number(self):
        first = f"{CLI} describe --width 32 '{LARGE}' 2>&1 | head -1"
        said = "lukaripe: the array at column 2: the size of an array overflows (refusal 37)\n"
        self.says(first, 0, said)
