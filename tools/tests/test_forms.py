"""Normal forms, and whether sizes agree. The numbers are by hand."""
import re

from test_cast import NO_SIZE
from test_describe import quote
from test_lukaripe import CLI, WithProgram
from test_width import M32

HEADS = ["base", "element", "alignment", "phase", "word"]
REFUSED = "the base of the normal form overflows (refusal 46)"
# No form with words of 32 bits.
LARGE32 = f"struct(align 2) {{ [u8; {M32}], [[u8; 2]] }}"

# Type and width; the numbers as composed and of the normal form, and the size with n elements.
NORMAL = [
    # 16, 16, 24, 24, ..: with phases 1 to 4 alike.
    ("struct { u64, u16, [u32] }", 64, (8, 4, 8, 4, 12), (8, 4, 8, 1, 9), "8 + up(1 + 4n, 8)"),
    ("struct { u64, u16, [u32] }", 32, (12, 4, 4, 0, 4), (12, 4, 1, 0, 1), "12 + 4n"),
    ("struct { [u32; 2], u8, [u8] }", 64, (8, 1, 4, 1, 5), (8, 1, 4, 1, 5), "8 + up(1 + n, 4)"),
    ("struct { u64, [u8] }", 64, (8, 1, 8, 0, 8), (8, 1, 8, 0, 8), "8 + up(n, 8)"),
    ("struct { u64, [u8] }", 32, (8, 1, 4, 0, 4), (8, 1, 4, 0, 4), "8 + up(n, 4)"),
    # 8, 12, 16, ..
    ("struct { u32, u8, [[u8; 4]] }", 64, (4, 4, 4, 1, 5), (8, 4, 1, 0, 1), "8 + 4n"),
    ("[type:8:4]", 64, (0, 8, 4, 0, 4), (0, 8, 1, 0, 1), "8n"),
    ("[u8]", 32, (0, 1, 1, 0, 1), (0, 1, 1, 0, 1), "n"),
    # Always 8.
    ("struct { u32, u8, [[u8; 0]] }", 64, (4, 0, 4, 1, 5), (8, 0, 1, 0, 1), "8"),
    (LARGE32, 64, (M32 - 1, 2, 2, 1, 3), (M32 + 1, 2, 1, 0, 1), f"{M32 + 1} + 2n"),
]

# up(1 + 4n, 8), up(2 + 4n, 8) and up(5 + 4n, 8).
ONE, TWO, FIVE = (f"struct(align 8) {{ [u8; {phase}], [[u8; 4]] }}" for phase in (1, 2, 5))

# Two types and a width; the answer, and both forms.
AGREE = [
    ("[u32]", "[f32]", 64, "yes", (0, 4, 1, 0, 1), (0, 4, 1, 0, 1)),
    (ONE, TWO, 64, "yes", (0, 4, 8, 1, 9), (0, 4, 8, 1, 9)),
    # 8, 8, 16, .. and 8, 16, 16, ..
    (ONE, FIVE, 64, "no: at count 1 the sizes are 8 and 16", (0, 4, 8, 1, 9), (8, 4, 8, 0, 8)),
    ("struct { u32, [u8] }", "[u8]", 64, "no: at count 0 the sizes are 4 and 0", (4, 1, 4, 0, 4), (0, 1, 1, 0, 1)),
    ("struct { u64, [u8] }", "struct { u32, u32, [u8] }", 64, "no: at count 1 the sizes are 16 and 12",
     (8, 1, 8, 0, 8), (8, 1, 4, 0, 4)),
    ("struct { u64, [u8] }", "struct { u32, u32, [u8] }", 32, "yes", (8, 1, 4, 0, 4), (8, 1, 4, 0, 4)),
    # They differ at 131071 alone, of the first 131072.
    ("struct(align 131072) { u8, [u8] }", "struct(align 131072) { u8, u8, [u8] }", 64,
     "no: the sizes are not equal at every count", (0, 1, 2**17, 1, 2**17 + 1), (0, 1, 2**17, 2, 2**17 + 2)),
    (NO_SIZE, NO_SIZE, 64, "yes", REFUSED, REFUSED),
    (NO_SIZE, "[[u8; 2]]", 64, "no: at count 0 the sizes are more than 2^64 - 1 and 0", REFUSED, (0, 2, 1, 0, 1)),
    ("[[u8; 2]]", LARGE32, 32, "no: at count 0 the sizes are 0 and more than 2^32 - 1", (0, 2, 1, 0, 1), REFUSED),
]


def cells(form):
    """What a row of the table has of a form."""
    return ["-"] * 5 + [form] if isinstance(form, str) else [str(number) for number in form]


class Normal(WithProgram):
    def test_forms(self):
        for text, width, composed, normal, formula in NORMAL:
            ran = self.run_shell(f"{CLI} normal {quote(text)} --width {width}")
            self.assertEqual((ran.returncode, ran.stderr), (0, b""), text)
            heads, *rows, empty, last = ran.stdout.decode().splitlines()
            self.assertEqual(heads.split(), HEADS)
            expected = [["composed", *cells(composed)], ["normal", *cells(normal)]]
            self.assertEqual([row.split() for row in rows], expected, (text, width))
            self.assertEqual((empty, last), ("", f"size with n elements: {formula}"), (text, width))

    def test_refused(self):
        self.says(f"{CLI} normal {quote(NO_SIZE)}", 1, "", f"lukaripe: '{NO_SIZE}': {REFUSED}\n")
        self.says(f"{CLI} normal {quote(LARGE32)} --width 32", 1, "", f"lukaripe: '{LARGE32}': {REFUSED}\n")

    def test_wrong_words(self):
        for words, said in [
            ("", "a TYPE is missing; see --help"),
            ("'[u8]' '[u8]'", "a TYPE is one word, in quotes; see --help"),
            ("'[u8]' --full", "unknown word '--full'; see --help"),
        ]:
            self.says(f"tools/lukaripe normal {words}", 2, "", f"lukaripe: {said}\n")


class Agree(WithProgram):
    def test_answers(self):
        for one, other, width, answer, *forms in AGREE:
            ran = self.run_shell(f"{CLI} agree {quote(one)} {quote(other)} --width {width}")
            self.assertEqual((ran.returncode, ran.stderr), (0, b""), (one, other))
            first, empty, title, heads, *rows = ran.stdout.decode().splitlines()
            answer = "yes: the sizes are equal at every count" if answer == "yes" else answer
            self.assertEqual((first, empty, title, heads.split()), (answer, "", "normal forms:", HEADS))
            rows = [re.split("  +", row) for row in rows]
            expected = [[name, *cells(form)] for name, form in zip(("one", "other"), forms)]
            self.assertEqual(rows, expected, (one, other))

    def test_the_other_way_round(self):
        for one, other, width, answer, *_ in AGREE:
            first = self.output(f"{CLI} agree {quote(other)} {quote(one)} --width {width} | head -1")
            self.assertEqual(first.split(":")[0], answer.split(":")[0], (one, other))

    def test_wrong_words(self):
        for words, said in [
            ("", "a TYPE is missing; see --help"),
            ("'[u8]'", "a TYPE is missing; see --help"),
            ("'[u8]' '[u8]' '[u8]'", "a TYPE is one word, in quotes; see --help"),
            ("'[u8]' '[u8]' --count 1", "unknown word '--count'; see --help"),
        ]:
            self.says(f"tools/lukaripe agree {words}", 2, "", f"lukaripe: {said}\n")
