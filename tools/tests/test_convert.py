"""Which records `convert` converts, and for which of the eight reasons it does not. The numbers are by hand."""
from test_cast import NO_SIZE
from test_describe import quote
from test_lukaripe import CLI, WithProgram
from test_width import M32
from trial import M

WIDE = "struct { [u32; 2], [u32] }"
NARROW = "struct { [u16; 2], [u16] }"
# 8 + up(4 + 8n, 8), and 8 + 8n with alignment 4.
SHIFTED = "struct { u64, u32, [[u32; 2]] }"
PAIRS = "struct { [u32; 2], [[u32; 2]] }"
# up(3 + 2n, 4) and up(2n, 4): sizes 4, 8, 8, 12, .. and 0, 4, 4, 8, 8, 12, ..
PHASED = "struct(align 4) { [u8; 3], [[u8; 2]] }"
PLAIN = "struct(align 4) { [[u8; 2]] }"

# From, to and other words; how counts are converted; and where they are shown both counts and the size.
CONVERTED = [
    (WIDE, NARROW, "", "count n becomes 2 + 2n", None),
    (WIDE, NARROW, "--count 3", "count n becomes 2 + 2n", (3, 8, 20)),
    (WIDE, NARROW, "--full --count 0", "count n becomes 2 + 2n", (0, 2, 8)),
    ("[u32]", "[u16]", "--count 3", "count n becomes 2n", (3, 6, 12)),
    ("[u32]", "[f32]", "--count 3", "count n becomes n", (3, 3, 12)),
    # By the second way.
    (SHIFTED, PAIRS, "--count 2", "count n becomes 1 + n", (2, 3, 32)),
    # In the full mode alone.
    (PHASED, PLAIN, "--full --count 3", "count n becomes 2 + n", (3, 5, 12)),
    ("type:16:4", PAIRS, "", "the count is always 1", ("-", 1, 16)),
    ("type:16:4", PAIRS, "--count 7", "the count is always 1", ("-", 1, 16)),
    ("[u32; 5]", WIDE, "--full", "the count is always 3", ("-", 3, 20)),
    ("type:8:8", "struct { u32, u32 }", "", "both are of the same fixed size", ("-", "-", 8)),
    # What has another alignment or size with words of 32 bits.
    ("u64", "type:8:8", "", "both are of the same fixed size", ("-", "-", 8)),
    ("struct { u8, u64 }", "type:12:4", "--width 32", "both are of the same fixed size", ("-", "-", 12)),
    ("usize", "u32", "--width 32", "both are of the same fixed size", ("-", "-", 4)),
    ("[u32]", "[u16]", f"--count {2**31}", "count n becomes 2n", (2**31, 2**32, 2**33)),
]

# From, to and other words; the number and the numbers that it is about.
REFUSED = [
    ("[u16]", "[u32]", "", 25, "the source has alignment 2, the target 4"),
    ("u64", "type:8:8", "--width 32", 25, "the source has alignment 4, the target 8"),
    ("bytes:15", PAIRS, "", 25, "the source has alignment 1, the target 4"),
    ("u32", "[u8; 3]", "", 26, "the source has size 4, the target 3"),
    ("struct { u8, u64 }", "type:12:4", "", 26, "the source has size 16, the target 12"),
    ("[u32]", "u32", "", 27, "the source has elements of 4 bytes, the target the size 4"),
    ("type:12:4", PAIRS, "", 28, "the source has size 12; of the target the nearest sizes are 8 and 16"),
    ("type:4:4", PAIRS, "", 28, "the source has size 4; of the target the least size is 8"),
    ("u8", "[bytes:0]", "", 28, "the source has size 1; of the target the only size is 0"),
    ("[u8]", "[bytes:0]", "", 29, "the source has elements of 1 byte, the target of 0"),
    ("[u8]", "[bytes:2]", "", 30, "the source has elements of 1 byte, the target of 2"),
    ("[bytes:3]", "[bytes:2]", "", 31, "the source has elements of 3 bytes, the target of 2"),
    ("[u8]", "struct { u8, [u8] }", "", 32,
     "without elements the source has size 0; of the target the least size is 1"),
    ("struct { [u8; 3], [[u8; 2]] }", "[[u8; 2]]", "", 32,
     "without elements the source has size 3; of the target the nearest sizes are 2 and 4"),
    # 4 + up(n, 4) and n.
    ("struct { u32, [u8] }", "[u8]", "", 32,
     "0 elements of the source and 4 of the target have size 4, but 1 and 5 have 8 and 5"),
    ("struct { u32, [u8] }", "[u8]", "--full", 32,
     "0 elements of the source and 4 of the target have size 4, but 1 and 5 have 8 and 5"),
    # up(1 + n, 131072) and up(2 + n, 131072), of which the first 131071 are equal.
    ("struct(align 131072) { u8, [u8] }", "struct(align 131072) { u8, u8, [u8] }", "--full", 32,
     "0 elements of the source and 131070 of the target have size 131072, but 1 and 131071 have 131072 and 262144"),
    # 2^18 + up(3n, 2^18) and up(2 + 3n, 2^18), which differ at 87382, later than is looked for.
    ("struct(align 262144) { [u8; 262144], [[u8; 3]] }", "struct(align 262144) { u16, [[u8; 3]] }", "--full", 32,
     "0 elements of the source and 87380 of the target have size 262144, but further on the sizes differ"),
    (PHASED, PLAIN, "", 32,
     "the sizes are equal, but rounded to 4 from phase 3 and to 4 from phase 0; --full converts"),
    (NO_SIZE, "[[u8; 2]]", "", 32, "the source: the size without elements overflows (refusal 39)"),
    (f"struct(align 2) {{ [u8; {M32}], [[u8; 2]] }}", "[[u8; 2]]", "--width 32", 32,
     "the source: the size without elements overflows (refusal 39)"),
]


class Convert(WithProgram):
    def test_what_is_converted(self):
        for source, target, words, becomes, sizes in CONVERTED:
            ran = self.run_shell(f"{CLI} convert {quote(source)} {quote(target)} {words}")
            self.assertEqual((ran.returncode, ran.stderr), (0, b""), (source, target, words))
            first, second, params, *table = ran.stdout.decode().splitlines()
            self.assertRegex(first + second, r"^from: alignment \d+, .*to: alignment \d+, ")
            self.assertEqual(params, becomes)
            rows = [row.split() for row in table]
            if sizes is None:
                self.assertEqual(rows, [])
                continue
            *counts, size = map(str, sizes)
            expected = [[], ["count", "size"], ["from", counts[0], size], ["to", counts[1], size]]
            self.assertEqual(rows, expected, (source, target, words))

    def test_all_that_is_said(self):
        said = """\
from: alignment 4, elements of 4 bytes from place 8 on
to: alignment 2, elements of 2 bytes from place 4 on
count n becomes 2 + 2n

      count  size
from      3    20
to        8    20
"""
        self.says(f"tools/lukaripe convert {quote(WIDE)} {quote(NARROW)} --count=3", 0, said)

    def test_what_is_refused(self):
        causes = self.causes()
        for source, target, words, number, why in REFUSED:
            ran = self.run_shell(f"{CLI} convert {quote(source)} {quote(target)} {words}")
            said = f"lukaripe: no conversion: {causes[number]} (refusal {number}): {why}\n"
            self.assertEqual((ran.returncode, ran.stdout, ran.stderr.decode()), (1, b"", said), (source, target))
        self.assertEqual({number for *_, number, _ in REFUSED}, set(range(25, 33)))

    def test_counts_that_are_refused(self):
        most = "the greatest count of the source is"
        none = "of the source: the size at this count of elements overflows (refusal 15)"
        for words, said in [
            (f"'[u32]' '[u16]' --count {2**63}",
             f"count {2**63}: the converted count overflows (refusal 19): {most} {2**62 - 1}"),
            (f"'[u32]' '[u16]' --count {2**31} --width 32",
             f"count {2**31}: the converted count overflows (refusal 19): {most} {2**30 - 1}"),
            (f"'[u32]' '[u32]' --count {2**62}",
             f"count {2**62} {none}: {most} {2**62 - 1}"),
            (f"'[u32]' '[u32]' --count {2**30} --width 32",
             f"count {2**30} {none}: {most} {2**30 - 1}"),
        ]:
            self.says(f"{CLI} convert {words}", 1, "", f"lukaripe: {said}\n")

    def test_wrong_words(self):
        for words, said in [
            ("", "a TYPE is missing; see --help"),
            ("u8", "a TYPE is missing; see --help"),
            ("u8 u8 u8", "a TYPE is one word, in quotes; see --help"),
            ("u8 u8 --count", "--count takes a number; see --help"),
            ("u8 u8 --count x", "--count takes a number, not 'x'; see --help"),
            (f"u8 u8 --count {M + 1}", f"--count is out of range: {M + 1} is above 2^64 - 1"),
            (f"u8 u8 --count {M32 + 1} --width 32", f"--count is out of range: {M32 + 1} is above 2^32 - 1"),
            ("u8 u8 --full=1 --count 1", "an option takes no value; see --help"),
            ("u8 u8 --mode full", "unknown word '--mode'; see --help"),
        ]:
            self.says(f"tools/lukaripe convert {words}", 2, "", f"lukaripe: {said}\n")
