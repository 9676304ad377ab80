"""Every short list of members, as the command-line program hands it out."""
import itertools

from test_lukaripe import CLI, WithProgram
from trial import HOME, M, line

# As many as document 02 has of up to 3 members; 5 packings of each list.
NUMBERS = {0: 5, 1: 25, 2: 105, 3: 425, 4: 1705, 5: 6825, 6: 27305}
SCALARS = "u8", "u16", "u32", "u64"
PACKINGS = 0, 1, 2, 4, 8


def composed(codes, packing, aligns):
    """Size and alignment, by the plain rule of repr(C)."""
    end, align = 0, 1
    for code in codes:
        least = min(aligns[code], packing) if packing else aligns[code]
        end, align = -(-end // least) * least + (1 << code), max(align, least)
    return -(-end // align) * align, align


class Cases(WithProgram):
    def lists(self, longest):
        for length in range(longest + 1):
            yield from itertools.product(itertools.product(range(4), repeat=length), PACKINGS)

    def test_numbers(self):
        for longest, number in NUMBERS.items():
            said = f"{number} cases, {8 * number} bytes\n"
            for width in 64, 32:
                self.says(f"{CLI} cases {longest} --width {width}", 0, said)
        self.says("tools/lukaripe cases 03", 0, "425 cases, 3400 bytes\n")

    def test_bytes(self):
        expected = b"".join(bytes([len(codes), packing, *codes, *[255] * (6 - len(codes))])
                            for codes, packing in self.lists(3))
        for width in 64, 32:
            self.says(f"{CLI} cases 3 --out '{HOME}/cases' --width {width}", 0, "425 cases, 3400 bytes\n")
            self.assertEqual((HOME / "cases").read_bytes(), expected)
        self.says(f"{CLI} cases 6 --out '{HOME}/cases'", 0, "27305 cases, 218440 bytes\n")
        self.assertEqual((HOME / "cases").read_bytes()[:3400], expected)
        self.assertEqual((HOME / "cases").stat().st_size, 218440)

    def test_lists(self):
        for width, aligns in (64, (1, 2, 4, 8)), (32, (1, 2, 4, 4)):
            text = self.output(f"{CLI} cases 3 --list --width {width}")
            heads, *rows, empty, last = text.splitlines()
            self.assertEqual(heads.split(), ["packing", "size", "align", "members"])
            self.assertEqual((empty, last), ("", "425 cases, 3400 bytes"))
            expected = []
            for codes, packing in self.lists(3):
                size, align = composed(codes, packing, aligns)
                expected.append([str(packing or "-"), str(size), str(align), *(SCALARS[code] for code in codes)])
            self.assertEqual([row.split() for row in rows], expected)

    def test_a_list(self):
        said = """\
packing  size  align  members
      -     0      1
      1     0      1
      2     0      1
      4     0      1
      8     0      1

5 cases, 40 bytes
"""
        self.says("tools/lukaripe cases --list 0", 0, said)

    def test_what_is_refused(self):
        for longest in 7, M:
            said = f"lukaripe: lists of up to {longest} members: the lists are longer than 6 members (refusal 47)\n"
            for width in 64, 32:
                self.says(f"{CLI} cases {longest} --out '{HOME}/none' --width {width}", 1, "", said)
        self.assertFalse((HOME / "none").exists())

    def test_wrong_words(self):
        for words, said in [
            ("", "N is missing; see --help"),
            ("1 2", "N is one number; see --help"),
            ("x", "N is a number, decimal digits alone, not 'x'; see --help"),
            (f"{M + 1}", f"N is out of range: {M + 1} is above 2^64 - 1"),
            ("1 --out", "--out takes a word, FILE; see --help"),
            ("1 --out -", "--out takes the name of a file, not '-'; see --help"),
            ("1 --list=2", "an option takes no value; see --help"),
            ("1 --hex", "unknown word '--hex'; see --help"),
        ]:
            self.says(f"tools/lukaripe cases {words}", 2, "", f"lukaripe: {said}\n")
        said = line("lukaripe", "'/none/x' cannot be written: No such file or directory")
        self.says("tools/lukaripe cases 1 --out /none/x", 1, "", said)
