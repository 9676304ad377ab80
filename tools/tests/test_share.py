"""How much of some records is padding. The numbers are by hand."""
import re

from test_cast import NO_SIZE, RECORD
from test_describe import quote
from test_lukaripe import CLI, WithProgram
from test_width import M32
from trial import HOME, M, line

FIRST = """\
index  count  size  padding  of the size
    0      3    12        0  ---------------------------------------------------
    1      0    12        3  --------------------------------------xxxxxxxxxxxxx
    2      4    16        3  -----------------------------------------xxxxxxxxxx
  all                        -------------------------------------------xxxxxxxx
- used   x padding

padding: 3/20 of the total size, 15.00 %
mean size: 40/3, about 13.33
greatest padding: 3, first at index 1, count 0
"""

# Type, counts and width; sizes and paddings, the three lines below.
SHARES = [
    (RECORD, "3 0 4", 64, [(12, 0), (12, 3), (16, 3)],
     ("3/20 of the total size, 15.00 %", "40/3, about 13.33", "3, first at index 1, count 0")),
    (RECORD, "4 3 0", 64, [(16, 3), (12, 0), (12, 3)],
     ("3/20 of the total size, 15.00 %", "40/3, about 13.33", "3, first at index 0, count 4")),
    ("[u16]", "5", 64, [(10, 0)], ("0/1 of the total size, 0.00 %", "10", "0, first at index 0, count 5")),
    ("[bytes:0]", "5 6", 64, [(0, 0), (0, 0)], ("0/1 of the total size, 0.00 %", "0", "0, first at index 0, count 5")),
    # up(n, 8): a size of 0 among others.
    ("struct(align 8) { [u8; 0], [u8] }", "0 1", 64, [(0, 0), (8, 7)],
     ("7/8 of the total size, 87.50 %", "4", "7, first at index 1, count 1")),
    # 8 + up(1 + n, 8), and 8 + up(1 + n, 4).
    ("struct { u64, u8, [u8] }", "0 5", 64, [(16, 7), (16, 2)],
     ("9/32 of the total size, 28.12 %", "16", "7, first at index 0, count 0")),
    ("struct { u64, u8, [u8] }", "0 5", 32, [(12, 3), (16, 2)],
     ("5/28 of the total size, 17.86 %", "14", "3, first at index 0, count 0")),
    ("[u8]", f"{M - 1} 1", 64, [(M - 1, 0), (1, 0)],
     ("0/1 of the total size, 0.00 %", f"{M}/2, about {M / 2:.2f}", f"0, first at index 0, count {M - 1}")),
    ("[u8]", f"{M32} 1", 64, [(M32, 0), (1, 0)],
     ("0/1 of the total size, 0.00 %", f"{2**31}", f"0, first at index 0, count {M32}")),
]


class Share(WithProgram):
    def test_all_that_is_said(self):
        self.says(f"tools/lukaripe share {quote(RECORD)} 3 0 4", 0, FIRST)

    def rows(self, text):
        """The rows of the table, and what stands below it."""
        table, below = text.split("- used   x padding\n\n")
        heads, *rows = table.splitlines()
        self.assertEqual(heads.split("  ")[-1], "of the size")
        return [row.split() for row in rows], below

    def test_shares(self):
        for text, counts, width, numbers, (padding, mean, greatest) in SHARES:
            ran = self.run_shell(f"{CLI} share {quote(text)} {counts} --width {width}")
            self.assertEqual((ran.returncode, ran.stderr), (0, b""), (text, counts))
            rows, below = self.rows(ran.stdout.decode())
            given = enumerate(zip(counts.split(), numbers))
            expected = [[str(at), count, *map(str, both)] for at, (count, both) in given]
            self.assertEqual([row[:4] for row in rows[:-1]], expected, (text, counts))
            self.assertEqual(rows[-1][0], "all")
            said = f"padding: {padding}\nmean size: {mean}\ngreatest padding: {greatest}\n"
            self.assertEqual(below, said, (text, counts))

    def test_bars(self):
        for columns, cells in ("", 51), ("--columns 40", 11), ("--columns 200", 171):
            rows, _ = self.rows(self.output(f"{CLI} share {quote(RECORD)} 3 0 4 {columns}"))
            bars = [row[-1] for row in rows]
            self.assertEqual({len(bar) for bar in bars}, {cells})
            self.assertTrue(all(re.fullmatch("-+x*", bar) for bar in bars))
            shares = [0, 3 / 12, 3 / 16, 3 / 20]
            self.assertEqual([bar.count("x") for bar in bars], [round(share * cells) for share in shares])
        # There are no bytes to draw, and what is small is seen.
        rows, _ = self.rows(self.output(f"{CLI} share '[bytes:0]' 5"))
        self.assertEqual(rows, [["0", "5", "0", "0"], ["all"]])
        rows, _ = self.rows(self.output(f"{CLI} share 'struct {{ u16, [u8] }}' 9999"))
        self.assertEqual(rows[0][-1].count("x"), 1)
        # Numbers that leave no room.
        rows, _ = self.rows(self.output(f"{CLI} share '[u8]' {M} --columns 40"))
        self.assertEqual(rows[0][-1], "-" * 10)

    def test_many(self):
        # 4 + up(n, 4): 25 times paddings 0, 3, 2, 1; the sizes add up to 100 * 4, 0 + .. + 99 and the padding, 150.
        for command in f"seq 0 99 | {CLI} share 'struct {{ u32, [u8] }}' --counts -", (
            f"{CLI} share --counts=<(seq 0 99) 'struct {{ u32, [u8] }}'"
        ), f"{CLI} share 'struct {{ u32, [u8] }}' $(seq 0 99)":
            text = self.output(command)
            rows, below = self.rows(text.replace("80 more counts are not listed\n", ""))
            self.assertEqual([row[1] for row in rows[:-1]], [str(count) for count in range(20)])
            self.assertIn("\n80 more counts are not listed\n- used", text)
            self.assertIn("padding: 3/110 of the total size, 2.73 %\nmean size: 55\n", below)
            self.assertIn("greatest padding: 3, first at index 1, count 1\n", below)
        self.assertNotIn("not listed", self.output(f"{CLI} share '[u8]' $(seq 20)"))

    def test_files(self):
        (HOME / "counts").write_text("3\n\n  0 \r\n4")
        self.says(f"tools/lukaripe share {quote(RECORD)} --counts '{HOME}/counts'", 0, FIRST)
        for given, said in [
            ("3\nx\n", "line 2 of standard input: 'x' is no count: a number is decimal digits alone"),
            ("3 4\n", "line 1 of standard input: '3 4' is no count: a number is decimal digits alone"),
            ("\n-1", "line 2 of standard input: '-1' is no count: a number is decimal digits alone"),
            (f"{M + 1}", f"line 1 of standard input: a count is out of range: {M + 1} is above 2^64 - 1"),
        ]:
            self.says(f"{CLI} share '[u8]' --counts -", 1, "", f"lukaripe: {said}\n", input=given.encode())
        said = f"lukaripe: line 1 of standard input: a count is out of range: {M32 + 1} is above 2^32 - 1\n"
        self.says(f"{CLI} share '[u8]' --counts - --width 32", 1, "", said, input=str(M32 + 1).encode())
        for words, *parts in [
            ("--counts none", "no file 'none'"),
            ("--counts .", "'.' is a directory"),
            ("--counts - <&-", "standard input is closed"),
            ("--counts=- <&-", "standard input is closed"),
            ("1 >/dev/full", "standard output: No space left on device"),
        ]:
            self.says(f"tools/lukaripe share '[u8]' {words}", 1, "", line("lukaripe", *parts))

    def test_what_is_refused(self):
        none = "the size at this count of elements overflows (refusal 15): the greatest that has one is"
        for words, said in [
            (f"'[u64]' 1 {2**61}", f"count {2**61} at index 1: {none} {2**61 - 1}"),
            (f"'[u64]' {2**29} --width 32", f"count {2**29} at index 0: {none} {2**29 - 1}"),
            (f"{quote(NO_SIZE)} 0", "count 0 at index 0: the size without elements overflows (refusal 39)"),
            (f"'[u8]' {M} 0 1", "count 1 at index 2: a sum over the counts overflows (refusal 53)"),
            (f"'[u8]' {M32} 1 --width 32", "count 1 at index 1: a sum over the counts overflows (refusal 53)"),
            ("'[u8]' --counts /dev/null", "the list of counts: there are no counts (refusal 51)"),
        ]:
            self.says(f"{CLI} share {words}", 1, "", f"lukaripe: {said}\n")

    def test_wrong_words(self):
        for words, said in [
            ("", "a TYPE is missing; see --help"),
            ("--counts x", "a TYPE is missing; see --help"),
            ("'[u8]'", "a COUNT is missing; see --help"),
            ("'[u8]' 1 --counts x", "counts are words or --counts FILE, not both; see --help"),
            ("'[u8]' --counts", "--counts takes a word, FILE; see --help"),
            ("'[u8]' x", "'x' is no count: a number is decimal digits alone; see --help"),
            ("'[u8]' 1 ''", "'' is no count: a number is decimal digits alone; see --help"),
            (f"'[u8]' {M + 1}", f"a count is out of range: {M + 1} is above 2^64 - 1"),
            (f"'[u8]' {M32 + 1} --width 32", f"a count is out of range: {M32 + 1} is above 2^32 - 1"),
            ("'[u8]' 1 --columns 39", "--columns takes a number from 40 to 1000, not '39'; see --help"),
            ("'[u8]' 1 --columns 1001", "--columns takes a number from 40 to 1000, not '1001'; see --help"),
            ("'[u8]' 1 --columns x", "--columns takes a number, 1 or more, not 'x'; see --help"),
            ("'[u8]' 1 --svg x", "unknown word '--svg'; see --help"),
        ]:
            self.says(f"tools/lukaripe share {words}", 2, "", f"lukaripe: {said}\n")
