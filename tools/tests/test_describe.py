"""What the command-line program makes of types as texts and of their descriptions. Layouts are by hand, or by a plain
rule."""
import random
import re

from test_lukaripe import CLI, SIGNED, WithProgram
from trial import HOME, TREE, line

MESSAGE = "struct(align 8) { id: u64, [u16; 4], head: struct { u8, u32 }, [u8] }"
BYTES = bytes([17, 4, 0, 4, 3, 16, 4, 0, 0, 0, 1, 17, 0, 0, 2, 0, 2, 18, 0])
# An array of M bytes.
LARGE = "[[[u8; 4294967295]; 641]; 6700417]"
LARGE_BYTES = bytes.fromhex("10 813d6600 10 81020000 10 ffffffff 00")

# Of each line of the table what stands in it; then the whole.
TABLES = {
    MESSAGE: (
        """
        0      id          0   8       8  0
        1      [u16; 4]    8   8       2  0
        2      head        16  8       4  0
        2.0      u8        16  1       1  0
        2.1      u32       20  4       4  3
        3      [u8]        24  1 each  1  0
        """,
        "alignment 8, elements of 1 byte from place 24 on; there may be padding; with an alignment modifier",
    ),
    "struct { u8, struct { u32, b: struct { u16, u8 }, u8 }, u8 }": (
        """
        0      u8                 0   1   1  0
        1      struct             4   12  4  3
        1.0      u32              4   4   4  0
        1.1      b                8   4   2  0
        1.1.0      u16            8   2   2  0
        1.1.1      u8             10  1   1  0
                   closing padding  11  1
        1.2      u8               12  1   1  0
                 closing padding  13  3
        2      u8                 16  1   1  0
        """,
        "alignment 4, size 20, closing padding 3; there may be padding",
    ),
    "struct(packed 2) { u8, struct { u8, u64 }, [struct(packed 1) { u8, u16 }; 3] }": (
        """
        0       u8                           0   1   1  0
        1       struct                       2   16  8  1
        1.0       u8                         2   1   1  0
        1.1       u64                        10  8   8  7
        2       [struct(packed 1); 3]        18  9   1  0
        2[0].0    u8                         18  1   1  0
        2[0].1    u16                        19  2   2  0
        """,
        "alignment 2, size 28, closing padding 1; there may be padding",
    ),
    "struct { u8, struct { u16, rest: [[struct { u8, u16 }; 3]] } }": (
        """
        0            u8      0  1            1  0
        1            struct  2  2 + 12 each  2  1
        1.0            u16   2  2            2  0
        1.1            rest  4  12 each      2  0
        1.1[0][0].0      u8   4  1            1  0
        1.1[0][0].1      u16  6  2            2  1
        """,
        "alignment 2, elements of 12 bytes from place 4 on; there may be padding",
    ),
    "[struct { u32, u8 }; 3]": (
        """
        0       [struct; 3]        0  24  4  0
        0[0].0    u32              0  4   4  0
        0[0].1    u8               4  1   1  0
                  closing padding  5  3
        """,
        "alignment 4, size 24, closing padding 0; there may be padding",
    ),
    "[struct { u8, u16 }]": (
        """
        0       [struct]  0  4 each  2  0
        0[0].0    u8      0  1       1  0
        0[0].1    u16     2  2       2  1
        """,
        "alignment 2, elements of 4 bytes from place 0 on; no padding known between the members",
    ),
    "[struct { u8 }; 0]": ("0  [struct; 0]  0  0  1  0", "alignment 1, size 0, closing padding 0; no padding known"),
    "[u16; 4]": ("0  [u16; 4]  0  8  2  0", "alignment 2, size 8, closing padding 0; no padding known"),
    # More than a composition takes of a member.
    f"[struct(align {2**63}) {{}}; 2]": (
        f"0  [struct(align {2**63}); 2]  0  0  {2**63}  0",
        f"alignment {2**63}, size 0, closing padding 0; no padding known; with an alignment modifier",
    ),
}

# Texts that are refused: the number, what is said to be refused, and what stands from the mark on.
REFUSED = [
    ("struct { [u8], u8 }", 7, "the struct at column 1, member 1 (u8)", "struct { [u8]"),
    ("struct { u8, x: struct { [u8], y: u8 } }", 7, "the struct at column 17, member 1 (y)", "struct { [u8], y"),
    # What comes behind the member is not read.
    ("struct { [u8], [[u16]; 3], [u32] }", 36, "the array at column 16", "[[u16]; 3]"),
    ("struct { [u8], a: struct {}, [[u16]; 3] }", 7, "the struct at column 1, member 1 (a)", "struct { [u8]"),
    ("struct(align 1073741824) { u8 }", 6, "the struct at column 1, member 0 (u8)", "struct("),
    ("struct { u8, struct(packed 1073741824) { u8 } }", 6, "the struct at column 14, member 0 (u8)", "struct(packed"),
    (f"struct {{ a: {LARGE}, u16 }}", 8, "the struct at column 1, member 1 (u16)", "struct"),
    (f"struct(align 2) {{ {LARGE} }}", 8, "the struct at column 1, the closing padding", "struct"),
    (f"struct {{ {LARGE}, [u8; 1] }}", 9, "the struct at column 1, member 1 ([u8; 1])", "struct"),
    ("[" * 17 + "u8" + "]" * 17, 35, "the slice at column 17", "[u8]"),
    ("struct { " * 17 + "}" * 17, 35, "the struct at column 145", "struct { }"),
    ("struct { [[u8]; 3] }", 36, "the array at column 10", "[[u8]; 3]"),
    ("[ [u8] ]", 36, "the slice at column 1", "[ [u8] ]"),
    ("[struct { [u8] }]", 36, "the slice at column 1", "[struct"),
    (f"[{LARGE}; 2]", 37, "the array at column 1", "[["),
    (f"struct {{\n  u8,\n  [{LARGE}; 2],\n}}", 37, "the array at line 3, column 3", "[["),
]

# Bytes that are refused, the number and the place.
REFUSED_BYTES = [
    ("", 33, 0),
    ("11", 33, 1),
    ("10 01 00 00", 33, 4),
    ("11 00 00 02 00", 33, 5),
    ("11 00 00 ff" + " 00" * 28, 33, 32),
    ("09", 34, 0),
    ("ff", 34, 0),
    ("11 41", 34, 1),
    ("11 00 41", 34, 2),
    ("11 00 00 02 12 00 14", 34, 6),
    ("12 " * 16 + "10", 35, 16),
    ("12 12 00", 36, 0),
    ("11 00 00 01 10 03 00 00 00 12 00", 36, 4),
    ("10 02 00 00 00" + LARGE_BYTES.hex(), 37, 0),
    ("00 00", 38, 1),
    ("11 00 00 14" + " 00" * 21, 38, 24),
    ("11 1f 00 01 00", 6, 0),
    ("11 00 00 02 00 11 00 00 02 12 00 00", 7, 5),
    ("11 02 00 01" + LARGE_BYTES.hex(), 8, 0),
    ("11 00 00 02" + LARGE_BYTES.hex() + "00", 9, 0),
]

# Texts that are wrong, and what is said of them.
FAULTS = [
    ("", "a type is missing at column 1"),
    ("u128", "no type 'u128' at column 1"),
    ("struct { i32 }", f"no type 'i32' at column 10: {SIGNED.format('u32')}"),
    ("struct { 名: u128 }", "no type 'u128' at column 13"),
    ("struct", "'{' is missing at column 7"),
    ("struct { u8", "',' or '}' is missing at column 12"),
    ("struct { u8 u8 }", "',' or '}' is missing at column 13"),
    ("struct { , }", "a type is missing at column 10"),
    ("struct {\n  u8,\n  u128 }", "no type 'u128' at line 3, column 3"),
    ("struct() { u8 }", "'align' or 'packed' is missing at column 8"),
    ("struct(align 3) { u8 }", "align 3 at column 14: it takes a power of two up to 2^63"),
    ("struct(align 8, packed 0) { u8 }", "packed 0 at column 24: it takes a power of two up to 2^63"),
    (f"struct(align {2**64}) {{ u8 }}", f"align {2**64} at column 14: it takes a power of two up to 2^63"),
    ("struct(align 8, align 4) { u8 }", "a second 'align' at column 17"),
    ("struct(align 8 { u8 }", "',' or ')' is missing at column 16"),
    ("struct { u8 }; ", "';' behind the type at column 14"),
    ("[struct { u8 }", "';' or ']' is missing at column 15"),
    ("[u8; ]", "a number, decimal digits alone, is missing at column 6"),
    ("[u8; 0x10]", "a number, decimal digits alone, is missing at column 6"),
    ("[u8; 4294967296]", "count 4294967296 at column 6: a count is at most 2^32 - 1"),
]


def quote(text):
    """A text as a word of the shell."""
    return "'" + text.replace("'", "'\"'\"'") + "'"


def is_text(word):
    """Whether `layout` takes a word for a text; else it is a member."""
    return "struct" in word or ";" in word


class Texts(WithProgram):
    """`layout` of a text."""

    def rows(self, text):
        """Of each line of the table its first word where it has one, the indentation, and what follows."""
        table = text[: text.index("\n\nwhole:")].splitlines()
        at = table[0].index("name")
        indent = lambda name: len(name) - len(name.lstrip())
        return [(row[:at].strip(), indent(row[at:]), *re.split("  +", row[at:].strip())) for row in table[1:]]

    def test_tables(self):
        for text, (table, whole) in TABLES.items():
            expected = []
            for row in table.strip().splitlines():
                cells = re.split("  +", row.strip())
                path = "" if cells[0] == "closing padding" else cells.pop(0)
                expected.append((path, *cells))
            said = self.shows(quote(text))
            rows = self.rows(said)
            self.assertEqual([(row[0], *row[2:]) for row in rows], expected, text)
            for path, indent, *_ in rows:
                if path:
                    self.assertEqual(indent, 2 * path.count("."), text)
            self.assertIn(f"\nwhole: {whole}\n", said, text)

    def test_closing_padding_is_indented(self):
        said = self.shows(quote("struct { struct { u32, struct { u16, u8 }, u8 }, u8 }"))
        closing = [row[1:] for row in self.rows(said) if not row[0]]
        self.assertEqual(closing, [(4, "closing padding", "7", "1"), (2, "closing padding", "9", "3")])

    def test_structs_of_scalars_are_as_by_words(self):
        for text, words in {
            "struct { u8, u64, u16 }": "u8 u64 u16",
            "struct{id:u64,u8,[u8]}": "id=u64 u8 '[u8]'",
            " struct ( packed 2 ) { u8 , u64 , } ": "--packed 2 u8 u64",
            "struct(align 32, packed 4) { u8, u64 }": "--align 32 --packed 4 u8 u64",
            "struct(packed 4, align 32) {\n\tu8,\n\tu64\n}": "--align 32 --packed 4 u8 u64",
            "struct {}": "",
            "struct(align 16) {}": "--align 16",
        }.items():
            self.assertEqual(self.shows(quote(text)), self.shows(words), text)
            self.assertEqual(self.shows(quote(text) + " --columns 40"), self.shows(words + " --columns 40"), text)

    def test_the_bar_has_the_outermost_members(self):
        text = self.shows(quote("struct { u8, struct { u8, u32 }, u8 }"))
        self.assertEqual(self.bar(text), "0----" + 15 * "." + "1" + 39 * "-" + "2----" + 15 * "x")

    def test_words_that_are_members_stay_so(self):
        for word in "struct=u8", "a{b=u8", "{}=[u8]", "a;=u8", "struct { u8 }=u8":
            self.assertRegex(self.shows(quote(word)), rf"(?m)^ +0  {re.escape(word.split('=')[0])}  ")
        for word in "structure", "[[u8]]", "[u8,u8]":
            self.says(f"{CLI} layout '{word}'", 2, "", f"lukaripe: '{word}' is no member; see --help\n")

    def test_wrong_words(self):
        alone = line("lukaripe", "a TEXT is one word, in quotes, and has no members beside it; see --help")
        for words in "u8 'struct { u8 }'", "'struct { u8 }' u8", "struct { u8, u8 }", "'[u8; 3]' '[u8; 3]'":
            self.says(f"tools/lukaripe layout {words}", 2, "", alone)
        for option in "--align 8", "--packed=1":
            said = line("lukaripe", "alignment and packing of a TEXT stand in it, as 'struct(align 8) { u8 }'")
            self.says(f"tools/lukaripe layout {option} 'struct {{ u8 }}'", 2, "", said)
        said = line("lukaripe", "words or --records FILE, not both")
        self.says("tools/lukaripe layout --records x 'struct { u8 }'", 2, "", said)

    def test_the_picture_has_the_table(self):
        root = self.picture(quote(MESSAGE))
        svg = "{http://www.w3.org/2000/svg}"
        # Of each text where it stands last, which is in the table.
        texts = {text.text: float(text.get("x")) for text in root.iter(f"{svg}text")}
        self.assertIn("repr(C, align(8)), 4 members", texts)
        self.assertIn("2.1", texts)
        self.assertEqual(texts["id"], texts["head"])
        self.assertGreater(texts["u32"], texts["head"])
        self.assertIn("[struct; 3]", [text.text for text in self.picture("'[struct { u8 }; 3]'").iter(f"{svg}text")])


class Random(WithProgram):
    """Random types of a fixed size, by the plain rule of repr(C), at either width."""

    SIZES = {"u8": 1, "u16": 2, "u32": 4, "u64": 8, "f32": 4, "f64": 8, "char": 4, "bool": 1, "usize": 8}
    # Of each width the size of usize, and the greatest alignment of a scalar.
    width, pointer, most = 64, 8, 8

    def any_type(self, depth):
        """The text of a type, its bytes, size and alignment, and the lines of what it holds, from its own start."""
        sort = random.choice(["scalar", "struct", "struct", "array"]) if depth else "scalar"
        if sort == "scalar":
            code = random.randrange(9)
            name = list(self.SIZES)[code]
            size = self.pointer if name == "usize" else self.SIZES[name]
            return name, bytes([code]), size, min(size, self.most), []
        if sort == "array":
            text, described, size, align, rows = self.any_type(depth - 1)
            count = random.choice([0, 1, 3, 300])
            rows = [(f"[0]{path}" if path else "", place, *rest) for path, place, *rest in rows] if count else []
            head = bytes([16]) + count.to_bytes(4, "little")
            return f"[{text}; {count}]", head + described, size * count, align, rows
        return self.any_struct(depth)

    def any_struct(self, depth):
        own, packed = random.choice([None, 0, 2, 4]), random.choice([None, None, 0, 1, 3])
        mods = [f"{name} {1 << power}" for name, power in (("align", own), ("packed", packed)) if power is not None]
        texts, described, rows = [], b"", []
        end, align = 0, 1 << (own or 0)
        for index in range(random.randrange(4)):
            text, inner, size, inner_align, inner_rows = self.any_type(depth - 1)
            least = inner_align if packed is None else min(inner_align, 1 << packed)
            place = -(-end // least) * least
            rows.append((f".{index}", place, str(size), str(inner_align), str(place - end)))
            rows += [(path and f".{index}{path}", place + at, *rest) for path, at, *rest in inner_rows]
            end, align = place + size, max(align, least)
            texts.append(random.choice(["", "a: ", "name:"]) + text)
            described += inner
        size = -(-end // align) * align
        if size > end:
            rows.append(("", end, str(size - end)))
        powers = [0 if power is None else 1 + power for power in (own, packed)]
        text = "struct" + (f"({', '.join(mods)})" if mods else "") + " { " + ", ".join(texts) + " }"
        return text, bytes([17, *powers, len(texts)]) + described, size, align, rows

    def test_bytes_and_tables(self):
        random.seed(4)
        self.bytes_and_tables(150)

    def test_bytes_and_tables_at_32_bits(self):
        random.seed(5)
        self.width, self.pointer, self.most = 32, 4, 4
        self.bytes_and_tables(75)

    def bytes_and_tables(self, count):
        for _ in range(count):
            text, described, size, align, rows = self.any_struct(random.randrange(1, 5))
            self.says(f"{CLI} describe {quote(text)} --width {self.width}", 0, described)
            said = self.shows(f"{quote(text)} --width {self.width}")
            self.assertIn(f"\nwhole: alignment {align}, size {size}, ", said, text)
            whole = re.search("whole: .*\n", said)[0]
            self.says(f"{CLI} describe --read - --width {self.width}", 0, whole, input=described)
            # That of the whole stands in its line.
            closing = re.search(r"closing padding (\d+);", whole)[1]
            if closing != "0":
                self.assertEqual(rows.pop(), ("", size - int(closing), closing), text)
            expected = [(path[1:], str(place), *rest) for path, place, *rest in rows]
            found = []
            for row in said[: said.index("\n\nwhole")].splitlines()[1:]:
                at = re.match(r" *(?:(\d[\d.\[\]]*)  +.*?|closing padding)  +(\d+(?:  +\d+)*)$", row)
                found.append((at[1] or "", *at[2].split()))
            self.assertEqual(found, expected, text)


class Describe(WithProgram):
    def setUp(self):
        super().setUp()
        (HOME / "type").unlink(missing_ok=True)

    def test_bytes(self):
        for text, described in {
            MESSAGE: BYTES,
            "u8": b"\0",
            "usize": b"\x08",
            "[u16; 258]": bytes.fromhex("10 02010000 01"),
            "[char]": bytes.fromhex("12 06"),
            "struct {}": bytes.fromhex("11 00 00 00"),
            f"struct(packed 1, align {2**63}) {{}}": bytes.fromhex("11 40 01 00"),
            LARGE: LARGE_BYTES,
        }.items():
            self.says(f"tools/lukaripe describe {quote(text)}", 0, described)
            self.says(f"tools/lukaripe describe {quote(text)} --out '{HOME}/type'")
            self.assertEqual((HOME / "type").read_bytes(), described)

    def test_hex(self):
        listed = """\
11 04 00 04     struct(align 8), 4 members
03                id: u64
10 04 00 00 00    [u16; 4]
01                  u16
11 00 00 02       head: struct, 2 members
00                  u8
02                  u32
12                [u8]
00                  u8
"""
        self.says(f"tools/lukaripe describe --hex {quote(MESSAGE)}", 0, listed)
        self.says(f"tools/lukaripe describe {quote(MESSAGE)} --hex --out '{HOME}/type'", 0, listed)
        self.assertEqual((HOME / "type").read_bytes(), BYTES)
        whole = f"\nwhole: {TABLES[MESSAGE][1]}\n"
        # The bytes have no names.
        nameless = listed.replace("id: ", "").replace("head: ", "")
        self.says(f"tools/lukaripe describe --read '{HOME}/type' --hex", 0, nameless + whole)

    def test_written_and_read_back(self):
        for text, (_, whole) in TABLES.items():
            command = f"tools/lukaripe describe {quote(text)} | tools/lukaripe describe --read -"
            self.says(command, 0, f"whole: {whole}\n")
            self.says(f"{CLI} describe --out '{HOME}/type' {quote(text)}")
            self.says(f"{CLI} describe --read='{HOME}/type'", 0, f"whole: {whole}\n")
        whole = "whole: alignment 4, size 4, closing padding 0; no padding known\n"
        self.says(f"{CLI} describe --read -", 0, whole, input=b"\x06")

    def test_refused_texts(self):
        for text, number, what, marked in REFUSED:
            commands = ["describe", f"describe --out '{HOME}/type'", "describe --hex"]
            for command in commands + [f"layout --svg '{HOME}/type'"] * is_text(text):
                ran = self.run_shell(f"tools/lukaripe {command} {quote(text)}")
                self.assertEqual((ran.returncode, ran.stdout), (1, b""), text)
                said, shown, mark = ran.stderr.decode().splitlines()
                self.assertRegex(said, rf"\Alukaripe: {re.escape(what)}: [^:]+ \(refusal {number}\)\Z")
                self.assertRegex(mark, r"\A *\^\Z")
                self.assertTrue(shown[len(mark) - 1 :].startswith(marked), (shown, mark))
                self.assertLessEqual(len(shown), 80)
                self.assertFalse((HOME / "type").exists())

    def test_refused_bytes(self):
        for described, number, place in REFUSED_BYTES:
            given = bytes.fromhex(described)
            (HOME / "type").write_bytes(given)
            for file, called in ("-", "standard input"), (f"'{HOME}/type'", f"'{HOME}/type'"):
                ran = self.run_shell(f"tools/lukaripe describe --read {file}", input=given)
                self.assertEqual((ran.returncode, ran.stdout), (1, b""), described)
                said, shown, mark = ran.stderr.decode().splitlines()
                self.assertRegex(said, rf"\Alukaripe: place {place} of {re.escape(called)}: .+ \(refusal {number}\)\Z")
                start, shown = re.match(r"(\d+): ?(.*)", shown).groups()
                self.assertEqual(bytes.fromhex(shown), given[int(start) :][:16], described)
                self.assertEqual(mark, " " * (len(start) + 2 + 3 * (place - int(start))) + "^^", described)

    def test_bytes_that_are_cut_or_too_many(self):
        for length in range(len(BYTES)):
            said = line("lukaripe", f"place {length} of", "(refusal 33)").pattern.removesuffix(r"\n\Z")
            self.says(f"{CLI} describe --read -", 1, "", re.compile(said), input=BYTES[:length])
        said = line("lukaripe", f"place {len(BYTES)} of", "(refusal 38)").pattern.removesuffix(r"\n\Z")
        self.says(f"{CLI} describe --read -", 1, "", re.compile(said), input=BYTES + b"\0")

    def test_faults(self):
        for text, said in FAULTS:
            for command in ["describe", "describe --hex"] + ["layout"] * is_text(text):
                self.says(f"{CLI} {command} {quote(text)}", 2, "", f"lukaripe: {said}; see --help\n")

    def test_texts_of_any_depth(self):
        deep = "[" * 30000 + "u8" + "; 1]" * 20000
        self.says(f"{CLI} describe '{deep}'", 2, "", "lukaripe: ';' or ']' is missing at column 110003; see --help\n")
        ran = self.run_shell(f"{CLI} describe '{deep[10000:]}'")
        said = r"\Alukaripe: the array at column 17: .* \(refusal 35\)\n\[+\.\.\n {16}\^\n\Z"
        self.assertRegex(ran.stderr.decode(), said)

    def test_many_members(self):
        members = "u8, " * 255
        self.says(f"{CLI} describe 'struct {{ {members} }}'", 0, bytes([17, 0, 0, 255]) + bytes(255))
        self.assertIn("\nwhole: alignment 1, size 255, ", self.shows(f"'struct {{ {members} }}'"))
        # Above 255 the count has two bytes, under another tag.
        members += "[u16; 2], " * 45
        described = bytes([19, 0, 0, 44, 1]) + bytes(255) + bytes([16, 2, 0, 0, 0, 1]) * 45
        self.says(f"{CLI} describe 'struct {{ {members} }}'", 0, described)
        self.assertIn("\nwhole: alignment 2, size 436, ", self.shows(f"'struct {{ {members} }}'"))
        ran = self.run_shell(f"{CLI} describe --hex 'struct {{ {members} }}'")
        self.assertEqual(ran.stdout.decode().split("\n")[0], "13 00 00 2c 01  struct, 300 members")
        # What is refused behind such a head has its letter.
        refused = "struct { " + "u8, " * 299 + "[[u8]; 2] }"
        first = f"{CLI} describe '{refused}' 2>&1 | head -1 | cut -c 1-36"
        self.says(first, 0, "lukaripe: the array at column 1206: \n")

    def test_long_structs_are_read(self):
        said = self.run_shell(f"{CLI} describe 'struct {{ u8, u32 }}' | {CLI} describe --read -").stdout.decode()
        self.says(f"{CLI} describe --read -", 0, said, input=bytes([19, 0, 0, 2, 0, 0, 2]))

    def test_options(self):
        for words, said in [
            ("", "a TEXT is missing; see --help"),
            ("--hex", "a TEXT is missing; see --help"),
            ("u8 u8", "a TEXT is one word, in quotes; see --help"),
            ("u8 --read x", "a type is a TEXT or --read FILE, not both; see --help"),
            ("--read x --out y", "--out is for a TEXT, not for --read; see --help"),
            ("--read", "--read takes a word, FILE; see --help"),
            ("u8 --out", "--out takes a word, FILE; see --help"),
            ("u8 --out=", "--out takes a word, FILE, not ''; see --help"),
            ("u8 --out -", "--out takes the name of a file, not '-'; see --help"),
            ("u8 --hex=1", "an option takes no value; see --help"),
            ("u8 --foo", "unknown word '--foo'; see --help"),
        ]:
            self.says(f"tools/lukaripe describe {words}", 2, "", f"lukaripe: {said}\n")

    def test_files(self):
        for words, *parts in [
            ("--read none", "no file 'none'"),
            ("--read .", "'.' is a directory"),
            ("--read /dev/zero", "'/dev/zero' has more than"),
            ("--read - <&-", "standard input is closed"),
            ("--read=- <&-", "standard input is closed"),
            ("u8 --out /none/x", "'/none/x' cannot be written: No such file or directory"),
            ("u8 --out .", "'.' is a directory"),
            ("u8 >/dev/full", "standard output: No space left on device"),
        ]:
            self.says(f"tools/lukaripe describe {words}", 1, "", line("lukaripe", *parts))
        folder = HOME / "a folder of types"
        folder.mkdir(exist_ok=True)
        self.says(f"'{TREE}'/tools/lukaripe describe 'struct {{ u8 }}' --out 'a type'", cwd=folder)
        self.assertEqual((folder / "a type").read_bytes(), bytes([17, 0, 0, 1, 0]))
        self.assertIn("size 1,", self.output(f"'{TREE}'/tools/lukaripe describe --read 'a type'", cwd=folder))
