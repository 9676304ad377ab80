"""Records that are moved to the other form, and descriptions that are rewritten. The bytes are by hand."""
from test_describe import quote
from test_lukaripe import CLI, WithProgram
from test_members import record
from trial import HOME, line

# u8, u64, and a run of u16, in either form.
LONG = record(1, 1, 1, 0, 0, 0) + record(8, 1, 8, 0, 0, 0) + record(2, 3, 0, 0, 2, 2)


def short(power, kind, size, offset, elem_size, word, spare=0):
    words = b"".join(number.to_bytes(8, "little") for number in (size, offset, elem_size))
    return words + word.to_bytes(4, "little") + bytes([power, kind]) + spare.to_bytes(2, "little")


SHORT = short(0, 1, 1, 0, 0, 0) + short(3, 1, 8, 0, 0, 0) + short(1, 3, 0, 0, 2, 2)


class Move(WithProgram):
    def setUp(self):
        super().setUp()
        self.list, self.out = HOME / "records", HOME / "moved"
        self.out.unlink(missing_ok=True)

    def moves(self, way, given, expected, said):
        self.list.write_bytes(given)
        for width in "", "--width 32":
            self.says(f"{CLI} move {way} '{self.list}' '{self.out}' {width}", 0, said)
            self.assertEqual(self.out.read_bytes(), expected)
            self.out.unlink()
        self.says(f"{CLI} move {way} '{self.list}' -", 0, expected)
        self.says(f"{CLI} move - {way} -", 0, expected, input=given)
        self.says(f"{CLI} move - '{self.out}' {way}", 0, said, input=given)
        self.assertEqual(self.out.read_bytes(), expected)

    def test_there_and_back(self):
        self.moves("--to-short", LONG, SHORT, "3 records, 144 bytes before and 96 after\n")
        self.moves("--from-short", SHORT, LONG, "3 records, 96 bytes before and 144 after\n")
        self.moves("--to-short", LONG[:48], SHORT[:32], "1 record, 48 bytes before and 32 after\n")
        self.moves("--from-short", b"", b"", "0 records, 0 bytes before and 0 after\n")
        # More than one number of 32 bits has.
        large, moved = record(2**40, 4, 2**63, 0, 0, 0), short(40, 4, 2**63, 0, 0, 0)
        self.moves("--to-short", large, moved, "1 record, 48 bytes before and 32 after\n")
        self.moves("--from-short", moved, large, "1 record, 32 bytes before and 48 after\n")

    def test_in_its_place(self):
        self.list.write_bytes(LONG)
        for way, expected in ("--to-short", SHORT), ("--from-short", LONG):
            ran = self.run_shell(f"{CLI} move {way} '{self.list}' '{self.list}'")
            self.assertEqual((ran.returncode, self.list.read_bytes()), (0, expected))

    def test_many(self):
        self.list.write_bytes(LONG * 10_000)
        said = "30000 records, 1440000 bytes before and 960000 after\n"
        self.says(f"{CLI} move --to-short '{self.list}' '{self.out}'", 0, said)
        self.assertEqual(self.out.read_bytes(), SHORT * 10_000)

    def test_what_is_refused(self):
        causes = self.causes()
        for way, given, place, number in [
            ("--to-short", LONG + record(1, 8, 0, 0, 0, 0) + LONG, 3, 21),
            ("--to-short", record(3, 0, 0, 0, 0, 0), 0, 1),
            ("--to-short", LONG + record(1, 0, 0, 0, 0, 1), 3, 22),
            ("--to-short", record(1, 2, 0, 0, 1, 0), 0, 2),
            ("--to-short", LONG + record(1, 2, 0, 0, 1, 2**32), 3, 40),
            ("--from-short", SHORT + short(0, 8, 0, 0, 0, 0), 3, 21),
            ("--from-short", SHORT + short(64, 0, 0, 0, 0, 0), 3, 42),
            ("--from-short", short(0, 0, 0, 0, 0, 0, 1) + SHORT, 0, 42),
            ("--from-short", SHORT + short(0, 0, 0, 1, 0, 0), 3, 22),
            ("--from-short", SHORT + short(0, 2, 0, 0, 1, 0), 3, 2),
        ]:
            self.list.write_bytes(given)
            self.out.write_text("before")
            said = f"lukaripe: record {place} of '{self.list}': {causes[number]} (refusal {number})\n"
            for out in f"'{self.out}'", "-":
                self.says(f"{CLI} move {way} '{self.list}' {out}", 1, "", said)
            self.assertEqual(self.out.read_text(), "before")
        for way, length in ("--to-short", 47), ("--to-short", 1), ("--from-short", 48):
            self.list.write_bytes(bytes(length))
            bytes_said = "1 byte" if length == 1 else f"{length} bytes"
            said = f"lukaripe: '{self.list}': {causes[20]} (refusal 20): it has {bytes_said}\n"
            self.says(f"{CLI} move {way} '{self.list}' '{self.out}'", 1, "", said)
            self.assertEqual(self.out.read_text(), "before")

    def test_files(self):
        self.list.write_bytes(LONG)
        for words, *parts in [
            ("none x", "no file 'none'"),
            (". x", "'.' is a directory"),
            ("/dev/zero x", "'/dev/zero' has more than"),
            (f"'{self.list}' /none/x", "'/none/x' cannot be written: No such file or directory"),
            (f"'{self.list}' .", "'.' is a directory"),
            (f"'{self.list}' - >/dev/full", "standard output: No space left on device"),
            (f"- '{self.out}' <&-", "standard input is closed"),
            (f"--width 32 - '{self.out}' <&-", "standard input is closed"),
            ("- - <&-", "standard input is closed"),
        ]:
            self.says(f"tools/lukaripe move --to-short {words}", 1, "", line("lukaripe", *parts))
        self.assertFalse(self.out.exists())
        # Standard input is not read.
        self.says(f"tools/lukaripe move --to-short '{self.list}' - <&-", 0, SHORT)

    def test_wrong_words(self):
        way = "one of --to-short and --from-short is to be there; see --help"
        for words, said in [
            ("", way),
            ("a b", way),
            ("--to-short --from-short a b", way),
            ("--to-short", "FILE or OUT is missing; see --help"),
            ("--to-short a", "FILE or OUT is missing; see --help"),
            ("--to-short a b c", "FILE and OUT are one word each; see --help"),
            ("--to-short=a b", "an option takes no value; see --help"),
            ("--short a b", "unknown word '--short'; see --help"),
        ]:
            self.says(f"tools/lukaripe move {words}", 2, "", f"lukaripe: {said}\n")


NESTED = "struct { kind: u8, [struct(align 4) { x: u16 }; 17] }"
NESTED_SHORT = bytes([17, 0, 0, 2, 0, 16, 17, 0, 0, 0, 17, 3, 0, 1, 1])
NESTED_LONG = bytes([19, 0, 0, 2, 0, 0, 16, 17, 0, 0, 0, 19, 3, 0, 1, 0, 1])
MANY = "struct { " + "u8, " * 256 + "}"
MANY_BYTES = bytes([19, 0, 0, 0, 1]) + bytes(256)


class Rewrite(WithProgram):
    def setUp(self):
        super().setUp()
        self.type = HOME / "type"
        self.type.unlink(missing_ok=True)

    def test_there_and_back(self):
        for way, given, expected in [
            ("--lengthen", NESTED_SHORT, NESTED_LONG),
            ("--lengthen", NESTED_LONG, NESTED_LONG),
            ("--shorten", NESTED_LONG, NESTED_SHORT),
            ("--shorten", NESTED_SHORT, NESTED_SHORT),
            ("--lengthen", b"\x03", b"\x03"),
            ("--lengthen", MANY_BYTES, MANY_BYTES),
        ]:
            self.says(f"{CLI} rewrite {way} --read -", 0, expected, input=given)
            self.says(f"{CLI} rewrite {way} --read=- --width 32 --out '{self.type}'", input=given)
            self.assertEqual(self.type.read_bytes(), expected)
            self.says(f"{CLI} rewrite {way} --read '{self.type}'", 0, expected)

    def test_texts(self):
        self.says(f"tools/lukaripe rewrite --lengthen {quote(NESTED)}", 0, NESTED_LONG)
        self.says(f"tools/lukaripe rewrite {quote(NESTED)} --shorten", 0, NESTED_SHORT)
        self.says(f"tools/lukaripe rewrite --lengthen {quote(MANY)}", 0, MANY_BYTES)
        listed = """\
13 00 00 02 00  struct, 2 members
00                kind: u8
10 11 00 00 00    [struct(align 4); 17]
13 03 00 01 00      struct(align 4), 1 member
01                    x: u16
"""
        self.says(f"tools/lukaripe rewrite --lengthen --hex {quote(NESTED)}", 0, listed)
        self.says(f"tools/lukaripe rewrite --lengthen --hex {quote(NESTED)} --out '{self.type}'", 0, listed)
        self.assertEqual(self.type.read_bytes(), NESTED_LONG)

    def test_what_is_refused(self):
        cause = "a member count of a description is above 255, and is to be one byte (refusal 44)"
        ran = self.run_shell(f"{CLI} rewrite --shorten 'struct {{ u8, {MANY} }}' --out '{self.type}'")
        first, text, mark = ran.stderr.decode().splitlines()
        self.assertEqual((ran.returncode, first), (1, f"lukaripe: the struct at column 14: {cause}"))
        self.assertTrue(text[mark.index("^") :].startswith("struct { u8, u8"))
        said = f"lukaripe: place 5 of standard input: {cause}\n0: 11 00 00 02 00 13"
        ran = self.run_shell(f"{CLI} rewrite --shorten --read -", input=bytes([17, 0, 0, 2, 0]) + MANY_BYTES)
        self.assertEqual((ran.returncode, ran.stdout), (1, b""))
        self.assertTrue(ran.stderr.decode().startswith(said))
        self.assertEqual(ran.stderr.decode().splitlines()[-1], " " * 18 + "^^")
        # What is refused in reading comes first.
        for way in "--lengthen", "--shorten":
            said = "the struct at column 1, member 1 (u8): a member comes after a run of elements (refusal 7)"
            text = "struct { [u8], u8 }"
            self.says(f"{CLI} rewrite {way} '{text}'", 1, "", f"lukaripe: {said}\n{text}\n^\n")
            said = "place 1 of standard input: the bytes of a description run out (refusal 33)\n0: 13\n      ^^"
            self.says(f"{CLI} rewrite {way} --read -", 1, "", f"lukaripe: {said}\n", input=b"\x13")
        # An alignment of 2^32.
        given = bytes([17, 33, 0, 0])
        self.says(f"{CLI} rewrite --lengthen --read -", 0, bytes([19, 33, 0, 0, 0]), input=given)
        said = "place 1 of standard input: a number does not fit the chosen width (refusal 43)\n0: 11 21 00 00\n"
        self.says(f"{CLI} rewrite --lengthen --read - --width 32", 1, "", f"lukaripe: {said}      ^^\n", input=given)
        self.assertFalse(self.type.exists())

    def test_wrong_words(self):
        way = "one of --lengthen and --shorten is to be there; see --help"
        for words, said in [
            ("", way),
            ("u8", way),
            ("--lengthen --shorten u8", way),
            ("--lengthen", "a TEXT is missing; see --help"),
            ("--lengthen u8 u8", "a TEXT is one word, in quotes; see --help"),
            ("--lengthen u8 --read x", "a type is a TEXT or --read FILE, not both; see --help"),
            ("--lengthen type:8:4", "no type 'type' at column 1; see --help"),
            ("--lengthen u8 --out -", "--out takes the name of a file, not '-'; see --help"),
            ("--lengthen u8 --out", "--out takes a word, FILE; see --help"),
            ("--shorten --hex=1 u8", "an option takes no value; see --help"),
            ("--long u8", "unknown word '--long'; see --help"),
        ]:
            self.says(f"tools/lukaripe rewrite {words}", 2, "", f"lukaripe: {said}\n")

    def test_files(self):
        for words, *parts in [
            ("--read none", "no file 'none'"),
            ("--read - <&-", "standard input is closed"),
            ("u8 --out /none/x", "'/none/x' cannot be written: No such file or directory"),
            ("u8 >/dev/full", "standard output: No space left on device"),
        ]:
            self.says(f"tools/lukaripe rewrite --lengthen {words}", 1, "", line("lukaripe", *parts))
