"""What the command-line program shows, draws and refuses. The numbers of layouts are written by hand."""
import os
import re
import xml.etree.ElementTree as xml
from pathlib import Path

from test_members import record
from trial import HOME, LIBRARY, M, ROOT, TREE, Trial, line, make_tree

CLI = "target/tools/lukaripe"
FIRST = "u64 u8 '[u8]'"
COMMANDS = "layout cast convert normal agree share move describe rewrite cases".split()
# As `members` says it of the same words.
SIGNED = "signed integers have no code; use {}, which has the same size and alignment"

# Words, then of each member place, size, alignment and gap, then of the whole alignment, size and closing padding.
FIXED = {
    "u8 u64 u16": ([(0, 1, 1, 0), (8, 8, 8, 7), (16, 2, 2, 0)], (8, 24, 6)),
    "u64 u8 u16 u32": ([(0, 8, 8, 0), (8, 1, 1, 0), (10, 2, 2, 1), (12, 4, 4, 0)], (8, 16, 0)),
    "char bool f64 usize f32 u32": (
        [(0, 4, 4, 0), (4, 1, 1, 0), (8, 8, 8, 3), (16, 8, 8, 0), (24, 4, 4, 0), (28, 4, 4, 0)],
        (8, 32, 0),
    ),
    "bytes:3 type:8:4 unpadded:6:2": ([(0, 3, 1, 0), (4, 8, 4, 1), (12, 6, 2, 0)], (4, 20, 2)),
    "--packed 1 u8 u32 u16": ([(0, 1, 1, 0), (1, 4, 4, 0), (5, 2, 2, 0)], (1, 7, 0)),
    "--packed 2 u8 u64 u16 u32": ([(0, 1, 1, 0), (2, 8, 8, 1), (10, 2, 2, 0), (12, 4, 4, 0)], (2, 16, 0)),
    "--align 16 u8 u64": ([(0, 1, 1, 0), (8, 8, 8, 7)], (16, 16, 0)),
    "--align=32 --packed=4 u8 u64": ([(0, 1, 1, 0), (4, 8, 8, 3)], (32, 32, 20)),
    "u8 bytes:0 u32 type:0:8": ([(0, 1, 1, 0), (1, 0, 1, 0), (4, 4, 4, 3), (8, 0, 8, 0)], (8, 8, 0)),
    f"bytes:{M}": ([(0, M, 1, 0)], (1, M, 0)),
    f"u8 bytes:{2**40} u8": ([(0, 1, 1, 0), (1, 2**40, 1, 0), (2**40 + 1, 1, 1, 0)], (1, 2**40 + 2, 0)),
    "": ([], (1, 0, 0)),
}

# The last member's place, gap and element size; of the whole alignment and offset; sizes and paddings at 0, 1 and 2.
OPEN = {
    FIRST: ((9, 0, 1), (8, 9), [(16, 7), (16, 6), (16, 5)]),
    "'[u8]'": ((0, 0, 1), (1, 0), [(0, 0), (1, 0), (2, 0)]),
    "u8 '[u32]'": ((4, 3, 4), (4, 4), [(4, 0), (8, 0), (12, 0)]),
    "u32 u8 '[u16]'": ((6, 1, 2), (4, 6), [(8, 2), (8, 0), (12, 2)]),
    "--packed 1 u32 u8 '[u16]'": ((5, 0, 2), (1, 5), [(5, 0), (7, 0), (9, 0)]),
    "--align 8 u8 '[type:6:2]'": ((2, 1, 6), (8, 2), [(8, 6), (8, 0), (16, 2)]),
    "u8 '[bytes:0]'": ((1, 0, 0), (1, 1), [(1, 0), (1, 0), (1, 0)]),
}


class WithProgram(Trial):
    def setUp(self):
        # Built once: no test of these changes it.
        make_tree()
        if not (TREE / CLI).exists():
            super().setUp()
            ran = self.run_shell("tools/lukaripe layout")
            self.assertEqual(ran.returncode, 0, ran.stderr)
        for name in "picture.svg", "list":
            (HOME / name).unlink(missing_ok=True)

    def shows(self, words, **how):
        """The output of a layout that is accepted, by the program itself, which takes less time than the script."""
        ran = self.run_shell(f"{CLI} layout {words}", **how)
        self.assertEqual((ran.returncode, ran.stderr), (0, b""), words)
        return ran.stdout.decode()

    def causes(self):
        """The words of each refusal, by its number, as the header has them."""
        header = (TREE / "include/lukaripe.h").read_text()
        numbers = dict(re.findall(r"(LUKARIPE_REFUSED_\w+) = (\d+)", header))
        causes = re.findall(r'case (LUKARIPE_\w+):\s+return "(.*)";', header)
        return {int(numbers[name]): cause for name, cause in causes}

    def members(self, text):
        """Of each line of the table, the numbers behind the name."""
        table = text[: text.index("whole:")]
        rows = re.findall(r"^ *(\d+)  (.*?)  +(\d+)  +(.*?)  +(\d+)  +(\d+)$", table, re.M)
        self.assertEqual([int(row[0]) for row in rows], list(range(len(rows))))
        return [row[2:] for row in rows]

    def bar(self, text):
        """The cells of the bar, its lines in one."""
        return "".join(re.findall(r"^[0-9.x>-]+$", text, re.M)).lstrip()

    def picture(self, words, **how):
        """The picture, which must be one that stands alone."""
        file = HOME / "picture.svg"
        self.shows(f"--svg '{file}' {words}", **how)
        text = file.read_text()
        self.assertNotRegex(text, r"href|<image|<script|@import")
        return xml.fromstring(text)


class Layout(WithProgram):
    def test_fixed_records(self):
        for words, (members, (align, size, closing)) in FIXED.items():
            text = self.shows(words)
            self.assertEqual(self.members(text), [tuple(map(str, member)) for member in members], words)
            whole = f"\nwhole: alignment {align}, size {size}, closing padding {closing}; "
            self.assertIn(whole, text, words)
            self.assertNotIn("elements", text)

    def test_records_with_an_open_end(self):
        for words, ((place, gap, each), (align, offset), sizes) in OPEN.items():
            text = self.shows(words)
            member = self.members(text)[-1]
            self.assertEqual((member[0], member[1], member[3]), (str(place), f"{each} each", str(gap)), words)
            unit = "byte" if each == 1 else "bytes"
            whole = f"\nwhole: alignment {align}, elements of {each} {unit} from place {offset} on; "
            self.assertIn(whole, text, words)
            table = re.search(r"elements +size +padding\n((?: *\d+ +\d+ +\d+\n)+)", text)[1]
            rows = [tuple(map(int, row.split())) for row in table.splitlines()]
            self.assertEqual(rows, [(count, *row) for count, row in enumerate(sizes)], words)

    def test_the_marks(self):
        for words, said in {
            "u64 u32 u32": "; no padding known\n",
            "u64 u32": "; there may be padding\n",
            "u64 type:8:8": "; there may be padding\n",
            "u64 unpadded:8:8": "; no padding known\n",
            FIRST: "; no padding known between the members\n",
            "u8 u16 '[u8]'": "; there may be padding\n",
            "--align 8 u64": "; no padding known; with an alignment modifier\n",
            "--align 1 u64 u32": "; there may be padding; with an alignment modifier\n",
            "--align 1": "; no padding known; with an alignment modifier\n",
            "--packed 1 u64": "; no padding known\n",
        }.items():
            self.assertIn(said, self.shows(words), words)
        # A member's is the whole's too.
        for kind, said in {1: "; no padding known\n", 5: "; no padding known; with an alignment modifier\n"}.items():
            self.assertIn(said, self.shows("--records -", input=record(8, kind, 8, 0, 0, 0)), kind)
        text = self.shows("--records -", input=record(1, 1, 1, 0, 0, 0) + record(1, 7, 0, 0, 1, 1))
        self.assertIn("; no padding known between the members; with an alignment modifier\n", text)

    def test_names(self):
        text = self.shows("id=u64 'Map<K, V>=type:24:8' a=b=u8 '名=u8' rest='[u8]'")
        for at, name in enumerate(["id", "Map<K, V>", "a=b", "名", "rest"]):
            self.assertRegex(text, rf"(?m)^ +{at}  {re.escape(name)}  ")
        # The word, where there is no name.
        self.assertRegex(self.shows("bytes:007"), r"(?m)^ +0  bytes:007  +0  +7 ")
        self.assertIn("x" * 38 + "..  ", self.shows("x" * 100 + "=u8"))

    def test_sizes_that_do_not_exist(self):
        text = self.shows("u8 '[bytes:18446744073709551615]'")
        none = "the size at this count of elements overflows (refusal 15)"
        self.assertEqual(re.findall(r"(?m)^ +([012]) +(-) +(-)  (.*)$", text), [(at, "-", "-", none) for at in "12"])
        given = record(1, 2, M, 0, 1, 9)
        none = "the size without elements overflows (refusal 39)"
        text = self.shows("--records -", input=given)
        self.assertEqual(re.findall(r"(?m)^ +([012]) +(-) +(-)  (.*)$", text), [(at, "-", "-", none) for at in "012"])
        # A record whose elements stand behind its end, of which the library's padding is modulo 2^64.
        text = self.shows("--records -", input=record(1, 2, 0, 100, 1, 1))
        self.assertEqual(len(re.findall(r"(?m)^ +[012] +[012] +-  the elements end past it$", text)), 3)


class Bar(WithProgram):
    def test_bars_to_scale(self):
        for words, cells, places, each in [
            ("u8 u64 u16", "0--" + 21 * "." + "1" + 23 * "-" + "2-----" + 18 * "x", "0 1 8 16 18 24", 3),
            (FIRST, "0" + 55 * "-" + "1------" + "2" + 13 * "-" + ">", "0 8 9", 7),
            ("--packed 2 u8 u32", "0-------" + 8 * "." + "1" + 31 * "-", "0 1 2 6", 8),
            ("u8 bytes:0 u8", "0-------2-------", "0 1 2", 8),
            ("'[bytes:0]'", ">", "", 0),
            ("", "", "", 0),
        ]:
            text = self.shows(words)
            self.assertEqual(self.bar(text), cells, words)
            if cells:
                self.assertRegex(text, rf"(?m)^{places.replace(' ', ' +')}\n{re.escape(cells)}$")
            self.assertIn(f"\nto scale: a byte is {each} letters\n" if each else "\nno bytes to draw\n", text)

    def test_shares(self):
        text = self.shows("bytes:100 bytes:300")
        self.assertEqual(self.bar(text), "0" + 19 * "-" + "1" + 59 * "-")
        self.assertIn("\nto scale: 400 bytes in 80 letters\n", text)

    def test_what_is_small_is_seen_and_said(self):
        text = self.shows(f"u8 bytes:{2**40} u8")
        self.assertEqual(self.bar(text), "01" + 77 * "-" + "2")
        self.assertIn("\nnot to scale: 2 parts ", text)
        text = self.shows(f"bytes:{M - 8} u8 bytes:6 u8")
        self.assertEqual(self.bar(text), "0" + 76 * "-" + "123")
        text = self.shows(f"u8 bytes:0 type:0:1 bytes:{M - 1}")
        self.assertEqual(self.bar(text), "03" + 78 * "-")
        self.assertIn("\nmembers 1, 2 have size 0 and are not drawn\n", text)

    def test_many_members(self):
        text = self.shows("u64 " * 30)
        self.assertEqual(self.bar(text), "".join(f"{at}".ljust(8, "-") for at in range(30)))
        self.assertIn("to scale: a byte is 1 letter\n", text)
        # As many as a list of the listing program has.
        text = self.shows("u8 " * 1365)
        self.assertEqual(self.bar(text), "".join(f"{at}".ljust(5, "-") for at in range(1365)))

    def test_no_line_is_wider_than_asked_for(self):
        for words in *FIXED, *OPEN, "u64 " * 30, "u8 " * 200, "bytes:4000 " + "u8 " * 40:
            for width in 40, 79, 80, 200:
                text = self.shows(f"--columns {width} {words}")
                drawn = text[text.rindex("\n\n") :].splitlines()
                cells = [row for row in drawn if re.fullmatch(r"[0-9.x>-]+|[ \d]+", row)]
                self.assertLessEqual(max(map(len, cells), default=0), width, words)

    def test_the_legend_has_what_is_drawn(self):
        for words, letters in ("u8", "0"), ("u8 u16", "0."), ("u16 u8", "0x"), ("u8 '[u8]'", "0>"), ("", ""):
            text = self.shows(words)
            for letter, said in ("0", "0-- member"), (".", ". gap"), ("x", "x closing"), (">", "> more elements"):
                self.assertEqual(said in text, letter in letters, words)


class Records(WithProgram):
    def test_the_same_as_by_words(self):
        for words in *FIXED, *OPEN:
            options = " ".join(re.findall(r"--\w+[ =]\d+", words))
            others = re.sub(r"--\w+[ =]\d+", "", words)
            self.run_shell(f"tools/members {others} >'{HOME}/list'")
            by_words = self.shows(words)
            for text in (
                self.shows(f"{options} --records '{HOME}/list'"),
                self.shows(f"--records=- {options} <'{HOME}/list'"),
                self.shows(f"{options} --records <(cat '{HOME}/list')"),
                self.shows(f"{options} --records -", input=(HOME / "list").read_bytes()),
            ):
                self.assertEqual(self.members(text), self.members(by_words), words)
                self.assertEqual(text[text.index("whole:") :], by_words[by_words.index("whole:") :], words)

    def test_names(self):
        self.assertRegex(self.shows("--records -", input=record(1, 1, 1, 0, 0, 0)), r"(?m)^ +0  record 0  +0  +1 ")

    def test_a_run_behind_other_bytes(self):
        text = self.shows("--records -", input=record(4, 1, 4, 0, 0, 0) + record(8, 3, 8, 9, 2, 9))
        self.assertEqual(self.members(text), [("0", "4", "4", "0"), ("8", "9 + 2 each", "8", "4")])
        self.assertIn("elements of 2 bytes from place 17 on", text)
        # 4 bytes, a gap of 4, and 9 bytes before the two elements that are drawn.
        self.assertEqual(self.bar(text), "0" + 11 * "-" + 12 * "." + "1" + 38 * "-" + ">")

    def test_files_that_cannot_be_read(self):
        for command, *parts in [
            ("--records none", "no file 'none'"),
            ("--records /none/x", "no file '/none/x'"),
            ("--records .", "'.' is a directory"),
            ("--records /proc/self/mem", "'/proc/self/mem'", "Input/output error"),
            ("--records /dev/zero", "'/dev/zero' has more than"),
            ("--records - <.", "standard input", "Is a directory"),
            ("--records - <&-", "standard input is closed"),
            ("--records=- <&-", "standard input is closed"),
        ]:
            self.says(f"tools/lukaripe layout {command}", 1, "", line("lukaripe", *parts))
        self.shows("u8 <&-")

    def test_a_file_that_may_not_be_read(self):
        closed = HOME / "closed list"
        closed.write_bytes(b"")
        closed.chmod(0)
        self.addCleanup(closed.unlink)
        as_another = "setpriv --reuid=65534 --regid=65534 --clear-groups " if os.getuid() == 0 else ""
        if self.run_shell(f"{as_another}tools/lukaripe layout").returncode != 0:
            self.skipTest("nobody may not use the repository")
        command = f"{as_another}tools/lukaripe layout --records '{closed}'"
        self.says(command, 1, "", line("lukaripe", f"'{closed}' may not be read"))


class Refusals(WithProgram):
    def refuses(self, words, what, number, **how):
        """One line, with the header's words, and nothing else: no picture either."""
        file = HOME / "picture.svg"
        said = self.says(
            f"tools/lukaripe layout --svg '{file}' {words}",
            1,
            "",
            re.compile(rf"\Alukaripe: {re.escape(what)}: [^\n]+ \(refusal {number}\)\n\Z"),
            **how,
        )
        cause = said.removeprefix(f"lukaripe: {what}: ").removesuffix(f" (refusal {number})\n")
        self.assertIn(f'return "{cause}";', (TREE / "include/lukaripe.h").read_text())
        self.assertFalse(file.exists())

    def test_members(self):
        for words, what, number in [
            ("'[u8]' u8", "member 1 (u8)", 7),
            ("u8 u8 rest='[u8]' end=u8", "member 3 (end)", 7),
            (f"bytes:{M} u8", "member 1 (u8)", 9),
            (f"type:0:{2**30}", f"member 0 (type:0:{2**30})", 6),
            ("--packed 3 u8 u16", "member 0 (u8)", 5),
            # What the library makes no layout of.
            ("u8 type:6:4", "member 1 (type:6:4)", 4),
            ("u8 '[unpadded:6:4]'", "member 1 ([unpadded:6:4])", 4),
            ("type:8:0", "member 0 (type:8:0)", 1),
            ("type:6:3", "member 0 (type:6:3)", 1),
        ]:
            self.refuses(words, what, number)

    def test_the_whole(self):
        self.refuses("--align 3 u8", "the alignment of the whole, 3", 1)
        self.refuses("--align 3", "the alignment of the whole, 3", 1)
        # The same number and place, of a member and of closing padding.
        self.refuses(f"type:0:8 bytes:{M} u64", "member 2 (u64)", 8)
        self.refuses(f"type:0:8 bytes:{M}", "the closing padding", 8)

    def test_records(self):
        one = record(1, 1, 1, 0, 0, 0)
        for given, what, number in [
            (bytes(1), "the list of records", 20),
            (one + bytes(47), "the list of records", 20),
            (one + record(1, 8, 0, 0, 0, 0), "member 1", 21),
            (one + record(3, 0, 0, 0, 0, 0), "member 1", 1),
            (record(3, 0, 0, 0, 0, 0), "member 0", 1),
            (one + record(1, 0, 0, 0, 0, 1), "member 1", 22),
            (one + record(1, 2, 0, 0, 0, 0), "member 1", 2),
            (one + record(1, 3, 0, 0, 1, 1) + one, "member 2", 7),
            (record(8, 0, M, 0, 0, 0), "the closing padding", 8),
        ]:
            self.refuses("--records -", what, number, input=given)
        # The length comes first, then the own alignment, then the members.
        self.refuses("--align 3 --records -", "the list of records", 20, input=bytes(1))
        self.refuses("--align 3 --records -", "the alignment of the whole, 3", 1, input=record(5, 0, 0, 0, 0, 0))


class Words(WithProgram):
    def wrong(self, words, *parts, by="tools/lukaripe"):
        self.says(f"{by} {words}", 2, "", line("lukaripe", *parts))

    def test_what_is_no_member(self):
        for word, other in ("i8", "u8"), ("i32", "u32"), ("[i64]", "[u64]"), ("isize", "usize"):
            why = f"lukaripe: '{word}' is no member: {SIGNED.format(other)}\n"
            self.says(f"tools/lukaripe layout u8 '{word}'", 2, "", why)
            self.wrong(f"layout 'x={word}'", f"'x={word}' is no member: {SIGNED.format(other)}")
        no_members = "u128,i128,U8,u8 ,,u8 u16,[],[[u8]],[u8,u8],bytes,bytes:1:1,type:8,type:8:4:1,-,=u8,x=,x=y"
        for word in no_members.split(","):
            self.says(f"tools/lukaripe layout u8 '{word}'", 2, "", f"lukaripe: '{word}' is no member; see --help\n")
        for word in r"$'a\nb'", r"$'a\nb=u8'", r"$'\e[1m=u8'", r"$'\u202e=u8'":
            self.wrong(f"layout {word}", "is no member")
        self.wrong(r"layout $'\xff=u8'", "is no text")

    def test_what_is_no_number(self):
        for number in "", "1_000", " 5", "5 ", "+5", "-5", "５", "٣", "0x10", "1e3":
            for word in f"bytes:{number}", f"type:{number}:4", f"unpadded:4:{number}", f"[bytes:{number}]":
                why = "a number is decimal digits alone"
                self.wrong(f"layout u8 '{word}'", f"'{word}' is no member", why, by=CLI)
        for number in M + 1, f"000{M + 1}", 10**30:
            for word in f"bytes:{number}", f"type:{number}:4", f"unpadded:4:{number}", f"[bytes:{number}]":
                self.wrong(f"layout u8 '{word}'", f"'{word}' is out of range", f"{number} is above 2^64 - 1", by=CLI)

    def test_options(self):
        for option in "--align", "--packed", "--columns":
            for value in "", "x", "-1", "1_000", "' 1'", "１", "''", "0", "--svg 1":
                self.wrong(f"layout {option} {value}", f"{option} takes a number")
            self.wrong(f"layout {option} {M + 1}", f"{option} is out of range: {M + 1} is above 2^64 - 1")
        for value in 39, 1001:
            self.wrong(f"layout --columns {value}", "--columns takes a number from 40 to 1000")
        for option in "--records", "--svg":
            self.wrong(f"layout {option}", f"{option} takes a word, FILE")
            self.wrong(f"layout {option}=", f"{option} takes a word, FILE")
        self.wrong("layout --svg -", "--svg takes the name of a file")
        self.wrong("layout u8 --records x", "words or --records FILE, not both")
        for word in "--foo", "-x", "--foo=1", "--", "--aligned 1":
            self.wrong(f"layout {word}", f"unknown word '{word.split('=')[0].split()[0]}'; see --help")

    def test_commands(self):
        self.wrong("", "a command is missing")
        for command in "nope", "Layout", "../help/layout", "layout/", "lukaripe":
            self.wrong(command, f"no command '{command}'")
        listed = re.findall(r"^ {21}([a-z]+) +\S", self.output("tools/lukaripe --help"), re.M)
        self.assertEqual(listed, COMMANDS)

    def test_the_program_says_the_same_without_the_script(self):
        words = ["--help", "-h", "layout u8 -h", "", "nope", *COMMANDS, *(f"{command} --help" for command in COMMANDS)]
        for words in words:
            script, program = self.run_shell(f"tools/lukaripe {words}"), self.run_shell(f"{CLI} {words}")
            for given in "returncode", "stdout", "stderr":
                self.assertEqual(getattr(script, given), getattr(program, given), words)

    def test_the_help_of_each_command(self):
        for command in COMMANDS:
            text = self.output(f"tools/lukaripe {command} --help")
            uses = " ".join(re.findall(rf"^    tools/lukaripe {command} (.*)$", text[: text.index("Examples:")], re.M))
            options = re.findall(r"--[a-z-]+", uses)
            self.assertIn("--width", options)
            # Options, and the words that are not the value of one.
            for argument in options + re.findall(r"\b[A-Z]+\b", re.sub(r"--[a-z-]+ [A-Z]+", "", uses)):
                about = re.search(rf"^ {{4}}{argument}\b.*(\n {{8,}}.*)*", text, re.M)
                self.assertIn("default", about[0], (command, argument))

    def test_the_examples(self):
        folder = HOME / "examples"
        folder.mkdir(exist_ok=True)
        (folder / "tools").unlink(missing_ok=True)
        (folder / "tools").symlink_to(TREE / "tools")
        for command in [*COMMANDS, ""]:
            text = self.output(f"tools/lukaripe {command} --help")
            text = text[text.index("Examples:" if command else "an example of layout") - 60 :]
            examples = re.findall(r"^    ((?:tools/|seq ).*?)  +(\S.*)$", text, re.M)
            self.assertGreaterEqual(len(examples), 2, command)
            for example, about in examples:
                ran = self.run_shell(example, cwd=folder)
                status = {"refused": 1, "wrong": 2}.get(about.split(":")[0], 0)
                self.assertEqual(ran.returncode, status, (example, ran.stderr))
                self.assertEqual(ran.stderr != b"", status > 0, example)
        made = {path.name for path in folder.iterdir()}
        self.assertLessEqual({"record.svg", "type", "short", "list", "cases"}, made)


class Places(WithProgram):
    """Where it is called from, and where its output goes."""

    def test_from_another_folder(self):
        expected = self.shows(FIRST)
        self.assertEqual(self.output(f"'{TREE}'/tools/lukaripe layout {FIRST}", cwd="/"), expected)
        folder = HOME / "a folder"
        folder.mkdir(exist_ok=True)
        self.run_shell(f"tools/members {FIRST} >'{folder}/a list'")
        out = self.output("../tree/tools/lukaripe layout --records 'a list' --svg 'a picture'", cwd=folder)
        self.assertEqual(out[out.index("whole") :], expected[expected.index("whole") :])
        self.assertEqual(xml.parse(folder / "a picture").getroot().tag, "{http://www.w3.org/2000/svg}svg")
        link = folder / "my-layouts"
        link.unlink(missing_ok=True)
        link.symlink_to(TREE / "tools/lukaripe")
        self.assertEqual(self.output(f"./my-layouts layout {FIRST}", cwd=folder), expected)

    def test_output_that_nobody_reads(self):
        # As many as a pipe does not hold.
        many = "u8 " * 3000
        self.says(f"tools/lukaripe layout {many} | head -c 1 | wc -c; echo ${{PIPESTATUS[0]}}", 0, "1\n1\n")
        self.says(f"trap '' PIPE; {{ tools/lukaripe layout {many}; echo $? >&2; }} | true", err="1\n")
        self.says("{ sleep 0.2; tools/lukaripe layout u8; echo $? >&2; } | head -c 0", err="1\n")
        self.says(f"tools/lukaripe layout --svg '{HOME}/picture.svg' u8 >&-")
        self.assertTrue((HOME / "picture.svg").exists())

    def test_output_that_fails(self):
        for words in "layout u8", "layout " + "u8 " * 3000:
            full = line("lukaripe", "standard output: No space left on device")
            self.says(f"tools/lukaripe {words} >/dev/full", 1, err=full)
        self.says("tools/lukaripe layout --foo 2>&-", 2)


class Picture(WithProgram):
    SVG = "{http://www.w3.org/2000/svg}"

    def texts(self, root):
        """Of each text where it stands, its class and what it says."""
        texts = root.iter(f"{self.SVG}text")
        return [(float(text.get("x")), float(text.get("y")), text.get("class"), text.text) for text in texts]

    def kinds(self, root):
        """How many parts of each kind the bar has, and the legend of each."""
        return [path.get("class") for path in root.iter(f"{self.SVG}path") if path.get("class")]

    def test_it_says_what_the_table_says(self):
        for words in *FIXED, *OPEN:
            text = self.shows(words)
            said = [text for *_, text in self.texts(self.picture(words))]
            whole = re.search(r"whole: (.*)", text)[1]
            self.assertIn(whole, said)
            for row in self.members(text):
                for cell in row:
                    self.assertIn(cell, said, words)
            if "elements  size" in text:
                for head in "elements", "padding":
                    self.assertIn(head, said, words)
                for number in sum(OPEN[words][2], ()):
                    self.assertIn(str(number), said, words)

    def test_its_parts(self):
        # One more of each in the legend.
        kinds = self.kinds(self.picture("u8 u64 u16"))
        self.assertEqual([kinds.count(kind) for kind in ("member", "member other", "gap", "closing")], [3, 1, 2, 2])
        kinds = self.kinds(self.picture(FIRST))
        self.assertEqual([kinds.count(kind) for kind in ("member", "member other", "gap", "closing")], [4, 1, 0, 0])
        kinds = self.kinds(self.picture(""))
        self.assertEqual(kinds, [])

    def test_it_is_to_scale(self):
        root = self.picture("u8 u64 u16")
        starts = [x for x, _, kind, _ in self.ticks(root)]
        first, *_, last = starts
        widths = [(x - first) / (last - first) * 24 for x in starts]
        self.assertEqual([round(width, 6) for width in widths], [0, 1, 8, 16, 18, 24])

    def ticks(self, root):
        for path in root.iter(f"{self.SVG}path"):
            if path.get("class") == "tick":
                x, y = re.match(r"M(\S+) (\S+) ", path.get("d")).groups()
                yield float(x), float(y), "tick", ""

    def test_no_text_is_cut_off_or_upon_another(self):
        long = "a_name_that_is_longer_than_any_box_" * 3
        for words in (
            *FIXED,
            *OPEN,
            "u64 u8 u16 " * 10,
            "bytes:4000 " + "u8 " * 40,
            f"{long}=u8 {long}=u64 '{long}=[u8]'",
            f"type:{2**63}:{2**29} bytes:{2**63 - 2**30} '[type:{2**63}:{2**29}]'",
            f"u8 '[bytes:{M}]'",
            "u8 " * 300,
            f"'struct {{ u8, {long}: [struct {{ u32, struct {{ {long}: u16, u8 }} }}; 2], [[struct {{ u8 }}; 3]] }}'",
            "'" + "struct { u64, " * 16 + "}" * 16 + "'",
        ):
            root = self.picture(words)
            width, height = map(float, root.get("viewBox").split()[2:])
            boxes = []
            for x, y, kind, text in self.texts(root):
                size = {"place": 11, "heading": 16}.get(kind, 13)
                # The letters of the fonts named have at most 0.61 of their size.
                boxes.append((y - size, y + 3, x, x + 0.61 * size * len(text), text))
            for top, bottom, left, right, text in boxes:
                self.assertTrue(0 <= top and bottom <= height and 0 <= left and right <= width, (words, text))
            boxes.sort()
            for at, one in enumerate(boxes):
                for other in boxes[at + 1 :]:
                    if other[0] >= one[1] - 3:
                        break
                    self.assertTrue(other[2] >= one[3] or one[2] >= other[3], (words, one, other))

    def test_names_are_escaped(self):
        root = self.picture("""'<b>&"'"'"'=u64' ']]>=u8'""")
        said = [text for *_, text in self.texts(root)]
        self.assertEqual(said.count("<b>&\"'"), 2)
        self.assertEqual(said.count("]]>"), 2)

    def test_it_is_written_whole_or_not_at_all(self):
        folder = HOME / "pictures"
        folder.mkdir(exist_ok=True)
        file, link = folder / "x.svg", folder / "link.svg"
        file.write_text("before")
        self.says(f"tools/lukaripe layout --svg '{file}' '[u8]' u8", 1, "", line("lukaripe", "refusal 7"))
        self.assertEqual(file.read_text(), "before")
        link.unlink(missing_ok=True)
        link.symlink_to(file)
        self.shows(f"--svg '{link}' u8")
        self.assertTrue(link.is_symlink())
        self.assertIn("</svg>", file.read_text())
        self.assertEqual(sorted(path.name for path in folder.iterdir()), ["link.svg", "x.svg"])

    def test_files_that_cannot_be_written(self):
        for file, why in [
            ("/none/x.svg", "'/none/x.svg' cannot be written: No such file or directory"),
            (".", "'.' is a directory"),
            ("/dev/full", "'/dev/full' cannot be written: No space left on device"),
            ("README.md/x", "'README.md/x' cannot be written: Not a directory"),
            ("none/", "cannot be written"),
        ]:
            self.says(f"tools/lukaripe layout --svg {file} u8", 1, "", line("lukaripe", why))
        self.assertEqual(self.run_shell("tools/lukaripe layout --svg /dev/null u8").returncode, 0)
        self.assertTrue(Path("/dev/null").is_char_device())


class Readme(WithProgram):
    """What README.md shows is what the program says."""

    def test_its_samples(self):
        text = (ROOT / "README.md").read_text()
        samples = re.findall(r"^<!-- (tools/lukaripe [^\n]*) -->\n(.*?)^<!-- end -->$", text, re.M | re.S)
        self.assertIn(f"tools/lukaripe layout {FIRST}", [command for command, _ in samples])
        # What is set before its commands, as page='..'.
        variables = dict(re.findall(r"^    (\w+)='([^'\n]*)'$", text, re.M))
        for command, shown in samples:
            said = "".join(f"    {row}".rstrip() + "\n" for row in self.output(command, **variables).splitlines())
            self.assertEqual(shown, said)

    def test_its_picture(self):
        self.picture(FIRST)
        self.assertEqual((ROOT / "docs/layout.svg").read_text(), (HOME / "picture.svg").read_text())
        self.assertIn("](docs/layout.svg)", (ROOT / "README.md").read_text())


class Built(Trial):
    def test_it_is_built_where_it_is_not_there_or_older(self):
        said = line("lukaripe", "building", CLI)
        ran = self.run_shell("tools/lukaripe layout u8 | wc -l")
        self.assertRegex(ran.stderr.decode(), said)
        expected = self.output("tools/lukaripe layout u8")
        self.says("tools/lukaripe layout u8", 0, expected)
        self.says("tools/lukaripe layout u8 >&- <&-")
        for changed in "rust/cli/src/bar.rs", "rust/lukaripe/src/lib.rs", LIBRARY:
            self.touch(CLI, -20)
            for part in "rust/cli/src/bar.rs", "rust/lukaripe/src/lib.rs", LIBRARY:
                self.touch(part, -30 if part != changed else -10)
            self.says("tools/lukaripe layout u8", 0, expected, said)
            self.says("tools/lukaripe layout u8", 0, expected)

    def test_what_cargo_says_is_shown_where_it_fails(self):
        source = TREE / "rust/cli/src/bar.rs"
        self.addCleanup(source.write_text, source.read_text())
        source.write_text("nonsense")
        ran = self.run_shell("tools/lukaripe layout u8")
        self.assertEqual((ran.returncode, ran.stdout), (1, b""))
        self.assertRegex(ran.stderr.decode(), r"(?s)error.*\nlukaripe: cargo build failed\n\Z")
        self.assertFalse((TREE / CLI).exists())
