"""What the commands of the command-line program share: how a TYPE is read, and the width."""
from test_describe import quote
from test_lukaripe import CLI, COMMANDS, SIGNED, WithProgram
from test_width import M32
from trial import M


class Types(WithProgram):
    """How a TYPE is read. The commands that take one read it alike."""

    TAKE = ["cast --length 8 {}", "convert {} u8", "convert u8 {}", "normal {}", "agree {} '[u8]'", "share {} 1"]

    def test_by_words_and_by_texts(self):
        for word, text in {
            "type:8:4": "struct { u32, u32 }",
            "unpadded:8:4": "[u32; 2]",
            "bytes:8": "[u8; 8]",
            "[type:8:4]": "[struct { u32, u32 }]",
            "[unpadded:2:2]": "[u16]",
            "[bytes:3]": "[[u8; 3]]",
            "bytes:008": " [ u8 ; 8 ] ",
        }.items():
            by_word, by_text = (self.output(f"{CLI} cast {quote(given)} --length 30") for given in (word, text))
            self.assertIn("\ncount ", by_word, word)
            self.assertEqual(by_word, by_text, word)

    def test_what_is_no_type(self):
        why = "a number is decimal digits alone; see --help"
        for word, said in {
            "type:8": "'type:8' is no type; see --help",
            "bytes:1:1": "'bytes:1:1' is no type; see --help",
            "[type:8:4": "'[type:8:4' is no type; see --help",
            "bytes:": f"'bytes:' is no type: {why}",
            "[bytes:0x1]": f"'[bytes:0x1]' is no type: {why}",
            f"bytes:{M + 1}": f"'bytes:{M + 1}' is out of range: {M + 1} is above 2^64 - 1",
            "x=u8": "no type 'x' at column 1; see --help",
            "i32": f"no type 'i32' at column 1: {SIGNED.format('u32')}; see --help",
            "[[type:8:4]]": "no type 'type' at column 3; see --help",
            "": "a type is missing at column 1; see --help",
            "-": "a type is missing at column 1; see --help",
            "struct { u8": "',' or '}' is missing at column 12; see --help",
        }.items():
            for command in self.TAKE:
                self.says(f"{CLI} {command.format(quote(word))}", 2, "", f"lukaripe: {said}\n")
        said = f"lukaripe: 'bytes:{M32 + 1}' is out of range: {M32 + 1} is above 2^32 - 1\n"
        for command in self.TAKE:
            self.says(f"{CLI} {command.format(f'bytes:{M32 + 1}')} --width 32", 2, "", said)

    def test_what_is_refused(self):
        for word, said in {
            "type:6:4": "'type:6:4': the size of a type is not a multiple of its alignment (refusal 4)\n",
            "[type:3:3]": "'[type:3:3]': an alignment is 0 or no power of two (refusal 1)\n",
            "struct { [u8], u8 }": "the struct at column 1, member 1 (u8): a member comes after a run of elements "
            "(refusal 7)\nstruct { [u8], u8 }\n^\n",
            "[ [u8] ]": "the slice at column 1: an element of an array or slice ends in a run of elements itself "
            "(refusal 36)\n[ [u8] ]\n^\n",
        }.items():
            for command in self.TAKE:
                self.says(f"{CLI} {command.format(quote(word))}", 1, "", f"lukaripe: {said}")

    def test_what_must_end_in_a_run_of_elements(self):
        for command in "normal {}", "agree {} '[u8]'", "agree '[u8]' {}", "share {} 1":
            takes = f"{command.split()[0]} takes a type that ends in a run of elements"
            for word, size in ("u32", 4), ("type:8:4", 8), ("struct { u8, u64 }", 16):
                said = f"lukaripe: {takes}, and '{word}' has the fixed size {size}; see --help\n"
                self.says(f"{CLI} {command.format(quote(word))}", 2, "", said)


class Widths(WithProgram):
    """The option --width."""

    def test_a_width_that_there_is_not(self):
        for command in COMMANDS:
            for width in "0", "16", "33", "x", "' 32'", "064", "''":
                said = f"lukaripe: --width takes 64 or 32, not '{width.strip(chr(39))}'; see --help\n"
                self.says(f"{CLI} {command} --width {width}", 2, "", said)
                self.says(f"{CLI} {command} u8 --width={width}", 2, "", said)
            self.says(f"{CLI} {command} --width", 2, "", "lukaripe: --width takes 64 or 32; see --help\n")

    def test_64_is_the_default(self):
        for words in [
            "layout u8 u64",
            "cast 'struct { u8, u64 }' --length 16",
            "convert '[u64]' '[u32]'",
            "normal 'struct { u64, [u8] }'",
            "agree 'struct { u64, [u8] }' '[u8]'",
            "share 'struct { u64, [u8] }' 3",
            "describe --hex u8",
            "rewrite --lengthen --hex 'struct { u8 }'",
            "cases 1 --list",
        ]:
            said = self.run_shell(f"{CLI} {words}")
            self.assertEqual(said.returncode, 0, words)
            self.says(f"{CLI} {words} --width 64", 0, said.stdout.decode())
            # The last one counts.
            self.says(f"{CLI} {words} --width 32 --width 64", 0, said.stdout.decode())
