"""Member lists from words."""
from trial import LIBRARY, M, TREE, Trial, line, rt_calls


def record(*words):
    return b"".join(word.to_bytes(8, "little") for word in words)


class Members(Trial):
    def test_scalars(self):
        sizes = {"u8": 1, "u16": 2, "u32": 4, "u64": 8, "f32": 4, "f64": 8, "char": 4, "bool": 1, "usize": 8}
        for scalar, size in sizes.items():
            self.says(f"tools/members {scalar}", out=record(size, 1, size, 0, 0, 0))
            self.says(f"tools/members '[{scalar}]'", out=record(size, 3, 0, 0, size, size))

    def test_sizes(self):
        for word, words in {
            "bytes:0": (1, 1, 0, 0, 0, 0),
            "bytes:007": (1, 1, 7, 0, 0, 0),
            f"bytes:{M}": (1, 1, M, 0, 0, 0),
            "type:8:4": (4, 0, 8, 0, 0, 0),
            f"type:0:{2**63}": (2**63, 0, 0, 0, 0, 0),
            "unpadded:8:4": (4, 1, 8, 0, 0, 0),
            "[bytes:3]": (1, 3, 0, 0, 3, 1),
            "[type:8:4]": (4, 3, 0, 0, 8, 4),
            "[unpadded:8:4]": (4, 3, 0, 0, 8, 4),
        }.items():
            self.says(f"tools/members '{word}'", out=record(*words))

    def test_lists(self):
        self.says("tools/members", out=b"")
        self.says("tools/members u8 u16", out=record(1, 1, 1, 0, 0, 0) + record(2, 1, 2, 0, 0, 0))

    def test_what_is_no_member(self):
        (TREE / LIBRARY).unlink()
        for word, other in ("i8", "u8"), ("i32", "u32"), ("[i64]", "[u64]"), ("isize", "usize"):
            why = f"signed integers have no code; use {other}, which has the same size and alignment"
            self.says(f"tools/members u8 '{word}'", 2, b"", f"members: '{word}' is no member: {why}\n")
        for word in "u128,i128,U8,u8 ,,u8 u16,[],[[u8]],[u8,u8],bytes,bytes:1:1,type:8,type:8:4:1,-".split(","):
            self.says(f"tools/members u8 '{word}'", 2, b"", f"members: '{word}' is no member; see --help\n")
        self.says("tools/members $'a\\nb'", 2, b"", line("members", "is no member"))
        # All of it before anything is built.
        self.assertEqual(rt_calls(), [])

    def test_what_is_no_number(self):
        (TREE / LIBRARY).unlink()
        for number in "", "1_000", " 5", "5 ", "+5", "-5", "５", "٣", "0x10", "1e3":
            for word in f"bytes:{number}", f"type:{number}:4", f"unpadded:4:{number}", f"[bytes:{number}]":
                why = line("members", f"'{word}' is no member", "a number is decimal digits alone")
                self.says(f"tools/members u8 '{word}'", 2, b"", why)
        for number in M + 1, f"000{M + 1}", 10**30:
            for word in f"bytes:{number}", f"type:{number}:4", f"unpadded:4:{number}", f"[bytes:{number}]":
                why = line("members", f"'{word}' is out of range", "above 2^64 - 1")
                self.says(f"tools/members u8 '{word}'", 2, b"", why)
        self.assertEqual(rt_calls(), [])

    def test_what_the_library_refuses(self):
        header = (TREE / "include/lukaripe.h").read_text()
        for word, number in {
            "type:6:4": 4,
            "unpadded:6:4": 4,
            "[type:6:4]": 4,
            "type:8:0": 1,
            "type:8:3": 1,
            # Both apply.
            "type:6:3": 1,
        }.items():
            said = self.says(f"tools/members u8 '{word}'", 1, b"", line("members", f"'{word}' is refused: {number}, "))
            cause = said.rstrip().split(f"{number}, ")[-1]
            self.assertIn(f'return "{cause}";', header)

    def test_output_that_fails(self):
        # As many as a pipe does not hold.
        many = "u8 " * 3000
        self.says(f"tools/members {many} | head -c 1 | wc -c; echo ${{PIPESTATUS[0]}}", 0, "1\n141\n")
        self.says(f"trap '' PIPE; {{ tools/members {many}; echo $? >&2; }} | true", err="1\n")
        for words in "u8", many:
            self.says(f"tools/members {words} >&-", 1, err=line("members", "standard output", "Bad file descriptor"))
            self.says(f"tools/members {words} >/dev/full", 1, err=line("members", "standard output", "No space left"))
        self.says("tools/members u8 <&- | wc -c", 0, "48\n")

    def test_a_library_that_is_not_there_is_made(self):
        (TREE / LIBRARY).unlink()
        said = line("library", "making", "many minutes the first time, some minutes after that")
        self.says("tools/members u8", 0, record(1, 1, 1, 0, 0, 0), said)
        self.says("tools/members u8", 0, record(1, 1, 1, 0, 0, 0))

    def test_it_is_made_where_input_and_output_are_closed(self):
        (TREE / LIBRARY).unlink()
        ran = self.run_shell("tools/members u8 <&- >&-")
        self.assertEqual((ran.returncode, ran.stderr.count(b"\n")), (1, 2), ran.stderr)
        self.says("tools/members u8", 0, record(1, 1, 1, 0, 0, 0))
