"""What the listing says of lists, of inputs and outputs that fail, and of input that comes in pieces."""
import os
import random
import shutil
import subprocess
import time
import unittest

from test_members import record
from trial import HOME, M, PROGRAM, TREE, Trial, line, rt_calls

LIST = HOME / "list"


class WithLists(Trial):
    def list_of(self, *words):
        return self.run_shell("tools/members " + " ".join(f"'{word}'" for word in words)).stdout

    def lists(self, given, status, out, err=""):
        """The tool must say this of a list that comes by a pipe, and as a file."""
        LIST.write_bytes(given)
        ways = "tools/listing", "tools/listing -", f"tools/listing '{LIST}'", f"tools/listing <'{LIST}'"
        for command in *ways, f"tools/listing <(cat '{LIST}')":
            self.says(command, status, out, err, input=given)


class Listing(WithLists):
    def test_layouts(self):
        for words, said in {
            (): "1 1 0 0 0 0",
            ("u64", "u8", "[u8]"): "8 3 8 9 1 9",
            ("unpadded:8:4", "bytes:1", "[u8]"): "4 3 8 9 1 5",
            ("u8", "u16"): "2 0 4 0 0 0",
        }.items():
            self.lists(self.list_of(*words), 0, f"{said}\n")
        self.lists(self.list_of("u8") * 1365, 0, "1 1 1365 0 0 0\n")

    def test_alignment_modifiers(self):
        # Of the first member or the last, in each kind.
        byte, aligned = record(1, 1, 1, 0, 0, 0), record(4, 5, 4, 0, 0, 0)
        for given, said in [
            (byte + record(4, 4, 8, 0, 0, 0), "4 4 12 0 0 0"),
            (aligned + record(4, 1, 4, 0, 0, 0), "4 5 8 0 0 0"),
            (byte + record(4, 6, 8, 9, 1, 5), "4 6 12 13 1 5"),
            (aligned + record(1, 3, 0, 0, 1, 1), "4 7 4 4 1 4"),
            (byte + record(1, 7, 0, 0, 1, 1), "1 7 1 1 1 1"),
        ]:
            self.lists(given, 0, f"{said}\n")

    def refuses(self, given, number, place, where):
        """The list must be refused so, and the cause said in the header's words."""
        self.run_shell("head -c 1 /dev/zero | tools/listing")
        cause = subprocess.check_output([TREE / "target/tools/refusal", str(number)], text=True)
        self.assertIn(f'return "{cause.rstrip()}";', (TREE / "include/lukaripe.h").read_text())
        self.lists(given, 1, f"refused {number} at {place}\n", f"listing: {where}: {cause}")

    def test_refusals_of_a_member(self):
        self.refuses(self.list_of("[u8]", "u8"), 7, 1, "member 1")
        self.refuses(self.list_of("u8", "u8", "[u8]", "u8"), 7, 3, "member 3")
        self.refuses(self.list_of(f"bytes:{M}", "u8"), 9, 1, "member 1")
        self.refuses(self.list_of(f"type:0:{2**30}"), 6, 0, "member 0")
        one = self.list_of("u8")
        self.refuses(one + record(1, 8, 0, 0, 0, 0), 21, 1, "member 1")
        self.refuses(one + record(3, 0, 0, 0, 0, 0), 1, 1, "member 1")
        for fixed in 0, 4:
            self.refuses(one + record(1, fixed, 0, 0, 0, 1), 22, 1, "member 1")
        for trailing in 2, 6:
            self.refuses(one + record(1, trailing, 0, 0, 0, 0), 2, 1, "member 1")

    def test_closing_padding(self):
        # The same number and place, of a member and of closing padding.
        self.refuses(self.list_of("type:0:8", f"bytes:{M}", "u64"), 8, 2, "member 2")
        self.refuses(self.list_of("type:0:8", f"bytes:{M}"), 8, 2, "closing padding")

    def test_lists_of_a_wrong_length(self):
        explained = line("listing", "no multiple of 48 bytes", "longer than 65,520")
        for length in 1, 47, 49, 65519, 65521, 65568, 10**6:
            self.lists(bytes(length), 1, "refused 20 at 0\n", explained)
        self.says("cat /dev/zero | tools/listing", 1, "refused 20 at 0\n", explained)

    def test_input_that_fails(self):
        for command, *parts in [
            ("tools/listing <.", "standard input", "Is a directory"),
            ("tools/listing <&-", "standard input is closed"),
            ("tools/listing - <&-", "standard input is closed"),
            ("tools/listing .", "'.' is a directory"),
            ("tools/listing none", "no file 'none'"),
            ("tools/listing ''", "no file ''"),
            # It can be opened, and not read.
            ("tools/listing /proc/self/mem", "Input/output error"),
        ]:
            self.says(command, 1, "", line("listing", *parts))
        LIST.write_bytes(bytes(49))
        self.says(f"tools/listing '{LIST}' <&-", 1, "refused 20 at 0\n", line("listing", "48 bytes"))

    def test_a_file_that_may_not_be_read(self):
        closed = HOME / "closed"
        closed.write_bytes(b"")
        closed.chmod(0)
        # Root may read everything.
        as_another = "setpriv --reuid=65534 --regid=65534 --clear-groups " if os.getuid() == 0 else ""
        if self.run_shell(f"{as_another}tools/listing --help").returncode != 0:
            self.skipTest("nobody may not use the repository")
        self.says(f"{as_another}tools/listing '{closed}'", 1, "", line("listing", f"'{closed}' may not be read"))

    def test_output_that_fails(self):
        for given in b"", bytes(1):
            for output in "/dev/full", "&-":
                self.says(f"tools/listing >{output}", 1, "", line("listing", "standard output"), input=given)

    def test_a_program_that_fails(self):
        for script, said in [
            ("exit 1", "wrote nothing"),
            ("kill -9 $$", "wrote nothing"),
            ("echo 1 2 3", "1 2 3"),
            # What it wrote does not count where it says that something failed.
            ("echo 1 1 0 0 0 0; echo listing: standard output: x >&2", "standard output: x"),
        ]:
            (TREE / PROGRAM).write_text(f"#!/bin/sh\n{script}\n")
            ran = self.run_shell("tools/listing </dev/null")
            self.assertEqual((ran.returncode, ran.stdout), (1, b""), script)
            self.assertIn(said, ran.stderr.decode())

    def test_it_is_built_where_it_is_not_there(self):
        (TREE / PROGRAM).unlink()
        # What rt made of other sources is not taken.
        other = TREE / "crates/listing/out/listing"
        other.parent.mkdir()
        other.write_text("#!/bin/sh\n")
        other.chmod(0o755)
        self.says("tools/listing </dev/null", 0, "1 1 0 0 0 0\n", line("listing", "building", PROGRAM, "minutes"))
        self.assertEqual(rt_calls(), ["listing: run"])

    def test_it_is_built_where_a_source_is_newer(self):
        for changed in "listing/src/main.rt", "listing_line/src/lib.rt", "util/src/lib.rt":
            self.build(*self.built)
            self.touch(PROGRAM, -20)
            self.touch(f"crates/{changed}", -10)
            self.says("tools/listing </dev/null", 0, "1 1 0 0 0 0\n", line("listing", "building", PROGRAM))
            self.says("tools/listing </dev/null", 0, "1 1 0 0 0 0\n")
            self.assertEqual(rt_calls(), ["listing: run"])

    def test_two_tools_do_not_build_at_once(self):
        self.build()
        ran = self.run_shell("tools/members u64 u8 '[u8]' | tools/listing")
        self.assertEqual((ran.returncode, ran.stdout), (0, b"8 3 8 9 1 9\n"), ran.stderr)
        self.assertEqual(ran.stderr.count(b"\n"), 2, ran.stderr)


class Pieces(WithLists):
    """The program reads until its input ends, in whatever pieces that comes."""

    def in_pieces(self, program, pieces, pause):
        pipes = dict(stdin=subprocess.PIPE, stdout=subprocess.PIPE, stderr=subprocess.DEVNULL)
        running = subprocess.Popen([program], bufsize=0, **pipes)
        try:
            for piece in pieces:
                running.stdin.write(piece)
                time.sleep(pause)
        except BrokenPipeError:
            pass
        return running.communicate()[0]

    def tries(self, program):
        """What is said of lists that come in pieces, and of the same lists in a file."""
        few = self.list_of("u64", "u8", "u16", "[u8]")
        many = self.list_of("u64", "u8", "u16") * 455
        self.assertEqual(len(many), 65520)
        numbers, uneven = random.Random(1), []
        while sum(map(len, uneven)) < len(many):
            at = sum(map(len, uneven))
            uneven.append(many[at : at + numbers.choice([1, 47, 48, 49, 100, 1000, 4096, 5000])])
        for pieces, pause in [
            ([few[at : at + 1] for at in range(len(few))], 0.002),
            ([few[:-1], few[-1:]], 0.1),
            (uneven, 0.002),
            ([*uneven, b"\0"], 0.002),
        ]:
            LIST.write_bytes(b"".join(pieces))
            with LIST.open("rb") as file:
                expected = subprocess.run([TREE / PROGRAM], stdin=file, capture_output=True).stdout
            self.assertNotEqual(expected, b"")
            yield self.in_pieces(program, pieces, pause), expected

    def test_the_program(self):
        for said, expected in self.tries(TREE / PROGRAM):
            self.assertEqual(said, expected)

    def test_the_tool(self):
        for said, expected in self.tries(TREE / "tools/listing"):
            self.assertEqual(said, expected)

    @unittest.skipUnless(shutil.which("dd"), "no dd")
    def test_a_program_that_reads_once_is_found_out(self):
        once = HOME / "once"
        once.write_text(f"#!/bin/sh\ndd bs=70000 count=1 2>/dev/null | '{TREE / PROGRAM}'\n")
        once.chmod(0o755)
        # The last list is refused for its length, as some of its pieces are.
        for said, expected in list(self.tries(once))[:-1]:
            self.assertNotEqual(said, expected)
