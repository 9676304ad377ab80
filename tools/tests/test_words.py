"""The words that every tool takes, where it is called from, and what it needs."""
import os
import re
import time

from trial import HOME, LIBRARY, M, PROGRAM, SOURCE, TOOLS, TREE, Trial, has_source, line, path_without


class Help(Trial):
    built = ()

    def test_it_is_said_at_once_and_nothing_is_built(self):
        needed = "rt", "gcc", "cargo", "rustc", "valgrind", "python3", "nm", "ar", "flock"
        path_without(*needed)
        for tool in TOOLS:
            for word in "--help", "-h":
                began = time.monotonic()
                ran = self.run_shell(f"tools/{tool} {word}", without=needed)
                self.assertLess(time.monotonic() - began, 2, tool)
                self.assertEqual((ran.returncode, ran.stderr), (0, b""), tool)
                self.assertIn(f"\n    tools/{tool}", ran.stdout.decode())
        self.assertNothingBuilt()

    def test_it_names_every_argument_with_its_default(self):
        for tool in TOOLS:
            text = self.output(f"tools/{tool} --help")
            uses = " ".join(re.findall(rf"^    tools/{tool}\b(.*)$", text, re.M))
            # Options, and the words that are not the value of one.
            arguments = re.findall(r"--\w+", uses) + re.findall(r"[A-Z]{2,}", re.sub(r"--\w+ [A-Z]+", "", uses))
            for argument in arguments:
                about = re.search(rf"^(?: {{4}}|A ){argument}\b.*(\n {{8,}}.*)*", text, re.M)
                self.assertIsNotNone(about, f"{tool} {argument}")
                self.assertIn("default", about[0], f"{tool} {argument}")


class Words(Trial):
    built = ()

    def test_unknown_words(self):
        for tool in TOOLS:
            for word in "--foo", "-x", "--foo=1", "--", "--@":
                unknown = word.split("=")[0]
                self.says(f"tools/{tool} {word}", 2, err=f"{tool}: unknown word '{unknown}'; see --help\n")
        self.assertNothingBuilt()

    def test_words_that_are_too_many_or_too_few(self):
        for tool in "library", "differential", "descriptions", "record", "rustc-types", "bench":
            self.says(f"tools/{tool} foo", 2, err=f"{tool}: unknown word 'foo'; see --help\n")
        self.says("tools/listing a b", 2, err=line("listing", "unknown word 'b'"))
        for tool in "example", "wrapper-test":
            self.says(f"tools/{tool} a", 2, err=line(tool, "HEADER", "missing"))
            self.says(f"tools/{tool} a b c", 2, err=line(tool, "unknown word 'c'"))
            self.says(f"tools/{tool} /none include/lukaripe.h", 1, err=line(tool, "no liblukaripe.a in /none"))
        self.assertNothingBuilt()

    def test_numbers(self):
        takes = {
            "differential": ["cases", "seed", "record"],
            "descriptions": ["length", "longest"],
            "rustc-types": ["cases", "seed"],
            "bench": ["rounds", "batches"],
        }
        for tool, names in takes.items():
            for name in names:
                for value in "", "x", "-1", "1_000", "' 1'", "１", "''", M + 1, "--seed 1":
                    self.says(f"tools/{tool} --{name} {value}", 2, err=line(tool, f"--{name} takes a number"))
                if name != "seed":
                    self.says(f"tools/{tool} --{name}=0", 2, err=line(tool, f"--{name} takes a number, 1 or more"))
        self.assertNothingBuilt()

    def test_other_values(self):
        for tool in "differential", "descriptions", "bench", "record", "check":
            self.says(f"tools/{tool} --source", 2, err=line(tool, "--source takes a word"))
            self.says(f"tools/{tool} --source=", 2, err=line(tool, "--source takes a word"))
        for tool in "differential", "rustc-types", "record", "bench":
            for width in 0, 16, 65, "x", "' 32'":
                self.says(f"tools/{tool} --width {width}", 2, err=line(tool, "--width takes 64 or 32, not"))
        for tool in "differential", "bench":
            self.says(f"tools/{tool} --only", 2, err=line(tool, "--only takes a word"))
            for name in "nope", "size_for", "'.*'":
                self.says(f"tools/{tool} --only {name} --source '{SOURCE}'", 2, err=line(tool, "no function"))
        # What has no width, and what is set beside nothing but the other one.
        for width, name in (32, "records_to_short"), (32, "write_cases"), (64, "convert_and_cast"):
            self.says(f"tools/bench --width {width} --only {name}", 2, err=line("bench", "no function"))
        self.assertNothingBuilt()


class Places(Trial):
    """A tool finds its repository."""

    def outputs(self, prefix, **how):
        for tool in TOOLS:
            yield self.output(f"{prefix}{tool} --help", **how)
        yield self.output(f"{prefix}members u64 u8 '[u8]' | {prefix}listing", **how)
        yield self.output(f"{prefix}library", **how)

    def setUp(self):
        super().setUp()
        self.expected = list(self.outputs("tools/"))
        self.assertEqual(self.expected[-2:], ["8 3 8 9 1 9\n", ""])
        self.assertEqual(len(set(self.expected)), len(TOOLS) + 2)

    def test_from_another_folder(self):
        self.assertEqual(list(self.outputs(f"'{TREE}'/tools/", cwd="/")), self.expected)
        self.assertEqual(list(self.outputs("../tools/", cwd=TREE / "docs")), self.expected)
        self.assertEqual(list(self.outputs("./", cwd=TREE / "tools")), self.expected)

    def test_through_a_link(self):
        links = HOME / "a folder of links"
        links.mkdir()
        for tool in TOOLS:
            (links / f"my-{tool}").symlink_to(os.path.relpath(TREE / "tools" / tool, links))
        self.assertEqual(list(self.outputs("./my-", cwd=links)), self.expected)
        self.says("./my-library --foo", 2, err="library: unknown word '--foo'; see --help\n", cwd=links)

    def test_with_cdpath(self):
        trap = HOME / "trap"
        (trap / "tools").mkdir(parents=True)
        self.assertEqual(list(self.outputs("tools/", CDPATH=str(trap))), self.expected)
        # Here a folder that is found is printed too.
        self.assertEqual(list(self.outputs("tools/", CDPATH=".")), self.expected)

    def test_files_are_meant_from_where_the_tool_is_called(self):
        (HOME / "a list").write_bytes(bytes(47))
        self.says("tree/tools/listing 'a list'", 1, "refused 20 at 0\n", line("listing", "48 bytes"), cwd=HOME)
        self.says("tree/tools/differential --source x", 1, err=line("differential", f"{HOME}/x"), cwd=HOME)
        self.says("tree/tools/example x x", 1, err=line("example", f"{HOME}/x"), cwd=HOME)


class Missing(Trial):
    """What is not there is said in one line, with what to do."""

    built = ()

    def lacks(self, missing, *parts, commands):
        for command in commands:
            # The library is made by its own tool.
            tool = "library" if missing == "rt" and command != "listing </dev/null" else command.split()[0]
            message = line(tool, f"no {missing} on PATH", *parts)
            self.says(f"tools/{command}", 1, err=message, without=(missing,))

    def test_rt(self):
        uses = "library", "members u8", "lukaripe layout", "example", "wrapper-test", "rustc-types"
        self.lacks("rt", "Rattle", "bin/", commands=[*uses, "listing </dev/null"])

    def test_rt_where_nothing_is_to_be_built(self):
        self.build(LIBRARY, PROGRAM)
        self.says("tools/library", without=("rt",))
        self.says("tools/listing </dev/null", 0, "1 1 0 0 0 0\n", without=("rt",))

    def test_compilers(self):
        self.build(LIBRARY, PROGRAM)
        self.lacks("gcc", "install", commands=["members u8", "example", "wrapper-test"])
        self.lacks("cargo", "Rust", commands=["wrapper-test", "lukaripe layout"])
        self.lacks("rustc", "Rust", commands=["rustc-types"])
        self.lacks("python3", "Python", commands=["wrapper-test", "rustc-types"])
        refused = line("listing", "no gcc on PATH")
        self.says("tools/listing", 1, "refused 20 at 0\n", refused, without=("gcc",), input=bytes(1))

    @has_source
    def test_what_the_comparisons_need(self):
        uses = [f"{tool} --source '{SOURCE}'" for tool in ("differential", "bench", "record")]
        self.lacks("rustc", "Rust", commands=uses)
        self.lacks("python3", "Python", commands=uses)
        self.lacks("valgrind", "install", commands=[f"bench --source '{SOURCE}' --instructions"])

    def test_a_compiler_for_32_bits(self):
        self.build(LIBRARY, PROGRAM)
        missing = line("rustc-types", "no rustc that makes programs for i686-unknown-linux-gnu: install rustc-web")
        self.says("tools/rustc-types --width 32", 1, err=missing, RUSTC_I686="/none")
        skipped = r"\Askipped types32: no rustc that makes programs for i686.*\nall 0 parts ok, 1 skipped, \d+ s\n\Z"
        self.assertRegex(self.output("tools/check types32", RUSTC_I686="/none"), skipped)

    def test_the_source_of_zerocopy(self):
        for tool in "differential", "bench", "record":
            self.says(f"tools/{tool}", 1, err=line(tool, "no src/layout.rs", "--source DIR"))
            self.says(f"tools/{tool} --source /x", 1, err=line(tool, "no src/layout.rs in /x", "--source DIR"))
        self.assertNothingBuilt()
