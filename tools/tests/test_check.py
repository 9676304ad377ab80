"""How the parts of tools/check are run and told."""
import textwrap

from trial import PROGRAM, TREE, Trial, line

SAMPLE = "int main(void) {\n    return 0;\n}\n"
INDENTED = textwrap.indent(SAMPLE, "    ")


class Check(Trial):
    built = ()

    def test_the_parts_are_listed(self):
        listed = self.output("tools/check --list")
        parts = "build format shell readme examples tools wrapper cli types types32 sequences descriptions"
        for part in [*parts.split(), "differential", "differential32"]:
            self.assertRegex(listed, rf"(?m)^{part} +\S")
        for word in "foo", "build format", "", "@":
            self.says(f"tools/check readme '{word}'", 2, err=f"check: no part '{word}'; see --list\n")
        self.assertNothingBuilt()

    def test_what_needs_the_source_of_zerocopy_is_skipped(self):
        told = r"\Askipped differential: no src/layout.rs in .*--source DIR.*\nall 0 parts ok, 1 skipped, \d+ s\n\Z"
        self.assertRegex(self.output("tools/check differential"), told)
        named = line("check", "no src/layout.rs in /x", "--source DIR")
        self.says("tools/check differential --source /x", 1, err=named)

    def test_a_part_that_fails_is_shown(self):
        # The library cannot be made.
        ran = self.run_shell("tools/check differential examples", without=("rt",))
        self.assertEqual((ran.returncode, ran.stderr), (1, b""))
        told = r"\Askipped .*\nlibrary: no rt .*\nFAILED examples \(\d+ s\)\n1 of 2 parts failed: examples, 1 skipped, "
        self.assertRegex(ran.stdout.decode(), told)

    def test_a_part_ends_where_something_fails(self):
        # The library cannot be made, and the listing program is there.
        self.build(PROGRAM)
        self.assertRegex(self.output("tools/check build", without=("rt",)), r"(?m)^FAILED build")

    def readme(self, text, program):
        """What the part says of a README.md and a program."""
        for name, new in ("README.md", text), ("examples/readme.c", program):
            path = TREE / name
            self.addCleanup(path.write_text, path.read_text()) if path.exists() else self.addCleanup(path.unlink, True)
            path.write_text(new)
        return self.output("tools/check readme")

    def test_samples_that_are_the_same(self):
        for sample in f"```c\n{SAMPLE}```\n", f"\n{INDENTED}\n", f"    ```c\n{INDENTED}    ```\n":
            for start in SAMPLE, INDENTED:
                program = f"/* A program. */\n/* README: */\n{start}/* end */\nint other;\n"
                told = self.readme(f"# X\n<!-- examples/readme.c -->\n{sample}<!-- end -->\nMore.\n", program)
                self.assertRegex(told, r"\Aok readme \(\d+ s\)\nall 1 parts ok, \d+ s\n\Z")

    def test_samples_that_are_not(self):
        program = f"/* README: */\n{SAMPLE}/* end */\n"
        start, end = "<!-- examples/readme.c -->\n```c\n", "```\n<!-- end -->\n"
        told = r"(?s)examples/.*\nFAILED readme \(\d+ s\)\n1 of 1 parts failed: readme, \d+ s\n\Z"
        for text, other in [
            (start + SAMPLE.replace("0", "1") + end, program),
            (start + SAMPLE.replace("    return", "  return") + end, program),
            (start + SAMPLE + SAMPLE + end, program),
            (start + end, program),
            # Without a mark.
            (f"```c\n{SAMPLE}{end}", program),
            (start + SAMPLE + "```\n", program),
            (start + SAMPLE + end, SAMPLE),
            (start + SAMPLE + end, f"/* README: */\n{SAMPLE}"),
            # Another sample beside the right one.
            (start + SAMPLE + end + start.replace("readme.c", "layout.c") + SAMPLE + end, program),
        ]:
            self.assertRegex(self.readme(text, other), told)
