"""How many inputs the differential run tries, and what it says of results that never came."""
import re

from trial import SOURCE, TREE, Trial, has_i686, has_source, make_tree


@has_source
class Differential(Trial):
    width, driver = 64, "target/differential/differential"

    def setUp(self):
        # Built once: no test changes it.
        make_tree()
        if not (TREE / self.driver).exists():
            super().setUp()
            ran = self.run_shell(f"tools/differential --width {self.width} --source '{SOURCE}' --cases 1")
            self.assertEqual(ran.returncode, 0, ran.stderr)

    def tried(self, words):
        """The inputs, and the last line of standard error."""
        ran = self.run_shell(f"{self.driver} {words}")
        self.assertEqual(ran.returncode, 0, ran.stderr)
        compared, apart = re.search(rb"(\d+) inputs compared .* apart (\d+) checked", ran.stdout).groups()
        return int(compared) + int(apart), ran.stderr.decode().splitlines()[-1]

    def test_the_inputs_are_as_many_as_asked_for(self):
        for cases in 1, 33, 34, 35, 1000, 123457:
            self.assertEqual(self.tried(f"--cases {cases}")[0], cases)
            self.assertEqual(self.tried(f"--cases {cases} --only extend")[0], cases)

    def test_few_inputs_say_what_is_empty(self):
        for cases in 1, 1000:
            self.assertRegex(self.tried(f"--cases {cases}")[1], r"^\d+ cells empty, as: \w+ (answer|refused)")
        self.assertNotIn("empty", self.tried("--cases 2000000")[1])

    def test_what_is_recorded_repeats(self):
        first, again, other = (
            self.output(f"{self.driver} --record 20 --cases 200000 {seed}") for seed in ("", "", "--seed 2")
        )
        self.assertGreater(len(first), 10000)
        self.assertEqual(first, again)
        self.assertNotEqual(first, other)

    def test_the_help_has_the_default_of_the_driver(self):
        driver = (TREE / "rust/differential/main.rs").read_text()
        default = re.search(r"const CASES: u64 = ([\d_]+);", driver)[1].replace("_", "")
        self.assertIn(f"(default {default})", self.output("tools/differential --help"))


@has_i686
class Narrow(Differential):
    """The same at 32 bits, where a program for i686 answers."""

    width, driver = 32, "target/differential32/differential"

    def test_the_other_program_answers(self):
        told = r"(?m)^(\d+) calls of the Rust answered by a program for 32 bits, as here$"
        ran = self.run_shell(f"{self.driver} --cases 1000 --only advance")
        self.assertLess(900, int(re.search(told, ran.stdout.decode())[1]))

    def told_by(self, program):
        """What the driver says where this shell script stands in the place of the other program, which is "$0.kept"."""
        there = TREE / "target/differential32/oracle32"
        kept = there.with_name("oracle32.kept")
        there.rename(kept)
        self.addCleanup(kept.rename, there)
        there.write_text(f"#!/usr/bin/env bash\n{program}\n")
        there.chmod(0o755)
        ran = self.run_shell(f"{self.driver} --cases 1000 --only advance")
        self.assertEqual(ran.returncode, 1)
        return ran.stderr.decode()

    def test_another_answer_of_the_other_program_is_a_difference(self):
        # The scalars come first, in 256 bytes; then a number of the first answer is changed.
        passed = "o.write(i.read(256)); o.flush(); rest = bytearray(i.read()); rest[8] ^= 1; o.write(rest)"
        script = f"import sys; i, o = sys.stdin.buffer, sys.stdout.buffer; {passed}"
        told = self.told_by(f"\"$0.kept\" | python3 -c '{script}'")
        self.assertIn("DIFFERENCE in the Rust's advance itself, of [", told)

    def test_the_other_program_must_answer(self):
        # What asks for the scalars has 76 bytes.
        self.assertRegex(self.told_by('head -c 76 | "$0.kept"'), r"oracle32: .*end")
