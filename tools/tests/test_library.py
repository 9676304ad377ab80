"""When the library is made."""
from trial import CALLS, LIBRARY, RUNS, TREE, Trial, line, rt_calls


class Library(Trial):
    def test_nothing_is_done_where_it_is_newer(self):
        self.says("tools/library")
        self.touch("crates/util/must-fail", 9)
        # What rt made there.
        (TREE / "crates/util/out/rlib").mkdir(parents=True)
        for made in "rlib", "":
            self.touch(f"crates/util/out/{made}", 9)
        # As where must-fail/ or out/ is new.
        self.touch("crates/util", 9)
        self.touch("crates/listing/src/main.rt", 9)
        self.says("tools/library")
        self.assertEqual(rt_calls(), [])

    def test_it_is_made_where_a_source_is_newer(self):
        parts = sorted(path.name for path in (TREE / "crates").glob("exports*_c"))
        # A file, files of dependencies, and a folder: that is newer where a file of it was removed.
        sources = "exports_layouts_c/src/lib.rt", "exports_layouts/src/lib.rt", "util/src/refusal.rt"
        for changed in *sources, "compose/proofs":
            self.build(*self.built)
            self.touch(LIBRARY, -20)
            self.touch(f"crates/{changed}", -10)
            self.says("tools/library", err=line("library", "making", LIBRARY, "minutes"))
            self.assertEqual(sorted(rt_calls()), [f"{part}: lib" for part in parts])
            self.says("tools/library")

    def test_what_changes_while_it_is_made_makes_it_stale(self):
        changed = "crates/util/src/refusal.rt"
        self.touch(LIBRARY, -20)
        self.touch(changed, -10)
        self.run_shell(f"tools/library & while [ ! -e '{CALLS}' ]; do sleep 0.01; done; touch {changed}; wait")
        once = len(rt_calls())
        self.run_shell("tools/library")
        self.assertEqual(len(rt_calls()), 2 * once)

    def test_what_rt_says_is_shown_where_it_fails(self):
        (TREE / LIBRARY).unlink()
        RUNS.mkdir()
        ran = self.run_shell("tools/library")
        self.assertEqual((ran.returncode, ran.stdout), (1, b""))
        self.assertIn(b"File exists", ran.stderr)
        self.assertRegex(ran.stderr, rb"\nlibrary: rt lib failed in crates/exports_numbers_c\n\Z")
