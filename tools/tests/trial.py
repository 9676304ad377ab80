"""What the tests of the tools share.

They run in a copy of the repository below target/tests, where `rt` is a script of this file that proves nothing: it
hands out the library and the listing program that tools/library and tools/listing have built, and writes down what it
was asked for.
"""
import functools
import os
import re
import shutil
import subprocess
import sys
import time
import unittest
from pathlib import Path

ROOT = Path(__file__).resolve().parents[2]
HOME = ROOT / "target/tests"
TREE = HOME / "tree"
BUILT = HOME / "built"
CALLS = HOME / "rt.calls"
RUNS = HOME / "rt.runs"

# The published zerocopy, which the copy has not beside it.
SOURCE = Path(os.environ.get("ZEROCOPY") or ROOT.parent / "shared/docs/src")
has_source = unittest.skipUnless((SOURCE / "src/layout.rs").exists(), "no source of zerocopy")

# A compiler for 32 bits, which no test installs.
finds_i686 = subprocess.run(["bash", "-c", ". tools/build.sh && try_i686"], cwd=ROOT).returncode == 0
has_i686 = unittest.skipUnless(finds_i686, "no compiler for i686")

TOOLS = sorted(path.name for path in (ROOT / "tools").iterdir() if path.is_file() and "." not in path.name)
LIBRARY, PROGRAM = "target/staticlib/liblukaripe.a", "target/bin/listing"
# The greatest number.
M = 2**64 - 1

# Two at a time are a fault. It works on the crate in whose folder it is called, and a program that it makes runs too.
# Each part of the library is the whole of it.
RT = f"""#!/usr/bin/env bash
set -e
mkdir "{RUNS}"
[ -d src ]
crate=$(basename "$PWD")
echo "$crate: $*" >>"{CALLS}"
sleep 0.1
mkdir -p out
case "$crate: $*" in
exports*_c": lib") cp "{BUILT}/liblukaripe.a" "out/lib$crate.a" ;;
"listing: run")
    cp "{BUILT}/listing" out/
    out/listing
    ;;
*) false ;;
esac
rmdir "{RUNS}"
"""


def path_without(*commands):
    """A PATH that has every command but these, and the `rt` of this file."""
    folder = HOME / "-".join(["path", *commands])
    if folder.exists():
        return str(folder)
    folder.mkdir()
    for place in filter(os.path.isdir, os.environ["PATH"].split(":")):
        for program in os.scandir(place):
            if program.name not in ("rt", *commands) and not (folder / program.name).is_symlink():
                (folder / program.name).symlink_to(program.path)
    if "rt" not in commands:
        (folder / "rt").write_text(RT)
        (folder / "rt").chmod(0o755)
    return str(folder)


@functools.cache
def make_tree():
    """Makes the copy, once in a run."""
    for built in LIBRARY, PROGRAM:
        if not (ROOT / built).exists():
            sys.exit(f"no {built}: run tools/check tools, which builds it")
    shutil.rmtree(HOME, ignore_errors=True)
    shutil.copytree(ROOT, TREE, symlinks=True, ignore=shutil.ignore_patterns("target", "out", ".git"))
    BUILT.mkdir()
    for built in LIBRARY, PROGRAM:
        shutil.copy(ROOT / built, BUILT)


def rt_calls():
    return CALLS.read_text().splitlines() if CALLS.exists() else []


def line(tool, *parts):
    """One line of standard error that has these parts."""
    return re.compile(rf"\A{tool}: " + ".*".join(map(re.escape, ("", *parts, ""))) + r"\n\Z")


class Trial(unittest.TestCase):
    """A test that runs commands of the shell, at the top of the copy unless another folder is named."""

    # What is built before each test, newer than every source.
    built = LIBRARY, PROGRAM

    def setUp(self):
        make_tree()
        self.build(*self.built)

    def build(self, *names):
        """The copy has these things built and nothing else, and its sources are as they were."""
        self.doCleanups()
        for made in TREE / "target", RUNS, *TREE.glob("crates/*/out"):
            shutil.rmtree(made, ignore_errors=True)
        CALLS.unlink(missing_ok=True)
        for name in names:
            (TREE / name).parent.mkdir(parents=True, exist_ok=True)
            shutil.copy(BUILT / Path(name).name, TREE / name)

    def touch(self, path, seconds):
        """Makes a file or folder so many seconds newer than now."""
        if (ROOT / path).exists():
            self.addCleanup(shutil.copystat, ROOT / path, TREE / path)
        then = time.time() + seconds
        os.utime(TREE / path, (then, then))

    def run_shell(self, command, cwd=TREE, without=(), input=None, **variables):
        environment = {**os.environ, "PATH": path_without(*without), **variables}
        how = dict(cwd=cwd, env=environment, input=input, capture_output=True, timeout=60)
        return subprocess.run(["bash", "-c", command], **how)

    def output(self, command, **how):
        return self.run_shell(command, **how).stdout.decode()

    def says(self, command, status=0, out="", err="", **how):
        """The command must end so and say this. `out` may be bytes, and `err` a pattern."""
        ran = self.run_shell(command, **how)
        said = ran.stdout if isinstance(out, bytes) else ran.stdout.decode()
        errors = ran.stderr.decode()
        command = command[:200]
        self.assertEqual((ran.returncode, said), (status, out), f"{command}\n{errors}")
        if isinstance(err, re.Pattern):
            self.assertRegex(errors, err, command)
        else:
            self.assertEqual(errors, err, command)
        return errors

    def assertNothingBuilt(self):
        self.assertFalse((TREE / "target").exists())
