#!/usr/bin/env python3
"""The samples of README.md must be those of the programs that tools/example builds.

A sample stands between the lines `<!-- examples/NAME -->` and `<!-- end -->` of README.md, in a fence or indented, and
between `/* README: */` and `/* end */` of examples/NAME.
"""
import difflib
import re
import sys
import textwrap
from pathlib import Path

ROOT = Path(__file__).resolve().parents[2]
REQUIRED = "examples/readme.c"


def sample(lines):
    """The lines of a sample without fence, common indentation and empty lines around it."""
    text = "\n".join(line for line in lines if not re.match(r"\s*```", line))
    return textwrap.dedent(text).strip("\n").splitlines()


def between(lines, start, end):
    """The lines between the one that is `start` and the next that is `end`."""
    bare = [line.strip() for line in lines]
    if start not in bare or end not in bare[bare.index(start) :]:
        return None
    at = bare.index(start) + 1
    return lines[at : bare.index(end, at)]


def main():
    readme = (ROOT / "README.md").read_text().splitlines()
    names = re.findall(r"^\s*<!-- (examples/\S+) -->\s*$", "\n".join(readme), re.M)
    faults = []
    for name in dict.fromkeys([REQUIRED, *names]):
        shown = between(readme, f"<!-- {name} -->", "<!-- end -->")
        program = ROOT / name
        built = between(program.read_text().splitlines(), "/* README: */", "/* end */") if program.exists() else None
        if not shown or not built:
            faults.append(f"no sample of {name} in " + ("README.md" if not shown else name))
        elif sample(shown) != sample(built):
            differences = difflib.unified_diff(sample(shown), sample(built), "README.md", name, lineterm="")
            faults.append("\n".join(["the sample of README.md is not that of " + name, *differences]))
    if faults:
        sys.exit("\n".join(faults))


main()
