#!/usr/bin/env python3
"""Write crates/NAME/specs/Computes.antt: one name that opens every definition marked `unfoldable` of a crate and of those below it.

    tools/computes.py           write the files
    tools/computes.py --check   only say which are out of date; exit 1 if any is"""
import pathlib
import re
import sys

ROOT = pathlib.Path(__file__).resolve().parents[1] / "crates"
# the crates whose definitions compute, with those right below, and the modules that state theorems or compute nothing
BELOW = {"lists": [], "columns": ["lists"], "columns_refs": ["columns"], "cover": ["columns"], "archive_bytes": ["columns"], "archive": ["cover", "archive_bytes"], "cleaning": ["archive"]}
LEFT_OUT = {"Lib", "Computes", "Listing", "Alike", "History", "Trace", "Claim", "NewParents", "Accepted", "Pair", "Worked"}
LEFT_OUT |= {"Answers", "Cursor", "Granules", "Layout", "Places", "Readable", "Resolved", "Sums", "View"}  # what code answers, as a view of a definition


def text_of(crate, below):
    modules = {}
    for path in sorted((ROOT / crate / "specs").glob("*.antt")):
        names = re.findall(r"^ *unfoldable pub (\S+) :", path.read_text(), re.M)
        if names and path.stem not in LEFT_OUT:
            modules[path.stem] = names
    lines = ["-- One name that opens every definition of this crate and of those below it, for whoever computes with them: `unfolding computes`."]
    lines += [f"use Rattle.{crate}.specs.{module}" for module in modules]
    lines += [f"use Rattle.{other}.specs.Computes.{{computes as {other}_opens}}" for other in below]
    opened = [" ".join(f"{module}.{name}" for name in names) for module, names in modules.items()]
    lines += ["", "unfoldable pub computes : Unit {0}", "unfolding"]
    lines += ["    " + line for line in ([" ".join(f"{other}_opens" for other in below)] if below else []) + opened]
    return "\n".join(lines + ["computes = tt", ""])


def main():
    stale = []
    for crate, below in BELOW.items():
        path = ROOT / crate / "specs" / "Computes.antt"
        text = text_of(crate, below)
        if not path.exists() or sorted(path.read_text().split()) != sorted(text.split()):
            stale.append(str(path.relative_to(ROOT.parent)))
            if "--check" not in sys.argv:
                path.write_text(text)
    if stale and "--check" in sys.argv:
        print("\n".join(f"computes: {name} is out of date: run tools/computes.py" for name in stale))
        return 1
    return 0


if __name__ == "__main__":
    sys.exit(main())
