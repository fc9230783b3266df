#!/usr/bin/env python3
"""Keep proof files short: what the check finds by itself is written nowhere.

    tools/proofs.py           write the files
    tools/proofs.py --check   only say which are not in this form; exit 1 if any is

The check tries `search rules` on each goal that has no answer. So an answer in crates/NAME/proofs/../Answers.antt that says no more is taken out, and with
the last one its file; a file of goals or of invariants without a line of its own is taken out too."""
import pathlib
import re
import sys

ROOT = pathlib.Path(__file__).resolve().parents[1]
FOUND = re.compile(r"(?:--[^\n]*\n)*(?:pub )?(\S+) : goal\.\1\n\1(?: [^\s=]+)* = search rules")


def needed(text):
    """A proof file's blocks but those that say what the check finds, or nothing where no block is left but imports and comments."""
    blocks = [block for block in text.rstrip("\n").split("\n\n") if not FOUND.fullmatch(block)]
    says = any(line and not line.startswith(("use ", "--")) for block in blocks for line in block.split("\n"))
    return "\n\n".join(blocks) + "\n" if says else ""


def main():
    wrong = []
    for path in sorted(path for name in ("Answers", "Invariants") for path in ROOT.glob(f"crates/*/proofs/**/{name}.antt")):
        text = path.read_text()
        short = needed(text)
        if short != text:
            wrong.append(str(path.relative_to(ROOT)))
            if "--check" not in sys.argv:
                path.write_text(short) if short else path.unlink()
    if wrong and "--check" in sys.argv:
        print("\n".join(f"proofs: {name} can be shorter: run tools/proofs.py" for name in wrong))
        return 1
    return 0


if __name__ == "__main__":
    sys.exit(main())
