#!/usr/bin/env python3
"""replay.py [--check]: writes what the program try_replay reads and must print, out of tests/differential/kept: cases.txt, the original's
answers, and alone.txt, document 01's where the original has none; with --check it only says whether that is up to date.

A case is big-endian words of 64 bits: how many words follow, the question's place among the questions from 1 on, the input's parts and
the answer's, a list as its length and its numbers, a negative number in two's complement. The steps of a kept walk are cases of `next`:
what was visited, the last level and what is left of the limit, and the level that comes next, none at the end."""
import os
import sys

HERE = os.path.dirname(os.path.dirname(os.path.abspath(__file__)))
KEPT = [os.path.join(HERE, "tests", "differential", "kept", name) for name in ("cases.txt", "alone.txt")]
QUESTIONS = ["build", "read", "parents", "children", "label", "roots", "walk", "next", "stored", "decode", "window", "cover", "links", "resolve", "handed"]
# the parts of a question's input: N a number, L a list
FORMS = {"walk": "NNNNLLNNN"}


def parts(form, words):
    """The parts that a form names, off the front of the words, and the rest."""
    found, at = [], 0
    for sort in form:
        if sort == "N":
            found.append(words[at])
            at += 1
        else:
            found.append(words[at + 1:at + 1 + words[at]])
            at += 1 + words[at]
    return found, words[at:]


def flat(found):
    return [word for part in found for word in ([part] if isinstance(part, int) else [len(part), *part])]


def steps(given, answer):
    """A walk's levels, one case of `next` each, and one more where no level comes."""
    found, _ = parts(FORMS["walk"], given)
    columns, (kind, limit, start) = found[:6], found[6:]
    visited, frontier, left = [start], [start], limit
    if answer[0] != 0:
        yield flat([*columns, kind, left, visited, frontier]) + answer
        return
    levels, _ = parts("L" * answer[1], answer[2:])
    for level in [*levels, []]:
        yield flat([*columns, kind, left, visited, frontier]) + flat([0, level])
        visited, frontier, left = visited + level, level, left - len(level)


def cases():
    """Every kept case: its question, and its words without the name and the sign between input and answer."""
    for path in KEPT:
        for line in open(path).read().splitlines():
            name, rest = line.split(" ", 1)
            given, answer = ([int(word) for word in side.split()] for side in rest.split("="))
            yield name, given + answer
            if name == "walk":
                for step in steps(given, answer):
                    yield "next", step


def files():
    """What the program reads and prints, by path."""
    words, counts = [], dict.fromkeys(QUESTIONS, 0)
    for name, case in cases():
        counts[name] += 1
        words += [len(case) + 1, QUESTIONS.index(name) + 1, *case]
    folder = os.path.join("crates", "try_replay")
    return {
        os.path.join(folder, "stdin"): b"".join((word % 2**64).to_bytes(8, "big") for word in words),
        os.path.join(folder, "stdout"): "".join(f"{name} {count} of {count}\n" for name, count in counts.items()).encode(),
    }


def main():
    stale = []
    for path, wanted in files().items():
        whole = os.path.join(HERE, path)
        there = open(whole, "rb").read() if os.path.exists(whole) else None
        if there != wanted:
            stale.append(path)
            if "--check" not in sys.argv:
                with open(whole, "wb") as out:
                    out.write(wanted)
    for path in stale:
        print("replay:", path, "is not what the kept cases give" if "--check" in sys.argv else "written")
    return 1 if stale and "--check" in sys.argv else 0


sys.exit(main())
