#!/usr/bin/env python3
"""Spell this repository's own names as today's Rattle does: definitions, record fields and constructors in snake case.

    tools/respell.py [--check]

It was run once, right after the kit's port.py, and writes .rt, .antt and .edit files below crates/ in place. A name of specs/, a field or a
constructor loses humps and dashes (`firstOf`, `same-group` become `first_of`, `same_group`); a lemma of proofs/ loses humps alone, since a dash joins
the names that it speaks of. Where a lemma would fall together with a definition in one file, the lemma ends in `_lem`. Names of src/, strings and exported
names keep their spelling: none of them has a hump or a dash. Exit status 1 where two names of one file fall together all the same."""
import collections
import pathlib
import re
import sys

ROOT = pathlib.Path(__file__).resolve().parents[1]
WORD = re.compile(r'[^\s(){}.;,@"«»\[\]|:]+(?:·[^\s(){}.;,@"«»\[\]|:]+)*')
HUMP = re.compile(r"([a-z0-9])([A-Z])")
NAME = r"[^\s(){}.;,@\"«»\[\]|:=]+"
HEAD = re.compile(rf"^( *)(?:(?:pub|abbrev|unfoldable) +)*({NAME})(?: +[({{][^:\n]*)? : ", re.M)
# Lemmas whose name a definition of the same file now has; the path is where they stand or are used.
LEMMAS = {
    "cited_with": "archive_read/", "columns_of": "cover", "held_more": "run_store/", "held_with": "", "cut_off": "archive_cursor/",
    "no_room": "archive_cursor/", "in_one": "columns/", "read_set": "columns/", "is_read": "run_take/", "row_count": "cleaning/",
    "kept_in": "cleaning/proofs", "run_step": "cleaning/", "spans_fit": "cleaning/",
}


# Fields that would fall together with a definition of their file, and four functions with the fields that they read.
APART = {"links-at": "links_span", "rises-at": "rises_where", "rows-at": "rows_span", "reverse-lists": "reverse_set", "inbound-lists": "inbound_set"}
READS = re.compile(r"(?<![.\w])(fromChain|fromSeq|toChain|toSeq)\b(?! +=)")
READERS = ("cover_links/", "ffi_links")


def files(*endings):
    return sorted(p for p in (ROOT / "crates").rglob("*") if p.suffix in endings and "out" not in p.parts)


def bare(text):
    return re.sub(r"--[^\n]*", "", text)


def snake(word):
    return HUMP.sub(lambda m: m[1] + "_" + m[2].lower(), word)


def table():
    """New spellings: of all names with a hump, and of names with a dash that specs/ declares or that a record or a data type has."""
    out = {}
    for path in files(".antt"):
        text = bare(path.read_text())
        for word in WORD.findall(text):
            if re.match(r"[a-z0-9]", word) and HUMP.search(word):
                out[word] = snake(word)
        inside = False
        for line in text.split("\n"):
            if re.match(r"\s*(pub )?(record|data) ", line):
                inside = True
            elif line and not line[0].isspace():
                inside = False
            m = HEAD.match(line)
            if m and "-" in m[2] and re.match(r"[a-z]", m[2]) and ("specs" in path.parts or inside and m[1]):
                out[m[2]] = snake(m[2]).replace("-", "_")
    return out | APART


def main():
    check = "--check" in sys.argv[1:]
    new = table()
    bad, changed = 0, 0
    for path in files(".antt", ".rt", ".edit"):
        text = path.read_text()
        inner = path.relative_to(ROOT / "crates").as_posix()
        before = text
        if inner.startswith(READERS):
            text = READS.sub(lambda m: snake(m[1]) + "_of", text)
        here = {w: w + "_lem" for w, where in LEMMAS.items() if path.suffix == ".antt" and inner.startswith(where)}
        code = bare(text) if path.suffix == ".antt" else text
        words = set(WORD.findall(code))
        spelled = collections.defaultdict(set)

        def one(m):
            word = m[0]
            if word in new:
                spelled[new[word]].add(word)
                return new[word]
            dotted = text[m.start() - 1:m.start()] == "." or text[m.end():m.end() + 1] == "."
            if word in here and not dotted and (path.suffix == ".antt"):
                return here[word]
            return word

        turned = WORD.sub(one, text)
        for name, olds in spelled.items():
            free = [m for m in WORD.finditer(code) if m[0] == name and code[m.start() - 1:m.start()] != "." and code[m.end():m.end() + 1] != "." and code[m.end():m.end() + 2] != " ="]
            if len(olds) > 1 or path.suffix == ".antt" and free and name not in here:
                print(f"{inner}: {', '.join(sorted(olds))} and {name if free else '-'} fall together")
                bad += 1
        if turned != before:
            changed += 1
            if not check:
                path.write_text(turned)
    print(f"respell: {len(new)} names, {changed} files")
    return bad > 0


if __name__ == "__main__":
    sys.exit(main())
