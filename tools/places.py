#!/usr/bin/env python3
"""Count the places of which docs/DESIGN-PASS.md speaks, in the sources of the working tree or of a commit.

    tools/places.py [COMMIT] [--list]     a line for each kind of place; with --list each place

By text alone: what a place is, and whether it stays, says the page."""
import collections
import re
import subprocess
import sys

ITEM = re.compile(r"^( *)(?:pub(?:\(crate\))? )?(?:unsafe )?(?:extern \"C\" )?fn (\w+)(?:<[^>]*>)?\(", re.M)
SHAPE = re.compile(r"\b(?:Refused|Broken)\(|^ *(?:No\w+|Nothing|Full|Un(?:labelled|covered|cited)),$", re.M)
BY_HAND = r"wide|short|size|index|least|larger|longest|small|long|narrow|number|slot|width|kind_of|set_of|flag_at|copy|is_same|same_two|same_three|same_bytes"


def sources(commit):
    """The text of each source file, without comments, by its path."""
    def git(*words):
        return subprocess.run(("git", *words), check=True, capture_output=True, text=True).stdout
    if commit:
        names = git("ls-tree", "-r", "--name-only", commit, "crates").splitlines()
    else:
        names = git("ls-files", "crates").splitlines()
    for name in names:
        if re.fullmatch(r"crates/\w+/src/.*\.rt", name):
            text = git("show", f"{commit}:{name}") if commit else open(name).read()
            yield name, re.sub(r" *//.*", "", text)


def functions(text):
    """The functions of a file: name, parameters as (name, type), body."""
    for head in ITEM.finditer(text):
        close = text.index(f"\n{head[1]}}}", head.end()) if f"\n{head[1]}}}" in text[head.end():] else len(text)
        whole = text[head.end():close]
        depth, end = 1, 0
        while depth and end < len(whole):
            depth += {"(": 1, ")": -1}.get(whole[end], 0)
            end += 1
        params = [tuple(word.strip() for word in part.split(":", 1)) for part in re.split(r",(?![^<\[(]*[>\])])", whole[:end - 1]) if ":" in part]
        body = whole[end:].split(f"\n{head[1]}{{\n", 1)
        yield head[2], params, body[1] if len(body) == 2 else ""


def shape(body):
    """A body with its names, types and numbers taken out, so that twins are equal."""
    words = {}
    return re.sub(r"\b\w+\b", lambda m: words.setdefault(m[0], f"w{len(words)}"), re.sub(r"\s+", " ", body))


def places(commit):
    found, twins, together = collections.defaultdict(list), collections.defaultdict(list), collections.defaultdict(list)
    for name, text in sources(commit):
        for enum, body in re.findall(r"^ *(?:pub )?enum (\w+) \{(.*?)^\}", text, re.M | re.S):
            few = len(re.findall(r"^    \w+", body, re.M)) < 4
            found["1 enums of the shape of Option or Result" if few and SHAPE.search(body) else "1 other enums"].append(f"{name} {enum}")
        for field in re.findall(r"^    (?:pub )?((?:ruling|reply|error|covered|cited|is_failed|refusal): (?:u64|bool|[A-Z].*)),$", text, re.M):
            found["1 fields with a refusal or a flag beside a value"].append(f"{name} {field}")
        for number in re.findall(r"\b(?:kind|set|kinds|flag|phase): (?:u8|u32|u64|usize)\b", text):
            found["1 numbers for kinds, sets and flags"].append(f"{name} {number}")
        for arm in re.findall(r"\w+\((\w+)\) => (?:\{\s*)?(?:return )?(?:\w+::)?(?:Refused|Broken|Err)\(\1\)", text):
            found["1 matches that hand a refusal on"].append(f"{name} {arm}")
        for loop in re.findall(r"^ *((?:while\b.*|loop) ?\{)$", text, re.M):
            found["3 while and loop"].append(f"{name} {loop}")
        for loop in re.findall(r"^ *(for .* in \d.*\{)$|^ *(for .* in [a-z]\w*\.\..*\{)$", text, re.M):
            found["3 for over a range of indices"].append(f"{name} {loop[0] or loop[1]}")
        for count in re.findall(r"^    pub (?:count|length): \w+,$", text, re.M):
            found["6 arrays with a count beside"].append(f"{name} {count.strip()}")
        for local in re.findall(r"let mut \w+ = \[0\w*; \d+\];", text):
            found["6 buffers of a fixed length in a function"].append(f"{name} {local}")
        for function, params, body in functions(text):
            if re.fullmatch(BY_HAND, function):
                found["4 conversions, copies and comparisons by hand"].append(f"{name} {function}")
            if len(params) > 6:
                found["5 functions with more than six parameters"].append(f"{name} {function} {len(params)}")
            if body.count("\n") > 3:
                twins[shape(body)].append(f"{name} {function}")
            for three in zip(params, params[1:], params[2:]):
                together[three].append(f"{name} {function}")
    for group in twins.values():
        if len(group) > 1:
            found["2 functions with the shape of another"] += group
    for three, group in together.items():
        if len(group) > 2:
            found["5 runs of three parameters in three functions or more"].append(f"{', '.join(p[0] for p in three)}: {len(group)}")
    return found


def main():
    words = [word for word in sys.argv[1:] if word != "--list"]
    for kind, group in sorted(places(words[0] if words else None).items()):
        print(f"{len(group):5}  {kind}")
        if "--list" in sys.argv:
            print("".join(f"         {place}\n" for place in sorted(group)), end="")


if __name__ == "__main__":
    main()
