#!/usr/bin/env python3
"""Hold the house to what README.md says of it; exit 1 where they differ.

    tools/house.py

Doors: a function of one storey is called from another only if README's table of doors lists it; the boundary, the programs and the tries
may also call every public function. Promises: a public function of README's table has an `ensures` and no `requires`, and as many must-fail
edits as the table says; every exported function is in the table, or has in a crate NAME_c the name and the clauses of one of NAME that is; and no
function that can be called from outside a crate with public functions has a `requires`. Edits: the first line of each names a public function, a
definition, or the function of a near miss, and the wrong answer that it rules out; the text that it changes stands in its file once. Lines: none
of a definition, a law or a function is over 200 characters, but for an import or one with a text in it."""
import pathlib
import re
import sys

ROOT = pathlib.Path(__file__).resolve().parents[1]
CRATES = ROOT / "crates"
STOREYS = {"lists": "lists", "arrays": "lists", "columns": "columns", "cover": "cover", "archive": "archive", "run": "run", "cleaning": "run",
           "ffi": "boundary", "try": "tries"}
OUTSIDE = {"boundary", "programs", "tries"}  # who may call every public function
HEAD = re.compile(r"# `([a-z_0-9]+)([.:]\S*)`(, near miss)?: \S")


def storey(crate):
    return STOREYS.get(crate.split("_")[0], "programs")


def crates():
    """The crates of crates.txt."""
    lines = (line.split("#")[0] for line in (ROOT / "crates.txt").read_text().splitlines())
    return [line.split(":")[0].split()[0] for line in lines if ":" in line]


def rows(heading):
    """The rows of the table below a heading of README, cell by cell."""
    text = (ROOT / "README.md").read_text().split(f"\n## {heading}\n", 1)[1].split("\n## ", 1)[0]
    table = [line for line in text.splitlines() if line.startswith("|")][2:]
    return [[cell.strip() for cell in line.strip("|").split("|")] for line in table]


def functions(cell):
    """The paths in a cell: `a::b::{c, d}` stands for two."""
    for path in re.findall(r"`([^`]*)`", cell):
        head, _, names = path.partition("{")
        yield from (head + name.strip() for name in names.rstrip("}").split(",")) if names else [path]


# ── doors ────────────────────────────────────────────────────────────────────────────────────

def imported(code):
    """The paths that a file imports: `a::b::{c, d}` stands for two."""
    for path in re.findall(r"^(?:pub(?:\(crate\))? )?use ([^;]*);", code, re.M):
        head, _, names = path.partition("{")
        yield from (head + name.strip() for name in names.rstrip("}\n ").split(",") if name.strip()) if names else [path]


def methods():
    """The public methods of the repository's types: for each name, the paths `crate::module::Type::name`."""
    found = {}
    for crate in crates():
        for file in sorted((CRATES / crate / "src").rglob("*.rt")):
            modules = [m for m in file.relative_to(CRATES / crate / "src").with_suffix("").parts if m not in ("lib", "main")]
            for kind, body in re.findall(r"^impl(?:<[^>]*>)? (\w+)(?:<[^>]*>)? \{\n(.*?)^\}", file.read_text(), re.M | re.S):
                for name in re.findall(r"^    pub fn (\w+)", body, re.M):
                    found.setdefault(name, []).append("::".join((crate, *modules, kind, name)))
    return found


def calls(crate, known, of_types):
    """The functions and methods of other crates that a crate's code calls, by their paths. A method counts where its type is imported, or no other
    type has one of its name."""
    for file in sorted((CRATES / crate / "src").rglob("*.rt")):
        code = re.sub(r"^ghost use [^;]*;", "", re.sub(r"//.*", "", file.read_text()), flags=re.M)
        code = "\n".join(line for line in code.splitlines() if not line.startswith("ghost"))
        used = {path.split("::")[-1]: path for path in imported(code)}
        for head, rest in re.findall(r"(?<![\w:])([a-z_0-9]+)((?:::[a-z_0-9]+)*)\(", code):
            path = used.get(head, head) + rest
            if "::" in path and path.split("::")[0] in known - {crate}:
                yield path
        for name in set(re.findall(r"\.(\w+)\(", code)):
            paths = of_types.get(name, [])
            for path in paths:
                if path.split("::")[0] != crate and (len(paths) == 1 or path.split("::")[-2] in used):
                    yield path


def doors(public):
    listed = {(row[0], row[1]): set(functions(row[2])) for row in rows("Doors")}
    known, of_types, seen, wrong = set(crates()), methods(), {pair: set() for pair in listed}, []
    for crate in crates():
        for path in calls(crate, known, of_types):
            pair = storey(crate), storey(path.split("::")[0])
            if pair[0] == pair[1] or (pair[0] in OUTSIDE and path in public):
                continue
            if path in listed.get(pair, ()):
                seen[pair].add(path)
            else:
                wrong.append(f"{crate} calls {path}: no door from {pair[0]} to {pair[1]}")
    for pair, paths in listed.items():
        wrong += [f"no call from {pair[0]} to {pair[1]} goes through the door {path}" for path in sorted(paths - seen[pair])]
    return wrong


# ── promises ─────────────────────────────────────────────────────────────────────────────────

def has(kind, text):
    """Whether a contract has a clause of a kind, named or not."""
    return re.search(rf"\b{kind}(?: \w+)? \{{", text) is not None


def contract(path):
    """The contract of a function: what stands between its parameters and its body, or nothing if there is no such public function."""
    crate, *modules, name = path.split("::")
    kind = modules.pop() if modules and modules[-1][0].isupper() else None
    source = CRATES / crate / "src" / ("/".join(modules) + ".rt" if modules else "lib.rt")
    if not source.exists():
        return None
    text, indent = source.read_text(), ""
    if kind:
        text, indent = "".join(re.findall(rf"^impl(?:<[^>]*>)? {kind}(?:<[^>]*>)? \{{\n(.*?)^\}}", text, re.M | re.S)), "    "
    found = re.search(rf"^{indent}pub (?:extern \"C\" )?fn {name}(?:<[^>]*>)?\((.*?)^{indent}\{{", text, re.M | re.S)
    return found and found.group(1)


def open_functions(crate, modules=()):
    """The functions that can be called from outside a crate, by their paths, each with its text."""
    text = (CRATES / crate / "src" / ("/".join(modules or ("lib",)) + ".rt")).read_text()
    for function in re.split(r"^(?= *(?:pub(?:\(crate\))? )?(?:extern \"C\" )?fn )", text, flags=re.M)[1:]:
        name = re.match(r" *pub (?:extern \"C\" )?fn (\w+)", function)
        if name:
            yield "::".join((crate, *modules, name[1])), function
    for module in re.findall(r"^pub mod (\w+);", text, re.M):
        yield from open_functions(crate, (*modules, module))


def exported():
    """The functions that programs in C or Rust can call, by their paths."""
    for crate in crates():
        for file in sorted((CRATES / crate / "src").rglob("*.rt")):
            modules = file.relative_to(CRATES / crate / "src").with_suffix("").parts
            for name in re.findall(r"^pub extern \"C\" fn (\w+)", file.read_text(), re.M):
                yield "::".join((crate, *(m for m in modules if m != "lib"), name))


def bare(text):
    return re.sub(r",?\s+|,(?=[)}])", "", text)


def exports(public):
    """Exported functions that README doesn't list. One of a crate NAME_c stands for the function of its name in NAME, with the same clauses."""
    for path in exported():
        crate, name = path.split("::")[0], path.split("::")[-1]
        under = [listed for listed in public if listed.split("::")[0] + "_c" == crate and listed.split("::")[-1] == name]
        if under and bare(contract(path)) != bare(contract(under[0]) or ""):
            yield f"{path} promises something else than {under[0]}"
        elif not under and path not in public:
            yield f"{path} is exported and not in the table of public functions"


def defined(crate, rest):
    """Whether `crate.Module.name` is a definition."""
    module, _, name = rest.strip(".").partition(".")
    files = (CRATES / crate / "specs").rglob(f"{module}.antt")
    return any(re.search(rf"^ *(?:\w+ )*{re.escape(name)} (?:\(.*\) )?:", file.read_text(), re.M) or f"record {name} " in file.read_text() for file in files)


def misplaced(edit):
    """The old texts of an edit that do not stand in their files just once."""
    crate, file, old, changed = edit.parents[1], None, None, {}
    for line in edit.read_text().splitlines():
        key, _, text = line.partition(": ")
        if key == "file":
            file = crate / text
            changed.setdefault(file, file.read_text() if file.exists() else "")
        elif key == "old":
            old = text
            if changed[file].count(old) != 1:
                yield old
        elif key == "new":
            changed[file] = changed[file].replace(old, text)


def edits(public):
    """How many edits name each function, and what is wrong with an edit's first line or its places."""
    count, wrong = {}, []
    for edit in sorted(CRATES.glob("*/must-fail/*.edit")):
        head = HEAD.match(edit.read_text())
        if not head:
            wrong.append(f"{edit.relative_to(ROOT)}: its first line is not '# `function`: the wrong answer'")
            continue
        wrong += [f"{edit.relative_to(ROOT)}: stands not just once in its file: {text}" for text in misplaced(edit)]
        path = head[1] + head[2]
        count[path] = count.get(path, 0) + 1
        there = defined(head[1], head[2]) if head[2].startswith(".") else path in public or (head[3] and contract(path) is not None)
        if not there:
            wrong.append(f"{edit.relative_to(ROOT)}: {path} is neither a public function nor a definition")
    return count, wrong


def promises(table):
    public = {path for row in table for path in functions(row[1])}
    count, wrong = edits(public)
    for path in sorted(public):
        text = contract(path)
        if text is None:
            wrong.append(f"{path} is in the table of public functions and not in the code")
        elif not has("ensures", text) or has("requires", text):
            wrong.append(f"{path}: a public function has an `ensures` and no `requires`")
    for crate in sorted({path.split("::")[0] for path in public}):
        wrong += [f"{path} has a `requires` and can be called from outside" for path, text in open_functions(crate) if has("requires", text) and path not in public]
    for row in table:
        least, unit = row[2].split(" ", 1)
        paths = list(functions(row[1]))
        if unit == "each":
            wrong += [f"{path}: {count.get(path, 0)} must-fail edits, {least} are due" for path in paths if count.get(path, 0) < int(least)]
        elif sum(count.get(path, 0) for path in paths) < int(least):
            wrong.append(f"{row[0]}: fewer than {least} must-fail edits in all")
    return wrong + list(exports(public))


# ── lines ────────────────────────────────────────────────────────────────────────────────────

def lines():
    """Lines that are too long to be read. Imports, lists of what computes and archives with known answers are not looked at."""
    for file in sorted(file for part in ("src", "specs", "proofs") for file in CRATES.glob(f"*/{part}/**/*") if file.suffix in (".rt", ".antt")):
        if file.name == "Computes.antt" or file.parts[len(CRATES.parts)] == "try_known":
            continue
        for number, line in enumerate(file.read_text().splitlines(), 1):
            if len(line) > 200 and '"' not in line and not re.match(r" *(pub |ghost )?use ", line):
                yield f"{file.relative_to(ROOT)}:{number}: a line of {len(line)} characters"


def main():
    table = rows("Public functions")
    wrong = doors({path for row in table for path in functions(row[1])}) + promises(table) + list(lines())
    print("\n".join(f"house: {line}" for line in dict.fromkeys(wrong)) or "house: doors, promises, edits and lines are as README and this file say")
    return 1 if wrong else 0


if __name__ == "__main__":
    sys.exit(main())
