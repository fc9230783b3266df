"""A crate of equations and no code, and its proof beside a copy of this repository, outside it."""
import pathlib
import re
import shutil
import subprocess
import tempfile

ROOT = pathlib.Path(__file__).resolve().parents[1]


def write(crate, comment, modules):
    """Writes a crate anew whose specs are the modules, texts by name."""
    shutil.rmtree(crate, ignore_errors=True)
    (crate / "src").mkdir(parents=True)
    (crate / "specs").mkdir()
    (crate / "src" / "lib.rt").write_text(f"// {comment}\n#![tactic(auto)]\n")
    for name, text in modules.items():
        (crate / "specs" / f"{name}.antt").write_text(text)
    (crate / "specs" / "Lib.antt").write_text("".join(f"pub mod {name}\n" for name in modules))


def prove(name, comment, modules, deps=None):
    """Proves such a crate over a copy of the repository: what `rt check` says, and every place of a module that it finds wrong. A crate that
    the repository does not list is listed with its deps."""
    with tempfile.TemporaryDirectory() as scratch:
        work = pathlib.Path(scratch) / "work"
        shutil.copytree(ROOT, work, ignore=shutil.ignore_patterns(".git", "must-fail", "differential", "out", "target"))
        write(work / "crates" / name, comment, modules)
        if deps is not None:
            with open(work / "crates.txt", "a") as listed:
                listed.write(f"{name}: {deps}\n")
        done = subprocess.run(["rt", "check"], cwd=work / "crates" / name, capture_output=True, text=True)
    said = done.stdout + done.stderr
    wrong = [(module, int(line)) for module, line in re.findall(r"/(\w+)\.antt:(\d+).*: error:", said) if module in modules]
    return done.returncode, said, wrong
