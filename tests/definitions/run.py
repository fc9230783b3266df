#!/usr/bin/env python3
"""Compute the definitions `listing` and `cleaned_bytes` on archives whose answers are known.

    tests/definitions/run.py [--most N] [--bytes N] [--keep] [FOLDER]

FOLDER holds NAME.archive, NAME.listing and, where the archive is accepted, NAME.cleaned. Each answer becomes an equation that the
prover must find true by computing, in a crate of its own beside a copy of this repository, outside it. At most N archives are
taken (default: all), spread evenly, none of more than so many bytes (default: 1200). With --keep the crate is written to
crates/try_known of this repository instead, a sample that the gate proves without the folder."""
import argparse
import pathlib
import sys

sys.path.insert(0, str(pathlib.Path(__file__).resolve().parents[1]))
import scratch  # noqa: E402

COMMENT = "Archives with known answers, computed by the definitions. There is no code here."
HEAD = """use Rattle.std.specs.Prelude.{◌≡◌, refl, List, [], ◌∷◌, ℕ}
use Rattle.columns.specs.Limits.{kinds}
use Rattle.cleaning.specs.Listing.{listing, cleaned_bytes}

input : List ℕ
input = %s

listed : listing kinds input ≡ %s
unfolding listing input
listed = refl

written : cleaned_bytes kinds input ≡ %s
unfolding cleaned_bytes input
written = refl
"""


def column(data):
    return " ∷ ".join([str(b) for b in data] + ["[]"])


def module(archive):
    cleaned = archive.with_suffix(".cleaned")
    answers = [archive.read_bytes(), archive.with_suffix(".listing").read_bytes(), cleaned.read_bytes() if cleaned.exists() else b""]
    return HEAD % tuple(column(a) for a in answers)


def choose(folder, most, size):
    found = sorted(a for a in folder.glob("*.archive") if a.stat().st_size <= size)
    return found if most is None or most >= len(found) else [found[i * len(found) // most] for i in range(most)]


def modules(archives):
    return {f"Archive{i}": f"-- {archive.stem}: its listing and its cleaned bytes.\n" + module(archive) for i, archive in enumerate(archives)}


def main():
    parser = argparse.ArgumentParser(description=__doc__, formatter_class=argparse.RawDescriptionHelpFormatter)
    parser.add_argument("folder", nargs="?", type=pathlib.Path)
    parser.add_argument("--most", type=int)
    parser.add_argument("--bytes", type=int, default=1200)
    parser.add_argument("--keep", action="store_true")
    args = parser.parse_args()
    folder = args.folder or scratch.ROOT.parent / "shared" / "vectors" / "archives"
    if not folder.is_dir():
        print(f"definitions: skipped, no archives with answers at {folder}")
        return 0
    archives = choose(folder, args.most, args.bytes)
    if args.keep:
        scratch.write(scratch.ROOT / "crates" / "try_known", COMMENT, modules(archives))
        return 0
    status, said, places = scratch.prove("try_known", COMMENT, modules(archives))
    wrong = sorted({archives[int(name.removeprefix("Archive"))].name for name, _ in places})
    if status or wrong:
        print("\n".join(f"definitions: {name}: computes to something else" for name in wrong) or said[-4000:])
        print(f"definitions: {len(wrong)} of {len(archives)} archives failed")
        return 1
    print(f"definitions: {len(archives)} archives give their listings and their cleaned bytes")
    return 0


if __name__ == "__main__":
    sys.exit(main())
