#!/usr/bin/env python3
"""differences.py: writes kept/differences, for each row of docs/DIFFERENCES.md that an archive can show its smallest archive, the listing
that document 01 asks for and, where it is accepted, the cleaned archive."""
import pathlib
import struct

HERE = pathlib.Path(__file__).resolve().parent


def record(kind, body):
    return struct.pack(">IBB", len(body) + 2, 1, kind) + body


def edges(rows, lists):
    """A forward set of the lists of slots (deltas), and no others."""
    starts = [sum(map(len, lists[:slot])) for slot in range(2 * rows + 1)]
    deltas = [delta for one in lists for delta in one]
    forward = struct.pack(f">I{2 * rows + 1}Q{len(deltas)}q", len(deltas), *starts, *deltas)
    empty = struct.pack(f">I{2 * rows + 1}Q", 0, *[0] * (2 * rows + 1))
    return record(2, forward + empty + empty)


def archive(first=100, rows=0, group=0, subject=b"a", depth=None, lists=None, erased=(), roots=()):
    low, high = depth or (0, 0)
    head = struct.pack(">QIBB", first, rows, group, len(subject)) + subject + struct.pack(">BQQ", depth is not None, low, high)
    flags = b"".join(struct.pack(">BQ", row in erased, row) for row in range(rows))
    entries = b"".join(struct.pack(">QQ", *root) for root in roots)
    return b"".join([
        record(1, head), edges(rows, lists or [[] for _ in range(2 * rows)]), record(3, flags), record(4, struct.pack(">I", 0)),
        record(5, struct.pack(">I", len(roots)) + entries),
    ])


def listing(first, forward):
    """The listing of one row that stays, with the forward deltas of its prev list."""
    count = len(forward)
    return "\n".join([
        f"map {first} {first}", f"file 0 {first} 1", f"offsets forward 0 {count} {count}", " ".join(["deltas forward", *map(str, forward)]),
        "offsets reverse 0 0 0", "deltas reverse", "offsets inbound 0 0 0", "deltas inbound", "reparented 0", "",
    ])


KEPT = {
    "depth_of_a_source": (archive(depth=(2, 1)), "refused 8\n"),
    "empty_subject": (archive(subject=b""), "refused 1\n"),
    "subject_before_group": (archive(subject=b"", group=1), "refused 1\n"),
    "numbers_before_depth": (archive(first=2**64 - 1, rows=1, depth=(2, 1)), "refused 3\n"),
    "root_outside": (archive(roots=[(0, 7)]), "refused 16\n"),
    "step_of_a_group": (archive(group=1), "refused 24\n"),
    "over_1024_events": (archive(rows=1025), "refused 42\n"),
    "last_number": (archive(first=2**64 - 2, rows=1), listing(2**64 - 2, []), archive(first=2**64 - 2, rows=1)),
    "parent_twice": (archive(rows=1, lists=[[1, 1], []]), listing(100, [1]), archive(rows=1, lists=[[1], []])),
}

folder = HERE / "differences"
folder.mkdir(exist_ok=True)
for name, (data, listed, *cleaned) in KEPT.items():
    (folder / f"{name}.archive").write_bytes(data)
    (folder / f"{name}.listing").write_text(listed)
    for written in cleaned:
        (folder / f"{name}.cleaned").write_bytes(written)
