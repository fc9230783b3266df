#!/usr/bin/env python3
"""full.py EVENTS GROUPS: an archive of so many events in so many groups to standard output, with all that an event can have: parents of both
kinds, children, a reference, a root, a label and a link. Every fourth event is erased."""
import struct
import sys

FIRST = 1_000_000


def words(*numbers):
    return struct.pack(f">{len(numbers)}I", *numbers)


def record(kind, body):
    return words(len(body) + 2) + bytes([1, kind]) + body


def edge_set(lists):
    """Lists of deltas, two for each event, as a count, offsets and deltas."""
    offsets, deltas = [0], []
    for one in lists:
        deltas += one
        offsets.append(len(deltas))
    return words(len(deltas)) + struct.pack(f">{len(offsets)}Q", *offsets) + struct.pack(f">{len(deltas)}q", *deltas)


def archive_file(group, rows):
    """One group's file: its events have chains of their own, and each a link to the same place of another group."""
    first = FIRST + group * rows
    forward = [[1, 2], [1]] * rows
    reverse = [[-1], []] * (rows - 1) + [[], []]
    inbound = [[-rows], []] * rows
    head = struct.pack(">QIBB4sBQQ", first, rows, group, 4, b"room", 1, 1, 2)
    chains = range(rows)
    cover = words(*chains, *[group] * rows, rows, *(part for chain in chains for part in (chain, group, group)))
    cover += words(rows, 0, *[1] * (rows - 1), *[group] * rows, *reversed(chains), *[group] * rows)
    bodies = [head, b"".join(map(edge_set, (forward, reverse, inbound))),
              b"".join(struct.pack(">BQ", row % 4 == 1, row) for row in range(rows)),
              words(rows) + b"".join(struct.pack(">QBI", first + row, row % 2, row) for row in range(rows)),
              words(rows) + b"".join(struct.pack(">QQ", row, row) for row in range(rows)), cover]
    return b"".join(record(kind, body) for kind, body in enumerate(bodies, 1))


if __name__ == "__main__":
    events, groups = map(int, sys.argv[1:])
    sys.stdout.buffer.write(b"".join(archive_file(group, events // groups) for group in range(groups)))
