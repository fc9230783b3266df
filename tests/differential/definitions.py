#!/usr/bin/env python3
"""Compare the definitions with the original's answers to the questions over columns.

    tests/differential/definitions.py CASES

CASES holds lines that `differential cases` printed. Each becomes an equation between a definition and the original's answer that
the prover must find true by computing, in a crate of its own beside a copy of this repository, outside it."""
import pathlib
import sys

sys.path.insert(0, str(pathlib.Path(__file__).resolve().parents[1]))
import scratch  # noqa: E402

FORMS = {
    "build": "LNNLLLLLLNLLLLLNN", "read": "NNNNLLNLLNLLNLL", "parents": "NNNNLLNN", "children": "NNNNLLNLLNN", "label": "NNLLN",
    "roots": "NNL", "walk": "NNNNLLNNN", "cover": "LLLLLL", "stored": "LLLL", "decode": "LLLLLLL", "window": "LLLNNN", "links": "LLLLL",
    "resolve": "NNLLLLLL", "handed": "NNLLLLLL",
}
REFUSALS = {
    1: "SubjectLength", 2: "EdgeEntries", 3: "NumberRange", 4: "ParentNotEarlier", 5: "ParentTwice", 6: "UnresolvedChild",
    7: "UnresolvedKind", 8: "DepthOrder", 9: "LabelCount", 10: "SeqNotRising", 11: "InboundChild", 12: "InboundParent",
    13: "InboundTwice", 14: "GranuleRows", 15: "DeltaRange", 16: "RootOutside", 17: "OffsetsForm", 18: "DeltaCount",
    19: "TargetSide", 20: "LabelColumns", 21: "LabelRange", 22: "CoverForm",
}
HEAD = """use Rattle.std.specs.Prelude.{◌≡◌, refl, Bool, true, false, List, [], ◌∷◌, map, ℕ, ℤ, pos, negsuc}
use Rattle.std.proofs.Math.Option.{Option, none, some}
use Rattle.columns.specs.Limits.{kinds}
use Rattle.columns.specs.Refusal.{Verdict, refused, accepted}
use Rattle.columns.specs.declared.refusal.Refusal.TheVariants.{%s}
use Rattle.columns.specs.EdgeSet.{EdgeSet}
use Rattle.columns.specs.Reading.{Label, Labels, GranuleColumns, Granule, read_granule}
use Rattle.columns.specs.Building.{Depth, Graph, Built, build}
use Rattle.columns.specs.Questions.{parents, children, label}
use Rattle.columns.specs.Roots.{root_entries}
use Rattle.columns.specs.Walk.{Walked, walk}
use Rattle.cover.specs.Chains.{Range, Link}
use Rattle.cover.specs.Cover.{LinkColumns, Cover, build_cover, columns_of, read_cover}
use Rattle.cover.specs.Questions.{may_hold_chain, chain_links}
use Rattle.cover.specs.Computes.{computes}
use Rattle.columns_refs.specs.References.{Referred, Resolution, resolve_graph}
use Rattle.columns_refs.specs.Resolved.{offsets_column, parents_column, children_column, kinds_column, handles_column}
use Rattle.columns_refs.specs.Computes.{computes as references_open}

-- what building makes of references, for a subject of one byte, without depth, labels and inbound edges, all rows
abbrev handed : Referred → Verdict Resolution → Verdict Built
handed g (refused r) = refused r
handed g (accepted x) =
    build kinds (record {
      subject = 97 ∷ []; first = g.first; rows = g.rows; offsets = offsets_column x; targets = parents_column x;
      unresolved = record { children = children_column x; kinds_given = kinds_column x; flags = map (λ u. 0) (handles_column x) };
      depth = none; labels = none; inbound = record { children = []; parents = []; kinds_given = [] };
      granule_first = 0; granule_rows = g.rows;
    }) []
""" % ", ".join(REFUSALS.values())
EACH = 8


# ── terms ────────────────────────────────────────────────────────────────────────────────────

def column(items):
    return "(" + " ∷ ".join([str(item) for item in items] + ["[]"]) + ")"


def record(**fields):
    return "(record { " + "; ".join(f"{name} = {value}" for name, value in fields.items()) + " })"


def signed(number):
    return f"(pos {number})" if number >= 0 else f"(negsuc {-number - 1})"


def edge_set(count, offsets, deltas):
    return record(count=count, offsets=column(offsets), deltas=column(map(signed, deltas)))


def labels(chains, seqs):
    return record(chains=column(chains), seqs=column(seqs))


def optional(there, term):
    return f"(some {term})" if there else "none"


def label_list(chains, seqs):
    return column(record(chain=c, seq=s) for c, s in zip(chains, seqs))


def link_columns(a, b, c, d):
    return record(from_chains=column(a), from_seqs=column(b), to_chains=column(c), to_seqs=column(d))


def link_list(a, b, c, d):
    return column(record(from_chain=w, from_seq=x, to_chain=y, to_seq=z) for w, x, y, z in zip(a, b, c, d))


def range_list(ids, least, greatest):
    return column(record(chain=i, least=a, greatest=b) for i, a, b in zip(ids, least, greatest))


def slots(offsets, targets):
    return column(column(targets[a:b]) for a, b in zip(offsets, offsets[1:]))


# ── questions: the term asked, and the term that an accepted answer is ───────────────────────

def graph(subject, first, rows, offsets, targets, children, kinds, flags, depth, covered, chains, seqs, into, parents, by, at, count):
    return record(
        subject=column(subject), first=first, rows=rows, offsets=column(offsets), targets=column(targets),
        unresolved=record(children=column(children), kinds_given=column(kinds), flags=column(flags)),
        depth=optional(depth, record(least=depth[0], greatest=depth[1]) if depth else ""),
        labels=optional(covered, labels(chains, seqs)),
        inbound=record(children=column(into), parents=column(parents), kinds_given=column(by)),
        granule_first=at, granule_rows=count)


def references(first, rows, starts, kinds, spaces, targets, known, numbers):
    return record(
        first=first, rows=rows, starts=column(starts), kinds_given=column(kinds), spaces=column(spaces), targets=column(targets),
        known=column(known), numbers=column(numbers))


def asked(name, p):
    if name == "build":
        return f"build kinds {graph(*p)} []"
    if name == "read":
        columns = record(forward=edge_set(*p[3:6]), reverse=edge_set(*p[6:9]), inbound=edge_set(*p[9:12]), labels=optional(p[12], labels(*p[13:15])))
        return f"read_granule kinds {p[0]} {p[1]} {p[2]} {columns} []"
    if name == "parents":
        return f"parents kinds {p[0]} {p[1]} {p[2]} {edge_set(*p[3:6])} {p[6]} {p[7]} []"
    if name == "children":
        return f"children kinds {p[0]} {p[1]} {p[2]} {edge_set(*p[3:6])} {edge_set(*p[6:9])} {p[9]} {p[10]} []"
    if name == "label":
        return f"label {p[0]} {p[1]} {labels(p[2], p[3])} {p[4]}"
    if name == "roots":
        return f"root_entries {p[0]} {p[1]} {column(p[2])} []"
    if name == "walk":
        return f"walk kinds {p[0]} {p[1]} {p[2]} {edge_set(*p[3:6])} {p[6]} {p[7]} {p[8]} []"
    if name == "cover":
        return f"build_cover {labels(p[0], p[1])} {link_columns(*p[2:6])} []"
    if name == "stored":
        return f"columns_of {link_list(*p)}"
    if name == "decode":
        return f"read_cover {range_list(*p[0:3])} {link_columns(*p[3:7])} []"
    if name == "window":
        return f"may_hold_chain {range_list(*p[0:3])} {p[3]} {p[4]} {p[5]}"
    if name == "links":
        return f"chain_links {link_columns(*p[0:4])} {column(p[4])} []"
    resolved = f"resolve_graph {references(*p)} []"
    return resolved if name == "resolve" else f"handed {references(*p)} ({resolved})"


def given(name, p, words):
    def lists(count):
        return [take(words, "L") for _ in range(count)]
    if name in ("build", "handed"):
        sets = [edge_set(take(words, "N"), *lists(2)) for _ in range(3)]
        return record(forward=sets[0], reverse=sets[1], inbound=sets[2])
    if name == "read":
        forward, reverse, inbound, chains, seqs = lists(5)
        return record(forward=slots(p[4], forward), reverse=slots(p[7], reverse), inbound=slots(p[10], inbound), labels=label_list(chains, seqs))
    if name in ("parents", "children", "roots"):
        return column(*lists(1))
    if name == "label":
        found = take(words, "L")
        return optional(found, record(chain=found[0], seq=found[1]) if found else "")
    if name == "walk":
        levels = lists(take(words, "N"))
        return record(levels=column(map(column, levels)), count=take(words, "N"))
    if name == "cover":
        return record(ranges=range_list(*lists(3)), links=link_list(*lists(4)))
    if name == "stored":
        return link_columns(*lists(4))
    if name == "decode":
        return record(ranges=range_list(*p[0:3]), links=link_list(*lists(4)))
    if name == "window":
        return "true" if take(words, "N") else "false"
    if name == "links":
        return link_list(*lists(4))
    offsets, targets, *records = lists(5)
    unresolved = column(record(child=child, kind=kind, handle=handle) for child, kind, handle in zip(*records))
    return record(lists=slots(offsets, targets), unresolved=unresolved)


# ── lines ────────────────────────────────────────────────────────────────────────────────────

def take(words, sort):
    number = int(next(words))
    return number if sort == "N" else [int(next(words)) for _ in range(number)]


def equation(line):
    words = iter(line.split())
    name = next(words)
    parts = [take(words, sort) for sort in FORMS[name]]
    assert next(words) == "=", line
    refusal = int(next(words))
    answer = f"refused {REFUSALS[refusal]}" if refusal else given(name, parts, words)
    if not refusal and name != "stored":
        answer = f"accepted {answer}"
    assert next(words, None) is None, line
    return f"{asked(name, parts)} ≡ {answer}"


def modules(lines):
    """Module texts, and for each the line of text at which each case stands."""
    for start in range(0, len(lines), EACH):
        text, places = HEAD, []
        for i, line in enumerate(lines[start:start + EACH]):
            text += "\n"
            places.append(text.count("\n") + 1)
            text += f"case{i} : {equation(line)}\nunfolding computes references_open\ncase{i} = refl\n"
        yield text, places


def main():
    if len(sys.argv) != 2:
        sys.exit(__doc__)
    lines = pathlib.Path(sys.argv[1]).read_text().splitlines()
    made = list(modules(lines))
    texts = {f"Cases{i}": text for i, (text, _) in enumerate(made)}
    status, said, places = scratch.prove("answered", "The original's answers.", texts, "lists columns columns_refs cover")
    wrong = set()
    for name, at in places:
        module = int(name.removeprefix("Cases"))
        wrong.add(module * EACH + max(i for i, place in enumerate(made[module][1]) if place <= at))
    for i in sorted(wrong, key=lambda i: len(lines[i])):
        print(f"the definition computes to something else: {lines[i]}")
    if status or wrong:
        print("" if wrong else said[-4000:])
        print(f"definitions: {len(wrong)} of {len(lines)} cases failed")
        return 1
    print(f"definitions: {len(lines)} cases give the original's answers")
    return 0


if __name__ == "__main__":
    sys.exit(main())
