//! When each refusal comes, as somebody would explain it who knows document 01.

pub struct Condition {
    pub number: u64,
    /// In which calls it is looked for.
    pub tested: &'static str,
    pub text: &'static str,
}

const TAKING: &str = "when an archive is taken";
const RESOLVING: &str = "when a run is resolved";
const BUILDING: &str = "when columns are built; no archive gives it";
const READING: &str = "when columns are read; no archive gives it";
const TAKING_AND_BUILDING: &str = "when an archive is taken, and when columns are built";
const TAKING_AND_READING: &str = "when an archive is taken, and when columns or a cover are read";
const WRITING_AND_BUILDING: &str = "when the cleaned archive is written, and when columns are built";

const fn of(number: u64, tested: &'static str, text: &'static str) -> Condition {
    Condition { number, tested, text }
}

pub const CONDITIONS: [Condition; 31] = [
    of(1, TAKING_AND_BUILDING, "\
A file names its room, so its subject has a byte at least. One byte of the file record says how many, so that only columns built by a host can
have a subject of more than 255."),
    of(2, BUILDING, "\
The parents come in one slot a row and kind, and the slots' offsets say where each begins among them: two for each row and one more, the first
of them 0, none below the one before it, the last as many as there are parents."),
    of(3, TAKING_AND_BUILDING, "\
The number behind the file's last event, its first number plus its events, must itself fit into 64 bits. A file that begins at 2^64 - 2 has room
for one event."),
    of(4, BUILDING, "\
Parents come before their children: every parent's number is less than its event's own. An event that names itself is refused too."),
    of(5, BUILDING, "\
A list of prev parents, or of auth parents, names each parent once. One parent may stand in both lists of an event."),
    of(6, TAKING_AND_BUILDING, "\
An unresolved record says which event of its own file waits for a parent; that number must be one of the file's. A file without events can't
have such a record."),
    of(7, TAKING_AND_BUILDING, "\
An unresolved reference is to a prev parent (0) or an auth parent (1). A parent that can be named by its sequence number is not unresolved: the
flag that says so, of columns built by a host, must be 0."),
    of(8, TAKING_AND_BUILDING, "\
A file that says how deep its events lie gives the least depth and the greatest, in this order; they may be equal."),
    of(9, BUILDING, "\
A file with a chain cover gives every row a chain and a seq: each of the two columns is as long as the rows are many."),
    of(10, WRITING_AND_BUILDING, "\
From row to row, the seq of a chain goes up and never stays. Files of one group become one file, so that two of them may give a chain the same seq,
which is seen only when that file is written."),
    of(11, BUILDING, "\
Inbound edges come from later files: their children's numbers begin where this file's own end."),
    of(12, BUILDING, "\
An inbound edge leads to an event of this file, as its prev parent (0) or its auth parent (1). Where the library takes a kind or a set by its
number, one that names none is this refusal too."),
    of(13, BUILDING, "\
No two inbound edges have the same child, the same parent and the same kind. They may agree in two of the three."),
    of(14, BUILDING, "\
A granule is a stretch of the file's rows: the row it starts at plus its own rows may come up to the file's number of rows, and not further."),
    of(15, WRITING_AND_BUILDING, "\
A column holds an event's number minus that of its parent or child, from -2^63 to 2^63 - 1. A survivor can get a parent that lies further back
than any it named, so that an archive which was taken may be refused when its cleaning is written."),
    of(16, "when an archive is taken, and when the rows of state roots are asked for", "\
A state root belongs to a row of its file. Rows count from 0, so that a file of four events has the rows 0 to 3."),
    of(17, TAKING_AND_READING, "\
The offsets of a set cut its deltas into slots, two for each row: the first is 0, none is below the one before it, and the last is the set's
edge count. In an archive their number always fits, since the record would be broken otherwise (23)."),
    of(18, READING, "\
A set that counts edges has just as many deltas. Of a set without edges the deltas are not looked at."),
    of(19, TAKING_AND_READING, "\
An event's number minus a delta is the other end of an edge, and must be a number of 64 bits on the right side: for forward sets below the event; for
reverse sets above it, but still in the file; for inbound sets behind the file. In a set with edges each row must have a number itself."),
    of(20, READING, "\
The chains and the seqs that are read with a file's columns are one for each of its rows."),
    of(21, READING, "\
Chains and seqs are numbers of 32 bits, though they are lent in columns of 64. An archive stores four bytes of each."),
    of(22, TAKING_AND_READING, "\
A cover's ranges go up by chain, each from a least seq to one that is not smaller. Its links go up, from chain first and to seq last, without a
repeat; their from chains, stored as differences, never add up to 2^32. The four columns of links are equally long."),
    of(23, TAKING, "\
The whole archive is read first, before anything it says is looked at. A record's length leads to the next record or to the end, and fits what it
holds; its version is 1; the records of a file are file, edges, rows, unresolved, roots, and a cover if there is one. Flags are 0 or 1; a file
that says no depth has zeros there; the rows of its roots go up without a repeat; the children of its unresolved records never go down."),
    of(24, "when an archive is taken, and when a run is resolved", "\
Groups count up from 0: a file has the group of the file before it, or one more. A run that is resolved has taken a file; an archive of no bytes
has none, which is found out only then."),
    of(25, TAKING, "\
All files of a run are one room's, with the same subject, and each starts with the number at which the last one ended. So a file that is
missing, comes twice or is out of order is noticed."),
    of(26, TAKING, "\
Either all files of a group have a cover record or none has: the group becomes one file."),
    of(27, RESOLVING, "\
Every group becomes a file, and a file needs an event. A group of which all events are erased, or that never had one, can't become one."),
    of(40, "first in every call on a run", "\
A run takes archives, in one call or more; then it is resolved, once; then it is written and asked, as often as wanted. A refused call leaves it
where it was."),
    of(41, "after everything else in a call that writes", "\
What a host lends for an output has too few entries. This command lends enough; with it, 41 says that `list` was given more than 65,536 bytes,
another command more than 256 MiB, or a call of `play` a CAP that is too small."),
    of(42, "when an archive is taken, before its files are looked at; and for what a host lends", "\
A run holds 1,024 events at most, counted over all it has taken and the new archive, erased ones too; so it is with roots, unresolved
references, ranges and links, each by itself. Its files have 16 group numbers at most."),
    of(43, "when an archive is taken, after 42; when a run is resolved; and for what a host lends", "\
A run's forward deltas are 4,096 at most over all its files, and so are its reverse and its inbound ones. When it is resolved, the new parents of
all events together, erased ones too, are 4,096 at most."),
];
