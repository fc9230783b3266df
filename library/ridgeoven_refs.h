/* The references of a file's rows: parent lists out of them, and their record. A slice is a pointer and a length in elements, of which the
 * caller owes what ridgeoven.h says; a refusal is told by its number, 0 is none, and after one nothing is written. What a call promises is its
 * contract in crates/ffi_refs and crates/ffi_archive. */
#ifndef RIDGEOVEN_REFS_H
#define RIDGEOVEN_REFS_H

#include "ridgeoven.h"

#ifdef __cplusplus
extern "C" {
#endif

/* The kinds of a reference. */
enum {
    RIDGEOVEN_PREV = 0,
    RIDGEOVEN_AUTH = 1,
    RIDGEOVEN_LINK = 2,
    RIDGEOVEN_PARENT = 3,
    RIDGEOVEN_RELATED = 4,
    RIDGEOVEN_ROOT = 5
};

/* What a reference names its target by: an id, for which the host has a handle, or the target's number. */
enum {
    RIDGEOVEN_BY_EVENT_ID = 0,
    RIDGEOVEN_BY_EXTERNAL_ID = 1,
    RIDGEOVEN_BY_PROTOCOL_ID = 2,
    RIDGEOVEN_BY_SEQUENCE = 3
};

/* How many targets the parent lists have, and how many unresolved records there are. */
typedef struct ridgeoven_resolved {
    uint64_t refusal;
    size_t parents;
    size_t unresolved;
} ridgeoven_resolved;

/* Makes parent lists of the references of a file's rows, of which the first is the event first, and records of those that name nothing.
 *
 * Row r has the references from place starts[r] up to starts[r + 1], so that there are rows + 1 starts, rising or level from 0 to the number of
 * references. Each reference has a kind, a space and a target, the number or the host's handle, and beside them the answer of its lookup: known,
 * 0 for no, and its number. So kinds, spaces, targets, known and numbers are equally long. Answers beside references by sequence, and beside
 * those that are neither prev nor auth, are not looked at.
 *
 * Slot 2 * r has the prev parents of row r, slot 2 * r + 1 its auth parents: those from place offsets[s] up to offsets[s + 1] of parents are slot
 * s's. offsets has room for 2,049 numbers, parents for 4,096. A prev or auth reference that names nothing is a record: the event, the kind, and
 * the reference's place among all given, from 0; each of these three columns has room for 1,024.
 *
 * Refused in this order: 42, more than 1,024 rows or records; 43, more than 4,096 entries in a column that is read; 41, too little room; 2, columns
 * or starts of another form; 3, a first number and rows that together reach 2^64. */
ridgeoven_resolved ridgeoven_resolve_graph(uint64_t first, size_t rows, const uint64_t *starts, size_t starts_length, const uint8_t *kinds,
                                           size_t kinds_length, const uint8_t *spaces, size_t spaces_length, const uint64_t *targets,
                                           size_t targets_length, const uint8_t *known, size_t known_length, const uint64_t *numbers,
                                           size_t numbers_length, uint64_t *offsets, size_t offsets_room, uint64_t *parents,
                                           size_t parents_room, uint64_t *record_children, size_t record_children_room,
                                           uint64_t *record_kinds, size_t record_kinds_room, uint64_t *record_places,
                                           size_t record_places_room);

/* Writes the record of the references of a file's rows into out, from place at on: the length that it answers is the place after the record.
 * The references are given as above, without answers, so that there is a start more than rows; a record has 6 bytes, 4 more for each row and 10
 * for each reference.
 *
 * Refused in this order: 42, more than 1,024 rows; 43, more than 4,096 references; 23, columns or starts of another form, no reference, a kind or
 * a space that there is not, or a second parent or root in a row; 41, too little room. */
ridgeoven_answer ridgeoven_write_references(uint8_t *out, size_t out_room, size_t at, const uint64_t *starts, size_t starts_length,
                                            const uint8_t *kinds, size_t kinds_length, const uint8_t *spaces, size_t spaces_length,
                                            const uint64_t *targets, size_t targets_length);

#ifdef __cplusplus
}
#endif

#endif
