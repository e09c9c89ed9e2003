/* Class lists that were recorded as tapes (docs/tape.md), read through a session over the caller's memory.
 *
 * Column 0 of a class list is a class, column 1 its outlet. A session shows a row or refuses it; what it shows of a row is that row's alone
 * (docs/session.md). No function here allocates, keeps a pointer, or writes outside the memory that it is handed.
 *
 * What a caller owes, since no proof reaches it: each pointer is not null, also where the length is 0, and points to as many bytes as are said,
 * all of them initialised; lengths are below 2^63; and the memory of an arena, of a buffer or of a struct overlaps nothing else that is handed
 * to the same call, and is not used by another thread meanwhile.
 *
 * A refusal is answered as minus its number (docs/refusals.md): -23 where the bytes are no tape, -3 for an arena of more than 65536 bytes, -7, -8
 * and -9 where the result cannot be opened, and from outlets_find also those of reading an outlet. */
#ifndef OUTLETS_H
#define OUTLETS_H

#include <stddef.h>
#include <stdint.h>

#ifdef __cplusplus
extern "C" {
#endif

struct outlets_tape_size {
    size_t columns;
    size_t events;
};

/* Each count is at most 2^64 - 1. */
struct outlets_row_counts {
    uint64_t shown;
    uint64_t refused;
    uint64_t failures;
};

/* What outlets_find answers where no row of the class is shown. */
#define OUTLETS_NO_SUCH_CLASS INT64_C(-1000)

/* 0 and the numbers of columns and events of a tape, or a refusal, and `size` stays as it was. */
int32_t outlets_tape_size(const uint8_t *tape, size_t tape_length, struct outlets_tape_size *size);

/* 0 and how many rows a session over this arena shows, how many it refuses, and how many failures come; or a refusal, and `counts` stays as it
 * was. What the arena holds before makes no difference; what it holds afterwards is left open. */
int32_t outlets_count(const uint8_t *tape, size_t tape_length, uint8_t *arena, size_t arena_length, struct outlets_row_counts *counts);

/* The length of the outlet of the first row of a class that is shown, OUTLETS_NO_SUCH_CLASS where none is, or a refusal. The outlet is copied to
 * the front of `into` where all of it fits; otherwise, also where it is longer than `into`, `into` stays as it was. No byte of zero follows it. */
int64_t outlets_find(
    const uint8_t *tape, size_t tape_length, uint8_t *arena, size_t arena_length, int32_t class_number, uint8_t *into, size_t into_length);

#ifdef __cplusplus
}
#endif

#endif
