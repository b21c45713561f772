/*
 * Replay of captures: what the recorder saw, held against the model record by
 * record. Written from document 02, request a.
 */
#ifndef CAPTURE_H
#define CAPTURE_H

#include "model.h"

#include <stddef.h>

/* The numbers that request a adds. */
#define CAPTURE_BAD_MARK 6u
#define CAPTURE_BAD_VERSION 7u
#define CAPTURE_BAD_RECORD 8u

#define CAPTURE_VERSION 1u

enum replay_outcome { REPLAY_AGREED, REPLAY_DIFFERS, REPLAY_REFUSED };

/* Places count from 0 at the first record. What an outcome doesn't name is 0. */
struct replay_answer {
    enum replay_outcome outcome;
    uint32_t number; /* of a refusal */
    uint32_t part;   /* of the state, the bad one beside number 1 */
    uint64_t place;
    uint32_t seen;  /* the byte of the differing read, in the capture */
    uint32_t model; /* and what the model would answer */
};

struct replay_answer replay_refused(uint32_t number, uint64_t place);

/*
 * Moves the state through the records up to the first read whose byte differs or
 * the first bad record; the state is then the one before it. The state has to be
 * well formed.
 */
struct replay_answer replay_records(struct uart *u, const uint32_t *records, size_t count);

/* The same of any state and version: 1 and 7 come first, the state stays as it was. */
struct replay_answer replay(struct uart *u, uint32_t version, const uint32_t *records,
                            size_t count);

/* The longest line is `differs`, a place of 64 bits and two bytes. */
#define REPLAY_LONGEST_LINE sizeof "differs 18446744073709551615 255 255\n"

/* Writes the answer's line, with its newline; returns its length. */
size_t replay_line(struct replay_answer answer, char line[REPLAY_LONGEST_LINE]);

#endif
