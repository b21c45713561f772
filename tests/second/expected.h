/*
 * The capture that is expected: records as they stand, reads with the model's byte.
 * Written from document 02, request f.
 */
#ifndef EXPECTED_H
#define EXPECTED_H

#include "capture.h"

/* The number that request f adds. */
#define EXPECTED_NO_WORD 16u

/* With number 1 or 7 nothing is written. */
struct expected_answer {
    uint32_t number;
    uint32_t part; /* of the state, the bad one beside number 1 */
    size_t count;  /* words written, one for each record up to the refused one */
};

/*
 * Moves the state through the records and writes each as the model expects it, up to
 * the first that is bad (8) or that no word is left for (16); the state is then the one
 * before it. Words that are not written stay as they were. The state has to be well
 * formed.
 */
struct expected_answer expected_records(struct uart *u, const uint32_t *records, size_t count,
                                        uint32_t *words, size_t room);

/* The same of any state and version: 1 and 7 come first, state and words stay as they were. */
struct expected_answer expected(struct uart *u, uint32_t version, const uint32_t *records,
                                size_t count, uint32_t *words, size_t room);

#endif
