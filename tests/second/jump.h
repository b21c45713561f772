/*
 * Ticks and runs by jumps from pulse to pulse. Written from document 02, request g.
 */
#ifndef JUMP_H
#define JUMP_H

#include "model.h"

/* With number 1 the ticks and the jumps are 0. */
struct jump_answer {
    uint32_t number;
    uint32_t part;  /* of the state, the bad one beside number 1 */
    uint32_t used;  /* ticks */
    uint32_t jumps; /* made for them */
};

/* So many ticks. The state is that of single ticks. */
struct jump_answer jump_ticks(struct uart *u, uint32_t count);

/* At most `most` ticks; stops as soon as LSR6 is 1. Ticks used and state are those of run. */
struct jump_answer jump_run(struct uart *u, uint32_t most);

#endif
