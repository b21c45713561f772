/*
 * The divisor for a rate, instead of a wall chart. Written from document 02, request e.
 */
#ifndef DIVISOR_H
#define DIVISOR_H

#include <stdint.h>

/* The number that request e adds. */
#define DIVISOR_OUTSIDE 9u

/* With number 9 the others are 0. */
struct divisor_answer {
    uint32_t number;
    uint32_t divisor;
    int32_t error; /* parts per million, cut toward zero */
};

/* The divisor for a clock and a rate, and the error it leaves. No state has a part in it. */
struct divisor_answer divisor_pick(uint32_t clock, uint32_t rate);

#endif
