/* The proved library as explain uses it: the only file that names its calls is model.c. */
#ifndef MODEL_H
#define MODEL_H

#include "tl16c750.h"

/* How a replay of some records ended: at a place in them, or after the last. */
enum model_end { MODEL_AGREED, MODEL_DIFFERS, MODEL_REFUSED };

struct model_outcome {
    enum model_end end;
    unsigned number; /* of a refusal */
    size_t place;    /* the number of records where it agreed */
    uint8_t seen;
    uint8_t model;
};

/* A file's header: the number by which it is refused, or 0, and its version. */
struct model_header {
    unsigned number;
    uint32_t version;
};

/* The header of a file that starts with these bytes. */
struct model_header model_header(const uint8_t *bytes, size_t count);

struct uart_state model_fresh(void);

/* Replays records of a version; the state moves to the end, or to just before the record at the place. */
struct model_outcome model_replay(struct uart_state *state, uint32_t version, const uint32_t *records,
                                  size_t count);

/* The step of a good record; answers the model's byte of a read. */
uint8_t model_step(struct uart_state *state, uint32_t record);

/* The byte that a read of an address would answer. */
uint8_t model_peek(const struct uart_state *state, uint8_t address);

struct uart_outputs model_pins(const struct uart_state *state);

/* The number answered: 0, or 4 without a clock, or 5 held back; with 0 the ticks. */
unsigned model_forecast(const struct uart_state *state, uint32_t *ticks);

#endif
