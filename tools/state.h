/* A state of the model in words. */
#ifndef STATE_H
#define STATE_H

#include "model.h"

#include <stdio.h>

void state_tell(FILE *out, const struct uart_state *state);

#endif
