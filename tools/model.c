#include "model.h"

#include "utr.h"

struct model_header model_header(const uint8_t *bytes, size_t count)
{
    const struct uart_progress begun = uart_replay_begin(bytes, count);
    struct model_header header = {uart_replay_end(begun, bytes + count, 0).values.number, begun.version};

    return header;
}

struct uart_state model_fresh(void)
{
    return uart_fresh();
}

struct model_outcome model_replay(struct uart_state *state, uint32_t version, const uint32_t *records,
                                  size_t count)
{
    const struct uart_replayed answer = uart_replay(*state, version, records, count);
    const struct uart_values *values = &answer.values;
    struct model_outcome outcome = {MODEL_AGREED, values->number, count, values->seen, values->model};

    if (values->number != UART_DONE)
        outcome.end = MODEL_REFUSED;
    else if (values->seen != values->model)
        outcome.end = MODEL_DIFFERS;
    if (outcome.end != MODEL_AGREED)
        outcome.place = values->place;
    *state = answer.state;
    return outcome;
}

static struct uart_answer step(const struct uart_state *state, uint32_t record)
{
    uint8_t first = (uint8_t)utr_field(record, 0);

    switch (utr_kind(record)) {
    case UTR_TICKS:
        return uart_ticks(*state, utr_field(record, 0));
    case UTR_READ:
        return uart_read(*state, first);
    case UTR_WRITE:
        return uart_write(*state, first, (uint8_t)utr_field(record, 1));
    case UTR_SIN:
        return uart_set_sin(*state, first);
    case UTR_MODEM:
        return uart_set_modem(*state, first);
    default:
        return uart_reset(*state);
    }
}

uint8_t model_step(struct uart_state *state, uint32_t record)
{
    const struct uart_answer answer = step(state, record);

    *state = answer.state;
    return answer.byte;
}

uint8_t model_peek(const struct uart_state *state, uint8_t address)
{
    return uart_read(*state, address).byte;
}

struct uart_outputs model_pins(const struct uart_state *state)
{
    return uart_pins(*state).outputs;
}

unsigned model_forecast(const struct uart_state *state, uint32_t *ticks)
{
    const struct uart_forecasted answer = uart_forecast(*state);

    *ticks = answer.ticks;
    return answer.number;
}
