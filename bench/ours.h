/* The proved library: the state goes in and comes back by value. */
#include "tl16c750.h"

struct device {
    struct uart_state state;
};

static uint32_t sum_of_step(const struct uart_answer *a)
{
    return a->number + a->byte * 3u + a->outputs.sout * 5u + a->outputs.rts * 7u + a->outputs.dtr * 11u +
           a->outputs.out1 * 13u + a->outputs.out2 * 17u + a->outputs.intrpt * 19u;
}

static void device_fresh(struct device *d)
{
    d->state = uart_fresh();
}

static uint32_t device_read(struct device *d, uint8_t address)
{
    struct uart_answer a = uart_read(d->state, address);

    d->state = a.state;
    return sum_of_step(&a);
}

static uint32_t device_write(struct device *d, uint8_t address, uint8_t byte)
{
    struct uart_answer a = uart_write(d->state, address, byte);

    d->state = a.state;
    return sum_of_step(&a);
}

static uint32_t device_sin(struct device *d, uint8_t level)
{
    struct uart_answer a = uart_set_sin(d->state, level);

    d->state = a.state;
    return sum_of_step(&a);
}

static uint32_t device_tick(struct device *d)
{
    struct uart_answer a = uart_tick(d->state);

    d->state = a.state;
    return sum_of_step(&a);
}

static uint32_t device_ticks(struct device *d, uint32_t n)
{
    struct uart_answer a = uart_ticks(d->state, n);

    d->state = a.state;
    return sum_of_step(&a);
}

static uint32_t device_jump(struct device *d, uint32_t n)
{
    struct uart_jumped j = uart_jump(d->state, n);

    d->state = j.state;
    return j.number;
}

static uint32_t device_pins(struct device *d)
{
    struct uart_looked l = uart_pins(d->state);
    struct uart_answer a = { .number = l.number, .outputs = l.outputs };

    return sum_of_step(&a);
}

static uint32_t device_forecast(struct device *d)
{
    struct uart_forecasted f = uart_forecast(d->state);

    return f.number + f.ticks;
}

static uint32_t device_level(struct device *d, uint32_t t)
{
    struct uart_leveled l = uart_level(d->state, t);

    return l.number + l.level;
}

static uint32_t device_run(struct device *d, uint32_t n)
{
    struct uart_ran r = uart_run(d->state, n);

    d->state = r.state;
    return r.number + r.used;
}

static uint32_t device_jump_run(struct device *d, uint32_t n)
{
    struct uart_jump_ran r = uart_jump_run(d->state, n);

    d->state = r.state;
    return r.number + r.used;
}

/* The state as the numbers of the text protocol. */
static void device_places(const struct device *d, uint32_t *p)
{
    const struct uart_state *s = &d->state;

    *p++ = s->registers.ier;
    *p++ = s->registers.mcr;
    *p++ = s->registers.lcr;
    *p++ = s->registers.scr;
    *p++ = s->baud.divisor;
    *p++ = s->baud.k;
    *p++ = s->fifo.enabled;
    *p++ = s->fifo.size;
    *p++ = s->fifo.dma;
    *p++ = s->fifo.trigger;
    *p++ = s->inputs.modem;
    *p++ = s->inputs.sin;
    *p++ = s->tx.count;
    for (int i = 0; i < UART_PLACES; i++)
        *p++ = s->tx.bytes[i];
    *p++ = s->frame.left;
    *p++ = s->frame.byte;
    *p++ = s->frame.format;
    *p++ = s->rx.count;
    for (int i = 0; i < UART_PLACES; i++) {
        *p++ = s->rx.entries[i].byte;
        *p++ = s->rx.entries[i].pe;
        *p++ = s->rx.entries[i].fe;
        *p++ = s->rx.entries[i].bi;
    }
    *p++ = s->receiver.phase;
    *p++ = s->receiver.position;
    *p++ = s->receiver.format;
    *p++ = s->receiver.samples;
    *p++ = s->receiver.parity;
    *p++ = s->latches.empty;
    *p++ = s->latches.overrun;
    *p++ = s->latches.timeout;
    *p++ = s->latches.idle;
    *p++ = s->latches.changes;
    *p++ = s->latches.hold;
    *p++ = s->kept.pe;
    *p++ = s->kept.fe;
    *p++ = s->kept.bi;
}
