/* The second program's model: the state behind a pointer. */
#include "model.h"

#include <string.h>

struct device {
    struct uart state;
};

static uint32_t sum_of_step(const struct uart_answer *a)
{
    return a->number + a->byte * 3u + a->pins.sout * 5u + a->pins.rts * 7u + a->pins.dtr * 11u +
           a->pins.out1 * 13u + a->pins.out2 * 17u + a->pins.intrpt * 19u;
}

static void device_fresh(struct device *d)
{
    uart_fresh(&d->state);
}

static uint32_t device_read(struct device *d, uint8_t address)
{
    struct uart_answer a = uart_read(&d->state, address);

    return sum_of_step(&a);
}

static uint32_t device_write(struct device *d, uint8_t address, uint8_t byte)
{
    struct uart_answer a = uart_write(&d->state, address, byte);

    return sum_of_step(&a);
}

static uint32_t device_sin(struct device *d, uint8_t level)
{
    struct uart_answer a = uart_set_sin(&d->state, level);

    return sum_of_step(&a);
}

static uint32_t device_tick(struct device *d)
{
    struct uart_answer a = uart_tick(&d->state);

    return sum_of_step(&a);
}

static uint32_t device_ticks(struct device *d, uint32_t n)
{
    struct uart_answer a = uart_ticks(&d->state, n);

    return sum_of_step(&a);
}

/* Jumps are measured against single ticks. */
static uint32_t device_jump(struct device *d, uint32_t n)
{
    return uart_ticks(&d->state, n).number;
}

static uint32_t device_pins(struct device *d)
{
    struct uart_answer a = uart_look(&d->state);

    return sum_of_step(&a);
}

static uint32_t device_forecast(struct device *d)
{
    struct uart_value v = uart_forecast(&d->state);

    return v.number + v.value;
}

static uint32_t device_level(struct device *d, uint32_t t)
{
    struct uart_value v = uart_level(&d->state, t);

    return v.number + v.value;
}

static uint32_t device_run(struct device *d, uint32_t n)
{
    struct uart_value v = uart_run(&d->state, n);

    return v.number + v.value;
}

static uint32_t device_jump_run(struct device *d, uint32_t n)
{
    return device_run(d, n);
}

/* The state as the numbers of the text protocol: it is kept in that order. */
static void device_places(const struct device *d, uint32_t *p)
{
    memcpy(p, &d->state, sizeof d->state);
}
