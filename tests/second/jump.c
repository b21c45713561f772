/*
 * Ticks and runs by jumps from pulse to pulse, each jump made and counted.
 */
#include "jump.h"

#define ADDRESS_LSR 5u
#define LSR6 0x40u

/*
 * One jump, with ticks left: to the next pulse, or over all that is left where this
 * falls short of a pulse or D = 0. Its ticks but the last only lower k. Answers how many.
 */
static uint32_t jump(struct uart *u, uint32_t left)
{
    uint32_t ticks = left < u->k ? left : u->k;

    if (u->divisor == 0u)
        return left;
    u->k -= ticks - 1u;
    uart_do_ticks(u, 1u);
    return ticks;
}

/* Queue and shift register are both empty. */
static bool nothing_to_send(const struct uart *u)
{
    return (uart_peek(u, ADDRESS_LSR) & LSR6) != 0u;
}

/* Jump after jump, at most `most` ticks in all. A run looks at LSR6 before each. */
static struct jump_answer jump_on(struct uart *u, uint32_t most, bool run)
{
    struct jump_answer answer = { UART_DONE, uart_part(u), 0u, 0u };

    if (answer.part != UART_PART_NONE) {
        answer.number = UART_MALFORMED;
        return answer;
    }
    while (answer.used < most && !(run && nothing_to_send(u))) {
        answer.used += jump(u, most - answer.used);
        answer.jumps++;
    }
    return answer;
}

struct jump_answer jump_ticks(struct uart *u, uint32_t count)
{
    return jump_on(u, count, false);
}

struct jump_answer jump_run(struct uart *u, uint32_t most)
{
    return jump_on(u, most, true);
}
