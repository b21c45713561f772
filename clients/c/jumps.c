/*
 * Ticks by jumps: known numbers of jumps; on all small clocks and on drawn states the state of single ticks,
 * the answer of run, and the jumps counted tick by tick; the largest number of ticks; refusals.
 */
#include "tl16c750.h"

#include <inttypes.h>
#include <stdio.h>
#include <stdlib.h>

#define MOST_DIVISOR 65535
#define FRAME_PULSES 160 /* start, eight data bits, stop */

static uint32_t drawn = 1;
static int wrong;

static void expect(int holds, const char *what, struct uart_baud b, uint32_t n)
{
    if (!holds) {
        printf("differs: %s, divisor %" PRIu32 ", k %" PRIu32 ", %" PRIu32 " ticks\n", what, b.divisor, b.k, n);
        wrong = 1;
    }
}

static uint32_t below(uint32_t most)
{
    drawn = drawn * 1664525u + 1013904223u;
    return (drawn >> 8) % most;
}

static struct uart_state with_clock(struct uart_state s, uint32_t divisor, uint32_t k)
{
    s.baud.divisor = divisor;
    s.baud.k = k;
    return s;
}

/* Eight bits, no parity, one stop bit; a byte waits in character mode. */
static struct uart_state waiting(uint32_t divisor, uint32_t k)
{
    struct uart_state s = with_clock(uart_fresh(), divisor, k);

    s = uart_write(s, UART_LCR, 0x03).state;
    return uart_write(s, UART_THR, 'A').state;
}

/* The jumps of n single ticks: a tick that is begun with k at 1 is a pulse, and ends a jump. */
static uint32_t counted(struct uart_state s, uint32_t n)
{
    uint32_t jumps = 0;
    uint32_t unfinished = 0;

    for (uint32_t i = 0; i < n; i++) {
        unfinished = s.baud.k != 1;
        jumps += !unfinished;
        s = uart_tick(s).state;
    }
    return jumps + unfinished;
}

/* What must hold of every answer, but for the number of jumps; answers the ticks that run used. */
static uint32_t check_answers(struct uart_state s, uint32_t n)
{
    struct uart_answer ticks = uart_ticks(s, n);
    struct uart_jumped j = uart_jump(s, n);
    struct uart_ran run = uart_run(s, n);
    struct uart_jump_ran r = uart_jump_run(s, n);

    expect(ticks.number == UART_DONE && run.number == UART_DONE, "number of ticks", s.baud, n);
    expect(j.number == UART_DONE && j.part == 0, "number", s.baud, n);
    expect(uart_equal(&j.state, &ticks.state), "state", s.baud, n);
    expect(r.number == UART_DONE && r.part == 0, "number of a run", s.baud, n);
    expect(r.used == run.used, "ticks used", s.baud, n);
    expect(uart_equal(&r.state, &run.state), "state after a run", s.baud, n);
    expect(r.jumps <= j.jumps, "jumps of a run and of all ticks", s.baud, n);
    expect(s.baud.divisor == 0 || j.jumps <= 2 + n / s.baud.divisor, "bound", s.baud, n);
    return r.used;
}

/* The same, and the jumps are those counted; for an n of which there is time to make single ticks. */
static uint32_t check_counted(struct uart_state s, uint32_t n)
{
    struct uart_jump_ran r = uart_jump_run(s, n);

    expect(uart_jump(s, n).jumps == counted(s, n), "jumps", s.baud, n);
    expect(r.jumps == counted(s, r.used), "jumps of a run", s.baud, n);
    return check_answers(s, n);
}

static void check_known(void)
{
    const uint32_t known[][2] = {{0, 0}, {1, 1}, {2, 1}, {3, 1}, {4, 2}, {8, 2}, {9, 3}, {13, 3}, {14, 4}};
    struct uart_state s = waiting(5, 3);

    for (size_t i = 0; i < sizeof known / sizeof known[0]; i++) {
        expect(uart_jump(s, known[i][0]).jumps == known[i][1], "known jumps", s.baud, known[i][0]);
        expect(uart_jump_run(s, known[i][0]).jumps == known[i][1], "known run", s.baud, known[i][0]);
    }
}

/* Where LSR bit 6 is 1 run makes no jump; with divisor 0 there is one of all ticks, where there are any. */
static void check_ends(void)
{
    const uint32_t ticks[] = {0, 1, 65535, UINT32_MAX};
    struct uart_state empty = with_clock(uart_fresh(), 5, 3);
    struct uart_state stopped = waiting(0, 0);
    struct uart_jump_ran r;

    for (size_t i = 0; i < sizeof ticks / sizeof ticks[0]; i++) {
        uint32_t n = ticks[i];

        r = uart_jump_run(empty, n);
        expect(r.jumps == 0 && r.used == 0, "run of an empty transmitter", empty.baud, n);
        expect(uart_jump_run(uart_fresh(), n).jumps == 0, "the same without a clock", stopped.baud, n);
        expect(uart_jump(stopped, n).jumps == (n > 0), "jumps without a clock", stopped.baud, n);
        r = uart_jump_run(stopped, n);
        expect(r.jumps == (n > 0) && r.used == n, "run without a clock", stopped.baud, n);
        check_answers(stopped, n);
    }
}

/* Every k of the small divisors, at every number of ticks up to some pulses. */
static void check_small(void)
{
    for (uint32_t divisor = 0; divisor <= 7; divisor++)
        for (uint32_t k = divisor > 0; k <= divisor; k++)
            for (uint32_t n = 0; n <= 40; n++)
                check_counted(waiting(divisor, k), n);
}

/* All ticks that 32 bits can say. */
static void check_most(void)
{
    const uint32_t ks[] = {1, 2, 32768, MOST_DIVISOR};
    const uint32_t jumps[] = {65538, 65538, 65538, 65537};

    for (size_t i = 0; i < sizeof ks / sizeof ks[0]; i++) {
        struct uart_state s = waiting(MOST_DIVISOR, ks[i]);
        struct uart_jump_ran r = uart_jump_run(s, UINT32_MAX);

        check_answers(s, UINT32_MAX);
        expect(uart_jump(s, UINT32_MAX).jumps == jumps[i], "most jumps", s.baud, UINT32_MAX);
        expect(r.used == ks[i] + FRAME_PULSES * MOST_DIVISOR, "ticks of a frame", s.baud, UINT32_MAX);
        expect(r.jumps == 1 + FRAME_PULSES, "jumps of a frame", s.baud, UINT32_MAX);
    }
}

/* A step of any kind. */
static struct uart_state stepped(struct uart_state s)
{
    switch (below(8)) {
    case 0:
        return uart_set_sin(s, (uint8_t)below(2)).state;
    case 1:
        return uart_set_modem(s, (uint8_t)below(16)).state;
    case 2:
        return uart_read(s, (uint8_t)below(8)).state;
    case 3:
        return uart_ticks(s, below(2000)).state;
    case 4:
        return uart_write(s, UART_THR, (uint8_t)below(256)).state;
    default:
        return uart_write(s, (uint8_t)below(8), (uint8_t)below(256)).state;
    }
}

/* States that any steps lead to, with clocks of every size. */
static void check_drawn(void)
{
    struct uart_state s = uart_fresh();
    int none = 0;
    int some = 0;
    int all = 0;

    for (unsigned turn = 0; turn < 2000; turn++) {
        uint32_t divisor = below((MOST_DIVISOR + 1) >> turn % 17);
        uint32_t n = 1 + below(3000);
        uint32_t used;

        for (int i = 0; i < 10; i++)
            s = stepped(s);
        s = with_clock(s, divisor, divisor > 0 ? 1 + below(divisor) : 0);
        used = check_counted(s, n);
        none += used == 0;
        some += 0 < used && used < n;
        all += used == n;
        check_answers(s, below(2000) * (1 + divisor));
    }
    expect(none > 100 && some > 100 && all > 100, "how often a run uses no, some and all ticks", s.baud, 0);
}

static void check_refused(void)
{
    struct uart_state s = uart_specimen_state();
    struct uart_jumped j = uart_jump(s, 1000);
    struct uart_jump_ran r = uart_jump_run(s, 1000);

    expect(j.number == UART_MALFORMED && j.part == UART_IN_REGISTERS, "refusal", s.baud, 1000);
    expect(j.jumps == 0 && uart_equal(&j.state, &s), "refused state", s.baud, 1000);
    expect(r.number == UART_MALFORMED && r.part == UART_IN_REGISTERS, "refusal of a run", s.baud, 1000);
    expect(r.jumps == 0 && r.used == 0 && uart_equal(&r.state, &s), "state of a run", s.baud, 1000);
}

int main(void)
{
    check_known();
    check_ends();
    check_small();
    check_most();
    check_drawn();
    check_refused();
    puts(wrong ? "jumps: differs" : "jumps: ok");
    return wrong ? EXIT_FAILURE : EXIT_SUCCESS;
}
