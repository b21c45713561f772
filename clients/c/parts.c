/* Every call refuses a malformed state with the part of it that is bad; no other number has a part. */
#include "tl16c750.h"

#include <stdio.h>
#include <stdlib.h>

static const uint8_t header[] = {'U', 'T', 'R', 0, 1, 0, 0, 0};
static const uint8_t tick[] = {1, 0, 0, 0};
static int wrong;

static void expect(int holds, const char *call, const char *what)
{
    if (!holds) {
        printf("differs: %s, %s\n", call, what);
        wrong = 1;
    }
}

/* A well-formed state with something in every part: FIFO of 16, autoflow, RTS held, CTS not asserted. */
static struct uart_state sound(void)
{
    struct uart_state s = uart_fresh();

    s.registers.lcr = 0x03;
    s.registers.mcr = 0x22;
    s.baud.divisor = 12;
    s.baud.k = 5;
    s.fifo.enabled = 1;
    s.fifo.trigger = 1;
    s.tx.bytes[0] = 'A';
    s.tx.count = 1;
    s.frame.left = 100;
    s.frame.byte = 'B';
    s.frame.format = 0x03;
    s.rx.entries[0].byte = 'C';
    s.rx.entries[1].byte = 'D';
    s.rx.count = 2;
    s.latches.overrun = 1;
    s.latches.timeout = 1;
    s.latches.hold = 1;
    s.latches.idle = 700;
    return s;
}

#define REFUSED(answer) \
    expect((answer).number == UART_MALFORMED && (answer).part == part, #answer, what)

#define ANSWERS(answer, expected) \
    expect((answer).number == (expected) && (answer).part == 0, #answer, #expected)

/* Every call refuses the state with this part, also where another number applies too. */
static void refused(struct uart_state s, uint8_t part, const char *what)
{
    const uint32_t bad = 0xFFFFFFFF;
    uint32_t word = 0;
    uint8_t read[] = {0xFF, 5, 0, 0x10};
    struct uart_progress p = uart_replay_begin(header, UART_HEADER_BYTES);
    struct uart_expect_progress e = uart_expect_begin(header, UART_HEADER_BYTES);

    p.state = s;
    e.state = s;
    REFUSED(uart_reset(s));
    REFUSED(uart_read(s, 8));
    REFUSED(uart_write(s, UART_SCR, 0));
    REFUSED(uart_set_sin(s, 2));
    REFUSED(uart_set_modem(s, 0));
    REFUSED(uart_tick(s));
    REFUSED(uart_ticks(s, 1000));
    REFUSED(uart_pins(s));
    REFUSED(uart_forecast(s));
    REFUSED(uart_level(s, 0));
    REFUSED(uart_run(s, 1000));
    REFUSED(uart_jump(s, 1000));
    REFUSED(uart_jump_run(s, 1000));
    REFUSED(uart_replay(s, 0, &bad, 1).values);
    REFUSED(uart_replay_more(p, tick, sizeof tick).values);
    REFUSED(uart_replay_end(p, tick, sizeof tick).values);
    REFUSED(uart_expect(s, 0, &bad, 1, &word, 0));
    REFUSED(uart_expect_more(e, read, sizeof read));
    REFUSED(uart_expect_end(e, read, sizeof read));
    expect(read[0] == 0xFF, "uart_expect_more", "bytes as they were");
}

/* One number of the sound state is another. */
#define BREAK(part, field, value)                    \
    do {                                             \
        struct uart_state broken = sound();          \
        broken.field = (value);                      \
        refused(broken, (part), #field " " #value); \
    } while (0)

static void check_ranges(void)
{
    BREAK(UART_IN_REGISTERS, registers.ier, 64);
    BREAK(UART_IN_REGISTERS, registers.mcr, 64);
    BREAK(UART_IN_REGISTERS, baud.divisor, 65536);
    BREAK(UART_IN_REGISTERS, baud.k, 13);
    BREAK(UART_IN_SETTINGS, fifo.enabled, 2);
    BREAK(UART_IN_SETTINGS, fifo.size, 2);
    BREAK(UART_IN_SETTINGS, fifo.dma, 2);
    BREAK(UART_IN_SETTINGS, fifo.trigger, 4);
    BREAK(UART_IN_SETTINGS, inputs.modem, 16);
    BREAK(UART_IN_SETTINGS, inputs.sin, 2);
    BREAK(UART_IN_TRANSMITTER, tx.bytes[63], 1);
    BREAK(UART_IN_TRANSMITTER, frame.left, 161);
    BREAK(UART_IN_TRANSMITTER, frame.format, 64);
    BREAK(UART_IN_RECEIVER, rx.entries[1].pe, 2);
    BREAK(UART_IN_RECEIVER, rx.entries[63].bi, 1);
    BREAK(UART_IN_RECEIVER, receiver.phase, 3);
    BREAK(UART_IN_LATCHES, latches.empty, 2);
    BREAK(UART_IN_LATCHES, latches.overrun, 2);
    BREAK(UART_IN_LATCHES, latches.timeout, 2);
    BREAK(UART_IN_LATCHES, latches.changes, 16);
    BREAK(UART_IN_LATCHES, latches.hold, 2);
    BREAK(UART_IN_LATCHES, latches.idle, 770);
}

/* A range that joins two parts counts for the later one. */
static void check_joined(void)
{
    struct uart_state s = sound();

    BREAK(UART_IN_TRANSMITTER, tx.count, 17);
    BREAK(UART_IN_RECEIVER, rx.count, 17);
    BREAK(UART_IN_RECEIVER, fifo.enabled, 0);
    BREAK(UART_IN_LATCHES, latches.empty, 1);
    BREAK(UART_IN_LATCHES, latches.changes, 1);
    BREAK(UART_IN_LATCHES, registers.mcr, 0x20);
    s.fifo.enabled = 0;
    s.tx.bytes[1] = 'E';
    s.tx.count = 2;
    refused(s, UART_IN_TRANSMITTER, "two bytes in character mode");
}

/* With FIFO on errors stand in the entries, with FIFO off beside them, also where none is queued. */
static void check_errors(void)
{
    struct uart_state s = sound();

    BREAK(UART_IN_RECEIVER, kept.pe, 1);
    BREAK(UART_IN_RECEIVER, kept.fe, 1);
    BREAK(UART_IN_RECEIVER, kept.bi, 1);
    s.rx.entries[0].pe = 1;
    ANSWERS(uart_pins(s), UART_DONE);
    s = uart_fresh();
    s.kept.bi = 1;
    ANSWERS(uart_pins(s), UART_DONE);
    s.rx.entries[0].byte = 'C';
    s.rx.count = 1;
    ANSWERS(uart_pins(s), UART_DONE);
    s.rx.entries[0].pe = 1;
    refused(s, UART_IN_RECEIVER, "an entry's flag in character mode");
    s.rx.entries[0].pe = 0;
    s.kept.pe = 2;
    refused(s, UART_IN_RECEIVER, "a kept flag of 2");
}

/* Of several parts that are bad the lowest stands. */
static void check_lowest(void)
{
    struct uart_state s = sound();

    s.latches.hold = 2;
    refused(s, UART_IN_LATCHES, "part 5");
    s.receiver.phase = 3;
    refused(s, UART_IN_RECEIVER, "parts 4 and 5");
    s.frame.format = 64;
    refused(s, UART_IN_TRANSMITTER, "parts 3 to 5");
    s.inputs.sin = 2;
    refused(s, UART_IN_SETTINGS, "parts 2 to 5");
    s.registers.ier = 64;
    refused(s, UART_IN_REGISTERS, "parts 1 to 5");
}

/* Without a bad part: what is done, and what another number refuses. */
static void check_other_numbers(void)
{
    const uint32_t bad = 0xFFFFFFFF;
    const uint8_t *mark = (const uint8_t *)"UTX\0\1\0\0";
    const uint8_t *version = (const uint8_t *)"UTR\0\2\0\0";
    uint32_t word = 0;
    struct uart_state s = sound();

    ANSWERS(uart_reset(s), UART_DONE);
    ANSWERS(uart_read(s, 8), UART_BAD_ADDRESS);
    ANSWERS(uart_set_sin(s, 2), UART_BAD_LEVEL);
    ANSWERS(uart_pins(s), UART_DONE);
    ANSWERS(uart_forecast(s), UART_HELD_BACK);
    ANSWERS(uart_level(s, 0), UART_HELD_BACK);
    ANSWERS(uart_run(s, 1000), UART_DONE);
    ANSWERS(uart_jump(s, 1000), UART_DONE);
    ANSWERS(uart_jump_run(s, 1000), UART_DONE);
    ANSWERS(uart_replay(s, 0, &bad, 1).values, UART_UNKNOWN_VERSION);
    ANSWERS(uart_replay(s, 1, &bad, 1).values, UART_BAD_RECORD);
    ANSWERS(uart_replay(s, 1, &bad, 0).values, UART_DONE);
    ANSWERS(uart_replay_bytes(mark, UART_HEADER_BYTES).values, UART_BAD_HEADER);
    ANSWERS(uart_expect(s, 0, &bad, 1, &word, 0), UART_UNKNOWN_VERSION);
    ANSWERS(uart_expect(s, 1, &bad, 1, &word, 0), UART_BAD_RECORD);
    ANSWERS(uart_expect(s, 1, &word, 1, NULL, 0), UART_NO_ROOM);
    ANSWERS(uart_expect_begin(mark, UART_HEADER_BYTES), UART_BAD_HEADER);
    ANSWERS(uart_expect_begin(version, UART_HEADER_BYTES), UART_UNKNOWN_VERSION);
    ANSWERS(uart_expect_begin(header, UART_HEADER_BYTES - 1), UART_BAD_RECORD);
    ANSWERS(uart_expect_begin(header, UART_HEADER_BYTES), UART_DONE);
    s.baud.divisor = 0;
    s.baud.k = 0;
    ANSWERS(uart_forecast(s), UART_NO_CLOCK);
    ANSWERS(uart_level(s, 0), UART_NO_CLOCK);
}

int main(void)
{
    check_ranges();
    check_joined();
    check_errors();
    check_lowest();
    check_other_numbers();
    puts(wrong ? "parts: differs" : "parts: ok");
    return wrong ? EXIT_FAILURE : EXIT_SUCCESS;
}
