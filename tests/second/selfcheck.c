/*
 * Self check of the model.
 *
 * Demand 3: on random well-formed states, the forecast, the foretold level and
 * run are compared with single ticks and with the string of levels that document
 * 01 ("Forecast and run") describes, written out place by place.
 *
 * Steps: every step on a well-formed state gives a well-formed state, and a
 * refused one leaves the state as it was.
 *
 * Parts: on states damaged in one or two places every call answers 1 and the
 * lower of their parts, and leaves the state as it was.
 *
 * Kept errors: in character mode, which calls leave them and which clear them,
 * and what characters with known errors add to them.
 *
 * Replay: on random states and records, against the checked calls made one by
 * one, with differences and bad records put in.
 *
 * Expected captures: on the same with other bytes in the reads, in runs with and
 * without room, with bad records put in; what is written agrees when it is replayed.
 *
 * Divisors: the examples of document 02, request e, and random pairs of a clock and
 * a rate, against the rounded quotient and the bounds of the error.
 *
 * Jumps: on random states, against single ticks and against the pulses within the
 * ticks; runs over them, against run; the counts of document 02, request g.
 */
#include "divisor.h"
#include "expected.h"
#include "jump.h"

#include <inttypes.h>
#include <stdio.h>
#include <stdlib.h>
#include <string.h>

#define FORECAST_STATES 4000u
#define STEP_STATES 20000u
#define DAMAGED_STATES 20000u
#define KEPT_STATES 20000u
#define JOURNEYS 200u
#define JOURNEY_STEPS 2000u
#define REPLAYS 20000u
#define REPLAY_RECORDS 40u
#define EXPECTED_ROOM (REPLAY_RECORDS + 10u)
#define PAIRS 20000u
#define JUMP_STATES 4000u
#define FAR_JUMPS 100u
#define LONGEST_STRING (192u + 64u * 192u)

static uint64_t seed = 0x16C750u;

/* xorshift64 */
static uint32_t draw(uint32_t n)
{
    seed ^= seed << 13;
    seed ^= seed >> 7;
    seed ^= seed << 17;
    return (uint32_t)((seed >> 33) % n);
}

static void fail(const char *what, const struct uart *u, uint32_t wanted, uint32_t got)
{
    uint32_t places[UART_STATE_PLACES];

    memcpy(places, u, sizeof places);
    printf("%s: wanted %" PRIu32 ", got %" PRIu32 " on load", what, wanted, got);
    for (size_t i = 0; i < UART_STATE_PLACES; i++)
        printf(" %" PRIu32, places[i]);
    printf("\n");
    exit(EXIT_FAILURE);
}

static void expect(const char *what, const struct uart *u, uint32_t wanted, uint32_t got)
{
    if (wanted != got)
        fail(what, u, wanted, got);
}

/* ---- Frames, written out ---- */

static size_t put_level(uint8_t *string, size_t at, uint32_t level, uint32_t pulses)
{
    memset(string + at, (int)level, pulses);
    return at + pulses;
}

/* All levels of a frame; returns how many. */
static size_t put_frame(uint8_t *string, size_t at, uint32_t byte, uint32_t format)
{
    uint32_t width = 5u + (format & 3u);
    uint32_t ones = 0u;

    at = put_level(string, at, 0u, 16u);
    for (uint32_t i = 0u; i < width; i++) {
        at = put_level(string, at, (byte >> i) & 1u, 16u);
        ones += (byte >> i) & 1u;
    }
    if ((format & 0x08u) != 0u) {
        bool even = (format & 0x10u) != 0u;
        bool bit = even ? ones % 2u == 1u : ones % 2u == 0u;

        if ((format & 0x20u) != 0u)
            bit = !even;
        at = put_level(string, at, bit ? 1u : 0u, 16u);
    }
    at = put_level(string, at, 1u, 16u);
    if ((format & 0x04u) != 0u)
        at = put_level(string, at, 1u, width == 5u ? 8u : 16u);
    return at;
}

static uint32_t length_of(uint32_t format)
{
    static uint8_t frame[192];

    return (uint32_t)put_frame(frame, 0, 0u, format);
}

/* The string of p levels of a state; returns p. */
static size_t put_string(uint8_t *string, const struct uart *u)
{
    uint8_t frame[192];
    size_t at = 0;

    if (u->frame_left != 0u) {
        size_t length = put_frame(frame, 0, u->frame_byte, u->frame_format);

        at = u->frame_left;
        memcpy(string, frame + length - at, at);
    } else if (u->tx_count != 0u) {
        at = put_level(string, 0, 1u, 1u);
    }
    for (uint32_t i = 0u; i < u->tx_count; i++)
        at = put_frame(string, at, u->tx_queue[i], u->lcr & 63u);
    return at;
}

/* ---- Random well-formed states ---- */

static uint32_t draw_byte(void)
{
    static const uint32_t bytes[] = { 0x00u, 0xFFu, 0x55u, 0xAAu, 0x41u, 0x80u };

    return draw(2u) != 0u ? bytes[draw(6u)] : draw(256u);
}

static struct uart_errors draw_errors(void)
{
    struct uart_errors errors = { draw(8u) == 0u ? 1u : 0u, draw(8u) == 0u ? 1u : 0u,
                                  draw(8u) == 0u ? 1u : 0u };

    return errors;
}

/* Errors stand with their entries with FIFO on, and apart from them with FIFO off. */
static void draw_queues(struct uart *u)
{
    uint32_t size = u->fifo_on == 0u ? 1u : u->size64 != 0u ? 64u : 16u;

    u->tx_count = draw(4u) != 0u ? draw(size < 4u ? size + 1u : 4u) : draw(size + 1u);
    for (uint32_t i = 0u; i < u->tx_count; i++)
        u->tx_queue[i] = draw_byte();
    u->rx_count = draw(size + 1u);
    for (uint32_t i = 0u; i < u->rx_count; i++) {
        u->rx_queue[i].byte = draw_byte();
        if (u->fifo_on != 0u)
            u->rx_queue[i].errors = draw_errors();
    }
    if (u->fifo_on == 0u)
        u->kept = draw_errors();
}

static void draw_frame(struct uart *u)
{
    uint32_t length;

    if (draw(3u) == 0u)
        return;
    u->frame_format = draw(64u);
    u->frame_byte = draw_byte();
    length = length_of(u->frame_format);
    switch (draw(4u)) {
    case 0:
        u->frame_left = 1u;
        break;
    case 1:
        u->frame_left = length;
        break;
    default:
        u->frame_left = 1u + draw(length);
        break;
    }
}

static void draw_receiver(struct uart *u)
{
    uint32_t width;
    uint32_t parity;

    u->rx_state = draw(3u);
    if (u->rx_state != UART_RX_CHARACTER)
        return;
    u->rx_format = draw(64u);
    width = 5u + (u->rx_format & 3u);
    parity = (u->rx_format >> 3) & 1u;
    u->rx_position = draw(8u + 16u * (1u + width + parity));
    for (uint32_t i = 0u; i < width; i++)
        if (u->rx_position >= 24u + 16u * i)
            u->rx_data |= draw(2u) << i;
    if (parity != 0u && u->rx_position >= 24u + 16u * width)
        u->rx_parity = draw(2u);
}

static void draw_latches(struct uart *u)
{
    static const uint32_t triggers[2][4] = { { 1u, 4u, 8u, 14u }, { 1u, 16u, 32u, 56u } };
    bool flow = (u->mcr & 0x20u) != 0u && u->fifo_on != 0u;

    u->tx_empty_latch = u->tx_count == 0u ? draw(2u) : 0u;
    u->overrun = draw(2u);
    if (u->fifo_on != 0u && u->rx_count != 0u) {
        u->timeout_latch = draw(2u);
        u->idle_count = draw(770u);
    }
    u->changes = draw(16u);
    if (flow)
        u->changes &= 14u;
    if (flow && (u->mcr & 0x02u) != 0u && u->rx_count != 0u)
        u->rts_hold = u->rx_count >= triggers[u->size64][u->trigger_code] ? 1u : draw(2u);
}

static void draw_state(struct uart *u, uint32_t largest_divisor)
{
    memset(u, 0, sizeof *u);
    u->ier = draw(64u);
    u->mcr = draw(64u);
    u->lcr = draw(256u);
    u->scr = draw(256u);
    u->divisor = draw(16u) == 0u ? 0u : 1u + draw(largest_divisor);
    u->k = u->divisor == 0u ? 0u : 1u + draw(u->divisor);
    u->fifo_on = draw(4u) != 0u ? 1u : 0u;
    u->size64 = draw(4u) == 0u ? 1u : 0u;
    u->dma = draw(2u);
    u->trigger_code = draw(4u);
    u->modem_pins = draw(16u);
    u->sin = draw(2u);
    draw_queues(u);
    draw_frame(u);
    draw_receiver(u);
    draw_latches(u);
    expect("drawn state", u, 1u, uart_well_formed(u));
}

/* ---- Demand 3 ---- */

static bool flow_holds(const struct uart *u)
{
    bool cts = (u->mcr & 0x10u) != 0u ? (u->mcr & 0x02u) != 0u : (u->modem_pins & 1u) != 0u;

    return (u->mcr & 0x20u) != 0u && u->fifo_on != 0u && !cts;
}

static uint32_t wanted_number(const struct uart *u)
{
    bool work = u->tx_count != 0u || u->frame_left != 0u;

    if (work && u->divisor == 0u)
        return UART_NO_CLOCK;
    if (u->tx_count != 0u && flow_holds(u))
        return UART_HELD;
    return UART_DONE;
}

/* Run's answer, and its state: that many single ticks. */
static void check_run(const struct uart *first, uint32_t most, uint32_t wanted)
{
    struct uart by_run = *first;
    struct uart by_ticks = *first;
    struct uart_value v = uart_run(&by_run, most);

    expect("run's number", first, UART_DONE, v.number);
    expect("run's ticks", first, wanted, v.value);
    for (uint32_t i = 0u; i < wanted; i++)
        expect("tick's number", first, UART_DONE, uart_tick(&by_ticks).number);
    if (memcmp(&by_run, &by_ticks, sizeof by_run) != 0)
        fail("run's state", first, 0u, 1u);
}

/* The transmitter's line now, as the pins show it where they do, else as level says for 0. */
static uint32_t line_now(const struct uart *u)
{
    uint32_t level = uart_level(u, 0u).value;

    if ((u->mcr & 0x10u) == 0u && (u->lcr & 0x40u) == 0u)
        expect("SOUT", u, level, uart_look(u).pins.sout);
    return level;
}

static void check_forecast(const struct uart *first)
{
    static uint8_t string[LONGEST_STRING + 1u];
    struct uart u = *first;
    struct uart_value forecast = uart_forecast(first);
    uint32_t number = wanted_number(first);
    uint32_t p = (uint32_t)put_string(string, first);
    uint32_t ticks = p == 0u ? 0u : first->k + (p - 1u) * first->divisor;
    uint32_t beyond = ticks + 1u + draw(50u);
    uint32_t until_pulse = first->k;
    uint32_t place = 0u;

    expect("forecast's number", first, number, forecast.number);
    expect("level's number", first, number, uart_level(first, draw(1000u)).number);
    if (number != UART_DONE) {
        expect("refused forecast", first, 0u, forecast.value);
        check_run(first, 0u, 0u);
        check_run(first, 300u, 300u);
        return;
    }
    expect("forecast", first, ticks, forecast.value);
    for (uint32_t t = 0u;; t++) {
        uint32_t wanted = place < p ? string[place] : 1u;
        bool empty = u.tx_count == 0u && u.frame_left == 0u;

        expect("level", first, wanted, uart_level(first, t).value);
        expect("line", first, wanted, line_now(&u));
        expect("both empty", first, t >= ticks ? 1u : 0u, empty ? 1u : 0u);
        if (t == beyond)
            break;
        expect("tick's number", first, UART_DONE, uart_tick(&u).number);
        if (first->divisor != 0u && --until_pulse == 0u) {
            until_pulse = first->divisor;
            place++;
        }
    }
    expect("level far beyond", first, 1u, uart_level(first, UINT32_MAX).value);
    if (ticks > 0u)
        check_run(first, ticks - 1u, ticks - 1u);
    check_run(first, ticks, ticks);
    check_run(first, ticks + 1u, ticks);
    check_run(first, UINT32_MAX, ticks);
    check_run(first, 0u, 0u);
}

/* ---- Steps ---- */

static void check_unchanged(const struct uart *before, const struct uart *after)
{
    if (memcmp(before, after, sizeof *before) != 0)
        fail("state after a refusal", before, 0u, 1u);
}

static void check_refused(const struct uart *before, const struct uart *after,
                          struct uart_answer a, uint32_t number, uint32_t part)
{
    struct uart_answer zero = { 0 };

    zero.number = number;
    zero.part = part;
    if (memcmp(&a, &zero, sizeof a) != 0)
        fail("refusal", before, number, a.number);
    check_unchanged(before, after);
}

static void check_refusals(const struct uart *u)
{
    struct uart v = *u;

    check_refused(u, &v, uart_read(&v, 8u + draw(1000u)), UART_BAD_ADDRESS, 0u);
    check_refused(u, &v, uart_write(&v, 8u + draw(1000u), 1u), UART_BAD_ADDRESS, 0u);
    check_refused(u, &v, uart_set_sin(&v, 2u + draw(1000u)), UART_BAD_LEVEL, 0u);
    check_refused(u, &v, uart_set_modem(&v, 16u + draw(1000u)), UART_BAD_LEVEL, 0u);
}

static struct uart_answer random_step(struct uart *u)
{
    switch (draw(12u)) {
    case 0:
        return draw(20u) == 0u ? uart_reset(u) : uart_tick(u);
    case 1:
    case 2:
        return uart_read(u, draw(8u));
    case 3:
    case 4:
    case 5:
        return uart_write(u, draw(8u), (uint8_t)draw(256u));
    case 6:
        return uart_write(u, 0u, (uint8_t)draw(256u));
    case 7:
        return uart_set_sin(u, draw(2u));
    case 8:
        return uart_set_modem(u, draw(16u));
    case 9:
        return uart_ticks(u, draw(200u));
    default:
        return uart_tick(u);
    }
}

static void check_step(struct uart *u)
{
    struct uart before = *u;

    expect("step's number", &before, UART_DONE, random_step(u).number);
    if (!uart_well_formed(u))
        fail("state after a step", &before, 1u, 0u);
}

/* The divisor that a journey's writes leave is often too large for anything to happen. */
static void speed_up(struct uart *u)
{
    if (u->divisor > 3u) {
        u->divisor = 1u + draw(3u);
        u->k = 1u + draw(u->divisor);
    }
}

/* ---- Parts ---- */

/* Puts a number beyond every range at a place of some part; returns the part. */
static uint32_t damage(struct uart *u)
{
    /* The places from one end to the next are of this part (document 02, requests b and c). */
    static const uint32_t ends[] = { 0u, 6u, 12u, 80u, 342u, 348u, UART_STATE_PLACES };
    static const uint32_t parts[] = { 1u, 2u, 3u, 4u, 5u, 4u };
    uint32_t places[UART_STATE_PLACES];
    uint32_t run = draw(6u);

    memcpy(places, u, sizeof places);
    places[ends[run] + draw(ends[run + 1u] - ends[run])] = 65536u + draw(1u << 30);
    memcpy(u, places, sizeof places);
    return parts[run];
}

/* Damages a state in one place or in two; returns the lower part. */
static uint32_t damage_some(struct uart *u)
{
    uint32_t part = damage(u);
    uint32_t other = draw(2u) != 0u ? damage(u) : part;

    return other < part ? other : part;
}

static void check_no_value(const struct uart *u, struct uart_value v, uint32_t part)
{
    expect("malformed state's number", u, UART_MALFORMED, v.number);
    expect("malformed state's part", u, part, v.part);
    expect("malformed state's value", u, 0u, v.value);
}

static void check_no_jumps(const struct uart *u, struct jump_answer a, uint32_t part)
{
    struct uart_value used = { a.number, a.part, a.used };

    check_no_value(u, used, part);
    expect("malformed state's jumps", u, 0u, a.jumps);
}

static void check_damaged(struct uart *u)
{
    uint32_t part = damage_some(u);
    struct uart v = *u;

    expect("part", u, part, uart_part(u));
    check_refused(u, &v, uart_reset(&v), UART_MALFORMED, part);
    check_refused(u, &v, uart_read(&v, draw(16u)), UART_MALFORMED, part);
    check_refused(u, &v, uart_write(&v, draw(16u), 1u), UART_MALFORMED, part);
    check_refused(u, &v, uart_set_sin(&v, draw(4u)), UART_MALFORMED, part);
    check_refused(u, &v, uart_set_modem(&v, draw(32u)), UART_MALFORMED, part);
    check_refused(u, &v, uart_tick(&v), UART_MALFORMED, part);
    check_refused(u, &v, uart_ticks(&v, draw(9u)), UART_MALFORMED, part);
    check_refused(u, &v, uart_look(&v), UART_MALFORMED, part);
    check_no_value(u, uart_forecast(&v), part);
    check_no_value(u, uart_level(&v, draw(9u)), part);
    check_no_value(u, uart_run(&v, draw(9u)), part);
    check_no_jumps(u, jump_ticks(&v, draw(9u)), part);
    check_no_jumps(u, jump_run(&v, draw(9u)), part);
    check_unchanged(u, &v);
}

/* ---- Kept errors ---- */

/* Errors as LSR shows them, in bits 2 to 4. */
static uint32_t lsr_bits(struct uart_errors errors)
{
    return errors.pe << 2 | errors.fe << 3 | errors.bi << 4;
}

/* A state of character mode that hears SIN, a pulse each tick, no character begun. */
static void draw_listening(struct uart *u)
{
    do
        draw_state(u, 1u);
    while (u->fifo_on != 0u || u->divisor != 1u);
    u->mcr &= 0x0Fu;
    u->lcr &= 0x7Fu;
    u->rx_state = u->rx_position = u->rx_format = u->rx_data = u->rx_parity = 0u;
}

/* Puts a character on SIN up to its first stop sample; returns its errors. */
static uint32_t hear_character(struct uart *u, uint32_t byte)
{
    uint8_t levels[192];
    uint32_t width = 5u + (u->lcr & 3u);
    uint32_t parity = (u->lcr >> 3) & 1u;
    uint32_t stop = 16u * (1u + width + parity);
    struct uart_errors errors = { draw(2u) * parity, draw(2u), 0u };

    put_frame(levels, 0, byte, u->lcr & 63u);
    if (errors.pe != 0u)
        put_level(levels, stop - 16u, levels[stop - 1u] ^ 1u, 16u);
    if (errors.fe != 0u)
        put_level(levels, stop, 0u, 16u);
    errors.bi = memchr(levels, 1, stop + 9u) == NULL ? 1u : 0u;
    for (uint32_t i = 0u; i < stop + 9u; i++) {
        uart_set_sin(u, levels[i]);
        uart_tick(u);
    }
    return lsr_bits(errors);
}

/* A character adds its errors to the kept ones, whatever was queued, and has none of its own. */
static void check_heard(struct uart *u)
{
    struct uart before = *u;
    uint32_t byte = draw_byte();
    uint32_t errors = hear_character(u, byte);

    expect("kept errors", &before, lsr_bits(before.kept) | errors, lsr_bits(u->kept));
    expect("entry's errors", &before, 0u, lsr_bits(u->rx_queue[0].errors));
    expect("byte heard", &before, byte & ((32u << (u->lcr & 3u)) - 1u), u->rx_queue[0].byte);
    expect("OE", &before, before.overrun | before.rx_count, u->overrun);
    u->rx_state = u->rx_position = u->rx_format = u->rx_data = u->rx_parity = 0u;
}

/* What some calls make of kept errors: reads of RBR and FIFO off leave them, the others don't. */
static void check_kept(struct uart *u)
{
    uint32_t kept;
    struct uart v;

    check_heard(u);
    check_heard(u);
    kept = lsr_bits(u->kept);
    uart_read(u, 0u);
    uart_write(u, 2u, (uint8_t)(draw(128u) << 1));
    expect("errors left", u, kept, lsr_bits(u->kept));
    v = *u;
    uart_write(&v, 2u, (uint8_t)(draw(128u) << 1 | 1u));
    expect("errors with FIFO on", u, 0u, uart_read(&v, 5u).byte & 0x9Cu);
    v = *u;
    uart_reset(&v);
    expect("errors after reset", u, 0u, lsr_bits(v.kept));
    uart_write(u, 1u, 0x04u);
    expect("INTRPT", u, (kept | u->overrun) != 0u, uart_look(u).pins.intrpt);
    expect("errors in LSR", u, kept, uart_read(u, 5u).byte & 0x9Du);
    expect("errors in LSR again", u, 0u, uart_read(u, 5u).byte & 0x9Du);
    expect("INTRPT after LSR", u, 0u, uart_look(u).pins.intrpt);
}

/* ---- Replay ---- */

/* One more than the largest field of each kind: below it every number is good. */
static const uint32_t field_ends[] = { 0x10000u, 0x800u, 0x800u, 0x2u, 0x10u, 0x1u };

/* A good record and its step by the checked calls; a read's byte is the one answered. */
static uint32_t draw_record(struct uart *u)
{
    uint32_t kind = draw(16u) == 0u ? 5u : draw(5u);
    uint32_t field = kind == 0u ? draw(200u) : draw(field_ends[kind]);
    struct uart_answer a;

    switch (kind) {
    case 0:
        a = uart_ticks(u, field);
        break;
    case 1:
        a = uart_read(u, field >> 8);
        field = (field & 0x700u) | a.byte;
        break;
    case 2:
        a = uart_write(u, field >> 8, (uint8_t)(field & 0xFFu));
        break;
    case 3:
        a = uart_set_sin(u, field);
        break;
    case 4:
        a = uart_set_modem(u, field);
        break;
    default:
        a = uart_reset(u);
        break;
    }
    expect("record's number", u, UART_DONE, a.number);
    return kind << 28 | field;
}

/* An unknown kind, or a good record with one stray bit. */
static uint32_t draw_bad_record(uint32_t good)
{
    uint32_t bit;

    if (draw(4u) == 0u)
        return (6u + draw(10u)) << 28 | draw(1u << 28);
    do
        bit = 1u << draw(28u);
    while (bit < field_ends[good >> 28]);
    return good | bit;
}

static void check_answer(const struct uart *first, struct replay_answer got,
                         struct replay_answer wanted)
{
    expect("replay's outcome", first, wanted.outcome, got.outcome);
    expect("replay's number", first, wanted.number, got.number);
    expect("replay's part", first, wanted.part, got.part);
    expect("replay's place", first, (uint32_t)wanted.place, (uint32_t)got.place);
    expect("replay's seen byte", first, wanted.seen, got.seen);
    expect("replay's model byte", first, wanted.model, got.model);
}

/* The answer, and the state it leaves. */
static void check_replay(const struct uart *first, uint32_t version, const uint32_t *records,
                         struct replay_answer wanted, const struct uart *end)
{
    struct uart u = *first;

    check_answer(first, replay(&u, version, records, REPLAY_RECORDS), wanted);
    if (memcmp(&u, end, sizeof u) != 0)
        fail("replay's state", first, 0u, 1u);
}

/* Good records that agree, and the states before each and at the end. */
static void draw_records(const struct uart *first, struct uart states[REPLAY_RECORDS + 1u],
                         uint32_t records[REPLAY_RECORDS])
{
    states[0] = *first;
    for (uint32_t i = 0u; i < REPLAY_RECORDS; i++) {
        states[i + 1u] = states[i];
        records[i] = draw_record(&states[i + 1u]);
    }
}

/* Agreed; then with another byte or a bad record at one place, a bad version, a bad state. */
static void check_replays(const struct uart *first)
{
    struct uart states[REPLAY_RECORDS + 1u];
    uint32_t records[REPLAY_RECORDS];
    struct replay_answer agreed = { REPLAY_AGREED, 0u, 0u, 0u, 0u, 0u };
    struct replay_answer malformed = replay_refused(1u, 0u);
    struct uart damaged = *first;
    uint32_t place = draw(REPLAY_RECORDS);
    uint32_t good;

    draw_records(first, states, records);
    good = records[place];
    check_replay(first, 1u, records, agreed, &states[REPLAY_RECORDS]);
    if (good >> 28 == 1u) {
        uint32_t flip = 1u + draw(255u);
        struct replay_answer differs = { REPLAY_DIFFERS, 0u, 0u, place, (good ^ flip) & 0xFFu,
                                         good & 0xFFu };

        records[place] = good ^ flip;
        check_replay(first, 1u, records, differs, &states[place]);
    }
    records[place] = draw_bad_record(good);
    check_replay(first, 1u, records, replay_refused(8u, place), &states[place]);
    check_replay(first, 2u + draw(65534u), records, replay_refused(7u, 0u), first);
    check_replay(first, 0u, records, replay_refused(7u, 0u), first);
    malformed.part = damage_some(&damaged);
    check_replay(&damaged, draw(3u), records, malformed, &damaged);
}

/* ---- Expected captures ---- */

/*
 * The answer, the words and the state that the writer leaves from a state: the first
 * words are as many of the records that agree, those beyond are as they were.
 */
static void check_expected(const struct uart *first, uint32_t version, const uint32_t *records,
                           size_t room, struct expected_answer wanted, const uint32_t *agree,
                           const struct uart *end)
{
    struct uart u = *first;
    uint32_t before[EXPECTED_ROOM];
    uint32_t words[EXPECTED_ROOM];
    struct expected_answer got;

    for (size_t i = 0; i < EXPECTED_ROOM; i++)
        before[i] = words[i] = draw(UINT32_MAX);
    got = expected(&u, version, records, REPLAY_RECORDS, words, room);
    expect("writer's number", first, wanted.number, got.number);
    expect("writer's part", first, wanted.part, got.part);
    expect("words written", first, (uint32_t)wanted.count, (uint32_t)got.count);
    if (memcmp(words, agree, wanted.count * sizeof words[0]) != 0)
        fail("written words", first, 0u, 1u);
    if (memcmp(words + wanted.count, before + wanted.count,
               (EXPECTED_ROOM - wanted.count) * sizeof words[0]) != 0)
        fail("words beyond", first, 0u, 1u);
    if (memcmp(&u, end, sizeof u) != 0)
        fail("writer's state", first, 0u, 1u);
    if (wanted.number == 1u || wanted.number == 7u)
        return;
    u = *first;
    expect("replay of the words", first, REPLAY_AGREED,
           replay(&u, version, words, got.count).outcome);
    if (memcmp(&u, end, sizeof u) != 0)
        fail("state after the words", first, 0u, 1u);
}

/* Reads with any byte; rooms; a bad record before, at and behind the room's end; 7 and 1. */
static void check_writer(const struct uart *first)
{
    struct uart states[REPLAY_RECORDS + 1u];
    uint32_t agree[REPLAY_RECORDS];
    uint32_t records[REPLAY_RECORDS];
    struct expected_answer done = { 0u, 0u, REPLAY_RECORDS };
    struct expected_answer full = { 16u, 0u, draw(REPLAY_RECORDS) };
    struct expected_answer bad = { 8u, 0u, draw(REPLAY_RECORDS) };
    struct expected_answer unknown = { 7u, 0u, 0u };
    struct expected_answer malformed = { 1u, 0u, 0u };
    struct uart damaged = *first;

    draw_records(first, states, agree);
    for (size_t i = 0; i < REPLAY_RECORDS; i++)
        records[i] = agree[i] >> 28 == 1u && draw(4u) != 0u ? agree[i] ^ draw(256u) : agree[i];
    check_expected(first, 1u, records, REPLAY_RECORDS + draw(11u), done, agree,
                   &states[REPLAY_RECORDS]);
    check_expected(first, 1u, records, full.count, full, agree, &states[full.count]);
    records[bad.count] = draw_bad_record(records[bad.count]);
    check_expected(first, 1u, records, bad.count, bad, agree, &states[bad.count]);
    check_expected(first, 1u, records, bad.count + draw(11u), bad, agree, &states[bad.count]);
    if (full.count < bad.count)
        check_expected(first, 1u, records, full.count, full, agree, &states[full.count]);
    check_expected(first, draw(2u) != 0u ? 2u + draw(65534u) : 0u, records, draw(EXPECTED_ROOM),
                   unknown, agree, first);
    malformed.part = damage_some(&damaged);
    check_expected(&damaged, draw(3u), records, draw(EXPECTED_ROOM), malformed, agree, &damaged);
}

/* ---- Divisors ---- */

static void fail_pair(const char *what, uint32_t clock, uint32_t rate, struct divisor_answer got)
{
    printf("%s: divisor %" PRIu32 " %" PRIu32 " answered %" PRIu32 " %" PRIu32 " %" PRId32 "\n", what,
           clock, rate, got.number, got.divisor, got.error);
    exit(EXIT_FAILURE);
}

/* A clock, a rate, and what is answered. */
struct picked {
    uint32_t clock;
    uint32_t rate;
    struct divisor_answer answer;
};

static const struct picked examples[] = {
    { 3072000u, 7200u, { 0u, 27u, -12345 } },     { 24000u, 1000u, { 0u, 1u, 500000 } },
    { 16000000u, 1u, { 0u, 65535u, 14259021 } },  { 1u, 1000000u, { 0u, 1u, -999999 } },
    { 15999999u, 1000000u, { 0u, 1u, 0 } },       { 8000001u, 500000u, { 0u, 1u, 0 } },
    { 1u, 1u, { 0u, 1u, -937500 } },              { 16000000u, 1000000u, { 0u, 1u, 0 } },
    { 1048544u, 1u, { 0u, 65534u, 0 } },          { 1048552u, 1u, { 0u, 65534u, 7 } },
    { 1048576u, 1u, { 0u, 65535u, 15 } },         { 0u, 1u, { 9u, 0u, 0 } },
    { 1u, 0u, { 9u, 0u, 0 } },                    { 0u, 0u, { 9u, 0u, 0 } },
    { 16000001u, 1u, { 9u, 0u, 0 } },             { 1u, 1000001u, { 9u, 0u, 0 } },
    { UINT32_MAX, 1u, { 9u, 0u, 0 } },            { 1u, UINT32_MAX, { 9u, 0u, 0 } },
    { UINT32_MAX, UINT32_MAX, { 9u, 0u, 0 } },
};

static void check_examples(void)
{
    for (size_t i = 0; i < sizeof examples / sizeof examples[0]; i++) {
        struct picked p = examples[i];
        struct divisor_answer got = divisor_pick(p.clock, p.rate);

        if (got.number != p.answer.number || got.divisor != p.answer.divisor ||
            got.error != p.answer.error)
            fail_pair("an example", p.clock, p.rate, got);
    }
}

/* The quotient rounded, down where it is in the middle, and brought to 1..65535. */
static uint32_t rounded(uint32_t clock, uint32_t rate)
{
    uint32_t whole = clock / (16u * rate);
    uint32_t divisor = clock % (16u * rate) > 8u * rate ? whole + 1u : whole;

    if (divisor < 1u)
        return 1u;
    return divisor > 65535u ? 65535u : divisor;
}

/* Half of the clocks are near a middle or a product, where there is one inside. */
static void check_pair(void)
{
    uint32_t rate = 1u + draw(draw(2u) != 0u ? 1000000u : 1u << draw(20u));
    uint64_t near = (uint64_t)8u * rate * (1u + draw(1u << draw(18u))) + draw(3u) - 1u;
    uint32_t clock = near <= 16000000u && draw(2u) != 0u ? (uint32_t)near : 1u + draw(16000000u);
    struct divisor_answer got = divisor_pick(clock, rate);
    int64_t product = (int64_t)16 * got.divisor * rate;
    int64_t left = ((int64_t)clock - product) * 1000000 - got.error * product;

    if (got.number != 0u || got.divisor != rounded(clock, rate))
        fail_pair("a pair", clock, rate, got);
    /* What the error leaves is less than one part and has the sign of the whole. */
    if (llabs(left) >= product || (left > 0 && clock < product) || (left < 0 && clock > product))
        fail_pair("a pair's error", clock, rate, got);
}

/* ---- Jumps ---- */

/* A way to pass ticks; it returns the jumps that they are. */
typedef uint32_t passing(struct uart *u, uint32_t ticks);

/* One by one. Each pulse ends a jump, and so does the last tick. */
static uint32_t pass_singly(struct uart *u, uint32_t ticks)
{
    uint32_t until_pulse = u->k;
    uint32_t jumps = 0u;

    for (uint32_t i = 1u; i <= ticks; i++) {
        uart_tick(u);
        if (u->divisor != 0u && --until_pulse == 0u) {
            until_pulse = u->divisor;
            jumps++;
        } else if (i == ticks) {
            jumps++;
        }
    }
    return jumps;
}

/* By the pulses within them, which are single ticks of divisor 1. */
static uint32_t pass_pulses(struct uart *u, uint32_t ticks)
{
    uint32_t divisor = u->divisor;
    uint32_t pulses;
    uint32_t rest;

    if (divisor == 0u || ticks < u->k) {
        u->k -= divisor == 0u ? 0u : ticks;
        return ticks == 0u ? 0u : 1u;
    }
    pulses = 1u + (ticks - u->k) / divisor;
    rest = (ticks - u->k) % divisor;
    u->divisor = u->k = 1u;
    uart_ticks(u, pulses);
    u->divisor = divisor;
    u->k = divisor - rest;
    return pulses + (rest == 0u ? 0u : 1u);
}

/* Of so many ticks, passed in this way: what the engine answers, and the state it leaves. */
static void check_jumped(const struct uart *first, struct jump_answer got, const struct uart *left,
                         uint32_t ticks, passing *pass)
{
    struct uart end = *first;
    uint32_t jumps = pass(&end, ticks);

    expect("engine's number", first, UART_DONE, got.number);
    expect("engine's part", first, UART_PART_NONE, got.part);
    expect("engine's ticks", first, ticks, got.used);
    expect("jumps", first, jumps, got.jumps);
    if (first->divisor != 0u && got.jumps > 2u + ticks / first->divisor)
        fail("bound of the jumps", first, 2u + ticks / first->divisor, got.jumps);
    if (memcmp(left, &end, sizeof end) != 0)
        fail("engine's state", first, 0u, 1u);
}

/* The ticks that a run uses: the smaller of N and T, or N where the forecast gives 4 or 5. */
static uint32_t used_of(const struct uart *u, uint32_t most)
{
    struct uart_value forecast = uart_forecast(u);

    return forecast.number == UART_DONE && forecast.value < most ? forecast.value : most;
}

static void check_jumps(const struct uart *first, uint32_t ticks, passing *pass)
{
    struct uart by_jump = *first;
    struct uart by_run = *first;

    check_jumped(first, jump_ticks(&by_jump, ticks), &by_jump, ticks, pass);
    check_jumped(first, jump_run(&by_run, ticks), &by_run, used_of(first, ticks), pass);
}

/* Few, around a pulse, around the forecast, or any below 1000. */
static uint32_t draw_ticks(const struct uart *u)
{
    uint32_t around;

    switch (draw(4u)) {
    case 0:
        return draw(12u);
    case 1:
        around = u->k + draw(4u) * u->divisor;
        break;
    case 2:
        around = uart_forecast(u).value;
        break;
    default:
        return draw(1000u);
    }
    return around == 0u ? draw(2u) : around + draw(3u) - 1u;
}

/* Ticks of random numbers, singly and by run too; then the most there are, at a large divisor. */
static void check_drawn_jumps(void)
{
    struct uart u;

    for (uint32_t i = 0u; i < JUMP_STATES; i++) {
        uint32_t ticks;

        draw_state(&u, draw(2u) != 0u ? 2u : 9u);
        ticks = draw_ticks(&u);
        check_jumps(&u, ticks, pass_singly);
        check_jumps(&u, ticks, pass_pulses);
        check_run(&u, ticks, used_of(&u, ticks));
    }
    for (uint32_t i = 0u; i < FAR_JUMPS; i++) {
        draw_state(&u, 9u);
        if (u.divisor != 0u) {
            u.divisor = 65535u - draw(draw(2u) != 0u ? 2u : 30000u);
            u.k = draw(2u) != 0u ? u.divisor : 1u + draw(u.divisor);
        }
        check_jumps(&u, UINT32_MAX - draw(3u), pass_pulses);
    }
}

/* A divisor, k, ticks, and the jumps that they make. */
struct counted {
    uint32_t divisor;
    uint32_t k;
    uint32_t ticks;
    uint32_t jumps;
};

static const struct counted counts[] = {
    { 5u, 3u, 0u, 0u }, { 5u, 3u, 2u, 1u }, { 5u, 3u, 3u, 1u },          { 5u, 3u, 4u, 2u },
    { 5u, 3u, 8u, 2u }, { 5u, 3u, 9u, 3u }, { 5u, 3u, 13u, 3u },         { 5u, 5u, 4u, 1u },
    { 5u, 5u, 5u, 1u }, { 5u, 5u, 6u, 2u }, { 5u, 1u, 1u, 1u },          { 5u, 1u, 2u, 2u },
    { 1u, 1u, 0u, 0u }, { 1u, 1u, 1u, 1u }, { 1u, 1u, 1000u, 1000u },    { 0u, 0u, 0u, 0u },
    { 0u, 0u, 1u, 1u }, { 0u, 0u, 2u, 1u }, { 0u, 0u, UINT32_MAX, 1u },
    { 65535u, 65535u, 65534u, 1u },         { 65535u, 65535u, 65535u, 1u },
    { 65535u, 65535u, 65536u, 2u },         { 65535u, 1u, 65536u, 2u },
    { 65535u, 1u, 65537u, 3u },             { 65535u, 65535u, UINT32_MAX, 65537u },
    { 65535u, 65534u, UINT32_MAX, 65538u }, { 65535u, 1u, UINT32_MAX, 65538u },
};

/* With nothing to send a run makes no jump; with a byte that is held back it makes them all. */
static void check_counts(void)
{
    for (size_t i = 0; i < sizeof counts / sizeof counts[0]; i++) {
        struct counted c = counts[i];
        struct uart idle;
        struct uart u;

        uart_fresh(&idle);
        idle.divisor = c.divisor;
        idle.k = c.k;
        u = idle;
        expect("jumps of a count", &idle, c.jumps, jump_ticks(&u, c.ticks).jumps);
        u = idle;
        expect("jumps with LSR6 1", &idle, 0u, jump_run(&u, c.ticks).jumps);
        u = idle;
        u.mcr = 0x20u;
        u.fifo_on = u.tx_count = 1u;
        expect("jumps held back", &idle, c.jumps, jump_run(&u, c.ticks).jumps);
    }
}

int main(void)
{
    struct uart u;

    for (uint32_t i = 0u; i < FORECAST_STATES; i++) {
        draw_state(&u, 5u);
        check_forecast(&u);
    }
    printf("demand 3: %u states as foretold\n", FORECAST_STATES);
    for (uint32_t i = 0u; i < STEP_STATES; i++) {
        draw_state(&u, draw(2u) != 0u ? 3u : 65535u);
        check_refusals(&u);
        for (uint32_t j = 0u; j < 10u; j++)
            check_step(&u);
    }
    for (uint32_t i = 0u; i < JOURNEYS; i++) {
        uart_fresh(&u);
        for (uint32_t j = 0u; j < JOURNEY_STEPS; j++) {
            check_step(&u);
            speed_up(&u);
        }
    }
    printf("steps: %u states and %u journeys stay well formed\n", STEP_STATES, JOURNEYS);
    for (uint32_t i = 0u; i < DAMAGED_STATES; i++) {
        draw_state(&u, 65535u);
        check_damaged(&u);
    }
    printf("parts: %u damaged states refused with their part\n", DAMAGED_STATES);
    for (uint32_t i = 0u; i < KEPT_STATES; i++) {
        draw_listening(&u);
        check_kept(&u);
    }
    printf("kept errors: %u states of character mode\n", KEPT_STATES);
    for (uint32_t i = 0u; i < REPLAYS; i++) {
        draw_state(&u, 5u);
        check_replays(&u);
    }
    printf("replay: %u states with %u records each as the calls one by one\n", REPLAYS,
           REPLAY_RECORDS);
    for (uint32_t i = 0u; i < REPLAYS; i++) {
        draw_state(&u, 5u);
        check_writer(&u);
    }
    printf("expected captures: %u states, what is written agrees\n", REPLAYS);
    check_examples();
    for (uint32_t i = 0u; i < PAIRS; i++)
        check_pair();
    printf("divisors: %u pairs as the quotient says\n", PAIRS);
    check_counts();
    check_drawn_jumps();
    printf("jumps: %u states as single ticks, %u far ones\n", JUMP_STATES, FAR_JUMPS);
    return EXIT_SUCCESS;
}
