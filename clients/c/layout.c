/* The structs of tl16c750.h lie as the library's do, and every bit pattern is a state. */
#include "tl16c750.h"

#include <stdio.h>
#include <stdlib.h>
#include <string.h>

static int wrong;

static void expect(int holds, const char *what)
{
    if (!holds) {
        printf("differs: %s\n", what);
        wrong = 1;
    }
}

/* The field has this number in every byte of it. */
#define HAS(object, field, number)                                                \
    do {                                                                          \
        unsigned char all[sizeof(object).field];                                  \
        memset(all, (number), sizeof all);                                        \
        expect(memcmp(&(object).field, all, sizeof all) == 0, #object "." #field); \
    } while (0)

#define STATE_HAS(field, place, number) HAS(s, field, number);

static void check_state(struct uart_state s)
{
    UART_STATE_FIELDS(STATE_HAS)
    for (int i = 0; i < UART_PLACES; i++) {
        HAS(s, rx.entries[i].byte, 18);
        HAS(s, rx.entries[i].pe, 19);
        HAS(s, rx.entries[i].fe, 20);
        HAS(s, rx.entries[i].bi, 21);
    }
}

static void check_outputs(struct uart_outputs o)
{
    HAS(o, sout, 102);
    HAS(o, rts, 103);
    HAS(o, dtr, 104);
    HAS(o, out1, 105);
    HAS(o, out2, 106);
    HAS(o, intrpt, 107);
}

static void check_values(struct uart_values v)
{
    HAS(v, number, 100);
    HAS(v, part, 113);
    HAS(v, seen, 101);
    HAS(v, model, 108);
    HAS(v, place, 109);
}

static void check_picked(struct uart_picked p)
{
    HAS(p, number, 100);
    HAS(p, divisor, 114);
    HAS(p, error, 115);
}

static void check_expected(struct uart_expected e)
{
    HAS(e, number, 100);
    HAS(e, part, 113);
    HAS(e, count, 116);
    check_state(e.state);
}

static void check_expect_progress(struct uart_expect_progress p)
{
    HAS(p, number, 100);
    HAS(p, part, 113);
    HAS(p, version, 110);
    HAS(p, count, 116);
    check_state(p.state);
}

static void check_jumped(struct uart_jumped j)
{
    HAS(j, number, 100);
    HAS(j, part, 113);
    HAS(j, jumps, 117);
    check_state(j.state);
}

static void check_jump_ran(struct uart_jump_ran r)
{
    HAS(r, number, 100);
    HAS(r, part, 113);
    HAS(r, used, 101);
    HAS(r, jumps, 117);
    check_state(r.state);
}

static void check_specimens(void)
{
    struct uart_answer answer = uart_specimen_answer();
    struct uart_looked looked = uart_specimen_looked();
    struct uart_forecasted forecasted = uart_specimen_forecasted();
    struct uart_leveled leveled = uart_specimen_leveled();
    struct uart_ran ran = uart_specimen_ran();

    check_state(uart_specimen_state());
    HAS(answer, number, 100);
    HAS(answer, part, 113);
    HAS(answer, byte, 101);
    check_outputs(answer.outputs);
    check_state(answer.state);
    HAS(looked, number, 100);
    HAS(looked, part, 113);
    check_outputs(looked.outputs);
    HAS(forecasted, number, 100);
    HAS(forecasted, part, 113);
    HAS(forecasted, ticks, 101);
    HAS(leveled, number, 100);
    HAS(leveled, part, 113);
    HAS(leveled, level, 101);
    HAS(ran, number, 100);
    HAS(ran, part, 113);
    HAS(ran, used, 101);
    check_state(ran.state);
    check_jumped(uart_specimen_jumped());
    check_jump_ran(uart_specimen_jump_ran());
    check_picked(uart_specimen_picked());
}

static void check_capture_specimens(void)
{
    struct uart_replayed replayed = uart_specimen_replayed();
    struct uart_progress progress = uart_specimen_progress();

    check_values(replayed.values);
    check_state(replayed.state);
    HAS(progress, version, 110);
    HAS(progress, stopped, 111);
    HAS(progress, done, 112);
    check_values(progress.values);
    check_state(progress.state);
    check_expected(uart_specimen_expected());
    check_expect_progress(uart_specimen_expect_progress());
}

static void check_sizes(void)
{
    const struct uart_sizes sizes = uart_sizes_of_structs();

    expect(sizes.state == sizeof(struct uart_state), "size of state");
    expect(sizes.answer == sizeof(struct uart_answer), "size of answer");
    expect(sizes.looked == sizeof(struct uart_looked), "size of looked");
    expect(sizes.forecasted == sizeof(struct uart_forecasted), "size of forecasted");
    expect(sizes.leveled == sizeof(struct uart_leveled), "size of leveled");
    expect(sizes.ran == sizeof(struct uart_ran), "size of ran");
    expect(sizes.replayed == sizeof(struct uart_replayed), "size of replayed");
    expect(sizes.progress == sizeof(struct uart_progress), "size of progress");
    expect(sizes.picked == sizeof(struct uart_picked), "size of picked");
    expect(sizes.expected == sizeof(struct uart_expected), "size of expected");
    expect(sizes.expect_progress == sizeof(struct uart_expect_progress), "size of expect_progress");
    expect(sizes.jumped == sizeof(struct uart_jumped), "size of jumped");
    expect(sizes.jump_ran == sizeof(struct uart_jump_ran), "size of jump_ran");
}

/* A state handed in reaches the library field by field: what it is refused for, and what not. */
static void check_parameters(void)
{
    struct uart_state s = uart_fresh();
    struct uart_state specimen = uart_specimen_state();
    struct uart_answer a;

    s.registers.lcr = 0x03;
    s.baud.divisor = 12;
    s.baud.k = 5;
    s.fifo.enabled = 1;
    s.tx.bytes[0] = 'A';
    s.tx.bytes[1] = 'B';
    s.tx.bytes[2] = 'C';
    s.tx.count = 3;
    expect(uart_forecast(s).ticks == 5765, "forecast of row 8");
    s.rx.entries[0].byte = 0x5A;
    s.rx.entries[0].fe = 1;
    s.rx.count = 1;
    s.latches.overrun = 1;
    s.latches.idle = 7;
    expect(uart_read(s, UART_LSR).byte == 0x8B, "LSR");
    expect(uart_read(s, UART_RBR).byte == 0x5A, "RBR");
    s.rx.entries[63].bi = 1;
    expect(uart_read(s, UART_LSR).number == UART_MALFORMED, "an entry beyond the count");

    s = uart_fresh();
    s.kept.fe = 1;
    expect(uart_read(s, UART_LSR).byte == 0x68, "LSR of a kept error");

    /* A refused state comes back as it was. */
    a = uart_write(specimen, UART_SCR, 0);
    expect(a.number == UART_MALFORMED && a.byte == 0, "refusal of the specimen");
    check_state(a.state);
}

/* Records handed in reach the library word by word, and no more of them than are lent. */
static void check_records(void)
{
    const uint32_t records[] = {0x2000075A, 0x1000075A, 0x10000700, 0xFFFFFFFF};
    struct uart_state fresh = uart_fresh();
    struct uart_replayed r;

    r = uart_replay(fresh, 1, records, 0);
    expect(r.values.number == UART_DONE && r.values.place == 0, "replay of nothing");
    expect(r.state.registers.scr == 0, "state after nothing");
    r = uart_replay(fresh, 1, records, 2);
    expect(r.values.number == UART_DONE && r.values.seen == r.values.model, "replay of two");
    expect(r.state.registers.scr == 0x5A, "state after two");
    r = uart_replay(fresh, 1, records, 4);
    expect(r.values.number == UART_DONE && r.values.place == 2, "place of the difference");
    expect(r.values.seen == 0 && r.values.model == 0x5A, "bytes of the difference");
    expect(r.state.registers.scr == 0x5A, "state before the difference");
    r = uart_replay(fresh, 1, records + 3, 1);
    expect(r.values.number == UART_BAD_RECORD && r.values.place == 0, "a bad record");
    r = uart_replay(fresh, 0x10001, records, 2);
    expect(r.values.number == UART_UNKNOWN_VERSION && r.values.place == 0, "version 10001 hex");
    expect(r.state.registers.scr == 0, "state at an unknown version");
    r = uart_replay(uart_specimen_state(), 0, records, 4);
    expect(r.values.number == UART_MALFORMED && r.values.place == 0, "replay from the specimen");
    check_state(r.state);
}

/* Records and words handed in reach the library, and no more of them than are lent. */
static void check_words(void)
{
    const uint32_t records[] = {0x2000075A, 0x10000700, 0xFFFFFFFF};
    uint32_t words[] = {1, 2, 3};
    struct uart_state specimen = uart_specimen_state();
    struct uart_expected e;

    e = uart_expect(specimen, 0, records, 3, words, 3);
    expect(e.number == UART_MALFORMED && e.count == 0, "words from the specimen");
    check_state(e.state);
    e = uart_expect(uart_fresh(), 1, records + 1, 1, words + 1, 1);
    expect(e.number == UART_DONE && e.count == 1, "count of a word");
    expect(words[0] == 1 && words[1] == 0x10000700 && words[2] == 3, "a word in the middle");
    e = uart_expect(uart_fresh(), 1, records, 2, words, 2);
    expect(e.number == UART_DONE && e.count == 2, "count of two");
    expect(words[0] == records[0] && words[1] == 0x1000075A && words[2] == 3, "two words");
    expect(e.state.registers.scr == 0x5A, "state after two words");
}

/* Any progress of a file that is written anew is carried on; once it is refused nothing is written. */
static void check_expect_parts(void)
{
    uint8_t read[] = {0xFF, 7, 0, 0x10};
    struct uart_expect_progress p = uart_specimen_expect_progress();

    p = uart_expect_end(uart_expect_more(p, read, 4), read, 4);
    expect(p.number == 100 && p.count == 0 && read[0] == 0xFF, "what is refused stays so");
    check_state(p.state);
    p = uart_specimen_expect_progress();
    p.number = UART_DONE;
    p = uart_expect_more(p, read, 4);
    expect(p.number == UART_MALFORMED && p.part == UART_IN_REGISTERS, "a file's malformed state");
    expect(p.count == 0 && read[0] == 0xFF, "nothing written from a malformed state");
    p.number = UART_DONE;
    p.state = uart_fresh();
    p.version = 0x10001;
    p = uart_expect_more(p, read, 4);
    expect(p.number == UART_UNKNOWN_VERSION && p.count == 0 && read[0] == 0xFF, "a file's version 10001 hex");
    p.number = UART_DONE;
    p.version = 1;
    p.state.registers.scr = 0x5A;
    p = uart_expect_more(p, read, 4);
    expect(p.number == UART_DONE && p.count == 1 && read[0] == 0x5A, "a read in a file");
    p = uart_expect_end(p, read, 3);
    expect(p.number == UART_BAD_RECORD && p.count == 0 && p.part == 0, "three bytes left");
}

/* Any progress handed in is carried on, and one beyond what a file can have is refused. */
static void check_progress(void)
{
    const uint8_t tick[] = {1, 0, 0, 0};
    struct uart_progress p = uart_specimen_progress();
    struct uart_replayed r = uart_replay_end(p, tick, 1);

    expect(r.values.number == UART_MALFORMED && r.values.place == 0, "too many records");
    expect(r.values.part == 0, "part of too many records");
    check_state(r.state);
    p.done = 7;
    p = uart_replay_more(p, tick, 4);
    expect(p.stopped == UART_REFUSED && p.done == 7, "what is stopped stays so");
    expect(p.values.number == 100, "the number of what is stopped");
    p.stopped = UART_GOING_ON;
    p = uart_replay_more(p, tick, 4);
    expect(p.stopped == UART_REFUSED && p.values.number == UART_MALFORMED, "a malformed state");
    expect(p.values.part == UART_IN_REGISTERS, "part of a malformed state");
    expect(p.values.place == 7, "place of a malformed state");
}

/* States are compared by their fields: padding has no part in it. */
static void check_equal(void)
{
    struct uart_state a;
    struct uart_state b;
    struct uart_state fresh = uart_fresh();

    memset(&a, 0x00, sizeof a);
    memset(&b, 0xFF, sizeof b);
#define COPY(field, place, number) \
    memcpy(&a.field, &fresh.field, sizeof a.field); \
    memcpy(&b.field, &fresh.field, sizeof b.field);
    UART_STATE_FIELDS(COPY)
    memcpy(&a.rx.entries, &fresh.rx.entries, sizeof a.rx.entries);
    memcpy(&b.rx.entries, &fresh.rx.entries, sizeof b.rx.entries);
    expect(uart_equal(&a, &b), "equal but for padding");
    b.rx.entries[63].bi = 1;
    expect(!uart_equal(&a, &b), "an entry's last flag");
    b.rx.entries[63].bi = 0;
    b.latches.idle = 1;
    expect(!uart_equal(&a, &b), "the idle count");
    b.latches.idle = 0;
    b.kept.bi = 1;
    expect(!uart_equal(&a, &b), "a kept error");
}

static void check_version(void)
{
    struct uart_versions v = uart_version();

    expect(v.major == UART_VERSION_MAJOR && v.minor == UART_VERSION_MINOR, "version");
    expect(v.patch == UART_VERSION_PATCH && v.layout == UART_LAYOUT, "patch and layout");
}

/* Whatever stands in memory, the call ends, and is refused where it must be. */
static void check_any_memory(void)
{
    struct uart_state s;
    uint32_t x = 1;
    unsigned char *bytes = (unsigned char *)&s;

    for (int turn = 0; turn < 10000; turn++) {
        struct uart_answer a;

        for (size_t i = 0; i < sizeof s; i++) {
            x = x * 1664525u + 1013904223u;
            bytes[i] = (unsigned char)(x >> 24);
        }
        a = uart_ticks(s, 1000);
        expect(a.number == UART_MALFORMED, "a state of noise");
        expect(memcmp(a.state.tx.bytes, s.tx.bytes, sizeof s.tx.bytes) == 0, "noise back");
        expect(uart_run(s, UINT32_MAX).used == 0, "run of noise");
        expect(uart_jump(s, UINT32_MAX).jumps == 0, "jump of noise");
        expect(uart_jump_run(s, UINT32_MAX).jumps == 0, "run of noise by jumps");
        expect(uart_replay(s, 1, &x, 1).values.number == UART_MALFORMED, "replay from noise");
        expect(uart_expect(s, 1, &x, 1, NULL, 0).number == UART_MALFORMED, "words from noise");
    }
}

int main(void)
{
    check_sizes();
    check_specimens();
    check_capture_specimens();
    check_parameters();
    check_records();
    check_words();
    check_progress();
    check_expect_parts();
    check_equal();
    check_version();
    check_any_memory();
    puts(wrong ? "layout: differs" : "layout: ok");
    return wrong ? EXIT_FAILURE : EXIT_SUCCESS;
}
