/*
 * The capture that is expected: known words, every room, each refusal with what was written before it, and
 * the promise that a replay of what was written agrees and ends in the same state.
 */
#include "tl16c750.h"

#include <stdio.h>
#include <stdlib.h>
#include <string.h>

#define MOST 64 /* words lent at the most */
#define UNWRITTEN 0xAAAAAAAA
#define LENGTH(array) (sizeof(array) / sizeof(array)[0])

/* Reads that saw another byte than the model's, among records of every kind; and what is expected. */
static const uint32_t records[] = {
    0x20000383, 0x20000001, 0x20000303, 0x20000201, /* divisor 1, eight bits, FIFO on */
    0x20000048, 0x00000028, 0x20000205,             /* a byte on the line, the FIFO cleared */
    0x100005FF, 0x30000000, 0x40000003, 0x100006AA, 0x50000000, 0x100007FF, 0x10000500,
};
static const uint32_t known[] = {
    0x20000383, 0x20000001, 0x20000303, 0x20000201, 0x20000048, 0x00000028, 0x20000205,
    0x10000520, 0x30000000, 0x40000003, 0x10000633, 0x50000000, 0x10000700, 0x10000560,
};

static uint32_t words[MOST];
static uint32_t drawn = 1;
static int wrong;

static void expect(int holds, const char *what)
{
    if (!holds) {
        printf("differs: %s\n", what);
        wrong = 1;
    }
}

static int same_but_for_a_byte_seen(uint32_t record, uint32_t word)
{
    return record >> 28 == 1 ? record >> 8 == word >> 8 : record == word;
}

/* What is answered with so much room, and whether what must hold of every answer holds of it. */
static struct uart_expected ask(struct uart_state s, uint32_t version, const uint32_t *given, size_t count,
                                size_t room)
{
    struct uart_expected e;
    size_t i;

    for (i = 0; i < MOST; i++)
        words[i] = UNWRITTEN;
    e = uart_expect(s, version, given, count, words, room);
    expect(e.count <= count && e.count <= room, "count");
    for (i = 0; i < e.count; i++)
        expect(same_but_for_a_byte_seen(given[i], words[i]), "a word written");
    for (i = e.count; i < MOST; i++)
        expect(words[i] == UNWRITTEN, "a word beyond the count");
    expect(e.part == 0 || e.number == UART_MALFORMED, "part");
    if (e.number == UART_MALFORMED || e.number == UART_UNKNOWN_VERSION) {
        expect(e.count == 0 && uart_equal(&e.state, &s), "nothing done");
    } else {
        struct uart_replayed r = uart_replay(s, version, words, e.count);

        expect((e.number == UART_DONE) == (e.count == count), "all written");
        expect(r.values.number == UART_DONE && r.values.seen == r.values.model, "replay of what was written");
        expect(uart_equal(&r.state, &e.state), "end state of the replay");
    }
    return e;
}

/* The number answered, and how many of the known words were written. */
static void answers(struct uart_expected e, uint8_t number, size_t count, const char *what)
{
    expect(e.number == number, what);
    expect(e.count == count, what);
    expect(memcmp(words, known, count * sizeof known[0]) == 0, what);
}

static void check_rooms(void)
{
    struct uart_state fresh = uart_fresh();
    struct uart_expected e;

    for (size_t count = 0; count <= LENGTH(records); count++)
        for (size_t room = 0; room <= LENGTH(records) + 3; room++) {
            size_t written = count < room ? count : room;

            e = ask(fresh, 1, records, count, room);
            answers(e, room < count ? UART_NO_ROOM : UART_DONE, written, "a room");
        }
    expect(e.state.fifo.enabled == 0 && e.state.baud.divisor == 1, "end state");
    answers(ask(e.state, 1, records, 0, 0), UART_DONE, 0, "nothing, from another state");
}

/* A bad record in each place: 8 comes before 16, and the words and the state are those before it. */
static void check_bad_records(void)
{
    const uint32_t bad[] = {0x60000000, 0xFFFFFFFF, 0x00010000, 0x10000800, 0x20001000,
                            0x30000002, 0x40000010, 0x50000001, 0x90000000};
    struct uart_state fresh = uart_fresh();

    for (size_t kind = 0; kind < LENGTH(bad); kind++)
        for (size_t place = 0; place < LENGTH(records); place++) {
            uint32_t given[LENGTH(records)];
            struct uart_state before = uart_expect(fresh, 1, records, place, words, MOST).state;

            memcpy(given, records, sizeof given);
            given[place] = bad[kind];
            for (size_t room = 0; room <= LENGTH(records); room++) {
                struct uart_expected e = ask(fresh, 1, given, LENGTH(given), room);

                if (room < place) {
                    answers(e, UART_NO_ROOM, room, "room before a bad record");
                } else {
                    answers(e, UART_BAD_RECORD, place, "a bad record");
                    expect(uart_equal(&e.state, &before), "state before a bad record");
                }
            }
        }
}

static void check_versions(void)
{
    const uint32_t versions[] = {0, 2, 3, 0x10001, 0xFFFFFFFF};

    for (size_t i = 0; i < LENGTH(versions); i++) {
        answers(ask(uart_fresh(), versions[i], records, LENGTH(records), MOST), UART_UNKNOWN_VERSION, 0,
                "an unknown version");
        answers(ask(uart_fresh(), versions[i], records, 0, 0), UART_UNKNOWN_VERSION, 0, "and no records");
    }
}

/* A malformed state is told before an unknown version, a bad record and no room. */
static void check_malformed(void)
{
    const uint32_t bad = 0xFFFFFFFF;
    struct uart_state s = uart_fresh();
    struct uart_expected e;

    s.latches.hold = 2;
    answers(ask(s, 1, records, LENGTH(records), MOST), UART_MALFORMED, 0, "a malformed state");
    s.frame.format = 64;
    e = ask(s, 0, &bad, 1, 0);
    answers(e, UART_MALFORMED, 0, "a malformed state and more");
    expect(e.part == UART_IN_TRANSMITTER, "part of a malformed state");
}

/* The byte that a read saw has no part in it. */
static void check_bytes_seen(void)
{
    uint32_t given[LENGTH(records)];

    for (uint32_t seen = 0; seen < 256; seen++) {
        for (size_t i = 0; i < LENGTH(records); i++)
            given[i] = records[i] >> 28 == 1 ? (records[i] & ~(uint32_t)0xFF) | seen : records[i];
        answers(ask(uart_fresh(), 1, given, LENGTH(given), MOST), UART_DONE, LENGTH(given), "a byte seen");
    }
}

static uint32_t below(uint32_t most)
{
    drawn = drawn * 1664525u + 1013904223u;
    return (drawn >> 8) % most;
}

static uint32_t draw_record(void)
{
    uint32_t kind = below(6);

    switch (below(60) == 0 ? 6 : kind) {
    case 0:
        return below(2000);
    case 1:
    case 2:
        return kind << 28 | below(8) << 8 | below(256);
    case 3:
        return kind << 28 | below(2);
    case 4:
        return kind << 28 | below(16);
    case 5:
        return kind << 28;
    default:
        return below(16) << 28 | below(1u << 24);
    }
}

/* Any records, from the state in which the last ones ended. */
static void check_drawn(void)
{
    struct uart_state s = uart_fresh();
    unsigned numbers[UART_NO_ROOM + 1] = {0};

    for (int turn = 0; turn < 3000; turn++) {
        uint32_t given[MOST];
        size_t count = below(MOST + 1);
        struct uart_expected e;

        for (size_t i = 0; i < count; i++)
            given[i] = draw_record();
        e = ask(s, 1, given, count, below(8) == 0 ? below(MOST + 1) : MOST);
        numbers[e.number]++;
        s = e.state;
    }
    expect(numbers[UART_DONE] > 300 && numbers[UART_BAD_RECORD] > 300 && numbers[UART_NO_ROOM] > 100,
           "how often each number is drawn");
}

int main(void)
{
    check_rooms();
    check_bad_records();
    check_versions();
    check_malformed();
    check_bytes_seen();
    check_drawn();
    puts(wrong ? "expected: differs" : "expected: ok");
    return wrong ? EXIT_FAILURE : EXIT_SUCCESS;
}
