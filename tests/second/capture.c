/*
 * Replay of captures, written from document 02, request a.
 */
#include "capture.h"
#include "record.h"

#include <inttypes.h>
#include <stdio.h>

static struct replay_answer differs(uint64_t place, uint32_t seen, uint32_t model)
{
    struct replay_answer answer = { REPLAY_DIFFERS, 0u, 0u, place, seen, model };

    return answer;
}

struct replay_answer replay_refused(uint32_t number, uint64_t place)
{
    struct replay_answer answer = { REPLAY_REFUSED, number, 0u, place, 0u, 0u };

    return answer;
}

static struct replay_answer malformed(uint32_t part)
{
    struct replay_answer answer = replay_refused(UART_MALFORMED, 0u);

    answer.part = part;
    return answer;
}

struct replay_answer replay_records(struct uart *u, const uint32_t *records, size_t count)
{
    static const struct replay_answer agreed = { REPLAY_AGREED, 0u, 0u, 0u, 0u, 0u };

    for (size_t i = 0; i < count; i++) {
        uint32_t record = records[i];
        uint32_t expected;

        if (!record_is_good(record))
            return replay_refused(CAPTURE_BAD_RECORD, i);
        expected = record_expected(u, record);
        if (record != expected)
            return differs(i, byte_of(record), byte_of(expected));
        record_step(u, record);
    }
    return agreed;
}

struct replay_answer replay(struct uart *u, uint32_t version, const uint32_t *records,
                            size_t count)
{
    if (!uart_well_formed(u))
        return malformed(uart_part(u));
    if (version != CAPTURE_VERSION)
        return replay_refused(CAPTURE_BAD_VERSION, 0u);
    return replay_records(u, records, count);
}

size_t replay_line(struct replay_answer answer, char line[REPLAY_LONGEST_LINE])
{
    int length;

    switch (answer.outcome) {
    case REPLAY_AGREED:
        length = snprintf(line, REPLAY_LONGEST_LINE, "agreed\n");
        break;
    case REPLAY_DIFFERS:
        length = snprintf(line, REPLAY_LONGEST_LINE,
                          "differs %" PRIu64 " %" PRIu32 " %" PRIu32 "\n", answer.place,
                          answer.seen, answer.model);
        break;
    default:
        length = snprintf(line, REPLAY_LONGEST_LINE, "refused %" PRIu32 " %" PRIu64 "\n",
                          answer.number, answer.place);
        break;
    }
    return (size_t)length;
}
