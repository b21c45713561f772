/*
 * The writer of the capture that is expected, written from document 02, request f.
 */
#include "expected.h"
#include "record.h"

struct expected_answer expected_records(struct uart *u, const uint32_t *records, size_t count,
                                        uint32_t *words, size_t room)
{
    struct expected_answer answer = { UART_DONE, UART_PART_NONE, 0 };

    while (answer.count < count) {
        uint32_t record = records[answer.count];

        if (!record_is_good(record)) {
            answer.number = CAPTURE_BAD_RECORD;
            break;
        }
        if (answer.count == room) {
            answer.number = EXPECTED_NO_WORD;
            break;
        }
        record = record_expected(u, record);
        words[answer.count++] = record;
        record_step(u, record);
    }
    return answer;
}

struct expected_answer expected(struct uart *u, uint32_t version, const uint32_t *records,
                                size_t count, uint32_t *words, size_t room)
{
    struct expected_answer malformed = { UART_MALFORMED, uart_part(u), 0 };
    struct expected_answer unknown = { CAPTURE_BAD_VERSION, UART_PART_NONE, 0 };

    if (malformed.part != UART_PART_NONE)
        return malformed;
    if (version != CAPTURE_VERSION)
        return unknown;
    return expected_records(u, records, count, words, room);
}
