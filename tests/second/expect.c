/*
 * expect: a capture, from a file or from standard input, 8,192 records at a time,
 * written to standard output as the model expects it from the fresh state: the header
 * as read, the records as they stand, reads with the model's byte. The number of a
 * refusal goes to standard error.
 */
#include "arguments.h"
#include "expected.h"
#include "source.h"
#include "stream.h"

#include <inttypes.h>
#include <stdio.h>
#include <stdlib.h>

static const char help[] =
    "usage: expect [--help] [FILE]\n"
    "\n"
    "Writes the capture FILE, standard input where there is none or for -, to standard output\n"
    "as the model expects it: the header as read, then the records, each read with the byte\n"
    "that the model answers in place of the byte seen.\n"
    "\n"
    "The number of a refusal goes to standard error:\n"
    "\n"
    "6    no capture, and nothing is written\n"
    "7    unknown version, and nothing is written\n"
    "8    bad record, or cut off; what stands before it is written\n"
    "\n"
    "The exit status is 0 whatever the answer is, or 2 where an argument is unknown, there is\n"
    "more than one FILE, or reading or writing failed: then standard error says so.\n";

static bool write_bytes(struct source *source, const uint8_t *bytes, size_t length)
{
    return stream_write((const char *)bytes, length) ||
           stream_trouble(source->program, STANDARD_OUTPUT);
}

static bool write_words(struct source *source, const uint32_t *words, size_t count)
{
    static uint8_t bytes[SOURCE_BLOCK_RECORDS * SOURCE_RECORD_BYTES];

    for (size_t i = 0; i < count * SOURCE_RECORD_BYTES; i++)
        bytes[i] = (uint8_t)(words[i / SOURCE_RECORD_BYTES] >> 8 * (i % SOURCE_RECORD_BYTES));
    return write_bytes(source, bytes, count * SOURCE_RECORD_BYTES);
}

/*
 * The blocks after the header; answers the number of a refusal in its place. Bytes left
 * over are a bad record. False where reading or writing failed.
 */
static bool expect_blocks(struct source *source, uint32_t *number)
{
    static struct source_block block;
    static uint32_t words[SOURCE_BLOCK_RECORDS];
    struct expected_answer answer;
    struct uart u;

    uart_fresh(&u);
    do {
        source_next(source, &block);
        if (source->failed)
            return false;
        answer = expected_records(&u, block.records, block.count, words, SOURCE_BLOCK_RECORDS);
        if (answer.number == UART_DONE && block.left != 0u)
            answer.number = CAPTURE_BAD_RECORD;
        if (!write_words(source, words, answer.count))
            return false;
    } while (answer.number == UART_DONE && !block.last);
    *number = answer.number;
    return true;
}

/* Writes what is expected of an open capture, then the number of a refusal. */
static bool expect_open(struct source *source)
{
    uint8_t header[SOURCE_HEADER_BYTES];
    uint32_t number = source_header(source, header);

    if (source->failed)
        return false;
    if (number == UART_DONE && !(write_bytes(source, header, sizeof header) &&
                                 expect_blocks(source, &number)))
        return false;
    if (number != UART_DONE)
        fprintf(stderr, "%" PRIu32 "\n", number);
    return true;
}

int main(int argc, char **argv)
{
    struct source source;

    arguments_take("expect", argc, argv, true, help);
    if (argc > 2) {
        fprintf(stderr, "expect: one capture at a time\n%s", help);
        return EXIT_TROUBLE;
    }
    if (!source_open(&source, "expect", argc < 2 ? "-" : argv[1]) || !expect_open(&source))
        return EXIT_TROUBLE;
    source_close(&source);
    return EXIT_SUCCESS;
}
