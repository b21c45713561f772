/*
 * expected_files FILE..: the file that is expected of each capture to standard output, and the number of
 * a refusal to standard error, as the program `expect` writes them. A file read from the disk, the same in
 * memory, and the same in parts of every odd size up to 21 bytes must give the same bytes and end alike;
 * these must replay as agreed, with the same end state. The first one's header must be a good one.
 */
#include "tl16c750.h"

#include <stdio.h>
#include <stdlib.h>
#include <string.h>

#define MOST_BYTES (1 << 20)

/* The bytes of a file, and how it ended. */
struct written {
    size_t count;
    uint8_t bytes[MOST_BYTES];
    struct uart_expect_progress answer;
};

static struct written given;
static struct written by_file;
static struct written in_memory;
static struct written by_parts;

static void told(void *context, size_t records, size_t bytes, size_t of)
{
    size_t *last = (size_t *)context;

    *last = bytes <= of && of == given.count ? records : (size_t)-1;
}

static int same(const struct written *a, const struct written *b)
{
    return a->count == b->count && memcmp(a->bytes, b->bytes, a->count) == 0 &&
           a->answer.number == b->answer.number && a->answer.part == b->answer.part &&
           a->answer.count == b->answer.count && uart_equal(&a->answer.state, &b->answer.state);
}

/* The file as it is read, and what uart_expect_file writes of it. */
static int write_by_file(const char *path)
{
    FILE *in = fopen(path, "rb");
    FILE *out = tmpfile();
    size_t last = 0;

    if (in == NULL || out == NULL)
        return -1;
    given.count = fread(given.bytes, 1, MOST_BYTES, in);
    rewind(in);
    if (uart_expect_file(in, out, &by_file.answer, told, &last) != 0 || last != by_file.answer.count)
        return -1;
    rewind(out);
    by_file.count = fread(by_file.bytes, 1, MOST_BYTES, out);
    fclose(in);
    fclose(out);
    return 0;
}

/* In place; the bytes beyond those written stay as they were. */
static int write_in_memory(void)
{
    memcpy(in_memory.bytes, given.bytes, given.count);
    in_memory.count = uart_expect_bytes(in_memory.bytes, given.count, &in_memory.answer);
    return memcmp(in_memory.bytes + in_memory.count, given.bytes + in_memory.count,
                  given.count - in_memory.count) == 0
               ? 0
               : -1;
}

/* Where the bytes come `size` at a time. */
static void write_by_parts(size_t size)
{
    size_t at = given.count < UART_HEADER_BYTES ? given.count : UART_HEADER_BYTES;
    size_t records = 0;
    struct uart_expect_progress p = uart_expect_begin(given.bytes, at);

    memcpy(by_parts.bytes, given.bytes, given.count);
    by_parts.count = p.number == UART_DONE ? UART_HEADER_BYTES : 0;
    for (; given.count - at >= size; at += size / UART_RECORD_BYTES * UART_RECORD_BYTES) {
        p = uart_expect_more(p, by_parts.bytes + at, size);
        records += p.count;
    }
    p = uart_expect_end(p, by_parts.bytes + at, given.count - at);
    records += p.count;
    by_parts.answer = p;
    by_parts.answer.count = records;
    by_parts.count += UART_RECORD_BYTES * records;
}

/* Whether a file agrees, and ends in the same state; nothing is written where the header is refused. */
static int agrees(const struct written *w)
{
    struct uart_replayed r = uart_replay_bytes(w->bytes, w->count);

    return w->count == 0 ? w->answer.number != UART_DONE
                         : r.values.number == UART_DONE && r.values.seen == r.values.model &&
                               uart_equal(&r.state, &w->answer.state);
}

static int write_expected(const char *path)
{
    if (write_by_file(path) != 0 || write_in_memory() != 0)
        return -1;
    if (!same(&by_file, &in_memory) || !agrees(&by_file))
        return -1;
    for (size_t size = 5; size <= 21; size += 2) {
        write_by_parts(size);
        if (!same(&by_file, &by_parts))
            return -1;
    }
    fwrite(by_file.bytes, 1, by_file.count, stdout);
    if (by_file.answer.number != UART_DONE)
        fprintf(stderr, "%d\n", by_file.answer.number);
    return 0;
}

/* Where reading or writing fails it is told; a refused file that has no end is read no further. */
static int ends_are_told(const char *path)
{
    FILE *in = fopen(path, "rb");
    FILE *full = fopen("/dev/full", "wb");
    FILE *null = fopen("/dev/null", "wb");
    FILE *zero = fopen("/dev/zero", "rb");
    int right;

    if (in == NULL || full == NULL || null == NULL || zero == NULL)
        return 0;
    right = uart_expect_file(in, full, &by_file.answer, NULL, NULL) == -1 &&
            uart_expect_file(null, null, &by_file.answer, NULL, NULL) == -1 &&
            uart_expect_file(zero, null, &by_file.answer, NULL, NULL) == 0 &&
            by_file.answer.number == UART_BAD_HEADER;
    fclose(in);
    fclose(full);
    fclose(null);
    fclose(zero);
    return right;
}

int main(int argc, char **argv)
{
    if (argc > 1 && !ends_are_told(argv[1])) {
        fputs("expected_files: a failure to read or write, or a bad header, is not told\n", stderr);
        return EXIT_FAILURE;
    }
    for (int i = 1; i < argc; i++)
        if (write_expected(argv[i]) != 0) {
            fprintf(stderr, "expected_files: %s: cannot be read, or its parts are written otherwise\n",
                    argv[i]);
            return EXIT_FAILURE;
        }
    return EXIT_SUCCESS;
}
