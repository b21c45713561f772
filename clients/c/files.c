/*
 * files FILE..: how the replay of each capture ends, a line for each, as the program `replay` tells it.
 * A file read from the disk, the same in memory, and the same in parts of every odd size up to 21 bytes
 * must answer alike, and tell of as many records.
 */
#include "tl16c750.h"

#include <stdio.h>
#include <stdlib.h>
#include <string.h>

#define MOST_BYTES (1 << 20)

struct told {
    size_t records;
    size_t bytes;
    size_t of;
};

static uint8_t bytes[MOST_BYTES];

static void told(void *context, size_t records, size_t got, size_t of)
{
    struct told *last = (struct told *)context;

    last->records = records;
    last->bytes = got;
    last->of = of;
}

/* Whether the last that was told are the records before the place, or all of a file that agrees. */
static int told_right(const struct told *last, const struct uart_values *v, size_t count)
{
    int agreed = v->number == UART_DONE && v->seen == v->model;

    return last->records == (agreed ? (count - UART_HEADER_BYTES) / 4 : v->place) &&
           last->bytes <= count && last->of == count;
}

static int same(struct uart_replayed a, struct uart_replayed b)
{
    return a.values.number == b.values.number && a.values.part == b.values.part &&
           a.values.seen == b.values.seen && a.values.model == b.values.model &&
           a.values.place == b.values.place && uart_equal(&a.state, &b.state);
}

/* The answer where the bytes come `size` at a time. */
static struct uart_replayed in_parts(size_t count, size_t size)
{
    size_t at = count < UART_HEADER_BYTES ? count : UART_HEADER_BYTES;
    struct uart_progress p = uart_replay_begin(bytes, at);

    for (; count - at >= size; at += size / 4 * 4)
        p = uart_replay_more(p, bytes + at, size);
    return uart_replay_end(p, bytes + at, count - at);
}

static void print(struct uart_values v)
{
    if (v.number != UART_DONE)
        printf("refused %d %zu\n", v.number, v.place);
    else if (v.seen != v.model)
        printf("differs %zu %d %d\n", v.place, v.seen, v.model);
    else
        printf("agreed\n");
}

static int replay(const char *path)
{
    FILE *file = fopen(path, "rb");
    struct uart_replayed answer;
    struct told last = {0, 0, 0};
    size_t count;

    if (file == NULL || uart_replay_file(file, &answer, told, &last) != 0)
        return -1;
    rewind(file);
    count = fread(bytes, 1, sizeof bytes, file);
    fclose(file);
    print(answer.values);
    if (!told_right(&last, &answer.values, count))
        return -1;
    for (size_t size = 5; size <= 21; size += 2)
        if (!same(answer, in_parts(count, size)))
            return -1;
    if (!same(answer, uart_replay_bytes(bytes, count)) ||
        !same(answer, uart_replay_bytes_telling(bytes, count, told, &last)))
        return -1;
    return told_right(&last, &answer.values, count) ? 0 : -1;
}

int main(int argc, char **argv)
{
    for (int i = 1; i < argc; i++)
        if (replay(argv[i]) != 0) {
            fprintf(stderr, "files: %s: cannot be read, or its parts answer otherwise\n", argv[i]);
            return EXIT_FAILURE;
        }
    return EXIT_SUCCESS;
}
