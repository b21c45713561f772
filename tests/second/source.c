/* Reading the recorder's file, written from document 02, request a. */
#include "source.h"
#include "capture.h"
#include "stream.h"

#include <fcntl.h>
#include <string.h>
#include <unistd.h>

bool source_open(struct source *source, const char *program, const char *name)
{
    bool standard = strcmp(name, "-") == 0;

    source->program = program;
    source->name = standard ? STANDARD_INPUT : name;
    source->fd = standard ? STDIN_FILENO : open(name, O_RDONLY);
    source->failed = source->fd < 0 && !stream_trouble(program, source->name);
    return !source->failed;
}

void source_close(struct source *source)
{
    if (source->fd > STDIN_FILENO)
        close(source->fd);
}

/* Reads until the buffer is full, the input ends or a read fails; returns the bytes read. */
static size_t fill(struct source *source, uint8_t *buffer, size_t size)
{
    size_t used = 0;
    ssize_t n = 0;

    while (used < size && (n = stream_read(source->fd, buffer + used, size - used)) > 0)
        used += (size_t)n;
    source->failed = n < 0 && !stream_trouble(source->program, source->name);
    return used;
}

static inline uint32_t word_at(const uint8_t *b)
{
    return (uint32_t)b[0] | (uint32_t)b[1] << 8 | (uint32_t)b[2] << 16 | (uint32_t)b[3] << 24;
}

/* The letters UTR, a zero byte, the version, a zero of 16 bits. */
static uint32_t header_number(const uint8_t *header, size_t bytes)
{
    if (bytes < SOURCE_HEADER_BYTES)
        return CAPTURE_BAD_RECORD;
    if (header[0] != 'U' || header[1] != 'T' || header[2] != 'R' || header[3] != 0u ||
        header[6] != 0u || header[7] != 0u)
        return CAPTURE_BAD_MARK;
    if ((header[4] | header[5] << 8) != CAPTURE_VERSION)
        return CAPTURE_BAD_VERSION;
    return UART_DONE;
}

uint32_t source_header(struct source *source, uint8_t header[SOURCE_HEADER_BYTES])
{
    return header_number(header, fill(source, header, SOURCE_HEADER_BYTES));
}

void source_next(struct source *source, struct source_block *block)
{
    static uint8_t bytes[SOURCE_BLOCK_RECORDS * SOURCE_RECORD_BYTES];
    size_t used = fill(source, bytes, sizeof bytes);

    block->count = used / SOURCE_RECORD_BYTES;
    block->left = used % SOURCE_RECORD_BYTES;
    block->last = used < sizeof bytes;
    for (size_t i = 0; i < block->count; i++)
        block->records[i] = word_at(bytes + i * SOURCE_RECORD_BYTES);
}
