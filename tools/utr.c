#include "utr.h"

#include <inttypes.h>
#include <string.h>

#define ADDRESS {"address", 7, 8}
#define BYTE {"byte", 255, 0}

const struct utr_form utr_forms[UTR_KINDS] = {
    [UTR_TICKS] = {"ticks", 16, 1, {{"count", 65535, 0}}},
    [UTR_READ] = {"read", 11, 2, {ADDRESS, BYTE}},
    [UTR_WRITE] = {"write", 11, 2, {ADDRESS, BYTE}},
    [UTR_SIN] = {"sin", 1, 1, {{"level", 1, 0}}},
    [UTR_MODEM] = {"modem", 4, 1, {{"value", 15, 0}}},
    [UTR_RESET] = {"reset", 0, 0, {{NULL, 0, 0}}},
};

#define VERSION_AT 4
#define PAD_AT 6

static const uint8_t mark[VERSION_AT] = {'U', 'T', 'R', 0};

struct utr_header utr_read_header(FILE *in)
{
    struct utr_header header = {{0}, 0};

    header.count = fread(header.bytes, 1, sizeof header.bytes, in);
    return header;
}

static unsigned version_of(const struct utr_header *header)
{
    return header->bytes[VERSION_AT] | (unsigned)header->bytes[VERSION_AT + 1] << 8;
}

static bool marked(const struct utr_header *header)
{
    return memcmp(header->bytes, mark, sizeof mark) == 0;
}

unsigned utr_header_number(const struct utr_header *header)
{
    if (header->count < UTR_HEADER_BYTES)
        return UTR_BAD_RECORD;
    if (!marked(header) || header->bytes[PAD_AT] != 0 || header->bytes[PAD_AT + 1] != 0)
        return UTR_BAD_HEADER;
    return version_of(header) == UTR_VERSION ? 0 : UTR_UNKNOWN_VERSION;
}

static uint32_t word_at(const uint8_t *b)
{
    return b[0] | (uint32_t)b[1] << 8 | (uint32_t)b[2] << 16 | (uint32_t)b[3] << 24;
}

size_t utr_read_block(FILE *in, uint32_t words[UTR_BLOCK], struct utr_rest *rest)
{
    static uint8_t bytes[UTR_BLOCK * UTR_RECORD_BYTES];
    size_t got = fread(bytes, 1, sizeof bytes, in);
    size_t count = got / UTR_RECORD_BYTES;

    for (size_t i = 0; i < count; i++)
        words[i] = word_at(bytes + i * UTR_RECORD_BYTES);
    rest->count = got % UTR_RECORD_BYTES;
    memcpy(rest->bytes, bytes + count * UTR_RECORD_BYTES, rest->count);
    return count;
}

void utr_write_header(FILE *out)
{
    const uint8_t rest[] = {UTR_VERSION, 0, 0, 0};

    fwrite(mark, 1, sizeof mark, out);
    fwrite(rest, 1, sizeof rest, out);
}

void utr_write_word(FILE *out, uint32_t word)
{
    const uint8_t bytes[UTR_RECORD_BYTES] = {(uint8_t)word, (uint8_t)(word >> 8),
                                             (uint8_t)(word >> 16), (uint8_t)(word >> 24)};

    fwrite(bytes, 1, sizeof bytes, out);
}

unsigned utr_kind(uint32_t word)
{
    return word >> UTR_KIND_BIT;
}

/* The bits of a record of a known kind that must be zero. */
static uint32_t stray_bits(uint32_t word)
{
    uint32_t body = word & ((UINT32_C(1) << UTR_KIND_BIT) - 1);
    unsigned bits = utr_forms[utr_kind(word)].bits;

    return body >> bits << bits;
}

bool utr_good(uint32_t word)
{
    return utr_kind(word) < UTR_KINDS && stray_bits(word) == 0;
}

uint32_t utr_field(uint32_t word, unsigned field)
{
    const struct utr_field *f = &utr_forms[utr_kind(word)].fields[field];

    return word >> f->shift & f->most;
}

static void tell_bytes(FILE *out, const uint8_t *bytes, size_t count)
{
    for (size_t i = 0; i < count; i++)
        fprintf(out, " %02X", (unsigned)bytes[i]);
}

void utr_tell_header(FILE *out, const struct utr_header *header)
{
    if (header->count < UTR_HEADER_BYTES) {
        fprintf(out, "the file has %zu of a header's %d bytes", header->count, UTR_HEADER_BYTES);
    } else if (!marked(header)) {
        fputs("the file starts with", out);
        tell_bytes(out, header->bytes, sizeof mark);
        fputs(" hex; a capture starts with", out);
        tell_bytes(out, mark, sizeof mark);
        fputs(", the letters UTR and a zero byte", out);
    } else if (utr_header_number(header) == UTR_BAD_HEADER) {
        fputs("bytes 6 and 7 of the file are", out);
        tell_bytes(out, header->bytes + PAD_AT, UTR_HEADER_BYTES - PAD_AT);
        fputs(" hex; in a capture they are zero", out);
    } else {
        fprintf(out, "the file says version %u; the known version is %d", version_of(header),
                UTR_VERSION);
    }
}

void utr_tell_record(FILE *out, uint32_t word)
{
    fprintf(out, "bad record %08" PRIX32 ": ", word);
    if (utr_kind(word) >= UTR_KINDS) {
        fprintf(out, "kind %u, and kinds are 0 to %d", utr_kind(word), UTR_KINDS - 1);
    } else {
        const struct utr_form *form = &utr_forms[utr_kind(word)];

        fprintf(out, "kind %u (%s) with stray bits %08" PRIX32 ", where bits %u to %d are zero",
                utr_kind(word), form->name, stray_bits(word), form->bits, UTR_KIND_BIT - 1);
    }
}

void utr_tell_rest(FILE *out, const struct utr_rest *rest)
{
    fprintf(out, "%zu of a record's %d bytes are left at the end:", rest->count, UTR_RECORD_BYTES);
    tell_bytes(out, rest->bytes, rest->count);
}
