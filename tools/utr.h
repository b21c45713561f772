/*
 * The recorder's file: the letters UTR and a zero byte, a 16-bit version, a 16-bit zero, then 32-bit
 * records, all little-endian. docs/CAPTURE.md has it bit by bit.
 */
#ifndef UTR_H
#define UTR_H

#include <stdbool.h>
#include <stddef.h>
#include <stdint.h>
#include <stdio.h>

#define UTR_HEADER_BYTES 8
#define UTR_RECORD_BYTES 4
#define UTR_VERSION 1
#define UTR_BLOCK 8192 /* records read at a time */

enum utr_kind { UTR_TICKS, UTR_READ, UTR_WRITE, UTR_SIN, UTR_MODEM, UTR_RESET, UTR_KINDS };

/* The numbers of a refused file or record. */
#define UTR_BAD_HEADER 6
#define UTR_UNKNOWN_VERSION 7
#define UTR_BAD_RECORD 8 /* also a file shorter than a header */

#define UTR_KIND_BIT 28 /* the lowest of a kind's bits */
#define UTR_MOST_FIELDS 2

/* A field of a record: its name in a listing, its largest value, its lowest bit. */
struct utr_field {
    const char *name;
    uint32_t most;
    unsigned shift;
};

/* A kind of record: its name in a listing, its fields in a listing's order, and their bits. */
struct utr_form {
    const char *name;
    unsigned bits; /* those from here up to the kind are zero */
    unsigned count;
    struct utr_field fields[UTR_MOST_FIELDS];
};

extern const struct utr_form utr_forms[UTR_KINDS];

/* The first bytes of a file: a header, or all of a file that is shorter. */
struct utr_header {
    uint8_t bytes[UTR_HEADER_BYTES];
    size_t count;
};

/* The last bytes of a file that are no whole record. */
struct utr_rest {
    uint8_t bytes[UTR_RECORD_BYTES];
    size_t count;
};

/* The header at the start of a file, and the number of its refusal, or 0. */
struct utr_header utr_read_header(FILE *in);
unsigned utr_header_number(const struct utr_header *header);

/* The next records; fewer than a block only at the end of the file, with the rest there. */
size_t utr_read_block(FILE *in, uint32_t words[UTR_BLOCK], struct utr_rest *rest);

void utr_write_header(FILE *out);
void utr_write_word(FILE *out, uint32_t word);

/* A record's kind, good or not; whether it is good; of a good one, a field's value. */
unsigned utr_kind(uint32_t word);
bool utr_good(uint32_t word);
uint32_t utr_field(uint32_t word, unsigned field);

/* A sentence, without a newline, about what is wrong with a refused header, record or rest. */
void utr_tell_header(FILE *out, const struct utr_header *header);
void utr_tell_record(FILE *out, uint32_t word);
void utr_tell_rest(FILE *out, const struct utr_rest *rest);

#endif
