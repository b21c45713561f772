/*
 * The recorder's records: what is a good one, what the model makes of it. Written
 * from document 02, request a.
 */
#ifndef RECORD_H
#define RECORD_H

#include "model.h"

/* Bits 31..28 of a record. */
#define KIND_TICKS 0u
#define KIND_READ 1u
#define KIND_WRITE 2u
#define KIND_SIN 3u
#define KIND_MODEM 4u
#define KIND_RESET 5u
#define KIND_SHIFT 28
#define KIND_MASK 0xF0000000u

#define ADDRESS_SHIFT 8
#define ADDRESS_MASK 7u
#define BYTE_MASK 0xFFu

static inline uint32_t kind_of(uint32_t record)
{
    return record >> KIND_SHIFT;
}

static inline uint32_t address_of(uint32_t record)
{
    return (record >> ADDRESS_SHIFT) & ADDRESS_MASK;
}

static inline uint32_t byte_of(uint32_t record)
{
    return record & BYTE_MASK;
}

/* A known kind, and no bit set beside the kind's fields. */
static inline bool record_is_good(uint32_t record)
{
    static const uint32_t fields[] = {
        [KIND_TICKS] = 0xFFFFu, [KIND_READ] = 0x7FFu, [KIND_WRITE] = 0x7FFu,
        [KIND_SIN] = 0x1u,      [KIND_MODEM] = 0xFu,  [KIND_RESET] = 0x0u,
    };

    return kind_of(record) <= KIND_RESET &&
           (record & ~(KIND_MASK | fields[kind_of(record)])) == 0u;
}

/* A good record as the model expects it: a read with the model's byte, any other as it stands. */
static inline uint32_t record_expected(const struct uart *u, uint32_t record)
{
    if (kind_of(record) != KIND_READ)
        return record;
    return (record & ~BYTE_MASK) | uart_peek(u, address_of(record));
}

/* The step of a record that the model expects. The field of ticks and pins is all but the kind. */
static inline void record_step(struct uart *u, uint32_t record)
{
    uint32_t field = record & ~KIND_MASK;

    if (kind_of(record) == KIND_READ) {
        uart_end_read(u, address_of(record), byte_of(record));
        return;
    }
    switch (kind_of(record)) {
    case KIND_TICKS:
        uart_do_ticks(u, field);
        break;
    case KIND_WRITE:
        uart_do_write(u, address_of(record), byte_of(record));
        break;
    case KIND_SIN:
        uart_do_sin(u, field);
        break;
    case KIND_MODEM:
        uart_do_modem(u, field);
        break;
    default:
        uart_do_reset(u);
        break;
    }
}

#endif
