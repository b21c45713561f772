/*
 * A model of one TL16C750 UART: its bus, serial line, modem pins and clock.
 * Written from document 01, with document 02's requests b and c; the section names
 * in the comments are document 01's own.
 */
#ifndef MODEL_H
#define MODEL_H

#include <stdbool.h>
#include <stdint.h>

#define UART_QUEUE_PLACES 64u
#define UART_STATE_PLACES 351u

/* "Numbers answered". */
#define UART_DONE 0u
#define UART_MALFORMED 1u
#define UART_BAD_ADDRESS 2u
#define UART_BAD_LEVEL 3u
#define UART_NO_CLOCK 4u
#define UART_HELD 5u

/* The parts of a state, for the one that breaks a range (document 02, request b). */
#define UART_PART_NONE 0u
#define UART_PART_REGISTERS 1u /* registers, divisor, k */
#define UART_PART_FIFO 2u      /* FIFO settings and pins */
#define UART_PART_TRANSMIT 3u  /* transmit queue and frame */
#define UART_PART_RECEIVE 4u   /* receive queue, receiver, kept errors */
#define UART_PART_LATCHES 5u   /* latches, OE, idle count, change bits, hold */

/* What the receiver is doing. */
#define UART_RX_IDLE 0u
#define UART_RX_WAIT_MARK 1u
#define UART_RX_CHARACTER 2u

/* The errors of received characters. */
struct uart_errors {
    uint32_t pe;
    uint32_t fe;
    uint32_t bi;
};

/* One entry of the receive queue: a byte and, with FIFO on, the errors that came with it. */
struct uart_entry {
    uint32_t byte;
    struct uart_errors errors;
};

/*
 * "The state". Every place is 32 bits wide, so that numbers out of range can be
 * held and refused. The order of the places is that of the text protocol.
 */
struct uart {
    uint32_t ier;
    uint32_t mcr;
    uint32_t lcr;
    uint32_t scr;
    uint32_t divisor;
    uint32_t k; /* ticks to the next pulse */

    uint32_t fifo_on;
    uint32_t size64;
    uint32_t dma;
    uint32_t trigger_code;
    uint32_t modem_pins; /* bits 0..3: CTS, DSR, RI, DCD asserted */
    uint32_t sin;

    /* Transmit FIFO, or the holding register in character mode; oldest first. */
    uint32_t tx_count;
    uint32_t tx_queue[UART_QUEUE_PLACES];

    /* Transmit shift register: the frame now sent. */
    uint32_t frame_left; /* L, pulses left of it */
    uint32_t frame_byte;
    uint32_t frame_format; /* bits 0..5 of LCR when it was loaded */

    /* Receive FIFO, or the buffer register in character mode; oldest first. */
    uint32_t rx_count;
    struct uart_entry rx_queue[UART_QUEUE_PLACES];

    /* Receive shift register: the character now received. */
    uint32_t rx_state;
    uint32_t rx_position; /* P */
    uint32_t rx_format;
    uint32_t rx_data;   /* data samples taken so far, bit 0 first */
    uint32_t rx_parity; /* parity sample */

    uint32_t tx_empty_latch;
    uint32_t overrun; /* OE */
    uint32_t timeout_latch;
    uint32_t idle_count;
    uint32_t changes; /* bits 0..3: changes of CTS, DSR, RI, DCD */
    uint32_t rts_hold;

    /* Character mode's errors, kept apart from the byte (document 02, request c). */
    struct uart_errors kept;
};

/* SOUT and INTRPT: 1 is high. The others: 1 is asserted. */
struct uart_pins {
    uint32_t sout;
    uint32_t rts;
    uint32_t dtr;
    uint32_t out1;
    uint32_t out2;
    uint32_t intrpt;
};

/*
 * The answer of a step: the number, the byte read, the pins after the step. The
 * part, here and below, is the bad one beside number 1, and 0 beside every other.
 */
struct uart_answer {
    uint32_t number;
    uint32_t part;
    uint32_t byte;
    struct uart_pins pins;
};

/* The answer of forecast (T), level (the level) and run (the ticks used). */
struct uart_value {
    uint32_t number;
    uint32_t part;
    uint32_t value;
};

/*
 * The steps without their checks, for a caller who has checked the state and the
 * arguments: each leaves a well-formed state well formed. A read is two of them:
 * the byte it gives, and what giving it changes.
 */
void uart_fresh(struct uart *u);
void uart_do_reset(struct uart *u);
uint32_t uart_peek(const struct uart *u, uint32_t address);
void uart_end_read(struct uart *u, uint32_t address, uint32_t byte);
void uart_do_write(struct uart *u, uint32_t address, uint32_t byte);
void uart_do_sin(struct uart *u, uint32_t level);
void uart_do_modem(struct uart *u, uint32_t pins);
void uart_do_ticks(struct uart *u, uint32_t count);

/*
 * The lowest part of a state that breaks a range of document 01, section "The
 * state", or of request c, or 0. A range that joins two parts counts for the later one.
 */
uint32_t uart_part(const struct uart *u);

/* Whether a state obeys every range: no part is bad. */
bool uart_well_formed(const struct uart *u);

/*
 * The calls. Each first checks the state and its arguments; on a refusal the
 * state stays as it was and the other results are 0.
 */
struct uart_answer uart_reset(struct uart *u);
struct uart_answer uart_read(struct uart *u, uint32_t address);
struct uart_answer uart_write(struct uart *u, uint32_t address, uint8_t byte);
struct uart_answer uart_set_sin(struct uart *u, uint32_t level);
struct uart_answer uart_set_modem(struct uart *u, uint32_t pins);
struct uart_answer uart_tick(struct uart *u);
struct uart_answer uart_ticks(struct uart *u, uint32_t count);
struct uart_answer uart_look(const struct uart *u); /* the pins as they are */

struct uart_value uart_forecast(const struct uart *u);
struct uart_value uart_level(const struct uart *u, uint32_t t);
struct uart_value uart_run(struct uart *u, uint32_t most);

#endif
