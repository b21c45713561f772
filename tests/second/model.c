/*
 * A model of one TL16C750 UART, written from document 01; from document 02 the
 * parts of a state (request b) and the errors kept in character mode (request c).
 * (h) marks house rules, as in document 01.
 */
#include "model.h"

#include <string.h>

/* Register addresses. */
#define ADDR_DATA 0u /* RBR and THR, or divisor low with LCR7 */
#define ADDR_IER 1u  /* or divisor high with LCR7 */
#define ADDR_IIR_FCR 2u
#define ADDR_LCR 3u
#define ADDR_MCR 4u
#define ADDR_LSR 5u
#define ADDR_MSR 6u
#define ADDR_SCR 7u
#define ADDR_LAST 7u

#define IER_RX_DATA 0x01u
#define IER_TX_EMPTY 0x02u
#define IER_LINE_STATUS 0x04u
#define IER_MODEM 0x08u
#define IER_MASK 0x3Fu

#define IIR_MODEM 0x00u
#define IIR_NONE 0x01u
#define IIR_TX_EMPTY 0x02u
#define IIR_RX_DATA 0x04u
#define IIR_LINE_STATUS 0x06u
#define IIR_TIMEOUT 0x0Cu
#define IIR_CODE 0x0Fu
#define IIR_SIZE64 0x20u
#define IIR_FIFO_ON 0xC0u

#define FCR_FIFO_ON 0x01u
#define FCR_CLEAR_RX 0x02u
#define FCR_CLEAR_TX 0x04u
#define FCR_DMA 0x08u
#define FCR_SIZE64 0x20u
#define FCR_TRIGGER_SHIFT 6

#define LCR_WIDTH 0x03u
#define LCR_STOP 0x04u
#define LCR_PARITY 0x08u
#define LCR_EVEN 0x10u
#define LCR_STICK 0x20u
#define LCR_BREAK 0x40u
#define LCR_DIVISOR 0x80u
#define FORMAT_MASK 0x3Fu

#define MCR_DTR 0x01u
#define MCR_RTS 0x02u
#define MCR_OUT1 0x04u
#define MCR_OUT2 0x08u
#define MCR_LOOP 0x10u
#define MCR_AUTOFLOW 0x20u
#define MCR_MASK 0x3Fu

#define LSR_DATA 0x01u
#define LSR_OE 0x02u
#define LSR_PE 0x04u
#define LSR_FE 0x08u
#define LSR_BI 0x10u
#define LSR_TX_QUEUE_EMPTY 0x20u
#define LSR_TX_EMPTY 0x40u
#define LSR_FIFO_ERROR 0x80u

#define MODEM_CTS 0x01u
#define MODEM_DSR 0x02u
#define MODEM_RI 0x04u
#define MODEM_DCD 0x08u
#define MODEM_MASK 0x0Fu
#define MSR_LEVEL_SHIFT 4

#define PULSES_PER_BIT 16u
#define FIRST_SAMPLE 8u /* middle of the start bit */
#define LONGEST_FRAME 192u
#define IDLE_LIMIT 769u

_Static_assert(sizeof(struct uart) == UART_STATE_PLACES * sizeof(uint32_t),
               "the state is its numbers without gaps");

/* ---- Formats and frames ("A tick") ---- */

/* Five to eight data bits. */
static inline uint32_t data_bits(uint32_t format)
{
    return 5u + (format & LCR_WIDTH);
}

static inline uint32_t data_mask(uint32_t format)
{
    return (1u << data_bits(format)) - 1u;
}

static inline uint32_t parity_bits(uint32_t format)
{
    return (format & LCR_PARITY) != 0u ? 1u : 0u;
}

/* Stop pulses: 16, or with LCR2 24 for five bits and 32 otherwise. */
static inline uint32_t stop_pulses(uint32_t format)
{
    if ((format & LCR_STOP) == 0u)
        return 16u;
    return data_bits(format) == 5u ? 24u : 32u;
}

/* F = 16 x (1 + data bits + parity bit) + stop pulses. */
static inline uint32_t frame_length(uint32_t format)
{
    return PULSES_PER_BIT * (1u + data_bits(format) + parity_bits(format)) +
           stop_pulses(format);
}

static inline uint32_t ones_are_odd(uint32_t byte)
{
    byte ^= byte >> 4;
    byte ^= byte >> 2;
    byte ^= byte >> 1;
    return byte & 1u;
}

/*
 * The parity bit of a character: an even number of ones with LCR4, else odd;
 * with LCR5 the bit is the opposite of LCR4. Bits above the width don't count.
 */
static uint32_t parity_bit(uint32_t byte, uint32_t format)
{
    uint32_t even = (format & LCR_EVEN) != 0u ? 1u : 0u;

    if ((format & LCR_STICK) != 0u)
        return even ^ 1u;
    return ones_are_odd(byte & data_mask(format)) ^ even ^ 1u;
}

/*
 * The level of a frame at a place counted from 0: low for the start bit, then
 * data from bit 0, parity, stop high; 16 pulses a bit.
 */
static uint32_t frame_level(uint32_t byte, uint32_t format, uint32_t place)
{
    uint32_t bit = place / PULSES_PER_BIT;
    uint32_t width = data_bits(format);

    if (bit == 0u)
        return 0u;
    if (bit <= width)
        return (byte >> (bit - 1u)) & 1u;
    if (bit == width + 1u && parity_bits(format) != 0u)
        return parity_bit(byte, format);
    return 1u;
}

/* ---- Facts about a state ---- */

/* Capacity is 1 with FIFO off (character mode), else 16 or 64. */
static inline uint32_t capacity(const struct uart *u)
{
    if (u->fifo_on == 0u)
        return 1u;
    return u->size64 != 0u ? 64u : 16u;
}

/* Trigger: 1, 4, 8, 14 at size 16; 1, 16, 32, 56 at size 64. */
static inline uint32_t trigger_level(const struct uart *u)
{
    static const uint32_t levels[2][4] = { { 1u, 4u, 8u, 14u },
                                           { 1u, 16u, 32u, 56u } };

    return levels[u->size64][u->trigger_code];
}

/* Autoflow is on when MCR5 and FIFO are both on. */
static inline bool autoflow(const struct uart *u)
{
    return (u->mcr & MCR_AUTOFLOW) != 0u && u->fifo_on != 0u;
}

/* Auto-RTS needs MCR1 too. */
static inline bool auto_rts(const struct uart *u)
{
    return autoflow(u) && (u->mcr & MCR_RTS) != 0u;
}

static inline bool loopback(const struct uart *u)
{
    return (u->mcr & MCR_LOOP) != 0u;
}

/* "Loopback": effective CTS, DSR, RI, DCD are MCR1, MCR0, MCR2, MCR3, else the pins. */
static inline uint32_t effective_modem(const struct uart *u)
{
    uint32_t levels = 0u;

    if (!loopback(u))
        return u->modem_pins;
    if ((u->mcr & MCR_RTS) != 0u)
        levels |= MODEM_CTS;
    if ((u->mcr & MCR_DTR) != 0u)
        levels |= MODEM_DSR;
    if ((u->mcr & MCR_OUT1) != 0u)
        levels |= MODEM_RI;
    if ((u->mcr & MCR_OUT2) != 0u)
        levels |= MODEM_DCD;
    return levels;
}

/* Held: autoflow on and effective CTS 0. */
static inline bool held(const struct uart *u)
{
    return autoflow(u) && (effective_modem(u) & MODEM_CTS) == 0u;
}

/* The divisor latch access bit chooses what stands at addresses 0 and 1. */
static inline bool divisor_access(const struct uart *u)
{
    return (u->lcr & LCR_DIVISOR) != 0u;
}

/* LSR6: transmit queue and shift register both empty. */
static inline bool transmitter_empty(const struct uart *u)
{
    return u->tx_count == 0u && u->frame_left == 0u;
}

/*
 * "Forecast and run": the transmitter's line has the first of the last L levels
 * of the current frame, or high if L = 0.
 */
static inline uint32_t transmitter_line(const struct uart *u)
{
    if (u->frame_left == 0u)
        return 1u;
    return frame_level(u->frame_byte, u->frame_format,
                       frame_length(u->frame_format) - u->frame_left);
}

static const struct uart_errors no_errors;

/* The three or-ed together: 0 where there is no error. */
static inline uint32_t any_error(const struct uart_errors *e)
{
    return e->pe | e->fe | e->bi;
}

/* What LSR and interrupt 06 follow: the oldest entry's errors, in character mode the kept ones. */
static inline const struct uart_errors *shown_errors(const struct uart *u)
{
    return u->fifo_on != 0u ? &u->rx_queue[0].errors : &u->kept;
}

/* ---- The ranges of a well-formed state ("The state") ---- */

static bool registers_in_range(const struct uart *u)
{
    return u->ier <= IER_MASK && u->mcr <= MCR_MASK && u->lcr <= 0xFFu && u->scr <= 0xFFu;
}

/* D 0..65535; k is 0 if D = 0, else 1..D. */
static bool clock_in_range(const struct uart *u)
{
    if (u->divisor > 0xFFFFu)
        return false;
    if (u->divisor == 0u)
        return u->k == 0u;
    return u->k >= 1u && u->k <= u->divisor;
}

static bool fifo_and_pins_in_range(const struct uart *u)
{
    return u->fifo_on <= 1u && u->size64 <= 1u && u->dma <= 1u && u->trigger_code <= 3u &&
           u->modem_pins <= MODEM_MASK && u->sin <= 1u;
}

/* Bytes up to the count, which is at most the capacity; zero beyond it. */
static bool transmit_queue_in_range(const struct uart *u)
{
    uint32_t used = 0u;
    uint32_t beyond = 0u;

    if (u->tx_count > capacity(u))
        return false;
    for (uint32_t i = 0u; i < u->tx_count; i++)
        used |= u->tx_queue[i];
    for (uint32_t i = u->tx_count; i < UART_QUEUE_PLACES; i++)
        beyond |= u->tx_queue[i];
    return used <= 0xFFu && beyond == 0u;
}

/*
 * Entries up to the count, which is at most the capacity; zero beyond it. An
 * entry's own errors are 0 with FIFO off.
 */
static bool receive_queue_in_range(const struct uart *u)
{
    uint32_t bytes = 0u;
    uint32_t errors = 0u;
    uint32_t beyond = 0u;

    if (u->rx_count > capacity(u))
        return false;
    for (uint32_t i = 0u; i < u->rx_count; i++) {
        bytes |= u->rx_queue[i].byte;
        errors |= any_error(&u->rx_queue[i].errors);
    }
    for (uint32_t i = u->rx_count; i < UART_QUEUE_PLACES; i++)
        beyond |= u->rx_queue[i].byte | any_error(&u->rx_queue[i].errors);
    return bytes <= 0xFFu && errors <= u->fifo_on && beyond == 0u;
}

/* Each kept error is 0 or 1 with FIFO off, 0 with FIFO on. */
static bool kept_in_range(const struct uart *u)
{
    return any_error(&u->kept) <= (u->fifo_on != 0u ? 0u : 1u);
}

/* L 0..192 and at most its frame's length, with byte and format; all zero if L = 0. */
static bool frame_in_range(const struct uart *u)
{
    if (u->frame_left == 0u)
        return u->frame_byte == 0u && u->frame_format == 0u;
    return u->frame_left <= LONGEST_FRAME && u->frame_byte <= 0xFFu &&
           u->frame_format <= FORMAT_MASK && u->frame_left <= frame_length(u->frame_format);
}

/* The stop sample's position: start, data and parity samples come before it. */
static inline uint32_t stop_position(uint32_t format)
{
    return FIRST_SAMPLE + PULSES_PER_BIT * (1u + data_bits(format) + parity_bits(format));
}

/* Samples not yet taken are zero; P is below the stop position; zero outside a character. */
static bool receiver_in_range(const struct uart *u)
{
    uint32_t taken; /* samples taken up to position P, the start sample too */
    uint32_t width;
    uint32_t data_taken = 0u;

    if (u->rx_state == UART_RX_IDLE || u->rx_state == UART_RX_WAIT_MARK)
        return (u->rx_position | u->rx_format | u->rx_data | u->rx_parity) == 0u;
    if (u->rx_state != UART_RX_CHARACTER || u->rx_format > FORMAT_MASK ||
        u->rx_position >= stop_position(u->rx_format))
        return false;
    taken = (u->rx_position + PULSES_PER_BIT - FIRST_SAMPLE) / PULSES_PER_BIT;
    width = data_bits(u->rx_format);
    if (taken > 1u)
        data_taken = taken - 1u < width ? taken - 1u : width;
    if ((u->rx_data >> data_taken) != 0u)
        return false;
    return u->rx_parity <= (taken == width + 2u ? 1u : 0u);
}

static bool latches_in_range(const struct uart *u)
{
    if (u->tx_empty_latch > 1u || u->overrun > 1u || u->timeout_latch > 1u ||
        u->idle_count > IDLE_LIMIT || u->changes > MODEM_MASK || u->rts_hold > 1u)
        return false;
    if (u->tx_empty_latch != 0u && u->tx_count != 0u)
        return false;
    if (u->fifo_on == 0u || u->rx_count == 0u)
        return u->timeout_latch == 0u && u->idle_count == 0u;
    return true;
}

/* RTS hold: what auto-RTS leaves it, given the value it had. */
static inline uint32_t hold_by_rule(const struct uart *u)
{
    if (!auto_rts(u) || u->rx_count == 0u)
        return 0u;
    if (u->rx_count >= trigger_level(u))
        return 1u;
    return u->rts_hold;
}

/* A state that breaks one of the rules that end each step isn't well formed. */
static bool flow_in_range(const struct uart *u)
{
    if (autoflow(u) && (u->changes & MODEM_CTS) != 0u)
        return false;
    return u->rts_hold == hold_by_rule(u);
}

/* A range that joins two parts is looked at with the later one, when the earlier is good. */
uint32_t uart_part(const struct uart *u)
{
    if (!registers_in_range(u) || !clock_in_range(u))
        return UART_PART_REGISTERS;
    if (!fifo_and_pins_in_range(u))
        return UART_PART_FIFO;
    if (!transmit_queue_in_range(u) || !frame_in_range(u))
        return UART_PART_TRANSMIT;
    if (!receive_queue_in_range(u) || !receiver_in_range(u) || !kept_in_range(u))
        return UART_PART_RECEIVE;
    if (!latches_in_range(u) || !flow_in_range(u))
        return UART_PART_LATCHES;
    return UART_PART_NONE;
}

bool uart_well_formed(const struct uart *u)
{
    return uart_part(u) == UART_PART_NONE;
}

/* ---- What ends each step ---- */

/*
 * With autoflow on the CTS change bit is 0. With auto-RTS the hold is 1 while
 * the receive count is at or above the trigger, 0 when the count is 0, and keeps
 * its last value between; it is 0 without auto-RTS (h).
 */
static inline void end_step(struct uart *u)
{
    if (autoflow(u))
        u->changes &= ~MODEM_CTS;
    u->rts_hold = hold_by_rule(u);
}

/* ---- Queues ---- */

static uint32_t take_transmit_byte(struct uart *u)
{
    uint32_t byte = u->tx_queue[0];

    u->tx_count--;
    memmove(&u->tx_queue[0], &u->tx_queue[1], u->tx_count * sizeof u->tx_queue[0]);
    u->tx_queue[u->tx_count] = 0u;
    return byte;
}

/* Clearing a nonempty transmit queue sets its latch. The frame being sent goes on. */
static void clear_transmit_queue(struct uart *u)
{
    if (u->tx_count == 0u)
        return;
    memset(u->tx_queue, 0, sizeof u->tx_queue);
    u->tx_count = 0u;
    u->tx_empty_latch = 1u;
}

static void remove_oldest_entry(struct uart *u)
{
    u->rx_count--;
    memmove(&u->rx_queue[0], &u->rx_queue[1], u->rx_count * sizeof u->rx_queue[0]);
    memset(&u->rx_queue[u->rx_count], 0, sizeof u->rx_queue[0]);
}

/* Clears time-out latch and idle count too, and not OE. A character being received goes on. */
static void clear_receive_queue(struct uart *u)
{
    memset(u->rx_queue, 0, sizeof u->rx_queue);
    u->rx_count = 0u;
    u->timeout_latch = 0u;
    u->idle_count = 0u;
}

/* ---- Interrupts (002): the first that applies ---- */

static bool line_status_pending(const struct uart *u)
{
    return u->overrun != 0u || any_error(shown_errors(u)) != 0u;
}

/* Count at or above the trigger; in character mode, data waiting. */
static bool rx_data_pending(const struct uart *u)
{
    if (u->fifo_on == 0u)
        return u->rx_count != 0u;
    return u->rx_count >= trigger_level(u);
}

static uint32_t interrupt_code(const struct uart *u)
{
    if ((u->ier & IER_LINE_STATUS) != 0u && line_status_pending(u))
        return IIR_LINE_STATUS;
    if ((u->ier & IER_RX_DATA) != 0u && rx_data_pending(u))
        return IIR_RX_DATA;
    if ((u->ier & IER_RX_DATA) != 0u && u->timeout_latch != 0u)
        return IIR_TIMEOUT;
    if ((u->ier & IER_TX_EMPTY) != 0u && u->tx_empty_latch != 0u)
        return IIR_TX_EMPTY;
    if ((u->ier & IER_MODEM) != 0u && u->changes != 0u)
        return IIR_MODEM;
    return IIR_NONE;
}

/* ---- Output pins ("Loopback") ---- */

/* High in loopback; LCR6 makes it low outside; else the transmitter's line. */
static uint32_t sout_level(const struct uart *u)
{
    if (loopback(u))
        return 1u;
    if ((u->lcr & LCR_BREAK) != 0u)
        return 0u;
    return transmitter_line(u);
}

static struct uart_pins output_pins(const struct uart *u)
{
    struct uart_pins pins = { 0 };

    pins.sout = sout_level(u);
    if (!loopback(u)) {
        pins.rts = (u->mcr & MCR_RTS) != 0u && u->rts_hold == 0u ? 1u : 0u;
        pins.dtr = (u->mcr & MCR_DTR) != 0u ? 1u : 0u;
        pins.out1 = (u->mcr & MCR_OUT1) != 0u ? 1u : 0u;
        pins.out2 = (u->mcr & MCR_OUT2) != 0u ? 1u : 0u;
    }
    pins.intrpt = interrupt_code(u) != IIR_NONE ? 1u : 0u;
    return pins;
}

/* ---- Modem changes ---- */

/*
 * Changes of the effective levels since they were `before`. RI's bit is set only
 * when RI goes from asserted to not.
 */
static void record_changes(struct uart *u, uint32_t before)
{
    uint32_t after = effective_modem(u);
    uint32_t changed = before ^ after;

    u->changes |= changed & (MODEM_CTS | MODEM_DSR | MODEM_DCD);
    u->changes |= before & ~after & MODEM_RI;
}

/* ---- Register reads ("Registers"): the byte a read gives ---- */

/* Code, plus C0 with FIFO on, plus 20 if the size is 64 too. */
static uint32_t iir_byte(const struct uart *u)
{
    uint32_t code = interrupt_code(u);

    if (u->fifo_on == 0u)
        return code;
    return code | IIR_FIFO_ON | (u->size64 != 0u ? IIR_SIZE64 : 0u);
}

static bool any_entry_has_error(const struct uart *u)
{
    for (uint32_t i = 0u; i < u->rx_count; i++)
        if (any_error(&u->rx_queue[i].errors) != 0u)
            return true;
    return false;
}

static uint32_t lsr_byte(const struct uart *u)
{
    const struct uart_errors *shown = shown_errors(u);
    uint32_t lsr = 0u;

    if (u->rx_count != 0u)
        lsr |= LSR_DATA;
    if (u->overrun != 0u)
        lsr |= LSR_OE;
    if (shown->pe != 0u)
        lsr |= LSR_PE;
    if (shown->fe != 0u)
        lsr |= LSR_FE;
    if (shown->bi != 0u)
        lsr |= LSR_BI;
    if (u->tx_count == 0u)
        lsr |= LSR_TX_QUEUE_EMPTY;
    if (transmitter_empty(u))
        lsr |= LSR_TX_EMPTY;
    if (u->fifo_on != 0u && any_entry_has_error(u))
        lsr |= LSR_FIFO_ERROR;
    return lsr;
}

/* Bits 4..7 the effective levels, 0..3 their changes. */
static uint32_t msr_byte(const struct uart *u)
{
    return (effective_modem(u) << MSR_LEVEL_SHIFT) | u->changes;
}

/* RBR is the oldest byte; empty: 0 (h), as every place beyond the count is zero. */
uint32_t uart_peek(const struct uart *u, uint32_t address)
{
    switch (address) {
    case ADDR_DATA:
        return divisor_access(u) ? u->divisor & 0xFFu : u->rx_queue[0].byte;
    case ADDR_IER:
        return divisor_access(u) ? u->divisor >> 8 : u->ier;
    case ADDR_IIR_FCR:
        return iir_byte(u);
    case ADDR_LCR:
        return u->lcr;
    case ADDR_MCR:
        return u->mcr;
    case ADDR_LSR:
        return lsr_byte(u);
    case ADDR_MSR:
        return msr_byte(u);
    default:
        return u->scr;
    }
}

/* ---- Register reads: what a read changes ---- */

/*
 * The oldest byte is removed; time-out latch and idle count go to 0; the kept
 * errors stay. Empty: nothing changes (h).
 */
static void end_rbr_read(struct uart *u)
{
    if (u->rx_count == 0u)
        return;
    u->timeout_latch = 0u;
    u->idle_count = 0u;
    remove_oldest_entry(u);
}

/* Answering 02 clears the latch. */
static void end_iir_read(struct uart *u, uint32_t iir)
{
    if ((iir & IIR_CODE) == IIR_TX_EMPTY)
        u->tx_empty_latch = 0u;
}

/* OE and the errors shown are cleared; of the two below the other has none. */
static void end_lsr_read(struct uart *u)
{
    u->overrun = 0u;
    u->rx_queue[0].errors = no_errors;
    u->kept = no_errors;
}

void uart_end_read(struct uart *u, uint32_t address, uint32_t byte)
{
    switch (address) {
    case ADDR_DATA:
        if (!divisor_access(u))
            end_rbr_read(u);
        break;
    case ADDR_IIR_FCR:
        end_iir_read(u, byte);
        break;
    case ADDR_LSR:
        end_lsr_read(u);
        break;
    case ADDR_MSR:
        u->changes = 0u;
        break;
    default:
        break;
    }
    end_step(u);
}

/* ---- Register writes ("Registers") ---- */

/* Appended; the latch goes to 0. Full: replaced in character mode, else dropped (h). */
static void write_thr(struct uart *u, uint32_t byte)
{
    if (u->tx_count < capacity(u)) {
        u->tx_queue[u->tx_count] = byte;
        u->tx_count++;
    } else if (u->fifo_on == 0u) {
        u->tx_queue[0] = byte;
    }
    u->tx_empty_latch = 0u;
}

/* Low six bits. Raising bit 1 with the transmit queue empty sets the latch (h). */
static void write_ier(struct uart *u, uint32_t byte)
{
    bool raised = (u->ier & IER_TX_EMPTY) == 0u && (byte & IER_TX_EMPTY) != 0u;

    u->ier = byte & IER_MASK;
    if (raised && u->tx_count == 0u)
        u->tx_empty_latch = 1u;
}

/* Writing either divisor byte sets k = the new D. */
static void write_divisor(struct uart *u, uint32_t divisor)
{
    u->divisor = divisor;
    u->k = divisor;
}

/*
 * Bit 0 clear turns FIFO off, other bits ignored. Changing on to off clears both
 * queues; no errors are kept with FIFO on. Off already: nothing changes.
 */
static void turn_fifo_off(struct uart *u)
{
    if (u->fifo_on == 0u)
        return;
    u->fifo_on = 0u;
    clear_receive_queue(u);
    clear_transmit_queue(u);
}

/*
 * Bit 0 set turns FIFO on; bits 7,6 give the trigger code, bit 3 the DMA bit,
 * bit 5 the size, only when LCR7 = 1 (else it stays); bits 1 and 2 clear the
 * receive and transmit queue. Changing FIFO on/off or size clears both (size: h).
 * Changing off to on clears the kept errors, and with FIFO on there are none.
 */
static void write_fcr(struct uart *u, uint32_t byte)
{
    uint32_t size64 = u->size64;
    bool changed;

    if ((byte & FCR_FIFO_ON) == 0u) {
        turn_fifo_off(u);
        return;
    }
    if (divisor_access(u))
        size64 = (byte & FCR_SIZE64) != 0u ? 1u : 0u;
    changed = u->fifo_on == 0u || size64 != u->size64;

    u->fifo_on = 1u;
    u->kept = no_errors;
    u->size64 = size64;
    u->dma = (byte & FCR_DMA) != 0u ? 1u : 0u;
    u->trigger_code = byte >> FCR_TRIGGER_SHIFT;
    if (changed || (byte & FCR_CLEAR_RX) != 0u)
        clear_receive_queue(u);
    if (changed || (byte & FCR_CLEAR_TX) != 0u)
        clear_transmit_queue(u);
}

/* Low six bits. A change of the effective levels made by the write counts as a change. */
static void write_mcr(struct uart *u, uint32_t byte)
{
    uint32_t before = effective_modem(u);

    u->mcr = byte & MCR_MASK;
    record_changes(u, before);
}

/* Writes to LSR and MSR do nothing (h). */
static void write_register(struct uart *u, uint32_t address, uint32_t byte)
{
    switch (address) {
    case ADDR_DATA:
        if (divisor_access(u))
            write_divisor(u, (u->divisor & 0xFF00u) | byte);
        else
            write_thr(u, byte);
        break;
    case ADDR_IER:
        if (divisor_access(u))
            write_divisor(u, (u->divisor & 0x00FFu) | (byte << 8));
        else
            write_ier(u, byte);
        break;
    case ADDR_IIR_FCR:
        write_fcr(u, byte);
        break;
    case ADDR_LCR:
        u->lcr = byte;
        break;
    case ADDR_MCR:
        write_mcr(u, byte);
        break;
    case ADDR_SCR:
        u->scr = byte;
        break;
    default:
        break;
    }
}

/* ---- The transmitter ("A tick", 1) ---- */

/* The oldest byte with the present LCR as format, L = F. Emptying the queue sets the latch. */
static void load_frame(struct uart *u)
{
    u->frame_byte = take_transmit_byte(u);
    u->frame_format = u->lcr & FORMAT_MASK;
    u->frame_left = frame_length(u->frame_format);
    if (u->tx_count == 0u)
        u->tx_empty_latch = 1u;
}

/* If L > 0 it falls by 1. If L is now 0, a byte is queued and it isn't held, it is loaded. */
static inline void pulse_transmitter(struct uart *u)
{
    if (u->frame_left != 0u) {
        u->frame_left--;
        if (u->frame_left != 0u)
            return;
        u->frame_byte = 0u;
        u->frame_format = 0u;
    }
    if (u->tx_count != 0u && !held(u))
        load_frame(u);
}

/* ---- The receiver ("A tick", 2) ---- */

/* A character begins at position P, format from LCR. */
static void begin_character(struct uart *u, uint32_t position)
{
    u->rx_state = UART_RX_CHARACTER;
    u->rx_position = position;
    u->rx_format = u->lcr & FORMAT_MASK;
    u->rx_data = 0u;
    u->rx_parity = 0u;
}

static void leave_character(struct uart *u, uint32_t rx_state)
{
    u->rx_state = rx_state;
    u->rx_position = 0u;
    u->rx_format = 0u;
    u->rx_data = 0u;
    u->rx_parity = 0u;
}

/* Adds a character's errors to the kept ones; its entry then has none. */
static void keep_errors(struct uart *u, struct uart_errors *errors)
{
    u->kept.pe |= errors->pe;
    u->kept.fe |= errors->fe;
    u->kept.bi |= errors->bi;
    *errors = no_errors;
}

/*
 * A full queue sets OE; with FIFO on the new character is lost, in character
 * mode it replaces the old, and its errors are kept apart from it. True if the
 * character entered the queue.
 */
static bool store_character(struct uart *u, struct uart_entry entry)
{
    if (u->fifo_on == 0u)
        keep_errors(u, &entry.errors);
    if (u->rx_count < capacity(u)) {
        u->rx_queue[u->rx_count] = entry;
        u->rx_count++;
        return true;
    }
    u->overrun = 1u;
    if (u->fifo_on != 0u)
        return false;
    u->rx_queue[0] = entry;
    return true;
}

/*
 * The first stop sample ends the character. PE: parity differs. FE: stop low.
 * Break: every sample low; then the receiver waits for mark. FE without break:
 * the low sample counts as the next start bit at P = 8, format taken anew (h).
 */
static bool end_character(struct uart *u, uint32_t stop)
{
    uint32_t format = u->rx_format;
    struct uart_entry entry = { 0 };

    entry.byte = u->rx_data;
    if (parity_bits(format) != 0u && u->rx_parity != parity_bit(u->rx_data, format))
        entry.errors.pe = 1u;
    entry.errors.fe = stop ^ 1u;
    if (stop == 0u && u->rx_data == 0u && u->rx_parity == 0u)
        entry.errors.bi = 1u;

    if (stop != 0u)
        leave_character(u, UART_RX_IDLE);
    else if (entry.errors.bi != 0u)
        leave_character(u, UART_RX_WAIT_MARK);
    else
        begin_character(u, FIRST_SAMPLE);
    return store_character(u, entry);
}

/*
 * Each pulse after the start adds 1 to P; samples fall at 8, 24, 40 and so on:
 * start, data from bit 0, parity, stop. High at 8: false start, idle.
 * True if a character entered the queue.
 */
static bool pulse_in_character(struct uart *u, uint32_t line)
{
    uint32_t sample;
    uint32_t width;

    u->rx_position++;
    if (u->rx_position % PULSES_PER_BIT != FIRST_SAMPLE)
        return false;
    sample = u->rx_position / PULSES_PER_BIT;
    width = data_bits(u->rx_format);
    if (sample == 0u) {
        if (line != 0u)
            leave_character(u, UART_RX_IDLE);
        return false;
    }
    if (sample <= width) {
        u->rx_data |= line << (sample - 1u);
        return false;
    }
    if (sample == width + 1u && parity_bits(u->rx_format) != 0u) {
        u->rx_parity = line;
        return false;
    }
    return end_character(u, line);
}

/*
 * On SIN, or in loopback on the transmitter's line. Idle and low begins a
 * character at P = 0; waiting for mark, a pulse that sees high makes it idle.
 */
static inline bool pulse_receiver(struct uart *u)
{
    uint32_t line = loopback(u) ? transmitter_line(u) : u->sin;

    if (u->rx_state == UART_RX_CHARACTER)
        return pulse_in_character(u, line);
    if (u->rx_state == UART_RX_IDLE) {
        if (line == 0u)
            begin_character(u, 0u);
    } else if (line != 0u) {
        u->rx_state = UART_RX_IDLE;
    }
    return false;
}

/* ---- The idle count ("A tick", 3) ---- */

/*
 * With FIFO on: 0 if a character entered the queue in this pulse; else, data
 * waiting, one more, at most 769. Above 4F it sets the time-out latch, F from
 * the present LCR.
 */
static inline void pulse_idle_count(struct uart *u, bool entered)
{
    if (u->fifo_on == 0u || u->rx_count == 0u)
        return;
    if (entered) {
        u->idle_count = 0u;
        return;
    }
    if (u->idle_count < IDLE_LIMIT)
        u->idle_count++;
    if (u->idle_count > 4u * frame_length(u->lcr))
        u->timeout_latch = 1u;
}

/* ---- The tick ---- */

static void pulse(struct uart *u)
{
    bool entered;

    pulse_transmitter(u);
    entered = pulse_receiver(u);
    pulse_idle_count(u, entered);
    end_step(u);
}

/* If D = 0 nothing changes. Else k falls by 1; at 0 it becomes D and one pulse happens. */
static inline void tick(struct uart *u)
{
    if (u->divisor == 0u)
        return;
    u->k--;
    if (u->k != 0u)
        return;
    u->k = u->divisor;
    pulse(u);
}

/* ---- The steps, unchecked ---- */

/* Fresh: SIN 1, all else 0. */
void uart_fresh(struct uart *u)
{
    memset(u, 0, sizeof *u);
    u->sin = 1u;
}

/* Reset gives the fresh state but keeps SCR, D, both pin inputs, and sets k = D. */
void uart_do_reset(struct uart *u)
{
    uint32_t scr = u->scr;
    uint32_t divisor = u->divisor;
    uint32_t modem_pins = u->modem_pins;
    uint32_t sin = u->sin;

    uart_fresh(u);
    u->scr = scr;
    write_divisor(u, divisor);
    u->modem_pins = modem_pins;
    u->sin = sin;
}

void uart_do_write(struct uart *u, uint32_t address, uint32_t byte)
{
    write_register(u, address, byte);
    end_step(u);
}

void uart_do_sin(struct uart *u, uint32_t level)
{
    u->sin = level;
    end_step(u);
}

void uart_do_modem(struct uart *u, uint32_t pins)
{
    uint32_t before = effective_modem(u);

    u->modem_pins = pins;
    record_changes(u, before);
    end_step(u);
}

void uart_do_ticks(struct uart *u, uint32_t count)
{
    for (uint32_t i = 0u; i < count; i++)
        tick(u);
}

/* ---- The calls ---- */

/* The numbers above 1 are given on well-formed states alone, whose part is 0. */
static struct uart_answer refuse(const struct uart *u, uint32_t number)
{
    struct uart_answer answer = { 0 };

    answer.number = number;
    answer.part = uart_part(u);
    return answer;
}

static struct uart_answer done(const struct uart *u, uint32_t byte)
{
    struct uart_answer answer;

    answer.number = UART_DONE;
    answer.part = UART_PART_NONE;
    answer.byte = byte;
    answer.pins = output_pins(u);
    return answer;
}

static struct uart_value refuse_value(const struct uart *u, uint32_t number)
{
    struct uart_value result = { number, uart_part(u), 0u };

    return result;
}

static struct uart_value value(uint32_t v)
{
    struct uart_value result = { UART_DONE, UART_PART_NONE, v };

    return result;
}

struct uart_answer uart_reset(struct uart *u)
{
    if (!uart_well_formed(u))
        return refuse(u, UART_MALFORMED);
    uart_do_reset(u);
    return done(u, 0u);
}

struct uart_answer uart_read(struct uart *u, uint32_t address)
{
    uint32_t byte;

    if (!uart_well_formed(u))
        return refuse(u, UART_MALFORMED);
    if (address > ADDR_LAST)
        return refuse(u, UART_BAD_ADDRESS);
    byte = uart_peek(u, address);
    uart_end_read(u, address, byte);
    return done(u, byte);
}

struct uart_answer uart_write(struct uart *u, uint32_t address, uint8_t byte)
{
    if (!uart_well_formed(u))
        return refuse(u, UART_MALFORMED);
    if (address > ADDR_LAST)
        return refuse(u, UART_BAD_ADDRESS);
    uart_do_write(u, address, byte);
    return done(u, 0u);
}

struct uart_answer uart_set_sin(struct uart *u, uint32_t level)
{
    if (!uart_well_formed(u))
        return refuse(u, UART_MALFORMED);
    if (level > 1u)
        return refuse(u, UART_BAD_LEVEL);
    uart_do_sin(u, level);
    return done(u, 0u);
}

struct uart_answer uart_set_modem(struct uart *u, uint32_t pins)
{
    if (!uart_well_formed(u))
        return refuse(u, UART_MALFORMED);
    if (pins > MODEM_MASK)
        return refuse(u, UART_BAD_LEVEL);
    uart_do_modem(u, pins);
    return done(u, 0u);
}

struct uart_answer uart_tick(struct uart *u)
{
    return uart_ticks(u, 1u);
}

/* A tick on a well-formed state leaves one, so one check serves for all of them. */
struct uart_answer uart_ticks(struct uart *u, uint32_t count)
{
    if (!uart_well_formed(u))
        return refuse(u, UART_MALFORMED);
    uart_do_ticks(u, count);
    return done(u, 0u);
}

struct uart_answer uart_look(const struct uart *u)
{
    if (!uart_well_formed(u))
        return refuse(u, UART_MALFORMED);
    return done(u, 0u);
}

/* ---- "Forecast and run" ---- */

/* Pulses p = L + nF if L > 0; 1 + nF if L = 0 and n > 0; else 0. F from the present LCR. */
static uint32_t pulses_left(const struct uart *u)
{
    uint32_t queued = u->tx_count * frame_length(u->lcr);

    if (u->frame_left != 0u)
        return u->frame_left + queued;
    return u->tx_count != 0u ? 1u + queued : 0u;
}

/* The number that forecast and level answer. */
static uint32_t forecast_number(const struct uart *u)
{
    if (!uart_well_formed(u))
        return UART_MALFORMED;
    if (!transmitter_empty(u) && u->divisor == 0u)
        return UART_NO_CLOCK;
    if (u->tx_count != 0u && held(u))
        return UART_HELD;
    return UART_DONE;
}

/* Ticks T = 0 if p = 0, else k + (p - 1) D. */
struct uart_value uart_forecast(const struct uart *u)
{
    uint32_t number = forecast_number(u);
    uint32_t pulses;

    if (number != UART_DONE)
        return refuse_value(u, number);
    pulses = pulses_left(u);
    if (pulses == 0u)
        return value(0u);
    return value(u->k + (pulses - 1u) * u->divisor);
}

/*
 * The level at place q of the string: the last L levels of the current frame in
 * its own format (one high if L = 0 and bytes are queued), then the F levels of
 * each queued byte's frame in the present LCR's format; high from place p on.
 */
static uint32_t level_at_place(const struct uart *u, uint32_t place)
{
    uint32_t format = u->lcr & FORMAT_MASK;
    uint32_t length = frame_length(format);
    uint32_t first = u->frame_left != 0u ? u->frame_left : 1u;

    if (place >= pulses_left(u))
        return 1u;
    if (place < u->frame_left)
        return frame_level(u->frame_byte, u->frame_format,
                           frame_length(u->frame_format) - u->frame_left + place);
    if (place < first)
        return 1u;
    place -= first;
    return frame_level(u->tx_queue[place / length], format, place % length);
}

/* q is 0 if p = 0 or t < k, else 1 + (t - k) / D rounded down. */
struct uart_value uart_level(const struct uart *u, uint32_t t)
{
    uint32_t number = forecast_number(u);
    uint32_t place;

    if (number != UART_DONE)
        return refuse_value(u, number);
    if (pulses_left(u) == 0u || t < u->k)
        place = 0u;
    else
        place = 1u + (t - u->k) / u->divisor;
    return value(level_at_place(u, place));
}

/* At most `most` ticks; stops as soon as LSR6 would be 1. Answers the ticks used. */
struct uart_value uart_run(struct uart *u, uint32_t most)
{
    uint32_t used = 0u;

    if (!uart_well_formed(u))
        return refuse_value(u, UART_MALFORMED);
    while (used < most && !transmitter_empty(u)) {
        tick(u);
        used++;
    }
    return value(used);
}
