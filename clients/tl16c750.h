/*
 * One TL16C750 UART with its bus, serial line, modem pins and clock.
 *
 * Each call takes the state by value and hands back the next one; nothing is kept between calls.
 * A call that is refused (number above 0) hands its state back as it was, and zeros otherwise; of a
 * replay and of the writer of a capture see below.
 *
 * Every field of a state is an unsigned number, so every bit pattern is a value: it is well formed
 * or it is refused with UART_MALFORMED, and with the part of it that is bad. So whatever memory a caller
 * hands in, every call ends and answers by number; no caller has to look first. Only the records, words
 * and bytes of a capture are lent, by address: as many as it says must stand there, whatever they are.
 *
 * Padding, the bytes between fields, is no part of a state: it is not looked at and comes back as
 * anything. So states are compared by uart_equal, not by memcmp, and a hash goes over the fields.
 *
 * Link with -ltl16c750 (`pkg-config --cflags --libs tl16c750`).
 */
#ifndef TL16C750_H
#define TL16C750_H

#include <stddef.h>
#include <stdint.h>
#include <string.h>
#ifndef UART_NO_STDIO
#include <stdio.h>
#endif

#ifdef __cplusplus
extern "C" {
#define UART_STATIC_ASSERT static_assert
#elif defined __STDC_VERSION__ && __STDC_VERSION__ >= 201112L
#define UART_STATIC_ASSERT _Static_assert
#else
#define UART_STATIC_ASSERT(holds, what) extern char uart_static_assert[(holds) ? 1 : -1]
#endif

/* The version that this header is of; UART_LAYOUT changes where a struct does. */
#define UART_VERSION_MAJOR 0
#define UART_VERSION_MINOR 7
#define UART_VERSION_PATCH 0
#define UART_LAYOUT 6

/* The numbers answered; where two apply, the lower. */
#define UART_DONE 0
#define UART_MALFORMED 1       /* the state is not well formed */
#define UART_BAD_ADDRESS 2     /* a register address above 7 */
#define UART_BAD_LEVEL 3       /* SIN above 1, or modem pins above 15 */
#define UART_NO_CLOCK 4        /* forecast, level: work left and divisor 0 */
#define UART_HELD_BACK 5       /* forecast, level: bytes queued and held by flow control */
#define UART_BAD_HEADER 6      /* a capture's file: a bad mark or a nonzero pad */
#define UART_UNKNOWN_VERSION 7 /* a capture: an unknown version */
#define UART_BAD_RECORD 8      /* a capture: a record of bad kind, with stray bits, or cut off */
#define UART_BAD_RATE 9        /* divisor for a rate: a clock or rate outside its range */
#define UART_NO_ROOM 16        /* expected capture: no word left for a record */

/*
 * `part` of an answer, beside UART_MALFORMED: the lowest part of the state that breaks a range, here with
 * its fields. A range that joins two parts counts for the later one. It is 0 with every other number.
 */
#define UART_IN_REGISTERS 1   /* registers, baud: registers, divisor or k */
#define UART_IN_SETTINGS 2    /* fifo, inputs: FIFO settings and pins */
#define UART_IN_TRANSMITTER 3 /* tx, frame: transmit queue and frame */
#define UART_IN_RECEIVER 4    /* rx, receiver, kept: receive queue, receiver and kept errors */
#define UART_IN_LATCHES 5     /* latches: latches, OE, idle count, change bits and hold */

/* Register addresses. With LCR bit 7 set, 0 and 1 are the divisor's low and high byte. */
#define UART_RBR 0 /* read: receive buffer */
#define UART_THR 0 /* write: transmit holding */
#define UART_DLL 0
#define UART_DLM 1
#define UART_IER 1
#define UART_IIR 2 /* read */
#define UART_FCR 2 /* write */
#define UART_LCR 3
#define UART_MCR 4
#define UART_LSR 5
#define UART_MSR 6
#define UART_SCR 7

#define UART_PLACES 64 /* of each queue */

/* The registers that keep what is written to them. */
struct uart_registers {
    uint8_t ier;
    uint8_t mcr;
    uint8_t lcr;
    uint8_t scr;
};

/* The baud generator: the divisor, and the ticks to the next pulse. */
struct uart_baud {
    uint32_t divisor;
    uint32_t k;
};

/* What FCR sets: FIFO on, size bit (1 is 64), DMA bit, trigger code. */
struct uart_fifo_control {
    uint8_t enabled;
    uint8_t size;
    uint8_t dma;
    uint8_t trigger;
};

/* The input pins: CTS, DSR, RI, DCD asserted in bits 0..3; the level of SIN. */
struct uart_inputs {
    uint8_t modem;
    uint8_t sin;
};

/* The transmit queue: oldest first, places beyond the count zero. */
struct uart_byte_queue {
    uint8_t bytes[UART_PLACES];
    uint32_t count;
};

/* The transmitter shift register: pulses left of the frame now sent, its byte and format. */
struct uart_frame {
    uint32_t left;
    uint8_t byte;
    uint8_t format;
};

/* A received character with its error flags, each 0 or 1; with FIFO off they are 0. */
struct uart_entry {
    uint8_t byte;
    uint8_t pe;
    uint8_t fe;
    uint8_t bi;
};

/* The receive queue: oldest first, places beyond the count zero. */
struct uart_entry_queue {
    struct uart_entry entries[UART_PLACES];
    uint32_t count;
};

/* The receiver: 0 idle, 1 waiting for mark, 2 in a character, with what of it is sampled. */
struct uart_receiver {
    uint8_t phase;
    uint8_t format;
    uint8_t samples;
    uint8_t parity;
    uint32_t position;
};

/* The latches, the change bits of MSR (bits 0..3: CTS, DSR, RI, DCD), RTS hold, the idle count. */
struct uart_latches {
    uint8_t empty;
    uint8_t overrun;
    uint8_t timeout;
    uint8_t changes;
    uint8_t hold;
    uint32_t idle;
};

/*
 * The errors of character mode, each 0 or 1: a character that arrives adds its own, a read of RBR leaves
 * them, a read of LSR clears them. With FIFO on they are 0, and the errors are the entries' own.
 */
struct uart_errors {
    uint8_t pe;
    uint8_t fe;
    uint8_t bi;
};

struct uart_state {
    struct uart_registers registers;
    struct uart_baud baud;
    struct uart_fifo_control fifo;
    struct uart_inputs inputs;
    struct uart_byte_queue tx;
    struct uart_frame frame;
    struct uart_entry_queue rx;
    struct uart_receiver receiver;
    struct uart_latches latches;
    struct uart_errors kept;
};

/* The output pins: SOUT and INTRPT 1 is high; the others 1 is asserted. */
struct uart_outputs {
    uint8_t sout;
    uint8_t rts;
    uint8_t dtr;
    uint8_t out1;
    uint8_t out2;
    uint8_t intrpt;
};

/* What a step answers: the byte read, the pins after it, the next state. */
struct uart_answer {
    uint8_t number;
    uint8_t byte;
    struct uart_outputs outputs;
    struct uart_state state;
    uint8_t part;
};

/* What the look at the pins answers. */
struct uart_looked {
    uint8_t number;
    uint8_t part;
    struct uart_outputs outputs;
};

/* What the forecast answers: the ticks until queue and shift register are both empty. */
struct uart_forecasted {
    uint8_t number;
    uint8_t part;
    uint32_t ticks;
};

/* What the call for the line's level answers. */
struct uart_leveled {
    uint8_t number;
    uint8_t part;
    uint8_t level;
};

/* What run answers: the ticks used, and the state after them. */
struct uart_ran {
    uint8_t number;
    uint8_t part;
    uint32_t used;
    struct uart_state state;
};

/* What ticks by jumps answer: the jumps made, and the state after them. */
struct uart_jumped {
    uint8_t number;
    uint8_t part;
    uint32_t jumps;
    struct uart_state state;
};

/* What run by jumps answers: the ticks used, the jumps made, and the state after them. */
struct uart_jump_ran {
    uint8_t number;
    uint8_t part;
    uint32_t used;
    uint32_t jumps;
    struct uart_state state;
};

/* How a replay ended: number and part, the byte seen, the model's byte, the record's place. */
struct uart_values {
    uint8_t number;
    uint8_t part;
    uint8_t seen;
    uint8_t model;
    size_t place;
};

/* What a replay answers: how it ended, and the state in which it did. */
struct uart_replayed {
    struct uart_values values;
    struct uart_state state;
};

/* What stopped the replay of a file. */
#define UART_GOING_ON 0
#define UART_DIFFERS 1
#define UART_REFUSED 2

/* Where a file stands: its version, what stopped it and how, the records given so far, the state. */
struct uart_progress {
    uint32_t version;
    uint8_t stopped;
    size_t done;
    struct uart_values values;
    struct uart_state state;
};

/* What the writer of a capture answers: the words written, and the state after these records. */
struct uart_expected {
    uint8_t number;
    uint8_t part;
    size_t count;
    struct uart_state state;
};

/* Where a file that is written anew stands: its version, the records that the last call wrote, the state. */
struct uart_expect_progress {
    uint8_t number; /* 0: going on */
    uint8_t part;
    uint32_t version;
    size_t count;
    struct uart_state state;
};

/* What the call for a divisor answers: the divisor, and its error in parts per million. */
struct uart_picked {
    uint8_t number;
    uint32_t divisor;
    int32_t error;
};

/* The library's version, and that of the layout of its structs. */
struct uart_versions {
    uint32_t major;
    uint32_t minor;
    uint32_t patch;
    uint32_t layout;
};

/* Which library is linked: its layout must be UART_LAYOUT. */
struct uart_versions uart_version(void);

/* The fresh state. */
struct uart_state uart_fresh(void);

/* The steps. */
struct uart_answer uart_reset(struct uart_state s);
struct uart_answer uart_read(struct uart_state s, uint8_t address);
struct uart_answer uart_write(struct uart_state s, uint8_t address, uint8_t byte);
struct uart_answer uart_set_sin(struct uart_state s, uint8_t level);
struct uart_answer uart_set_modem(struct uart_state s, uint8_t levels);
struct uart_answer uart_tick(struct uart_state s);
struct uart_answer uart_ticks(struct uart_state s, uint32_t n); /* n single ticks */

/* The pins as they are. */
struct uart_looked uart_pins(struct uart_state s);

/* The ticks until the transmitter is empty, and the level of its line after t of them. */
struct uart_forecasted uart_forecast(struct uart_state s);
struct uart_leveled uart_level(struct uart_state s, uint32_t t);

/* At most n ticks, until the transmitter is empty. */
struct uart_ran uart_run(struct uart_state s, uint32_t n);

/*
 * The same ticks by jumps from pulse to pulse. The state that uart_jump answers is that of n single ticks;
 * uart_jump_run answers number, part, ticks used and state as uart_run does, and looks before each jump
 * whether the transmitter is empty (LSR bit 6).
 * `jumps` is how many were made: a jump ends at a pulse, or at n when the rest falls short of one. With
 * divisor 5 and k 3, n of 2, 3, 4, 8 and 9 make 1, 1, 2, 2 and 3. For n 0 there is none; with divisor 0,
 * where no pulse comes, one of all n ticks; with a divisor D above 0 at most 2 + n / D.
 */
struct uart_jumped uart_jump(struct uart_state s, uint32_t n);
struct uart_jump_ran uart_jump_run(struct uart_state s, uint32_t n);

/*
 * The divisor for a rate: of those from 1 to 65535 the one with the smallest distance between clock and
 * 16 * divisor * rate, the smaller one on a tie. The clock is in Hz, 1 to 16,000,000; the rate is in baud,
 * 1 to 1,000,000. DLL takes the divisor's low byte, DLM its high byte.
 * `error` is in parts per million, (clock - 16 * divisor * rate) * 1,000,000 / (16 * divisor * rate), cut
 * toward zero, from -999999 to 14259021: above 0 the line is faster than the rate, below 0 slower. A
 * divisor is answered however far off it is: whether the error is small enough is for the caller to say.
 * A clock or rate outside is refused with UART_BAD_RATE; divisor and error are then 0. It needs no state.
 */
struct uart_picked uart_divisor_for(uint32_t clock, uint32_t rate);

/*
 * A replay of count records of a capture, without the file's header, up to the first read whose byte
 * differs from the model's. Places count from 0.
 *   number 0, seen == model: agreed, and the state is the end state;
 *   number 0, seen != model: the read at the place differs, and the state is that before it;
 *   UART_BAD_RECORD: the record at the place is bad, and the state is that before it;
 *   UART_MALFORMED, UART_UNKNOWN_VERSION: place 0, and the state is as it was.
 * The known version is 1. A record has its kind in bits 31..28: 0 ticks (count in 0..15), 1 read
 * (address in 8..10, byte seen in 0..7), 2 write (the same fields), 3 SIN (bit 0), 4 modem pins (bits
 * 0..3), 5 reset; all other bits are zero.
 */
struct uart_replayed uart_replay(struct uart_state s, uint32_t version, const uint32_t *records,
                                 size_t count);

/*
 * A capture's file, whose bytes come in parts, replayed from the fresh state: uart_replay_begin takes
 * its first bytes and looks at the 8 of its header (or at all of a file that is shorter);
 * uart_replay_more takes the bytes that come after the header, uart_replay_end the last ones, or none.
 * One to three bytes at the end of a part that make no whole record are given again at the start of
 * the next part. The answer is that of the whole file, whatever its parts are; it ends as a replay
 * does, and beside that with
 *   UART_BAD_RECORD at place 0: shorter than a header; UART_BAD_HEADER at place 0; as with an unknown
 *   version the state is then the fresh one;
 *   UART_BAD_RECORD at the number of whole records: one to three bytes are left.
 * Once `stopped` is not UART_GOING_ON, nothing that comes next changes the answer. A file of more than
 * 2^62 records is refused with UART_MALFORMED and part 0: no part of the state is bad.
 */
struct uart_progress uart_replay_begin(const uint8_t *first, size_t count);
struct uart_progress uart_replay_more(struct uart_progress p, const uint8_t *bytes, size_t count);
struct uart_replayed uart_replay_end(struct uart_progress p, const uint8_t *bytes, size_t count);

/*
 * Writes the capture that is expected of an undisturbed chip: each of count records as it stands, but a
 * read with the model's byte in bits 0..7, into the first of `room` words. Records and versions are those
 * of a replay, and the byte seen has no part in it. `count` of the answer is how many words were written;
 * those beyond stay as they were. The two runs must not overlap.
 *   number 0: all records are written, and the state is the end state;
 *   UART_BAD_RECORD, UART_NO_ROOM: the record behind those written is bad, or is a good one with no word
 *   left for it, and the state is that before it;
 *   UART_MALFORMED, UART_UNKNOWN_VERSION: nothing is written, and the state is as it was.
 * But for these last two, a replay of the words written, from the same state and with the same version,
 * agrees and ends in the same state.
 */
struct uart_expected uart_expect(struct uart_state s, uint32_t version, const uint32_t *records,
                                 size_t count, uint32_t *words, size_t room);

/*
 * The same for a capture's file whose bytes come in parts, from the fresh state. uart_expect_begin takes
 * its first bytes and looks at the 8 of its header, which the caller writes as they are, or not at all
 * where `number` is not 0: UART_BAD_RECORD where they are fewer, UART_BAD_HEADER, UART_UNKNOWN_VERSION.
 * uart_expect_more takes the bytes that come after the header and writes their whole records anew, in
 * place: the first 4 * count of the bytes, with `count` of the answer, are then those to write, and the
 * bytes beyond stay as they were. One to three bytes at the end of a part that make no whole record are
 * given again at the start of the next part. uart_expect_end takes the last bytes, or none, in the same
 * way; one to three bytes left are refused with UART_BAD_RECORD.
 * At a bad record the state is that before it, and what was written before it stands. Once `number` is
 * not 0, nothing that comes next is written or changes the state.
 */
struct uart_expect_progress uart_expect_begin(const uint8_t *first, size_t count);
struct uart_expect_progress uart_expect_more(struct uart_expect_progress p, uint8_t *bytes, size_t count);
struct uart_expect_progress uart_expect_end(struct uart_expect_progress p, uint8_t *bytes, size_t count);

#define UART_HEADER_BYTES 8
#define UART_RECORD_BYTES 4
#define UART_PART_BYTES 16384 /* handed on at a time */

/*
 * Told after each part of a file, and at its end: the records done, the bytes read, and of how many (0
 * where that is not known). The last time the records are those before the place where it stopped.
 */
typedef void uart_progress_call(void *context, size_t records, size_t bytes, size_t of);

/* The records done of a file that ended so: all that were given, or those before the place. */
static inline size_t uart_records_done(const struct uart_values *v, size_t given)
{
    return v->number == UART_DONE && v->seen == v->model ? given : v->place;
}

/* Replays a capture's file that is in memory. `call` may be NULL. */
static inline struct uart_replayed uart_replay_bytes_telling(const uint8_t *bytes, size_t count,
                                                             uart_progress_call *call, void *context)
{
    size_t at = count < UART_HEADER_BYTES ? count : UART_HEADER_BYTES;
    struct uart_progress p = uart_replay_begin(bytes, at);
    struct uart_replayed answer;

    while (p.stopped == UART_GOING_ON && count - at >= UART_PART_BYTES) {
        p = uart_replay_more(p, bytes + at, UART_PART_BYTES);
        at += UART_PART_BYTES;
        if (call && p.stopped == UART_GOING_ON)
            call(context, p.done, at, count);
    }
    answer = uart_replay_end(p, bytes + at, count - at);
    if (call)
        call(context, uart_records_done(&answer.values, p.done + (count - at) / UART_RECORD_BYTES),
             p.stopped == UART_GOING_ON ? count : at, count);
    return answer;
}

/* The same, telling nothing. */
static inline struct uart_replayed uart_replay_bytes(const uint8_t *bytes, size_t count)
{
    return uart_replay_bytes_telling(bytes, count, NULL, NULL);
}

/*
 * Writes a capture's file that is in memory anew, in place. Answers how many of its bytes are the file
 * that is expected: the header and the records before a bad one, or 0 where the header is refused. `count`
 * of the answer is the records written.
 */
static inline size_t uart_expect_bytes(uint8_t *bytes, size_t count, struct uart_expect_progress *answer)
{
    *answer = uart_expect_begin(bytes, count);
    if (answer->number != UART_DONE)
        return 0;
    *answer = uart_expect_end(*answer, bytes + UART_HEADER_BYTES, count - UART_HEADER_BYTES);
    return UART_HEADER_BYTES + UART_RECORD_BYTES * answer->count;
}

#ifndef UART_NO_STDIO
/* The bytes from where a file stands to its end; 0 where it has no end to be told, as a pipe. */
static inline size_t uart_bytes_left(FILE *file)
{
    long at = ftell(file);
    long end;

    if (at < 0 || fseek(file, 0, SEEK_END) != 0)
        return 0;
    end = ftell(file);
    return fseek(file, at, SEEK_SET) == 0 && at <= end ? (size_t)(end - at) : 0;
}

/*
 * Replays a capture's file from where it stands, with 16 KiB of memory whatever its length. `call` may
 * be NULL. Answers 0, or -1 where reading failed: then nothing is answered.
 */
static inline int uart_replay_file(FILE *file, struct uart_replayed *answer, uart_progress_call *call,
                                   void *context)
{
    uint8_t part[UART_PART_BYTES];
    size_t of = call ? uart_bytes_left(file) : 0;
    size_t got = fread(part, 1, UART_HEADER_BYTES, file);
    size_t bytes = got;
    struct uart_progress p = uart_replay_begin(part, got);

    got = 0;
    while (p.stopped == UART_GOING_ON) {
        got = fread(part, 1, sizeof part, file);
        bytes += got;
        if (got < sizeof part)
            break;
        p = uart_replay_more(p, part, got);
        got = 0;
        if (call && p.stopped == UART_GOING_ON)
            call(context, p.done, bytes, of);
    }
    if (ferror(file))
        return -1;
    *answer = uart_replay_end(p, part, got);
    if (call)
        call(context, uart_records_done(&answer->values, p.done + got / UART_RECORD_BYTES), bytes, of);
    return 0;
}

/*
 * Writes the file that is expected of a capture's file, each from where it stands, with 16 KiB of memory
 * whatever the length. `count` of the answer is the records written; where the header is refused nothing
 * is. `call` may be NULL. Answers 0, or -1 where reading or writing failed: then nothing is answered.
 */
static inline int uart_expect_file(FILE *in, FILE *out, struct uart_expect_progress *answer,
                                   uart_progress_call *call, void *context)
{
    uint8_t part[UART_PART_BYTES];
    size_t of = call ? uart_bytes_left(in) : 0;
    size_t got = fread(part, 1, UART_HEADER_BYTES, in);
    size_t bytes = got;
    size_t records = 0;
    int last = 0;
    struct uart_expect_progress p = uart_expect_begin(part, got);

    if (p.number == UART_DONE && fwrite(part, 1, UART_HEADER_BYTES, out) != UART_HEADER_BYTES)
        return -1;
    while (p.number == UART_DONE && !last) {
        if (call && records > 0)
            call(context, records, bytes, of);
        got = fread(part, 1, sizeof part, in);
        bytes += got;
        last = got < sizeof part;
        p = last ? uart_expect_end(p, part, got) : uart_expect_more(p, part, got);
        records += p.count;
        if (ferror(in) || fwrite(part, UART_RECORD_BYTES, p.count, out) != p.count)
            return -1;
    }
    if (ferror(in) || fflush(out) != 0)
        return -1;
    *answer = p;
    answer->count = records;
    if (call)
        call(context, records, bytes, of);
    return 0;
}
#endif

/*
 * The library's own layout: the size of each struct, and a specimen of each in which every byte of
 * a field is the field's number. The state's fields are numbered from 1 in the order above
 * (UART_STATE_FIELDS; an entry's are 18..21). The answers' own fields are numbered from 100: the
 * number answered is 100, the part beside it 113; the byte, the ticks, the level, the ticks used and the
 * byte seen 101; the output pins 102..107, the model's byte and the place of a replay 108 and 109, a
 * file's version, what stopped it and the records done 110..112, a divisor and its error 114 and 115, the
 * words or records written 116, the jumps 117.
 */
struct uart_sizes {
    uint32_t state;
    uint32_t answer;
    uint32_t looked;
    uint32_t forecasted;
    uint32_t leveled;
    uint32_t ran;
    uint32_t replayed;
    uint32_t progress;
    uint32_t picked;
    uint32_t expected;
    uint32_t expect_progress;
    uint32_t jumped;
    uint32_t jump_ran;
};

struct uart_sizes uart_sizes_of_structs(void);
struct uart_state uart_specimen_state(void);
struct uart_answer uart_specimen_answer(void);
struct uart_looked uart_specimen_looked(void);
struct uart_forecasted uart_specimen_forecasted(void);
struct uart_leveled uart_specimen_leveled(void);
struct uart_ran uart_specimen_ran(void);
struct uart_replayed uart_specimen_replayed(void);
struct uart_progress uart_specimen_progress(void);
struct uart_picked uart_specimen_picked(void);
struct uart_expected uart_specimen_expected(void);
struct uart_expect_progress uart_specimen_expect_progress(void);
struct uart_jumped uart_specimen_jumped(void);
struct uart_jump_ran uart_specimen_jump_ran(void);

#define UART_AT(type, field, place) \
    UART_STATIC_ASSERT(offsetof(struct type, field) == (place), #type "." #field)

/* The state's fields but for its entries: the place in the struct, the number in the specimen. */
#define UART_STATE_FIELDS(F) \
    F(registers.ier, 0, 1)        \
    F(registers.mcr, 1, 2)        \
    F(registers.lcr, 2, 3)        \
    F(registers.scr, 3, 4)        \
    F(baud.divisor, 4, 5)         \
    F(baud.k, 8, 6)               \
    F(fifo.enabled, 12, 7)        \
    F(fifo.size, 13, 8)           \
    F(fifo.dma, 14, 9)            \
    F(fifo.trigger, 15, 10)       \
    F(inputs.modem, 16, 11)       \
    F(inputs.sin, 17, 12)         \
    F(tx.bytes, 20, 13)           \
    F(tx.count, 84, 14)           \
    F(frame.left, 88, 15)         \
    F(frame.byte, 92, 16)         \
    F(frame.format, 93, 17)       \
    F(rx.count, 352, 22)          \
    F(receiver.phase, 356, 23)    \
    F(receiver.format, 357, 24)   \
    F(receiver.samples, 358, 25)  \
    F(receiver.parity, 359, 26)   \
    F(receiver.position, 360, 27) \
    F(latches.empty, 364, 28)     \
    F(latches.overrun, 365, 29)   \
    F(latches.timeout, 366, 30)   \
    F(latches.changes, 367, 31)   \
    F(latches.hold, 368, 32)      \
    F(latches.idle, 372, 33)      \
    F(kept.pe, 376, 34)           \
    F(kept.fe, 377, 35)           \
    F(kept.bi, 378, 36)

#define UART_STATE_AT(field, place, number) UART_AT(uart_state, field, place);

UART_STATIC_ASSERT(sizeof(struct uart_state) == 380, "uart_state");
UART_STATE_FIELDS(UART_STATE_AT)
UART_AT(uart_state, rx.entries, 96);

UART_STATIC_ASSERT(sizeof(struct uart_entry) == 4, "uart_entry");
UART_AT(uart_entry, byte, 0);
UART_AT(uart_entry, pe, 1);
UART_AT(uart_entry, fe, 2);
UART_AT(uart_entry, bi, 3);

UART_STATIC_ASSERT(sizeof(struct uart_answer) == 392, "uart_answer");
UART_AT(uart_answer, number, 0);
UART_AT(uart_answer, byte, 1);
UART_AT(uart_answer, outputs.sout, 2);
UART_AT(uart_answer, outputs.rts, 3);
UART_AT(uart_answer, outputs.dtr, 4);
UART_AT(uart_answer, outputs.out1, 5);
UART_AT(uart_answer, outputs.out2, 6);
UART_AT(uart_answer, outputs.intrpt, 7);
UART_AT(uart_answer, state, 8);
UART_AT(uart_answer, part, 388);

UART_STATIC_ASSERT(sizeof(struct uart_looked) == 8, "uart_looked");
UART_AT(uart_looked, number, 0);
UART_AT(uart_looked, part, 1);
UART_AT(uart_looked, outputs, 2);

UART_STATIC_ASSERT(sizeof(struct uart_forecasted) == 8, "uart_forecasted");
UART_AT(uart_forecasted, number, 0);
UART_AT(uart_forecasted, part, 1);
UART_AT(uart_forecasted, ticks, 4);

UART_STATIC_ASSERT(sizeof(struct uart_leveled) == 3, "uart_leveled");
UART_AT(uart_leveled, number, 0);
UART_AT(uart_leveled, part, 1);
UART_AT(uart_leveled, level, 2);

UART_STATIC_ASSERT(sizeof(struct uart_ran) == 388, "uart_ran");
UART_AT(uart_ran, number, 0);
UART_AT(uart_ran, part, 1);
UART_AT(uart_ran, used, 4);
UART_AT(uart_ran, state, 8);

UART_STATIC_ASSERT(sizeof(struct uart_replayed) == 400, "uart_replayed");
UART_AT(uart_replayed, values.number, 0);
UART_AT(uart_replayed, values.part, 1);
UART_AT(uart_replayed, values.seen, 2);
UART_AT(uart_replayed, values.model, 3);
UART_AT(uart_replayed, values.place, 8);
UART_AT(uart_replayed, state, 16);

UART_STATIC_ASSERT(sizeof(struct uart_progress) == 416, "uart_progress");
UART_AT(uart_progress, version, 0);
UART_AT(uart_progress, stopped, 4);
UART_AT(uart_progress, done, 8);
UART_AT(uart_progress, values, 16);
UART_AT(uart_progress, state, 32);

UART_STATIC_ASSERT(sizeof(struct uart_picked) == 12, "uart_picked");
UART_AT(uart_picked, number, 0);
UART_AT(uart_picked, divisor, 4);
UART_AT(uart_picked, error, 8);

UART_STATIC_ASSERT(sizeof(struct uart_expected) == 400, "uart_expected");
UART_AT(uart_expected, number, 0);
UART_AT(uart_expected, part, 1);
UART_AT(uart_expected, count, 8);
UART_AT(uart_expected, state, 16);

UART_STATIC_ASSERT(sizeof(struct uart_expect_progress) == 400, "uart_expect_progress");
UART_AT(uart_expect_progress, number, 0);
UART_AT(uart_expect_progress, part, 1);
UART_AT(uart_expect_progress, version, 4);
UART_AT(uart_expect_progress, count, 8);
UART_AT(uart_expect_progress, state, 16);

UART_STATIC_ASSERT(sizeof(struct uart_jumped) == 388, "uart_jumped");
UART_AT(uart_jumped, number, 0);
UART_AT(uart_jumped, part, 1);
UART_AT(uart_jumped, jumps, 4);
UART_AT(uart_jumped, state, 8);

UART_STATIC_ASSERT(sizeof(struct uart_jump_ran) == 392, "uart_jump_ran");
UART_AT(uart_jump_ran, number, 0);
UART_AT(uart_jump_ran, part, 1);
UART_AT(uart_jump_ran, used, 4);
UART_AT(uart_jump_ran, jumps, 8);
UART_AT(uart_jump_ran, state, 12);

#define UART_SAME(field, place, number) memcmp(&a->field, &b->field, sizeof a->field) == 0 &&

/* Whether two states are the same, field by field. */
static inline int uart_equal(const struct uart_state *a, const struct uart_state *b)
{
    return UART_STATE_FIELDS(UART_SAME) memcmp(&a->rx.entries, &b->rx.entries, sizeof a->rx.entries) == 0;
}

#ifdef __cplusplus
}
#endif

#endif
