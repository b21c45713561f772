/*
 * Sends a message, clears the transmit FIFO in the middle of a character, and prints what left the
 * line: the character that had begun is finished, as the part finishes it. Then sends a character by
 * jumps, replays a capture of the same, from records and from a file, and writes the one that is
 * expected where a read differs.
 */
#include "tl16c750.h"

#include <inttypes.h>
#include <stdbool.h>
#include <stdio.h>
#include <stdlib.h>
#include <string.h>

#define PULSES_PER_BIT 16 /* and a tick is a pulse: the divisor is 1 */
#define BITS_PER_FRAME 10 /* start, eight data bits, stop */
#define MOST_TICKS 4096
#define MOST_RECORDS 8

static struct uart_state uart;

/* The levels of SOUT, one for each tick. */
static uint8_t sout[MOST_TICKS];
static uint32_t ticks;

static struct uart_answer done(struct uart_answer a)
{
    if (a.number != UART_DONE) {
        printf("refused, number %d, part %d\n", a.number, a.part);
        exit(EXIT_FAILURE);
    }
    uart = a.state;
    return a;
}

static void write_register(uint8_t address, uint8_t byte)
{
    done(uart_write(uart, address, byte));
}

static uint8_t read_register(uint8_t address)
{
    return done(uart_read(uart, address)).byte;
}

/* The divisor's latches for a rate. */
static void set_rate(uint32_t clock, uint32_t rate)
{
    struct uart_picked picked = uart_divisor_for(clock, rate);

    if (picked.number != UART_DONE) {
        printf("refused, number %d\n", picked.number);
        exit(EXIT_FAILURE);
    }
    printf("divisor at %" PRIu32 " Hz for %" PRIu32 " baud: ", clock, rate);
    printf("%" PRIu32 ", error %" PRId32 " ppm\n", picked.divisor, picked.error);
    write_register(UART_LCR, 0x80);
    write_register(UART_DLL, (uint8_t)picked.divisor);
    write_register(UART_DLM, (uint8_t)(picked.divisor >> 8));
}

static void tick(uint32_t n)
{
    for (uint32_t i = 0; i < n; i++)
        sout[ticks++] = done(uart_tick(uart)).outputs.sout;
}

static uint32_t print_forecast(void)
{
    struct uart_forecasted f = uart_forecast(uart);

    printf("forecast: number %d, %" PRIu32 " ticks\n", f.number, f.ticks);
    return f.ticks;
}

/* Whether the levels from now on are those that were foretold of the state before them. */
static bool foretold(struct uart_state before, uint32_t from)
{
    for (uint32_t t = 1; from + t <= ticks; t++)
        if (uart_level(before, t).level != sout[from + t - 1])
            return false;
    return true;
}

/* The characters on the line, each from its start bit, read in the middle of a bit. */
static void print_line(void)
{
    char text[MOST_TICKS / PULSES_PER_BIT];
    size_t length = 0;
    uint32_t at = 0;

    while (at + PULSES_PER_BIT * BITS_PER_FRAME <= ticks) {
        unsigned byte = 0;

        if (sout[at] != 0) {
            at++;
            continue;
        }
        printf("line: ");
        for (uint32_t bit = 0; bit < BITS_PER_FRAME; bit++) {
            uint8_t level = sout[at + PULSES_PER_BIT * bit + PULSES_PER_BIT / 2];

            printf("%s%d", bit == 1 || bit == BITS_PER_FRAME - 1 ? " " : "", level);
            if (1 <= bit && bit <= 8)
                byte |= (unsigned)level << (bit - 1);
        }
        printf(" is %c\n", (int)byte);
        text[length++] = (char)byte;
        at += PULSES_PER_BIT * BITS_PER_FRAME;
    }
    printf("left the line: %.*s\n", (int)length, text);
}

static void print_outcome(const char *what, struct uart_values v)
{
    if (v.number != UART_DONE)
        printf("%s: refused %d %zu\n", what, v.number, v.place);
    else if (v.seen != v.model)
        printf("%s: differs %zu %d %d\n", what, v.place, v.seen, v.model);
    else
        printf("%s: agreed\n", what);
}

/* Replays records of a capture from the fresh state, and prints the end as the program `replay` does. */
static void print_replay(const uint32_t *records, size_t count)
{
    struct uart_replayed r = uart_replay(uart_fresh(), 1, records, count);

    print_outcome("replay", r.values);
    uart = r.state;
}

static void print_progress(void *context, size_t records, size_t bytes, size_t of)
{
    (void)context;
    printf("file: %zu records, %zu of %zu bytes\n", records, bytes, of);
}

static FILE *new_file(void)
{
    FILE *file = tmpfile();

    if (file == NULL) {
        perror("a file for the capture");
        exit(EXIT_FAILURE);
    }
    return file;
}

/* The same as a file: the header (mark, version, pad), then each record, little-endian. */
static FILE *file_of(const uint32_t *records, size_t count)
{
    const uint8_t header[UART_HEADER_BYTES] = {'U', 'T', 'R', 0, 1, 0, 0, 0};
    FILE *file = new_file();

    fwrite(header, 1, sizeof header, file);
    for (size_t i = 0; i < count; i++)
        for (unsigned shift = 0; shift < 32; shift += 8)
            fputc((int)(records[i] >> shift & 0xFF), file);
    rewind(file);
    return file;
}

/* Replays a file, and closes it. */
static void print_file(FILE *file)
{
    struct uart_replayed r;

    if (uart_replay_file(file, &r, print_progress, NULL) != 0) {
        perror("the capture");
        exit(EXIT_FAILURE);
    }
    fclose(file);
    print_outcome("file", r.values);
}

/* Writes the capture that is expected for these records from the fresh state, and replays it. */
static void print_expected(const uint32_t *records, size_t count)
{
    uint32_t words[MOST_RECORDS];
    struct uart_expected e = uart_expect(uart_fresh(), 1, records, count, words, MOST_RECORDS);

    if (e.number != UART_DONE) {
        printf("expected: refused %d, %zu records written\n", e.number, e.count);
        return;
    }
    printf("expected: %zu records, the last is %08" PRIX32 "\n", e.count, words[e.count - 1]);
    print_replay(words, e.count);
}

/* The same from a file into another one. */
static void print_expected_file(FILE *file)
{
    FILE *expected = new_file();
    struct uart_expect_progress e;

    if (uart_expect_file(file, expected, &e, NULL, NULL) != 0) {
        perror("the expected capture");
        exit(EXIT_FAILURE);
    }
    fclose(file);
    printf("expected file: number %d, %zu records\n", e.number, e.count);
    rewind(expected);
    print_file(expected);
}

/* Sends a character at the largest divisor, where nearly all ticks only bring the next pulse nearer. */
static void print_jumps(void)
{
    struct uart_jump_ran r;

    uart = uart_fresh();
    write_register(UART_LCR, 0x83);
    write_register(UART_DLL, 0xFF);
    write_register(UART_DLM, 0xFF);
    write_register(UART_LCR, 0x03);
    write_register(UART_THR, 'H');
    r = uart_jump_run(uart, UINT32_MAX);
    printf("by jumps: number %d, %" PRIu32 " ticks, %" PRIu32 " jumps\n", r.number, r.used, r.jumps);
}

static void print_refusals(void)
{
    struct uart_looked looked;

    printf("read of register 8: number %d\n", uart_read(uart, 8).number);
    printf("SIN at 2: number %d\n", uart_set_sin(uart, 2).number);
    memset(uart.tx.bytes, 0xFF, sizeof uart.tx.bytes);
    looked = uart_pins(uart);
    printf("pins of a damaged state: number %d, part %d\n", looked.number, looked.part);
}

/* A character is on the line when the transmit FIFO is cleared; LSR is read then. */
static void replay_captures(void)
{
    uint32_t records[MOST_RECORDS] = {
        0x20000383, /* LCR 83: the divisor at 0 and 1 */
        0x20000001, /* DLL 01 */
        0x20000303, /* LCR 03 */
        0x20000201, /* FCR 01: FIFO on */
        0x20000048, /* THR H */
        0x00000028, /* 40 ticks */
        0x20000205, /* FCR 05: transmit FIFO cleared */
        0x10000520, /* LSR: 20 seen */
    };

    print_replay(records, MOST_RECORDS);
    print_file(file_of(records, MOST_RECORDS));
    records[7] = 0x10000560; /* LSR: 60 seen */
    print_replay(records, MOST_RECORDS);
    print_forecast();
    print_expected(records, MOST_RECORDS);
    print_expected_file(file_of(records, MOST_RECORDS));
    records[5] = 0x60000000; /* of no kind */
    print_replay(records, MOST_RECORDS);
    print_expected(records, MOST_RECORDS);
}

int main(void)
{
    const char *message = "HELLO, BEAM";
    struct uart_state before;
    uint32_t from;
    uint32_t left;

    uart = uart_fresh();
    set_rate(2000000, 128000);
    write_register(UART_FCR, 0x21); /* FIFO on, 64 bytes */
    write_register(UART_LCR, 0x03); /* eight bits, no parity, one stop bit */

    for (const char *c = message; *c != '\0'; c++)
        write_register(UART_THR, (uint8_t)*c);
    printf("queued: %s\n", message);
    print_forecast();

    tick(400);
    printf("after %" PRIu32 " ticks the transmit FIFO is cleared\n", ticks);
    write_register(UART_FCR, 0x05);
    printf("LSR: %02X\n", read_register(UART_LSR));
    left = print_forecast();

    before = uart;
    from = ticks;
    tick(left - 1);
    printf("LSR one tick before: %02X\n", read_register(UART_LSR));
    tick(1);
    printf("LSR then: %02X\n", read_register(UART_LSR));
    tick(200);
    printf("levels as foretold: %s\n", foretold(before, from) ? "yes" : "no");
    print_line();

    print_refusals();
    print_jumps();
    replay_captures();
    return EXIT_SUCCESS;
}
