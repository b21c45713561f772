/*
 * calls: one call of the UART model to a line of standard input, one line of
 * answer each. It keeps one current state, fresh at the start. A line that is
 * not exactly one of the forms is answered `bad` and changes nothing.
 */
#include "arguments.h"
#include "capture.h"
#include "divisor.h"
#include "expected.h"
#include "jump.h"
#include "stream.h"

#include <stdlib.h>
#include <string.h>
#include <unistd.h>

#define PROGRAM "calls"
#define BLOCK 65536u
#define MOST_WORDS 1024u
#define MOST_NUMBERS (2u + MOST_WORDS)
#define MOST_DIGITS 10u
/* The longest valid line is `expect`, its numbers and 1,024 times a space and ten digits. */
#define LONGEST_LINE (sizeof "expect 65535 1024" - 1u + MOST_WORDS * (1u + MOST_DIGITS))
/* The longest answer is that of `expect`: number, count and as many words. */
#define LONGEST_ANSWER (sizeof "16 1024\n" - 1u + MOST_WORDS * (1u + MOST_DIGITS))
/* What a word of the run of `expect` is before. */
#define UNWRITTEN 2863311530u

static const char help[] =
    "usage: calls [--help]\n"
    "\n"
    "Takes calls from standard input, one to a line, and writes a line of answer for each:\n"
    "fresh, load V1 .. V351, state, reset, read A, write A B, sin V, modem V, tick, ticks N,\n"
    "pins, forecast, level T, run N, replay V W.., part, divisor CLOCK RATE, expect V ROOM W..,\n"
    "jump N, jumprun N. Any other line is answered bad.\n"
    "\n"
    "The exit status is 0, or 2 where an argument is unknown, or reading or writing failed.\n";

static struct uart current;

/* The numbers of the line that is answered. */
static uint32_t given[MOST_NUMBERS];
static size_t given_count;

/* ---- Output ---- */

static char out[BLOCK];
static size_t out_used;

static void flush_output(void)
{
    if (!stream_write(out, out_used)) {
        stream_trouble(PROGRAM, STANDARD_OUTPUT);
        exit(EXIT_TROUBLE);
    }
    out_used = 0;
}

static void put_number(uint32_t number)
{
    char digits[MOST_DIGITS];
    size_t count = 0;

    do {
        digits[count++] = (char)('0' + number % 10u);
        number /= 10u;
    } while (number != 0u);
    while (count > 0)
        out[out_used++] = digits[--count];
}

/* A number that may be below 0. */
static void put_signed(int32_t number)
{
    if (number < 0)
        out[out_used++] = '-';
    put_number((uint32_t)(number < 0 ? -number : number));
}

static void put_numbers(const uint32_t *numbers, size_t count)
{
    for (size_t i = 0; i < count; i++) {
        if (i > 0)
            out[out_used++] = ' ';
        put_number(numbers[i]);
    }
    out[out_used++] = '\n';
}

static void put_bad(void)
{
    memcpy(out + out_used, "bad\n", 4);
    out_used += 4;
}

static void put_done(void)
{
    uint32_t zero = 0;

    put_numbers(&zero, 1);
}

static void put_step(struct uart_answer a)
{
    uint32_t numbers[] = { a.number,   a.byte,      a.pins.sout, a.pins.rts,
                           a.pins.dtr, a.pins.out1, a.pins.out2, a.pins.intrpt };

    put_numbers(numbers, sizeof numbers / sizeof numbers[0]);
}

static void put_pair(uint32_t number, uint32_t result)
{
    uint32_t numbers[] = { number, result };

    put_numbers(numbers, sizeof numbers / sizeof numbers[0]);
}

static void put_value(struct uart_value v)
{
    put_pair(v.number, v.value);
}

static void put_divisor(struct divisor_answer a)
{
    put_number(a.number);
    out[out_used++] = ' ';
    put_number(a.divisor);
    out[out_used++] = ' ';
    put_signed(a.error);
    out[out_used++] = '\n';
}

/* ---- The calls ---- */

static void call_fresh(void)
{
    uart_fresh(&current);
    put_done();
}

/* The state is numbers of 32 bits without gaps, in the order of the protocol. */
static void call_load(void)
{
    memcpy(&current, given, sizeof current);
    put_done();
}

static void call_state(void)
{
    uint32_t places[UART_STATE_PLACES];

    memcpy(places, &current, sizeof places);
    put_numbers(places, UART_STATE_PLACES);
}

static void call_reset(void)
{
    put_step(uart_reset(&current));
}

static void call_read(void)
{
    put_step(uart_read(&current, given[0]));
}

static void call_write(void)
{
    put_step(uart_write(&current, given[0], (uint8_t)given[1]));
}

static void call_sin(void)
{
    put_step(uart_set_sin(&current, given[0]));
}

static void call_modem(void)
{
    put_step(uart_set_modem(&current, given[0]));
}

static void call_tick(void)
{
    put_step(uart_tick(&current));
}

static void call_ticks(void)
{
    put_step(uart_ticks(&current, given[0]));
}

static void call_pins(void)
{
    struct uart_answer a = uart_look(&current);
    uint32_t numbers[] = { a.number,    a.pins.sout, a.pins.rts,   a.pins.dtr,
                           a.pins.out1, a.pins.out2, a.pins.intrpt };

    put_numbers(numbers, sizeof numbers / sizeof numbers[0]);
}

static void call_forecast(void)
{
    put_value(uart_forecast(&current));
}

static void call_level(void)
{
    put_value(uart_level(&current, given[0]));
}

static void call_run(void)
{
    put_value(uart_run(&current, given[0]));
}

/* The first number is the version, the others are records. */
static void call_replay(void)
{
    out_used += replay_line(replay(&current, given[0], given + 1, given_count - 1), out + out_used);
}

/* The number and the part of any call on the current state. */
static void call_part(void)
{
    struct uart_answer a = uart_look(&current);

    put_pair(a.number, a.part);
}

/* The current state has no part in it. */
static void call_divisor(void)
{
    put_divisor(divisor_pick(given[0], given[1]));
}

/* The version and the room, then records: number and count, and the room's words as they are then. */
static void call_expect(void)
{
    static uint32_t numbers[2u + MOST_WORDS];
    uint32_t *words = numbers + 2;
    struct expected_answer a;

    for (size_t i = 0; i < given[1]; i++)
        words[i] = UNWRITTEN;
    a = expected(&current, given[0], given + 2, given_count - 2, words, given[1]);
    numbers[0] = a.number;
    numbers[1] = (uint32_t)a.count;
    put_numbers(numbers, 2u + given[1]);
}

static void call_jump(void)
{
    struct jump_answer a = jump_ticks(&current, given[0]);

    put_pair(a.number, a.jumps);
}

static void call_jump_run(void)
{
    struct jump_answer a = jump_run(&current, given[0]);
    uint32_t numbers[] = { a.number, a.used, a.jumps };

    put_numbers(numbers, sizeof numbers / sizeof numbers[0]);
}

/*
 * A form: its word, how many numbers follow, the least of each, the most of the
 * first and of each behind it, and how many words of any 32 bits may come after these.
 */
struct form {
    const char *word;
    size_t numbers;
    uint32_t least;
    uint32_t most[2];
    size_t words;
    void (*call)(void);
};

static const struct form forms[] = {
    { "tick", 0, 0, { 0 }, 0, call_tick },
    { "ticks", 1, 1, { UINT32_MAX }, 0, call_ticks },
    { "read", 1, 0, { 255 }, 0, call_read },
    { "write", 2, 0, { 255, 255 }, 0, call_write },
    { "sin", 1, 0, { 255 }, 0, call_sin },
    { "modem", 1, 0, { 255 }, 0, call_modem },
    { "state", 0, 0, { 0 }, 0, call_state },
    { "level", 1, 0, { UINT32_MAX }, 0, call_level },
    { "forecast", 0, 0, { 0 }, 0, call_forecast },
    { "pins", 0, 0, { 0 }, 0, call_pins },
    { "run", 1, 0, { UINT32_MAX }, 0, call_run },
    { "load", UART_STATE_PLACES, 0, { UINT32_MAX, UINT32_MAX }, 0, call_load },
    { "fresh", 0, 0, { 0 }, 0, call_fresh },
    { "reset", 0, 0, { 0 }, 0, call_reset },
    { "replay", 1, 0, { 65535 }, MOST_WORDS, call_replay },
    { "part", 0, 0, { 0 }, 0, call_part },
    { "divisor", 2, 0, { UINT32_MAX, UINT32_MAX }, 0, call_divisor },
    { "expect", 2, 0, { 65535, MOST_WORDS }, MOST_WORDS, call_expect },
    { "jump", 1, 0, { UINT32_MAX }, 0, call_jump },
    { "jumprun", 1, 0, { UINT32_MAX }, 0, call_jump_run },
};

/* ---- Lines ---- */

static const struct form *find_form(const char *word, size_t length)
{
    for (size_t i = 0; i < sizeof forms / sizeof forms[0]; i++)
        if (strlen(forms[i].word) == length && memcmp(forms[i].word, word, length) == 0)
            return &forms[i];
    return NULL;
}

/*
 * A decimal number with no sign and no leading zero, at most 4294967295.
 * Returns the place after its last digit, or NULL if there is no such number.
 */
static const char *take_number(const char *at, const char *end, uint32_t *number)
{
    const char *first = at;
    uint64_t sum = 0;

    while (at < end && *at >= '0' && *at <= '9') {
        if ((size_t)(at - first) == MOST_DIGITS)
            return NULL;
        sum = sum * 10u + (uint64_t)(*at - '0');
        at++;
    }
    if (at == first || (*first == '0' && at - first > 1) || sum > UINT32_MAX)
        return NULL;
    *number = (uint32_t)sum;
    return at;
}

/* A space and a number in its range. Returns the place after it, or NULL. */
static const char *take_given(const char *at, const char *end, uint32_t least, uint32_t most)
{
    uint32_t *number = &given[given_count];

    if (at == end || *at != ' ')
        return NULL;
    at = take_number(at + 1, end, number);
    if (at == NULL || *number < least || *number > most)
        return NULL;
    given_count++;
    return at;
}

/* Exactly the form's numbers, then at most its words, up to the line's end. */
static bool take_numbers(const char *at, const char *end, const struct form *form)
{
    given_count = 0;
    while (given_count < form->numbers) {
        at = take_given(at, end, form->least, form->most[given_count > 0]);
        if (at == NULL)
            return false;
    }
    while (at != end && given_count < form->numbers + form->words) {
        at = take_given(at, end, 0u, UINT32_MAX);
        if (at == NULL)
            return false;
    }
    return at == end;
}

/* Makes the call of one line, without its newline. False if it is none of the forms. */
static bool answer_line(const char *line, size_t length)
{
    const char *end = line + length;
    const char *space = memchr(line, ' ', length);
    const char *word_end = space != NULL ? space : end;
    const struct form *form = find_form(line, (size_t)(word_end - line));

    if (form == NULL || !take_numbers(word_end, end, form))
        return false;
    form->call();
    return true;
}

/* ---- Input ---- */

static char in[BLOCK];
static size_t in_used;   /* bytes read of a line whose end has not been read yet */
static bool in_overlong; /* that line is longer than any form; its bytes are dropped */

static void end_line(const char *line, size_t length)
{
    if (out_used + LONGEST_ANSWER > sizeof out)
        flush_output();
    if (in_overlong || length > LONGEST_LINE || !answer_line(line, length))
        put_bad();
    in_overlong = false;
}

/* Answers the whole lines in the buffer and keeps the rest for the next block. */
static void answer_whole_lines(void)
{
    char *at = in;
    char *end = in + in_used;
    char *newline;

    while ((newline = memchr(at, '\n', (size_t)(end - at))) != NULL) {
        end_line(at, (size_t)(newline - at));
        at = newline + 1;
    }
    in_used = (size_t)(end - at);
    if (in_used > LONGEST_LINE)
        in_overlong = true;
    if (in_overlong)
        in_used = 0;
    memmove(in, at, in_used);
}

int main(int argc, char **argv)
{
    ssize_t n;

    arguments_take(PROGRAM, argc, argv, false, help);
    uart_fresh(&current);
    while ((n = stream_read(STDIN_FILENO, in + in_used, sizeof in - in_used)) > 0) {
        in_used += (size_t)n;
        answer_whole_lines();
        flush_output();
    }
    if (n < 0) {
        stream_trouble(PROGRAM, STANDARD_INPUT);
        return EXIT_TROUBLE;
    }
    if (in_used > 0 || in_overlong)
        end_line(in, in_used);
    flush_output();
    return EXIT_SUCCESS;
}
