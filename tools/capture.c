/*
 * capture: a listing from standard input into a capture on standard output, or with --list a capture
 * into a listing. Memory does not grow with the file. Where a line of a listing is bad nothing is
 * written: a capture that ends early could be taken for one that agrees.
 */
#define _POSIX_C_SOURCE 200809L

#include "trouble.h"
#include "utr.h"

#include <inttypes.h>
#include <stdarg.h>
#include <stdlib.h>
#include <string.h>
#include <unistd.h>

#define MOST_LINE 200  /* bytes of a line before its comment */
#define MOST_WORDS 8   /* of a line; a good one has three at most */
#define MOST_TICKS UINT32_MAX /* of a line */

const char tool[] = "capture";

static const char help[] =
    "usage: capture <LISTING >CAPTURE\n"
    "       capture --list <CAPTURE >LISTING\n"
    "\n"
    "A listing has one record a line; what follows a # is a comment. Numbers are decimal, or\n"
    "hexadecimal after 0x.\n"
    "\n"
    "  ticks N       N clock ticks, 0 to 4294967295; more than 65535 become several records\n"
    "  read A B      a read of address A, 0 to 7, saw byte B, 0 to 255\n"
    "  write A B     byte B was written to address A\n"
    "  sin V         the pin SIN went to V, 0 or 1\n"
    "  modem V       the modem pins went to V, 0 to 15; bits 0 to 3 are CTS, DSR, RI, DCD\n"
    "  reset\n"
    "  record W      the word W as it is, good or bad, 0 to 0xFFFFFFFF\n"
    "\n"
    "A listing made from a capture has each record's place behind it, counted from 0 as in an answer\n"
    "of the program `replay`. The status is 0, or 2 where the input is bad, or reading or writing\n"
    "failed. The capture's format stands in docs/CAPTURE.md, installed in share/tl16c750.\n";

static _Noreturn void end_message(void)
{
    fputc('\n', stderr);
    exit(TROUBLE);
}

static void want_read(FILE *in)
{
    if (ferror(in))
        stop("reading");
}

static void want_written(FILE *out)
{
    if (fflush(out) != 0 || ferror(out))
        stop("writing");
}

/* Tells what is awaited, where standard input is a terminal. */
static void hint(const char *awaited)
{
    if (isatty(STDIN_FILENO))
        fprintf(stderr, "capture: %s\n", awaited);
}

/* ---- A listing into a capture ---- */

/* A line without its comment. */
struct line {
    uint64_t number; /* from 1 */
    size_t length;
    char text[MOST_LINE];
};

/* A word of a line: where it starts, from 0, and its bytes. */
struct word {
    size_t at;
    size_t length;
    const char *text;
};

static _Noreturn void stop_at(const struct line *line, size_t at, const char *reason, ...)
{
    va_list values;

    fprintf(stderr, "capture: line %" PRIu64 ", column %zu: ", line->number, at + 1);
    va_start(values, reason);
    vfprintf(stderr, reason, values);
    va_end(values);
    end_message();
}

/* The next line; false at the end of the listing. */
static bool read_line(struct line *line)
{
    int c = getc_unlocked(stdin);

    want_read(stdin);
    if (c == EOF)
        return false;
    line->number++;
    for (line->length = 0; c != EOF && c != '\n' && c != '#'; c = getc_unlocked(stdin)) {
        if (line->length == MOST_LINE)
            stop_at(line, MOST_LINE, "a line has at most %d bytes before its comment", MOST_LINE);
        line->text[line->length++] = (char)c;
    }
    while (c != EOF && c != '\n')
        c = getc_unlocked(stdin);
    want_read(stdin);
    return true;
}

static bool blank(char c)
{
    return c == ' ' || c == '\t' || c == '\r';
}

/* The words of a line, the first MOST_WORDS of them. */
static size_t split(const struct line *line, struct word *words)
{
    size_t count = 0;
    size_t at = 0;

    while (count < MOST_WORDS) {
        while (at < line->length && blank(line->text[at]))
            at++;
        if (at == line->length)
            break;
        words[count].at = at;
        words[count].text = line->text + at;
        while (at < line->length && !blank(line->text[at]))
            at++;
        words[count].length = at - words[count].at;
        count++;
    }
    return count;
}

static int digit_of(char c)
{
    static const char digits[] = "0123456789abcdef0123456789ABCDEF";
    const char *found = c == '\0' ? NULL : strchr(digits, c);

    return found == NULL ? -1 : (int)((found - digits) % 16);
}

/* The number that a word spells, at most `most`; `name` is what it stands for. */
static uint32_t number_of(const struct line *line, const struct word *word, const char *name,
                          uint32_t most)
{
    bool hex = word->length > 1 && word->text[0] == '0' && (word->text[1] == 'x' || word->text[1] == 'X');
    int base = hex ? 16 : 10;
    uint64_t value = 0;

    if (hex && word->length == 2)
        stop_at(line, word->at + 2, "a digit is missing");
    if (!hex && word->length > 1 && word->text[0] == '0')
        stop_at(line, word->at, "a decimal number has no 0 in front; hexadecimal starts with 0x");
    for (size_t i = hex ? 2 : 0; i < word->length; i++) {
        int digit = digit_of(word->text[i]);

        if (digit < 0 || digit >= base)
            stop_at(line, word->at + i, "no digit of a %s number", hex ? "hexadecimal" : "decimal");
        value = value * (uint64_t)base + (uint64_t)digit;
        if (value > most)
            stop_at(line, word->at, "the %s is at most %" PRIu32, name, most);
    }
    return (uint32_t)value;
}

/* A line that starts with `name` has to have this many numbers. */
static void want_numbers(const struct line *line, const struct word *words, size_t count,
                         const char *name, size_t wanted)
{
    if (count - 1 > wanted)
        stop_at(line, words[wanted + 1].at, "`%s` has %zu number%s, this is one more", name, wanted,
                wanted == 1 ? "" : "s");
    if (count - 1 < wanted)
        stop_at(line, line->length, "`%s` has %zu number%s, here %s %zu", name, wanted,
                wanted == 1 ? "" : "s", count == 2 ? "is" : "are", count - 1);
}

static void write_ticks(FILE *out, uint32_t ticks)
{
    uint32_t most = utr_forms[UTR_TICKS].fields[0].most;

    for (; ticks > most; ticks -= most)
        utr_write_word(out, most);
    utr_write_word(out, ticks);
}

/* The record of a kind from the numbers behind its name. */
static void write_record(FILE *out, const struct line *line, const struct word *words, unsigned kind)
{
    const struct utr_form *form = &utr_forms[kind];
    uint32_t record = (uint32_t)kind << UTR_KIND_BIT;

    for (unsigned i = 0; i < form->count; i++) {
        const struct utr_field *field = &form->fields[i];

        record |= number_of(line, &words[i + 1], field->name, field->most) << field->shift;
    }
    utr_write_word(out, record);
}

static bool named(const struct word *word, const char *name)
{
    return word->length == strlen(name) && memcmp(word->text, name, word->length) == 0;
}

static void write_line(FILE *out, const struct line *line)
{
    struct word words[MOST_WORDS];
    size_t count = split(line, words);

    if (count == 0)
        return;
    if (named(&words[0], "record")) {
        want_numbers(line, words, count, "record", 1);
        utr_write_word(out, number_of(line, &words[1], "word", UINT32_MAX));
        return;
    }
    for (unsigned kind = 0; kind < UTR_KINDS; kind++) {
        if (!named(&words[0], utr_forms[kind].name))
            continue;
        want_numbers(line, words, count, utr_forms[kind].name, utr_forms[kind].count);
        if (kind == UTR_TICKS)
            write_ticks(out, number_of(line, &words[1], "count", MOST_TICKS));
        else
            write_record(out, line, words, kind);
        return;
    }
    stop_at(line, words[0].at, "no record's name: ticks, read, write, sin, modem, reset, record");
}

static void copy_all(FILE *from, FILE *to)
{
    static char bytes[UTR_BLOCK * UTR_RECORD_BYTES];
    size_t count;

    rewind(from);
    while ((count = fread(bytes, 1, sizeof bytes, from)) > 0)
        fwrite(bytes, 1, count, to);
    want_read(from);
}

static void make_capture(void)
{
    struct line line = {0, 0, {0}};
    FILE *made = tmpfile();

    if (made == NULL)
        stop("making a temporary file");
    hint("a listing is read from the terminal; Ctrl-D ends it");
    utr_write_header(made);
    while (read_line(&line))
        write_line(made, &line);
    want_written(made);
    copy_all(made, stdout);
}

/* ---- A capture into a listing ---- */

#define COLUMN 20      /* of the place behind a record */
#define MOST_LISTED 64 /* bytes of a line */

static char *put_text(char *end, const char *text)
{
    size_t length = strlen(text);

    memcpy(end, text, length);
    return end + length;
}

static char *put_number(char *end, uint64_t number)
{
    char digits[20];
    size_t count = 0;

    do {
        digits[count++] = (char)('0' + number % 10);
        number /= 10;
    } while (number > 0);
    while (count > 0)
        *end++ = digits[--count];
    return end;
}

/* Put together by hand: printf would take most of the time of a long listing. */
static void list_record(uint32_t word, uint64_t place)
{
    char line[MOST_LISTED];
    char *end = line;

    if (utr_good(word)) {
        const struct utr_form *form = &utr_forms[utr_kind(word)];

        end = put_text(end, form->name);
        for (unsigned i = 0; i < form->count; i++)
            end = put_number(put_text(end, " "), utr_field(word, i));
    } else {
        end += sprintf(end, "record 0x%08" PRIX32, word);
    }
    while (end < line + COLUMN)
        *end++ = ' ';
    end = put_number(put_text(end, "# "), place);
    end = put_text(end, "\n");
    fwrite(line, 1, (size_t)(end - line), stdout);
}

static void list_capture(void)
{
    static uint32_t words[UTR_BLOCK];
    struct utr_header header;
    struct utr_rest rest;
    uint64_t place = 0;
    size_t count;

    hint("a capture is awaited, not a terminal; see capture --help");
    header = utr_read_header(stdin);
    want_read(stdin);
    if (utr_header_number(&header) != 0) {
        fputs("capture: ", stderr);
        utr_tell_header(stderr, &header);
        end_message();
    }
    do {
        count = utr_read_block(stdin, words, &rest);
        want_read(stdin);
        for (size_t i = 0; i < count; i++)
            list_record(words[i], place++);
    } while (count == UTR_BLOCK);
    if (rest.count > 0) {
        want_written(stdout);
        fputs("capture: ", stderr);
        utr_tell_rest(stderr, &rest);
        end_message();
    }
}

int main(int argc, char **argv)
{
    if (argc == 2 && strcmp(argv[1], "--help") == 0) {
        fputs(help, stdout);
    } else if (argc == 2 && strcmp(argv[1], "--list") == 0) {
        list_capture();
    } else if (argc == 1) {
        make_capture();
    } else {
        fprintf(stderr, "capture: %s: no such argument; see capture --help\n", argv[argc - 1]);
        return TROUBLE;
    }
    want_written(stdout);
    return EXIT_SUCCESS;
}
