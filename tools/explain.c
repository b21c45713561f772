/*
 * explain: replays a capture on the proved model and says what happened: replay's answer, the records
 * around the place with their registers and bits by name, and the model's state there in words. All
 * facts are the library's; only the names are this program's own.
 */
#define _POSIX_C_SOURCE 200809L

#include "model.h"
#include "names.h"
#include "state.h"
#include "trouble.h"
#include "utr.h"

#include <inttypes.h>
#include <stdlib.h>
#include <string.h>
#include <unistd.h>

#define CONTEXT 6
#define MOST_CONTEXT UTR_BLOCK

enum status { AGREED = 0, DIFFERS = 1, REFUSED = TROUBLE };

const char tool[] = "explain";

static const char help[] =
    "usage: explain [--context N | --all] [CAPTURE]\n"
    "\n"
    "Replays a capture from a file, or from standard input without one or for -, and writes the answer\n"
    "of `replay`, then the records around the place where it stopped, then the model's state there,\n"
    "before that record. Each record has its place, counted from 0, and the ticks since the first\n"
    "record. A > marks a bad record and a read whose byte is not the model's; behind the place the\n"
    "model goes on with its own bytes, and a bad record changes nothing.\n"
    "\n"
    "  --context N   N records before the place and N behind it, 0 to 8192; 6 without this\n"
    "  --all         every record\n"
    "  --help        this text\n"
    "\n"
    "Colours only where standard output is a terminal and NO_COLOR is not set. The status is 0 where\n"
    "the capture agrees, 1 where it differs, 2 where it is refused or something went wrong.\n"
    "The capture's format stands in docs/CAPTURE.md, installed in share/tl16c750.\n";

struct options {
    size_t context;
    bool all;
    const char *path; /* NULL: standard input */
};

/* Colours; empty where there are none. */
static const char *bold = "";
static const char *red = "";
static const char *plain = "";

/* ---- Places ---- */

/* A place in a capture: the records and the ticks before it, and the model's state there. */
struct position {
    uint64_t place;
    uint64_t ticks;
    struct uart_state state;
};

/* Goes over records, but for the state. */
static void pass(struct position *position, const uint32_t *words, size_t count)
{
    position->place += count;
    for (size_t i = 0; i < count; i++)
        if (utr_kind(words[i]) == UTR_TICKS && utr_good(words[i]))
            position->ticks += utr_field(words[i], 0);
}

/* The block of records in which a replay ended, the one before it and the one behind it. */
struct window {
    uint32_t version;
    struct position first; /* of the words */
    struct position end;   /* where the replay ended */
    struct model_outcome outcome;
    struct utr_rest rest;
    size_t count;
    uint32_t words[3 * UTR_BLOCK];
};

static size_t read_block(FILE *in, struct window *window, struct utr_rest *rest)
{
    size_t count = utr_read_block(in, window->words + window->count, rest);

    if (ferror(in))
        stop("reading");
    return count;
}

/* Replays the records of a file of the window's version up to the place where it stops. */
static void replay(FILE *in, struct window *window)
{
    struct utr_rest unused;
    size_t got;

    window->end = (struct position){0, 0, model_fresh()};
    window->first = window->end;
    window->count = 0;
    for (;;) {
        uint32_t *block = window->words + window->count;
        struct position before = window->end;

        got = read_block(in, window, &window->rest);
        window->outcome = model_replay(&window->end.state, window->version, block, got);
        pass(&window->end, block, window->outcome.place);
        if (window->outcome.end != MODEL_AGREED || got < UTR_BLOCK)
            break;
        memmove(window->words, block, UTR_BLOCK * sizeof *block);
        window->count = UTR_BLOCK;
        window->first = before;
    }
    window->count += got;
    if (got == UTR_BLOCK)
        window->count += read_block(in, window, &unused);
}

static enum status status_of(const struct window *window)
{
    if (window->outcome.end == MODEL_DIFFERS)
        return DIFFERS;
    return window->outcome.end == MODEL_AGREED && window->rest.count == 0 ? AGREED : REFUSED;
}

/* ---- A record in words ---- */

static void tell_access(uint32_t word, const struct uart_state *before, enum name *name)
{
    bool writing = utr_kind(word) == UTR_WRITE;

    *name = name_at(utr_field(word, 0), writing, before->registers.lcr >> 7);
    printf("%s %s ", utr_forms[utr_kind(word)].name, name_of(*name));
    name_byte(stdout, *name, (uint8_t)utr_field(word, 1));
}

static void tell_read(uint32_t word, const struct uart_state *before, uint8_t model)
{
    enum name name;

    tell_access(word, before, &name);
    if (utr_field(word, 1) != model) {
        fputs(", the model answers ", stdout);
        name_byte(stdout, name, model);
    }
}

static void tell_write(uint32_t word, const struct uart_state *before, const struct uart_state *after)
{
    enum name name;

    tell_access(word, before, &name);
    if (name == DLL || name == DLM)
        printf(", divisor %" PRIu32, after->baud.divisor);
}

/* A record, between the states before and after it; of a read, the model's byte. */
static void tell_record(uint32_t word, const struct uart_state *before, const struct uart_state *after,
                        uint8_t model)
{
    if (!utr_good(word)) {
        utr_tell_record(stdout, word);
        return;
    }
    switch (utr_kind(word)) {
    case UTR_TICKS:
        printf("%" PRIu32 " tick%s", utr_field(word, 0), utr_field(word, 0) == 1 ? "" : "s");
        break;
    case UTR_READ:
        tell_read(word, before, model);
        break;
    case UTR_WRITE:
        tell_write(word, before, after);
        break;
    case UTR_SIN:
        printf("SIN %s", utr_field(word, 0) ? "high" : "low");
        break;
    case UTR_MODEM:
        fputs("modem pins asserted: ", stdout);
        name_modem(stdout, (uint8_t)utr_field(word, 0));
        break;
    default:
        fputs("reset", stdout);
    }
}

/* ---- The listing ---- */

static void list_heading(void)
{
    printf("\n%s  %10s  %14s%s\n", bold, "record", "ticks", plain);
}

/* A line for a record; the position moves behind it. */
static void list_record(struct position *position, uint32_t word)
{
    const struct uart_state before = position->state;
    bool good = utr_good(word);
    uint8_t model = good ? model_step(&position->state, word) : 0;
    bool marked = !good || (utr_kind(word) == UTR_READ && utr_field(word, 1) != model);

    printf("%s%c %10" PRIu64 "  %14" PRIu64 "  ", marked ? red : "", marked ? '>' : ' ',
           position->place, position->ticks);
    tell_record(word, &before, &position->state, model);
    printf("%s\n", marked ? plain : "");
    pass(position, &word, 1);
}

static void list_rest(const struct utr_rest *rest)
{
    if (rest->count > 0) {
        printf("%s> ", red);
        utr_tell_rest(stdout, rest);
        printf("%s\n", plain);
    }
}

/* Some records before the place and behind it. */
static void list_context(const struct window *window, size_t context)
{
    size_t at = (size_t)(window->end.place - window->first.place);
    size_t from = at > context ? at - context : 0;
    size_t behind = window->count - at;
    size_t to = behind > context + 1 ? at + context + 1 : window->count;
    struct position position = window->first;

    list_heading();
    model_replay(&position.state, window->version, window->words, from);
    pass(&position, window->words, from);
    for (size_t i = from; i < to; i++)
        list_record(&position, window->words[i]);
    if (window->outcome.end == MODEL_AGREED)
        list_rest(&window->rest);
}

/* Every record; the first stands at byte `begin` of the file. */
static void list_all(FILE *in, long begin)
{
    static uint32_t words[UTR_BLOCK];
    struct position position = {0, 0, model_fresh()};
    struct utr_rest rest;
    size_t count;

    if (fseek(in, begin, SEEK_SET) != 0)
        stop("going back to the first record");
    list_heading();
    do {
        count = utr_read_block(in, words, &rest);
        if (ferror(in))
            stop("reading");
        for (size_t i = 0; i < count; i++)
            list_record(&position, words[i]);
    } while (count == UTR_BLOCK);
    list_rest(&rest);
}

/* ---- What is said ---- */

static void tell_difference(const struct window *window)
{
    const struct position *end = &window->end;
    uint32_t word = window->words[end->place - window->first.place];
    enum name name = name_at(utr_field(word, 0), false, end->state.registers.lcr >> 7);
    const struct model_outcome *outcome = &window->outcome;

    printf("differs %" PRIu64 " %u %u\n", end->place, (unsigned)outcome->seen, (unsigned)outcome->model);
    printf("\n%sRecord %" PRIu64 ", %" PRIu64 " ticks after the first: ", red, end->place, end->ticks);
    tell_record(word, &end->state, &end->state, outcome->model);
    printf("%s\nBits that differ: ", plain);
    name_difference(stdout, name, outcome->seen, outcome->model);
    fputc('\n', stdout);
}

static void tell_agreement(const struct position *end)
{
    printf("agreed\n\nAll %" PRIu64 " records, %" PRIu64 " ticks: every read saw the model's byte.\n",
           end->place, end->ticks);
}

static void tell_bad_record(const struct window *window)
{
    const struct position *end = &window->end;
    uint64_t whole = UTR_HEADER_BYTES + UTR_RECORD_BYTES * end->place;
    bool at_record = window->outcome.end == MODEL_REFUSED;

    printf("refused %u %" PRIu64 "\n", at_record ? window->outcome.number : UTR_BAD_RECORD, end->place);
    printf("\n%sRecord %" PRIu64 ", %" PRIu64 " ticks after the first: ", red, end->place, end->ticks);
    if (at_record) {
        utr_tell_record(stdout, window->words[end->place - window->first.place]);
        printf("%s\nThe records before it agree. Where those behind it make sense, this word is damaged;\n"
               "where they make none, bytes were lost or added here. Record again, or replay what stands\n"
               "before it, the first %" PRIu64 " bytes of the file.\n",
               plain, whole);
    } else {
        utr_tell_rest(stdout, &window->rest);
        printf("%s\nThe records before it agree. The recording was cut off within its last record. Record\n"
               "again, or replay the whole records, the first %" PRIu64 " bytes of the file.\n",
               plain, whole);
    }
}

static void tell_refused_header(const struct utr_header *header, unsigned number)
{
    printf("refused %u 0\n\n%sNo record was replayed: ", number, red);
    utr_tell_header(stdout, header);
    printf("%s\n", plain);
    if (number == UTR_UNKNOWN_VERSION)
        fputs("Have the recorder write version 1.\n", stdout);
    else if (number == UTR_BAD_HEADER)
        fputs("See that this is the recorder's file, not a listing (`capture` makes a capture of\n"
              "one), an archive or part of a capture.\n",
              stdout);
    else
        fputs("The recording or the copy of it was cut off. Copy or record again.\n", stdout);
}

/* The same file, or a copy of what is left of it that can be read twice. */
static FILE *rewindable(FILE *in)
{
    static char bytes[UTR_BLOCK];
    FILE *copy;
    size_t count;

    if (fseek(in, 0, SEEK_CUR) == 0)
        return in;
    copy = tmpfile();
    if (copy == NULL)
        stop("making a temporary file");
    while ((count = fread(bytes, 1, sizeof bytes, in)) > 0)
        fwrite(bytes, 1, count, copy);
    if (ferror(in))
        stop("reading");
    if (fflush(copy) != 0 || ferror(copy))
        stop("writing a temporary file");
    rewind(copy);
    return copy;
}

static enum status explain(FILE *in, const struct options *options)
{
    static struct window window;
    struct utr_header header = utr_read_header(in);
    long begin = options->all ? ftell(in) : 0;
    struct model_header judged;
    enum status status;

    if (ferror(in))
        stop("reading");
    judged = model_header(header.bytes, header.count);
    if (judged.number != 0) {
        tell_refused_header(&header, judged.number);
        return REFUSED;
    }
    window.version = judged.version;
    replay(in, &window);
    status = status_of(&window);
    if (status == AGREED)
        tell_agreement(&window.end);
    else if (status == DIFFERS)
        tell_difference(&window);
    else
        tell_bad_record(&window);
    if (options->all)
        list_all(in, begin);
    else
        list_context(&window, options->context);
    if (status == AGREED)
        printf("\n%sThe model after the last record%s\n", bold, plain);
    else
        printf("\n%sThe model before record %" PRIu64 "%s\n", bold, window.end.place, plain);
    state_tell(stdout, &window.end.state);
    return status;
}

/* ---- The command line ---- */

static size_t context_of(const char *text)
{
    size_t value = 0;

    for (const char *c = text; *c != '\0'; c++) {
        if (*c < '0' || *c > '9' || value > MOST_CONTEXT)
            stop_argument("--context takes a number from 0 to 8192", text);
        value = 10 * value + (size_t)(*c - '0');
    }
    if (*text == '\0' || value > MOST_CONTEXT)
        stop_argument("--context takes a number from 0 to 8192", text);
    return value;
}

static struct options options_of(int argc, char **argv)
{
    struct options options = {CONTEXT, false, NULL};
    bool context = false;
    bool path = false;

    for (int i = 1; i < argc; i++) {
        if (strcmp(argv[i], "--help") == 0) {
            fputs(help, stdout);
            exit(fflush(stdout) == 0 ? EXIT_SUCCESS : TROUBLE);
        } else if (strcmp(argv[i], "--all") == 0) {
            options.all = true;
        } else if (strcmp(argv[i], "--context") == 0) {
            if (++i == argc)
                stop_argument("a number from 0 to 8192 is missing", "--context");
            options.context = context_of(argv[i]);
            context = true;
        } else if (argv[i][0] == '-' && argv[i][1] != '\0') {
            stop_argument("no such option", argv[i]);
        } else if (path) {
            stop_argument("one capture at a time", argv[i]);
        } else {
            options.path = strcmp(argv[i], "-") == 0 ? NULL : argv[i];
            path = true;
        }
    }
    if (options.all && context)
        stop_argument("--all lists every record", "--context");
    return options;
}

static void choose_colours(void)
{
    const char *no_color = getenv("NO_COLOR");

    if (!isatty(STDOUT_FILENO) || (no_color != NULL && *no_color != '\0'))
        return;
    bold = "\033[1m";
    red = "\033[1;31m";
    plain = "\033[0m";
}

int main(int argc, char **argv)
{
    struct options options = options_of(argc, argv);
    FILE *in = options.path == NULL ? stdin : fopen(options.path, "rb");
    enum status status;

    if (in == NULL)
        stop(options.path);
    if (isatty(fileno(in)))
        stop_argument("a capture is awaited, not a terminal", options.path == NULL ? "-" : options.path);
    choose_colours();
    status = explain(options.all ? rewindable(in) : in, &options);
    if (fflush(stdout) != 0 || ferror(stdout))
        stop("writing");
    return status;
}
