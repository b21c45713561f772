/*
 * replay: captures, from files or from standard input, 8,192 records at a time,
 * each replayed from the fresh state. Writes a line for each: `agreed`, `differs
 * PLACE SEEN MODEL` or `refused NO PLACE`.
 */
#include "arguments.h"
#include "capture.h"
#include "source.h"
#include "stream.h"

#include <stdlib.h>
#include <string.h>

static const char help[] =
    "usage: replay [--help] [FILE ..]\n"
    "\n"
    "Replays each capture FILE on the model, standard input where there is none or for -,\n"
    "and writes a line for each, after its name where there are several:\n"
    "\n"
    "agreed                      every read saw what the model answers\n"
    "differs PLACE SEEN MODEL    the first read that did not, counted from 0\n"
    "refused NUMBER PLACE        6 no capture, 7 unknown version, 8 bad record, or cut off\n"
    "\n"
    "The exit status is 0 whatever the answers are, or 2 where an argument is unknown, or\n"
    "reading or writing failed: then standard error says so, and there is no line.\n";

/* The blocks after the header. Bytes left over are a bad record. */
static struct replay_answer replay_blocks(struct source *source)
{
    static struct source_block block;
    struct uart u;
    struct replay_answer answer;
    uint64_t before = 0;

    uart_fresh(&u);
    do {
        source_next(source, &block);
        answer = replay_records(&u, block.records, block.count);
        if (answer.outcome == REPLAY_AGREED && block.left != 0u)
            answer = replay_refused(CAPTURE_BAD_RECORD, block.count);
        answer.place += before;
        before += block.count;
    } while (answer.outcome == REPLAY_AGREED && !block.last);
    return answer;
}

static struct replay_answer replay_capture(struct source *source)
{
    uint8_t header[SOURCE_HEADER_BYTES];
    uint32_t number = source_header(source, header);

    return number == UART_DONE ? replay_blocks(source) : replay_refused(number, 0u);
}

/* The line of an answer, after the capture's name where there are several. */
static bool write_answer(struct replay_answer answer, const char *name, bool several)
{
    char line[REPLAY_LONGEST_LINE];

    if (several && !(stream_write(name, strlen(name)) && stream_write(": ", 2)))
        return false;
    return stream_write(line, replay_line(answer, line));
}

/* Replays an open capture. False where reading or writing failed. */
static bool replay_open(struct source *source, const char *name, bool several)
{
    struct replay_answer answer = replay_capture(source);

    if (source->failed)
        return false;
    return write_answer(answer, name, several) || stream_trouble(source->program, STANDARD_OUTPUT);
}

/* The same of the capture of a name, `-` for standard input. */
static bool replay_named(const char *name, bool several)
{
    struct source source;
    bool good = source_open(&source, "replay", name) && replay_open(&source, name, several);

    source_close(&source);
    return good;
}

int main(int argc, char **argv)
{
    bool good = true;

    arguments_take("replay", argc, argv, true, help);
    if (argc < 2)
        good = replay_named("-", false);
    for (int i = 1; i < argc; i++)
        good = replay_named(argv[i], argc > 2) && good;
    return good ? EXIT_SUCCESS : EXIT_TROUBLE;
}
