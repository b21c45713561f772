/*
 * divisor-chart: the operators' wall chart, the divisor of each usual rate at a clock, with its error. All
 * answers are the proved library's; only the rates are this program's own.
 */
#include "tl16c750.h"
#include "trouble.h"

#include <inttypes.h>
#include <stdbool.h>
#include <stdio.h>
#include <stdlib.h>
#include <string.h>

#define USUAL_CLOCK 3072000
#define MOST_ERROR 30000 /* in parts per million; a rate beyond is marked */

/*
 * The rates of the sheet's tables 9 and 10 without 134.5, which is no whole number, and those up to
 * 1,000,000 that serial ports of Linux and Windows name.
 */
static const uint32_t rates[] = {
    50,     75,     110,    150,    200,    300,    600,    1200,   1800,    2000,
    2400,   3600,   4800,   7200,   9600,   14400,  19200,  38400,  56000,   57600,
    115200, 128000, 230400, 256000, 460800, 500000, 576000, 921600, 1000000,
};

const char tool[] = "divisor-chart";

static const char help[] =
    "usage: divisor-chart [CLOCK]\n"
    "\n"
    "Writes the divisor for each usual rate at a clock in Hz, a decimal number from 1 to 16000000, 3072000\n"
    "without one: of the divisors from 1 to 65535 the one with the smallest distance between clock and\n"
    "16 x divisor x rate, the smaller one on a tie. Beside it stand the two bytes of the divisor's latches\n"
    "in hexadecimal, and the error of the rate that it makes, in percent, cut behind the fourth decimal:\n"
    "with + the line is faster than the rate, with - slower. A * marks an error beyond 3 percent.\n"
    "\n"
    "  --help        this text\n"
    "\n"
    "134.5 baud is no whole number, so it is not in the chart. The library has its divisor for twice the\n"
    "clock and rate 269: uart_divisor_for(3686400, 269) answers 857, as the sheet's table 9 has it for\n"
    "1843200 Hz.\n"
    "The status is 0, or 2 where an argument is bad or writing failed.\n";

/* An error in percent: parts per million have their fourth decimal in the last place. */
static void print_percent(int32_t error)
{
    uint32_t parts = error < 0 ? 0 - (uint32_t)error : (uint32_t)error;
    const char *sign = error < 0 ? "-" : error > 0 ? "+" : "";
    char text[16];

    snprintf(text, sizeof text, "%s%" PRIu32 ".%04" PRIu32, sign, parts / 10000, parts % 10000);
    printf("%11s", text);
}

/* The row of a rate; answers whether it is marked. */
static bool print_row(uint32_t clock, uint32_t rate)
{
    struct uart_picked picked = uart_divisor_for(clock, rate);
    bool marked = picked.error > MOST_ERROR || picked.error < -MOST_ERROR;

    printf("%8" PRIu32 "  %7" PRIu32, rate, picked.divisor);
    printf("   %02" PRIX32 "   %02" PRIX32, picked.divisor >> 8, picked.divisor & 0xFF);
    print_percent(picked.error);
    puts(marked ? " *" : "");
    return marked;
}

static void print_chart(uint32_t clock)
{
    bool marked = false;

    printf("Divisors at %" PRIu32 " Hz\n    rate  divisor  DLM  DLL   error, %%\n", clock);
    for (size_t i = 0; i < sizeof rates / sizeof rates[0]; i++)
        if (print_row(clock, rates[i]))
            marked = true;
    if (marked)
        puts("* the error is beyond 3 percent");
}

/* The clock that an argument spells, where the library takes it. */
static uint32_t clock_of(const char *text)
{
    static const char wanted[] = "a clock is a decimal number from 1 to 16000000";
    uint64_t clock = 0;

    if (*text == '\0')
        stop_argument(wanted, text);
    for (const char *c = text; *c != '\0'; c++) {
        if (*c < '0' || *c > '9')
            stop_argument(wanted, text);
        if (clock <= UINT32_MAX)
            clock = 10 * clock + (uint64_t)(*c - '0');
    }
    if (clock > UINT32_MAX || uart_divisor_for((uint32_t)clock, rates[0]).number != UART_DONE)
        stop_argument(wanted, text);
    return (uint32_t)clock;
}

/* An option, not a number below 0. */
static bool is_option(const char *argument)
{
    return argument[0] == '-' && argument[1] != '\0' && (argument[1] < '0' || argument[1] > '9');
}

int main(int argc, char **argv)
{
    const char *text = NULL;
    bool helped = false;

    for (int i = 1; i < argc && !helped; i++) {
        if (strcmp(argv[i], "--help") == 0)
            helped = true;
        else if (is_option(argv[i]))
            stop_argument("no such option", argv[i]);
        else if (text != NULL)
            stop_argument("one clock at a time", argv[i]);
        else
            text = argv[i];
    }
    if (helped)
        fputs(help, stdout);
    else
        print_chart(text == NULL ? USUAL_CLOCK : clock_of(text));
    if (fflush(stdout) != 0 || ferror(stdout))
        stop("writing");
    return EXIT_SUCCESS;
}
