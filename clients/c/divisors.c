/* The divisor for a rate: known answers, the ends of the ranges, and a search over all divisors. */
#include "tl16c750.h"

#include <inttypes.h>
#include <stdio.h>
#include <stdlib.h>

#define MOST_DIVISOR 65535
#define MOST_CLOCK 16000000
#define MOST_RATE 1000000

static int searched;
static int wrong;

static void expect(uint32_t clock, uint32_t rate, uint8_t number, uint32_t divisor, int32_t error)
{
    struct uart_picked p = uart_divisor_for(clock, rate);

    if (p.number != number || p.divisor != divisor || p.error != error) {
        printf("differs: clock %" PRIu32 ", rate %" PRIu32 ": %d %" PRIu32 " %" PRId32 "\n", clock, rate,
               p.number, p.divisor, p.error);
        wrong = 1;
    }
}

static void check_known(void)
{
    expect(3072000, 7200, UART_DONE, 27, -12345);
    expect(24000, 1000, UART_DONE, 1, 500000); /* 2 is as near */
    expect(MOST_CLOCK, 1, UART_DONE, 65535, 14259021);
    expect(1, MOST_RATE, UART_DONE, 1, -999999);
    expect(15999999, MOST_RATE, UART_DONE, 1, 0); /* of -0.06 */
    expect(MOST_CLOCK, MOST_RATE, UART_DONE, 1, 0);
    expect(1, 1, UART_DONE, 1, -937500);
    /* 134.5 baud, as tables 9 and 10 of the sheet have it: twice the clock and twice the rate. */
    expect(2 * 1843200, 269, UART_DONE, 857, -576);
    expect(2 * 3072000, 269, UART_DONE, 1428, -343);
}

static void check_outside(void)
{
    const uint32_t clocks[] = {0, MOST_CLOCK + 1, UINT32_MAX};
    const uint32_t rates[] = {0, MOST_RATE + 1, UINT32_MAX};

    for (int i = 0; i < 3; i++) {
        expect(clocks[i], 1, UART_BAD_RATE, 0, 0);
        expect(clocks[i], MOST_RATE, UART_BAD_RATE, 0, 0);
        expect(1, rates[i], UART_BAD_RATE, 0, 0);
        expect(MOST_CLOCK, rates[i], UART_BAD_RATE, 0, 0);
        for (int j = 0; j < 3; j++)
            expect(clocks[i], rates[j], UART_BAD_RATE, 0, 0);
    }
}

static int64_t difference(uint32_t clock, uint32_t rate, uint32_t divisor)
{
    return (int64_t)clock - 16 * (int64_t)divisor * rate;
}

/* The answer is that of a search from 1 up. */
static void search(uint32_t clock, uint32_t rate)
{
    uint32_t best = 1;
    int64_t parts;

    for (uint32_t divisor = 2; divisor <= MOST_DIVISOR; divisor++)
        if (llabs(difference(clock, rate, divisor)) < llabs(difference(clock, rate, best)))
            best = divisor;
    parts = difference(clock, rate, best) * 1000000 / (16 * (int64_t)best * rate);
    expect(clock, rate, UART_DONE, best, (int32_t)parts);
    searched++;
}

static void check_chart(void)
{
    const uint32_t clocks[] = {1843200, 3072000, 8000000};
    const uint32_t rates[] = {50,   75,   110,  150,  300,   600,   1200,  1800,  2000,   2400,
                              3600, 4800, 7200, 9600, 19200, 38400, 56000, 57600, 115200, 921600};

    for (size_t i = 0; i < sizeof clocks / sizeof clocks[0]; i++)
        for (size_t j = 0; j < sizeof rates / sizeof rates[0]; j++)
            search(clocks[i], rates[j]);
}

/* Clocks in the middle between a divisor and the next, and those beside. */
static void check_ties(void)
{
    const uint32_t rates[] = {1, 2, 3, 7, 110, 7200, 115200, 999999, 1000000};
    const uint32_t divisors[] = {0, 1, 2, 27, 857, 4096, 65533, 65534, 65535};

    for (size_t i = 0; i < sizeof rates / sizeof rates[0]; i++)
        for (size_t j = 0; j < sizeof divisors / sizeof divisors[0]; j++) {
            uint64_t middle = (16 * (uint64_t)divisors[j] + 8) * rates[i];

            for (uint64_t clock = middle - 1; clock <= middle + 1 && clock <= MOST_CLOCK; clock++)
                search((uint32_t)clock, rates[i]);
        }
}

/* Clocks from the whole range, rates of every size. */
static void check_drawn(void)
{
    uint32_t x = 1;

    for (unsigned turn = 0; turn < 300; turn++) {
        uint32_t clock;

        x = x * 1664525u + 1013904223u;
        clock = 1 + x % MOST_CLOCK;
        x = x * 1664525u + 1013904223u;
        search(clock, 1 + x % (MOST_RATE >> turn % 20));
    }
}

int main(void)
{
    check_known();
    check_outside();
    check_chart();
    check_ties();
    check_drawn();
    if (searched < 500) {
        printf("differs: only %d searches\n", searched);
        wrong = 1;
    }
    puts(wrong ? "divisors: differs" : "divisors: ok");
    return wrong ? EXIT_FAILURE : EXIT_SUCCESS;
}
