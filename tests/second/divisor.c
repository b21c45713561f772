/*
 * The divisor for a rate, by search: every divisor is tried. Written from document
 * 02, request e.
 */
#include "divisor.h"
#include "model.h"

#define MOST_CLOCK 16000000u
#define MOST_RATE 1000000u
#define MOST_DIVISOR 65535u

#define TICKS_A_BIT 16u /* with divisor 1 */
#define MILLION 1000000

static uint64_t distance(uint64_t a, uint64_t b)
{
    return a < b ? b - a : a - b;
}

/* The divisor whose product, 16 * divisor * rate, is nearest to the clock; of two the smaller. */
static uint32_t nearest_divisor(uint64_t clock, uint64_t rate)
{
    uint64_t step = TICKS_A_BIT * rate;
    uint64_t product = 0u;
    uint64_t nearest = UINT64_MAX;
    uint32_t found = 0u;

    for (uint32_t divisor = 1u; divisor <= MOST_DIVISOR; divisor++) {
        product += step;
        if (distance(clock, product) < nearest) {
            nearest = distance(clock, product);
            found = divisor;
        }
    }
    return found;
}

/* The clock's distance from the product in parts per million of it; C's division cuts toward zero. */
static int32_t error_of(int64_t clock, int64_t product)
{
    return (int32_t)((clock - product) * MILLION / product);
}

struct divisor_answer divisor_pick(uint32_t clock, uint32_t rate)
{
    struct divisor_answer answer = { DIVISOR_OUTSIDE, 0u, 0 };

    if (clock < 1u || clock > MOST_CLOCK || rate < 1u || rate > MOST_RATE)
        return answer;
    answer.number = UART_DONE;
    answer.divisor = nearest_divisor(clock, rate);
    answer.error = error_of(clock, (int64_t)TICKS_A_BIT * answer.divisor * rate);
    return answer;
}
