/*
 * The work that the models are given. DEVICE names the header that adapts one of them.
 * A line for each case: its name, nanoseconds for each call or tick, and a sum over every answer
 * and the numbers of the state at the end, by which the models are held against each other.
 * With the word `idle` the calls on the idle line alone, whose ticks are too many to be made singly.
 */
#define _POSIX_C_SOURCE 200809L

#include <stdint.h>
#include <stdio.h>
#include <string.h>
#include <time.h>

#include DEVICE

#define PLACES 351

static uint32_t sum;

static void add(uint32_t x)
{
    sum = (sum ^ x) * 16777619u;
}

static double seconds(void)
{
    struct timespec t;

    clock_gettime(CLOCK_PROCESS_CPUTIME_ID, &t);
    return (double)t.tv_sec + (double)t.tv_nsec * 1e-9;
}

static void report(const char *name, double took, double units, const struct device *d)
{
    uint32_t places[PLACES];

    device_places(d, places);
    for (int i = 0; i < PLACES; i++)
        add(places[i]);
    printf("%s\t%.9f\t%08x\n", name, took / units * 1e9, sum);
    sum = 0;
}

enum { NO_PARITY = 0x03, EVEN_PARITY = 0x1B }; /* LCR, eight bits */

/* FIFO of 64 bytes, with this divisor, LCR, MCR and bytes queued. */
static void prepare(struct device *d, uint32_t divisor, uint8_t lcr, uint8_t mcr, int bytes)
{
    device_fresh(d);
    device_write(d, 3, 0x80);
    device_write(d, 0, (uint8_t)(divisor & 0xFF));
    device_write(d, 1, (uint8_t)(divisor >> 8));
    device_write(d, 2, 0xE1);
    device_write(d, 3, lcr);
    device_write(d, 4, mcr);
    device_write(d, 1, 0x0F);
    for (int i = 0; i < bytes; i++)
        device_write(d, 0, (uint8_t)(i * 37 + 11));
}

/* Single calls, on a state with 39 bytes queued and 20 received at first. */
static void single_calls(void)
{
    static const uint8_t reads[] = { 5, 2, 6, 3 };
    static const uint8_t writes[] = { 7, 1, 4, 0 };
    enum { CALLS = 200000 };
    struct device d;
    double start;

    prepare(&d, 12, NO_PARITY, 0x10, 60);
    device_ticks(&d, 40000);
    start = seconds();
    for (int i = 0; i < CALLS; i++)
        add(device_read(&d, reads[i % 4]));
    report("read", seconds() - start, CALLS, &d);

    start = seconds();
    for (int i = 0; i < CALLS; i++)
        add(device_write(&d, writes[i % 4], (uint8_t)(i & 0x0F)));
    report("write", seconds() - start, CALLS, &d);

    start = seconds();
    for (int i = 0; i < CALLS; i++)
        add(device_tick(&d));
    report("tick", seconds() - start, CALLS, &d);

    start = seconds();
    for (int i = 0; i < CALLS; i++)
        add(device_pins(&d));
    report("pins", seconds() - start, CALLS, &d);

    prepare(&d, 12, NO_PARITY, 0x00, 64);
    start = seconds();
    for (int i = 0; i < CALLS; i++)
        add(device_forecast(&d));
    report("forecast, 64 bytes queued", seconds() - start, CALLS, &d);

    start = seconds();
    for (int i = 0; i < CALLS; i++)
        add(device_level(&d, (uint32_t)i));
    report("level, 64 bytes queued", seconds() - start, CALLS, &d);
}

/* So many ticks, at most or exactly. */
typedef uint32_t advance(struct device *d, uint32_t n);

/*
 * Runs of at most n ticks, `ticks` of them in all. A run that ends before its n ticks has sent all; the next
 * one starts anew.
 */
static void runs(const char *name, advance *run, uint32_t divisor, uint8_t lcr, uint8_t mcr, uint32_t n, double ticks)
{
    struct device first;
    struct device d;
    uint32_t used = 0;
    double total = 0;
    double start;

    prepare(&first, divisor, lcr, mcr, 64);
    start = seconds();
    while (total < ticks) {
        if (used < n)
            d = first;
        used = run(&d, n);
        add(used);
        total += used;
    }
    report(name, seconds() - start, total, &d);
}

/* The seconds of so many calls of n ticks on the idle line. */
static double idle(struct device *d, advance *go_on, uint32_t divisor, int calls, uint32_t n)
{
    double start;

    prepare(d, divisor, NO_PARITY, 0x00, 0);
    start = seconds();
    for (int i = 0; i < calls; i++)
        add(go_on(d, n));
    return seconds() - start;
}

static void idle_ticks(const char *name, advance *go_on, uint32_t divisor, int calls, uint32_t n)
{
    struct device d;
    double took = idle(&d, go_on, divisor, calls, n);

    report(name, took, (double)calls * n, &d);
}

/* A level of SIN, and for how many ticks. */
struct stretch {
    uint8_t level;
    uint32_t ticks;
};

enum { CHARACTERS = 60, BITS = 10, BIT_TICKS = 16, PAUSE_TICKS = 96 };

/* Characters 8N1 at divisor 1, a pause behind about one in four; as many stretches as are answered. */
static int line_of_characters(struct stretch *line)
{
    uint32_t random = 750;
    int count = 0;

    for (int c = 0; c < CHARACTERS; c++) {
        uint32_t bits;

        random = random * 1664525u + 1013904223u;
        bits = 1u << (BITS - 1) | random >> 24 << 1;
        for (int i = 0; i < BITS; i++) {
            uint8_t level = bits >> i & 1;

            if (count == 0 || line[count - 1].level != level)
                line[count++] = (struct stretch){ level, 0 };
            line[count - 1].ticks += BIT_TICKS;
        }
        if ((random >> 16) % 4 == 0)
            line[count - 1].ticks += PAUSE_TICKS;
    }
    return count;
}

/* A call of ticks for each stretch of the line. The characters are read when all are there, unmeasured. */
static void receiving(const char *name, double ticks)
{
    struct stretch line[CHARACTERS * BITS];
    int count = line_of_characters(line);
    struct device d;
    double total = 0;
    double took = 0;

    prepare(&d, 1, NO_PARITY, 0x00, 0);
    while (total < ticks) {
        double start = seconds();

        for (int i = 0; i < count; i++) {
            add(device_sin(&d, line[i].level));
            add(device_ticks(&d, line[i].ticks));
            total += line[i].ticks;
        }
        took += seconds() - start;
        for (int i = 0; i < CHARACTERS; i++)
            add(device_read(&d, 0));
    }
    report(name, took, total, &d);
}

/* The calls of ticks of the first stretches alone, each on the state that it had. */
static void receiving_alone(const char *name, double ticks)
{
    enum { STRETCHES = 40 };
    struct stretch line[CHARACTERS * BITS];
    struct device before[STRETCHES];
    struct device d;
    double total = 0;
    double start;

    (void)line_of_characters(line);
    prepare(&d, 1, NO_PARITY, 0x00, 0);
    for (int i = 0; i < STRETCHES; i++) {
        device_sin(&d, line[i].level);
        before[i] = d;
        device_ticks(&d, line[i].ticks);
    }
    start = seconds();
    while (total < ticks) {
        for (int i = 0; i < STRETCHES; i++) {
            d = before[i];
            add(device_ticks(&d, line[i].ticks));
            total += line[i].ticks;
        }
    }
    report(name, seconds() - start, total, &d);
}

static void ticks_and_runs(void)
{
    runs("run, divisor 1, sending", device_run, 1, NO_PARITY, 0x00, UINT32_MAX, 1e7);
    runs("run, divisor 1, loopback", device_run, 1, NO_PARITY, 0x10, UINT32_MAX, 1e7);
    runs("run, divisor 1, loopback, even parity", device_run, 1, EVEN_PARITY, 0x10, UINT32_MAX, 1e7);
    runs("run, divisor 1, held", device_run, 1, NO_PARITY, 0x20, 10000, 1e7);
    idle_ticks("ticks, divisor 1, idle", device_ticks, 1, 1000, 10000);
    receiving_alone("ticks, divisor 1, receiving from SIN, calls of 32 ticks", 5e6);
    receiving("ticks, divisor 1, receiving from SIN and setting it", 5e6);
    runs("run, divisor 12, sending", device_run, 12, NO_PARITY, 0x00, UINT32_MAX, 2e7);
    runs("run, divisor 12, loopback", device_run, 12, NO_PARITY, 0x10, UINT32_MAX, 2e7);
    idle_ticks("ticks, divisor 12, idle", device_ticks, 12, 1000, 20000);
    runs("run, divisor 65535, sending", device_run, 65535, NO_PARITY, 0x00, 1000000, 1e8);
    runs("run, divisor 65535, loopback", device_run, 65535, NO_PARITY, 0x10, 1000000, 1e8);
}

static void jumps(void)
{
    runs("jump, divisor 1, sending", device_jump_run, 1, NO_PARITY, 0x00, UINT32_MAX, 1e7);
    runs("jump, divisor 1, loopback", device_jump_run, 1, NO_PARITY, 0x10, UINT32_MAX, 1e7);
    idle_ticks("jump, divisor 1, idle", device_jump, 1, 1000, 10000);
    runs("jump, divisor 12, sending", device_jump_run, 12, NO_PARITY, 0x00, UINT32_MAX, 2e7);
    runs("jump, divisor 12, loopback", device_jump_run, 12, NO_PARITY, 0x10, UINT32_MAX, 2e7);
    idle_ticks("jump, divisor 12, idle", device_jump, 12, 1000, 20000);
    runs("jump, divisor 65535, sending", device_jump_run, 65535, NO_PARITY, 0x00, 1000000, 1e8);
    runs("jump, divisor 65535, loopback", device_jump_run, 65535, NO_PARITY, 0x10, 1000000, 1e8);
    idle_ticks("jump, divisor 65535, idle", device_jump, 65535, 100, 1000000);
}

static void idle_calls(const char *name, uint32_t n)
{
    enum { CALLS = 20000 };
    struct device d;
    double took = idle(&d, device_ticks, 1, CALLS, n);

    report(name, took, CALLS, &d);
}

/* These are to take the same time. */
static void calls_on_the_idle_line(void)
{
    idle_calls("idle line, 1000 ticks a call", 1000);
    idle_calls("idle line, 1000000 ticks a call", 1000000);
    idle_calls("idle line, 4294967295 ticks a call", 4294967295);
}

int main(int argc, char **argv)
{
    if (argc > 1 && strcmp(argv[1], "idle") == 0) {
        calls_on_the_idle_line();
        return 0;
    }
    single_calls();
    ticks_and_runs();
    jumps();
    return 0;
}
