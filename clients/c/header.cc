// The header in C++: a call of each kind, the file calls, an expected capture, a divisor, jumps, a refused
// state.
#include "tl16c750.h"

#include <cstdint>
#include <cstdio>
#include <cstdlib>

static void count_calls(void *context, std::size_t, std::size_t, std::size_t)
{
    ++*static_cast<int *>(context);
}

int main()
{
    std::uint8_t capture[] = {'U', 'T', 'R', 0, 1, 0, 0, 0, 0x60, 5, 0, 0x10};
    uart_state fresh = uart_fresh();
    uart_state damaged = fresh;
    std::FILE *file = std::tmpfile();
    std::FILE *written = std::tmpfile();
    const std::uint32_t read = 0x100005FF;
    std::uint32_t word = 0;
    uart_expect_progress expected;
    int calls = 0;
    uart_replayed answer = uart_replay_bytes_telling(capture, sizeof capture, count_calls, &calls);

    if (file == nullptr || written == nullptr ||
        std::fwrite(capture, 1, sizeof capture, file) != sizeof capture)
        return EXIT_FAILURE;
    std::rewind(file);
    if (uart_replay_file(file, &answer, count_calls, &calls) != 0 || calls != 2)
        return EXIT_FAILURE;
    std::rewind(file);
    if (uart_expect_file(file, written, &expected, count_calls, &calls) != 0 || calls != 3)
        return EXIT_FAILURE;
    std::fclose(file);
    std::fclose(written);
    capture[8] = 0;
    if (uart_expect_bytes(capture, sizeof capture, &expected) != sizeof capture || capture[8] != 0x60)
        return EXIT_FAILURE;
    damaged.inputs.sin = 2;
    return answer.values.number == UART_DONE && answer.values.seen == answer.values.model &&
                   uart_equal(&answer.state, &fresh) && uart_read(fresh, UART_LSR).byte == 0x60 &&
                   uart_expect(fresh, 1, &read, 1, &word, 1).count == 1 && word == 0x10000560 &&
                   uart_divisor_for(3072000, 7200).error == -12345 && uart_jump(fresh, 5).jumps == 1 &&
                   uart_jump_run(fresh, 5).jumps == 0 &&
                   uart_pins(damaged).part == UART_IN_SETTINGS && uart_version().layout == UART_LAYOUT
               ? EXIT_SUCCESS
               : EXIT_FAILURE;
}
