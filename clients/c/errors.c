/* PE, FE and BI: in character mode kept until LSR is read, in the FIFO gone with their character. */
#include "tl16c750.h"

#include <stdio.h>
#include <stdlib.h>

#define DATA 0x01 /* bits of LSR */
#define OE 0x02
#define PE 0x04
#define FE 0x08
#define BI 0x10
#define SENT 0x60 /* nothing to send */
#define FIFO_ERROR 0x80

#define TICKS_PER_BIT 16 /* the divisor is 1 */

/* A with even parity on the line: start bit, data bits from bit 0 on, parity bit, stop bit. */
#define GOOD "0" "10000010" "0" "1"
#define BAD_PARITY "0" "10000010" "1" "1"
#define BREAK "0" "00000000" "0" "0" "1"

static struct uart_state uart;
static int wrong;

static void expect(int holds, const char *what)
{
    if (!holds) {
        printf("differs: %s\n", what);
        wrong = 1;
    }
}

static struct uart_answer done(struct uart_answer a)
{
    expect(a.number == UART_DONE, "number");
    uart = a.state;
    return a;
}

static uint8_t read_register(uint8_t address)
{
    return done(uart_read(uart, address)).byte;
}

/* The next read of a register answers this byte. */
#define READS(name, byte, what) expect(read_register(UART_##name) == (byte), #name " " what)

/* Eight bits, even parity, the interrupt of errors enabled; FCR as said. */
static void begin(uint8_t fcr)
{
    uart = uart_fresh();
    done(uart_write(uart, UART_LCR, 0x80));
    done(uart_write(uart, UART_DLL, 1));
    done(uart_write(uart, UART_LCR, 0x1B));
    done(uart_write(uart, UART_IER, 0x04));
    done(uart_write(uart, UART_FCR, fcr));
}

/* The levels of SIN, a bit's time each. */
static void hear(const char *levels)
{
    for (; *levels != '\0'; levels++) {
        done(uart_set_sin(uart, (uint8_t)(*levels - '0')));
        done(uart_ticks(uart, TICKS_PER_BIT));
    }
}

static void check_character_mode(void)
{
    begin(0x00);
    hear(BAD_PARITY);
    READS(RBR, 'A', "of bad parity");
    READS(IIR, 0x06, "after RBR");
    READS(LSR, PE | SENT, "after RBR");
    READS(LSR, SENT, "again");
    READS(IIR, 0x01, "after LSR");

    hear(BAD_PARITY);
    hear(GOOD);
    READS(LSR, DATA | OE | PE | SENT, "after a good character in its place");
    READS(RBR, 'A', "of good parity");

    hear(BAD_PARITY);
    hear(BREAK);
    expect(uart.kept.pe == 1 && uart.kept.fe == 1 && uart.kept.bi == 1, "errors of two characters");
    expect(uart.rx.entries[0].fe == 0 && uart.rx.entries[0].bi == 0, "errors of the entry");
    READS(LSR, DATA | OE | PE | FE | BI | SENT, "of two characters");
}

/* What clears the kept errors beside a read of LSR. */
static void check_clearing(void)
{
    begin(0x00);
    hear(BAD_PARITY);
    done(uart_write(uart, UART_FCR, 0x00));
    expect(uart.kept.pe == 1, "FIFO off again");
    expect(done(uart_reset(uart)).state.kept.pe == 0, "reset");

    begin(0x00);
    hear(BAD_PARITY);
    done(uart_write(uart, UART_FCR, 0x01));
    READS(LSR, SENT, "after FIFO on");
}

static void check_fifo(void)
{
    begin(0x01);
    hear(BAD_PARITY);
    hear(GOOD);
    expect(uart.kept.pe == 0 && uart.rx.entries[0].pe == 1, "error of the entry");
    READS(IIR, 0xC6, "with FIFO on");
    READS(RBR, 'A', "of bad parity, with FIFO on");
    READS(LSR, DATA | SENT, "after RBR, with FIFO on");

    begin(0x01);
    hear(BAD_PARITY);
    READS(LSR, DATA | PE | SENT | FIFO_ERROR, "with FIFO on");
    READS(LSR, DATA | SENT, "again, with FIFO on");
}

int main(void)
{
    check_character_mode();
    check_clearing();
    check_fifo();
    puts(wrong ? "errors: differs" : "errors: ok");
    return wrong ? EXIT_FAILURE : EXIT_SUCCESS;
}
