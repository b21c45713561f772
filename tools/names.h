/* The registers by name, and what their bytes say: names of bits, settings and codes. */
#ifndef NAMES_H
#define NAMES_H

#include <stdbool.h>
#include <stdint.h>
#include <stdio.h>

enum name { RBR, THR, DLL, DLM, IER, IIR, FCR, LCR, MCR, LSR, MSR, SCR };

/* The register that a read or write of an address reaches; with LCR bit 7 set (dlab) 0 and 1 are the
 * divisor latches. */
enum name name_at(unsigned address, bool writing, bool dlab);

const char *name_of(enum name name);

/* A byte of a register: two hexadecimal digits, and what they say: `60 = THRE TEMT`. */
void name_byte(FILE *out, enum name name, uint8_t byte);

/* The bits in which two bytes of a register differ: `6 (TEMT)`. */
void name_difference(FILE *out, enum name name, uint8_t seen, uint8_t model);

/* Two hexadecimal digits, and the character where it can be printed: `41 'A'`. */
void name_character(FILE *out, uint8_t byte);

/* A format, bits 0 to 5 of LCR: data bits, parity (none, odd, even, mark, space), stop bits: 8N1. */
void name_format(FILE *out, uint8_t format);

/* What an interrupt code, bits 0 to 3 of IIR, says. */
const char *name_interrupt(uint8_t iir);

/* Bits 0 to 3 of the modem pins by name, those that are asserted: `CTS DSR`, or `none`. */
void name_modem(FILE *out, uint8_t pins);

#endif
