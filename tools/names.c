#include "names.h"

#define LCR_STOP 0x04
#define LCR_PARITY 0x08
#define LCR_EVEN 0x10
#define LCR_STICK 0x20
#define LCR_BREAK 0x40
#define LCR_DLAB 0x80
#define FCR_ON 0x01
#define IIR_CODE 0x0F
#define IIR_64 0x20
#define IIR_FIFO 0xC0

/* The names of the data sheet SLLS191C (table 3, the lists of bits), and Linux's where it has none. */
static const struct {
    const char *name;
    const char *bits[8]; /* where each bit has a meaning of its own */
} registers[] = {
    [RBR] = {"RBR", {NULL}},
    [THR] = {"THR", {NULL}},
    [DLL] = {"DLL", {NULL}},
    [DLM] = {"DLM", {NULL}},
    [IER] = {"IER", {"ERBI", "ETBEI", "ELSI", "EDSSI", "SLEEP", "LOWPOWER", "bit6", "bit7"}},
    [IIR] = {"IIR", {NULL}},
    [FCR] = {"FCR", {NULL}},
    [LCR] = {"LCR", {NULL}},
    [MCR] = {"MCR", {"DTR", "RTS", "OUT1", "OUT2", "LOOP", "AFE", "bit6", "bit7"}},
    [LSR] = {"LSR", {"DR", "OE", "PE", "FE", "BI", "THRE", "TEMT", "FIFOE"}},
    [MSR] = {"MSR", {"DCTS", "DDSR", "TERI", "DDCD", "CTS", "DSR", "RI", "DCD"}},
    [SCR] = {"SCR", {NULL}},
};

enum name name_at(unsigned address, bool writing, bool dlab)
{
    static const enum name reads[] = {RBR, IER, IIR, LCR, MCR, LSR, MSR, SCR};
    static const enum name writes[] = {THR, IER, FCR, LCR, MCR, LSR, MSR, SCR};

    if (dlab && address <= 1)
        return address == 0 ? DLL : DLM;
    return writing ? writes[address] : reads[address];
}

const char *name_of(enum name name)
{
    return registers[name].name;
}

const char *name_interrupt(uint8_t iir)
{
    switch (iir & IIR_CODE) {
    case 0x00:
        return "modem status";
    case 0x01:
        return "no interrupt";
    case 0x02:
        return "THR empty";
    case 0x04:
        return "received data";
    case 0x06:
        return "line status";
    case 0x0C:
        return "time-out";
    default:
        return "no known code";
    }
}

static void name_iir(FILE *out, uint8_t byte)
{
    fprintf(out, " = %s", name_interrupt(byte));
    if ((byte & IIR_FIFO) == IIR_FIFO)
        fputs(", FIFO on", out);
    else if ((byte & IIR_FIFO) != 0)
        fputs(", only one of bits 6 and 7", out);
    if (byte & IIR_64)
        fputs(", 64 bytes", out);
    if (byte & 0x10)
        fputs(", bit4", out);
}

static void name_fcr(FILE *out, uint8_t byte)
{
    static const char *const bits[8] = {NULL, "clear receive", "clear transmit", "DMA", "bit4", "64 bytes"};

    if (!(byte & FCR_ON)) {
        fputs(" = FIFO off", out);
        return;
    }
    fputs(" = FIFO on", out);
    for (unsigned bit = 1; bit < 6; bit++)
        if (byte >> bit & 1)
            fprintf(out, ", %s", bits[bit]);
    fprintf(out, ", trigger code %d", byte >> 6);
}

void name_format(FILE *out, uint8_t format)
{
    int bits = 5 + (format & 3);
    char parity = 'N';
    const char *stop = "1";

    if (format & LCR_PARITY && format & LCR_STICK)
        parity = format & LCR_EVEN ? 'S' : 'M';
    else if (format & LCR_PARITY)
        parity = format & LCR_EVEN ? 'E' : 'O';
    if (format & LCR_STOP)
        stop = bits == 5 ? "1.5" : "2";
    fprintf(out, "%d%c%s", bits, parity, stop);
}

static void name_lcr(FILE *out, uint8_t byte)
{
    fputs(" = ", out);
    name_format(out, byte);
    if (byte & LCR_BREAK)
        fputs(" BREAK", out);
    if (byte & LCR_DLAB)
        fputs(" DLAB", out);
}

/* The bits that are set, by name; nothing where none is. */
static void name_flags(FILE *out, const char *const *bits, uint8_t byte)
{
    if (byte != 0)
        fputs(" =", out);
    for (unsigned bit = 0; bit < 8; bit++)
        if (byte >> bit & 1)
            fprintf(out, " %s", bits[bit]);
}

void name_character(FILE *out, uint8_t byte)
{
    fprintf(out, "%02X", (unsigned)byte);
    if (byte >= ' ' && byte <= '~')
        fprintf(out, " '%c'", byte);
}

void name_byte(FILE *out, enum name name, uint8_t byte)
{
    if (name == RBR || name == THR) {
        name_character(out, byte);
        return;
    }
    fprintf(out, "%02X", (unsigned)byte);
    if (name == IIR)
        name_iir(out, byte);
    else if (name == FCR)
        name_fcr(out, byte);
    else if (name == LCR)
        name_lcr(out, byte);
    else if (registers[name].bits[0] != NULL)
        name_flags(out, registers[name].bits, byte);
}

void name_difference(FILE *out, enum name name, uint8_t seen, uint8_t model)
{
    const char *before = "";

    for (unsigned bit = 8; bit-- > 0;) {
        if (!((seen ^ model) >> bit & 1))
            continue;
        fprintf(out, "%s%u", before, bit);
        if (registers[name].bits[bit] != NULL)
            fprintf(out, " (%s)", registers[name].bits[bit]);
        before = ", ";
    }
}

void name_modem(FILE *out, uint8_t pins)
{
    static const char *const names[] = {"CTS", "DSR", "RI", "DCD"};
    const char *before = "";

    for (unsigned bit = 0; bit < 4; bit++) {
        if (!(pins >> bit & 1))
            continue;
        fprintf(out, "%s%s", before, names[bit]);
        before = " ";
    }
    if (pins == 0)
        fputs("none", out);
}
