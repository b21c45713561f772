#include "state.h"

#include "names.h"

#include <inttypes.h>

#define MOST_SHOWN 16 /* places of a queue */

static void label(FILE *out, const char *name)
{
    fprintf(out, "  %-16s", name);
}

static const char *level(uint8_t level)
{
    return level ? "high" : "low";
}

static void tell_count(FILE *out, uint32_t count)
{
    if (count == 0)
        fputs("empty", out);
    else
        fprintf(out, "%" PRIu32 " queued, oldest first:", count);
}

static void tell_more(FILE *out, uint32_t count)
{
    if (count > MOST_SHOWN)
        fprintf(out, " and %" PRIu32 " more", count - MOST_SHOWN);
    fputc('\n', out);
}

static void tell_fifo(FILE *out, const struct uart_fifo_control *fifo)
{
    static const int triggers[2][4] = {{1, 4, 8, 14}, {1, 16, 32, 56}};

    label(out, "FIFO");
    if (fifo->enabled)
        fprintf(out, "on, %d bytes, trigger %d\n", fifo->size ? 64 : 16,
                triggers[fifo->size][fifo->trigger]);
    else
        fputs("off (character mode)\n", out);
}

static void tell_transmit_queue(FILE *out, const struct uart_byte_queue *queue)
{
    label(out, "transmit queue");
    tell_count(out, queue->count);
    for (uint32_t i = 0; i < queue->count && i < MOST_SHOWN; i++)
        fprintf(out, " %02X", (unsigned)queue->bytes[i]);
    tell_more(out, queue->count);
}

static void tell_frame(FILE *out, const struct uart_frame *frame)
{
    label(out, "frame now sent");
    if (frame->left == 0) {
        fputs("none\n", out);
        return;
    }
    name_character(out, frame->byte);
    fputs(" as ", out);
    name_format(out, frame->format);
    fprintf(out, ", %" PRIu32 " pulse%s left\n", frame->left, frame->left == 1 ? "" : "s");
}

static void tell_forecast(FILE *out, const struct uart_state *state)
{
    uint32_t ticks;
    unsigned number = model_forecast(state, &ticks);

    label(out, "forecast");
    if (number == UART_NO_CLOCK)
        fputs("never: work is left and the divisor is 0\n", out);
    else if (number == UART_HELD_BACK)
        fputs("none: bytes are queued and CTS holds them back\n", out);
    else if (ticks == 0)
        fputs("the transmitter is empty now\n", out);
    else
        fprintf(out, "the transmitter is empty after %" PRIu32 " tick%s\n", ticks,
                ticks == 1 ? "" : "s");
}

/* The errors by name, each behind a mark. */
static void tell_errors(FILE *out, char mark, uint8_t pe, uint8_t fe, uint8_t bi)
{
    if (pe)
        fprintf(out, "%cPE", mark);
    if (fe)
        fprintf(out, "%cFE", mark);
    if (bi)
        fprintf(out, "%cBI", mark);
}

static void tell_receive_queue(FILE *out, const struct uart_entry_queue *queue)
{
    label(out, "receive queue");
    tell_count(out, queue->count);
    for (uint32_t i = 0; i < queue->count && i < MOST_SHOWN; i++) {
        const struct uart_entry *entry = &queue->entries[i];

        fprintf(out, " %02X", (unsigned)entry->byte);
        tell_errors(out, '+', entry->pe, entry->fe, entry->bi);
    }
    tell_more(out, queue->count);
}

static void tell_receiver(FILE *out, const struct uart_receiver *receiver)
{
    label(out, "receiver");
    if (receiver->phase == 0) {
        fputs("idle\n", out);
    } else if (receiver->phase == 1) {
        fputs("waiting for the line to go high after a break\n", out);
    } else {
        fprintf(out, "%" PRIu32 " pulses into a character, ", receiver->position);
        name_format(out, receiver->format);
        fputc('\n', out);
    }
}

static void tell_interrupt(FILE *out, const struct uart_state *state, uint8_t intrpt)
{
    uint8_t iir = model_peek(state, UART_IIR);

    label(out, "interrupt");
    fprintf(out, "%s (IIR %02X), INTRPT %s\n", name_interrupt(iir), (unsigned)iir, level(intrpt));
}

/* What is kept for a later interrupt or read, enabled or not. */
static void tell_pending(FILE *out, const struct uart_latches *latches, const struct uart_errors *kept)
{
    label(out, "pending");
    if (latches->empty)
        fputs("THR empty; ", out);
    if (latches->timeout)
        fputs("time-out; ", out);
    if (latches->overrun)
        fputs("overrun; ", out);
    if (kept->pe || kept->fe || kept->bi) {
        fputs("kept errors:", out);
        tell_errors(out, ' ', kept->pe, kept->fe, kept->bi);
        fputs("; ", out);
    }
    fputs("modem changes: ", out);
    name_modem(out, latches->changes);
    fprintf(out, "; idle count %" PRIu32 "\n", latches->idle);
}

static void tell_outputs(FILE *out, const struct uart_outputs *pins, uint8_t hold)
{
    const struct {
        const char *name;
        uint8_t asserted;
    } others[] = {{"RTS", pins->rts}, {"DTR", pins->dtr}, {"OUT1", pins->out1}, {"OUT2", pins->out2}};

    label(out, "output pins");
    fprintf(out, "SOUT %s; asserted:", level(pins->sout));
    for (size_t i = 0; i < sizeof others / sizeof others[0]; i++)
        if (others[i].asserted)
            fprintf(out, " %s", others[i].name);
    if (!(pins->rts || pins->dtr || pins->out1 || pins->out2))
        fputs(" none", out);
    fputs(hold ? "; RTS is held back by the receive queue\n" : "\n", out);
}

static void tell_inputs(FILE *out, const struct uart_inputs *inputs)
{
    label(out, "input pins");
    fprintf(out, "SIN %s; asserted: ", level(inputs->sin));
    name_modem(out, inputs->modem);
    fputc('\n', out);
}

static void tell_registers(FILE *out, const struct uart_state *state)
{
    const struct {
        enum name name;
        uint8_t byte;
    } shown[] = {
        {IER, state->registers.ier}, {LCR, state->registers.lcr}, {MCR, state->registers.mcr},
        {SCR, state->registers.scr}, {LSR, model_peek(state, UART_LSR)}, {MSR, model_peek(state, UART_MSR)},
    };

    for (size_t i = 0; i < sizeof shown / sizeof shown[0]; i++) {
        label(out, i == 0 ? "registers" : "");
        fprintf(out, "%s ", name_of(shown[i].name));
        name_byte(out, shown[i].name, shown[i].byte);
        fputc('\n', out);
    }
}

static void tell_clock(FILE *out, const struct uart_baud *baud)
{
    label(out, "clock");
    if (baud->divisor == 0)
        fputs("stopped: the divisor is 0\n", out);
    else
        fprintf(out, "divisor %" PRIu32 ", next pulse in %" PRIu32 " tick%s\n", baud->divisor, baud->k,
                baud->k == 1 ? "" : "s");
}

void state_tell(FILE *out, const struct uart_state *state)
{
    const struct uart_outputs pins = model_pins(state);

    tell_fifo(out, &state->fifo);
    tell_transmit_queue(out, &state->tx);
    tell_frame(out, &state->frame);
    tell_forecast(out, state);
    tell_receive_queue(out, &state->rx);
    tell_receiver(out, &state->receiver);
    tell_interrupt(out, state, pins.intrpt);
    tell_pending(out, &state->latches, &state->kept);
    tell_outputs(out, &pins, state->latches.hold);
    tell_inputs(out, &state->inputs);
    tell_registers(out, state);
    tell_clock(out, &state->baud);
}
