#!/usr/bin/env python3
"""Breaks one rule of the model at a time and asks whether compare.py finds it.

usage: mutants.py [--calls N] [--pairs N] [--captures N] [--seed S] [--only TEXT] [--stored]

Each mutant is a change of text in one C file. It is built in a folder of its own
beside the unchanged programs; compare.py has to find a difference within the
given calls, pairs and captures. With --stored the stored script of `calls` has to
find it instead, or a stored capture: replayed, or expected as the unchanged program
or what is stored says. Prints for each mutant where it was found.
"""

import argparse
import os
import re
import subprocess
import sys
import tempfile

import ask
from compare import first_difference

HERE = os.path.dirname(os.path.abspath(__file__))
PROGRAMS = ("calls", "replay", "expect")
MODEL = ("model.c", "capture.c", "expected.c", "divisor.c", "jump.c", "source.c", "stream.c", "arguments.c")
HEADERS = ("model.h", "record.h", "capture.h", "expected.h", "divisor.h", "jump.h", "source.h", "stream.h",
           "arguments.h")
CRATES = os.path.join(HERE, "..", "..", "crates")

# Where uart_part looks at each part.
PART_1 = "    if (!registers_in_range(u) || !clock_in_range(u))\n        return UART_PART_REGISTERS;\n"
PART_2 = "    if (!fifo_and_pins_in_range(u))\n        return UART_PART_FIFO;\n"
PART_3 = "    if (!transmit_queue_in_range(u) || !frame_in_range(u))\n        return UART_PART_TRANSMIT;\n"
PART_4 = ("    if (!receive_queue_in_range(u) || !receiver_in_range(u) || !kept_in_range(u))\n"
          "        return UART_PART_RECEIVE;\n")
PART_5 = "    if (!latches_in_range(u) || !flow_in_range(u))\n        return UART_PART_LATCHES;\n"


def also(part, broken):
    """The part with one more range, which is broken where the text says."""
    return part.replace("))\n", ") || %s)\n" % broken)


def too_wide_is(part):
    """Part 1 after a look at each place for a number too wide, whose part is this."""
    return ("    for (uint32_t i = 0u; i < UART_STATE_PLACES; i++)\n"
            "        if ((&u->ier)[i] > 255u && i != 4u && i != 5u && i != 345u)\n"
            "            return %s;\n" % part) + PART_1


# The errors that a read of LSR clears.
LSR_CLEARS = "    u->rx_queue[0].errors = no_errors;\n    u->kept = no_errors;\n"

# Where a character's errors are kept.
KEEPS = "    if (u->fifo_on == 0u)\n        keep_errors(u, &entry.errors);\n"

# Where the nearest divisor so far is kept, and where clock and rate are held to their ranges.
NEARER = "        if (distance(clock, product) < nearest) {\n"
OUTSIDE = ("    if (clock < 1u || clock > MOST_CLOCK || rate < 1u || rate > MOST_RATE)\n"
           "        return answer;\n")
ERROR = "(clock - product) * MILLION / product"
PICKED = "    put_divisor(divisor_pick(given[0], given[1]));\n"
DIVISOR_FORM = '{ "divisor", 2, 0, { UINT32_MAX, UINT32_MAX }, 0,'

# Where a replay stops at a differing read.
DIFFERS = ("        if (record != expected)\n"
           "            return differs(i, byte_of(record), byte_of(expected));\n")

# The writer of the expected capture: its loop, its two refusals, what it does with a record, its end; then
# the refusals before the first record, and the call.
LOOP = "    while (answer.count < count) {\n"
BAD_WORD = ("        if (!record_is_good(record)) {\n            answer.number = CAPTURE_BAD_RECORD;\n"
            "            break;\n        }\n")
NO_WORD = ("        if (answer.count == room) {\n            answer.number = EXPECTED_NO_WORD;\n"
           "            break;\n        }\n")
WRITES = ("        record = record_expected(u, record);\n        words[answer.count++] = record;\n"
          "        record_step(u, record);\n")
WRITTEN = "    return answer;\n}\n\nstruct expected_answer expected("
RECORDS = "    return expected_records(u, records, count, words, room);\n"
EXPECTED_1 = "    if (malformed.part != UART_PART_NONE)\n        return malformed;\n"
EXPECTED_7 = "    if (version != CAPTURE_VERSION)\n        return unknown;\n"
EXPECTS = "    a = expected(&current, given[0], given + 2, given_count - 2, words, given[1]);\n"

# The program `expect`: a block, its header, its number.
BLOCK = "        if (!write_words(source, words, answer.count))\n"
LEFT = "        if (answer.number == UART_DONE && block.left != 0u)\n"
HEADER = ("    if (number == UART_DONE && !(write_bytes(source, header, sizeof header) &&\n"
          "                                 expect_blocks(source, &number)))\n")
TOLD = '        fprintf(stderr, "%" PRIu32 "\\n", number);\n'


# The engine that jumps: how many ticks a jump has, and what they do; then the refusal, the loop and its look
# at LSR6, what a jump adds, the end; the run, and what `calls` does with both.
JUMP_TICKS = "    uint32_t ticks = left < u->k ? left : u->k;\n"
JUMP_REST = "    u->k -= ticks - 1u;\n    uart_do_ticks(u, 1u);\n"
JUMP_1 = ("    if (answer.part != UART_PART_NONE) {\n        answer.number = UART_MALFORMED;\n"
          "        return answer;\n    }\n")
JUMP_LOOP = "    while (answer.used < most && !(run && nothing_to_send(u))) {\n"
JUMP_STOP = "!(run && nothing_to_send(u))"
JUMP_COUNT = "        answer.jumps++;\n"
JUMP_END = JUMP_COUNT + "    }\n"
JUMP_RUN = "    return jump_on(u, most, true);\n"
JUMP_CALL = "    struct jump_answer a = jump_ticks(&current, given[0]);\n"
JUMP_RUN_CALL = "    struct jump_answer a = jump_run(&current, given[0]);\n"


def counted_as(jumps):
    """The end of the loop over jumps, their number then this."""
    return JUMP_END + "    if (u->divisor != 0u)\n        answer.jumps = %s;\n" % jumps


def on_copy(call):
    """The call of `calls` on a copy of the current state."""
    return "    struct uart copy = current;\n" + call.replace("&current", "&copy")


def first_state(number):
    """The writer that gives back the state it was given beside this number."""
    return (RECORDS.replace("    return", "    struct uart first = *u;\n    struct expected_answer answer =") +
            "\n    if (answer.number == %s)\n        *u = first;\n    return answer;\n" % number)


# Name, file, text, text in its place. The text stands exactly once in the file.
MUTANTS = [
    # Document 01, "Models that look right".
    ("shift register cleared with the FIFO", "model.c",
     "    memset(u->tx_queue, 0, sizeof u->tx_queue);\n    u->tx_count = 0u;\n",
     "    memset(u->tx_queue, 0, sizeof u->tx_queue);\n    u->tx_count = 0u;\n"
     "    u->frame_left = u->frame_byte = u->frame_format = 0u;\n"),
    ("RI change on both edges", "model.c",
     "    u->changes |= before & ~after & MODEM_RI;", "    u->changes |= changed & MODEM_RI;"),
    ("k restarted for each frame", "model.c",
     "        u->tx_queue[u->tx_count] = byte;\n",
     "        u->tx_queue[u->tx_count] = byte;\n        if (transmitter_empty(u))\n"
     "            u->k = u->divisor;\n"),
    ("16 pulses for every stop", "model.c",
     "    return data_bits(format) == 5u ? 24u : 32u;", "    return 16u;"),
    ("time-out before data", "model.c",
     "    if ((u->ier & IER_RX_DATA) != 0u && rx_data_pending(u))",
     "    if ((u->ier & IER_RX_DATA) != 0u && u->timeout_latch != 0u)\n"
     "        return IIR_TIMEOUT;\n"
     "    if ((u->ier & IER_RX_DATA) != 0u && rx_data_pending(u))"),
    ("a later entry's error in LSR2", "model.c",
     "    if (shown->pe != 0u)\n",
     "    if (shown->pe != 0u || u->rx_queue[1].errors.pe != 0u)\n"),

    # Frames.
    ("parity of all eight bits", "model.c", "ones_are_odd(byte & data_mask(format))",
     "ones_are_odd(byte)"),
    ("parity of the zeros", "model.c", "ones_are_odd(byte & data_mask(format))",
     "ones_are_odd(~byte & data_mask(format))"),
    ("stick parity as LCR4", "model.c", "        return even ^ 1u;", "        return even;"),
    ("stick parity by the count", "model.c", "        return even ^ 1u;",
     "        return ones_are_odd(byte & data_mask(format)) ^ 1u;"),
    ("parity odd and even swapped", "model.c", "data_mask(format)) ^ even ^ 1u;",
     "data_mask(format)) ^ even;"),
    ("24 stop pulses for all widths", "model.c",
     "    return data_bits(format) == 5u ? 24u : 32u;", "    return 24u;"),
    ("32 stop pulses for five bits", "model.c",
     "    return data_bits(format) == 5u ? 24u : 32u;", "    return 32u;"),
    ("frame sent in the present format", "model.c",
     "    return frame_level(u->frame_byte, u->frame_format,\n"
     "                       frame_length(u->frame_format) - u->frame_left);",
     "    return frame_level(u->frame_byte, u->lcr,\n"
     "                       frame_length(u->frame_format) - u->frame_left);"),
    ("frame byte cut to the width", "model.c", "    u->frame_byte = take_transmit_byte(u);",
     "    u->frame_byte = take_transmit_byte(u) & data_mask(u->lcr);"),
    ("frame byte kept after the frame", "model.c",
     "        u->frame_byte = 0u;\n        u->frame_format = 0u;\n    }",
     "        u->frame_format = 0u;\n    }"),

    # Transmitter.
    ("one pulse between frames", "model.c",
     "        u->frame_byte = 0u;\n        u->frame_format = 0u;\n    }",
     "        u->frame_byte = 0u;\n        u->frame_format = 0u;\n        return;\n    }"),
    ("latch set at each load", "model.c",
     "    if (u->tx_count == 0u)\n        u->tx_empty_latch = 1u;\n}\n\n/* If L > 0",
     "    u->tx_empty_latch = 1u;\n}\n\n/* If L > 0"),
    ("no latch at the last load", "model.c",
     "    if (u->tx_count == 0u)\n        u->tx_empty_latch = 1u;\n}\n\n/* If L > 0",
     "}\n\n/* If L > 0"),
    ("hold looked at during a frame", "model.c", "    if (u->frame_left != 0u) {\n        u->frame_left--;",
     "    if (u->frame_left != 0u) {\n        if (held(u))\n            return;\n"
     "        u->frame_left--;"),
    ("held never", "model.c", "    if (u->tx_count != 0u && !held(u))\n", "    if (u->tx_count != 0u)\n"),
    ("held by the pin in loopback", "model.c",
     "    return autoflow(u) && (effective_modem(u) & MODEM_CTS) == 0u;",
     "    return autoflow(u) && (u->modem_pins & MODEM_CTS) == 0u;"),
    ("held by RTS after its hold in loopback", "model.c",
     "    if ((u->mcr & MCR_RTS) != 0u)\n        levels |= MODEM_CTS;",
     "    if ((u->mcr & MCR_RTS) != 0u && u->rts_hold == 0u)\n        levels |= MODEM_CTS;"),
    ("autoflow in character mode", "model.c",
     "    return (u->mcr & MCR_AUTOFLOW) != 0u && u->fifo_on != 0u;",
     "    return (u->mcr & MCR_AUTOFLOW) != 0u;"),

    # Receiver.
    ("no false start", "model.c",
     "        if (line != 0u)\n            leave_character(u, UART_RX_IDLE);\n        return false;",
     "        return false;"),
    ("samples one pulse late", "model.c", "#define FIRST_SAMPLE 8u", "#define FIRST_SAMPLE 9u"),
    ("character in the present format", "model.c",
     "    width = data_bits(u->rx_format);\n    if (sample == 0u) {",
     "    width = data_bits(u->lcr);\n    if (sample == 0u) {"),
    ("parity expected by the present format", "model.c",
     "    uint32_t format = u->rx_format;\n", "    uint32_t format = u->lcr;\n"),
    ("idle after a framing error", "model.c", "        begin_character(u, FIRST_SAMPLE);",
     "        leave_character(u, UART_RX_IDLE);"),
    ("next start at P = 0 after a framing error", "model.c",
     "        begin_character(u, FIRST_SAMPLE);", "        begin_character(u, 0u);"),
    ("old format after a framing error", "model.c",
     "        begin_character(u, FIRST_SAMPLE);",
     "    {\n        begin_character(u, FIRST_SAMPLE);\n        u->rx_format = format;\n    }"),
    ("idle after a break", "model.c", "        leave_character(u, UART_RX_WAIT_MARK);",
     "        leave_character(u, UART_RX_IDLE);"),
    ("wait for mark after every framing error", "model.c",
     "    else if (entry.errors.bi != 0u)\n", "    else if (entry.errors.fe != 0u)\n"),
    ("break without the parity sample", "model.c",
     "    if (stop == 0u && u->rx_data == 0u && u->rx_parity == 0u)",
     "    if (stop == 0u && u->rx_data == 0u)"),
    ("no PE in a break", "model.c", "        entry.errors.bi = 1u;\n",
     "    {\n        entry.errors.bi = 1u;\n        entry.errors.pe = 0u;\n    }\n"),
    ("no FE in a break", "model.c", "        entry.errors.bi = 1u;\n",
     "    {\n        entry.errors.bi = 1u;\n        entry.errors.fe = 0u;\n    }\n"),
    ("a start in the pulse that ends a break", "model.c",
     "    } else if (line != 0u) {\n        u->rx_state = UART_RX_IDLE;\n    }",
     "    } else if (line == 0u) {\n        u->rx_state = UART_RX_IDLE;\n    }"),
    ("no OE", "model.c", "    u->overrun = 1u;\n", ""),
    ("no OE in character mode", "model.c", "    u->overrun = 1u;\n", "    u->overrun |= u->fifo_on;\n"),
    ("the old character kept in character mode", "model.c",
     "    u->rx_queue[0] = entry;\n    return true;", "    return true;"),
    ("the last entry replaced in a full FIFO", "model.c",
     "    if (u->fifo_on != 0u)\n        return false;\n    u->rx_queue[0] = entry;",
     "    if (u->fifo_on != 0u) {\n        u->rx_queue[u->rx_count - 1u] = entry;\n"
     "        return false;\n    }\n    u->rx_queue[0] = entry;"),
    ("looped receiver a pulse late", "model.c",
     "    pulse_transmitter(u);\n    entered = pulse_receiver(u);",
     "    entered = pulse_receiver(u);\n    pulse_transmitter(u);"),
    ("receiver hears SIN in loopback", "model.c",
     "    uint32_t line = loopback(u) ? transmitter_line(u) : u->sin;",
     "    uint32_t line = u->sin;"),
    ("break heard in loopback", "model.c",
     "    uint32_t line = loopback(u) ? transmitter_line(u) : u->sin;",
     "    uint32_t line = loopback(u) ? ((u->lcr & LCR_BREAK) != 0u ? 0u : transmitter_line(u))"
     " : u->sin;"),

    # Idle count and time-out.
    ("idle count restarted by a lost character", "model.c",
     "    if (u->fifo_on != 0u)\n        return false;\n    u->rx_queue[0] = entry;",
     "    if (u->fifo_on != 0u)\n        return true;\n    u->rx_queue[0] = entry;"),
    ("time-out latch cleared by a new character", "model.c",
     "        u->idle_count = 0u;\n        return;\n",
     "        u->idle_count = 0u;\n        u->timeout_latch = 0u;\n        return;\n"),
    ("time-out at 4F", "model.c", "    if (u->idle_count > 4u * frame_length(u->lcr))",
     "    if (u->idle_count >= 4u * frame_length(u->lcr))"),
    ("time-out at 640 for all formats", "model.c",
     "    if (u->idle_count > 4u * frame_length(u->lcr))", "    if (u->idle_count > 640u)"),
    ("idle count stops at 768", "model.c", "    if (u->idle_count < IDLE_LIMIT)",
     "    if (u->idle_count < IDLE_LIMIT - 1u)"),
    ("idle count rests during a reception", "model.c",
     "    if (u->idle_count < IDLE_LIMIT)",
     "    if (u->idle_count < IDLE_LIMIT && u->rx_state == UART_RX_IDLE)"),
    ("time-out needs IER0", "model.c", "    if (u->idle_count > 4u * frame_length(u->lcr))",
     "    if ((u->ier & 1u) != 0u && u->idle_count > 4u * frame_length(u->lcr))"),
    ("no latch without a new count", "model.c",
     "        u->idle_count++;\n    if (u->idle_count > 4u",
     "        u->idle_count++;\n    if (u->idle_count == 1u + 4u"),
    ("RBR read keeps the idle count", "model.c",
     "    u->timeout_latch = 0u;\n    u->idle_count = 0u;\n    remove_oldest_entry(u);",
     "    u->timeout_latch = 0u;\n    if (u->rx_count == 1u)\n        u->idle_count = 0u;\n"
     "    remove_oldest_entry(u);"),
    ("RBR read keeps the time-out latch", "model.c",
     "    u->timeout_latch = 0u;\n    u->idle_count = 0u;\n    remove_oldest_entry(u);",
     "    if (u->rx_count == 1u)\n        u->timeout_latch = 0u;\n    u->idle_count = 0u;\n"
     "    remove_oldest_entry(u);"),

    # Registers.
    ("THR write dropped in character mode", "model.c",
     "    } else if (u->fifo_on == 0u) {\n        u->tx_queue[0] = byte;\n    }", "    }"),
    ("THR write replaces the last byte of a full FIFO", "model.c",
     "    } else if (u->fifo_on == 0u) {\n        u->tx_queue[0] = byte;\n    }",
     "    } else {\n        u->tx_queue[u->tx_count - 1u] = byte;\n    }"),
    ("THR write keeps the latch", "model.c",
     "        u->tx_queue[0] = byte;\n    }\n    u->tx_empty_latch = 0u;\n",
     "        u->tx_queue[0] = byte;\n    }\n"),
    ("latch set by every IER write with bit 1", "model.c",
     "(u->ier & IER_TX_EMPTY) == 0u && (byte & IER_TX_EMPTY) != 0u;",
     "(byte & IER_TX_EMPTY) != 0u;"),
    ("latch set by IER only with L = 0", "model.c", "    if (raised && u->tx_count == 0u)",
     "    if (raised && transmitter_empty(u))"),
    ("latch cleared with IER bit 1", "model.c", "    u->ier = byte & IER_MASK;\n",
     "    u->ier = byte & IER_MASK;\n    if ((byte & IER_TX_EMPTY) == 0u)\n"
     "        u->tx_empty_latch = 0u;\n"),
    ("IER four bits", "model.c", "    u->ier = byte & IER_MASK;", "    u->ier = byte & 0x0Fu;"),
    ("MCR five bits", "model.c", "    u->mcr = byte & MCR_MASK;", "    u->mcr = byte & 0x1Fu;"),
    ("IIR read clears the latch at every code", "model.c", "    if ((iir & IIR_CODE) == IIR_TX_EMPTY)\n", ""),
    ("IIR read keeps the latch", "model.c",
     "    if ((iir & IIR_CODE) == IIR_TX_EMPTY)\n        u->tx_empty_latch = 0u;\n", ""),
    ("IIR size bit with FIFO off", "model.c",
     "    if (u->fifo_on == 0u)\n        return code;\n    return code | IIR_FIFO_ON",
     "    if (u->fifo_on == 0u)\n        return code | (u->size64 << 5);\n"
     "    return code | IIR_FIFO_ON"),
    ("FCR size without LCR7", "model.c", "    if (divisor_access(u))\n        size64 =",
     "        size64 ="),
    ("FCR size only set, never cleared", "model.c",
     "        size64 = (byte & FCR_SIZE64) != 0u ? 1u : 0u;",
     "        size64 |= (byte & FCR_SIZE64) != 0u ? 1u : 0u;"),
    ("FCR trigger and DMA guarded by LCR7", "model.c",
     "    u->dma = (byte & FCR_DMA) != 0u ? 1u : 0u;\n",
     "    if (divisor_access(u))\n        u->dma = (byte & FCR_DMA) != 0u ? 1u : 0u;\n"),
    ("same size clears the queues", "model.c",
     "    changed = u->fifo_on == 0u || size64 != u->size64;",
     "    changed = u->fifo_on == 0u || divisor_access(u);"),
    ("size change clears nothing", "model.c",
     "    changed = u->fifo_on == 0u || size64 != u->size64;",
     "    changed = u->fifo_on == 0u || (size64 != u->size64 && (u->tx_count > 16u"
     " || u->rx_count > 16u));"),
    ("FIFO on clears nothing", "model.c",
     "    changed = u->fifo_on == 0u || size64 != u->size64;",
     "    changed = size64 != u->size64;"),
    ("FIFO off clears when off", "model.c",
     "    if (u->fifo_on == 0u)\n        return;\n    u->fifo_on = 0u;", "    u->fifo_on = 0u;"),
    ("FIFO off clears the trigger and size", "model.c",
     "    if (u->fifo_on == 0u)\n        return;\n    u->fifo_on = 0u;",
     "    if (u->fifo_on == 0u)\n        return;\n    u->fifo_on = u->trigger_code = 0u;"),
    ("FCR bits taken with bit 0 clear", "model.c",
     "        turn_fifo_off(u);\n        return;",
     "        turn_fifo_off(u);\n        if ((byte & FCR_CLEAR_TX) != 0u)\n"
     "            clear_transmit_queue(u);\n        return;"),
    ("FCR clears swapped", "model.c", "#define FCR_CLEAR_RX 0x02u\n#define FCR_CLEAR_TX 0x04u",
     "#define FCR_CLEAR_RX 0x04u\n#define FCR_CLEAR_TX 0x02u"),
    ("clearing an empty transmit queue sets the latch", "model.c",
     "    if (u->tx_count == 0u)\n        return;\n    memset(u->tx_queue",
     "    memset(u->tx_queue"),
    ("clearing the transmit queue sets no latch", "model.c",
     "    u->tx_count = 0u;\n    u->tx_empty_latch = 1u;\n", "    u->tx_count = 0u;\n"),
    ("OE cleared by FCR", "model.c", "    u->rx_count = 0u;\n    u->timeout_latch = 0u;",
     "    u->rx_count = 0u;\n    u->overrun = 0u;\n    u->timeout_latch = 0u;"),
    ("character being received cleared by FCR", "model.c",
     "    u->rx_count = 0u;\n    u->timeout_latch = 0u;",
     "    u->rx_count = 0u;\n    u->rx_state = u->rx_position = u->rx_format = 0u;\n"
     "    u->rx_data = u->rx_parity = 0u;\n    u->timeout_latch = 0u;"),
    ("LSR7 in character mode", "model.c", "    if (u->fifo_on != 0u && any_entry_has_error(u))",
     "    if (any_error(shown) != 0u || any_entry_has_error(u))"),
    ("LSR7 of the oldest entry only", "model.c",
     "    if (u->fifo_on != 0u && any_entry_has_error(u))",
     "    if (u->fifo_on != 0u && any_error(shown) != 0u)"),
    ("LSR6 without L", "model.c", "    if (transmitter_empty(u))\n        lsr |= LSR_TX_EMPTY;",
     "    if (u->tx_count == 0u)\n        lsr |= LSR_TX_EMPTY;"),
    ("LSR read keeps OE", "model.c", "    u->overrun = 0u;\n" + LSR_CLEARS, LSR_CLEARS),
    ("LSR read keeps the oldest entry's BI", "model.c", LSR_CLEARS,
     "    u->rx_queue[0].errors.pe = u->rx_queue[0].errors.fe = 0u;\n    u->kept = no_errors;\n"),
    ("LSR read clears the next entry's errors", "model.c", LSR_CLEARS,
     LSR_CLEARS + "    if (u->rx_count > 1u)\n        u->rx_queue[1].errors.pe = 0u;\n"),
    ("MSR read keeps the changes", "model.c", "    case ADDR_MSR:\n        u->changes = 0u;\n",
     "    case ADDR_MSR:\n"),
    ("LSR write sets OE", "model.c", "    case ADDR_SCR:\n        u->scr = byte;",
     "    case ADDR_LSR:\n        u->overrun = (byte >> 1) & 1u;\n        break;\n"
     "    case ADDR_SCR:\n        u->scr = byte;"),
    ("divisor write keeps k if D stays", "model.c", "    u->divisor = divisor;\n    u->k = divisor;",
     "    if (divisor != u->divisor)\n        u->k = divisor;\n    u->divisor = divisor;"),
    ("divisor write keeps k", "model.c", "    u->divisor = divisor;\n    u->k = divisor;",
     "    u->divisor = divisor;\n    if (u->k > divisor || u->k == 0u)\n        u->k = divisor;"),
    ("RBR read with LCR7", "model.c", "        if (!divisor_access(u))\n            end_rbr_read(u);",
     "        end_rbr_read(u);"),
    ("IER read with LCR7", "model.c", "divisor_access(u) ? u->divisor >> 8 : u->ier;", "u->ier;"),

    # Loopback and modem.
    ("pin changes in loopback", "model.c",
     "    u->modem_pins = pins;\n    record_changes(u, before);",
     "    before = u->modem_pins;\n    u->modem_pins = pins;\n"
     "    u->changes |= (before ^ pins) & 11u;\n    u->changes |= before & ~pins & 4u;"),
    ("no changes by MCR writes", "model.c", "    record_changes(u, before);\n}\n\n/* Writes to LSR",
     "    (void)before;\n}\n\n/* Writes to LSR"),
    ("CTS and DSR swapped in loopback", "model.c",
     "    if ((u->mcr & MCR_RTS) != 0u)\n        levels |= MODEM_CTS;\n"
     "    if ((u->mcr & MCR_DTR) != 0u)\n        levels |= MODEM_DSR;",
     "    if ((u->mcr & MCR_DTR) != 0u)\n        levels |= MODEM_CTS;\n"
     "    if ((u->mcr & MCR_RTS) != 0u)\n        levels |= MODEM_DSR;"),
    ("RI and DCD swapped in loopback", "model.c",
     "    if ((u->mcr & MCR_OUT1) != 0u)\n        levels |= MODEM_RI;\n"
     "    if ((u->mcr & MCR_OUT2) != 0u)\n        levels |= MODEM_DCD;",
     "    if ((u->mcr & MCR_OUT2) != 0u)\n        levels |= MODEM_RI;\n"
     "    if ((u->mcr & MCR_OUT1) != 0u)\n        levels |= MODEM_DCD;"),
    ("SOUT low by LCR6 in loopback", "model.c",
     "    if (loopback(u))\n        return 1u;\n    if ((u->lcr & LCR_BREAK) != 0u)\n"
     "        return 0u;",
     "    if ((u->lcr & LCR_BREAK) != 0u)\n        return 0u;\n    if (loopback(u))\n"
     "        return 1u;"),
    ("SOUT shows the line in loopback", "model.c",
     "    if (loopback(u))\n        return 1u;\n    if ((u->lcr & LCR_BREAK) != 0u)\n",
     "    if ((u->lcr & LCR_BREAK) != 0u && !loopback(u))\n"),
    ("outputs asserted in loopback", "model.c",
     "    pins.sout = sout_level(u);\n    if (!loopback(u)) {",
     "    pins.sout = sout_level(u);\n    {"),
    ("RTS without the hold", "model.c", "(u->mcr & MCR_RTS) != 0u && u->rts_hold == 0u ? 1u : 0u;",
     "(u->mcr & MCR_RTS) != 0u ? 1u : 0u;"),

    # The rules that end each step.
    ("hold not applied at an MCR write", "model.c",
     "    write_register(u, address, byte);\n    end_step(u);",
     "    write_register(u, address, byte);\n    if (address != ADDR_MCR)\n        end_step(u);"),
    ("hold not applied at an FCR write", "model.c",
     "    write_register(u, address, byte);\n    end_step(u);",
     "    write_register(u, address, byte);\n    if (address != ADDR_IIR_FCR)\n"
     "        end_step(u);"),
    ("hold not applied at a read", "model.c",
     "        u->changes = 0u;\n        break;\n    default:\n        break;\n    }\n    end_step(u);\n",
     "        u->changes = 0u;\n        break;\n    default:\n        break;\n    }\n"),
    ("hold not applied at a pulse", "model.c",
     "    pulse_idle_count(u, entered);\n    end_step(u);", "    pulse_idle_count(u, entered);"),
    ("hold released below the trigger", "model.c",
     "        return 1u;\n    return u->rts_hold;", "        return 1u;\n    return 0u;"),
    ("hold without MCR1", "model.c", "    return autoflow(u) && (u->mcr & MCR_RTS) != 0u;",
     "    return autoflow(u);"),
    ("hold above the trigger only", "model.c",
     "    if (u->rx_count >= trigger_level(u))\n        return 1u;\n    return u->rts_hold;",
     "    if (u->rx_count > trigger_level(u))\n        return 1u;\n    return u->rts_hold;"),
    ("CTS change kept under autoflow", "model.c",
     "    if (autoflow(u))\n        u->changes &= ~MODEM_CTS;\n    u->rts_hold",
     "    u->rts_hold"),
    ("CTS change deferred until autoflow ends", "model.c",
     "    u->mcr = byte & MCR_MASK;\n    record_changes(u, before);",
     "    if ((u->mcr & MCR_AUTOFLOW) != 0u && (byte & MCR_AUTOFLOW) == 0u)\n"
     "        u->changes |= MODEM_CTS;\n    u->mcr = byte & MCR_MASK;\n"
     "    record_changes(u, before);"),

    # Interrupts.
    ("modem before transmit-empty", "model.c",
     "    if ((u->ier & IER_TX_EMPTY) != 0u && u->tx_empty_latch != 0u)",
     "    if ((u->ier & IER_MODEM) != 0u && u->changes != 0u)\n        return IIR_MODEM;\n"
     "    if ((u->ier & IER_TX_EMPTY) != 0u && u->tx_empty_latch != 0u)"),
    ("transmit-empty before time-out", "model.c",
     "    if ((u->ier & IER_RX_DATA) != 0u && u->timeout_latch != 0u)\n        return IIR_TIMEOUT;\n"
     "    if ((u->ier & IER_TX_EMPTY) != 0u && u->tx_empty_latch != 0u)\n"
     "        return IIR_TX_EMPTY;",
     "    if ((u->ier & IER_TX_EMPTY) != 0u && u->tx_empty_latch != 0u)\n"
     "        return IIR_TX_EMPTY;\n"
     "    if ((u->ier & IER_RX_DATA) != 0u && u->timeout_latch != 0u)\n        return IIR_TIMEOUT;"),
    ("data before line status", "model.c",
     "    if ((u->ier & IER_LINE_STATUS) != 0u && line_status_pending(u))",
     "    if ((u->ier & IER_RX_DATA) != 0u && rx_data_pending(u))\n        return IIR_RX_DATA;\n"
     "    if ((u->ier & IER_LINE_STATUS) != 0u && line_status_pending(u))"),
    ("line status of any entry", "model.c",
     "    return u->overrun != 0u || any_error(shown_errors(u)) != 0u;",
     "    return u->overrun != 0u || any_error(shown_errors(u)) != 0u ||\n"
     "           any_error(&u->rx_queue[1].errors) != 0u;"),
    ("line status without OE", "model.c",
     "    return u->overrun != 0u || any_error(shown_errors(u)) != 0u;",
     "    return any_error(shown_errors(u)) != 0u;"),
    ("data interrupt above the trigger only", "model.c",
     "    return u->rx_count >= trigger_level(u);\n}\n\nstatic uint32_t interrupt_code",
     "    return u->rx_count > trigger_level(u);\n}\n\nstatic uint32_t interrupt_code"),
    ("data interrupt at the trigger in character mode", "model.c",
     "    if (u->fifo_on == 0u)\n        return u->rx_count != 0u;\n", ""),
    ("trigger 60 at size 64", "model.c", "{ 1u, 16u, 32u, 56u } };", "{ 1u, 16u, 32u, 60u } };"),
    ("trigger 15 at size 16", "model.c", "{ { 1u, 4u, 8u, 14u },", "{ { 1u, 4u, 8u, 15u },"),
    ("INTRPT gated by OUT2", "model.c",
     "    pins.intrpt = interrupt_code(u) != IIR_NONE ? 1u : 0u;",
     "    pins.intrpt = interrupt_code(u) != IIR_NONE && pins.out2 != 0u ? 1u : 0u;"),

    # Reset.
    ("reset clears SCR", "model.c", "    uart_fresh(u);\n    u->scr = scr;\n",
     "    uart_fresh(u);\n    (void)scr;\n"),
    ("reset keeps k", "model.c",
     "    uart_fresh(u);\n    u->scr = scr;\n    write_divisor(u, divisor);\n",
     "    divisor += u->k << 16;\n    uart_fresh(u);\n    u->scr = scr;\n"
     "    u->k = divisor >> 16;\n    u->divisor = divisor & 0xFFFFu;\n"),
    ("reset raises SIN", "model.c", "    u->modem_pins = modem_pins;\n    u->sin = sin;\n",
     "    u->modem_pins = modem_pins;\n    (void)sin;\n"),
    ("reset sets the transmit-empty latch", "model.c",
     "    u->modem_pins = modem_pins;\n    u->sin = sin;\n",
     "    u->modem_pins = modem_pins;\n    u->sin = sin;\n    u->tx_empty_latch = 1u;\n"),

    # Forecast, level, run.
    ("forecast by the frame's format", "model.c",
     "    uint32_t queued = u->tx_count * frame_length(u->lcr);",
     "    uint32_t queued = u->tx_count *\n"
     "                      frame_length(u->frame_left != 0u ? u->frame_format : u->lcr);"),
    ("forecast without the pulse of loading", "model.c",
     "    return u->tx_count != 0u ? 1u + queued : 0u;", "    return queued;"),
    ("forecast in whole pulses", "model.c", "u->k + (pulses - 1u) * u->divisor);",
     "pulses * u->divisor);"),
    ("level a place early", "model.c", "        place = 1u + (t - u->k) / u->divisor;",
     "        place = (t - u->k) / u->divisor;"),
    ("level at t = k a place early", "model.c",
     "    if (pulses_left(u) == 0u || t < u->k)", "    if (pulses_left(u) == 0u || t <= u->k)"),
    ("level not refused at t = 0", "model.c",
     "    uint32_t place;\n\n    if (number != UART_DONE)",
     "    uint32_t place;\n\n    if (number > UART_MALFORMED && t == 0u)\n"
     "        return value(transmitter_line(u));\n    if (number != UART_DONE)"),
    ("5 only with L = 0", "model.c", "    if (u->tx_count != 0u && held(u))\n        return UART_HELD;",
     "    if (u->tx_count != 0u && u->frame_left == 0u && held(u))\n        return UART_HELD;"),
    ("5 without bytes queued", "model.c",
     "    if (u->tx_count != 0u && held(u))\n        return UART_HELD;",
     "    if (!transmitter_empty(u) && held(u))\n        return UART_HELD;"),
    ("5 before 4", "model.c",
     "    if (!transmitter_empty(u) && u->divisor == 0u)",
     "    if (u->tx_count != 0u && held(u))\n        return UART_HELD;\n"
     "    if (!transmitter_empty(u) && u->divisor == 0u)"),
    ("4 without work", "model.c", "    if (!transmitter_empty(u) && u->divisor == 0u)",
     "    if (u->divisor == 0u)"),
    ("run until the queue is empty", "model.c",
     "    while (used < most && !transmitter_empty(u)) {",
     "    while (used < most && u->tx_count != 0u) {"),
    ("run looks after the tick", "model.c",
     "    while (used < most && !transmitter_empty(u)) {\n        tick(u);\n        used++;\n    }",
     "    while (used < most) {\n        tick(u);\n        used++;\n        if (transmitter_empty(u))\n"
     "            break;\n    }"),
    ("run refused without clock", "model.c",
     "        return refuse_value(u, UART_MALFORMED);\n    while",
     "        return refuse_value(u, UART_MALFORMED);\n    if (forecast_number(u) != UART_DONE)\n"
     "        return refuse_value(u, forecast_number(u));\n    while"),
    ("2 before 1", "model.c",
     "    uint32_t byte;\n\n    if (!uart_well_formed(u))\n        return refuse(u, UART_MALFORMED);\n"
     "    if (address > ADDR_LAST)\n        return refuse(u, UART_BAD_ADDRESS);\n    byte",
     "    uint32_t byte;\n\n    if (address > ADDR_LAST)\n        return refuse(u, UART_BAD_ADDRESS);\n"
     "    if (!uart_well_formed(u))\n        return refuse(u, UART_MALFORMED);\n    byte"),
    ("address taken modulo 8", "model.c",
     "    if (address > ADDR_LAST)\n        return refuse(u, UART_BAD_ADDRESS);\n"
     "    uart_do_write(u, address, byte);",
     "    uart_do_write(u, address & 7u, byte);"),
    ("modem pins masked", "model.c",
     "    if (pins > MODEM_MASK)\n        return refuse(u, UART_BAD_LEVEL);", "    pins &= MODEM_MASK;"),

    # Ranges.
    ("range: IER", "model.c", "u->ier <= IER_MASK && ", "u->ier <= 255u && "),
    ("range: MCR", "model.c", "u->mcr <= MCR_MASK && ", "u->mcr <= 255u && "),
    ("range: LCR", "model.c", "u->lcr <= 0xFFu && ", "(u->lcr & 0xFFFFu) <= 0xFFu && "),
    ("range: SCR", "model.c", " && u->scr <= 0xFFu;", ";"),
    ("range: divisor", "model.c", "    if (u->divisor > 0xFFFFu)\n        return false;\n", ""),
    ("range: k without divisor", "model.c", "        return u->k == 0u;", "        return u->k <= 1u;"),
    ("range: k zero", "model.c", "    return u->k >= 1u && u->k <= u->divisor;",
     "    return u->k <= u->divisor;"),
    ("range: k above divisor", "model.c", "    return u->k >= 1u && u->k <= u->divisor;",
     "    return u->k >= 1u && u->k <= u->divisor + 1u;"),
    ("range: DMA bit", "model.c", "u->dma <= 1u && ", ""),
    ("range: SIN", "model.c", "u->modem_pins <= MODEM_MASK && u->sin <= 1u;",
     "u->modem_pins <= MODEM_MASK;"),
    ("range: transmit places beyond the count", "model.c",
     "    return used <= 0xFFu && beyond == 0u;", "    return used <= 0xFFu;"),
    ("range: queued bytes", "model.c", "    return used <= 0xFFu && beyond == 0u;",
     "    return beyond == 0u;"),
    ("range: receive places beyond the count", "model.c",
     "    return bytes <= 0xFFu && errors <= u->fifo_on && beyond == 0u;",
     "    return bytes <= 0xFFu && errors <= u->fifo_on;"),
    ("range: receive errors", "model.c",
     "    return bytes <= 0xFFu && errors <= u->fifo_on && beyond == 0u;",
     "    return bytes <= 0xFFu && (errors == 0u || u->fifo_on != 0u) && beyond == 0u;"),
    ("range: receive bytes", "model.c",
     "    return bytes <= 0xFFu && errors <= u->fifo_on && beyond == 0u;",
     "    return errors <= u->fifo_on && beyond == 0u;"),
    ("range: transmit count of 64 in a FIFO of 16", "model.c",
     "    if (u->tx_count > capacity(u))", "    if (u->tx_count > 64u)"),
    ("range: receive count of 64 in a FIFO of 16", "model.c",
     "    if (u->rx_count > capacity(u))", "    if (u->rx_count > 64u)"),
    ("range: L of another format", "model.c",
     "           u->frame_format <= FORMAT_MASK && u->frame_left <= frame_length(u->frame_format);",
     "           u->frame_format <= FORMAT_MASK;"),
    ("range: frame byte without L", "model.c",
     "        return u->frame_byte == 0u && u->frame_format == 0u;",
     "        return u->frame_byte <= 255u && u->frame_format == 0u;"),
    ("range: frame format", "model.c", "           u->frame_format <= FORMAT_MASK && ",
     "           u->frame_format <= 255u && "),
    ("range: receiver places outside a character", "model.c",
     "        return (u->rx_position | u->rx_format | u->rx_data | u->rx_parity) == 0u;",
     "        return (u->rx_position | u->rx_format | u->rx_data) == 0u && u->rx_parity <= 1u;"),
    ("range: P at the stop position", "model.c",
     "        u->rx_position >= stop_position(u->rx_format))",
     "        u->rx_position > stop_position(u->rx_format))"),
    ("range: data samples not yet taken", "model.c",
     "    if ((u->rx_data >> data_taken) != 0u)", "    if ((u->rx_data >> width) != 0u)"),
    ("range: data above the width", "model.c",
     "    if ((u->rx_data >> data_taken) != 0u)",
     "    if ((u->rx_data >> (taken > 1u && taken < 10u ? taken - 1u : data_taken)) != 0u)"),
    ("range: parity sample", "model.c", "    return u->rx_parity <= (taken == width + 2u ? 1u : 0u);",
     "    return u->rx_parity <= parity_bits(u->rx_format);"),
    ("range: latch on a queue", "model.c",
     "    if (u->tx_empty_latch != 0u && u->tx_count != 0u)\n        return false;\n", ""),
    ("range: time-out latch with FIFO off", "model.c",
     "        return u->timeout_latch == 0u && u->idle_count == 0u;",
     "        return u->idle_count == 0u;"),
    ("range: idle count with FIFO off", "model.c",
     "        return u->timeout_latch == 0u && u->idle_count == 0u;",
     "        return u->timeout_latch == 0u;"),
    ("range: idle count 770", "model.c", "        u->idle_count > IDLE_LIMIT ||",
     "        u->idle_count > 1023u ||"),
    ("range: time-out latch needs the count", "model.c",
     "        return u->timeout_latch == 0u && u->idle_count == 0u;\n    return true;",
     "        return u->timeout_latch == 0u && u->idle_count == 0u;\n"
     "    return u->timeout_latch == 0u || u->idle_count != 0u;"),
    ("range: count above 4F needs the latch", "model.c",
     "        return u->timeout_latch == 0u && u->idle_count == 0u;\n    return true;",
     "        return u->timeout_latch == 0u && u->idle_count == 0u;\n"
     "    return u->timeout_latch != 0u || u->idle_count <= 4u * frame_length(u->lcr);"),
    ("range: BI needs FE", "model.c",
     "        errors |= any_error(&u->rx_queue[i].errors);",
     "        errors |= any_error(&u->rx_queue[i].errors);\n"
     "        if (u->rx_queue[i].errors.bi > u->rx_queue[i].errors.fe)\n            return false;"),
    ("range: size bit 0 with FIFO off", "model.c",
     "    return u->fifo_on <= 1u && u->size64 <= 1u && ",
     "    return u->fifo_on <= 1u && u->size64 <= u->fifo_on && "),
    ("range: CTS change with autoflow", "model.c",
     "    if (autoflow(u) && (u->changes & MODEM_CTS) != 0u)\n        return false;\n", ""),
    ("range: hold by its rule", "model.c", "    return u->rts_hold == hold_by_rule(u);",
     "    return true;"),
    ("range: hold at the trigger", "model.c", "    return u->rts_hold == hold_by_rule(u);",
     "    return u->rts_hold <= (auto_rts(u) && u->rx_count != 0u ? 1u : 0u);"),

    # Parts.
    ("part: the highest", "model.c", PART_1 + PART_2 + PART_3 + PART_4 + PART_5,
     PART_5 + PART_4 + PART_3 + PART_2 + PART_1),
    ("part: 2 before 1", "model.c", PART_1 + PART_2, PART_2 + PART_1),
    ("part: 3 before 2", "model.c", PART_2 + PART_3, PART_3 + PART_2),
    ("part: 4 before 3", "model.c", PART_3 + PART_4, PART_4 + PART_3),
    ("part: 5 before 4", "model.c", PART_4 + PART_5, PART_5 + PART_4),
    ("part: divisor and k in 2", "model.c", PART_1 + PART_2,
     PART_1.replace(" || !clock_in_range(u)", "") + also(PART_2, "!clock_in_range(u)")),
    ("part: modem pins in 1", "model.c", PART_1, also(PART_1, "u->modem_pins > MODEM_MASK")),
    ("part: SIN in 1", "model.c", PART_1, also(PART_1, "u->sin > 1u")),
    ("part: transmit count against the capacity in 2", "model.c", PART_2,
     also(PART_2, "u->tx_count > capacity(u)")),
    ("part: receive count against the capacity in 2", "model.c", PART_2,
     also(PART_2, "u->rx_count > capacity(u)")),
    ("part: receive count against the capacity in 3", "model.c", PART_3,
     also(PART_3, "u->rx_count > capacity(u)")),
    ("part: frame in 4", "model.c", PART_3 + PART_4,
     PART_3.replace(" || !frame_in_range(u)", "") + also(PART_4, "!frame_in_range(u)")),
    ("part: receiver in 5", "model.c", PART_4 + PART_5,
     PART_4.replace(" || !receiver_in_range(u)", "") + also(PART_5, "!receiver_in_range(u)")),
    ("part: kept errors in 5", "model.c", PART_4 + PART_5,
     PART_4.replace(" || !kept_in_range(u)", "") + also(PART_5, "!kept_in_range(u)")),
    ("part: kept errors with FIFO on in 2", "model.c", PART_2,
     also(PART_2, "(u->fifo_on == 1u && any_error(&u->kept) == 1u)")),
    ("part: an entry's errors with FIFO off in 2", "model.c", PART_2,
     also(PART_2, "(u->fifo_on == 0u && any_error(&u->rx_queue[0].errors) == 1u)")),
    ("part: OE in 4", "model.c", PART_4, also(PART_4, "u->overrun > 1u")),
    ("part: transmit-empty latch on a queue in 3", "model.c", PART_3,
     also(PART_3, "(u->tx_empty_latch == 1u && u->tx_count != 0u)")),
    ("part: time-out latch without data in 4", "model.c", PART_4,
     also(PART_4, "(u->timeout_latch == 1u && u->rx_count == 0u)")),
    ("part: time-out latch with FIFO off in 2", "model.c", PART_2,
     also(PART_2, "(u->timeout_latch == 1u && u->fifo_on == 0u && u->rx_count == 1u)")),
    ("part: idle count without data in 4", "model.c", PART_4,
     also(PART_4, "(u->idle_count != 0u && u->rx_count == 0u)")),
    ("part: idle count with FIFO off in 2", "model.c", PART_2,
     also(PART_2, "(u->idle_count != 0u && u->fifo_on == 0u && u->rx_count == 1u)")),
    ("part: CTS change in 1", "model.c", PART_1,
     also(PART_1, "(autoflow(u) && (u->changes & MODEM_CTS) != 0u)")),
    ("part: CTS change in 2", "model.c", PART_2,
     also(PART_2, "(autoflow(u) && (u->changes & MODEM_CTS) != 0u)")),
    ("part: hold without auto-RTS in 1", "model.c", PART_1,
     also(PART_1, "(u->rts_hold == 1u && !auto_rts(u))")),
    ("part: hold without data in 4", "model.c", PART_4,
     also(PART_4, "(u->rts_hold == 1u && auto_rts(u) && u->rx_count == 0u)")),
    ("part: hold at the trigger in 4", "model.c", PART_4,
     also(PART_4, "(u->rts_hold == 0u && hold_by_rule(u) == 1u)")),
    ("part: 1 for every number too wide", "model.c", PART_1, too_wide_is("UART_PART_REGISTERS")),
    ("part: a number too wide before a lower part", "model.c", PART_1,
     too_wide_is("i < 6u ? 1u : i < 12u ? 2u : i < 80u ? 3u : i < 342u || i > 347u ? 4u : 5u")),
    ("part: of a well-formed state", "calls.c", "    put_pair(a.number, a.part);",
     "    put_pair(a.number, a.part != 0u ? a.part : 1u);"),
    ("part: without its number", "calls.c", "    put_pair(a.number, a.part);",
     "    put_pair(0u, a.part);"),

    # More of each kind.
    ("hold released by a raised trigger", "model.c",
     "    u->trigger_code = byte >> FCR_TRIGGER_SHIFT;\n",
     "    u->trigger_code = byte >> FCR_TRIGGER_SHIFT;\n    u->rts_hold = 0u;\n"),
    ("trigger guarded by LCR7", "model.c", "    u->trigger_code = byte >> FCR_TRIGGER_SHIFT;\n",
     "    if (divisor_access(u))\n        u->trigger_code = byte >> FCR_TRIGGER_SHIFT;\n"),
    ("PE without a parity bit", "model.c",
     "    if (parity_bits(format) != 0u && u->rx_parity != parity_bit(u->rx_data, format))",
     "    if (u->rx_parity != parity_bit(u->rx_data, format))"),
    ("PE never with stick parity", "model.c",
     "    if (parity_bits(format) != 0u && u->rx_parity != parity_bit(u->rx_data, format))",
     "    if (parity_bits(format) != 0u && (format & LCR_STICK) == 0u &&\n"
     "        u->rx_parity != parity_bit(u->rx_data, format))"),
    ("received bits at the top of the byte", "model.c", "    entry.byte = u->rx_data;",
     "    entry.byte = u->rx_data << (8u - data_bits(format));"),
    ("MSR shows the pins in loopback", "model.c",
     "    return (effective_modem(u) << MSR_LEVEL_SHIFT) | u->changes;",
     "    return (u->modem_pins << MSR_LEVEL_SHIFT) | u->changes;"),
    ("time-out latch cleared by IIR read", "model.c", "    if ((iir & IIR_CODE) == IIR_TX_EMPTY)\n",
     "    if ((iir & IIR_CODE) == IIR_TIMEOUT)\n        u->timeout_latch = 0u;\n"
     "    if ((iir & IIR_CODE) == IIR_TX_EMPTY)\n"),
    ("latch cleared by LSR read", "model.c", LSR_CLEARS, LSR_CLEARS + "    u->tx_empty_latch = 0u;\n"),
    ("OE cleared by RBR read", "model.c", "    remove_oldest_entry(u);\n",
     "    u->overrun = 0u;\n    remove_oldest_entry(u);\n"),
    ("data interrupt from one byte on", "model.c", "    if (u->fifo_on == 0u)\n        return u->rx_count != 0u;",
     "    if (u->rx_count != 0u)\n        return true;"),
    ("time-out only below the trigger", "model.c",
     "    if (u->idle_count > 4u * frame_length(u->lcr))",
     "    if (u->rx_count < trigger_level(u) && u->idle_count > 4u * frame_length(u->lcr))"),
    ("a lost break is not waited out", "model.c", "    if (u->fifo_on != 0u)\n        return false;\n    u->rx_queue[0]",
     "    if (u->fifo_on != 0u) {\n        if (u->rx_state == UART_RX_WAIT_MARK)\n"
     "            u->rx_state = UART_RX_IDLE;\n        return false;\n    }\n    u->rx_queue[0]"),
    ("range: P up to the second stop bit", "model.c",
     "    return FIRST_SAMPLE + PULSES_PER_BIT * (1u + data_bits(format) + parity_bits(format));",
     "    return FIRST_SAMPLE + PULSES_PER_BIT * (1u + data_bits(format) + parity_bits(format)) +\n"
     "           ((format & LCR_STOP) != 0u ? PULSES_PER_BIT : 0u);"),
    ("second stop bit sampled", "model.c", "    return end_character(u, line);",
     "    if ((u->rx_format & LCR_STOP) != 0u && sample == 1u + width + parity_bits(u->rx_format))\n"
     "        return false;\n    return end_character(u, line);"),
    ("reset takes a malformed state", "model.c",
     "    if (!uart_well_formed(u))\n        return refuse(u, UART_MALFORMED);\n    uart_do_reset(u);",
     "    uart_do_reset(u);"),
    ("fresh clears SIN", "model.c", "    u->sin = 1u;\n", "    u->sin = 0u;\n"),
    ("tick without divisor pulses", "model.c", "    if (u->divisor == 0u)\n        return;\n    u->k--;",
     "    if (u->divisor == 0u) {\n        pulse(u);\n        return;\n    }\n    u->k--;"),
    ("FIFO off keeps the queues", "model.c",
     "    u->fifo_on = 0u;\n    clear_receive_queue(u);\n    clear_transmit_queue(u);",
     "    u->fifo_on = 0u;\n    if (u->rx_count > 1u || u->idle_count != 0u || u->timeout_latch != 0u)\n"
     "        clear_receive_queue(u);\n    if (u->tx_count > 1u)\n        clear_transmit_queue(u);"),
    ("DTR and RTS swapped", "model.c", "#define MCR_DTR 0x01u\n#define MCR_RTS 0x02u",
     "#define MCR_DTR 0x02u\n#define MCR_RTS 0x01u"),
    ("level in the present format for the frame now sent", "model.c",
     "        return frame_level(u->frame_byte, u->frame_format,\n",
     "        return frame_level(u->frame_byte, format,\n"),
    ("level low between L = 0 and the load", "model.c", "    if (place < first)\n        return 1u;",
     "    if (place < first)\n        return 0u;"),
    ("time-out cleared with the idle count only at 0", "model.c",
     "    if (u->idle_count < IDLE_LIMIT)\n        u->idle_count++;",
     "    if (u->idle_count <= 4u * frame_length(u->lcr))\n        u->idle_count++;"),

    # Errors kept in character mode.
    ("kept: cleared by RBR read", "model.c", "    remove_oldest_entry(u);\n",
     "    u->kept = no_errors;\n    remove_oldest_entry(u);\n"),
    ("kept: cleared by RBR read of an empty queue", "model.c",
     "    if (u->rx_count == 0u)\n        return;\n    u->timeout_latch = 0u;",
     "    if (u->rx_count == 0u) {\n        u->kept = no_errors;\n        return;\n    }\n"
     "    u->timeout_latch = 0u;"),
    ("kept: cleared by a good character", "model.c", KEEPS,
     "    if (u->fifo_on == 0u && any_error(&entry.errors) == 0u)\n        u->kept = no_errors;\n" + KEEPS),
    ("kept: the last character's only", "model.c", KEEPS,
     "    if (u->fifo_on == 0u)\n        u->kept = no_errors;\n" + KEEPS),
    ("kept: cleared when a character is replaced", "model.c", KEEPS,
     "    if (u->fifo_on == 0u && u->rx_count != 0u)\n        u->kept = no_errors;\n" + KEEPS),
    ("kept: not of a character that replaces another", "model.c", KEEPS,
     "    if (u->fifo_on == 0u && u->rx_count != 0u)\n        entry.errors = no_errors;\n" + KEEPS),
    ("kept: no PE", "model.c", "    u->kept.pe |= errors->pe;\n", ""),
    ("kept: no FE", "model.c", "    u->kept.fe |= errors->fe;\n", ""),
    ("kept: no BI", "model.c", "    u->kept.bi |= errors->bi;\n", ""),
    ("kept: flipped by a second error", "model.c", "    u->kept.pe |= errors->pe;\n",
     "    u->kept.pe ^= errors->pe;\n"),
    ("kept: the entry has its own too", "model.c", "    *errors = no_errors;\n", ""),
    ("kept: with FIFO on too", "model.c", KEEPS, "    keep_errors(u, &entry.errors);\n"),
    ("kept: with FIFO on beside the entry's own", "model.c", KEEPS,
     KEEPS + "    u->kept.pe |= entry.errors.pe;\n"),
    ("kept: not cleared by LSR read", "model.c", LSR_CLEARS,
     LSR_CLEARS.replace("    u->kept = no_errors;\n", "")),
    ("kept: BI not cleared by LSR read", "model.c", LSR_CLEARS,
     LSR_CLEARS.replace("u->kept = no_errors", "u->kept.pe = u->kept.fe = 0u")),
    ("kept: cleared by LSR read with data only", "model.c", LSR_CLEARS,
     LSR_CLEARS.replace("    u->kept", "    if (u->rx_count != 0u)\n        u->kept")),
    ("kept: cleared by IIR read", "model.c", "    if ((iir & IIR_CODE) == IIR_TX_EMPTY)\n",
     "    if ((iir & IIR_CODE) == IIR_LINE_STATUS)\n        u->kept = no_errors;\n"
     "    if ((iir & IIR_CODE) == IIR_TX_EMPTY)\n"),
    ("kept: not cleared by FIFO on", "model.c", "    u->fifo_on = 1u;\n    u->kept = no_errors;\n",
     "    u->fifo_on = 1u;\n"),
    ("kept: cleared by FIFO off when off", "model.c",
     "    if (u->fifo_on == 0u)\n        return;\n    u->fifo_on = 0u;",
     "    u->kept = no_errors;\n    if (u->fifo_on == 0u)\n        return;\n    u->fifo_on = 0u;"),
    ("kept: cleared by a receive clear when off", "model.c",
     "        turn_fifo_off(u);\n        return;",
     "        if ((byte & FCR_CLEAR_RX) != 0u)\n            u->kept = no_errors;\n"
     "        turn_fifo_off(u);\n        return;"),
    ("kept: the oldest entry's from FIFO off on", "model.c", "    u->fifo_on = 0u;\n    clear_receive",
     "    u->fifo_on = 0u;\n    u->kept = u->rx_queue[0].errors;\n    clear_receive"),
    ("kept: OE goes with FIFO on", "model.c", "    u->fifo_on = 1u;\n    u->kept = no_errors;\n",
     "    if (u->fifo_on == 0u)\n        u->overrun = 0u;\n    u->fifo_on = 1u;\n"
     "    u->kept = no_errors;\n"),
    ("kept: left by reset", "model.c", "    uart_fresh(u);\n    u->scr = scr;\n",
     "    struct uart_errors kept = u->kept;\n    uart_fresh(u);\n    u->kept = kept;\n"
     "    u->scr = scr;\n"),
    ("kept: LSR shows them with data only", "model.c", "    if (shown->pe != 0u)\n",
     "    if (u->rx_count == 0u)\n        shown = &no_errors;\n    if (shown->pe != 0u)\n"),
    ("kept: 06 with data only", "model.c",
     "    return u->overrun != 0u || any_error(shown_errors(u)) != 0u;",
     "    return u->overrun != 0u || (u->rx_count != 0u && any_error(shown_errors(u)) != 0u);"),
    ("kept: 06 without BI", "model.c",
     "    return u->overrun != 0u || any_error(shown_errors(u)) != 0u;",
     "    return (u->overrun | shown_errors(u)->pe | shown_errors(u)->fe) != 0u;"),
    ("kept: a lost character adds to them", "model.c",
     "    if (u->fifo_on != 0u)\n        return false;\n    u->rx_queue[0] = entry;",
     "    if (u->fifo_on != 0u) {\n        u->kept.fe |= entry.errors.fe;\n        return false;\n    }\n"
     "    u->rx_queue[0] = entry;"),
    ("range: an entry's errors with FIFO off", "model.c",
     "    return bytes <= 0xFFu && errors <= u->fifo_on && beyond == 0u;",
     "    return bytes <= 0xFFu && errors <= 1u && beyond == 0u;"),
    ("range: kept errors with FIFO on", "model.c", "<= (u->fifo_on != 0u ? 0u : 1u);", "<= 1u;"),
    ("range: kept errors above 1", "model.c", "<= (u->fifo_on != 0u ? 0u : 1u);",
     "<= (u->fifo_on != 0u ? 0u : 3u);"),
    ("range: kept errors by their low byte", "model.c", "    return any_error(&u->kept) <=",
     "    return (any_error(&u->kept) & 255u) <="),
    ("range: kept BI needs FE", "model.c", "    return any_error(&u->kept) <=",
     "    return u->kept.bi <= u->kept.fe && any_error(&u->kept) <="),
    ("range: kept errors need data", "model.c", "    return any_error(&u->kept) <=",
     "    return (u->rx_count != 0u || any_error(&u->kept) == 0u) && any_error(&u->kept) <="),

    # Divisors.
    ("divisor: the larger on a tie", "divisor.c", NEARER, NEARER.replace("<", "<=")),
    ("divisor: quotient rounded down", "divisor.c", NEARER,
     "        if (divisor == 1u || product <= clock) {\n"),
    ("divisor: quotient rounded up", "divisor.c", NEARER, "        if (product - step < clock) {\n"),
    ("divisor: the nearest rate", "divisor.c", NEARER,
     "        if (divisor == 1u || distance(clock, product) * found < nearest * divisor) {\n"),
    ("divisor: from 2 on", "divisor.c", NEARER,
     "        if (divisor == 2u || distance(clock, product) < nearest) {\n"),
    ("divisor: 65536 too", "divisor.c", "#define MOST_DIVISOR 65535u", "#define MOST_DIVISOR 65536u"),
    ("divisor: 65534 the largest", "divisor.c", "#define MOST_DIVISOR 65535u",
     "#define MOST_DIVISOR 65534u"),
    ("divisor: no largest one", "divisor.c", "#define MOST_DIVISOR 65535u",
     "#define MOST_DIVISOR 1000000u"),
    ("divisor: product in 32 bits", "divisor.c", "    uint64_t product = 0u;\n",
     "    uint32_t product = 0u;\n"),
    ("divisor: clock 0 taken", "divisor.c", "clock < 1u || ", ""),
    ("divisor: rate 0 taken", "divisor.c", OUTSIDE,
     "    if (rate == 0u && clock >= 1u && clock <= MOST_CLOCK) {\n"
     "        struct divisor_answer largest = { UART_DONE, MOST_DIVISOR, 0 };\n\n"
     "        return largest;\n    }\n" + OUTSIDE),
    ("divisor: clock 1 refused", "divisor.c", "clock < 1u", "clock <= 1u"),
    ("divisor: rate 1 refused", "divisor.c", "rate < 1u", "rate <= 1u"),
    ("divisor: clock 16000000 refused", "divisor.c", "clock > MOST_CLOCK", "clock >= MOST_CLOCK"),
    ("divisor: clock 16000001 taken", "divisor.c", "clock > MOST_CLOCK", "clock > MOST_CLOCK + 1u"),
    ("divisor: rate 1000000 refused", "divisor.c", "rate > MOST_RATE", "rate >= MOST_RATE"),
    ("divisor: rate 1000001 taken", "divisor.c", "rate > MOST_RATE", "rate > MOST_RATE + 1u"),
    ("divisor: clock by its low 24 bits", "divisor.c", OUTSIDE, "    clock &= 0xFFFFFFu;\n" + OUTSIDE),
    ("divisor: rate by its low 20 bits", "divisor.c", OUTSIDE, "    rate &= 0xFFFFFu;\n" + OUTSIDE),
    ("divisor: 8 for 9", "divisor.h", "#define DIVISOR_OUTSIDE 9u", "#define DIVISOR_OUTSIDE 8u"),
    ("divisor: divisor 1 beside 9", "divisor.c", "{ DIVISOR_OUTSIDE, 0u, 0 }", "{ DIVISOR_OUTSIDE, 1u, 0 }"),
    ("divisor: the largest one beside 9", "divisor.c", OUTSIDE,
     OUTSIDE.replace("        return", "        answer.divisor = clock > MOST_CLOCK ? MOST_DIVISOR : 0u;\n"
                     "    if (clock < 1u || clock > MOST_CLOCK || rate < 1u || rate > MOST_RATE)\n"
                     "        return")),
    ("divisor: an error beside 9", "divisor.c", "{ DIVISOR_OUTSIDE, 0u, 0 }",
     "{ DIVISOR_OUTSIDE, 0u, -MILLION }"),
    ("error: toward minus infinity", "divisor.c", ERROR,
     "((clock - product) * MILLION - (clock < product ? product - 1 : 0)) / product"),
    ("error: away from zero", "divisor.c", ERROR,
     "((clock - product) * MILLION + (clock < product ? 1 - product : product - 1)) / product"),
    ("error: rounded", "divisor.c", ERROR,
     "((clock - product) * MILLION + (clock < product ? -product : product) / 2) / product"),
    ("error: over the clock", "divisor.c", ERROR, "(clock - product) * MILLION / clock"),
    ("error: sign turned", "divisor.c", ERROR, "(product - clock) * MILLION / product"),
    ("error: without its sign", "divisor.c", ERROR,
     "(int64_t)distance((uint64_t)clock, (uint64_t)product) * MILLION / product"),
    ("error: cut before the million", "divisor.c", ERROR, "(clock - product) / product * MILLION"),
    ("error: in 32 bits", "divisor.c", ERROR,
     "(int32_t)((clock - product) * MILLION) / (int32_t)product"),
    ("error: 100 % at most", "divisor.c", ERROR,
     "(clock - product > product ? product : clock - product) * MILLION / product"),
    ("error: a minus sign before 0", "calls.c", "    if (number < 0)\n", "    if (number <= 0)\n"),
    ("error: no minus sign", "calls.c", "    if (number < 0)\n", "    if (number > 0x7FFFFFFE)\n"),
    ("divisor: 1 with a malformed state", "calls.c", PICKED,
     "    struct divisor_answer malformed = { UART_MALFORMED, 0u, 0 };\n\n"
     "    put_divisor(uart_well_formed(&current) ? divisor_pick(given[0], given[1]) : malformed);\n"),
    ("divisor: put into the state", "calls.c", PICKED,
     PICKED + "    current.divisor = current.k = divisor_pick(given[0], given[1]).divisor;\n"),
    ("divisor: the state made fresh", "calls.c", PICKED, PICKED + "    uart_fresh(&current);\n"),
    ("divisor: rate before clock", "calls.c", PICKED, PICKED.replace("given[0], given[1]", "given[1], given[0]")),

    # Lines.
    ("divisor with a third number taken", "calls.c", DIVISOR_FORM,
     '{ "divisor", 2, 0, { UINT32_MAX, UINT32_MAX }, 1,'),
    ("divisor with one number taken", "calls.c", DIVISOR_FORM,
     '{ "divisor", 1, 0, { UINT32_MAX }, 1,'),
    ("divisor with 0 bad", "calls.c", DIVISOR_FORM,
     '{ "divisor", 2, 1, { UINT32_MAX, UINT32_MAX }, 0,'),
    ("divisor with a clock above its range bad", "calls.c", DIVISOR_FORM,
     '{ "divisor", 2, 0, { 16000000, UINT32_MAX }, 0,'),
    ("a state without the kept errors taken", "calls.c", '{ "load", UART_STATE_PLACES, 0,',
     '{ "load", UART_STATE_PLACES - 3u, 0,'),
    ("leading zeros taken", "calls.c", "(*first == '0' && at - first > 1) || ", ""),
    ("numbers above 32 bits taken", "calls.c", " || sum > UINT32_MAX)", ")"),
    ("ticks 0 taken", "calls.c", '{ "ticks", 1, 1,', '{ "ticks", 1, 0,'),
    ("addresses above 255 taken", "calls.c", '{ "read", 1, 0, { 255 },', '{ "read", 1, 0, { 999 },'),
    ("text after the numbers taken", "calls.c", "    return at == end;\n", "    return true;\n"),
    ("words by their beginning", "calls.c", "if (strlen(forms[i].word) == length && ",
     "if (strlen(forms[i].word) <= length && "),
    ("1,023 words", "calls.c", "#define MOST_WORDS 1024u", "#define MOST_WORDS 1023u"),
    ("1,025 words", "calls.c", "#define MOST_WORDS 1024u", "#define MOST_WORDS 1025u"),
    ("part with a number taken", "calls.c", '{ "part", 0, 0, { 0 }, 0,', '{ "part", 0, 0, { 0 }, 1,'),
    ("version above 65535 taken", "calls.c", '{ "replay", 1, 0, { 65535 },', '{ "replay", 1, 0, { 65536 },'),

    # Replay.
    ("the differing read is done", "capture.c", DIFFERS,
     "        if (record != expected) {\n            record_step(u, expected);\n"
     "            return differs(i, byte_of(record), byte_of(expected));\n        }\n"),
    ("seen and model swapped", "capture.c", "differs(i, byte_of(record), byte_of(expected));",
     "differs(i, byte_of(expected), byte_of(record));"),
    ("places from 1", "capture.c", "differs(i, byte_of(record), byte_of(expected));",
     "differs(i + 1u, byte_of(record), byte_of(expected));"),
    ("stray bits taken", "record.h", "(record & ~(KIND_MASK | fields[kind_of(record)])) == 0u;",
     "true;"),
    ("stray bit 16 of ticks", "record.h", "[KIND_TICKS] = 0xFFFFu", "[KIND_TICKS] = 0x1FFFFu"),
    ("stray bit 11 of a read", "record.h", "[KIND_READ] = 0x7FFu", "[KIND_READ] = 0xFFFu"),
    ("stray bit 11 of a write", "record.h", "[KIND_WRITE] = 0x7FFu", "[KIND_WRITE] = 0xFFFu"),
    ("stray bit 1 of SIN", "record.h", "[KIND_SIN] = 0x1u", "[KIND_SIN] = 0x3u"),
    ("stray bit 4 of modem pins", "record.h", "[KIND_MODEM] = 0xFu", "[KIND_MODEM] = 0x1Fu"),
    ("stray bit 27 of a reset", "record.h", "[KIND_RESET] = 0x0u", "[KIND_RESET] = 0x8000000u"),
    ("kind 6 taken", "record.h",
     "    return kind_of(record) <= KIND_RESET &&",
     "    if (kind_of(record) == 6u)\n        return true;\n    return kind_of(record) <= KIND_RESET &&"),
    ("records judged before the first step", "capture.c",
     "    for (size_t i = 0; i < count; i++) {\n",
     "    for (size_t i = 0; i < count; i++)\n        if (!record_is_good(records[i]))\n"
     "            return replay_refused(CAPTURE_BAD_RECORD, i);\n"
     "    for (size_t i = 0; i < count; i++) {\n"),
    ("a tick more in each record", "record.h", "uart_do_ticks(u, field);", "uart_do_ticks(u, field + 1u);"),
    ("no ticks as one", "record.h", "uart_do_ticks(u, field);", "uart_do_ticks(u, field + !field);"),
    ("7 before 1", "capture.c",
     "    if (!uart_well_formed(u))\n        return malformed(uart_part(u));\n"
     "    if (version != CAPTURE_VERSION)\n        return replay_refused(CAPTURE_BAD_VERSION, 0u);\n",
     "    if (version != CAPTURE_VERSION)\n        return replay_refused(CAPTURE_BAD_VERSION, 0u);\n"
     "    if (!uart_well_formed(u))\n        return malformed(uart_part(u));\n"),
    ("versions by their low byte", "capture.c", "    if (version != CAPTURE_VERSION)",
     "    if ((version & 255u) != CAPTURE_VERSION)"),

    # The program replay.
    ("6 before 8 in a short file", "source.c", "    if (bytes < SOURCE_HEADER_BYTES)\n",
     "    if (bytes > 0 && header[0] != 'U')\n        return CAPTURE_BAD_MARK;\n"
     "    if (bytes < SOURCE_HEADER_BYTES)\n"),
    ("fourth byte not looked at", "source.c", " || header[3] != 0u ||", " ||"),
    ("pad not looked at", "source.c", "header[3] != 0u ||\n        header[6] != 0u || header[7] != 0u)",
     "header[3] != 0u)"),
    ("version's high byte not looked at", "source.c", "(header[4] | header[5] << 8) != CAPTURE_VERSION",
     "header[4] != CAPTURE_VERSION"),
    ("bytes left over ignored", "replay.c", " && block.left != 0u)", " && block.left > 3u)"),
    ("bytes left over before a difference", "replay.c",
     "answer.outcome == REPLAY_AGREED && block.left", "block.left"),
    ("places from each block's start", "replay.c", "        answer.place += before;\n", ""),
    ("each block from the fresh state", "replay.c", "        source_next(source, &block);\n",
     "        uart_fresh(&u);\n        source_next(source, &block);\n"),
    ("a short read ends the input", "source.c", "while (used < size && (n", "while (used < size && used < 8u && (n"),
    ("one block only", "replay.c", "answer.outcome == REPLAY_AGREED && !block.last);", "false);"),
    ("words with the high byte first", "source.c",
     "(uint32_t)b[0] | (uint32_t)b[1] << 8 | (uint32_t)b[2] << 16 | (uint32_t)b[3] << 24;",
     "(uint32_t)b[3] | (uint32_t)b[2] << 8 | (uint32_t)b[1] << 16 | (uint32_t)b[0] << 24;"),

    # The expected capture.
    ("expect: the byte seen written", "expected.c", WRITES,
     WRITES.replace("answer.count++] = record", "answer.count] = records[answer.count]").replace(
         "        record_step", "        answer.count++;\n        record_step")),
    ("expect: the byte seen decides what the read changes", "expected.c", "record_step(u, record);",
     "record_step(u, records[answer.count - 1u]);"),
    ("expect: the byte after the read", "expected.c", WRITES,
     "        record_step(u, record_expected(u, record));\n"
     "        words[answer.count++] = record_expected(u, record);\n"),
    ("expect: reads not done", "expected.c", "        record_step(u, record);\n",
     "        if (kind_of(record) != KIND_READ)\n            record_step(u, record);\n"),
    ("expect: ticks not run", "expected.c", "        record_step(u, record);\n",
     "        if (kind_of(record) != KIND_TICKS)\n            record_step(u, record);\n"),
    ("expect: pins not moved", "expected.c", "        record_step(u, record);\n",
     "        if (kind_of(record) != KIND_MODEM)\n            record_step(u, record);\n"),
    ("expect: no reset", "expected.c", "        record_step(u, record);\n",
     "        if (kind_of(record) != KIND_RESET)\n            record_step(u, record);\n"),
    ("expect: no address in a read", "expected.c", "words[answer.count++] = record;",
     "words[answer.count++] = kind_of(record) == KIND_READ ? record & ~0x700u : record;"),
    ("expect: a write with the byte read back", "expected.c", "words[answer.count++] = record;",
     "words[answer.count++] = kind_of(record) != KIND_WRITE ? record\n"
     "            : (record & ~BYTE_MASK) | uart_peek(u, address_of(record));"),
    ("expect: no ticks left out", "expected.c", WRITES,
     "        if (record == 0u) {\n            records++;\n            count--;\n            continue;\n"
     "        }\n" + WRITES),
    ("expect: ends at a wrong guess", "expected.c", WRITES,
     "        if (record != record_expected(u, record))\n            break;\n" + WRITES),
    ("expect: a wrong guess ends the writing after it", "expected.c", WRITES,
     WRITES + "        if (record != records[answer.count - 1u])\n            break;\n"),
    ("expect: 16 before 8", "expected.c", BAD_WORD + NO_WORD, NO_WORD + BAD_WORD),
    ("expect: a bad record written as it stands", "expected.c", BAD_WORD,
     "        if (!record_is_good(record) && answer.count < room) {\n"
     "            words[answer.count++] = record;\n            continue;\n        }\n" + BAD_WORD),
    ("expect: a bad record written and refused", "expected.c", BAD_WORD,
     BAD_WORD.replace("            break", "            if (answer.count < room)\n"
                      "                words[answer.count++] = record;\n            break")),
    ("expect: a bad record's word touched", "expected.c", BAD_WORD,
     BAD_WORD.replace("            break", "            if (answer.count < room)\n"
                      "                words[answer.count] = record;\n            break")),
    ("expect: a bad record's step made", "expected.c", BAD_WORD,
     BAD_WORD.replace("            break", "            record_step(u, record);\n            break")),
    ("expect: a step for the record with no word", "expected.c", NO_WORD,
     NO_WORD.replace("            break", "            record_step(u, record_expected(u, record));\n"
                     "            break")),
    ("expect: a bad record counted", "expected.c", BAD_WORD,
     BAD_WORD.replace("            break", "            answer.count++;\n            break")),
    ("expect: the record with no word counted", "expected.c", NO_WORD,
     NO_WORD.replace("            break", "            answer.count++;\n            break")),
    ("expect: count 0 at 8", "expected.c", WRITTEN,
     "    if (answer.number == CAPTURE_BAD_RECORD)\n        answer.count = 0;\n" + WRITTEN),
    ("expect: count 0 at 16", "expected.c", WRITTEN,
     "    if (answer.number == EXPECTED_NO_WORD)\n        answer.count = 0;\n" + WRITTEN),
    ("expect: 0 for 16", "expected.c", LOOP,
     "    if (room < count)\n        count = room;\n    while (answer.count < count) {\n"),
    ("expect: no word for the last of the room", "expected.c", "answer.count == room)",
     "answer.count + 1u >= room)"),
    ("expect: a word behind the room", "expected.c", "answer.count == room)", "answer.count == room + 1u)"),
    ("expect: 16 for no room without records", "expected.c", LOOP,
     "    if (room == 0u && count == 0u)\n        answer.number = EXPECTED_NO_WORD;\n" + LOOP),
    ("expect: 16 for a run as long as the records", "expected.c", WRITTEN,
     "    if (answer.number == UART_DONE && room > 0u && answer.count == room)\n"
     "        answer.number = EXPECTED_NO_WORD;\n" + WRITTEN),
    ("expect: nothing written where the room is too small", "expected.c", LOOP,
     "    if (room < count) {\n        answer.number = EXPECTED_NO_WORD;\n        return answer;\n    }\n" + LOOP),
    ("expect: records judged before the first is written", "expected.c", LOOP,
     "    for (size_t i = 0; i < count; i++)\n        if (!record_is_good(records[i])) {\n"
     "            answer.number = CAPTURE_BAD_RECORD;\n            return answer;\n        }\n" + LOOP),
    ("expect: the word beyond the count touched", "expected.c", WRITTEN,
     "    if (answer.count < room)\n        words[answer.count] = 0u;\n" + WRITTEN),
    ("expect: words beyond the count zero", "expected.c", WRITTEN,
     "    for (size_t i = answer.count; i < room; i++)\n        words[i] = 0u;\n" + WRITTEN),
    ("expect: the last word of the room touched", "expected.c", WRITTEN,
     "    if (answer.count < room)\n        words[room - 1u] = 0u;\n" + WRITTEN),
    ("expect: state as given at 8", "expected.c", RECORDS, first_state("CAPTURE_BAD_RECORD")),
    ("expect: state as given at 16", "expected.c", RECORDS, first_state("EXPECTED_NO_WORD")),
    ("expect: state as given where all is written", "expected.c", RECORDS, first_state("UART_DONE")),
    ("expect: 15 for 16", "expected.h", "#define EXPECTED_NO_WORD 16u", "#define EXPECTED_NO_WORD 15u"),
    ("expect: 7 before 1", "expected.c", EXPECTED_1 + EXPECTED_7, EXPECTED_7 + EXPECTED_1),
    ("expect: a malformed state taken", "expected.c", EXPECTED_1, ""),
    ("expect: words touched beside 1", "expected.c", EXPECTED_1,
     EXPECTED_1.replace("PART_NONE)\n", "PART_NONE && room > 0u)\n        words[0] = 0u;\n"
                        "    if (malformed.part != UART_PART_NONE)\n")),
    ("expect: any version taken", "expected.c", EXPECTED_7, ""),
    ("expect: version 0 taken", "expected.c", "version != CAPTURE_VERSION", "version > CAPTURE_VERSION"),
    ("expect: version 2 taken", "expected.c", "version != CAPTURE_VERSION",
     "version != CAPTURE_VERSION && version != 2u"),
    ("expect: version 3 taken", "expected.c", "version != CAPTURE_VERSION",
     "version != CAPTURE_VERSION && version != 3u"),
    ("expect: versions by their low byte", "expected.c", "version != CAPTURE_VERSION",
     "(version & 255u) != CAPTURE_VERSION"),
    ("expect: records written beside 7", "expected.c", EXPECTED_7,
     EXPECTED_7.replace("        return", "        expected_records(u, records, count, words, room);\n"
                        "    if (version != CAPTURE_VERSION)\n        return")),
    ("expect: records counted beside 7", "expected.c", "{ CAPTURE_BAD_VERSION, UART_PART_NONE, 0 }",
     "{ CAPTURE_BAD_VERSION, UART_PART_NONE, count }"),
    ("expect: the state stays", "calls.c", EXPECTS,
     "    struct uart copy = current;\n\n" + EXPECTS.replace("&current", "&copy")),
    ("expect: words that were 0", "calls.c", "#define UNWRITTEN 2863311530u", "#define UNWRITTEN 0u"),
    ("expect: the words written only", "calls.c", "put_numbers(numbers, 2u + given[1]);",
     "put_numbers(numbers, 2u + a.count);"),
    ("expect: room 1024 bad", "calls.c", "{ 65535, MOST_WORDS }", "{ 65535, MOST_WORDS - 1u }"),
    ("expect: version above 65535 taken", "calls.c", "{ 65535, MOST_WORDS }", "{ 65536, MOST_WORDS }"),
    ("expect: 1,023 records", "calls.c", "{ 65535, MOST_WORDS }, MOST_WORDS,",
     "{ 65535, MOST_WORDS }, MOST_WORDS - 1u,"),
    ("expect: lines as long as a replay's", "calls.c", 'sizeof "expect 65535 1024"', 'sizeof "replay 65535"'),

    # Jumps.
    ("jump: the pulse at N left out", "jump.c", JUMP_REST,
     "    if (ticks == left) {\n        u->k -= left;\n        return left;\n    }\n" + JUMP_REST),
    ("jump: one that ends at N by a pulse not counted", "jump.c", JUMP_COUNT,
     "        if (u->divisor == 0u || u->k != u->divisor || answer.used < most)\n            answer.jumps++;\n"),
    ("jump: a short one not counted", "jump.c", JUMP_COUNT,
     "        if (u->divisor == 0u || u->k == u->divisor)\n            answer.jumps++;\n"),
    ("jump: pulses counted only", "jump.c", JUMP_COUNT,
     "        if (u->divisor != 0u && u->k == u->divisor)\n            answer.jumps++;\n"),
    ("jump: none where N falls short of the first pulse", "jump.c", JUMP_LOOP,
     "    if (most != 0u && most < u->k)\n        answer.jumps--;\n" + JUMP_LOOP),
    ("jump: one for N = 0", "jump.c", JUMP_LOOP, "    if (most == 0u)\n        answer.jumps++;\n" + JUMP_LOOP),
    ("jump: one for N = 0 and D = 0", "jump.c", JUMP_LOOP,
     "    if (most == 0u && u->divisor == 0u)\n        answer.jumps++;\n" + JUMP_LOOP),
    ("jump: D = 0, one for each tick", "jump.c", JUMP_COUNT,
     "        answer.jumps += u->divisor == 0u ? most : 1u;\n"),
    ("jump: D = 0, none", "jump.c", JUMP_COUNT, "        answer.jumps += u->divisor == 0u ? 0u : 1u;\n"),
    ("jump: 1 + N / D", "jump.c", JUMP_END, counted_as("1u + answer.used / u->divisor")),
    ("jump: 2 + N / D", "jump.c", JUMP_END, counted_as("2u + answer.used / u->divisor")),
    ("jump: N / D rounded up", "jump.c", JUMP_END,
     counted_as("answer.used / u->divisor + (answer.used % u->divisor != 0u)")),
    ("jump: the number of jumps in 16 bits", "jump.c", JUMP_COUNT,
     "        answer.jumps = (answer.jumps + 1u) & 0xFFFFu;\n"),
    ("jump: N by its low 16 bits", "jump.c", JUMP_LOOP, "    most &= 0xFFFFu;\n" + JUMP_LOOP),
    ("jump: N with a sign", "jump.c", "left < u->k ?", "(int32_t)left < (int32_t)u->k ?"),
    ("jump: the first by D", "jump.c", JUMP_TICKS + "\n",
     "    uint32_t ticks = left < u->divisor ? left : u->divisor;\n\n    u->k = u->divisor;\n"),
    ("jump: the tick of a pulse by itself", "jump.c", JUMP_TICKS + "\n",
     JUMP_TICKS + "\n    if (ticks == u->k && ticks > 1u)\n        ticks--;\n"),
    ("jump: k anew at the rest", "jump.c", JUMP_REST,
     JUMP_REST + "    if (ticks == left)\n        u->k = u->divisor;\n"),
    ("jump: k as it was at the rest", "jump.c", JUMP_REST,
     "    if (ticks < u->k)\n        return ticks;\n" + JUMP_REST),
    ("jump: k a tick too high at the rest", "jump.c", JUMP_REST,
     "    if (ticks < u->k) {\n        u->k -= ticks - 1u;\n        return ticks;\n    }\n" + JUMP_REST),
    ("jump: the rest as k", "jump.c", JUMP_REST,
     "    if (ticks < u->k) {\n        u->k = ticks;\n        return ticks;\n    }\n" + JUMP_REST),
    ("jump: a pulse at the rest", "jump.c", "    u->k -= ticks - 1u;\n", "    u->k = 1u;\n"),
    ("jump: a pulse and one tick more", "jump.c", "uart_do_ticks(u, 1u);", "uart_do_ticks(u, 2u);"),
    ("jump: goes on over a pulse", "jump.c", JUMP_REST,
     JUMP_REST + "    if (left - ticks > u->divisor) {\n        u->k = 1u;\n        uart_do_ticks(u, 1u);\n"
     "        ticks += u->divisor;\n    }\n"),
    ("jump: no pulses", "jump.c", "    uart_do_ticks(u, 1u);\n",
     "    u->k = u->k == 1u ? u->divisor : u->k - 1u;\n"),
    ("jump: stops as a run does", "jump.c", JUMP_STOP, "!nothing_to_send(u)"),
    ("jump: a malformed state taken", "jump.c", JUMP_1, ""),
    ("jump: a malformed state taken for N = 0", "jump.c", JUMP_1,
     JUMP_1.replace("PART_NONE)", "PART_NONE && most != 0u)")),
    ("jump: jumps beside 1", "jump.c", JUMP_1,
     JUMP_1.replace("        return", "        answer.jumps = 1u;\n        return")),
    ("jump: a malformed state made fresh", "jump.c", JUMP_1,
     JUMP_1.replace("        return", "        uart_fresh(u);\n        return")),
    ("jumprun: never stops", "jump.c", JUMP_STOP, "(run || !run)"),
    ("jumprun: LSR6 looked at after each jump", "jump.c", JUMP_STOP,
     "!(run && answer.jumps != 0u && nothing_to_send(u))"),
    ("jumprun: stops a jump late", "jump.c", JUMP_LOOP,
     "    bool empty = false;\n\n" + JUMP_LOOP.replace("nothing_to_send(u)", "empty") +
     "        empty = nothing_to_send(u);\n"),
    ("jumprun: a jump for LSR6 1 and D = 0", "jump.c", JUMP_STOP,
     "!(run && u->divisor != 0u && nothing_to_send(u))"),
    ("jumprun: stops at an empty queue", "jump.c", "#define LSR6 0x40u", "#define LSR6 0x20u"),
    ("jumprun: stops at an empty shift register", "jump.c", JUMP_STOP, "!(run && u->frame_left == 0u)"),
    ("jumprun: stops where it is held back", "jump.c", JUMP_STOP,
     "!(run && (nothing_to_send(u) || (u->frame_left == 0u && uart_forecast(u).number == UART_HELD)))"),
    ("jumprun: stops at D = 0", "jump.c", JUMP_STOP, "!(run && (u->divisor == 0u || nothing_to_send(u)))"),
    ("jumprun: the look at LSR6 is a read of it", "jump.c", JUMP_STOP,
     "!(run && (uart_read(u, ADDRESS_LSR).byte & LSR6) != 0u)"),
    ("jumprun: the jumps of all N ticks", "jump.c", JUMP_RUN,
     "    uint32_t d = u->divisor, k = u->k;\n    struct jump_answer answer = jump_on(u, most, true);\n\n"
     "    if (answer.number == UART_DONE)\n        answer.jumps = d == 0u || most < k ? most != 0u\n"
     "            : 1u + (most - k) / d + ((most - k) % d != 0u);\n    return answer;\n"),
    ("jumprun: all N ticks used", "jump.c", JUMP_END,
     JUMP_END + "    if (run)\n        answer.used = most;\n"),
    ("jumprun: ticks used beside 1", "jump.c", JUMP_1,
     JUMP_1.replace("        return", "        answer.used = run ? most : 0u;\n        return")),
    ("jump: the ticks in place of the jumps", "calls.c", "put_pair(a.number, a.jumps);",
     "put_pair(a.number, a.used);"),
    ("jumprun: jumps before ticks", "calls.c", "{ a.number, a.used, a.jumps };",
     "{ a.number, a.jumps, a.used };"),
    ("jumprun: no jumps told", "calls.c", "{ a.number, a.used, a.jumps };", "{ a.number, a.used };"),
    ("jump: the state stays", "calls.c", JUMP_CALL, on_copy(JUMP_CALL)),
    ("jumprun: the state stays", "calls.c", JUMP_RUN_CALL, on_copy(JUMP_RUN_CALL)),
    ("jump: 0 bad", "calls.c", '{ "jump", 1, 0,', '{ "jump", 1, 1,'),
    ("jumprun: 0 bad", "calls.c", '{ "jumprun", 1, 0,', '{ "jumprun", 1, 1,'),
    ("jump: a second number taken", "calls.c", '{ "jump", 1, 0, { UINT32_MAX }, 0,',
     '{ "jump", 1, 0, { UINT32_MAX }, 1,'),
    ("jumprun: a second number taken", "calls.c", '{ "jumprun", 1, 0, { UINT32_MAX }, 0,',
     '{ "jumprun", 1, 0, { UINT32_MAX }, 1,'),
    ("jump: no number taken", "calls.c", '{ "jump", 1, 0, { UINT32_MAX }, 0,', '{ "jump", 0, 0, { 0 }, 1,'),
    ("jump: 4294967295 bad", "calls.c", '{ "jump", 1, 0, { UINT32_MAX },',
     '{ "jump", 1, 0, { UINT32_MAX - 1u },'),
    ("jumprun: 4294967295 bad", "calls.c", '{ "jumprun", 1, 0, { UINT32_MAX },',
     '{ "jumprun", 1, 0, { UINT32_MAX - 1u },'),

    # The program expect.
    ("expect: a refused header written", "expect.c", HEADER,
     "    if ((number == CAPTURE_BAD_MARK || number == CAPTURE_BAD_VERSION) &&\n"
     "        !write_bytes(source, header, sizeof header))\n        return false;\n" + HEADER),
    ("expect: a short header written", "expect.c", HEADER,
     "    if (number == CAPTURE_BAD_RECORD && !write_bytes(source, header, 1))\n"
     "        return false;\n" + HEADER),
    ("expect: records written where the version is refused", "expect.c", HEADER,
     "    if (number == CAPTURE_BAD_VERSION && !expect_blocks(source, &(uint32_t){ 0 }))\n"
     "        return false;\n" + HEADER),
    ("expect: no header", "expect.c", "write_bytes(source, header, sizeof header) &&\n", "true &&\n"),
    ("expect: a header without its pad", "expect.c", "header, sizeof header)", "header, sizeof header - 2u)"),
    ("expect: the header with version 2", "expect.c", HEADER, "    header[4]++;\n" + HEADER),
    ("expect: bytes left over ignored", "expect.c", LEFT, LEFT.replace("!= 0u", "> 3u")),
    ("expect: three bytes left over ignored", "expect.c", LEFT, LEFT.replace("!= 0u", "% 3u != 0u")),
    ("expect: a record for the bytes left over", "expect.c", BLOCK,
     BLOCK.replace("answer.count", "answer.count + (block.left != 0u)")),
    ("expect: the block of a bad record not written", "expect.c", BLOCK,
     BLOCK.replace("!write_words", "answer.number == UART_DONE && !write_words")),
    ("expect: the whole block of a bad record written", "expect.c", BLOCK,
     BLOCK.replace("answer.count", "block.count")),
    ("expect: the last record before a bad one not written", "expect.c", BLOCK,
     BLOCK.replace("answer.count", "answer.count - (answer.number != UART_DONE && answer.count > 0u)")),
    ("expect: goes on behind a bad record's block", "expect.c", "answer.number == UART_DONE && !block.last);",
     "!block.last);"),
    ("expect: one block only", "expect.c", "answer.number == UART_DONE && !block.last);", "false);"),
    ("expect: each block from the fresh state", "expect.c", "        source_next(source, &block);\n",
     "        uart_fresh(&u);\n        source_next(source, &block);\n"),
    ("expect: one word too few for a block", "expect.c", "words, SOURCE_BLOCK_RECORDS);",
     "words, SOURCE_BLOCK_RECORDS - 1u);"),
    ("expect: high byte first", "expect.c", ">> 8 * (i % SOURCE_RECORD_BYTES)",
     ">> 8 * (3u - i % SOURCE_RECORD_BYTES)"),
    ("expect: the number on standard output", "expect.c", TOLD, TOLD.replace("stderr", "stdout")),
    ("expect: no number told", "expect.c", TOLD, "        return true;\n"),
    ("expect: a record's refusal not told", "expect.c", "    *number = answer.number;\n", ""),
    ("expect: the number without its newline", "expect.c", TOLD, TOLD.replace("\\n", "")),
    ("expect: a word before the number", "expect.c", TOLD, TOLD.replace('"%"', '"refused %"')),
    ("expect: 0 told where nothing is refused", "expect.c", "    if (number != UART_DONE)\n", ""),
    ("expect: status 2 at a refusal", "expect.c", "    return true;\n}\n\nint main",
     "    return number == UART_DONE;\n}\n\nint main"),
]


def build(folder, changes):
    """Builds the programs; returns the folder."""
    os.makedirs(folder, exist_ok=True)
    for name in HEADERS + MODEL + tuple(program + ".c" for program in PROGRAMS):
        with open(os.path.join(HERE, name)) as source:
            text = source.read()
        for file, old, new in changes:
            if file == name:
                if text.count(old) != 1:
                    raise ValueError("text found %d times: %s" % (text.count(old), old))
                text = text.replace(old, new)
        with open(os.path.join(folder, name), "w") as target:
            target.write(text)
    for program in PROGRAMS:
        subprocess.run(["gcc", "-std=c11", "-O1", "-w", "-o", program, program + ".c", *MODEL],
                       cwd=folder, check=True)
    return folder


def found_at(good, bad, given):
    """Where compare.py finds the difference: `call N`, `pair N` or `capture N`, or None."""
    calls, replays, expects = ([os.path.join(folder, program) for folder in (bad, good)]
                               for program in PROGRAMS)
    done = subprocess.run([sys.executable, "-B", os.path.join(HERE, "compare.py"), *calls,
                           "--seed", str(given.seed), "--calls", str(given.calls),
                           "--pairs", str(given.pairs), "--replays", *replays, "--expects", *expects,
                           "--captures", str(given.captures), "--save", bad],
                          stdout=subprocess.PIPE, check=False)
    text = done.stdout.decode("latin-1")
    match = re.search(r"^difference at (call|pair|capture) (\d+)$", text, re.M)
    if match:
        return match.group(1), int(match.group(2))
    if done.returncode:
        print(text[-300:])
    return None


def stored(*names):
    with open(os.path.join(CRATES, *names), "rb") as source:
        return source.read()


def found_in_script(bad):
    """The first line of the stored script that is answered otherwise: `line N`, or None."""
    got, _, _ = ask.answer_from_file(os.path.join(bad, "calls"), os.path.join(CRATES, "calls", "stdin"))
    want = stored("calls", "stdout")
    if got == want:
        return None
    return "line", 1 + first_difference(got.split(b"\n"), want.split(b"\n"))


def found_in_captures(good, bad):
    """The first stored capture that is replayed otherwise, or of which something else is expected:
    `guesses 0`, which is that of the program `expect`, `replay N` or `expect N`, or None."""
    replay, expect = (os.path.join(bad, program) for program in PROGRAMS[1:])
    guessed = ask.answer_from_file(expect, os.path.join(CRATES, "expect", "stdin"))
    if guessed != (stored("expect", "stdout"), b"8\n", 0):
        return "guesses", 0
    for number, line in enumerate(stored("replay_stored", "stdout").splitlines(True)):
        name = os.path.join(CRATES, "replay_stored", "data", "%03d" % number)
        if ask.answer_from_file(replay, name) != (line, b"", 0):
            return "replay", number
        if ask.answer_from_file(expect, name) != ask.answer_from_file(os.path.join(good, "expect"), name):
            return "expect", number
    return None


def main():
    parser = argparse.ArgumentParser(description="asks whether compare.py finds broken rules")
    parser.add_argument("--calls", type=int, default=200000)
    parser.add_argument("--pairs", type=int, default=2000)
    parser.add_argument("--captures", type=int, default=400)
    parser.add_argument("--seed", type=int, default=1)
    parser.add_argument("--only", default="", help="text in the name, or a file")
    parser.add_argument("--stored", action="store_true", help="asks what is stored instead")
    given = parser.parse_args()
    missed = 0
    tried = 0
    latest = {}
    with tempfile.TemporaryDirectory() as folder:
        good = build(os.path.join(folder, "good"), [])
        for name, file, old, new in MUTANTS:
            if given.only not in name and given.only != file:
                continue
            bad = build(os.path.join(folder, "bad"), [(file, old, new)])
            if given.stored:
                found = found_in_script(bad) or found_in_captures(good, bad)
            else:
                found = found_at(good, bad, given)
            tried += 1
            if found is None:
                missed += 1
                print("%-60s not found" % name)
            else:
                latest[found[0]] = max(latest.get(found[0], 0), found[1])
                print("%-60s %s %d" % ((name,) + found))
            sys.stdout.flush()
    print("%d mutants, %d not found, the last one at %s"
          % (tried, missed, " and ".join("%s %d" % found for found in sorted(latest.items()))))
    sys.exit(1 if missed else 0)


if __name__ == "__main__":
    main()
