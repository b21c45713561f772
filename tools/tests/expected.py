"""What explain has to write about a capture, from the second program's answers: its `calls` makes the
steps, and the names are those of the data sheet, written down here once more."""

import os
import subprocess

from common import SECOND, utr

CALLS = os.path.join(SECOND, "calls")

READS = ("RBR", "IER", "IIR", "LCR", "MCR", "LSR", "MSR", "SCR")
WRITES = ("THR", "IER", "FCR", "LCR", "MCR", "LSR", "MSR", "SCR")
BITS = {
    "IER": "ERBI ETBEI ELSI EDSSI SLEEP LOWPOWER bit6 bit7".split(),
    "MCR": "DTR RTS OUT1 OUT2 LOOP AFE bit6 bit7".split(),
    "LSR": "DR OE PE FE BI THRE TEMT FIFOE".split(),
    "MSR": "DCTS DDSR TERI DDCD CTS DSR RI DCD".split(),
}
CODES = {0x00: "modem status", 0x01: "no interrupt", 0x02: "THR empty", 0x04: "received data",
         0x06: "line status", 0x0C: "time-out"}
LCR, MSR, LSR, IIR = 3, 6, 5, 2
SHOWN = 16


# ---- The second program ----

def answers(lines):
    text = "".join(line + "\n" for line in lines)
    done = subprocess.run([CALLS], input=text, stdout=subprocess.PIPE, check=True, text=True)
    return [[int(number) for number in line.split()] for line in done.stdout.splitlines()]


def step_line(word):
    """The record's step in the protocol, or None where it is bad or no tick passes."""
    parts = utr.parts(word)
    if parts is None or parts == (utr.TICKS, 0):
        return None
    numbers = parts[1:2] if parts[0] == utr.READ else parts[1:]
    return " ".join([utr.NAMES[parts[0]], *map(str, numbers)])


def model_bytes(words):
    """The model's byte of each record that is a read, else 0."""
    lines = [step_line(word) for word in words]
    said = iter(answers([line for line in lines if line is not None]))
    return [0 if line is None else next(said)[1] for line in lines]


# ---- Bytes by name ----

def set_bits(names, byte):
    return [name for bit, name in enumerate(names) if byte >> bit & 1]


def form(byte):
    parity = "N"
    if byte & 8:
        parity = ("OE", "MS")[byte >> 5 & 1][byte >> 4 & 1]
    stop = "1" if not byte & 4 else "2" if byte & 3 else "1.5"
    return "%d%s%s" % (5 + (byte & 3), parity, stop)


def character(byte):
    return "%02X '%c'" % (byte, byte) if 0x20 <= byte <= 0x7E else "%02X" % byte


def iir(byte):
    said = [CODES.get(byte & 15, "no known code")]
    said += {0x00: [], 0xC0: ["FIFO on"]}.get(byte & 0xC0, ["only one of bits 6 and 7"])
    return ", ".join(said + ["64 bytes"] * (byte >> 5 & 1) + ["bit4"] * (byte >> 4 & 1))


def fcr(byte):
    if not byte & 1:
        return "FIFO off"
    names = ("FIFO on", "clear receive", "clear transmit", "DMA", "bit4", "64 bytes")
    return ", ".join(set_bits(names, byte) + ["trigger code %d" % (byte >> 6)])


def named(name, byte):
    if name in ("RBR", "THR"):
        return character(byte)
    said = ""
    if name in BITS:
        said = " ".join(set_bits(BITS[name], byte))
    elif name == "LCR":
        said = " ".join([form(byte)] + set_bits(("BREAK", "DLAB"), byte >> 6))
    elif name in ("IIR", "FCR"):
        said = {"IIR": iir, "FCR": fcr}[name](byte)
    return "%02X = %s" % (byte, said) if said else "%02X" % byte


def modem(pins):
    return " ".join(set_bits(("CTS", "DSR", "RI", "DCD"), pins)) or "none"


# ---- Records ----

def bad(word):
    if word >> 28 > utr.RESET:
        return "bad record %08X: kind %d, and kinds are 0 to 5" % (word, word >> 28)
    bits = utr.FIELD_BITS[word >> 28]
    stray = (word & 0x0FFFFFFF) >> bits << bits
    return ("bad record %08X: kind %d (%s) with stray bits %08X, where bits %d to 27 are zero"
            % (word, word >> 28, utr.NAMES[word >> 28], stray, bits))


class Teller:
    """Goes over records and says each in words; keeps what their names need."""

    def __init__(self):
        self.lcr = self.divisor = self.ticks = 0

    def name(self, table, address):
        return ("DLL", "DLM")[address] if self.lcr & 0x80 and address < 2 else table[address]

    def write(self, address, byte):
        name = self.name(WRITES, address)
        said = "write %s %s" % (name, named(name, byte))
        if name in ("DLL", "DLM"):
            shift = 8 * address
            self.divisor = self.divisor & ~(255 << shift) | byte << shift
            said += ", divisor %d" % self.divisor
        if name == "LCR":
            self.lcr = byte
        return said

    def read(self, address, seen, model):
        name = self.name(READS, address)
        said = "read %s %s" % (name, named(name, seen))
        return said if seen == model else "%s, the model answers %s" % (said, named(name, model))

    def record(self, word, model):
        """The record in words, and whether it is marked."""
        parts = utr.parts(word)
        if parts is None:
            return bad(word), True
        kind, *fields = parts
        if kind == utr.READ:
            return self.read(*fields, model), fields[1] != model
        if kind == utr.WRITE:
            return self.write(*fields), False
        if kind == utr.RESET:
            self.lcr = 0
            return "reset", False
        if kind == utr.TICKS:
            self.ticks += fields[0]
            return "%d tick%s" % (fields[0], "" if fields[0] == 1 else "s"), False
        if kind == utr.SIN:
            return "SIN " + ("low", "high")[fields[0]], False
        return "modem pins asserted: " + modem(fields[0]), False


def listing(words):
    """A line for each record; for each also the ticks before it and its words."""
    teller = Teller()
    lines, said = [], []
    for place, (word, model) in enumerate(zip(words, model_bytes(words))):
        ticks = teller.ticks
        text, marked = teller.record(word, model)
        lines.append("%s %10d  %14d  %s" % ("> "[not marked], place, ticks, text))
        said.append((ticks, text))
    return lines, said, teller.ticks


# ---- The state ----

def queue_words(count, items):
    if count == 0:
        return "empty"
    more = " and %d more" % (count - SHOWN) if count > SHOWN else ""
    return "%d queued, oldest first: %s%s" % (count, " ".join(items[:min(count, SHOWN)]), more)


def errors(flags):
    return [name for name, flag in zip(("PE", "FE", "BI"), flags) if flag]


def entry(numbers):
    return "+".join(["%02X" % numbers[0], *errors(numbers[1:])])


def plural(count, what):
    return "%d %s%s" % (count, what, "" if count == 1 else "s")


def forecast_words(number, ticks):
    if number:
        return {4: "never: work is left and the divisor is 0",
                5: "none: bytes are queued and CTS holds them back"}[number]
    return "the transmitter is empty " + ("after " + plural(ticks, "tick") if ticks else "now")


def receiver_words(phase, position, format_, *_):
    if phase == 2:
        return "%d pulses into a character, %s" % (position, form(format_))
    return ("idle", "waiting for the line to go high after a break")[phase]


def state(words):
    """The lines about the state that these records leave; they all agree."""
    steps = [line for line in map(step_line, words) if line is not None]
    asked = ["state", "pins", "forecast", "read %d" % IIR, "read %d" % LSR, "read %d" % MSR]
    numbers, pins, forecast, *reads = answers(steps + asked)[-len(asked):]
    at = lambda place: numbers[place - 1]  # noqa: E731  (places count from 1, as the protocol's)
    code, lsr, msr = (answer[1] for answer in reads)
    sizes = ((16, (1, 4, 8, 14)), (64, (1, 16, 32, 56)))[at(8)]
    pending = [name for name, place in (("THR empty; ", 343), ("time-out; ", 345), ("overrun; ", 344))
               if at(place)]
    kept = errors(numbers[348:351])
    if kept:
        pending.append("kept errors: %s; " % " ".join(kept))
    outputs = [name for name, level in zip(("RTS", "DTR", "OUT1", "OUT2"), pins[2:6]) if level]
    rows = [
        ("FIFO", "on, %d bytes, trigger %d" % (sizes[0], sizes[1][at(10)]) if at(7) else "off (character mode)"),
        ("transmit queue", queue_words(at(13), ["%02X" % byte for byte in numbers[13:77]])),
        ("frame now sent", "%s as %s, %s left" % (character(at(79)), form(at(80)), plural(at(78), "pulse"))
         if at(78) else "none"),
        ("forecast", forecast_words(*forecast)),
        ("receive queue", queue_words(at(81), [entry(numbers[i:i + 4]) for i in range(81, 337, 4)])),
        ("receiver", receiver_words(*numbers[337:342])),
        ("interrupt", "%s (IIR %02X), INTRPT %s" % (CODES[code & 15], code, ("low", "high")[pins[6]])),
        ("pending", "%smodem changes: %s; idle count %d" % ("".join(pending), modem(at(347)), at(346))),
        ("output pins", "SOUT %s; asserted: %s%s" % (("low", "high")[pins[1]], " ".join(outputs) or "none",
                                                     "; RTS is held back by the receive queue" * at(348))),
        ("input pins", "SIN %s; asserted: %s" % (("low", "high")[at(12)], modem(at(11)))),
    ]
    bytes_ = (("IER", at(1)), ("LCR", at(3)), ("MCR", at(2)), ("SCR", at(4)), ("LSR", lsr), ("MSR", msr))
    rows += [("registers" if i == 0 else "", "%s %s" % (name, named(name, byte)))
             for i, (name, byte) in enumerate(bytes_)]
    rows.append(("clock", "divisor %d, next pulse in %s" % (at(5), plural(at(6), "tick"))
                 if at(5) else "stopped: the divisor is 0"))
    return ["  %-16s%s" % row for row in rows]
