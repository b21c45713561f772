"""The steps that a driver, a line and a clock make, as lines of the text protocol."""

import states as st

EIGHT_BITS = 0x03
FIVE_BITS = 0x00
EVEN_PARITY = 0x1B

RBR, THR, IER, IIR, FCR, LCR, MCR, LSR, MSR, SCR = 0, 0, 1, 2, 2, 3, 4, 5, 6, 7


class Steps:
    """What is done with each line is the subclass's: step(line)."""

    def read(self, *addresses):
        for a in addresses:
            self.step("read %d" % a)

    def write(self, address, *data):
        for byte in data:
            self.step("write %d %d" % (address, byte))

    def ticks(self, n):
        if n == 1:
            self.step("tick")
        elif n > 1:
            self.step("ticks %d" % n)

    def sin(self, level):
        self.step("sin %d" % level)

    def modem(self, *levels):
        for level in levels:
            self.step("modem %d" % level)

    def reset(self):
        self.step("reset")

    def divisor(self, d, lcr):
        """Sets the divisor and leaves LCR as given."""
        self.write(LCR, 0x80)
        self.write(0, d & 255)
        self.write(1, d >> 8)
        self.write(LCR, lcr)

    def set_up(self, lcr=EIGHT_BITS, d=1, fcr=0x01, ier=0x00, mcr=0x00):
        """What a driver writes first. FCR comes while LCR7 is set, so that it takes the size."""
        self.divisor(d, 0x80 | lcr)
        self.write(FCR, fcr)
        self.write(LCR, lcr)
        self.write(IER, ier)
        self.write(MCR, mcr)

    def bits(self, bits, d=1):
        """Levels on SIN, 16 pulses each; equal neighbours in one go."""
        at = 0
        while at < len(bits):
            end = at
            while end < len(bits) and bits[end] == bits[at]:
                end += 1
            self.sin(bits[at])
            self.ticks(16 * (end - at) * d)
            at = end

    def character(self, byte, form, d=1):
        self.bits(st.frame_bits(byte, form), d)


class Lines(Steps):
    """The steps as a list of lines."""

    def __init__(self, lines):
        self.lines = lines

    def step(self, line):
        self.lines.append(line)
