"""PE, FE and BI: in character mode kept until LSR is read, in the FIFO gone with their character."""
import unittest

from tl16c750 import DLL, FCR, IER, IIR, LCR, LSR, RBR, Errors, Uart

TICKS_PER_BIT = 16  # the divisor is 1

# A with even parity on the line: start bit, data bits from bit 0 on, parity bit, stop bit.
GOOD = "0 10000010 0 1"
BAD_PARITY = "0 10000010 1 1"
BREAK = "0 00000000 0 0 1"


def heard(fcr, *characters):
    """A UART of eight bits and even parity, with the interrupt of errors enabled and FCR as said, that
    has heard these characters on SIN, a bit's time for each level."""
    u = Uart()
    for address, byte in ((LCR, 0x80), (DLL, 1), (LCR, 0x1B), (IER, 0x04), (FCR, fcr)):
        u.write(address, byte)
    for level in "".join(characters).replace(" ", ""):
        u.sin = int(level)
        u.tick(TICKS_PER_BIT)
    return u


class Received(unittest.TestCase):
    def read(self, u, *expected):
        for address, byte in expected:
            self.assertEqual(u.read(address), byte)

    def test_character_mode_keeps_them(self):
        u = heard(0x00, BAD_PARITY)
        self.read(u, (RBR, 0x41), (IIR, 0x06), (LSR, 0x64), (LSR, 0x60), (IIR, 0x01))

    def test_characters_add_theirs(self):
        u = heard(0x00, BAD_PARITY, GOOD, BREAK)
        self.assertEqual(u.state.kept, Errors(1, 1, 1))
        self.assertEqual(u.state.rx.entries[0].fe, 0)
        self.read(u, (LSR, 0x7F))
        self.assertEqual(u.state.kept, Errors())

    def test_reset_and_fifo_on_clear_them(self):
        u = heard(0x00, BAD_PARITY)
        u.write(FCR, 0x00)
        self.assertEqual(u.state.kept, Errors(pe=1))
        other = u.copy()
        u.reset()
        other.write(FCR, 0x01)
        for cleared in (u, other):
            self.assertEqual(cleared.state.kept, Errors())

    def test_the_fifo_has_them_in_its_entries(self):
        u = heard(0x01, BAD_PARITY, GOOD)
        self.assertEqual(u.state.kept, Errors())
        self.read(u, (IIR, 0xC6), (RBR, 0x41), (LSR, 0x61))


if __name__ == "__main__":
    unittest.main()
