"""The divisor for a rate: known answers, the ends of the ranges, what is no number, and a search over all
divisors."""
import math
import pickle
import unittest
from fractions import Fraction

from tl16c750 import BAD_RATE, Picked, Refused, divisor_for, structs

MOST_CLOCK = 16_000_000
MOST_RATE = 1_000_000
RATES = (50, 75, 110, 150, 300, 1200, 1800, 2000, 3600, 7200, 9600, 19200, 38400, 56000, 115200, 921600)


def searched(clock, rate):
    """The answer by a search; of those as near the first stands."""
    divisor = min(range(1, 65536), key=lambda d: abs(clock - 16 * d * rate))
    exact = 16 * divisor * rate
    return divisor, math.trunc(Fraction((clock - exact) * 1_000_000, exact))


class Divisors(unittest.TestCase):
    def test_known_answers(self):
        for clock, rate, divisor, error in (
            (3_072_000, 7200, 27, -12345),
            (24_000, 1000, 1, 500_000),  # 2 is as near
            (MOST_CLOCK, 1, 65535, 14_259_021),
            (1, MOST_RATE, 1, -999_999),
            (15_999_999, MOST_RATE, 1, 0),  # of -0.06
            (MOST_CLOCK, MOST_RATE, 1, 0),
            (1, 1, 1, -937_500),
        ):
            with self.subTest(clock=clock, rate=rate):
                self.assertEqual(divisor_for(clock, rate), (divisor, error))

    def test_outside_is_refused(self):
        clocks = (0, MOST_CLOCK + 1, 0xFFFFFFFF)
        rates = (0, MOST_RATE + 1, 0xFFFFFFFF)
        pairs = [(clock, rate) for clock in clocks for rate in (*rates, 1, MOST_RATE)]
        pairs += [(clock, rate) for clock in (1, MOST_CLOCK) for rate in rates]
        for clock, rate in pairs:
            with self.subTest(clock=clock, rate=rate), self.assertRaises(Refused) as refused:
                divisor_for(clock, rate)
            self.assertEqual(refused.exception.number, BAD_RATE)
            self.assertIsNone(refused.exception.part)
        words = "clock not from 1 to 16000000, or rate not from 1 to 1000000 (number 9)"
        self.assertEqual(str(refused.exception), words)

    def test_what_is_no_number_of_32_bits(self):
        for given in (-1, 1 << 32, 9600.0, "9600"):
            error = ValueError if isinstance(given, int) else TypeError
            with self.subTest(given):
                self.assertRaisesRegex(error, "a clock is a number", divisor_for, given, 9600)
                self.assertRaisesRegex(error, "a rate is a number", divisor_for, 1_843_200, given)

    def test_the_chart_is_that_of_a_search(self):
        for clock in (1_843_200, 3_072_000, 8_000_000):
            for rate in RATES:
                with self.subTest(clock=clock, rate=rate):
                    self.assertEqual(divisor_for(clock, rate), searched(clock, rate))

    def test_ties_are_those_of_a_search(self):
        """Clocks in the middle between a divisor and the next, and those beside."""
        for rate in (1, 7, 7200, 999_999):
            for divisor in (0, 1, 2, 27, 4096, 65534, 65535):
                middle = (16 * divisor + 8) * rate
                for clock in range(middle - 1, min(middle + 1, MOST_CLOCK) + 1):
                    with self.subTest(clock=clock, rate=rate):
                        self.assertEqual(divisor_for(clock, rate), searched(clock, rate))

    def test_named(self):
        picked = divisor_for(3_072_000, 7200)
        self.assertEqual((picked.divisor, picked.error), (27, -12345))
        self.assertEqual(repr(picked), "Picked(divisor=27, error=-12345)")
        self.assertEqual(pickle.loads(pickle.dumps(picked)), Picked(27, -12345))

    def test_the_error_is_signed(self):
        for error in (-1 << 31, -12345, (1 << 31) - 1):
            self.assertEqual(structs.Picked(error=error).error, error)
        for beyond in ((-1 << 31) - 1, 1 << 31):
            self.assertRaisesRegex(ValueError, "a signed number of 32 bits", structs.Picked, error=beyond)


if __name__ == "__main__":
    unittest.main()
