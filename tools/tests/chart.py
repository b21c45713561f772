#!/usr/bin/env python3
"""Checks the program divisor-chart: its rows against a search over all divisors, made here, and against
the sheet's tables 9 and 10; where the mark stands; arguments, streams, status.

usage: chart.py
"""

import functools
import math
import sys
from decimal import Decimal
from fractions import Fraction

import common
from divisors import CHART_RATES  # found by the path that common sets

USUAL = 3_072_000

# The divisors of the sheet's tables 9 and 10, and the error in percent, where they have one.
SHEET = {
    1_843_200: {
        50: (2304, 0), 75: (1536, 0), 110: (1047, "0.026"), 134.5: (857, "0.058"), 150: (768, 0), 300: (384, 0),
        600: (192, 0), 1200: (96, 0), 1800: (64, 0), 2000: (58, "0.69"), 2400: (48, 0), 3600: (32, 0),
        4800: (24, 0), 7200: (16, 0), 9600: (12, 0), 19200: (6, 0), 38400: (3, 0), 56000: (2, "2.86"),
    },
    3_072_000: {
        50: (3840, 0), 75: (2560, 0), 110: (1745, "0.026"), 134.5: (1428, "0.034"), 150: (1280, 0),
        300: (640, 0), 600: (320, 0), 1200: (160, 0), 1800: (107, "0.312"), 2000: (96, 0), 2400: (80, 0),
        3600: (53, "0.628"), 4800: (40, 0), 7200: (27, "1.23"), 9600: (20, 0), 19200: (10, 0), 38400: (5, 0),
    },
}

# A clock, a rate, its error, and whether it is marked: 30000 parts per million are not beyond 3 percent.
MARKS = (
    (15_520_000, 1_000_000, "-3.0000", False),
    (15_519_985, 1_000_000, "-3.0000", False),
    (15_519_984, 1_000_000, "-3.0001", True),
    (15_187_968, 921_600, "+3.0000", False),
    (15_187_982, 921_600, "+3.0000", False),
    (15_187_983, 921_600, "+3.0001", True),
)

CLOCK = "a clock is a decimal number from 1 to 16000000: %s"
NO_CLOCKS = ("", "0", "00", "16000001", "4294967295", "4294967296", "4294967297", "9" * 30, "18446744073709551617",
             "-1", "-", "+5", " 5", "5 ", "5\n", "0x10", "3,072,000", "3.072e6", "1.5", "3072000Hz", "clock")
# Bad arguments, and what is said of them.
BAD = (
    *(([text], CLOCK % text) for text in NO_CLOCKS),
    (["-h"], "no such option: -h"),
    (["--helps"], "no such option: --helps"),
    (["--"], "no such option: --"),
    (["3072000", "--all"], "no such option: --all"),
    (["3072000", "1843200"], "one clock at a time: 1843200"),
    (["3072000", ""], "one clock at a time: "),
)


def run(*arguments, **more):
    """What it writes, its messages and its status."""
    out, errors, status = common.run("divisor-chart", b"", *arguments, **more)
    return (out or b"").decode(), errors, status


@functools.cache
def nearest(clock, rate):
    """The divisor, the smaller one on a tie, and its error in parts per million, cut toward zero."""
    divisor = min(range(1, 65536), key=lambda d: abs(clock - 16 * d * rate))
    exact = 16 * divisor * rate
    return divisor, math.trunc(Fraction((clock - exact) * 1_000_000, exact))


def row(clock, rate):
    divisor, error = nearest(clock, rate)
    percent = "%+.4f" % Decimal(error).scaleb(-4) if error else "0.0000"
    mark = " *" if abs(error) > 30000 else ""
    return "%8d  %7d   %02X   %02X%11s%s\n" % (rate, divisor, *divmod(divisor, 256), percent, mark)


def chart(clock):
    """All that has to be written; at every clock one of the two highest rates at least is marked."""
    rows = "".join(row(clock, rate) for rate in CHART_RATES)
    return "Divisors at %d Hz\n    rate  divisor  DLM  DLL   error, %%\n%s* the error is beyond 3 percent\n" % (
        clock, rows)


def cells(clock):
    """The cells of the program's rows by their rate, as it writes them."""
    lines = run(str(clock))[0].split("\n")[2:]
    return {int(line.split()[0]): line.split()[1:] for line in lines if line[:1] == " "}


def charts():
    clocks = (1, 1_843_200, USUAL, 8_000_000, 16_000_000, *(clock for clock, *_ in MARKS))
    cases = [([str(clock)], chart(clock)) for clock in clocks]
    cases += [([], chart(USUAL)), (["0003072000"], chart(USUAL))]
    wrong = [arguments for arguments, text in cases if run(*arguments) != (text, "", 0)]
    for arguments in wrong:
        print("divisor-chart %s: not as a search has it" % " ".join(arguments))
    return len(wrong), len(cases)


def near(said, error):
    """Whether an error is the sheet's: without its sign, cut or rounded; where the sheet has none, 0."""
    if not error:
        return said == "0.0000"
    last = Decimal(1).scaleb(Decimal(error).as_tuple().exponent)
    return abs(abs(Decimal(said)) - Decimal(error)) < last


def sheet():
    """The tables of the sheet; its 134.5 baud, which the chart has not, as --help says."""
    wrong = count = 0
    for clock, table in SHEET.items():
        rows = cells(clock)
        for rate, (divisor, error) in table.items():
            if rate == 134.5:
                right = nearest(2 * clock, 269)[0] == divisor
            else:
                latches = "%02X %02X" % divmod(divisor, 256)
                right = rows[rate][:3] == [str(divisor), *latches.split()] and near(rows[rate][3], error)
            if not right:
                print("%s baud at %d Hz: not the sheet's divisor %d, or not its error" % (rate, clock, divisor))
                wrong += 1
            count += 1
    return wrong, count


def marks():
    wrong = 0
    for clock, rate, percent, marked in MARKS:
        if cells(clock)[rate][3:] != [percent] + ["*"] * marked:
            print("%d baud at %d Hz: wrong error or mark" % (rate, clock))
            wrong += 1
    return wrong, len(MARKS)


def arguments_and_streams():
    wrong = [arguments for arguments, said in BAD
             if run(*arguments) != ("", "divisor-chart: %s; see divisor-chart --help\n" % said, 2)]
    text, errors, status = run("--help")
    told = all(said in text for said in ("from 1 to 16000000", "uart_divisor_for(3686400, 269) answers 857"))
    if not text.startswith("usage: divisor-chart [CLOCK]\n") or not told or (errors, status) != ("", 0):
        wrong.append(["--help"])
    with open("/dev/full", "wb") as full:
        for arguments in ([], ["--help"]):
            if run(*arguments, stdout=full)[1:] != ("divisor-chart: writing: No space left on device\n", 2):
                wrong.append(["a full device"] + arguments)
    for arguments in wrong:
        print("wrong: divisor-chart %s" % " ".join(map(repr, arguments)))
    return len(wrong), len(BAD) + 3


def main():
    wrong = count = 0
    for part in (charts, sheet, marks, arguments_and_streams):
        bad, cases = part()
        wrong += bad
        count += cases
    if count < 80:
        print("only %d cases" % count)
        wrong += 1
    print("chart: %d cases, %d wrong" % (count, wrong))
    return 1 if wrong else 0


if __name__ == "__main__":
    sys.exit(main())
