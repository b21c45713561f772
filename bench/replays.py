"""The captures that both programs `replay` and both programs `expect` are measured on, and their
measuring.

Each capture repeats a block of records that begins with a reset and sets everything up, so that the
block can follow itself. The second program's `calls` answers its reads.
"""
import filecmp
import os
import random
import resource
import subprocess
import sys

TOP = os.path.dirname(os.path.dirname(os.path.abspath(__file__)))
sys.path.insert(0, os.path.join(TOP, "tests", "second"))

from recorder import Recorder, utr  # noqa: E402  (found by the path above)
from states import frame_bits, frame_length  # noqa: E402
from steps import EIGHT_BITS, FIVE_BITS, FCR, IER, IIR, LCR, LSR, MCR, MSR, RBR, SCR, THR  # noqa: E402

LOOPBACK = 0x10
FRAME = frame_length(EIGHT_BITS)


def begin(q, d, lcr=EIGHT_BITS, mcr=LOOPBACK):
    """The state that every block starts from: FIFO of 64 bytes, all interrupts on, loopback for most."""
    q.sin(1)
    q.modem(0)
    q.reset()
    q.set_up(lcr, d, 0xA1, 0x0F, mcr)
    q.write(SCR, 0)


def bus_heavy(q, rng):
    """A driver's polling: 60 characters received first, then all registers, with few ticks."""
    begin(q, 1, FIVE_BITS)
    for _ in range(60):
        q.write(THR, rng.randrange(256))
    q.ticks(60 * 112)
    for _ in range(60):
        for _ in range(40):
            q.write(THR, rng.randrange(256))
            q.read(LSR, IIR, MSR, LSR, IER)
            q.write(SCR, rng.randrange(256))
            q.read(LCR, SCR)
        q.write(MCR, LOOPBACK | rng.randrange(16))
        q.read(MSR, MCR)
        q.write(FCR, 0xA5)
        q.ticks(3)
        q.read(IIR, LSR, RBR)


def ticking(d, characters, waits, least, most):
    """Loopback traffic: some characters written, long waits, as many read."""
    def block(q, rng):
        begin(q, d)
        for _ in range(200):
            q.write(THR, *(rng.randrange(256) for _ in range(characters)))
            for _ in range(waits):
                q.ticks(rng.randrange(least, most + 1))
            q.read(LSR, *[RBR] * characters)
    return block


def sending(q, rng):
    """The FIFO filled, and a wait until all is sent."""
    begin(q, 1, mcr=0)
    for _ in range(20):
        q.write(THR, *(rng.randrange(256) for _ in range(64)))
        q.ticks(64 * FRAME + 1)
        q.read(LSR, IIR)


def receiving(q, rng):
    """Characters on SIN, a pause behind about one in four, and as many read when 60 are there."""
    begin(q, 1, mcr=0)
    for _ in range(20):
        for _ in range(60):
            pause = [1] * rng.choice((0, 0, 0, 6))
            q.bits(frame_bits(rng.randrange(256), EIGHT_BITS) + pause)
        q.read(LSR, *[RBR] * 60)


def mixed(q, rng):
    """A driver at work: characters sent and received, interrupts served, short waits."""
    begin(q, 1)
    for i in range(400):
        if i % 4 == 0:
            q.write(THR, rng.randrange(256))
        q.ticks(rng.randrange(1, 12))
        q.read(IIR, LSR)
        q.ticks(rng.randrange(1, 70))
        q.read(LSR, RBR)
        if i % 10 == 0:
            q.modem(rng.randrange(16))
            q.write(MCR, (LOOPBACK, 0x00, 0x2F)[i % 3])
            q.read(MSR, IIR)
        if i % 50 == 49:
            q.write(FCR, (0xA7, 0xA3, 0xA5)[i % 3])


# Name, unit, block, about how many records in all.
CASES = (
    ("bus-heavy", "record", bus_heavy, 10_000_000),
    ("ticks at divisor 1", "tick", ticking(1, 10, 1, 300, 3000), 400_000),
    ("ticks at divisor 65535", "tick", ticking(65535, 2, 4, 65535, 65535), 8_000),
    ("100 MB", "record", mixed, 25_000_000),
    ("sending at divisor 1", "tick", sending, 400_000),
    ("receiving at divisor 1", "tick", receiving, 1_500_000),
)


def ticks_in(words):
    return sum(word & 0xFFFF for word in words if word >> 28 == utr.TICKS)


def make(calls, folder):
    """Writes the captures; for each case its name, unit, file and number of units."""
    recorder = Recorder(calls)
    cases = []
    for number, (name, unit, block, records) in enumerate(CASES):
        recorder.start()
        block(recorder, random.Random(750 + number))
        words = recorder.taken()
        turns = -(-records // len(words))
        file = os.path.join(folder, "replay-%d.utr" % number)
        with open(file, "wb") as out:
            out.write(utr.header())
            for _ in range(turns):
                out.write(utr.pack(words))
        units = ticks_in(words) if unit == "tick" else len(words)
        cases.append((f"{name}, a {unit}", file, turns * units))
    recorder.close()
    return cases


def processor_seconds(program, file, out):
    """Of the program and of the system for it."""
    before = resource.getrusage(resource.RUSAGE_CHILDREN)
    with open(file, "rb") as capture:
        done = subprocess.run([program], stdin=capture, stdout=out, check=True)
    after = resource.getrusage(resource.RUSAGE_CHILDREN)
    return done.stdout, after.ru_utime - before.ru_utime + after.ru_stime - before.ru_stime


def replayed(program, file):
    """The seconds of a replay, which must answer `agreed`."""
    answer, seconds = processor_seconds(program, file, subprocess.PIPE)
    if answer != b"agreed\n":
        sys.exit(f"{program} answers {answer} to {file}")
    return seconds


def expected(program, file):
    """The seconds of writing a capture anew."""
    return processor_seconds(program, file, subprocess.DEVNULL)[1]


def written_as_it_stands(program, file):
    """The capture agrees with the model, so it is the one that is expected."""
    again = file + ".expected"
    with open(file, "rb") as capture, open(again, "wb") as out:
        subprocess.run([program], stdin=capture, stdout=out, check=True)
    if not filecmp.cmp(file, again, shallow=False):
        sys.exit(f"{program} writes another capture for {file}")
    os.remove(again)


def turn(cases, programs):
    """The nanoseconds for a unit of each case, by the program of each side. Of a capture all programs take
    their turn one after the other, so that their times can be compared."""
    seconds = {"replay": replayed, "expect": expected}
    rows = {f"{kind}, {name}": {} for kind in programs for name, _, _ in cases}
    for name, file, units in cases:
        for kind, sides in programs.items():
            for side, program in sides.items():
                rows[f"{kind}, {name}"][side] = seconds[kind](program, file) / units * 1e9
    return rows
