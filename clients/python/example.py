"""Sends a message, clears the transmit FIFO in the middle of a character, and prints what left the
line: the character that had begun is finished, as the part finishes it. Then sends a character by
jumps, replays a capture of the same, from records and from a file, and writes the one that is
expected where a read differs."""
import io
import struct

from tl16c750 import DLL, DLM, FCR, LCR, LSR, PLACES, THR, Refused, Uart, divisor_for

PULSES_PER_BIT = 16  # and a tick is a pulse: the divisor is 1
BITS_PER_FRAME = 10  # start, eight data bits, stop


def refusal_of(call):
    """The refusal of a call that is to be refused."""
    try:
        call()
    except Refused as refusal:
        return refusal
    raise AssertionError("not refused")


def set_rate(uart, clock, rate):
    """The divisor's latches for a rate."""
    divisor, error = divisor_for(clock, rate)
    print(f"divisor at {clock} Hz for {rate} baud: {divisor}, error {error} ppm")
    uart.write(LCR, 0x80)
    uart.write(DLL, divisor & 0xFF)
    uart.write(DLM, divisor >> 8)


def print_forecast(uart):
    ticks = uart.forecast()
    print(f"forecast: number 0, {ticks} ticks")
    return ticks


def tick(uart, n, sout):
    """The levels of SOUT, one for each tick."""
    for _ in range(n):
        sout.append(uart.tick().sout)


def print_line(sout):
    """The characters on the line, each from its start bit, read in the middle of a bit."""
    text = ""
    at = 0
    while at + PULSES_PER_BIT * BITS_PER_FRAME <= len(sout):
        if sout[at]:
            at += 1
            continue
        bits = [sout[at + PULSES_PER_BIT * bit + PULSES_PER_BIT // 2] for bit in range(BITS_PER_FRAME)]
        character = chr(sum(level << bit for bit, level in enumerate(bits[1:9])))
        print(f"line: {bits[0]} {''.join(map(str, bits[1:9]))} {bits[9]} is {character}")
        text += character
        at += PULSES_PER_BIT * BITS_PER_FRAME
    print(f"left the line: {text}")


def print_outcome(what, replay):
    """Prints the end of a replay as the program `replay` does."""
    try:
        difference = replay()
        print(f"{what}:", "differs %d %d %d" % difference if difference else "agreed")
    except Refused as refusal:
        print(f"{what}: refused {refusal.number} {refusal.place}")


def print_replay(records):
    """Replays records of a capture from the fresh state."""
    uart = Uart()
    print_outcome("replay", lambda: uart.replay(1, records))
    return uart


def print_progress(records, read, total):
    print(f"file: {records} records, {read} of {total} bytes")


def file_of(records):
    """The same as a file: the header (mark, version, pad), then each record, little-endian."""
    return io.BytesIO(struct.pack(f"<4sHH{len(records)}I", b"UTR", 1, 0, *records))


def print_file(file):
    """Replays a file."""
    print_outcome("file", lambda: Uart().replay_file(file, print_progress))


def print_expected(records):
    """Writes the capture that is expected for these records from the fresh state, and replays it."""
    try:
        words = Uart().expect(1, records)
    except Refused as refusal:
        print(f"expected: refused {refusal.number}, {refusal.place} records written")
        return
    print(f"expected: {len(words)} records, the last is {words[-1]:08X}")
    print_replay(words)


def print_expected_file(file):
    """The same from a file into another one."""
    expected = io.BytesIO()
    count = Uart().expect_file(file, expected)
    print(f"expected file: number 0, {count} records")
    expected.seek(0)
    print_file(expected)


def print_jumps():
    """Sends a character at the largest divisor, where nearly all ticks only bring the next pulse nearer."""
    uart = Uart()
    for address, byte in (LCR, 0x83), (DLL, 0xFF), (DLM, 0xFF), (LCR, 0x03), (THR, ord("H")):
        uart.write(address, byte)
    used, jumps = uart.jump_run(0xFFFFFFFF)
    print(f"by jumps: number 0, {used} ticks, {jumps} jumps")


def replay_captures():
    """A character is on the line when the transmit FIFO is cleared; LSR is read then."""
    records = [
        0x20000383,  # LCR 83: the divisor at 0 and 1
        0x20000001,  # DLL 01
        0x20000303,  # LCR 03
        0x20000201,  # FCR 01: FIFO on
        0x20000048,  # THR H
        0x00000028,  # 40 ticks
        0x20000205,  # FCR 05: transmit FIFO cleared
        0x10000520,  # LSR: 20 seen
    ]
    print_replay(records)
    print_file(file_of(records))
    records[7] = 0x10000560  # LSR: 60 seen
    print_forecast(print_replay(records))
    print_expected(records)
    print_expected_file(file_of(records))
    records[5] = 0x60000000  # of no kind
    print_replay(records)
    print_expected(records)


def main():
    message = "HELLO, BEAM"
    sout = []

    uart = Uart()
    set_rate(uart, 2_000_000, 128_000)
    uart.write(FCR, 0x21)  # FIFO on, 64 bytes
    uart.write(LCR, 0x03)  # eight bits, no parity, one stop bit

    for byte in message.encode():
        uart.write(THR, byte)
    print(f"queued: {message}")
    print_forecast(uart)

    tick(uart, 400, sout)
    print(f"after {len(sout)} ticks the transmit FIFO is cleared")
    uart.write(FCR, 0x05)
    print(f"LSR: {uart.read(LSR):02X}")
    left = print_forecast(uart)

    before = uart.copy()
    since = len(sout)
    tick(uart, left - 1, sout)
    print(f"LSR one tick before: {uart.read(LSR):02X}")
    tick(uart, 1, sout)
    print(f"LSR then: {uart.read(LSR):02X}")
    tick(uart, 200, sout)
    foretold = all(before.level(t) == level for t, level in enumerate(sout[since:], 1))
    print(f"levels as foretold: {'yes' if foretold else 'no'}")
    print_line(sout)

    print(f"read of register 8: number {refusal_of(lambda: uart.read(8)).number}")

    def raise_sin():
        uart.sin = 2

    print(f"SIN at 2: number {refusal_of(raise_sin).number}")
    uart.state.tx.bytes = [0xFF] * PLACES
    damaged = refusal_of(lambda: uart.pins)
    print(f"pins of a damaged state: number {damaged.number}, part {damaged.part}")
    print_jumps()
    replay_captures()


if __name__ == "__main__":
    main()
