"""One TL16C750 UART with its bus, serial line, modem pins and clock, over the proved library.

    >>> from tl16c750 import LCR, LSR, Uart, divisor_for
    >>> uart = Uart()
    >>> pins = uart.write(LCR, 0x03)
    >>> hex(uart.read(LSR))
    '0x60'
    >>> uart.tick(100).sout
    1
    >>> divisor_for(3_072_000, 7200)
    Picked(divisor=27, error=-12345)

    >>> uart.state.baud = 5, 3  # the divisor, and the ticks to the next pulse
    >>> uart.jump(9)  # jumps of 3, 5 and 1 ticks
    3

    >>> words = Uart().expect(1, [0x2000075A, 0x100007FF])  # SCR: 5A written, FF seen
    >>> [f"{word:08X}" for word in words]
    ['2000075A', '1000075A']

A call that is refused raises Refused, whose number is that of the table in document 01, and whose part
says what of a malformed state is bad; the state is then as it was, or, where a replay or an expected
capture comes to a bad record, that before it. replay_file and expect_file start from the fresh state,
which is then also that after a refused header. Ctrl-C stops a long call within a second; the state is
then as it was before the call.
"""
from .structs import (
    PLACES,
    Baud,
    ByteQueue,
    Entry,
    EntryQueue,
    Errors,
    FifoControl,
    Frame,
    Inputs,
    Latches,
    Outputs,
    Receiver,
    Registers,
    State,
)
from .uart import (
    BAD_ADDRESS,
    BAD_HEADER,
    BAD_LEVEL,
    BAD_RATE,
    BAD_RECORD,
    DLL,
    DLM,
    FCR,
    HELD_BACK,
    IER,
    IIR,
    IN_LATCHES,
    IN_RECEIVER,
    IN_REGISTERS,
    IN_SETTINGS,
    IN_TRANSMITTER,
    LCR,
    LSR,
    MALFORMED,
    MCR,
    MSR,
    NO_CLOCK,
    NO_ROOM,
    RBR,
    SCR,
    THR,
    UNKNOWN_VERSION,
    Difference,
    JumpRan,
    Picked,
    Refused,
    Uart,
    __version__,
    divisor_for,
)

__all__ = [
    "BAD_ADDRESS",
    "BAD_HEADER",
    "BAD_LEVEL",
    "BAD_RATE",
    "BAD_RECORD",
    "DLL",
    "DLM",
    "FCR",
    "HELD_BACK",
    "IER",
    "IIR",
    "IN_LATCHES",
    "IN_RECEIVER",
    "IN_REGISTERS",
    "IN_SETTINGS",
    "IN_TRANSMITTER",
    "LCR",
    "LSR",
    "MALFORMED",
    "MCR",
    "MSR",
    "NO_CLOCK",
    "NO_ROOM",
    "PLACES",
    "RBR",
    "SCR",
    "THR",
    "UNKNOWN_VERSION",
    "Baud",
    "ByteQueue",
    "Difference",
    "Entry",
    "EntryQueue",
    "Errors",
    "FifoControl",
    "Frame",
    "Inputs",
    "JumpRan",
    "Latches",
    "Outputs",
    "Picked",
    "Receiver",
    "Refused",
    "Registers",
    "State",
    "Uart",
    "__version__",
    "divisor_for",
]
