"""The structs lie as the library's do: in its specimens every byte of a field is the field's number,
and each size is the library's own. What is handed in arrives."""
import ctypes
import unittest

from tl16c750 import BAD_RECORD, LSR, MALFORMED, RBR, UNKNOWN_VERSION, Refused, Uart
from tl16c750.library import MEASURED, library, name_of
from tl16c750.structs import (
    Answer,
    Expected,
    ExpectProgress,
    Forecasted,
    Jumped,
    JumpRan,
    Leveled,
    Looked,
    Picked,
    Progress,
    Ran,
    Replayed,
    State,
)


def named(value):
    """The fields of a struct by name, arrays as lists."""
    if isinstance(value, int):
        return value
    if isinstance(value, ctypes.Array):
        return [named(place) for place in value]
    return {name: named(getattr(value, name)) for name, _ in value._fields_}


def four(n):
    return n * 0x01010101


def eight(n):
    return n * 0x0101010101010101


STATE = {
    "registers": {"ier": 1, "mcr": 2, "lcr": 3, "scr": 4},
    "baud": {"divisor": four(5), "k": four(6)},
    "fifo": {"enabled": 7, "size": 8, "dma": 9, "trigger": 10},
    "inputs": {"modem": 11, "sin": 12},
    "tx": {"bytes": [13] * 64, "count": four(14)},
    "frame": {"left": four(15), "byte": 16, "format": 17},
    "rx": {"entries": [{"byte": 18, "pe": 19, "fe": 20, "bi": 21}] * 64, "count": four(22)},
    "receiver": {"phase": 23, "format": 24, "samples": 25, "parity": 26, "position": four(27)},
    "latches": {
        "empty": 28,
        "overrun": 29,
        "timeout": 30,
        "changes": 31,
        "hold": 32,
        "idle": four(33),
    },
    "kept": {"pe": 34, "fe": 35, "bi": 36},
}
OUTPUTS = {"sout": 102, "rts": 103, "dtr": 104, "out1": 105, "out2": 106, "intrpt": 107}
VALUES = {"number": 100, "part": 113, "seen": 101, "model": 108, "place": eight(109)}
SPECIMENS = {
    State: STATE,
    Answer: {"number": 100, "part": 113, "byte": 101, "outputs": OUTPUTS, "state": STATE},
    Looked: {"number": 100, "part": 113, "outputs": OUTPUTS},
    Forecasted: {"number": 100, "part": 113, "ticks": four(101)},
    Leveled: {"number": 100, "part": 113, "level": 101},
    Ran: {"number": 100, "part": 113, "used": four(101), "state": STATE},
    Replayed: {"values": VALUES, "state": STATE},
    Progress: {
        "version": four(110),
        "stopped": 111,
        "done": eight(112),
        "values": VALUES,
        "state": STATE,
    },
    Picked: {"number": 100, "divisor": four(114), "error": four(115)},
    Expected: {"number": 100, "part": 113, "count": eight(116), "state": STATE},
    ExpectProgress: {
        "number": 100,
        "part": 113,
        "version": four(110),
        "count": eight(116),
        "state": STATE,
    },
    Jumped: {"number": 100, "part": 113, "jumps": four(117), "state": STATE},
    JumpRan: {"number": 100, "part": 113, "used": four(101), "jumps": four(117), "state": STATE},
}


class Layout(unittest.TestCase):
    def test_sizes_and_specimens(self):
        sizes = library.uart_sizes_of_structs()
        self.assertEqual(set(SPECIMENS), set(MEASURED))
        for struct, expected in SPECIMENS.items():
            name = name_of(struct)
            with self.subTest(name):
                self.assertEqual(getattr(sizes, name), ctypes.sizeof(struct))
                self.assertEqual(named(getattr(library, "uart_specimen_" + name)()), expected)

    def test_a_state_handed_in_arrives(self):
        uart = Uart()
        uart.state.registers.lcr = 0x03
        uart.state.baud.divisor = 12
        uart.state.baud.k = 5
        uart.state.fifo.enabled = 1
        uart.state.tx.bytes[0:3] = b"ABC"
        uart.state.tx.count = 3
        self.assertEqual(uart.forecast(), 5765)
        uart.state.rx.entries[0].byte = 0x5A
        uart.state.rx.entries[0].fe = 1
        uart.state.rx.count = 1
        uart.state.latches.overrun = 1
        uart.state.latches.idle = 7
        self.assertEqual(uart.read(LSR), 0x8B)
        self.assertEqual(uart.read(RBR), 0x5A)
        kept = Uart()
        kept.state.kept.fe = 1
        self.assertEqual(kept.read(LSR), 0x68)

    def test_a_refused_state_stays(self):
        uart = Uart()
        uart.state.rx.entries[63].bi = 1
        before = uart.copy()
        with self.assertRaises(Refused) as refused:
            uart.read(LSR)
        self.assertEqual(refused.exception.number, MALFORMED)
        self.assertEqual(uart, before)

    def test_records_handed_in_arrive(self):
        records = [0x2000075A, 0x1000075A, 0x10000700, 0xFFFFFFFF]
        uart = Uart()
        self.assertIsNone(uart.replay(1, []))
        self.assertEqual(uart, Uart())
        self.assertIsNone(uart.replay(1, records[:2]))
        self.assertEqual(uart.replay(1, records), (2, 0, 0x5A))
        for version, given, number in ((1, records[3:], BAD_RECORD), (0x10001, records, UNKNOWN_VERSION)):
            with self.assertRaises(Refused) as refused:
                uart.replay(version, given)
            self.assertEqual((refused.exception.number, refused.exception.place), (number, 0))
        self.assertEqual(uart.state.registers.scr, 0x5A)


if __name__ == "__main__":
    unittest.main()
