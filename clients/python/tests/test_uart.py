"""States and UARTs as values, refusals, and what the package says of itself."""
import concurrent.futures
import copy
import doctest
import inspect
import pickle
import random
import subprocess
import sys
import typing
import unittest
from pathlib import Path

import tl16c750
from tl16c750 import (
    IN_LATCHES,
    IN_RECEIVER,
    IN_REGISTERS,
    IN_SETTINGS,
    IN_TRANSMITTER,
    LCR,
    MALFORMED,
    THR,
    Entry,
    Errors,
    Refused,
    State,
    Uart,
    library,
    structs,
    uart,
)

TOP = Path(__file__).resolve().parents[3]
CALLS = TOP / "target" / "bin" / "calls"


def busy():
    """A UART with something in every part."""
    u = Uart()
    u.write(LCR, 0x80)
    u.write(0, 1)
    u.write(LCR, 0x1B)
    u.write(2, 0x21)
    for byte in b"HELLO":
        u.write(THR, byte)
    u.sin = 0
    u.tick(2000)
    u.sin = 1
    u.tick(40)
    return u


def fail(number):
    raise Refused(number, 3)


def made_in(module, item):
    return getattr(item, "__module__", "") == module.__name__


def answers(lines):
    """What the program `calls` writes."""
    text = "".join(line + "\n" for line in lines)
    run = subprocess.run([CALLS], input=text, capture_output=True, text=True, check=True)
    return run.stdout.split("\n")[:-1]


class Values(unittest.TestCase):
    def test_compared_by_fields(self):
        a, b = Uart(), Uart()
        raw = memoryview(b.state).cast("B")
        for place in (18, 19, 94, 95, 369, 370, 371, 379):
            raw[place] ^= 0xFF
        self.assertEqual(a, b)
        self.assertEqual(a.state, b.state)
        b.state.latches.idle = 1
        self.assertNotEqual(a, b)
        self.assertNotEqual(a.state, 5)
        self.assertNotEqual(a, a.state)

    def test_queues_are_compared_by_contents(self):
        u, v = busy(), busy()
        queues = [(each.state.tx.bytes, each.state.rx.entries) for each in (u, v)]
        for ours, theirs, other in zip(*queues, (7, (7, 0, 0, 0))):
            self.assertEqual(ours, theirs)
            theirs[63] = other
            self.assertNotEqual(ours, theirs)
            self.assertNotEqual(ours, list(ours))
            self.assertRaises(TypeError, hash, ours)
        self.assertEqual(u.state.tx.bytes, u.state.tx.bytes)

    def test_copies_are_apart(self):
        u = busy()
        pickled = pickle.loads(pickle.dumps(u))
        for other in (u.copy(), copy.copy(u), copy.deepcopy(u), Uart(u.state), pickled):
            self.assertEqual(u, other)
            other.state.tx.bytes[0] ^= 1
            self.assertNotEqual(u, other)
        state = u.state.copy()
        u.state.registers.scr = 9
        self.assertNotEqual(u.state, state)
        self.assertEqual(pickle.loads(pickle.dumps(state)), state)

    def test_printed_as_they_are_made(self):
        u = busy()
        u.state.rx.entries[0] = Entry(byte=0x41, fe=1)
        self.assertEqual(eval(repr(u), vars(tl16c750)), u)

    def test_assignments_are_checked(self):
        u = Uart()
        for assign, error in (
            (lambda: setattr(u.state.registers, "ier", 256), ValueError),
            (lambda: setattr(u.state.registers, "ier", -1), ValueError),
            (lambda: setattr(u.state.baud, "divisor", 1 << 32), ValueError),
            (lambda: setattr(u.state.registers, "ier", 1.0), TypeError),
            (lambda: setattr(u.state.registers, "lsr", 1), AttributeError),
            (lambda: setattr(u.state, "registers", 1), TypeError),
            (lambda: setattr(u.state, "registers", (300,)), ValueError),
            (lambda: setattr(u.state.tx.bytes, "foo", 1), AttributeError),
            (lambda: setattr(u.state.rx.entries, "foo", 1), AttributeError),
            (lambda: setattr(u.state.rx.entries[0], "foo", 1), AttributeError),
            (lambda: u.state.tx.bytes.__setitem__(0, 256), ValueError),
            (lambda: u.state.tx.bytes.__setitem__(slice(0, 2), [1, 256]), ValueError),
            (lambda: setattr(u.state.tx, "bytes", [300]), ValueError),
            (lambda: setattr(u.state.tx, "bytes", (300,)), ValueError),
            (lambda: setattr(u.state.rx, "entries", [(300,)]), ValueError),
            (lambda: u.state.rx.entries.__setitem__(0, (300,)), ValueError),
            (lambda: u.state.rx.entries.__setitem__(slice(0, 1), [(300,)]), ValueError),
            (lambda: u.state.rx.entries.__setitem__(0, 5), TypeError),
            (lambda: State((300,)), ValueError),
            (lambda: setattr(u.state.rx.entries[0], "pe", 256), ValueError),
            (lambda: Entry(byte=256), ValueError),
            (lambda: setattr(u, "registers", 1), AttributeError),
            (lambda: setattr(u, "state", 1), TypeError),
            (lambda: Uart(5), TypeError),
            (lambda: u.write(LCR, 256), ValueError),
            (lambda: u.read("LSR"), TypeError),
            (lambda: setattr(u, "sin", 2), Refused),
        ):
            with self.subTest(inspect.getsource(assign).strip()):
                self.assertRaises(error, assign)
        self.assertEqual(u, Uart())

    def test_refusals_survive(self):
        for given in ((8, 5, None), (1, None, 3)):
            refusal = Refused(*given)
            again = pickle.loads(pickle.dumps(refusal))
            self.assertEqual((again.number, again.place, again.part), given)
            self.assertEqual(str(again), str(refusal))
        with concurrent.futures.ProcessPoolExecutor(1) as pool:
            with self.assertRaises(Refused) as refused:
                pool.submit(fail, 7).result(60)
        self.assertEqual((refused.exception.number, refused.exception.place), (7, 3))


class Numbers(unittest.TestCase):
    """The numbers of the text protocol, held against the program `calls`."""

    def draw(self):
        """A state with another number in every place."""
        numbers = [random.randrange(256) for _ in range(351)]
        for place in (5, 6, 13, 78, 81, 339, 346):
            numbers[place - 1] = random.randrange(1 << 32)
        return numbers

    def test_there_and_back(self):
        for _ in range(20):
            numbers = self.draw()
            self.assertEqual(State.from_numbers(numbers).numbers(), numbers)
            self.assertEqual(Uart.from_numbers(numbers).numbers(), numbers)

    def test_as_calls_has_them(self):
        u = busy()
        load = "load " + " ".join(map(str, u.numbers()))
        lines = answers([load, "state", "write 0 90", "ticks 700", "sin 0", "ticks 300", "state"])
        self.assertEqual([int(n) for n in lines[1].split()], u.numbers())
        u.write(THR, 90)
        u.tick(700)
        u.sin = 0
        u.tick(300)
        self.assertEqual([int(n) for n in lines[-1].split()], u.numbers())

    def test_each_in_its_place(self):
        given = Uart().numbers()
        scr, idle, kept = given[:], given[:], given[:]
        scr[3] = 77
        idle[345] = 5
        kept[348:] = 1, 2, 3
        self.assertEqual(State.from_numbers(scr).registers.scr, 77)
        self.assertEqual(State.from_numbers(idle).latches.idle, 5)
        self.assertEqual(State.from_numbers(kept).kept, Errors(1, 2, 3))
        self.assertEqual(answers(["fresh", "state"])[1].split(), [str(n) for n in given])

    def test_what_does_not_fit_is_told(self):
        given = Uart().numbers()
        self.assertRaisesRegex(ValueError, "351 numbers, not 350", State.from_numbers, given[1:])
        self.assertRaisesRegex(ValueError, "Registers.ier", State.from_numbers, [256] + given[1:])


class Said(unittest.TestCase):
    def test_hints_and_docstrings(self):
        for module in (structs, library, uart):
            own = [item for item in vars(module).values() if made_in(module, item)]
            functions = [item for item in own if inspect.isfunction(item)]
            for kind in filter(inspect.isclass, own):
                self.assertTrue(kind.__doc__, kind)
                members = [f for f in vars(kind).values() if made_in(module, f)]
                functions += filter(inspect.isfunction, members)
            for function in functions:
                signature = inspect.signature(function)
                self.assertIsNot(signature.return_annotation, signature.empty, function)
                self.assertTrue(function.__name__.startswith("_") or function.__doc__, function)

    def test_the_first_example(self):
        self.assertEqual(doctest.testmod(tl16c750).failed, 0)

    def test_public_names(self):
        for name in tl16c750.__all__:
            self.assertTrue(hasattr(tl16c750, name))
        self.assertTrue((Path(tl16c750.__file__).parent / "py.typed").exists())
        self.assertEqual(typing.get_type_hints(Uart.read)["return"], int)

    def test_a_missing_library_is_told(self):
        environment = {"UART_LIBRARY": "/nowhere/libtl16c750.so", "PYTHONPATH": ":".join(sys.path)}
        run = subprocess.run(
            [sys.executable, "-c", "import tl16c750"], env=environment, capture_output=True, text=True
        )
        self.assertEqual(run.returncode, 1)
        self.assertIn("make library", run.stderr)
        self.assertIn("/nowhere/libtl16c750.so", run.stderr)


class Refusals(unittest.TestCase):
    # For each part of a state a number in it that breaks a range.
    DAMAGE = {
        IN_REGISTERS: ("baud", "k", 2),
        IN_SETTINGS: ("inputs", "sin", 2),
        IN_TRANSMITTER: ("tx", "count", 65),
        IN_RECEIVER: ("rx", "count", 65),
        IN_LATCHES: ("latches", "hold", 1),
    }

    def damage(self, u, part):
        struct, name, value = self.DAMAGE[part]
        setattr(getattr(u.state, struct), name, value)

    def refusal(self, call):
        with self.assertRaises(Refused) as refused:
            call()
        return refused.exception

    def test_a_malformed_state(self):
        for part in self.DAMAGE:
            u = busy()
            self.damage(u, part)
            before = u.copy()
            for call in (
                u.reset,
                lambda: u.read(8),
                lambda: u.write(LCR, 3),
                lambda: setattr(u, "sin", 2),
                lambda: setattr(u, "modem", 0),
                u.tick,
                lambda: u.pins,
                u.forecast,
                lambda: u.level(0),
                lambda: u.run(5),
                lambda: u.jump(5),
                lambda: u.jump_run(5),
                lambda: u.replay(1, []),
            ):
                refusal = self.refusal(call)
                self.assertEqual((refusal.number, refusal.part), (MALFORMED, part))
            self.assertEqual(u, before)

    def test_the_lowest_part_stands(self):
        u = busy()
        for part in reversed(self.DAMAGE):
            self.damage(u, part)
            self.assertEqual(self.refusal(u.reset).part, part)

    def test_errors_in_the_entries_or_beside_them(self):
        fifo, kept, flagged = busy(), Uart(), Uart()
        fifo.state.kept.pe = 1
        kept.state.kept.pe = 2
        flagged.state.rx.count = 1
        flagged.state.rx.entries[0].pe = 1
        for u in (fifo, kept, flagged):
            self.assertEqual(self.refusal(u.reset).part, IN_RECEIVER)
        kept.state.kept.pe = 1
        flagged.state.rx.entries[0].pe = 0
        for u in (kept, flagged):
            u.reset()

    def test_other_numbers_have_no_part(self):
        u = busy()
        for call in (lambda: u.read(8), lambda: setattr(u, "modem", 16), lambda: u.replay(2, [])):
            self.assertIsNone(self.refusal(call).part)

    def test_words(self):
        u = busy()
        self.damage(u, IN_TRANSMITTER)
        words = "the state is not well formed: transmit queue and frame"
        self.assertEqual(str(self.refusal(u.reset)), f"{words} (number 1, part 3)")
        replayed = self.refusal(lambda: u.replay(1, []))
        self.assertEqual(str(replayed), f"{words} (number 1, part 3, place 0)")
        self.assertEqual(str(Refused(7, 0)), "unknown version of a capture (number 7, place 0)")
        self.assertEqual(str(Refused(99)), "refused (number 99)")

    def test_pieces_do_not_show(self):
        n = 3 * uart._PULSES + 5
        u, v = Uart(), Uart()
        for each in (u, v):
            each.write(LCR, 0x80)
            each.write(0, 1)
            each.write(LCR, 0x03)
            each.write(THR, 65)
        u.tick(n)
        left = n
        while left:
            v.tick(min(left, 1000003))
            left -= min(left, 1000003)
        self.assertEqual(u, v)
        w = Uart()
        w.write(LCR, 0x80)
        w.write(1, 255)
        w.write(LCR, 0x03)
        w.write(THR, 65)
        expected = w.forecast()
        self.assertEqual(w.copy().run(0xFFFFFFFF), expected)
        self.assertEqual(w.copy().run(1000), 1000)
        self.assertEqual(Uart().run(5), 0)


if __name__ == "__main__":
    unittest.main()
