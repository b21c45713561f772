"""Replays: what is taken for records, captures' files, and Ctrl-C."""
import array
import ctypes
import io
import itertools
import multiprocessing
import os
import signal
import struct
import subprocess
import sys
import tempfile
import threading
import unittest
from pathlib import Path

from tl16c750 import BAD_HEADER, BAD_RECORD, UNKNOWN_VERSION, Refused, Uart, uart

STORED = Path(__file__).resolve().parents[3] / "crates" / "replay_stored"
HEADER = b"UTR\0\x01\0\0\0"
AGREES = [0x2000075A, 0x1000075A]
DIFFERS = [0x2000075A, 0x10000700]


def file_of(records, version=1):
    return struct.pack(f"<4sHH{len(records)}I", b"UTR", version, 0, *records)


def outcome(replay):
    """How a replay ended, as the program `replay` tells it."""
    try:
        difference = replay()
    except Refused as refusal:
        return f"refused {refusal.number} {refusal.place}"
    return "differs %d %d %d" % difference if difference else "agreed"


def in_little_memory(call, capture):
    """What the call writes, with the capture on its standard input, in a process held to 20 MB more than it
    has at the start."""
    code = (
        "import resource, sys, tl16c750\n"
        "used = int(open('/proc/self/statm').read().split()[0]) * resource.getpagesize()\n"
        "resource.setrlimit(resource.RLIMIT_AS, (used + 20_000_000,) * 2)\n" + call
    )
    environment = dict(os.environ, PYTHONPATH=":".join(sys.path))
    run = [sys.executable, "-c", code]
    return subprocess.run(run, input=capture, stdout=subprocess.PIPE, env=environment, check=True).stdout


class Records(unittest.TestCase):
    def test_bytes_are_no_records(self):
        capture = file_of(AGREES)
        read = io.BytesIO(capture)
        read.read()
        for given in (
            capture,
            b"",
            bytearray(capture),
            memoryview(capture),
            array.array("B", capture),
            array.array("H", capture),
            memoryview(capture).cast("H"),
            [capture],
            io.BytesIO(capture),
            io.BytesIO(),
            io.StringIO(),
            read,
            "",
            "capture.utr",
            Path("capture.utr"),
        ):
            with self.subTest(given):
                u = Uart()
                self.assertRaisesRegex(TypeError, "replay_file", u.replay, 1, given)
                self.assertEqual(u, Uart())

    def test_a_file_that_was_read(self):
        with tempfile.TemporaryFile() as file:
            self.assertRaisesRegex(TypeError, "replay_file", Uart().replay, 1, file)

    def test_taken_a_piece_at_a_time(self):
        """What stands behind the place within its piece is taken too; a bad number there is told."""
        left = iter(DIFFERS + [0] * 600)
        self.assertEqual(Uart().replay(1, left), (1, 0, 0x5A))
        self.assertEqual(len(list(left)), 602 - uart._RECORDS)
        u = Uart()
        self.assertRaises(ValueError, u.replay, 1, DIFFERS + [-1])
        self.assertEqual(u, Uart())

    def test_buffers_and_iterables(self):
        many = DIFFERS[:1] + [0] * 5000 + DIFFERS[1:]
        words = array.array("I", many)
        kinds = {
            "list": many,
            "tuple": tuple(many),
            "generator": (word for word in many),
            "array of words": words,
            "read-only view": memoryview(words.tobytes()).cast("I"),
            "ctypes": (ctypes.c_uint32 * len(many))(*many),
            "every second of a view": memoryview(array.array("I", [w for w in many for _ in "ab"]))[::2],
            "64-bit numbers": array.array("Q", many),
        }
        for kind, records in kinds.items():
            with self.subTest(kind):
                self.assertEqual(Uart().replay(1, records), (5001, 0, 0x5A))

    def test_what_is_no_word(self):
        square = memoryview(array.array("I", range(4))).cast("B").cast("I", (2, 2))
        for given, error in (
            ([1 << 32], ValueError),
            ([-1], ValueError),
            ([1.5], TypeError),
            ("ab", TypeError),
            (array.array("i", [-1]), ValueError),
            (5, TypeError),
            (square, TypeError),
        ):
            with self.subTest(given):
                u = Uart()
                self.assertRaises(error, u.replay, 1, given)
                self.assertEqual(u, Uart())

    def test_places_go_on_over_pieces(self):
        for before in (uart._RECORDS - 1, uart._RECORDS, uart._RECORDS + 1, 3 * uart._RECORDS):
            records = [0x2000075A] * before + [0x10000700]
            self.assertEqual(Uart().replay(1, records), (before, 0, 0x5A))
            with self.assertRaises(Refused) as refused:
                Uart().replay(1, records[:-1] + [0xFFFFFFFF])
            self.assertEqual((refused.exception.number, refused.exception.place), (BAD_RECORD, before))

    def test_unknown_version(self):
        for records in ([], AGREES):
            u = Uart()
            self.assertEqual(outcome(lambda: u.replay(2, records)), f"refused {UNKNOWN_VERSION} 0")
            self.assertEqual(u, Uart())


class Odd(io.RawIOBase):
    """A file that gives a few bytes at a time, and cannot seek."""

    def __init__(self, content, size):
        self.left, self.size = content, size

    def readable(self):
        return True

    def read(self, count=-1):
        size = min(count, self.size)
        piece, self.left = self.left[:size], self.left[size:]
        return piece


class Whole:
    """A file that gives all that it has, whatever is asked for."""

    def __init__(self, content):
        self.left = content

    def read(self, count=-1):
        content, self.left = self.left, b""
        return content


class Files(unittest.TestCase):
    def test_stored_captures(self):
        expected = (STORED / "stdout").read_text().splitlines()
        files = sorted((STORED / "data").glob("[0-9][0-9][0-9]"))
        self.assertEqual(len(files), len(expected))
        for number, (path, line) in enumerate(zip(files, expected)):
            with self.subTest(path.name):
                u, v = Uart(), Uart()
                self.assertEqual(outcome(lambda: u.replay_file(path)), line)
                odd = Odd(path.read_bytes(), 1 + number % 7)
                self.assertEqual(outcome(lambda: v.replay_file(odd)), line)
                self.assertEqual(u, v)

    def test_headers(self):
        for capture, line in (
            (b"", "refused 8 0"),
            (HEADER[:7], "refused 8 0"),
            (b"UTX" + HEADER[3:], f"refused {BAD_HEADER} 0"),
            (file_of([], 2), f"refused {UNKNOWN_VERSION} 0"),
            (HEADER, "agreed"),
            (HEADER + b"abc", "refused 8 0"),
            (file_of(AGREES) + b"\0", "refused 8 2"),
        ):
            with self.subTest(capture):
                u = Uart()
                self.assertEqual(outcome(lambda: u.replay_file(io.BytesIO(capture))), line)

    def test_from_the_fresh_state(self):
        for capture in (HEADER, HEADER[:7], b"UTX" + HEADER[3:], file_of([], 2), file_of([1 << 31])):
            with self.subTest(capture):
                u = Uart()
                u.write(7, 0x11)
                outcome(lambda: u.replay_file(io.BytesIO(capture)))
                self.assertEqual(u, Uart())

    def test_more_than_asked_for(self):
        u = Uart()
        u.write(7, 0x11)
        before = u.copy()
        self.assertRaisesRegex(ValueError, r"read\(8\) gave 16 bytes", u.replay_file, Whole(file_of(DIFFERS)))
        self.assertEqual(u, before)

    def test_paths_and_what_is_no_file(self):
        with tempfile.TemporaryDirectory() as folder:
            path = Path(folder, "capture")
            path.write_bytes(file_of(DIFFERS))
            for given in (path, str(path)):
                self.assertEqual(Uart().replay_file(given), (1, 0, 0x5A))
            with open(path, encoding="latin-1") as text:
                self.assertRaisesRegex(TypeError, "'rb'", Uart().replay_file, text)
            self.assertRaisesRegex(TypeError, "BytesIO", Uart().replay_file, file_of(AGREES))
            self.assertRaises(FileNotFoundError, Uart().replay_file, Path(folder, "none"))

    def test_progress(self):
        capture = file_of([0] * 50000)
        told = []
        u = Uart()
        self.assertIsNone(u.replay_file(io.BytesIO(capture), lambda *now: told.append(now)))
        self.assertEqual(told[-1], (50000, len(capture), len(capture)))
        self.assertEqual(told, sorted(told))
        told.clear()
        u.replay_file(Odd(capture, 4096), lambda *now: told.append(now))
        self.assertEqual(told[-1], (50000, len(capture), None))

    def test_progress_to_the_place(self):
        """Where a file stops, the last that is told are the records before the place."""
        block = uart._BLOCK_BYTES // 4
        for place in (0, 5, block - 1, block, block + 700):
            for end in (0x100007FF, 0xFFFFFFFF):
                capture = file_of([0x2000075A] * place + [end] + [0] * 1000)
                told = []
                outcome(lambda: Uart().replay_file(io.BytesIO(capture), lambda *now: told.append(now)))
                self.assertEqual((told[-1][0], told[-1][2]), (place, len(capture)))
                self.assertEqual(told, sorted(told))
        for capture in (HEADER[:5], b"UTX" + HEADER[3:], file_of(AGREES, 2)):
            told = []
            outcome(lambda: Uart().replay_file(io.BytesIO(capture), lambda *now: told.append(now)))
            self.assertEqual([(now[0], now[2]) for now in told], [(0, len(capture))])

    def test_a_callback_that_raises(self):
        def stop(records, read, total):
            raise KeyError(records)

        u = Uart()
        u.write(7, 0x11)
        before = u.copy()
        self.assertRaises(KeyError, u.replay_file, io.BytesIO(file_of(AGREES)), stop)
        self.assertEqual(u, before)

    def test_constant_memory(self):
        """40 MB through a pipe."""
        capture = file_of([0x2000075A] * 10_000_000)
        in_little_memory("tl16c750.Uart().replay_file(sys.stdin.buffer)", capture)


def fast():
    """A UART with the smallest divisor."""
    u = Uart()
    u.write(3, 0x80)
    u.write(0, 1)
    u.write(3, 0x03)
    return u


class Endless:
    """A capture that does not end: writes to SCR."""

    def __init__(self):
        self.rest = HEADER

    def read(self, count):
        part, self.rest = self.rest[:count], self.rest[count:]
        return part + struct.pack("<I", 0x2000075A) * ((count - len(part)) // 4)


class Nowhere:
    """Takes what is written, and keeps none of it."""

    def write(self, data):
        return len(data)


# A UART, and work on it that does not end. Ticks and runs, however many, are no long work.
LONG_WORK = {
    "records": (fast, lambda u: u.replay(1, itertools.repeat(0x0000FFFF))),
    "file": (fast, lambda u: u.replay_file(Endless())),
    "expected records": (fast, lambda u: u.expect(1, itertools.repeat(0x0000FFFF))),
    "expected file": (fast, lambda u: u.expect_file(Endless(), Nowhere())),
}


def interrupt(name):
    """Interrupts the work; ends with 0 where it stops and leaves the state as it was."""
    make, work = LONG_WORK[name]
    u = make()
    before = u.copy()
    signal.signal(signal.SIGINT, signal.default_int_handler)
    threading.Timer(0.2, lambda: os.kill(os.getpid(), signal.SIGINT)).start()
    try:
        work(u)
    except KeyboardInterrupt:
        sys.exit(0 if u == before else "the state has moved")
    sys.exit("not interrupted")


class Interrupts(unittest.TestCase):
    """Ctrl-C stops long work after one of its pieces, and the state is as it was."""

    GUARD = 10  # seconds; a piece has tenths of one

    def test_long_work(self):
        for name in LONG_WORK:
            with self.subTest(name):
                child = multiprocessing.Process(target=interrupt, args=(name,))
                child.start()
                child.join(self.GUARD)
                if child.exitcode is None:
                    child.kill()
                    child.join()
                self.assertEqual(child.exitcode, 0)


if __name__ == "__main__":
    unittest.main()
