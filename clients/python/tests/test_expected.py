"""The capture that is expected: known words, every room, each refusal with what was written before it, the
promise that a replay of what was written agrees, and files."""
import array
import ctypes
import io
import os
import subprocess
import tempfile
import unittest
from pathlib import Path

from test_replay import AGREES, HEADER, STORED, Odd, file_of, in_little_memory
from tl16c750 import (
    BAD_HEADER,
    BAD_RECORD,
    IN_TRANSMITTER,
    LCR,
    MALFORMED,
    NO_ROOM,
    UNKNOWN_VERSION,
    Refused,
    Uart,
    uart,
)
from tl16c750.library import library

SECOND = STORED.parents[1] / "tests" / "second" / "expect"

# Reads that saw another byte than the model's, among records of every kind; and what is expected.
RECORDS = [
    *(0x20000383, 0x20000001, 0x20000303, 0x20000201),  # divisor 1, eight bits, FIFO on
    *(0x20000048, 0x00000028, 0x20000205),  # a byte on the line, the FIFO cleared
    *(0x100005FF, 0x30000000, 0x40000003, 0x100006AA, 0x50000000, 0x100007FF, 0x10000500),
]
KNOWN = RECORDS[:7] + [0x10000520, 0x30000000, 0x40000003, 0x10000633, 0x50000000, 0x10000700, 0x10000560]
BAD = (0x60000000, 0xFFFFFFFF, 0x00010000, 0x10000800, 0x30000002, 0x40000010, 0x50000001)
UNWRITTEN = 0xAAAAAAAA


def begun():
    """A UART in another state than the fresh one."""
    u = Uart()
    u.write(LCR, 3)
    u.write(7, 0x5A)
    return u


def numbers(call):
    """The number, place and part of a refusal, zeros and None where there is none."""
    try:
        call()
    except Refused as refusal:
        return refusal.number, refusal.place, refusal.part
    return 0, None, None


class Words(unittest.TestCase):
    def ask(self, u, version, records, room):
        """The refusal with so much room, where the known words must be written and no others."""
        words = array.array("I", [UNWRITTEN] * 20)
        before = u.copy()
        counts = []
        refusal = numbers(lambda: counts.append(u.expect_into(version, records, memoryview(words)[:room])))
        count = counts[0] if counts else refusal[1]
        self.assertEqual(words.tolist(), KNOWN[:count] + [UNWRITTEN] * (20 - count))
        if refusal[0] in (MALFORMED, UNKNOWN_VERSION):
            self.assertEqual(count, 0)
        else:
            self.assertIsNone(before.replay(version, words[:count]))
        self.assertEqual(u, before)
        return refusal

    def test_every_room(self):
        for count in range(len(RECORDS) + 1):
            for room in range(21):
                refusal = (NO_ROOM, room, None) if room < count else (0, None, None)
                self.assertEqual(self.ask(Uart(), 1, RECORDS[:count], room), refusal)

    def test_a_bad_record_in_each_place(self):
        for bad in BAD:
            for place in range(len(RECORDS)):
                records = RECORDS[:place] + [bad] + RECORDS[place + 1 :]
                for room in (0, place - 1, place, place + 1, 20):
                    if room >= 0:
                        refusal = (NO_ROOM, room, None) if room < place else (BAD_RECORD, place, None)
                        self.assertEqual(self.ask(Uart(), 1, records, room), refusal)

    def test_nothing_is_done(self):
        for version in (0, 2, 3, 0x10001, 0xFFFFFFFF):
            for records in (RECORDS, []):
                self.assertEqual(self.ask(Uart(), version, records, 20), (UNKNOWN_VERSION, 0, None))
        u = Uart()
        u.state.latches.hold = 2
        u.state.frame.format = 64
        for version, records, room in ((1, RECORDS, 20), (1, [], 0), (0, [0xFFFFFFFF], 0)):
            self.assertEqual(self.ask(u, version, records, room), (MALFORMED, 0, IN_TRANSMITTER))

    def test_an_array_of_words(self):
        u = Uart()
        words = u.expect(1, RECORDS)
        self.assertEqual((words.typecode, words.tolist()), ("I", KNOWN))
        replayed = Uart()
        self.assertIsNone(replayed.replay(1, words))
        self.assertEqual(u, replayed)
        self.assertEqual(u.expect(1, []).tolist(), [])
        self.assertEqual(u, replayed)
        self.assertEqual(numbers(lambda: u.expect(1, AGREES + [1 << 31])), (BAD_RECORD, 2, None))
        self.assertEqual(u.state.registers.scr, 0x5A)
        self.assertEqual(numbers(lambda: u.expect(2, AGREES)), (UNKNOWN_VERSION, 0, None))

    def test_no_room_in_words(self):
        with self.assertRaises(Refused) as refused:
            Uart().expect_into(1, AGREES, array.array("I", [0]))
        words = "no word left for a record of the expected capture (number 16, place 1)"
        self.assertEqual(str(refused.exception), words)

    def test_the_byte_seen_has_no_part_in_it(self):
        u = begun()
        for seen in range(256):
            self.assertEqual(u.expect(1, [0x10000700 | seen]).tolist(), [0x1000075A])
        self.assertEqual(u, begun())

    def test_pieces(self):
        """Places and rooms go on over the pieces in which the records are taken."""
        for before in (uart._RECORDS - 1, uart._RECORDS, uart._RECORDS + 1, 3 * uart._RECORDS):
            records = [0x2000075A] * before + [0x10000700] * 600
            expected = [0x2000075A] * before + [0x1000075A] * 600
            self.assertEqual(Uart().expect(1, iter(records)).tolist(), expected)
            refusal = numbers(lambda: Uart().expect(1, records[:before] + [0xFFFFFFFF]))
            self.assertEqual(refusal, (BAD_RECORD, before, None))
            words = array.array("I", [UNWRITTEN] * before)
            refusal = numbers(lambda: Uart().expect_into(1, iter(records), words))
            self.assertEqual(refusal, (NO_ROOM, before, None))
            self.assertEqual(words.tolist(), expected[:before])

    def test_what_is_lent(self):
        records = array.array("I", RECORDS)
        self.assertEqual(Uart().expect_into(1, records, records), len(KNOWN))
        self.assertEqual(records.tolist(), KNOWN)
        lent = (ctypes.c_uint32 * 20)(*[UNWRITTEN] * 20)
        self.assertEqual(Uart().expect_into(1, RECORDS, lent), len(KNOWN))
        self.assertEqual(list(lent), KNOWN + [UNWRITTEN] * 6)
        words = array.array("I", range(4))
        for given in (
            [0] * 20,
            None,
            bytearray(80),
            array.array("H", range(4)),
            array.array("i", range(4)),
            array.array("Q", range(4)),
            memoryview(words.tobytes()).cast("I"),
            memoryview(words)[::2],
            memoryview(words).cast("B").cast("I", (2, 2)),
        ):
            with self.subTest(given):
                u = begun()
                self.assertRaisesRegex(TypeError, "words are lent", u.expect_into, 1, RECORDS, given)
                self.assertEqual((u, words.tolist()), (begun(), [0, 1, 2, 3]))

    def test_what_is_no_record(self):
        """An error behind what is written leaves the state and the words as they were."""
        words = array.array("I", [UNWRITTEN] * 1000)
        for given, error in (
            ([0] * 600 + [1 << 32], ValueError),
            ([0] * 600 + [1.5], TypeError),
            (file_of(AGREES), TypeError),
            (io.BytesIO(file_of(AGREES)), TypeError),
            ("capture.utr", TypeError),
        ):
            with self.subTest(given):
                u = begun()
                self.assertRaises(error, u.expect, 1, given)
                self.assertRaises(error, u.expect_into, 1, given, words)
                self.assertEqual((u, words.tolist()), (begun(), [UNWRITTEN] * 1000))
        self.assertRaisesRegex(TypeError, "expect_file", Uart().expect, 1, file_of(AGREES))
        self.assertRaisesRegex(ValueError, "a version", Uart().expect, -1, [])

    def test_words_beyond_stay_in_the_library(self):
        records = (ctypes.c_uint32 * 3)(*KNOWN[:3])
        words = (ctypes.c_uint32 * 4)(*[UNWRITTEN] * 4)
        answer = library.uart_expect(Uart().state, 1, records, 3, words, 2)
        self.assertEqual((answer.number, answer.count), (NO_ROOM, 2))
        self.assertEqual(list(words), KNOWN[:2] + [UNWRITTEN] * 2)


class Few(io.RawIOBase):
    """A file that takes a few bytes at a time."""

    def __init__(self):
        self.taken = b""

    def writable(self):
        return True

    def write(self, part):
        self.taken += bytes(part[:999])
        return min(len(part), 999)


class Busy(io.RawIOBase):
    """A file that takes no bytes now."""

    def write(self, part):
        return None


class Files(unittest.TestCase):
    def setUp(self):
        folder = tempfile.TemporaryDirectory()
        self.addCleanup(folder.cleanup)
        self.folder = Path(folder.name)

    def test_stored_captures(self):
        """What is written is what the second program writes, and replays as agreed."""
        paths = sorted((STORED / "data").glob("[0-9][0-9][0-9]"))
        self.assertGreater(len(paths), 100)
        for number, path in enumerate(paths):
            with self.subTest(path.name):
                second = subprocess.run([SECOND, path], capture_output=True, check=True)
                target = io.BytesIO()
                u = begun()
                refusal = numbers(lambda: u.expect_file(path, target))
                self.assertEqual(target.getvalue(), second.stdout)
                self.assertEqual(refusal[0], int(second.stderr or 0))
                if target.getvalue():
                    replayed = Uart()
                    self.assertIsNone(replayed.replay_file(io.BytesIO(target.getvalue())))
                    self.assertEqual(u, replayed)
                few, v = Few(), Uart()
                odd = Odd(path.read_bytes(), 1 + number % 7)
                self.assertEqual(numbers(lambda: v.expect_file(odd, few)), refusal)
                self.assertEqual((few.taken, v), (second.stdout, u))

    def test_headers(self):
        """Where the header is refused nothing is written, and a path is left as it is."""
        path = self.folder / "expected"
        for kept in (None, b"kept"):
            if kept:
                path.write_bytes(kept)
            for capture, number in (
                (b"", BAD_RECORD),
                (HEADER[:7], BAD_RECORD),
                (b"UTX" + HEADER[3:] + b"\0" * 8, BAD_HEADER),
                (file_of(AGREES, 2), UNKNOWN_VERSION),
            ):
                with self.subTest(capture):
                    u, target = begun(), io.BytesIO()
                    refusal = numbers(lambda: u.expect_file(io.BytesIO(capture), target))
                    self.assertEqual((refusal, target.getvalue()), ((number, 0, None), b""))
                    self.assertEqual(u, Uart())
                    refusal = numbers(lambda: u.expect_file(io.BytesIO(capture), path))
                    self.assertEqual(refusal, (number, 0, None))
                    self.assertEqual(path.read_bytes() if path.exists() else None, kept)

    def test_bytes_left(self):
        for left in range(4):
            target = io.BytesIO()
            refusal = numbers(lambda: Uart().expect_file(io.BytesIO(file_of(RECORDS) + b"\0" * left), target))
            self.assertEqual(refusal, (BAD_RECORD, len(KNOWN), None) if left else (0, None, None))
            self.assertEqual(target.getvalue(), file_of(KNOWN))

    def test_blocks(self):
        """A bad record around the ends of blocks and pieces: what stands before it is written."""
        piece, block = uart._RECORDS, uart._BLOCK_BYTES // 4
        for place in (0, piece - 1, piece, block - 1, block, block + piece + 1, 2 * block):
            target = io.BytesIO()
            capture = file_of([0x2000075A] + [0x100007FF] * place)
            u = Uart()
            self.assertEqual(u.expect_file(io.BytesIO(capture), target), place + 1)
            self.assertEqual(target.getvalue(), file_of([0x2000075A] + [0x1000075A] * place))
            target = io.BytesIO()
            capture = file_of([0] * place + [1 << 31] + [0] * block)
            refusal = numbers(lambda: u.expect_file(io.BytesIO(capture), target))
            self.assertEqual(refusal, (BAD_RECORD, place, None))
            self.assertEqual(target.getvalue(), file_of([0] * place))

    def test_paths(self):
        source, target = self.folder / "capture", self.folder / "expected"
        source.write_bytes(file_of(RECORDS))
        for given in (target, str(target)):
            target.write_bytes(b"longer than what is written" * 10)
            self.assertEqual(Uart().expect_file(str(source), given), len(KNOWN))
            self.assertEqual(target.read_bytes(), file_of(KNOWN))
        with open(source, "rb") as opened, open(target, "wb") as to:
            self.assertEqual(Uart().expect_file(opened, to), len(KNOWN))
            self.assertEqual(target.read_bytes(), file_of(KNOWN))  # flushed, and still open
            self.assertFalse(to.closed)

    def test_what_is_no_file(self):
        """What cannot be read or written is told before anything is written."""
        source, target = self.folder / "capture", self.folder / "expected"
        source.write_bytes(file_of(RECORDS))
        u = begun()
        for given in (None, 5, b"expected", [], io.StringIO(), io.TextIOWrapper(io.BytesIO())):
            with self.subTest(given):
                self.assertRaisesRegex(TypeError, "open for bytes", u.expect_file, source, given)
        for given in (None, 5, file_of(RECORDS), io.StringIO("capture")):
            with self.subTest(given):
                self.assertRaisesRegex(TypeError, "for bytes", u.expect_file, given, target)
        self.assertRaises(FileNotFoundError, u.expect_file, self.folder / "none", target)
        self.assertFalse(target.exists())
        self.assertRaises(FileNotFoundError, u.expect_file, source, self.folder / "none" / "expected")
        self.assertEqual(u, begun())

    def test_a_file_is_not_written_over_itself(self):
        source = self.folder / "capture"
        source.write_bytes(file_of(RECORDS))
        for name, make in (("link", os.symlink), ("again", os.link)):
            make(source, self.folder / name)
            self.assertRaises(ValueError, Uart().expect_file, source, self.folder / name)
        self.assertRaises(ValueError, Uart().expect_file, source, str(source))
        with open(source, "r+b") as opened:
            self.assertRaises(ValueError, Uart().expect_file, opened, source)
            self.assertRaises(ValueError, Uart().expect_file, opened, opened)
        self.assertEqual(source.read_bytes(), file_of(RECORDS))

    def test_a_failure_leaves_the_state(self):
        u = begun()
        capture = file_of(RECORDS * 10000)
        self.assertRaises(OSError, u.expect_file, io.BytesIO(capture), "/dev/full")
        self.assertRaises(BlockingIOError, u.expect_file, io.BytesIO(capture), Busy())
        with open("/dev/full", "wb") as full:
            self.assertRaises(OSError, u.expect_file, io.BytesIO(capture), full)
            full.raw.close()
        self.assertEqual(u, begun())

    def test_progress(self):
        block = uart._BLOCK_BYTES // 4
        for place in (0, 5, block - 1, block, block + 700):
            capture = file_of([0] * place + [1 << 31] + [0] * 2 * block)
            told = []
            source = io.BytesIO(capture)
            numbers(lambda: Uart().expect_file(source, io.BytesIO(), lambda *now: told.append(now)))
            self.assertEqual([now[0] for now in told], [block] * (place >= block) + [place])
            self.assertEqual({now[2] for now in told}, {len(capture)})
        told = []
        Uart().expect_file(Odd(HEADER, 3), io.BytesIO(), lambda *now: told.append(now))
        self.assertEqual(told, [(0, 8, None)])

    def test_a_callback_that_raises(self):
        def stop(records, read, total):
            raise KeyError(records)

        u = begun()
        self.assertRaises(KeyError, u.expect_file, io.BytesIO(file_of(AGREES)), io.BytesIO(), stop)
        self.assertEqual(u, begun())

    def test_constant_memory(self):
        """40 MB from a pipe to a pipe."""
        capture = file_of([0x2000075A] * 10_000_000)
        call = "tl16c750.Uart().expect_file(sys.stdin.buffer, sys.stdout.buffer)"
        self.assertTrue(in_little_memory(call, capture) == capture)


if __name__ == "__main__":
    unittest.main()
