"""The UART as an object that holds its state, and the divisor for a rate."""
from __future__ import annotations

import array
import contextlib
import ctypes
import io
import itertools
import os
from typing import IO, Any, Callable, Iterable, Iterator, NamedTuple, Optional, Union

from .library import library
from .structs import Outputs, State, Values, fits

_versions = library.uart_version()
__version__ = f"{_versions.major}.{_versions.minor}.{_versions.patch}"

# Register addresses. With LCR bit 7 set, 0 and 1 are the divisor's low and high byte.
RBR = THR = DLL = 0
IER = DLM = 1
IIR = FCR = 2
LCR, MCR, LSR, MSR, SCR = 3, 4, 5, 6, 7

MALFORMED, BAD_ADDRESS, BAD_LEVEL, NO_CLOCK, HELD_BACK = 1, 2, 3, 4, 5
BAD_HEADER, UNKNOWN_VERSION, BAD_RECORD, BAD_RATE, NO_ROOM = 6, 7, 8, 9, 16

# The parts of a state: registers and baud; fifo and inputs; tx and frame; rx, receiver and kept; latches.
IN_REGISTERS, IN_SETTINGS, IN_TRANSMITTER, IN_RECEIVER, IN_LATCHES = 1, 2, 3, 4, 5

_WHY = {
    MALFORMED: "the state is not well formed",
    BAD_ADDRESS: "register address above 7",
    BAD_LEVEL: "impossible pin level",
    NO_CLOCK: "work left and the divisor is 0",
    HELD_BACK: "bytes queued and held by flow control",
    BAD_HEADER: "bad mark or nonzero pad of a capture",
    UNKNOWN_VERSION: "unknown version of a capture",
    BAD_RECORD: "record of bad kind, with stray bits, or cut off",
    BAD_RATE: "clock not from 1 to 16000000, or rate not from 1 to 1000000",
    NO_ROOM: "no word left for a record of the expected capture",
}

_WHERE = {
    IN_REGISTERS: "registers, divisor or k",
    IN_SETTINGS: "FIFO settings and pins",
    IN_TRANSMITTER: "transmit queue and frame",
    IN_RECEIVER: "receive queue, receiver and kept errors",
    IN_LATCHES: "latches, OE, idle count, change bits and hold",
}

# A call of the library is not interrupted, so long work goes in pieces of some tenths of a second at
# most: a pulse takes about 10 ns, the ticks between two are passed over, and a record has at most 65,535.
_PULSES = 1 << 23
_RECORDS = 512

_NONE = (ctypes.c_uint32 * 0)()

_HEADER_BYTES = 8
_PIECE_BYTES = 4 * _RECORDS
_BLOCK_BYTES = 32 * _PIECE_BYTES

Told = Callable[[int, int, Optional[int]], object]
"""What is told of a file: the records done, the bytes read, and of how many (None: not known)."""

Capture = Union[str, os.PathLike[str], IO[bytes]]
"""A capture's file: a path, or a file open for bytes."""


class Refused(Exception):
    """A refusal, by its number; of a replay or an expected capture with the record's place; of a malformed
    state with the part of it that is bad: the lowest one that breaks a range. A range that joins two parts
    counts for the later one."""

    number: int
    place: Optional[int]
    part: Optional[int]

    def __init__(self, number: int, place: Optional[int] = None, part: Optional[int] = None) -> None:
        why = _WHY.get(number, "refused")
        numbers = f"number {number}"
        if part is not None:
            why += f": {_WHERE.get(part, 'unknown part')}"
            numbers += f", part {part}"
        if place is not None:
            numbers += f", place {place}"
        super().__init__(f"{why} ({numbers})")
        self.number = number
        self.place = place
        self.part = part

    def __reduce__(self) -> tuple[type[Refused], tuple[int, Optional[int], Optional[int]]]:
        return Refused, (self.number, self.place, self.part)


class Difference(NamedTuple):
    """The read at which a replay stopped: its place, counted from 0, the byte seen and the model's."""

    place: int
    seen: int
    model: int


class Picked(NamedTuple):
    """The divisor for a rate, 1 to 65535, and its error in parts per million: above 0 the line is faster
    than the rate, below 0 slower."""

    divisor: int
    error: int


class JumpRan(NamedTuple):
    """What a run by jumps used: the ticks, as run has them, and the jumps."""

    used: int
    jumps: int


def divisor_for(clock: int, rate: int) -> Picked:
    """The divisor for a rate: of those from 1 to 65535 the one with the smallest distance between clock and
    16 * divisor * rate, the smaller one on a tie. The clock is in Hz, 1 to 16,000,000; the rate is in
    baud, 1 to 1,000,000; others are refused with BAD_RATE. It needs no state.

    The error is (clock - 16 * divisor * rate) * 1,000,000 over 16 * divisor * rate, cut toward zero, from
    -999999 to 14259021. A divisor is answered however far off it is: whether the error is small enough is
    for the caller to say."""
    picked = library.uart_divisor_for(fits(clock, 32, "a clock"), fits(rate, 32, "a rate"))
    if picked.number:
        raise Refused(picked.number)
    return Picked(picked.divisor, picked.error)


def _done(answer: Any) -> Any:
    """The answer, unless it is a refusal."""
    if answer.number:
        raise Refused(answer.number, part=answer.part or None)
    return answer


def _piece(state: State, left: int) -> int:
    """How many of the ticks that are left make the next piece. It ends at a pulse or takes all of them, so
    that no jump is cut in two."""
    divisor = state.baud.divisor if left > _PULSES else 0
    return min(left, state.baud.k + (_PULSES - 1) * divisor) if divisor else left


def _ticked(call: Any, state: State, n: int) -> Iterator[Any]:
    """The answers of a call that takes ticks, for n of them, a piece at a time, up to one that does not
    use all."""
    left = fits(n, 32, "a number of ticks")
    while True:
        piece = _piece(state, left)
        answer = _done(call(state, piece))
        yield answer
        state = answer.state
        left -= piece
        if not left or getattr(answer, "used", piece) < piece:
            return


def _agreed(values: Values) -> bool:
    """Whether a replay reached the end, and every read saw the model's byte."""
    return not values.number and values.seen == values.model


def _difference(values: Values, before: int = 0) -> Optional[Difference]:
    """How a replay ended, its place counted from so many records earlier."""
    if values.number:
        raise Refused(values.number, before + values.place, values.part or None)
    if _agreed(values):
        return None
    return Difference(before + values.place, values.seen, values.model)


def _written(answer: Any, count: int) -> int:
    """How many records were written in all, unless the one behind them is refused."""
    if answer.number:
        raise Refused(answer.number, count, answer.part or None)
    return count


def _no_records(what: str) -> TypeError:
    """The error where a capture's file, or something of it, is given for records."""
    return TypeError(
        f"records are numbers of 32 bits, not {what}: replay_file and expect_file take a capture's file"
    )


def _word(record: Any) -> int:
    """A record that is given as a number, or the reason why it is none."""
    if isinstance(record, (bytes, bytearray, memoryview)):
        raise _no_records("bytes")
    return fits(record, 32, "a record")


def _numbers(records: Iterable[int]) -> Iterator[Any]:
    """Records that are given as numbers, a piece at a time."""
    left = iter(records)
    while piece := list(itertools.islice(left, _RECORDS)):
        try:
            words = array.array("I", piece)
        except (OverflowError, TypeError):
            words = array.array("I", map(_word, piece))
        yield (ctypes.c_uint32 * len(words)).from_buffer(words)


def _words(view: memoryview) -> Iterator[Any]:
    """Records that stand in memory as 32-bit words, a piece at a time."""
    for start in range(0, len(view), _RECORDS):
        piece = view[start : start + _RECORDS].tobytes()
        yield (ctypes.c_uint32 * (len(piece) // 4)).from_buffer_copy(piece)


def _pieces(records: Any) -> Iterator[Any]:
    """Records, a piece at a time: words of a buffer as they stand, anything else as numbers."""
    if isinstance(records, (str, os.PathLike)) or hasattr(records, "read"):
        raise _no_records(f"a {type(records).__name__}")
    try:
        view = memoryview(records)
    except TypeError:
        return _numbers(records)
    if view.itemsize < 4:
        raise _no_records(f"{view.itemsize} bytes each")
    if view.ndim != 1:
        raise TypeError(f"records stand in one dimension, not in {view.ndim}")
    return _words(view) if _has_words(view) else _numbers(records)


def _has_words(view: memoryview) -> bool:
    """Whether these are unsigned words of 32 bits."""
    return view.itemsize == 4 and view.format.lstrip("@=<") in ("I", "L")


def _lent(words: Any) -> memoryview:
    """The bytes of a run of words that is lent to be written to."""
    try:
        view = memoryview(words)
    except TypeError:
        raise TypeError(f"words are lent as a buffer, not as {type(words).__name__}") from None
    if view.readonly or view.ndim != 1 or not view.c_contiguous or not _has_words(view):
        raise TypeError("words are lent as a buffer of 32-bit words that can be written, as array('I')")
    return view.cast("B")


def _read_full(file: IO[bytes], count: int) -> bytes:
    """So many bytes of a file, or fewer where it ends."""
    parts = []
    while count > 0:
        part = file.read(count)
        if part is None:
            raise BlockingIOError("the capture has no bytes ready: it has to be a blocking file")
        if not isinstance(part, bytes):
            raise TypeError("a capture's file is opened for bytes: open(path, 'rb')")
        if len(part) > count:
            raise ValueError(f"the capture's read({count}) gave {len(part)} bytes")
        if not part:
            break
        parts.append(part)
        count -= len(part)
    return b"".join(parts)


def _write_full(file: IO[bytes], part: bytes | memoryview) -> None:
    """Writes all of the bytes; a file without a buffer takes some of them at a time."""
    while part:
        taken = file.write(part)
        if taken is None:
            raise BlockingIOError("the file takes no bytes now: it has to be a blocking file")
        part = part[taken:]


@contextlib.contextmanager
def _source(file: Capture) -> Iterator[IO[bytes]]:
    """The capture's file, open for bytes."""
    if isinstance(file, (str, os.PathLike)):
        with open(file, "rb") as opened:
            yield opened
    elif hasattr(file, "read"):
        yield file
    else:
        raise TypeError(
            f"a capture's file is a path or a file open for bytes, not {type(file).__name__};"
            " io.BytesIO makes one of bytes"
        )


def _same_file(file: IO[bytes], path: Union[str, os.PathLike[str]]) -> bool:
    """Whether an open file is the one of the path."""
    try:
        return os.path.samestat(os.fstat(file.fileno()), os.stat(path))
    except (AttributeError, OSError):
        return False


def _check_target(file: Capture, source: IO[bytes]) -> None:
    """Refuses what takes no bytes, and the file that is read, which would be cut off."""
    if isinstance(file, (str, os.PathLike)):
        same = _same_file(source, file)
    elif isinstance(file, io.TextIOBase) or not hasattr(file, "write"):
        raise TypeError(
            f"an expected capture is written to a path or a file open for bytes, not {type(file).__name__}"
        )
    else:
        same = file is source
    if same:
        raise ValueError("a capture is not written over the file from which it is read")


@contextlib.contextmanager
def _target(file: Capture) -> Iterator[IO[bytes]]:
    """The file to be written, open for bytes."""
    if isinstance(file, (str, os.PathLike)):
        with open(file, "wb") as opened:
            yield opened
    else:
        yield file
        if hasattr(file, "flush"):
            file.flush()


def _bytes_left(file: IO[bytes]) -> Optional[int]:
    """The bytes from where a file stands to its end; None where that is not known, as of a pipe."""
    if not (hasattr(file, "seekable") and file.seekable()):
        return None
    at = file.tell()
    end = file.seek(0, io.SEEK_END)
    file.seek(at)
    return max(end - at, 0)


def _replay_stream(file: IO[bytes], progress: Optional[Told]) -> Any:
    """The library's answer for a capture's file, read a block at a time."""
    total = _bytes_left(file) if progress else None
    header = _read_full(file, _HEADER_BYTES)
    read = len(header)
    stands = library.uart_replay_begin(header, len(header))
    left = b""
    while not stands.stopped:
        block = _read_full(file, _BLOCK_BYTES)
        read += len(block)
        for start in range(0, len(block), _PIECE_BYTES):
            piece = block[start : start + _PIECE_BYTES]
            stands = library.uart_replay_more(stands, piece, len(piece))
        if len(block) < _BLOCK_BYTES:
            left = block[len(block) - len(block) % 4 :]
            break
        if progress and not stands.stopped:
            progress(stands.done, read, total)
    replayed = library.uart_replay_end(stands, left, len(left))
    if progress:
        progress(stands.done if _agreed(replayed.values) else replayed.values.place, read, total)
    return replayed


def _expect_block(stands: Any, block: bytearray) -> tuple[Any, int]:
    """Writes the whole records of a block anew, in place: where the file then stands, and how many. It
    ends with a block that is not full."""
    count = 0
    for start in range(0, len(block), _PIECE_BYTES):
        size = min(_PIECE_BYTES, len(block) - start)
        piece = (ctypes.c_uint8 * size).from_buffer(block, start)
        stands = library.uart_expect_more(stands, piece, size)
        count += stands.count
    if len(block) < _BLOCK_BYTES:
        left = block[len(block) - len(block) % 4 :]
        stands = library.uart_expect_end(stands, (ctypes.c_uint8 * len(left)).from_buffer(left), len(left))
    return stands, count


def _expect_stream(file: IO[bytes], target: Capture, progress: Optional[Told]) -> tuple[Any, int]:
    """The library's answer for a capture's file that is written anew, a block at a time, and how many
    records were written."""
    total = _bytes_left(file) if progress else None
    header = _read_full(file, _HEADER_BYTES)
    read, count = len(header), 0
    stands = library.uart_expect_begin(header, len(header))
    if not stands.number:
        with _target(target) as to:
            _write_full(to, header)
            full = True
            while full and not stands.number:
                if progress and count:
                    progress(count, read, total)
                block = bytearray(_read_full(file, _BLOCK_BYTES))
                full = len(block) == _BLOCK_BYTES
                read += len(block)
                stands, written = _expect_block(stands, block)
                count += written
                _write_full(to, memoryview(block)[: 4 * written])
    if progress:
        progress(count, read, total)
    return stands, count


class Uart:
    """The UART, holding its state. Any state may be put into it: a malformed one is refused."""

    __slots__ = ("_state",)

    _state: State

    def __init__(self, state: Optional[State] = None) -> None:
        """In the fresh state, or in a copy of a state."""
        if state is None:
            self._state = library.uart_fresh()
        else:
            self.state = state

    @property
    def state(self) -> State:
        """The state as it is now. Its fields can be set; the next step puts another State here."""
        return self._state

    @state.setter
    def state(self, state: State) -> None:
        if not isinstance(state, State):
            raise TypeError(f"a state is a State, not {type(state).__name__}")
        self._state = state.copy()

    @classmethod
    def from_numbers(cls, numbers: Iterable[int]) -> Uart:
        """The UART in the state of the 351 numbers of the text protocol."""
        return cls(State.from_numbers(numbers))

    def numbers(self) -> list[int]:
        """The 351 numbers of the text protocol: what `state` writes and `load` takes."""
        return self._state.numbers()

    def copy(self) -> Uart:
        """The UART as it is now, apart from this one."""
        return Uart(self._state)

    def __eq__(self, other: object) -> bool:
        if not isinstance(other, Uart):
            return NotImplemented
        return self._state == other._state

    __hash__ = None  # type: ignore[assignment]

    def __repr__(self) -> str:
        return f"Uart({self._state!r})"

    def __reduce__(self) -> tuple[type[Uart], tuple[State]]:
        return Uart, (self._state,)

    def _step(self, answer: Any) -> Any:
        self._state = _done(answer).state
        return answer

    def _counted(self, call: Any, n: int, *names: str) -> list[int]:
        """n ticks by a call, a piece at a time: of each of these numbers that it answers the sum."""
        sums = [0] * len(names)
        for answer in _ticked(call, self._state, n):
            sums = [total + getattr(answer, name) for total, name in zip(sums, names)]
        self._step(answer)
        return sums

    def reset(self) -> Outputs:
        """Reset; the output pins after it."""
        return self._step(library.uart_reset(self._state)).outputs

    def read(self, address: int) -> int:
        """The byte that a register read gives."""
        return self._step(library.uart_read(self._state, fits(address, 8, "an address"))).byte

    def write(self, address: int, byte: int) -> Outputs:
        """A register write; the output pins after it."""
        address, byte = fits(address, 8, "an address"), fits(byte, 8, "a byte")
        return self._step(library.uart_write(self._state, address, byte)).outputs

    def tick(self, n: int = 1) -> Outputs:
        """n ticks of the clock; the output pins after them."""
        for answer in _ticked(library.uart_ticks, self._state, n):
            pass
        return self._step(answer).outputs

    def forecast(self) -> int:
        """The ticks until queue and shift register are both empty."""
        return _done(library.uart_forecast(self._state)).ticks

    def level(self, t: int) -> int:
        """The level of the transmitter's line after t ticks."""
        return _done(library.uart_level(self._state, fits(t, 32, "a number of ticks"))).level

    def run(self, n: int) -> int:
        """At most n ticks, until queue and shift register are both empty: the ticks used."""
        return self._counted(library.uart_run, n, "used")[0]

    def jump(self, n: int) -> int:
        """n ticks by jumps from pulse to pulse: the jumps made. The state is that of n single ticks.

        A jump ends at a pulse, or at n when the rest falls short of one. For n 0 there is none; with
        divisor 0, where no pulse comes, one of all n ticks; with a divisor D above 0 at most
        2 + n // D."""
        return self._counted(library.uart_jump, n, "jumps")[0]

    def jump_run(self, n: int) -> JumpRan:
        """At most n ticks by jumps, until queue and shift register are both empty: the ticks used and the
        jumps made. Ticks and state are those of run.

        Before each jump it is looked whether queue and shift register are empty (LSR bit 6), so that
        there is none where they already are. With work left and divisor 0 there is one of all n ticks."""
        return JumpRan(*self._counted(library.uart_jump_run, n, "used", "jumps"))

    def replay(self, version: int, records: Iterable[int]) -> Optional[Difference]:
        """A replay of records of a capture from this state, up to the first read whose byte differs
        from the model's: None where all agree, else the Difference. The state is then the end state,
        or that before the read.

        The records are numbers of 32 bits: any iterable of them, or a buffer of 32-bit words, as
        array('I') or numpy's uint32. An iterable is asked for 512 at a time, also for those behind
        the place where it stops; one among these that is no such number is an error, and the state
        is then as it was. A capture's file with its header is for replay_file."""
        version = fits(version, 32, "a version")
        state = self._state
        before = 0
        for piece in itertools.chain([_NONE], _pieces(records)):
            replayed = library.uart_replay(state, version, piece, len(piece))
            state = replayed.state
            values = replayed.values
            if not _agreed(values):
                break
            before += len(piece)
        self._state = state
        return _difference(values, before)

    def replay_file(self, file: Capture, progress: Optional[Told] = None) -> Optional[Difference]:
        """A replay of a capture's file, a path or a file open for bytes, from the fresh state, whatever
        this one is: None where all reads agree, else the Difference. The state is then the end state,
        or that before the read or the bad record, the fresh one where the header is refused. It is
        as it was where the file cannot be read.

        The file is read a block at a time; `progress`, where given, is told after each, and at the
        end, where the records done are those before the place at which it stopped."""
        with _source(file) as opened:
            replayed = _replay_stream(opened, progress)
        self._state = replayed.state
        return _difference(replayed.values)

    def _expect(self, version: int, records: Iterable[int], room: Optional[int]) -> tuple[Any, Any]:
        """The words written, of which there is room for so many, and the library's last answer."""
        version = fits(version, 32, "a version")
        state = self._state
        words = array.array("I")
        for piece in itertools.chain([_NONE], _pieces(records)):
            most = len(piece) if room is None else min(len(piece), room - len(words))
            run = (ctypes.c_uint32 * most)()
            answer = library.uart_expect(state, version, piece, len(piece), run, most)
            words.frombytes(memoryview(run).cast("B")[: 4 * answer.count])
            state = answer.state
            if answer.number:
                break
        return words, answer

    def expect(self, version: int, records: Iterable[int]) -> array.array[int]:
        """The capture that is expected of an undisturbed chip in this state: each record as it stands,
        but a read with the model's byte, as an array of 32-bit words. The state is then the end state.
        A replay of the words from the state before agrees, and ends in the same state.

        The records are those that replay takes. A bad one is refused with its place, and the state is
        then that before it; expect_into keeps what was written up to there."""
        words, answer = self._expect(version, records, None)
        self._state = answer.state
        _written(answer, len(words))
        return words

    def expect_into(self, version: int, records: Iterable[int], words: Any) -> int:
        """The same, written into the first words of a buffer of 32-bit words, as array('I') or numpy's
        uint32: how many. Those beyond stay as they were. A record for which no word is left is refused
        with NO_ROOM. Where a record is refused, its place is the number of words written.

        The words are written at the end of the work: where it is broken off, they are as they were."""
        lent = _lent(words)
        written, answer = self._expect(version, records, len(lent) // 4)
        lent[: 4 * len(written)] = written.tobytes()
        self._state = answer.state
        return _written(answer, len(written))

    def expect_file(self, source: Capture, target: Capture, progress: Optional[Told] = None) -> int:
        """Writes the file that is expected of a capture's file, from the fresh state, whatever this one
        is: how many records. Each is a path or a file open for bytes. The state is then the end state.

        A bad record is refused with its place; what stands before it is then written, and the state is
        that before it. Where the header is refused nothing is written, a path is not opened, and the
        state is the fresh one. Where reading or writing fails, or the work is broken off, the state is
        as it was, and a part of the target may be written.

        The file is read a block at a time; `progress`, where given, is told after each, and at the
        end, where the records done are those written."""
        with _source(source) as opened:
            _check_target(target, opened)
            stands, count = _expect_stream(opened, target, progress)
        self._state = stands.state
        return _written(stands, count)

    @property
    def pins(self) -> Outputs:
        """The output pins as they are."""
        return _done(library.uart_pins(self._state)).outputs

    @property
    def sin(self) -> int:
        """The level of the pin SIN."""
        return self._state.inputs.sin

    @sin.setter
    def sin(self, level: int) -> None:
        self._step(library.uart_set_sin(self._state, fits(level, 8, "the level of SIN")))

    @property
    def modem(self) -> int:
        """The modem pins CTS, DSR, RI, DCD asserted in bits 0..3."""
        return self._state.inputs.modem

    @modem.setter
    def modem(self, levels: int) -> None:
        self._step(library.uart_set_modem(self._state, fits(levels, 8, "the modem pins")))
