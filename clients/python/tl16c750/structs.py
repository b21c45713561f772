"""The structs of the library, as tl16c750.h has them.

Every field is an unsigned number of 8, 32 or 64 bits, but for the signed error of a divisor, or an array
or a struct of such. A number that does not fit is refused at the assignment, and so is a name that is no
field. Structs are compared, printed, copied and pickled by their fields: padding is no part of them.
"""
from __future__ import annotations

import ctypes
import operator
from typing import Annotated, Any, Callable, ClassVar, Iterable, Iterator, TypeVar, get_type_hints

PLACES = 64
"""The places of each queue."""

U8 = Annotated[int, ctypes.c_uint8]
U32 = Annotated[int, ctypes.c_uint32]
I32 = Annotated[int, ctypes.c_int32]
Size = Annotated[int, ctypes.c_size_t]

S = TypeVar("S", bound="Struct")


def fits(value: Any, bits: int, what: str, signed: bool = False) -> int:
    """The value, where it is a number of so many bits; a TypeError or ValueError names it otherwise."""
    try:
        number = operator.index(value)
    except TypeError:
        raise TypeError(f"{what} is a number, not {type(value).__name__}") from None
    least, kind = (-1 << bits - 1, "signed number") if signed else (0, "number")
    if not least <= number < least + (1 << bits):
        raise ValueError(f"{what} is a {kind} of {bits} bits, not {number}")
    return number


def _field_spans(kind: Any, start: int = 0) -> Iterator[tuple[int, int]]:
    """Where the bytes of a type's fields stand, without its padding."""
    if issubclass(kind, ctypes.Array):
        for place in range(kind._length_):
            yield from _field_spans(kind._type_, start + place * ctypes.sizeof(kind._type_))
    elif issubclass(kind, ctypes.Structure):
        for name, field in kind._fields_:
            yield from _field_spans(field, start + getattr(kind, name).offset)
    else:
        yield start, start + ctypes.sizeof(kind)


def _joined(spans: Iterable[tuple[int, int]]) -> tuple[tuple[int, int], ...]:
    """The same, with those that touch made one."""
    joined: list[tuple[int, int]] = []
    for start, end in spans:
        if joined and joined[-1][1] == start:
            start = joined.pop()[0]
        joined.append((start, end))
    return tuple(joined)


def _rebuilt(kind: type[S], image: bytes) -> S:
    """The struct whose fields have these bytes."""
    if len(image) != sum(end - start for start, end in kind._spans):
        raise ValueError(f"these bytes are of another layout of {kind.__name__}")
    value = kind()
    raw = memoryview(value).cast("B")
    for start, end in kind._spans:
        raw[start:end], image = image[: end - start], image[end - start :]
    return value


class Struct(ctypes.Structure):
    """Numbers under names."""

    _kinds: ClassVar[dict[str, Any]] = {}
    _spans: ClassVar[tuple[tuple[int, int], ...]] = ()

    def __setattr__(self, name: str, value: Any) -> None:
        kind = self._kinds.get(name)
        if kind is None:
            raise AttributeError(f"{type(self).__name__} has no field {name!r}")
        if not issubclass(kind, (ctypes.Array, ctypes.Structure)):
            what = f"{type(self).__name__}.{name}"
            value = fits(value, 8 * ctypes.sizeof(kind), what, kind is ctypes.c_int32)
        elif not isinstance(value, kind) and (issubclass(kind, ctypes.Array) or isinstance(value, tuple)):
            value = kind(*value)
        super().__setattr__(name, value)

    def _image(self) -> bytes:
        """The bytes of the fields, without the padding between them."""
        raw = bytes(self)
        return b"".join(raw[start:end] for start, end in self._spans)

    def __eq__(self, other: object) -> bool:
        if type(other) is not type(self):
            return NotImplemented
        return self._image() == other._image()  # type: ignore[attr-defined]

    __hash__ = None  # type: ignore[assignment]

    def __repr__(self) -> str:
        fields = ", ".join(f"{name}={getattr(self, name)!r}" for name in self._kinds)
        return f"{type(self).__name__}({fields})"

    def __reduce__(self) -> tuple[Callable[..., Any], tuple[Any, ...]]:
        return _rebuilt, (type(self), self._image())

    def copy(self: S) -> S:
        """The same numbers, apart from these."""
        return _rebuilt(type(self), self._image())


def _struct(kind: type[S]) -> type[S]:
    """The struct whose fields are the class's annotations, in their order."""
    hints = get_type_hints(kind, include_extras=True)
    fields = [
        (name, getattr(hint, "__metadata__", (hint,))[0])
        for name, hint in hints.items()
        if name not in ("_kinds", "_spans")
    ]
    kind._fields_ = fields
    kind._kinds = dict(fields)
    kind._spans = _joined(_field_spans(kind))
    return kind


class Places:
    """The 64 places of a queue; compared by what stands in them, printed up to the last that is not
    empty."""

    def _fitted(self, value: Any) -> Any:
        """The value, where a place can have it."""
        raise NotImplementedError

    def __setitem__(self, index: Any, value: Any) -> None:
        if isinstance(index, slice):
            value = [self._fitted(item) for item in value]
        else:
            value = self._fitted(value)
        super().__setitem__(index, value)  # type: ignore[misc]

    def __setattr__(self, name: str, value: Any) -> None:
        raise AttributeError(f"{type(self).__name__} has places and no field {name!r}")

    def __eq__(self, other: object) -> bool:
        if type(other) is not type(self):
            return NotImplemented
        return bytes(self) == bytes(other)  # type: ignore[call-overload]

    __hash__ = None  # type: ignore[assignment]

    def __repr__(self) -> str:
        used = list(self)  # type: ignore[call-overload]
        empty = type(self)()[0]  # type: ignore[index]
        while used and used[-1] == empty:
            used.pop()
        return repr(used)


class Bytes(Places, ctypes.c_uint8 * PLACES):  # type: ignore[misc]
    """The places of the transmit queue."""

    def _fitted(self, value: Any) -> int:
        return fits(value, 8, "a queued byte")


@_struct
class Registers(Struct):
    """The registers that keep what is written to them."""

    ier: U8
    mcr: U8
    lcr: U8
    scr: U8


@_struct
class Baud(Struct):
    """The baud generator: the divisor, and the ticks to the next pulse."""

    divisor: U32
    k: U32


@_struct
class FifoControl(Struct):
    """What FCR sets: FIFO on, size bit (1 is 64), DMA bit, trigger code."""

    enabled: U8
    size: U8
    dma: U8
    trigger: U8


@_struct
class Inputs(Struct):
    """The input pins: CTS, DSR, RI, DCD asserted in bits 0..3; the level of SIN."""

    modem: U8
    sin: U8


@_struct
class ByteQueue(Struct):
    """The transmit queue: oldest first, places beyond the count zero."""

    bytes: Bytes
    count: U32


@_struct
class Frame(Struct):
    """The transmitter shift register: pulses left of the frame now sent, its byte and format."""

    left: U32
    byte: U8
    format: U8


@_struct
class Entry(Struct):
    """A received character with its error flags, each 0 or 1; with FIFO off they are 0."""

    byte: U8
    pe: U8
    fe: U8
    bi: U8


class Entries(Places, Entry * PLACES):  # type: ignore[misc, valid-type, operator]
    """The places of the receive queue; each takes an Entry, or a tuple of its fields."""

    def _fitted(self, value: Any) -> Any:
        return Entry(*value) if isinstance(value, tuple) else value


@_struct
class EntryQueue(Struct):
    """The receive queue: oldest first, places beyond the count zero."""

    entries: Entries
    count: U32


@_struct
class Receiver(Struct):
    """The receiver: 0 idle, 1 waiting for mark, 2 in a character, with what of it is sampled."""

    phase: U8
    format: U8
    samples: U8
    parity: U8
    position: U32


@_struct
class Latches(Struct):
    """The latches, the change bits of MSR (bits 0..3: CTS, DSR, RI, DCD), RTS hold, the idle count."""

    empty: U8
    overrun: U8
    timeout: U8
    changes: U8
    hold: U8
    idle: U32


@_struct
class Errors(Struct):
    """The errors of character mode, each 0 or 1: a character that arrives adds its own, a read of RBR leaves
    them, a read of LSR clears them. With FIFO on they are 0, and the errors are the entries' own."""

    pe: U8
    fe: U8
    bi: U8


# The order of the numbers of a state in the text protocol of the program `calls`.
_ORDER = """
    registers.ier registers.mcr registers.lcr registers.scr baud.divisor baud.k
    fifo.enabled fifo.size fifo.dma fifo.trigger inputs.modem inputs.sin
    tx.count tx.bytes frame.left frame.byte frame.format rx.count rx.entries
    receiver.phase receiver.position receiver.format receiver.samples receiver.parity
    latches.empty latches.overrun latches.timeout latches.idle latches.changes latches.hold
    kept.pe kept.fe kept.bi
""".split()


@_struct
class State(Struct):
    """A state of the UART. Any numbers may stand in it: a state that is not well formed is refused
    by every call."""

    registers: Registers
    baud: Baud
    fifo: FifoControl
    inputs: Inputs
    tx: ByteQueue
    frame: Frame
    rx: EntryQueue
    receiver: Receiver
    latches: Latches
    kept: Errors

    def numbers(self) -> list[int]:
        """The 351 numbers of the text protocol: what `state` writes and `load` takes."""
        numbers: list[int] = []
        for path in _ORDER:
            value = operator.attrgetter(path)(self)
            if isinstance(value, Bytes):
                numbers.extend(value)
            elif isinstance(value, Entries):
                for entry in value:
                    numbers.extend((entry.byte, entry.pe, entry.fe, entry.bi))
            else:
                numbers.append(value)
        return numbers

    @classmethod
    def from_numbers(cls, numbers: Iterable[int]) -> State:
        """The state of the 351 numbers of the text protocol. A number that the field's type cannot
        hold is a ValueError."""
        given = list(numbers)
        state = cls()
        count = len(state.numbers())
        if len(given) != count:
            raise ValueError(f"a state is {count} numbers, not {len(given)}")
        left = iter(given)
        for path in _ORDER:
            part, name = path.split(".")
            struct = getattr(state, part)
            if name == "bytes":
                struct.bytes = [next(left) for _ in range(PLACES)]
            elif name == "entries":
                struct.entries = [Entry(*(next(left) for _ in range(4))) for _ in range(PLACES)]
            else:
                setattr(struct, name, next(left))
        return state


@_struct
class Outputs(Struct):
    """The output pins: SOUT and INTRPT 1 is high; the others 1 is asserted."""

    sout: U8
    rts: U8
    dtr: U8
    out1: U8
    out2: U8
    intrpt: U8


@_struct
class Answer(Struct):
    """What a step answers: the byte read, the pins after it, the next state."""

    number: U8
    byte: U8
    outputs: Outputs
    state: State
    part: U8


@_struct
class Looked(Struct):
    """What the look at the pins answers."""

    number: U8
    part: U8
    outputs: Outputs


@_struct
class Forecasted(Struct):
    """What the forecast answers: the ticks until queue and shift register are both empty."""

    number: U8
    part: U8
    ticks: U32


@_struct
class Leveled(Struct):
    """What the call for the line's level answers."""

    number: U8
    part: U8
    level: U8


@_struct
class Ran(Struct):
    """What run answers: the ticks used, and the state after them."""

    number: U8
    part: U8
    used: U32
    state: State


@_struct
class Jumped(Struct):
    """What ticks by jumps answer: the jumps made, and the state after them."""

    number: U8
    part: U8
    jumps: U32
    state: State


@_struct
class JumpRan(Struct):
    """What run by jumps answers: the ticks used, the jumps made, and the state after them."""

    number: U8
    part: U8
    used: U32
    jumps: U32
    state: State


@_struct
class Values(Struct):
    """How a replay ended: number and part, the byte seen, the model's byte, the record's place."""

    number: U8
    part: U8
    seen: U8
    model: U8
    place: Size


@_struct
class Replayed(Struct):
    """What a replay answers: how it ended, and the state in which it did."""

    values: Values
    state: State


@_struct
class Progress(Struct):
    """Where a file stands: its version, what stopped it (0 nothing so far, 1 a read that differs, 2 a
    refusal) and how, the records given so far, the state."""

    version: U32
    stopped: U8
    done: Size
    values: Values
    state: State


@_struct
class Expected(Struct):
    """What the writer of a capture answers: the words written, and the state after these records."""

    number: U8
    part: U8
    count: Size
    state: State


@_struct
class ExpectProgress(Struct):
    """Where a file that is written anew stands: the number of a refusal (0: going on), its version, the
    records that the last call wrote, the state."""

    number: U8
    part: U8
    version: U32
    count: Size
    state: State


@_struct
class Picked(Struct):
    """What the call for a divisor answers: the divisor, and its error in parts per million."""

    number: U8
    divisor: U32
    error: I32


@_struct
class Sizes(Struct):
    """The library's own size of each struct, in bytes."""

    state: U32
    answer: U32
    looked: U32
    forecasted: U32
    leveled: U32
    ran: U32
    replayed: U32
    progress: U32
    picked: U32
    expected: U32
    expect_progress: U32
    jumped: U32
    jump_ran: U32


@_struct
class Versions(Struct):
    """The library's version, and that of the layout of its structs."""

    major: U32
    minor: U32
    patch: U32
    layout: U32
