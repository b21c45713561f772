"""The recorder's files: the letters UTR, a zero byte, a 16-bit version, a 16-bit zero, then 32-bit
records, all little-endian. A record's kind is in bits 31..28, what belongs to it below."""

import struct

VERSION = 1
TICKS, READ, WRITE, SIN, MODEM, RESET = range(6)
NAMES = ("ticks", "read", "write", "sin", "modem", "reset")
# The largest number of each field, in the order of a listing's line.
FIELDS = ((65535,), (7, 255), (7, 255), (1,), (15,), ())
# The bits that a kind's fields have; those between them and the kind are zero.
FIELD_BITS = (16, 11, 11, 1, 4, 0)
MOST_TICKS = FIELDS[TICKS][0]


def record(kind, *fields):
    """The word of a record; an address stands above its byte."""
    body = fields[0] << 8 | fields[1] if len(fields) == 2 else sum(fields)
    return kind << 28 | body


def ticks(count):
    """Records for any number of ticks: none for 0, more than one above 65535."""
    whole, rest = divmod(count, MOST_TICKS)
    return [record(TICKS, MOST_TICKS)] * whole + ([record(TICKS, rest)] if rest else [])


def header(version=VERSION, mark=b"UTR\0", pad=0):
    return mark + struct.pack("<HH", version, pad)


def pack(words):
    return struct.pack("<%dI" % len(words), *words)


def capture(words):
    """The file of these records."""
    return header() + pack(words)


def unpack(data):
    """The records of a file, without the bytes left over."""
    count = (len(data) - 8) // 4
    return struct.unpack("<%dI" % count, data[8:8 + 4 * count])


def parts(word):
    """A record's kind and fields, or None where it is bad."""
    kind, body = word >> 28, word & 0x0FFFFFFF
    if kind > RESET or body >> FIELD_BITS[kind]:
        return None
    return (kind,) + {0: (), 1: (body,), 2: (body >> 8, body & 255)}[len(FIELDS[kind])]
