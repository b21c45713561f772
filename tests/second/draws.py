"""Random scripts for `calls` and random captures for `replay` and `expect`.

Scripts: random well-formed states near boundaries with steps after them, sequences as a driver would
write them, characters on SIN with and without errors, errors kept in character mode, forecasts with
levels and runs around them, jumps, replays, expected captures, states damaged in one part or two,
divisors for rates, lines of wrong form.
Captures: the same steps as records, most of them as they are, the others damaged.

pick(n) gives a random number from 0 to n - 1. The bytes of reads in records come from a recorder;
those of which the expected ones are asked are guesses.
"""

import divisors
import states as st
from recorder import Guesser, utr
from steps import Lines

BIG = 4294967295
MOST_WORDS = 1024


# ---- Single calls ----

READS = tuple("read %d" % a for a in (0, 0, 0, 1, 2, 2, 2, 3, 4, 5, 5, 5, 6, 6, 7))

FCR_BYTES = (0x00, 0x01, 0x01, 0x03, 0x05, 0x07, 0x07, 0x41, 0x81, 0xC1, 0x21, 0xE1, 0x27, 0x09,
             0xC0, 0x06, 0x61, 0xA3)
MCR_BYTES = (0x00, 0x02, 0x10, 0x12, 0x20, 0x22, 0x30, 0x32, 0x3F, 0x1F, 0x14, 0x0B, 0x0F)
IER_BYTES = (0x00, 0x01, 0x02, 0x04, 0x08, 0x0F, 0x0D, 0x03, 0xFF)


def write_op(pick, s):
    chance = pick(16)
    if s[st.LCR] & 0x80 and chance < 3:  # the divisor's byte as it is
        a = pick(2)
        return "write %d %d" % (a, s[st.DIVISOR] >> 8 * a & 255)
    if chance < 4:
        return "write 0 %d" % st.random_byte(pick)
    if chance < 6:
        return "write 1 %d" % (IER_BYTES[pick(len(IER_BYTES))] if pick(3) else pick(256))
    if chance < 9:
        return "write 2 %d" % (FCR_BYTES[pick(len(FCR_BYTES))] if pick(3) else pick(256))
    if chance < 11:
        byte = st.random_lcr(pick) if pick(3) else pick(256)
        return "write 3 %d" % (s[st.LCR] ^ 0x80 if pick(3) == 0 else byte)
    if chance < 14:
        return "write 4 %d" % (MCR_BYTES[pick(len(MCR_BYTES))] if pick(3) else pick(256))
    return "write %d %d" % (5 + pick(3), pick(256))


def tick_count(pick, s):
    """Ticks to or around a pulse, a bit, a character, a time-out; few where D is large."""
    d = s[st.DIVISOR]
    if d == 0:
        return 1 + pick(20)
    if d > 300:
        return max(1, min(65535, (s[st.K] - 1, s[st.K], 1, d)[pick(4)]))
    chance = pick(12)
    if chance < 3:
        return max(1, s[st.K] - pick(2))
    if chance < 5:
        return d
    if chance < 7:
        return d * (1 + pick(16))
    if chance == 7:
        return 16 * d
    if chance == 8 and d < 20:
        return d * st.frame_length(s[st.LCR])
    if chance == 9 and d < 4:
        return d * (4 * st.frame_length(s[st.LCR]) + pick(3) - 1)
    return 1 + pick(40)


def tick_op(pick, s):
    if pick(2):
        return "tick"
    return "ticks %d" % tick_count(pick, s)


def level_time(pick, s):
    """A time for `level` near the start, the end, a bit's edge, or anywhere."""
    t = st.forecast(s) or 0
    d = s[st.DIVISOR]
    chance = pick(8)
    if chance == 0:
        return pick(3)
    if chance == 1:
        return s[st.K] + pick(3) - (1 if s[st.K] else 0)
    if chance == 2:
        return max(0, t + pick(3) - 1)
    if chance == 3:
        return BIG - pick(2)
    if chance == 4 and d:
        edge = s[st.K] + (s[st.L] + 16 * pick(30)) * d
        return max(0, edge + pick(3) - 1)
    if chance == 5:
        return pick(BIG + 1)
    return pick(t + 2)


def run_count(pick, s):
    """N around T where that is near enough, else small."""
    t = st.forecast(s)
    if t is None or t > 40000:
        return pick(300)
    return max(0, (0, 1, t - 1, t, t + 1, pick(t + 2))[pick(6)])


# The most pulses that one jump or run may have to make.
MOST_PULSES = 70000


def jump_count(pick, s):
    """N around 0, a pulse or T; or large: the most there are, or any number, where D is large or 0."""
    d = s[st.DIVISOR]
    chance = pick(12)
    if chance < 2:
        return pick(3)
    if chance < 7:
        return max(0, s[st.K] + pick(5) * d + pick(3) - 1)
    if chance < 9:
        return max(0, (st.forecast(s) or 0) + pick(3) - 1)
    if d == 0 or d * MOST_PULSES >= BIG:
        return (BIG, BIG, BIG - 1, pick(BIG + 1))[pick(4)]
    return pick(d * (10, 200, 4000)[chance - 9])


def jump_op(pick, s):
    return "%s %d" % (("jump", "jumprun")[pick(2)], jump_count(pick, s))


def value_op(pick, s):
    chance = pick(6)
    if chance == 0:
        return "forecast"
    if chance < 4:
        return "level %d" % level_time(pick, s)
    return "run %d" % run_count(pick, s)


def refused_op(pick):
    return ("read %d" % (8 + pick(248)), "write %d %d" % (8 + pick(248), pick(256)),
            "sin %d" % (2 + pick(254)), "modem %d" % (16 + pick(240)))[pick(4)]


BAD_JUMPS = (
    "jump", "jump ", "jump x", "jump 00", "jump 01", "jump  1", "jump 1 ", "jump 1 2", "jump -1",
    "jump 4294967296", "Jump 1", "jumps 1", "jump run 1", "jumprun", "jumprun ", "jumprun x", "jumprun 00",
    "jumprun  1", "jumprun 1 ", "jumprun 1 2", "jumprun +1", "jumprun 4294967296", "jumpruns 1", "jump1",
)
BAD_LINES = (
    "", " ", "tick ", " tick", "tick\r", "tick\t", "Tick", "ticks", "ticks 0", "ticks  1",
    "ticks 01", "ticks 1 1", "ticks -1", "ticks +1", "ticks 4294967296", "read", "read ",
    "read 256", "read 00", "read 1x", "read x", "read 0x1", "write 1", "write 1 2 3",
    "write 0 256", "write 256 0", "sin", "sin 1 ", "sin 256", "modem 256", "modem\t1", "level",
    "level 4294967296", "level " + "9" * 40, "level 18446744073709551617", "run", "run 00",
    "run 1.0", "load", "load 0", "pins 0", "forecast 1", "state 0", "reset 0", "fresh ",
    "fresh\0", "\0", "read\0001", "load " + "0 " * st.PLACES, "load " + "0 " * (st.PLACES - 2) + "0",
    "load " + "0 " * st.PLACES + "0", "load " + "0 " * (st.PLACES - 1) + "4294967296", "x" * 4000,
    "level 00000000000000000001", "\xff", "tick\x0b", "quit", "# note",
    "replay", "replay 65536", "replay 1 ", "replay 01", "replay 1 4294967296", "replay 1 00",
    "replay 1" + " 0" * 1025, "replay 1" + " 4294967295" * 1025, "part 0", "part ", "parts",
    "divisor", "divisor ", "divisor 1", "divisor 1 ", "divisor 1 2 ", "divisor 1 2 3", "divisor  1 2",
    "divisor 01 2", "divisor 1 02", "divisor -1 2", "divisor 4294967296 1", "divisor 1 4294967296",
    "divisors 1 2",
    "expect", "expect ", "expect 1", "expect 1 ", "expect 1 1025", "expect 65536 1", "expect 1 0 ",
    "expect 01 0", "expect 1 00", "expect 1 0 00", "expect 1 -1", "expect  1 0", "expect 1  0",
    "expect 1 0 4294967296", "expect 1 4294967296 0", "expect 1 0" + " 0" * 1025,
    "expect 65535 1024" + " 4294967295" * 1025, "expected 1 0", *BAD_JUMPS,
)


def any_op(pick, s):
    """One call of any kind."""
    chance = pick(66)
    if chance < 14:
        return READS[pick(len(READS))]
    if chance < 32:
        return write_op(pick, s)
    if chance < 46:
        return tick_op(pick, s)
    if chance < 50:
        return "sin %d" % pick(2)
    if chance < 54:
        return "modem %d" % pick(16)
    if chance < 57:
        return value_op(pick, s)
    if chance < 58:
        return "pins"
    if chance < 59:
        return "part"
    if chance < 60:
        return "state"
    if chance < 61:
        return "reset" if pick(3) == 0 else "tick"
    if chance < 62:
        return refused_op(pick)
    if chance < 64:
        return divisors.line(*divisors.draw(pick))
    return BAD_LINES[pick(len(BAD_LINES))]


# ---- Segments: each starts with `fresh` or `load` ----

def boundary_segment(pick, lines):
    """A state near boundaries, then calls of every kind."""
    s = st.random_state(pick)
    lines.append(st.load_line(s))
    for _ in range(3 + pick(20)):
        lines.append(any_op(pick, s))
    lines.append("state")


def one_step_segment(pick, lines):
    """A state near boundaries, one step, and what became of it."""
    s = st.random_state(pick)
    lines.append(st.load_line(s))
    chance = pick(8)
    if chance < 3:
        lines.append("ticks %d" % max(1, s[st.K]))
    elif chance < 4:
        lines.append(READS[pick(len(READS))])
    elif chance < 7:
        lines.append(write_op(pick, s))
    else:
        lines.append(("modem %d" % pick(16), "sin %d" % pick(2), "reset")[pick(3)])
    lines += ("read 5", "read 2") if pick(2) else ("pins", "read 6")
    lines.append("state")


def foretell_segment(pick, lines):
    """Forecast, levels and runs of one state, with ticks between."""
    s = st.random_state(pick)
    if pick(2) and s[st.L] == 0 and s[st.TX_COUNT] == 0:
        st.random_frame(s, pick)
    lines.append(st.load_line(s))
    lines.append("forecast")
    for _ in range(2 + pick(12)):
        lines.append("level %d" % level_time(pick, s))
    if pick(2):
        lines.append(tick_op(pick, s))
        lines.append("forecast")
        lines.append("level %d" % level_time(pick, s))
    lines.append("run %d" % run_count(pick, s))
    lines.append("pins")
    lines.append("forecast")
    lines.append("state")


JUMP_DIVISORS = (65535, 65535, 65534, 61357, 0)
BETWEEN_JUMPS = ("read 0", "read 2", "read 5", "read 6", "pins", "forecast", "forecast", "state", "state",
                 "sin 0", "sin 1", "modem 0", "modem 1", "write 0 65", "write 2 7", "tick", "part")


def jump_segment(pick, lines):
    """Jumps and runs over them, with other calls or lines of wrong form between, from a state near
    boundaries; often at a large divisor, at which many ticks make few pulses, or with nothing to send.
    No call between them moves the divisor."""
    s = st.random_state(pick)
    s[st.LCR] &= 0x7F
    if pick(3) == 0:
        d = s[st.DIVISOR] = JUMP_DIVISORS[pick(len(JUMP_DIVISORS))]
        s[st.K] = d and (1, d, 1 + pick(d))[pick(3)]
    if pick(5) == 0:
        st.set_queue(s, [])
        st.with_frame(s, 0, 0, 0)
    lines += (st.load_line(s), jump_op(pick, s), "state")
    for _ in range(pick(5)):
        between = BAD_JUMPS if pick(8) == 0 else BETWEEN_JUMPS
        lines += (jump_op(pick, s), between[pick(len(between))])
    lines.append("state")


BETWEEN_TICKS = ("sin 0", "sin 1", "sin 1", "modem 0", "modem 1", "write 0 65", "write 0 255", "write 4 16",
                 "write 4 0", "write 4 50", "write 3 31", "read 0", "read 5", "pins")


def ticks_segment(pick, lines):
    """Many ticks at once from a state near boundaries, at a small divisor: as many as a few pulses,
    a character, a time-out or several of them take. Little between them moves what goes on."""
    s = st.random_state(pick)
    s[st.LCR] &= 0x7F
    d = s[st.DIVISOR] = (1, 1, 2, 3, 12)[pick(5)]
    s[st.K] = 1 + pick(d)
    lines.append(st.load_line(s))
    for _ in range(1 + pick(6)):
        most = d << (1 + pick(13))
        lines += ("ticks %d" % (1 + pick(most)), "state")
        if pick(2):
            lines.append(BETWEEN_TICKS[pick(len(BETWEEN_TICKS))])


def put_character(pick, lines, lcr, divisor):
    """A character on SIN, with or without an error."""
    bits = st.frame_bits(st.random_byte(pick), lcr)
    chance = pick(12)
    if chance == 0:  # stop low
        bits[-1] = 0
    elif chance == 1:  # parity bit or last data bit the other way
        bits[-2] ^= 1
    elif chance == 2:  # break
        bits = [0] * (len(bits) + pick(3))
    elif chance == 3:  # too short for a start bit, or just long enough
        lines.append("sin 0")
        lines.append("ticks %d" % ((7 + pick(4)) * divisor))
        bits = [1] * (1 + pick(11))
    elif chance == 4:  # another format than the receiver's
        bits = st.frame_bits(st.random_byte(pick), pick(64))
    if pick(6) == 0:
        bits.append(1)
    Lines(lines).bits(bits, divisor)


def put_setup(pick, lines, divisor, lcr):
    """What a driver writes first."""
    if pick(3) == 0:
        lines.append("modem %d" % pick(16))
    lines.append("write 3 128")
    lines.append("write 0 %d" % (divisor & 255))
    if divisor > 255 or pick(4) == 0:
        lines.append("write 1 %d" % (divisor >> 8))
    if pick(4):
        lines.append("write 2 %d" % (FCR_BYTES[pick(len(FCR_BYTES))] | 1))
    lines.append("write 3 %d" % lcr)
    lines.append("write 1 %d" % IER_BYTES[pick(len(IER_BYTES))])
    lines.append("write 4 %d" % (MCR_BYTES[pick(len(MCR_BYTES))] if pick(2) else 0))


def driver_segment(pick, lines):
    """From fresh: set up, then send, receive, read and write as a driver would."""
    divisor = (1, 1, 1, 2, 3)[pick(5)]
    lcr = st.random_lcr(pick) & 0x7F
    frame = st.frame_length(lcr)
    lines.append("fresh")
    put_setup(pick, lines, divisor, lcr)
    for _ in range(4 + pick(12)):
        chance = pick(16)
        if chance < 4:
            for _ in range(1 + pick(4)):
                lines.append("write 0 %d" % st.random_byte(pick))
            lines.append("ticks %d" % (divisor * (1 + pick(2 * frame))))
        elif chance < 8:
            put_character(pick, lines, lcr, divisor)
        elif chance < 9:
            lines.append("ticks %d" % (divisor * (4 * frame + pick(5) - 3)))
            lines.append("read 2")
        elif chance < 12:
            lines += ("read 5", "read 0", "read 2", "read 6")
        elif chance < 13:
            lines.append("write 2 %d" % FCR_BYTES[pick(len(FCR_BYTES))])
        elif chance < 14:
            lines.append("write 4 %d" % MCR_BYTES[pick(len(MCR_BYTES))])
        elif chance < 15:
            lines.append("modem %d" % pick(16))
        else:
            lines += ("forecast", "run %d" % pick(1000), "pins")
    lines.append("state")


def line_segment(pick, lines):
    """Characters on SIN into a queue that is nearly full or near its trigger."""
    s = st.random_state(pick)
    s[st.DIVISOR], s[st.K] = 1, 1
    if pick(3):
        s[st.MCR] &= ~0x10
        st.settle(s)
    if pick(2):
        s[st.RX_STATE:st.RX_PARITY + 1] = [0] * 5
    lines.append(st.load_line(s))
    for _ in range(1 + pick(4)):
        put_character(pick, lines, s[st.LCR], 1)
        chance = pick(6)
        if chance < 3:
            lines.append(("read 5", "read 2", "read 0")[chance])
        elif chance == 3:
            lines.append(any_op(pick, s))
    lines.append("state")


def bad_bits(pick, lcr):
    """The bits of a character with parity or stop wrong, or of a break; of a good one now and then."""
    byte = st.random_byte(pick)
    return (st.with_flipped_parity(byte, lcr), st.with_low_stop(byte, lcr),
            [0] * len(st.frame_bits(0, lcr)) + [1], st.frame_bits(byte, lcr))[pick(4)]


KEPT_OPS = ("read 0", "read 0", "read 5", "read 2", "pins", "state", "part", "write 2 0", "write 2 6",
            "write 2 1", "write 1 4", "reset")


def kept_segment(pick, lines):
    """Bad characters in character mode, from a state that keeps errors or not, or has one where its
    mode or its range allows none."""
    s = st.clocked(st.random_lcr(pick) & 0x3F | (0x08 if pick(3) else 0))
    st.set_entries(s, [(st.random_byte(pick), 0, 0, 0)] * pick(2))
    st.random_kept(s, pick)
    s[st.IER], s[st.OE] = pick(16), pick(2)
    if pick(8) == 0:
        s[(st.KEPT, st.RX + 1)[pick(2)] + pick(3)] = 1 + pick(2)
        s[st.FIFO_ON] = pick(2)
    lines.append(st.load_line(s))
    for _ in range(1 + pick(5)):
        Lines(lines).bits(bad_bits(pick, s[st.LCR]))
        for _ in range(pick(3)):
            lines.append(KEPT_OPS[pick(len(KEPT_OPS))])
    lines += ("read 2", "read 0", "read 5", "state")


def loop_segment(pick, lines):
    """Queued bytes through loopback, LCR sometimes written in the middle."""
    s = st.random_state(pick)
    s[st.DIVISOR] = 1 + pick(2)
    s[st.K] = s[st.DIVISOR]
    s[st.MCR] = 0x10 | (s[st.MCR] & 0x2F)
    if pick(2):
        s[st.MCR] |= 0x02
    st.settle(s)
    if pick(2):
        s[st.RX_STATE:st.RX_PARITY + 1] = [0] * 5
    lines.append(st.load_line(s))
    if s[st.LCR] & 0x80:
        lines.append("write 3 %d" % (s[st.LCR] & 0x7F))
    for _ in range(1 + pick(3)):
        lines.append("write 0 %d" % st.random_byte(pick))
    for _ in range(2 + pick(6)):
        chance = pick(8)
        if chance == 0:
            lines.append(write_op(pick, s))
        elif chance < 3:
            lines.append(READS[pick(len(READS))])
        elif chance < 6:
            lines.append("ticks %d" % (s[st.DIVISOR] * (1 + pick(180))))
        else:
            lines.append("ticks %d" % (s[st.DIVISOR] * 16))
    lines.append("state")


MORE = (1, 2, 16, 256, 256, 65536, 65536, 1 << 24, 1 << 31, BIG)


def damaged_segment(pick, lines):
    """A state that is not well formed, in one range or two, in one place too wide, or in both."""
    chance = pick(8)
    s = st.damaged_state(pick)[0] if chance < 6 else st.random_state(pick)
    if chance > 4:
        place = st.SINGLES[pick(len(st.SINGLES))] if pick(4) else pick(st.PLACES)
        st.beyond_width(s, place, MORE[pick(len(MORE))])
    lines += (st.load_line(s), "part")
    for _ in range(1 + pick(3)):
        chance = pick(8)
        if chance < 4:
            lines.append(any_op(pick, s))
        else:
            lines.append(("pins", "forecast", "tick", "reset")[chance - 4])
    if pick(3) == 0:
        lines.append("state")


def refused_segment(pick, lines):
    """Two reasons to refuse at once, or one beside states where it just fails to hold."""
    s = st.random_state(pick)
    if pick(2):
        s[st.DIVISOR] = s[st.K] = 0
    if pick(2):
        s[st.FIFO_ON] = 1
        s[st.MCR] = (s[st.MCR] | 0x20) & ~0x02 if pick(2) else s[st.MCR] | 0x20
        s[st.MODEM] &= ~1
        st.settle(s)
    if pick(3) == 0:
        s = st.EDGES[pick(len(st.EDGES))].damage(s) or s
    lines.append(st.load_line(s))
    lines += ("forecast", "level 0", "level %d" % level_time(pick, s))
    lines.append(refused_op(pick))
    lines.append("run %d" % pick(200))
    lines.append("forecast")
    if pick(2):
        lines.append("state")


SEGMENTS = ((boundary_segment,) * 5 + (one_step_segment,) * 5 + (driver_segment,) * 3 +
            (line_segment,) * 2 + (loop_segment,) * 2 + (kept_segment,) * 2 + (foretell_segment,) * 2 +
            (damaged_segment,) * 3 + (refused_segment,))


# ---- Records ----

RECORDED = ("tick", "ticks", "read", "write", "sin", "modem", "reset")
SOURCES = (driver_segment,) * 4 + (boundary_segment, line_segment, kept_segment, loop_segment)


def is_recorded(line):
    """A step that a record can hold: of right form and not refused."""
    name, *numbers = line.split(" ")
    if name not in RECORDED or line in BAD_LINES:
        return False
    most = {"read": 7, "write": 7, "sin": 1, "modem": 15}.get(name, BIG)
    return not numbers or int(numbers[0]) <= most


def record_steps(pick, recorder, most):
    """The steps of some segments, one after the other, without their own starts."""
    while len(recorder.records) < most:
        lines = []
        SOURCES[pick(len(SOURCES))](pick, lines)
        if pick(6) == 0:
            recorder.reset()
        if pick(6) == 0:
            recorder.records.append(utr.record(utr.TICKS, 0))
        for line in filter(is_recorded, lines):
            recorder.step(line)
    return recorder.taken()[:most]


def bad_record(pick, word):
    """A bad kind, or a stray bit in the record or in one of any kind."""
    if pick(3) == 0:
        return (6 + pick(10)) << 28 | (word & 0x0FFFFFFF if pick(2) else 0)
    if pick(2) or word >> 28 > utr.RESET:
        word = pick(6) << 28
    least = utr.FIELD_BITS[word >> 28]
    return word | 1 << (least, 27, least + pick(28 - least))[pick(3)]


def damage_record(pick, words):
    """A read's byte, a stray bit, a bad kind, or any word, somewhere or at the end."""
    place = len(words) - 1 if pick(4) == 0 else pick(len(words))
    if pick(3):
        reads = [i for i in range(place, len(words)) if words[i] >> 28 == utr.READ]
        if reads:
            words[reads[0]] ^= 1 << pick(8)
    elif pick(4):
        words[place] = bad_record(pick, words[place])
    else:
        words[place] = pick(BIG + 1)


def unknown_version(pick):
    return (0, 2, 3, 256, 257, 65535)[pick(6)]


def random_start(pick):
    return "fresh" if pick(3) == 0 else st.load_line(st.random_state(pick))


def line_size(pick):
    """Records of a line."""
    return (1 + pick(5), pick(40), pick(300), MOST_WORDS - pick(2))[pick(4)]


def words_line(name, *numbers):
    return " ".join(map(str, (name, *numbers)))


def replay_segment(recorder):
    """Replays from a state near boundaries or from fresh, most of them agreed."""
    def segment(pick, lines):
        start = random_start(pick)
        recorder.start(start)
        words = record_steps(pick, recorder, line_size(pick))
        for _ in range(pick(3) if words else 0):
            damage_record(pick, words)
        version = utr.VERSION if pick(12) else unknown_version(pick)
        lines += (start, words_line("replay", version, *words), "state")
    return segment


def room_for(pick, words):
    """None, few, as many words as records, more; often as many as stand before a bad one."""
    bad = [place for place, word in enumerate(words) if utr.parts(word) is None]
    reached = bad[0] if bad else len(words)
    return min(MOST_WORDS, (0, pick(len(words) + 1), len(words), len(words) + pick(20), reached,
                            reached, reached + pick(2), max(0, reached - 1))[pick(8)])


def expect_segment(pick, lines):
    """Expected captures from a state near boundaries or from fresh, the records' reads guesses; then of
    no records, with numbers at the ends of their ranges and beyond."""
    words = record_steps(pick, Guesser(lambda: pick(256)), line_size(pick))
    for _ in range(pick(3) if words else 0):
        place = pick(len(words))
        words[place] = bad_record(pick, words[place])
    version = utr.VERSION if pick(12) else unknown_version(pick)
    lines += (random_start(pick), words_line("expect", version, room_for(pick, words), *words),
              words_line("expect", (1, 1, 0, 2, 65535, 65536)[pick(6)],
                         (0, 0, 1, MOST_WORDS, MOST_WORDS + 1)[pick(5)]), "state")


def longest_segment(pick, lines):
    """The longest lines there are, or with a word more."""
    words = [BIG] * (MOST_WORDS + pick(2))
    lines += (random_start(pick), words_line("replay", 65535, *words),
              words_line("expect", 65535, MOST_WORDS, *words))


def damaged_calls_segment(pick, lines):
    """Replays, expected captures and jumps of damaged states."""
    damaged_segment(pick, lines)
    lines += ("replay %d" % pick(3), "replay %d %d" % (pick(3), pick(BIG + 1)),
              "expect %d %d" % (pick(3), pick(3)),
              "expect %d %d %d" % (pick(3), pick(3), pick(BIG + 1)),
              "jump %d" % pick(9), "jumprun %d" % pick(9), "state")


def draw_script(pick, size, recorder):
    segments = SEGMENTS + ((replay_segment(recorder),) * 4 + (expect_segment,) * 4 + (jump_segment,) * 4 +
                           (ticks_segment,) * 4 + (damaged_calls_segment, longest_segment))
    lines = []
    while len(lines) < size:
        segments[pick(len(segments))](pick, lines)
    return lines


# ---- Captures ----

BLOCK = 8192


def capture_size(pick):
    """Records: few, some, around a block of the program's, now and then several blocks."""
    chance = pick(40)
    if chance < 24:
        return pick((3, 20, 100)[pick(3)]) + pick(2)
    if chance < 36:
        return 100 + pick(1000)
    if chance < 39:
        return BLOCK - 2 + pick(5)
    return BLOCK + pick(2 * BLOCK)


def damage_header(pick, data):
    """An unknown version, or one or two bits of any of its bytes."""
    if pick(3) == 0:
        return utr.header(unknown_version(pick)) + data[8:]
    damaged = bytearray(data)
    for _ in range(1 + pick(2)):
        damaged[pick(8)] ^= 1 << pick(8)
    return bytes(damaged)


def draw_difference(pick, recorder):
    """A file in which a read's byte is not the model's; behind it anything may follow."""
    reads = []
    while not reads:
        recorder.start()
        words = record_steps(pick, recorder, capture_size(pick))
        reads = [i for i, word in enumerate(words) if word >> 28 == utr.READ]
    place = reads[pick(len(reads))]
    words[place] ^= 1 << pick(8)
    rest = words[place + 1:]
    if rest and pick(4) == 0:
        damage_record(pick, rest)
    return utr.capture(words[:place + 1] + rest) + b"\0" * (pick(4) if pick(4) == 0 else 0)


def draw_capture(pick, recorder):
    """A file; about half of them agree."""
    recorder.start()
    words = record_steps(pick, recorder, capture_size(pick))
    chance = pick(20)
    if words and chance < 4:
        for _ in range(1 + pick(2)):
            damage_record(pick, words)
    data = utr.capture(words)
    if 4 <= chance < 10:
        data = damage_header(pick, data)
    if 8 <= chance < 11:
        data = data[:pick(9)]
    elif pick(10) == 0:
        data = data[:-1 - pick(7)]
    return data
