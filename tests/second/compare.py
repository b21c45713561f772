#!/usr/bin/env python3
"""Feeds the same random scripts, pairs and captures to two programs each and compares their answers.

usage: compare.py CALLS_A CALLS_B [--calls N] [--pairs N]
                  [--replays REPLAY_A REPLAY_B [--expects EXPECT_A EXPECT_B] [--captures N]]
                  [--seed S] [--save FOLDER]

Scripts and captures are drawn from the seed (draws.py). CALLS_B, the second program's, answers the
reads of the captures. At the first difference of a script it prints the calls that lead there, from
the last `fresh` or `load` on, and both answers. The pairs are clocks and rates (divisors.py), each a
line `divisor`; at the first difference it prints the line and both answers. A capture goes to both
programs from a file and through a pipe in odd pieces, to EXPECT_A in pieces and to EXPECT_B from a
file; one that is answered differently is saved and named, and so is one of which `expect` writes
something that REPLAY_A does not agree with. Ends with 1 at a difference, or where less than a third of
the captures is answered `differs`; else it prints how much was compared and ends with 0.
"""

import argparse
import os
import shutil
import sys
import tempfile

import ask
import divisors
import draws
from recorder import Recorder
from states import picker

FIRST_CHUNKS = (2000, 20000)
CHUNK = 100000
PAIRS_CHUNK = 20000


# ---- Lines ----

def first_difference(a, b):
    for i, (left, right) in enumerate(zip(a, b)):
        if left != right:
            return i
    return min(len(a), len(b))


def show_difference(kind, lines, out_a, out_b, compared, start_of):
    a = out_a.split(b"\n")
    b = out_b.split(b"\n")
    at = first_difference(a, b)
    if at >= len(lines):
        print("the answers differ after the last line")
        return
    print("difference at %s %d" % (kind, compared + at + 1))
    for line in lines[start_of(lines, a, at):at + 1]:
        print(line)
    print("A: %s" % (a[at].decode("latin-1") if at < len(a) else "nothing"))
    print("B: %s" % (b[at].decode("latin-1") if at < len(b) else "nothing"))


def alike(programs, kind, lines, compared, start_of):
    """Whether both programs answer the lines alike, after as many compared before. The first
    difference is shown with the lines that lead there, from start_of(lines, answers, place) on."""
    text = ("\n".join(lines) + "\n").encode("latin-1")
    (out_a, code_a), (out_b, code_b) = (ask.answer(program, text) for program in programs)
    if out_a != out_b:
        show_difference(kind, lines, out_a, out_b, compared, start_of)
        return False
    if code_a or code_b or out_a.count(b"\n") != len(lines):
        print("after %d %ss: A ended with %d, B with %d, %d answers to %d lines"
              % (compared, kind, code_a, code_b, out_a.count(b"\n"), len(lines)))
        return False
    return True


# ---- Scripts ----

def segment_start(lines, answers, at):
    """The last `fresh` or `load` that was taken, at or before a line."""
    for i in range(at, -1, -1):
        if lines[i] == "fresh":
            return i
        if lines[i].startswith("load ") and i < len(answers) and answers[i] == b"0":
            return i
    return 0


def compare_scripts(programs, pick, calls):
    recorder = Recorder(programs[1])
    sizes = list(FIRST_CHUNKS)
    compared = 0
    while compared < calls:
        size = sizes.pop(0) if sizes else CHUNK
        lines = draws.draw_script(pick, min(size, calls - compared), recorder)
        if not alike(programs, "call", lines, compared, segment_start):
            return False
        compared += len(lines)
    recorder.close()
    print("%d calls compared, no difference" % compared)
    return True


# ---- Pairs of a clock and a rate ----

def compare_pairs(programs, pick, pairs):
    for compared in range(0, pairs, PAIRS_CHUNK):
        lines = divisors.draw_lines(pick, min(PAIRS_CHUNK, pairs - compared))
        if not alike(programs, "pair", lines, compared, lambda _lines, _answers, at: at):
            return False
    print("%d pairs compared, no difference" % pairs)
    return True


# ---- Captures ----

SMALL_PIECES = (1, 2, 3, 5, 7)
LARGE_PIECES = (100, 4093, 8192, 32768, 65535)


def odd_pieces(data, pick):
    """Small ones at the start and now and then; a long capture would take too long in them."""
    def size_at(at):
        sizes = SMALL_PIECES if pick(2 if at < 300 else 50) == 0 else LARGE_PIECES
        return sizes[pick(len(sizes))]
    return ask.pieces(data, size_at)


def alike_answers(answers):
    """Whether all answers are the same, with status 0; else they are shown, each with its way."""
    first = next(iter(answers.values()))
    if all(answer == first for answer in answers.values()) and first[2] == 0:
        return True
    for way, answer in answers.items():
        print("%-10s %s" % (way, ask.brief(answer)))
    return False


def replayed(programs, name, data, seed):
    """The line of a capture that both programs answer alike, from a file and in the same pieces;
    else None."""
    answers = {}
    for who, program in zip("AB", programs):
        answers[who + ", file"] = ask.answer_from_file(program, name)
        answers[who + ", pieces"] = ask.answer_in_pieces(program, odd_pieces(data, picker(seed)))
    written, said, _ = answers["B, file"]
    return written.decode() if alike_answers(answers) and not said else None


def expected(programs, replay, name, data, seed):
    """Whether both programs expect the same of a capture, and the replay of it agrees."""
    pieces = odd_pieces(data, picker(seed))
    answers = {"A, pieces": ask.answer_in_pieces(programs[0], pieces),
               "B, file": ask.answer_from_file(programs[1], name)}
    written = answers["B, file"][0]
    if not alike_answers(answers):
        return False
    again = ask.answer_apart([replay], input=written)
    if written and again != (b"agreed\n", b"", 0):
        print("what is expected is answered %r" % (again,))
        return False
    return True


def compare_capture(given, name, data, seed):
    """The line of a capture's replay where nothing differs, or None."""
    line = replayed(given.replays, name, data, seed)
    if given.expects and not expected(given.expects, given.replays[0], name, data, seed):
        return None
    return line


def compare_captures(program_b, pick, given):
    recorder = Recorder(program_b)
    count = {}
    with tempfile.TemporaryDirectory() as folder:
        name = os.path.join(folder, "capture")
        for number in range(1, given.captures + 1):
            draw = draws.draw_difference if number % 2 else draws.draw_capture
            data = draw(pick, recorder)
            with open(name, "wb") as out:
                out.write(data)
            line = compare_capture(given, name, data, pick(1 << 30))
            if line is None:
                saved = os.path.join(given.save, "capture-%d-%d.utr" % (given.seed, number))
                shutil.copy(name, saved)
                print("difference at capture %d\nsaved as %s" % (number, saved))
                return False
            outcome = line.split()[0]
            count[outcome] = count.get(outcome, 0) + 1
    recorder.close()
    print("%d captures compared, no difference (%s)"
          % (given.captures, ", ".join("%d %s" % (count[o], o) for o in sorted(count))))
    if 3 * count.get("differs", 0) < given.captures:
        print("less than a third of the captures differs: the draw is too weak")
        return False
    return True


def main():
    parser = argparse.ArgumentParser(description="compares two programs call by call")
    parser.add_argument("program_a")
    parser.add_argument("program_b")
    parser.add_argument("--replays", nargs=2)
    parser.add_argument("--expects", nargs=2)
    parser.add_argument("--seed", type=int, default=1)
    parser.add_argument("--calls", type=int, default=1000000)
    parser.add_argument("--pairs", type=int, default=100000)
    parser.add_argument("--captures", type=int, default=1000)
    parser.add_argument("--save", default=".")
    given = parser.parse_args()
    pick = picker(given.seed)
    print("seed %d" % given.seed)
    programs = (given.program_a, given.program_b)
    same = (compare_scripts(programs, pick, given.calls) and
            compare_pairs(programs, pick, given.pairs))
    if same and given.replays:
        same = compare_captures(given.program_b, pick, given)
    sys.exit(0 if same else 1)


if __name__ == "__main__":
    main()
