#!/usr/bin/env python3
"""Runs the examples of the pages: fenced blocks of docs/CALLS.md, docs/CAPTURE.md and README.md.

    calls     lines behind `>` go to target/bin/calls; the line after each is its answer
    console   a line behind `$` is a command, run in the repository's folder; what follows is its output
    listing, hex, c, python     a capture as tools/capture reads it, as its bytes, and two programs that
                                write it: all four of a page have to be the same

usage: pages.py
"""

import os
import re
import subprocess
import sys
import tempfile

TOP = os.path.dirname(os.path.dirname(os.path.dirname(os.path.abspath(__file__))))
CALLS = os.path.join(TOP, "target", "bin", "calls")
CAPTURE = os.path.join(TOP, "target", "bin", "capture")
REPLAY = os.path.join(TOP, "target", "bin", "replay")
CFLAGS = ("-std=c99", "-Wall", "-Wextra", "-Wpedantic", "-Werror")

# The blocks of each kind that a page has to have at least.
PAGES = {
    "docs/CALLS.md": {"calls": 5, "console": 2},
    "docs/CAPTURE.md": {"listing": 1, "hex": 1, "c": 1, "python": 1, "console": 3},
    "README.md": {"console": 2},
}


def blocks_of(page):
    """The kind, first line's number and text of each fenced block."""
    with open(os.path.join(TOP, page)) as text:
        lines = text.read().split("\n")
    blocks = []
    begin = None
    for number, line in enumerate(lines):
        if not line.startswith("```"):
            continue
        if begin is None:
            begin = number
        else:
            blocks.append((lines[begin][3:], begin + 2, lines[begin + 1:number]))
            begin = None
    return blocks


def output(command, **more):
    return subprocess.run(command, stdout=subprocess.PIPE, stderr=subprocess.STDOUT, cwd=TOP,
                          check=False, **more).stdout


def exchanges(lines, sign):
    """What stands behind the sign, and the lines after it up to the next."""
    starts = [i for i, line in enumerate(lines) if line.startswith(sign)]
    ends = starts[1:] + [len(lines)]
    return [(lines[i][len(sign):], lines[i + 1:end]) for i, end in zip(starts, ends)]


def calls_block(lines):
    said = exchanges(lines, "> ")
    text = "".join(call + "\n" for call, _ in said)
    answers = output([CALLS], input=text.encode()).decode().split("\n")[:-1]
    return [(call, want, [answer]) for (call, want), answer in zip(said, answers, strict=True)]


def console_block(lines):
    return [(command, want, output(["sh", "-c", command]).decode().split("\n")[:-1])
            for command, want in exchanges(lines, "$ ")]


RUN = {"calls": calls_block, "console": console_block}


def wrong_answers(page, number, kind, lines):
    """How many answers of a block are not as they stand in the page; tells them."""
    wrong = 0
    for asked, want, got in RUN[kind](lines):
        if got != want:
            print("%s, block at line %d: %s\n  answers %r\n  stands   %r" % (page, number, asked, got, want))
            wrong += 1
    return wrong


def bytes_of(kind, lines):
    """The capture that a block is, or writes."""
    text = "\n".join(lines) + "\n"
    if kind == "hex":
        found = (re.match(r"(?:[0-9A-F]{2} )*[0-9A-F]{2}(?=  |$)", line) for line in lines)
        return b"".join(bytes.fromhex(match.group()) for match in found)
    if kind == "listing":
        return output([CAPTURE], input=text.encode())
    if kind == "python":
        return output([sys.executable, "-"], input=text.encode())
    with tempfile.TemporaryDirectory() as folder:
        program = os.path.join(folder, "recorder")
        said = output(["gcc", *CFLAGS, "-o", program, "-xc", "-"], input=text.encode())
        return output([program]) if not said else said


def wrong_captures(page, blocks):
    """How many blocks that are the page's capture differ from the first, which has to agree."""
    captures = [(number, bytes_of(kind, lines)) for kind, number, lines in blocks
                if kind in ("hex", "listing", "c", "python")]
    if captures and output([REPLAY], input=captures[0][1]) != b"agreed\n":
        print("%s: its capture does not agree" % page)
        return len(captures)
    wrong = [number for number, capture in captures if capture != captures[0][1]]
    for number in wrong:
        print("%s, block at line %d: not the capture of the first block" % (page, number))
    return len(wrong)


def main():
    wrong = count = 0
    for page, least in PAGES.items():
        blocks = blocks_of(page)
        kinds = [kind for kind, _, _ in blocks]
        for kind, number in least.items():
            if kinds.count(kind) < number:
                print("%s has %d blocks `%s`, not %d" % (page, kinds.count(kind), kind, number))
                wrong += 1
        for kind, number, lines in blocks:
            if kind in RUN:
                wrong += wrong_answers(page, number, kind, lines)
        wrong += wrong_captures(page, blocks)
        count += len(blocks)
    print("pages: %d blocks, %d wrong" % (count, wrong))
    return 1 if wrong else 0


if __name__ == "__main__":
    sys.exit(main())
