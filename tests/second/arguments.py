#!/usr/bin/env python3
"""Checks what the programs make of their arguments.

usage: arguments.py STATUS PROGRAM..

Each PROGRAM is `calls`, `replay` or `expect`, by its name. STATUS is that of an unknown argument or a
file that cannot be read: 2 of the second program, 0 of the proved programs, which set none. Either
tells it on standard error and answers nothing there.
"""

import os
import subprocess
import sys
import tempfile

import utr

AGREES = utr.capture([utr.record(utr.READ, 5, 0x60)])
DIFFERS = utr.capture([utr.record(utr.READ, 5, 0x61)])

# Arguments of `replay`, what it writes, and whether something is told. Standard input is DIFFERS.
REPLAY = (
    ([], "differs 0 97 96\n", False),
    (["-"], "differs 0 97 96\n", False),
    (["a"], "agreed\n", False),
    (["d"], "differs 0 97 96\n", False),
    (["a", "d", "a"], "a: agreed\nd: differs 0 97 96\na: agreed\n", False),
    (["a", "-"], "a: agreed\n-: differs 0 97 96\n", False),
    (["none"], "", True),
    (["none", "a"], "a: agreed\n", True),
    (["a", "none"], "a: agreed\n", True),
    (["."], "", True),
    ([".", "a"], "a: agreed\n", True),
    ([""], "", True),
    (["--list"], "", True),
    (["a", "-x"], "", True),
    (["--"], "", True),
    (["-x", "--help"], "", True),
)

# Arguments of `expect`, which takes one file. Standard input is DIFFERS.
EXPECT = (
    ([], AGREES.decode(), False),
    (["-"], AGREES.decode(), False),
    (["a"], AGREES.decode(), False),
    (["d"], AGREES.decode(), False),
    (["a", "a"], "", True),
    (["a", "d", "a"], "", True),
    (["-", "a"], "", True),
    (["none"], "", True),
    (["none", "a"], "", True),
    (["."], "", True),
    ([""], "", True),
    (["--list"], "", True),
    (["-x"], "", True),
    (["a", "-x"], "", True),
    (["--"], "", True),
    (["-x", "--help"], "", True),
)

# Arguments of `calls`. Standard input is a line.
CALLS = (
    ([], "0\n", False),
    (["-"], "", True),
    (["a"], "", True),
    (["--helps"], "", True),
    (["a", "--help"], "", True),
)

# Of each program: its cases, its standard input, arguments for which it writes its help.
OF_PROGRAM = {
    "calls": (CALLS, b"fresh\n", (["--help"], ["--help", "a"])),
    "replay": (REPLAY, DIFFERS, (["--help"], ["a", "--help"], ["--help", "-x"])),
    "expect": (EXPECT, DIFFERS, (["--help"], ["a", "--help"], ["--help", "-x"])),
}


def run(program, arguments, data, folder):
    return subprocess.run([program, *arguments], input=data, cwd=folder, capture_output=True, check=False)


def wrong_answers(program, cases, data, folder, trouble):
    """The cases that are answered otherwise, told."""
    wrong = 0
    for arguments, want, told in cases:
        done = run(program, arguments, data, folder)
        got = (done.stdout.decode(), bool(done.stderr), done.returncode)
        if got != (want, told, trouble if told else 0):
            print("%s %s: %r" % (program, " ".join(arguments), got))
            wrong += 1
    return wrong


def wrong_helps(program, cases, folder):
    """The arguments for which a program does not write its help."""
    wrong = 0
    for arguments in cases:
        done = run(program, arguments, b"", folder)
        begin = b"usage: " + os.path.basename(program).encode()
        if not done.stdout.startswith(begin) or done.stderr or done.returncode:
            print("%s %s writes no help" % (program, " ".join(arguments)))
            wrong += 1
    return wrong


def main():
    if len(sys.argv) < 3:
        sys.exit(__doc__.strip())
    trouble = int(sys.argv[1])
    count = wrong = 0
    with tempfile.TemporaryDirectory() as folder:
        for name, data in (("a", AGREES), ("d", DIFFERS)):
            with open(os.path.join(folder, name), "wb") as file:
                file.write(data)
        for program in map(os.path.abspath, sys.argv[2:]):
            cases, data, helps = OF_PROGRAM[os.path.basename(program)]
            wrong += wrong_answers(program, cases, data, folder, trouble)
            wrong += wrong_helps(program, helps, folder)
            count += len(cases) + len(helps)
    print("arguments: %d cases, %d wrong" % (count, wrong))
    sys.exit(1 if wrong else 0)


if __name__ == "__main__":
    main()
