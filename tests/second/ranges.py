#!/usr/bin/env python3
"""Checks the ranges of document 01, section "The state", and of document 02, request c,
against `calls`, and the part that request b names for each.

Every random state drawn by states.py has to be well formed, and so does what
each of some steps makes of it. Every range has to be taken at its edge; beyond it
every call has to refuse with number 1, the state staying as it was, and `part` has
to name the range's part, the lowest one where two are broken; only `divisor`, which
has no state, has to answer as ever. A number too wide
for its register has to be refused in each of its places. So have the states of
parts.py, each with its part.

usage: ranges.py PROGRAM [STATES]
"""

import sys

import ask
import parts
import states as st

STEPS = ("reset", "tick", "ticks 3", "read 0", "read 2", "read 5", "read 6", "write 0 65",
         "write 1 255", "write 2 7", "write 4 34", "sin 0", "modem 9", "jump 3", "jumprun 3")
CALLS = ("read 0", "read 8", "write 0 1", "write 9 1", "sin 0", "sin 2", "modem 1", "modem 16",
         "tick", "ticks 2", "reset")
VALUES = ("forecast", "level 0", "level 7", "run 0", "run 9", "jump 0", "jump 9")
DIVISOR = ("divisor 3072000 7200", "0 27 -12345")
JUMP_RUNS = ("jumprun 0", "jumprun 9")
REPLAYS = ("replay 1", "replay 1 4294967295", "replay 2 1")
NO_STEP = "1 0 0 0 0 0 0 0"
NO_PINS = "1 0 0 0 0 0 0"


def compare(program, script):
    """The script is pairs of a line and the wanted answer, or the wanted first number."""
    answers = ask.answer_lines(program, [line for line, _ in script])
    wrong = 0
    for (line, want), answer in zip(script, answers):
        if answer != want and not (len(want) == 1 and answer.split()[0] == want):
            wrong += 1
            if wrong < 10:
                print("%s answered %s, should be %s" % (line[:700], answer[:200], want[:200]))
    return wrong + abs(len(script) - len(answers))


def well_formed(pick, count):
    script = []
    for _ in range(count):
        s = st.random_state(pick)
        script += taken(s) + [(STEPS[pick(len(STEPS))], "0"), ("pins", "0"), ("part", "0 0")]
    return script


def taken(s):
    line = st.load_line(s)
    return [(line, "0"), ("pins", "0"), ("part", "0 0"), DIVISOR, ("state", line[5:])]


def refused(s, part):
    line = st.load_line(s)
    bad = ("part", "1 %d" % part)
    script = [(line, "0"), bad]
    script += [(call, NO_STEP) for call in CALLS]
    script += [("pins", NO_PINS)]
    script += [(call, "1 0") for call in VALUES]
    script += [(call, "1 0 0") for call in JUMP_RUNS]
    script += [(call, "refused 1 0") for call in REPLAYS]
    return script + [DIVISOR, bad, ("state", line[5:])]


def at_edges(pick, tries):
    script = []
    for edge in st.EDGES:
        for _ in range(tries):
            s = st.state_with(edge, pick)
            script += taken(edge.keep(list(s))) + refused(edge.damage(s), edge.part)
    return script


def damaged(pick, count):
    script = []
    for _ in range(count):
        script += refused(*st.damaged_state(pick))
    return script


def listed():
    script = []
    for s, part in parts.cases():
        script += refused(s, part) if part else taken(s)
    return script


def too_wide(pick):
    script = []
    for place in range(st.PLACES):
        for more in (None, 65536, 1 << 24, 1 << 31):
            s = st.beyond_width(st.random_state(pick), place, more)
            script += refused(s, st.part_of(place))
    return script


def main():
    if len(sys.argv) not in (2, 3):
        sys.exit(__doc__.strip())
    program = sys.argv[1]
    count = int(sys.argv[2]) if len(sys.argv) == 3 else 3000
    pick = st.picker(16750)

    wrong = compare(program, well_formed(pick, count))
    wrong += compare(program, at_edges(pick, 3))
    wrong += compare(program, damaged(pick, count))
    wrong += compare(program, listed())
    wrong += compare(program, too_wide(pick))
    print("ranges: %d states, %d edges, %d places: %d wrong answers"
          % (count, len(st.EDGES), st.PLACES, wrong))
    sys.exit(1 if wrong else 0)


if __name__ == "__main__":
    main()
