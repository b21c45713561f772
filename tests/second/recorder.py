"""Steps as records: with guesses for the bytes read, or recorded from the second program, where every
step is made by its `calls`, in one process, and the byte of a read is the one answered."""

import utr
from ask import Talk
from steps import Steps

# Lines sent together; they and their answers have to fit into a pipe.
AHEAD = 500


class Guesser(Steps):
    """The records of what would be done with a device; guess() gives the byte of a read."""

    def __init__(self, guess):
        self.guess = guess
        self.records = []

    def step(self, line):
        """A step in the text protocol, as its record or, for many ticks, records."""
        name, *numbers = line.split(" ")
        numbers = [int(number) for number in numbers]
        if name in ("tick", "ticks"):
            self.records += utr.ticks(numbers[0] if numbers else 1)
        elif name == "read":
            self.records.append(utr.record(utr.READ, numbers[0], self.guess()))
        else:
            self.records.append(utr.record(utr.NAMES.index(name), *numbers))

    def taken(self):
        """The records so far."""
        return list(self.records)


class Recorder(Guesser):
    """A device from the fresh state on, and the records of what was done with it."""

    def __init__(self, calls):
        super().__init__(lambda: 0)
        self.talk = Talk(calls)
        self.lines = []  # not sent yet
        self.places = []  # for each of them, the place of its read, or None
        self.start()

    def start(self, line="fresh"):
        """A new capture, from the state that the line makes."""
        self.settle()
        self.records = []
        self.send(line)

    def send(self, line, place=None):
        self.lines.append(line.encode() + b"\n")
        self.places.append(place)
        if len(self.lines) >= AHEAD:
            self.settle()

    def settle(self):
        """Makes the calls that wait and puts the bytes read into their records."""
        self.talk.send(b"".join(self.lines))
        for place, answer in zip(self.places, self.talk.lines(len(self.lines))):
            if place is not None:
                self.records[place] |= int(answer.split()[1])
        self.lines = []
        self.places = []

    def step(self, line):
        super().step(line)
        self.send(line, len(self.records) - 1 if line.startswith("read ") else None)

    def byte(self, address):
        """A read whose byte is needed at once."""
        self.read(address)
        self.settle()
        return self.records[-1] & 255

    def taken(self):
        self.settle()
        return super().taken()

    def close(self):
        self.talk.end()
