"""Running a tool; the stored captures; the second program: its reading of records, its answers."""

import os
import resource
import subprocess
import sys

TOP = os.path.dirname(os.path.dirname(os.path.dirname(os.path.abspath(__file__))))
DATA = os.path.join(TOP, "crates", "replay_stored", "data")
SECOND = os.path.join(TOP, "tests", "second")

sys.path.insert(0, SECOND)

import utr  # noqa: E402,F401  (found by the path above)


ROOM = 8 << 20  # bytes of address space that are enough for a tool, whatever its file


def run(tool, data, *arguments, limit=None, **more):
    """What a tool of target/bin writes, its messages and its status."""
    def limited():
        if limit is not None:
            resource.setrlimit(resource.RLIMIT_AS, (limit, limit))
    streams = {"stdout": subprocess.PIPE, "stderr": subprocess.PIPE, **more}
    if "stdin" not in streams:
        streams["input"] = data
    program = os.path.join(TOP, "target", "bin", tool)
    done = subprocess.run([program, *arguments], preexec_fn=limited, check=False, **streams)
    return done.stdout, done.stderr.decode(), done.returncode


def stored():
    """The name and the bytes of each stored capture, in the order of the index."""
    with open(os.path.join(DATA, "index.txt")) as index:
        for line in index:
            number, name = line.split()
            with open(os.path.join(DATA, number), "rb") as file:
                yield name, file.read()


def answer_to(data):
    """The second program's replay of a capture."""
    done = subprocess.run([os.path.join(SECOND, "replay")], input=data, stdout=subprocess.PIPE, check=True)
    return done.stdout.decode().rstrip("\n")
