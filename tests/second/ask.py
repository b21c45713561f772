"""Starts a program and asks it: with its whole input at once, from a file, or in pieces.

An answer to lines is what the program writes, and its status. What it says on standard error counts
as written: a message where none is due is a wrong answer. An answer to a capture is what the program
writes, what it says on standard error, and its status.
"""

import fcntl
import os
import select
import struct
import subprocess
import tempfile
import termios
import time

# Seconds without a sign of life after which a program hangs.
GUARD = 120


def answer(program, data):
    """The answer to lines."""
    done = subprocess.run([program], input=data, stdout=subprocess.PIPE, stderr=subprocess.STDOUT,
                          timeout=GUARD, check=False)
    return done.stdout, done.returncode


def answer_apart(words, **given):
    """The answer to a capture, of a program with its arguments."""
    given = {"stdout": subprocess.PIPE, "stderr": subprocess.PIPE, **given}
    done = subprocess.run(words, timeout=GUARD, check=False, **given)
    return done.stdout, done.stderr, done.returncode


def answer_from_file(program, name):
    with open(name, "rb") as source:
        return answer_apart([program], stdin=source)


def answer_lines(program, lines):
    """The answers to lines of text, as lines of text."""
    written, status = answer(program, ("\n".join(lines) + "\n").encode())
    if status:
        raise ChildProcessError("%s ended with status %d" % (program, status))
    return written.decode().splitlines()


def brief(answer):
    """An answer as it is shown: of what was written the length and the end."""
    written, *rest = answer
    return "%d bytes, the last %r, and %s" % (len(written), written[-40:], ", ".join(map(repr, rest)))


class Fed:
    """A program that gets its input piece by piece, through a pipe."""

    def __init__(self, program, stdout, stderr):
        self.program = program
        self.child = subprocess.Popen([program], stdin=subprocess.PIPE, stdout=stdout, stderr=stderr,
                                      bufsize=0)
        self.sent = 0  # bytes

    def send(self, data):
        while data:
            taken = self.child.stdin.write(data)
            data = data[taken:]
            self.sent += taken

    def give_up(self, why):
        self.child.kill()
        self.child.wait()
        raise TimeoutError("%s %s after %d bytes" % (self.program, why, self.sent))

    def wait_until_read(self):
        """The program has read all that was sent, so its reads are no longer than the pieces."""
        until = time.monotonic() + GUARD
        while self.child.poll() is None:
            waiting = fcntl.ioctl(self.child.stdin, termios.FIONREAD, struct.pack("i", 0))
            if struct.unpack("i", waiting)[0] == 0:
                return
            if time.monotonic() > until:
                self.give_up("reads nothing")
            time.sleep(0.00002)

    def close(self):
        """Ends the input. The program's status."""
        self.child.stdin.close()
        return self.child.wait(GUARD)


class Talk(Fed):
    """The same of a program that answers lines."""

    def __init__(self, program):
        super().__init__(program, subprocess.PIPE, subprocess.STDOUT)
        self.written = b""  # by the program, and not taken yet
        self.taken = 0  # lines

    def hear(self):
        """Waits for more of what the program writes. False at its end."""
        if not select.select([self.child.stdout], [], [], GUARD)[0]:
            self.give_up("writes nothing")
        more = os.read(self.child.stdout.fileno(), 65536)
        self.written += more
        return bool(more)

    def lines(self, count):
        """The next lines that the program writes, without their newlines."""
        while self.written.count(b"\n") < count:
            if not self.hear():
                raise EOFError("%s ended after %d answers" % (self.program, self.taken))
        *lines, self.written = self.written.split(b"\n", count)
        self.taken += count
        return lines

    def end(self):
        """Ends the input. What the program wrote and was not taken, and its status."""
        self.child.stdin.close()
        while self.hear():
            pass
        self.child.stdout.close()
        return self.written, self.child.wait()


def pieces(data, size_at):
    """Cuts data; size_at(place) is the size of the piece that begins there."""
    at = 0
    while at < len(data):
        size = size_at(at)
        yield data[at:at + size]
        at += size


def answer_in_pieces(program, parts):
    """The answer to a capture of which each piece is sent when those before it have been read. What
    the program writes goes to files, so that it never waits for somebody to take it."""
    with tempfile.TemporaryFile() as written, tempfile.TemporaryFile() as said:
        fed = Fed(program, written, said)
        try:
            for part in parts:
                fed.send(part)
                fed.wait_until_read()
        except BrokenPipeError:  # the program has its answer and reads no more
            pass
        status = fed.close()
        written.seek(0)
        said.seek(0)
        return written.read(), said.read(), status


def answer_as_read(program, parts):
    """The answer to lines that come in pieces of at most 65,536 bytes, which a pipe holds. Before
    a piece is sent, every line that ended in those before it is answered."""
    talk = Talk(program)
    answers = []
    for part in parts:
        talk.send(part)
        answers += talk.lines(part.count(b"\n"))
        talk.wait_until_read()
    rest, status = talk.end()
    return b"".join(line + b"\n" for line in answers) + rest, status
