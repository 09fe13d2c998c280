"""A client of the program's `live` mode, which waits for what it is answered.

    client = Client("live --buckets 3")
    client.send(b"table,t,1\n1,put,t")
    client.answer()                         b"declared,1\n"
    client.send(b",5,20\n")
    client.answer()                         b"1,2,at,0,stored,committed,1\n"
    client.end()                            (0, b""): the exit status, and what was said on standard error
    client.rest()                           the six totals

Whatever it waits for has to come within ten seconds: otherwise it ends the program and raises `Withheld`. While it sends, it reads, so
that neither end of the two pipes waits for the other.
"""

import array
import fcntl
import os
import select
import subprocess
import termios
import time

from tools import PROGRAM

# So long is waited for an answer.
SECONDS = 10
PIECE = 65536


class Withheld(Exception):
    """What was waited for has not come."""


def more_after(record):
    """Returns how many records an answer has after its first one, as docs/FORMATS.md says."""
    fields = record.rstrip(b"\n").split(b",")
    if fields[0] in (b"declared", b"bad"):
        return 0
    if fields[0] == b"total":
        return 5
    if fields[0] == b"holds":
        return int(fields[1]) + 1
    at = 4 if fields[2] == b"at" else 2
    return int(fields[at + 1]) if fields[at] == b"rows" else 0


class Client:
    """One conversation."""

    def __init__(self, words="live"):
        pipe = subprocess.PIPE
        self.process = subprocess.Popen([PROGRAM, *words.split()], stdin=pipe, stdout=pipe, stderr=pipe, bufsize=0)
        self.to = self.process.stdin.fileno()
        self.of = self.process.stdout.fileno()
        self.got = bytearray()  # what has come and was not asked for
        os.set_blocking(self.to, False)

    def send(self, piece):
        """Sends bytes, and takes what comes meanwhile."""
        piece = memoryview(piece)
        while piece:
            readable, writable, _ = self.wait("a read", [self.of], [self.to])
            if readable and not self.take():
                return
            if writable:
                try:
                    piece = piece[os.write(self.to, piece[:PIECE]) :]
                except BrokenPipeError:
                    return

    def wait_until_read(self):
        """Waits until the program has read all that was sent."""
        end = time.monotonic() + SECONDS
        while self.unread(self.to):
            if time.monotonic() > end:
                self.give_up("a read")
            time.sleep(0.0001)

    def read(self, count):
        """Returns the next bytes, so many."""
        while len(self.got) < count:
            self.take_more()
        return self.cut(count)

    def record(self):
        """Returns the bytes of the next record, which a line feed in quotes does not end."""
        end = 0
        while not end or self.got.count(b'"', 0, end) % 2:
            at = self.got.find(b"\n", end)
            if at < 0:
                self.take_more()
            else:
                end = at + 1
        return self.cut(end)

    def answer(self):
        """Returns the bytes of the next answer, whose first record tells how many more it has."""
        first = self.record()
        return first + b"".join(self.record() for _ in range(more_after(first)))

    def end(self):
        """Ends the input, and waits for the program's end. Returns its exit status, and what it said on standard error."""
        try:
            rest, said = self.process.communicate(timeout=SECONDS)
        except subprocess.TimeoutExpired:
            self.give_up("its end")
        self.got += rest
        return self.process.returncode, said

    def rest(self):
        """Returns what has come and was not asked for."""
        return self.cut(len(self.got))

    def kill(self):
        """Ends the program, if it has not ended."""
        if self.process.returncode is None:
            self.process.kill()
            self.process.communicate()

    def memory(self):
        """Returns the program's resident memory in KB."""
        with open(f"/proc/{self.process.pid}/status") as lines:
            return next(int(line.split()[1]) for line in lines if line.startswith("VmRSS"))

    # How it waits

    @staticmethod
    def unread(pipe):
        """Returns how many bytes of a pipe were written and not read."""
        count = array.array("i", [0])
        fcntl.ioctl(pipe, termios.FIONREAD, count)
        return count[0]

    def cut(self, count):
        taken = bytes(self.got[:count])
        del self.got[:count]
        return taken

    def take(self):
        """Takes what has come. Returns whether more may come."""
        came = os.read(self.of, PIECE)
        self.got += came
        return bool(came)

    def take_more(self):
        """Waits until something comes, and takes it."""
        self.wait("an answer", [self.of], [])
        if not self.take():
            self.give_up("an answer")

    def wait(self, what, readers, writers):
        ready = select.select(readers, writers, [], SECONDS)
        if not any(ready):
            self.give_up(what)
        return ready

    def give_up(self, what):
        self.kill()
        raise Withheld(f"{what} was waited for, and what came ends with {bytes(self.got[-1000:])!r}")
