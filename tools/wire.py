"""How a client's records go out and its answers come in: over a pipe to a process of its own, or over a socket to tools/listen.

    Later       the answer to a record that was sent, which may have come or not
    Wire        records out, and answers in, in the same order
    Pipe        a process of its own
    Socket      a connection to a listener
"""

from __future__ import annotations

import heapq
import os
import select
import socket
import subprocess
from collections import deque
from typing import Any, Callable, Generic, NoReturn, Optional, Sequence, TypeVar

from hybridgc import PIECE, Answers, Record, fields_of, start
from mistakes import Closed, StoreError

T = TypeVar("T")


class Later(Generic[T]):
    """The answer to a statement that was sent. `result()` waits for it, and raises what the statement raises."""

    def __init__(self, wire: "Wire", read: "Callable[[list[Record]], T]"):
        self._wire, self._read = wire, read
        self._value: Optional[T] = None
        self._fault: Optional[StoreError] = None
        self.is_there = False

    def _arrive(self, answer: list[Record]) -> None:
        try:
            self._value = self._read(answer)
        except StoreError as fault:
            self._fault = fault
        self.is_there = True

    def result(self) -> T:
        """Waits for the answer. It may be asked again."""
        if not self.is_there:
            self._wire.wait_for(self)
        if self._fault:
            raise self._fault
        return self._value  # type: ignore[return-value]


class Wire:
    """Where records go out and answers come in, in the same order. What is sent is kept until someone waits, or 64 KB are there. While it
    is written, answers are read, so however many statements wait, neither side holds the other."""

    def __init__(self, timeout: Optional[float]):
        self._timeout = timeout
        self._out = bytearray()
        self._answers = Answers()
        self._expected: deque[Later[Any]] = deque()
        self.why_closed: Optional[str] = None

    def submit(self, record: Record, read: "Callable[[list[Record]], T]") -> "Later[T]":
        """Sends a record, whose answer will be read so."""
        self.check()
        later = Later(self, read)
        self._expected.append(later)
        self._out += record + b"\n"
        if len(self._out) >= PIECE:
            self._flush()
        return later

    def wait_for(self, later: Later[Any]) -> None:
        """Reads until this answer is there."""
        self.check()
        self._flush()
        while not later.is_there:
            self._read()

    def check(self) -> None:
        """Raises if there is no conversation any more."""
        if self.why_closed is not None:
            raise Closed(self.why_closed)

    def _flush(self) -> None:
        while self._out:
            sent = self._write_now(self._out)
            del self._out[:sent]
            if self._out:
                self._wait_for_room()

    def _wait_for_room(self) -> None:
        readable, writable, _ = select.select([self._in_file()], [self._out_file()], [], self._timeout)
        if readable:
            self._read()
        elif not writable:
            self._give_up()

    def _read(self) -> None:
        if self._timeout is not None and not select.select([self._in_file()], [], [], self._timeout)[0]:
            self._give_up()
        piece = self._read_some()
        if not piece:
            self.close_for(self._why_ended())
        for answer in self._answers.feed(piece):
            if answer[0].startswith(b"gone,"):
                self.close_for("the listener ended: " + fields_of(answer[0])[1].decode(errors="replace"))
            self._expected.popleft()._arrive(answer)

    def _give_up(self) -> NoReturn:
        self.close_for(f"no answer in {self._timeout} s")

    def close_for(self, why: str) -> NoReturn:
        """Ends the conversation, since it cannot go on."""
        self.why_closed = why
        self.shut()
        raise Closed(why)

    def _in_file(self) -> int:
        raise NotImplementedError

    def _out_file(self) -> int:
        raise NotImplementedError

    def _write_now(self, text: bytearray) -> int:
        """Writes what can be written at once, and returns how much that was."""
        raise NotImplementedError

    def _read_some(self) -> bytes:
        raise NotImplementedError

    def _why_ended(self) -> str:
        raise NotImplementedError

    def shut(self) -> None:
        """Closes what is open."""
        raise NotImplementedError


class Pipe(Wire):
    """A process of its own."""

    def __init__(self, path: str, options: Sequence[str], timeout: Optional[float]):
        super().__init__(timeout)
        self._process = start([path, "live", *options])
        assert self._process.stdin and self._process.stdout
        self._stdin, self._stdout = self._process.stdin.fileno(), self._process.stdout.fileno()
        os.set_blocking(self._stdin, False)
        self._free = list(range(1, 65))

    def take_session(self) -> int:
        """The number of a session that nobody has."""
        if not self._free:
            raise StoreError("there are 64 sessions already")
        return heapq.heappop(self._free)

    def give_session(self, number: int) -> None:
        """Gives a session back, which has nothing open."""
        heapq.heappush(self._free, number)

    def _in_file(self) -> int:
        return self._stdout

    def _out_file(self) -> int:
        return self._stdin

    def _write_now(self, text: bytearray) -> int:
        try:
            return os.write(self._stdin, text)
        except BlockingIOError:
            return 0
        except BrokenPipeError:
            self.close_for(self._why_ended())

    def _read_some(self) -> bytes:
        return os.read(self._stdout, PIECE)

    def _why_ended(self) -> str:
        assert self._process.stderr
        said = self._process.stderr.read().decode(errors="replace").strip()
        return f"the program ended with status {self._process.wait()}" + (f": {said}" if said else "")

    def finish(self, read: "Callable[[list[Record]], T]") -> T:
        """Ends the input, and returns the last answer, the totals."""
        later = Later(self, read)
        self._flush()
        self._expected.append(later)
        assert self._process.stdin
        self._process.stdin.close()
        while not later.is_there:
            self._read()
        return later.result()

    def shut(self) -> None:
        process = self._process
        if process.stdin and not process.stdin.closed:
            process.stdin.close()
        try:
            process.wait(5)
        except subprocess.TimeoutExpired:
            process.kill()
            process.wait()
        for stream in (process.stdout, process.stderr):
            if stream:
                stream.close()


class Socket(Wire):
    """A connection to a listener."""

    def __init__(self, address: str, timeout: Optional[float]):
        super().__init__(timeout)
        host, _, port = address.rpartition(":")
        is_port = bool(host) and port.isdigit() and "/" not in address
        self._socket = socket.socket(socket.AF_INET if is_port else socket.AF_UNIX, socket.SOCK_STREAM)
        try:
            self._socket.connect((host, int(port)) if is_port else address)
            if is_port:
                self._socket.setsockopt(socket.IPPROTO_TCP, socket.TCP_NODELAY, 1)
        except (OSError, OverflowError) as fault:
            self._socket.close()
            fault = fault if isinstance(fault, OSError) else OSError(0, "no such port")
            raise Closed(f"no listener at {address}: {fault.strerror or fault}; `tools/listen {address}` starts one") from None
        greeting = Later(self, self._greeted)
        self._expected.append(greeting)
        self.wait_for(greeting)
        self.session = greeting.result()

    def _greeted(self, answer: list[Record]) -> int:
        word, number, *_ = fields_of(answer[0])
        if word != b"session":
            self.close_for(f"the listener has {number.decode()} clients, which is the most")
        return int(number)

    def _in_file(self) -> int:
        return self._socket.fileno()

    _out_file = _in_file

    def _write_now(self, text: bytearray) -> int:
        try:
            return self._socket.send(text, socket.MSG_DONTWAIT)
        except BlockingIOError:
            return 0
        except (BrokenPipeError, ConnectionResetError):
            # The listener may have said why.
            while True:
                self._read()

    def _read_some(self) -> bytes:
        try:
            return self._socket.recv(PIECE)
        except ConnectionResetError:
            return b""

    def _why_ended(self) -> str:
        return "the listener closed the connection"

    def shut(self) -> None:
        self._socket.close()
