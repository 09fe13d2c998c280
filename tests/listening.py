"""What the tests of tools/ share: a listener in a folder of its own, and a client that writes bytes."""

from __future__ import annotations

import io
import os
import signal
import socket
import subprocess
import sys
import tempfile
from contextlib import redirect_stderr, redirect_stdout
from importlib.machinery import SourceFileLoader
from importlib.util import module_from_spec, spec_from_loader
from typing import Optional

sys.dont_write_bytecode = True

from calling import SECONDS, TOOLS
from hybridgc import Answers


def call(name: str, *words: str, given: bytes = b"") -> "tuple[int, bytes, str]":
    """Calls a tool in this process. Returns its status, what it wrote, and what it said."""
    loader = SourceFileLoader("tool", os.path.join(TOOLS, name))
    module = module_from_spec(spec_from_loader("tool", loader))
    sys.modules["tool"] = module
    loader.exec_module(module)
    out, said, status = io.TextIOWrapper(io.BytesIO()), io.StringIO(), 0
    with tempfile.TemporaryFile() as source, redirect_stdout(out), redirect_stderr(said):
        source.write(given)
        source.seek(0)
        stdin, before = io.TextIOWrapper(source), (sys.argv, sys.stdin)
        sys.argv, sys.stdin = [os.path.join(TOOLS, name), *words], stdin
        try:
            module.main()
        except SystemExit as end:
            status = end.code or 0
        finally:
            sys.argv, sys.stdin = before
            stdin.detach()
        out.flush()
        return status, out.buffer.getvalue(), said.getvalue()


class Listening:
    """A listener that runs. `end` sends a signal, and returns its status, its text and what it said."""

    def __init__(self, *words: str, address: Optional[str] = None):
        self.folder = tempfile.TemporaryDirectory()
        self.callers: "list[Caller]" = []
        self.address = address or os.path.join(self.folder.name, "store.sock")
        words = (sys.executable, "-B", os.path.join(TOOLS, "listen"), self.address, *words)
        self.process = subprocess.Popen(words, stdout=subprocess.PIPE, stderr=subprocess.PIPE)
        self.said = self.process.stderr.readline().decode()
        if " at " in self.said:
            self.address = self.said.split(" at ", 1)[1].split(";")[0]

    def program(self) -> int:
        """The process of the store."""
        with open(f"/proc/{self.process.pid}/task/{self.process.pid}/children") as children:
            return int(children.read().split()[0])

    def memory(self) -> int:
        """The listener's memory, in MB."""
        with open(f"/proc/{self.process.pid}/status") as status:
            return next(int(line.split()[1]) for line in status if line.startswith("VmRSS")) // 1024

    def end(self, name: Optional[int] = signal.SIGTERM) -> "tuple[int, list[str], str]":
        if name and self.process.poll() is None:
            self.process.send_signal(name)
        for caller in self.callers:
            caller.hang_up()
        out, said = self.process.communicate(timeout=SECONDS)
        self.folder.cleanup()
        return self.process.returncode, out.decode().splitlines(), self.said + said.decode()

    def __enter__(self) -> "Listening":
        return self

    def __exit__(self, *_: object) -> None:
        self.end()


class Caller:
    """A client that writes bytes as they are."""

    def __init__(self, listening: Listening):
        listening.callers.append(self)
        self.socket = socket.socket(socket.AF_UNIX)
        self.socket.settimeout(SECONDS)
        self.socket.connect(listening.address)
        self.answers = Answers()
        self.ready: "list[list[bytes]]" = []
        self.greeting = self.answer()

    def say(self, text: bytes) -> None:
        self.socket.sendall(text)

    def answer(self) -> str:
        """The next answer, its records joined by spaces, or nothing at the end."""
        while not self.ready:
            piece = self.socket.recv(65_536)
            if not piece:
                return ""
            self.ready += self.answers.feed(piece)
        return b" ".join(self.ready.pop(0)).decode(errors="replace")

    def ask(self, record: str) -> str:
        self.say(record.encode() + b"\n")
        return self.answer()

    def asks(self, *records: str) -> "list[str]":
        """The answers to records that are sent at once."""
        self.say("".join(record + "\n" for record in records).encode())
        return [self.answer() for _ in records]

    def hang_up(self) -> None:
        self.socket.close()

    def send_no_more(self) -> None:
        self.socket.shutdown(socket.SHUT_WR)
