"""What the tools share: where the program is, the records of a conversation, and the messages of mistakes.

    program()            the program's path, or `Missing`, whose text says how to get it
    Framer               bytes that come piece by piece, parted into records as the program's CSV reader does
    fields_of, record_of a record's fields, and the record of fields, quoted where they have to be
    more_after           how many records of an answer follow its first one
    Answers              bytes that come piece by piece, parted into answers: each is the list of its records
    start                a process with pipes, which a Ctrl-C does not end
    Live                 a conversation with a process of its own: `send`, `answer`, `ask`, `end`
    Progress             how far a file is read, on a terminal
    records_of, load     the records of a script, and a conversation that has run them

Records and fields are bytes: a text may have any bytes in it, line ends and NUL too. A record is without its line end.
"""

from __future__ import annotations

import os
import re
import subprocess
import sys
import time
from collections import deque
from itertools import chain
from typing import BinaryIO, Iterable, Iterator, NoReturn, Optional, Sequence, Union

HERE = os.path.dirname(os.path.realpath(__file__))
# A record is at most so long.
LONGEST = 1_048_576
# How much is read at a time.
PIECE = 65_536

Field = Union[bytes, str, int]
Record = bytes

_STOP = re.compile(rb'[",\r\n]')
_FIELD = re.compile(rb'"((?:[^"]|"")*)"(?!")([^,]*)|([^,]*)', re.DOTALL)


class Missing(Exception):
    """There is no program. The text says how to get it."""


class Ended(Exception):
    """The program ended, or could not start. `status` is its exit status, and the text what it said."""

    def __init__(self, status: int, said: str):
        super().__init__(said or f"the program ended with status {status}")
        self.status = status


def program() -> str:
    """Finds the program: HYBRIDGC=PATH, or the checkout's, or the one that lies next to tools/ in the archive of ./dist."""
    root = os.path.normpath(os.path.join(HERE, ".."))
    named = os.environ.get("HYBRIDGC")
    is_checkout = os.path.isdir(os.path.join(root, "crates", "hybridgc", "src"))
    path = named or os.path.join(root, "crates", "hybridgc", "out", "hybridgc") if named or is_checkout else os.path.join(root, "hybridgc")
    if os.path.isfile(path) and os.access(path, os.X_OK):
        return os.path.abspath(path)
    if named:
        raise Missing(f"HYBRIDGC names {named}, which is no program")
    if is_checkout:
        raise Missing(f"there is no program {path}; ./hybridgc proves and builds it, once, and HYBRIDGC=PATH names another one")
    raise Missing(f"there is no program {path}; it comes in the archive that ./dist makes, and HYBRIDGC=PATH names another one")


def command() -> str:
    """The name of the command that runs, for messages."""
    return os.path.join("tools", os.path.basename(sys.argv[0]))


def fail(message: object, status: int = 1) -> NoReturn:
    """Ends the command with a message: status 1 for a failure, and 2 for a mistake in how it was called."""
    # What a progress has left of its line goes.
    clear = "\r\x1b[K" if sys.stderr.isatty() else ""
    print(f"{clear}{command()}: {message}", file=sys.stderr)
    sys.exit(status)


def quoted(field: Field) -> bytes:
    """A field as a record writes it: in quotes if it has a comma, a quote or a line end in it."""
    if isinstance(field, int):
        return b"%d" % field
    if isinstance(field, str):
        field = field.encode("utf-8", "surrogateescape")
    return b'"' + field.replace(b'"', b'""') + b'"' if _STOP.search(field) else bytes(field)


def record_of(*fields: Field) -> Record:
    """The record of these fields. A record of one empty text is two quotes, since an empty line is no record."""
    return b",".join(map(quoted, fields)) or b'""'


def fields_of(record: Record) -> list[bytes]:
    """The fields of a record, without their quotes."""
    if b'"' not in record:
        return record.split(b",")
    fields, at = [], 0
    while at <= len(record):
        it = _FIELD.match(record, at)
        assert it
        fields.append(it[3] if it[1] is None else it[1].replace(b'""', b'"') + it[2])
        at = it.end() + 1
    return fields


def more_after(record: Record) -> int:
    """How many records of an answer follow its first one."""
    if record[:1].isdigit() and b",rows," not in record:
        return 0
    head = record.split(b",", 6)
    if head[0] in (b"holds", b"tables"):
        return int(head[1]) + (head[0] == b"holds")
    if head[0] == b"total":
        return 5
    if len(head) >= 4 and head[2] == b"rows":
        return int(head[3])
    if len(head) >= 6 and head[2] == b"at" and head[4] == b"rows":
        return int(head[5])
    return 0


def start(words: Sequence[str]) -> "subprocess.Popen[bytes]":
    """Starts a program with pipes. A Ctrl-C is for the tool alone, so the program has a group of its own; it ends when its input does."""
    return subprocess.Popen(words, stdin=subprocess.PIPE, stdout=subprocess.PIPE, stderr=subprocess.PIPE, bufsize=0, start_new_session=True)


class Framer:
    """Parts bytes that come piece by piece into records, as the program's CSV reader does. A record that is longer than `longest` bytes
    is dropped, and `feed` returns None in its place."""

    def __init__(self, longest: Optional[int] = None):
        self.longest = longest
        self._kept = bytearray()
        self._is_dropped = False
        # Where the last byte was: at the start of a field, in a plain one, in quotes, or just after a quote in quotes.
        self._state = "start"

    def feed(self, piece: bytes) -> list[Optional[Record]]:
        """Returns the records that this piece ends."""
        if b'"' in piece or b"\r" in piece or self._state == "quoted":
            return self._feed_slowly(piece)
        first, *lines = piece.split(b"\n")
        self._keep(first)
        last = lines.pop() if lines else None
        if last is None:
            ended = []
        else:
            ended = self._end()
            ended += [None if self.longest and len(line) > self.longest else line for line in lines if line]
            self._keep(last)
        if piece:
            self._state = "start" if piece[-1:] in (b",", b"\n") else "plain"
        return ended

    def _feed_slowly(self, piece: bytes) -> list[Optional[Record]]:
        ended, state, begin, at = [], self._state, 0, 0
        for stop in _STOP.finditer(piece):
            here, byte = stop.start(), stop[0]
            if state == "quoted":
                state = "after" if byte == b'"' else state
            else:
                state = "plain" if here > at else state
                if byte == b'"':
                    state = "plain" if state == "plain" else "quoted"
                else:
                    state = "start"
                    if byte != b",":
                        self._keep(piece[begin:here])
                        ended += self._end()
                        begin = here + 1
            at = here + 1
        self._state = "plain" if state != "quoted" and at < len(piece) else state
        self._keep(piece[begin:])
        return ended

    def _keep(self, part: bytes) -> None:
        if self._is_dropped or self.longest and len(self._kept) + len(part) > self.longest:
            self._kept.clear()
            self._is_dropped = True
        else:
            self._kept += part

    def _end(self) -> list[Optional[Record]]:
        record = None if self._is_dropped else bytes(self._kept)
        self._kept.clear()
        self._is_dropped = False
        return [] if record == b"" else [record]

    def finish(self) -> list[Optional[Record]]:
        """Returns the record that the end of all bytes ends, if one has begun. A quote that is open is closed."""
        if self._state == "quoted":
            self._keep(b'"')
        self._state = "start"
        return self._end()

    def has_begun(self) -> bool:
        """Whether a record has begun and not ended."""
        return self._is_dropped or bool(self._kept)


class Answers:
    """Parts bytes that come piece by piece into answers, each of which is the list of its records."""

    def __init__(self) -> None:
        self._framer = Framer()
        self._answer: list[Record] = []
        self._missing = 0

    def feed(self, piece: bytes) -> list[list[Record]]:
        """Returns the answers that this piece ends."""
        ended = []
        for record in self._framer.feed(piece):
            assert record is not None
            self._missing = self._missing - 1 if self._answer else more_after(record)
            self._answer.append(record)
            if not self._missing:
                ended.append(self._answer)
                self._answer = []
        return ended


class Live:
    """A conversation with a process of its own. Records may be sent before the answers to others are read; up to 64 KB of them at once
    cannot block. Options are those of `live`, as "--buckets", "7"."""

    def __init__(self, *options: str, path: Optional[str] = None):
        self.process = start([path or program(), "live", *options])
        self._answers = Answers()
        self._ready: deque[list[Record]] = deque()

    def send(self, *records: Record) -> None:
        """Sends records, of which no answer is waited for."""
        assert self.process.stdin
        text = memoryview(b"\n".join(records) + b"\n")
        try:
            while text:
                text = text[self.process.stdin.write(text) :]
        except BrokenPipeError:
            raise self.ended() from None

    def answer(self) -> list[Record]:
        """Waits for the next answer."""
        assert self.process.stdout
        while not self._ready:
            piece = self.process.stdout.read(PIECE)
            if not piece:
                raise self.ended()
            self._ready += self._answers.feed(piece)
        return self._ready.popleft()

    def ask(self, *fields: Field) -> list[Record]:
        """Sends a record and waits for its answer."""
        self.send(record_of(*fields))
        return self.answer()

    def end(self) -> list[Record]:
        """Ends the conversation, and returns the totals, which are its last answer."""
        assert self.process.stdin
        self.process.stdin.close()
        totals = self.answer()
        if self.process.wait():
            raise self.ended()
        self._close()
        return totals

    def kill(self) -> None:
        """Ends the process at once."""
        self.process.kill()
        self.process.wait()
        self._close()

    def ended(self) -> Ended:
        """Why the program has ended, which it is waited for."""
        assert self.process.stderr
        said = self.process.stderr.read().decode(errors="replace").strip()
        status = self.process.wait()
        self._close()
        return Ended(status, said)

    def _close(self) -> None:
        for stream in (self.process.stdin, self.process.stdout, self.process.stderr):
            try:
                if stream:
                    stream.close()
            except BrokenPipeError:
                pass


class Progress:
    """How far a file is read, on a terminal: one line, which is renewed a few times a second. Elsewhere nothing is written."""

    def __init__(self, what: str):
        self._what = what
        self._is_shown = sys.stderr.isatty()
        self._next = time.monotonic() + 0.5
        self._is_there = False

    def tell(self, rows: int, part: float) -> None:
        """So many rows are done, which are this part of all."""
        if self._is_shown and time.monotonic() >= self._next:
            self._next = time.monotonic() + 0.2
            self._is_there = True
            print(f"\r{self._what} {rows:,} rows, {min(part, 1):.0%}\x1b[K", end="", file=sys.stderr, flush=True)

    def __del__(self) -> None:
        if self._is_there:
            print("\r\x1b[K", end="", file=sys.stderr, flush=True)


class BadScript(Exception):
    """A script that cannot be loaded: a record of it breaks a rule or was refused, which the text says."""


def records_of(stream: BinaryIO) -> Iterator[Record]:
    """The records of a script. A byte order mark is dropped, and the end of the bytes ends a record."""
    framer = Framer()
    begin = stream.read(3).removeprefix(b"\xef\xbb\xbf")
    read = getattr(stream, "read1", stream.read)
    for piece in chain([begin], iter(lambda: read(PIECE // 4), b"")):
        yield from framer.feed(piece)  # type: ignore[misc]
    yield from framer.finish()  # type: ignore[misc]


def of_version_2(record: Record) -> Record:
    """A table record whose columns are counted, as in version 1, with a letter for each column."""
    fields = record.split(b",")
    return b",".join([*fields[:2], b"n" * int(fields[2])]) if len(fields) == 3 and re.fullmatch(b"[1-8]", fields[2]) else record


def load(live: Live, records: Iterable[Record], turn: int = 64) -> "dict[bytes, bytes]":
    """Runs the records of a script, and ends what they leave open. Returns its tables, with a letter for each column. The conversation is
    one of version 2, whatever the script is."""
    tables: dict[bytes, bytes] = {}
    sessions: set[bytes] = set()
    live.ask("version", "2")
    number, batch = 0, []
    for record in chain(records, [None]):
        if record is not None and (number or record != b"version,2"):
            batch.append(of_version_2(record) if record.startswith(b"table,") else record)
        number += 1
        # The answers to some records are read before more of them go, so neither side waits for the other.
        if batch and (len(batch) >= turn or record is None):
            live.send(*batch)
            for at, sent in enumerate(batch, number - len(batch) + (record is not None)):
                _note(tables, sessions, at, sent, live.answer()[0])
            batch = []
    for session in sessions:
        live.send(session + b",rollback", session + b",close")
        live.answer(), live.answer()
    return tables


def _note(tables: "dict[bytes, bytes]", sessions: "set[bytes]", number: int, record: Record, answer: Record) -> None:
    """Notes what became of a record of a script: the table that it declares, or the session that it leaves open."""
    said = answer.split(b",", 6)
    word = said[4] if said[2:3] == [b"at"] else said[2] if len(said) > 2 else b""
    if said[0] == b"bad" or word == b"refused":
        why = b",".join(said[2:]).decode()
        raise BadScript(f"record {number}: {why}: {record[:100].decode(errors='replace')}")
    fields = record.split(b",", 2)
    if said[0] == b"declared":
        tables[fields[1]] = fields[2]
    elif word == b"begun":
        sessions.add(fields[0])
    elif word in (b"committed", b"ended", b"undone"):
        sessions.discard(fields[0])
