"""Whole scripts in a conversation of tools/shell: `Load` sends one, `save` writes one that puts back the rows that are seen now."""

from __future__ import annotations

import os
from collections import Counter, deque
from collections.abc import Callable, Iterable, Iterator
from contextlib import closing
from dataclasses import dataclass, field
from typing import BinaryIO

from answers import reply_of
from conversation import Conversation, Exchange
from explain import GREATEST_KEY, why_bad, why_refused
from hybridgc import of_version_2, record_of
from mirror import SESSIONS, Mirror
from rows import cut, shown, wrapped
from typed import decoded, numbered_records

# So many records and bytes are sent before their answers are read. They fit a pipe, so that neither side waits for the other.
MOST_AHEAD = 500
BYTES_AHEAD = 32_768
# How many refused and how many bad records are shown.
SHOWN = 5
# How many rows a fetch asks for.
ROWS = 1_000
# What a replay reads.
SCRIPT_BYTES = 16_777_216
SCRIPT_RECORDS = 1_048_576


class Stopped(Exception):
    """The user has stopped it."""


@dataclass
class Load:
    """A script that is sent, and what was answered."""

    conversation: Conversation
    is_stopped: Callable[[], bool]
    skipped: int = 0
    answered: int = 0
    refused: Counter[str] = field(default_factory=Counter)
    bad: Counter[str] = field(default_factory=Counter)
    first: dict[str, list[str]] = field(default_factory=lambda: {"refused": [], "bad": []})

    def send(self, path: str) -> None:
        """Sends the records of a file. Declarations that the conversation has already are left out."""
        with open(path, "rb") as lines:
            self.send_lines(lines)

    def send_lines(self, lines: Iterable[bytes]) -> None:
        """Sends the records of lines."""
        ahead: deque[tuple[int, bytes]] = deque()
        size = 0
        for number, (line, record) in enumerate(numbered_records(lines)):
            record = self.fitted(record, number == 0)
            if ahead and (len(ahead) >= MOST_AHEAD or size + len(record) > BYTES_AHEAD):
                self.read(ahead)
                size = 0
                if self.is_stopped():
                    raise Stopped
            if self.is_declared(record, ahead):
                self.skipped += 1
                continue
            ahead.append((line, record))
            size += len(record) + 1
        self.read(ahead)

    def fitted(self, record: bytes, is_first: bool) -> bytes:
        """Returns a record as this conversation needs it: in version 2 a table of version 1 has a letter for each column."""
        if is_first:
            self.conversation.make_room_for(record)
        is_of_2 = self.conversation.mirror.version == 2
        return of_version_2(record) if is_of_2 and record.startswith(b"table,") else record

    def is_declared(self, record: bytes, ahead: deque[tuple[int, bytes]]) -> bool:
        """Tells whether a record declares what is declared already."""
        if not record.startswith((b"table,", b"version,")):
            return False
        self.read(ahead)
        return record in declarations(self.conversation.mirror)

    def read(self, ahead: deque[tuple[int, bytes]]) -> None:
        """Sends the records that wait, and reads their answers."""
        if ahead:
            self.conversation.send(*(record for _, record in ahead))
        while ahead:
            line, record = ahead.popleft()
            self.note(line, self.conversation.answer(record))

    def note(self, line: int, exchange: Exchange) -> None:
        """Counts an answer, and keeps the first records that were bad or refused."""
        head, mirror = exchange.parts[0], self.conversation.mirror
        if head[0] == "bad":
            self.bad[head[2]] += 1
            self.keep("bad", line, exchange.fields, lambda: why_bad(head[2], exchange.fields, mirror))
        elif head[0] not in ("declared", "total") and (reply := reply_of(exchange.parts)).is_refused:
            self.refused[reply.rest[0]] += 1
            self.keep("refused", line, exchange.fields, lambda: why_refused(reply.rest, exchange.fields, mirror))
        else:
            self.answered += 1

    def keep(self, what: str, line: int, fields: list[str], why: Callable[[], str]) -> None:
        """Keeps one of the first records that were refused or bad, with the reason."""
        if len(self.first[what]) < SHOWN:
            record = cut(shown(decoded(record_of(*fields))), 40)
            self.first[what].append(f"line {line}: {record}: {why()}")

    def summary(self, path: str, seconds: float, room: int) -> list[str]:
        """Returns what was answered, in a few lines."""
        refused, bad = sum(self.refused.values()), sum(self.bad.values())
        records = counted(self.skipped + self.answered + refused + bad, "record")
        said = f"{path}: {records} in {seconds:.2f} s: {self.answered} answered, {refused} refused, {bad} bad"
        if self.skipped:
            said += f", {self.skipped} left out: declared already"
        lines = wrapped(said, room)
        for what, counts in (("refused", self.refused), ("bad", self.bad)):
            if counts:
                lines.append(f"{what}: " + ", ".join(f"{name} {count}" for name, count in counts.most_common()))
                for first in self.first[what]:
                    begin, *rest = wrapped(first, room - 6)
                    lines += [f"  {begin}", *(f"      {line}" for line in rest)]
                more = sum(counts.values()) - len(self.first[what])
                lines += [f"  and {more} more"] * (more > 0)
        return lines


def counted(count: int, noun: str) -> str:
    """Returns a count with its noun: `1 row`, `2 rows`."""
    return f"{count} {noun}{'s' * (count != 1)}"


def declarations(mirror: Mirror) -> list[bytes]:
    """Returns the records that declare what is declared."""
    version = [b"version,2"] if mirror.version == 2 else []
    return version + [record_of("table", name, kinds if mirror.version == 2 else len(kinds)) for name, kinds in mirror.tables.items()]


def save(path: str, conversation: Conversation, is_stopped: Callable[[], bool]) -> str:
    """Writes a script that puts back the rows that are committed now, and returns what it has, in words.

    The rows are read by a cursor on each table, in a session that has nothing open. Nothing is left of the file if it is stopped.
    """
    mirror = conversation.mirror
    free = next((number for number in range(SESSIONS, 0, -1) if not mirror.session(number).mark), None)
    if free is None:
        raise OSError(f"each of the {SESSIONS} sessions has a transaction or a cursor open; end one first")
    unfinished = f"{path}.unfinished"
    try:
        with open(unfinished, "wb") as file:
            rows = write_script(file, conversation, free, is_stopped)
            size = file.tell()
        os.replace(unfinished, path)
    except BaseException:
        if os.path.exists(unfinished):
            os.remove(unfinished)
        raise
    said = f"{counted(len(mirror.tables), 'table')} and {counted(rows, 'row')}, {size} bytes"
    if size > SCRIPT_BYTES or rows + len(declarations(mirror)) > SCRIPT_RECORDS:
        said += f"; that is more than a replay reads ({SCRIPT_BYTES} bytes, {SCRIPT_RECORDS} records), but \\load does"
    writers = [str(number) for number in mirror.open_sessions() if mirror.session(number).in_transaction]
    if writers:
        said += f"; what is not committed is not in it, and a transaction is open in session {', '.join(writers)}"
    return said


def write_script(file: BinaryIO, conversation: Conversation, session: int, is_stopped: Callable[[], bool]) -> int:
    """Writes the version, the tables and a put for each row, and returns how many rows there are."""
    for record in declarations(conversation.mirror):
        file.write(record + b"\n")
    count = 0
    for name in conversation.mirror.tables:
        with closing(rows_of(name, conversation, session, is_stopped)) as rows:
            for row in rows:
                file.write(record_of("1", "put", name, *row) + b"\n")
                count += 1
    return count


def rows_of(name: str, conversation: Conversation, session: int, is_stopped: Callable[[], bool]) -> Iterator[list[str]]:
    """Yields the rows of a table as a new snapshot sees them."""
    conversation.ask(record_of(session, "open", name, 0, GREATEST_KEY))
    try:
        is_more = True
        while is_more:
            if is_stopped():
                raise Stopped
            reply = reply_of(conversation.ask(record_of(session, "fetch", ROWS)).parts)
            yield from reply.rows
            is_more = len(reply.rows) == ROWS
    finally:
        conversation.ask(record_of(session, "close"))
