"""The conversation of tools/shell: a process of the program, and what the records so far have declared and opened."""

from __future__ import annotations

from collections.abc import Sequence
from typing import NamedTuple

from hybridgc import Ended, Live
from mirror import Mirror
from typed import fields_in


class Exchange(NamedTuple):
    """A record and its answer: the records that came, the fields of the record, and those of the records that came."""

    answer: list[bytes]
    fields: list[str]
    parts: list[list[str]]


class Conversation:
    """Records that are sent and answered. Once the program has ended, each further record raises the same `Ended`."""

    def __init__(self, options: Sequence[str]) -> None:
        self.options = options
        self.live = Live(*options)
        self.mirror = Mirror()
        self.ended: Ended | None = None

    def send(self, *records: bytes) -> None:
        """Sends records, whose answers are read by `answer`, one by one."""
        if self.ended:
            raise self.ended
        try:
            self.live.send(*records)
        except Ended as ended:
            self.ended = ended
            raise

    def answer(self, record: bytes) -> Exchange:
        """Reads the answer to a record that was sent, and notes what it did."""
        try:
            answer = self.live.answer()
        except Ended as ended:
            self.ended = ended
            raise
        exchange = Exchange(answer, fields_in(record), [fields_in(part) for part in answer])
        if exchange.parts[0][0] == "bad":
            self.mirror.hear()
        else:
            self.mirror.take(exchange.fields)
        return exchange

    def ask(self, record: bytes) -> Exchange:
        """Sends a record and reads its answer."""
        self.send(record)
        return self.answer(record)

    def make_room_for(self, record: bytes) -> None:
        """Begins a new conversation if a version comes too late in this one, and nothing was declared or done so far."""
        mirror = self.mirror
        if not record.startswith(b"version,") or mirror.is_first or mirror.has_begun or mirror.tables or mirror.version == 2:
            return
        self.live.end()
        self.live = Live(*self.options)
        self.mirror = Mirror()

    def end(self) -> list[bytes]:
        """Ends the conversation, and returns the totals."""
        if self.ended:
            raise self.ended
        return self.live.end()
