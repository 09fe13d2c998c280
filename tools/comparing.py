"""Compares the replies to a script with what another database says to the same statements, in the same order.

Three differences are what the semantics allow, and each is looked up in what the store has committed before it is named so:

    came and went   the store refuses a write (`newer`) of a row that was put and deleted again since the snapshot, which had none;
                    PostgreSQL, which looks for a row that is there, stores it. The other database takes its write back and goes on.
    which refusal   both refuse a write that another transaction has open and that was committed since the snapshot, too. The store looks
                    for the open write first, PostgreSQL for the commit.
    one writer      the other database refuses a write because another session writes or has written, be it another row. The comparison of
                    the script ends there.
"""

from __future__ import annotations

import dataclasses
import io
import subprocess
from typing import Iterable, NamedTuple, Optional

from answers import Reply, replies_of
from databases import NEWER, OPEN, STORED, Database, Fields, Said, text_of
from hybridgc import Ended, fields_of, program, records_of

CAME_AND_WENT, WHICH_REFUSAL, ONE_WRITER = "came and went", "which refusal", "one writer"
REFUSALS = (OPEN, NEWER)


class Compared(NamedTuple):
    """A statement and what both said. `why` names a difference that is allowed, and is None of one that is not."""

    place: int
    statement: Fields
    ours: Said
    theirs: Said
    why: Optional[str] = None

    def is_same(self) -> bool:
        """Whether both said the same."""
        return self.ours == self.theirs


@dataclasses.dataclass
class Comparison:
    """What a script's comparison has found. What was left out are rounds of collectors, and refusals of tables that were not declared."""

    compared: list[Compared] = dataclasses.field(default_factory=list)
    left_out: int = 0

    def differences(self) -> list[Compared]:
        """The statements to which the two said something else."""
        return [one for one in self.compared if not one.is_same()]

    def wrong(self) -> list[Compared]:
        """The differences that nothing allows."""
        return [one for one in self.differences() if not one.why]


class History:
    """What the store has committed of each record, by its replies."""

    def __init__(self) -> None:
        self._versions: dict[tuple[str, str], list[tuple[int, bool]]] = {}  # the group of each write, and whether there was a row after it
        self._snapshots: dict[int, int] = {}
        self._writes: dict[int, dict[tuple[str, str], bool]] = {}

    def note(self, fields: Fields, reply: Reply) -> None:
        """Takes notice of a reply."""
        word = fields[0]
        if reply.word == "begun":
            self._snapshots[reply.session] = int(reply.rest[0])
            self._writes[reply.session] = {}
        elif reply.word == "stored" or word == "del" and reply.word == "gone":
            record = (fields[1], fields[2])
            if reply.group is None:
                self._writes[reply.session][record] = word == "put"
            else:
                self._versions.setdefault(record, []).append((reply.group, word == "put"))
        elif word == "commit" and reply.group is not None:
            for record, is_row in self._writes[reply.session].items():
                self._versions.setdefault(record, []).append((reply.group, is_row))

    def why(self, fields: Fields, session: int, ours: Said, theirs: Said, has_one_writer: bool) -> Optional[str]:
        """Names the difference if it is allowed."""
        if fields[0] not in ("put", "del"):
            return None
        versions = self._versions.get((fields[1], fields[2]), [])
        newer = [is_row for group, is_row in versions if group > self._snapshots.get(session, 0)]
        seen = [is_row for group, is_row in versions if group <= self._snapshots.get(session, 0)]
        if ours == NEWER and theirs == STORED and newer and not newer[-1] and not (seen and seen[-1]):
            return CAME_AND_WENT
        if ours == OPEN and theirs == NEWER and newer:
            return WHICH_REFUSAL
        if has_one_writer and theirs in REFUSALS:
            return ONE_WRITER if ours not in REFUSALS else WHICH_REFUSAL
        return None


class BadScript(Exception):
    """A script that the store refuses. The text says which record, and why."""


def texts_of(record: bytes) -> Fields:
    """The fields of a record, as texts."""
    return [text_of(field) for field in fields_of(record)]


def replies_to(script: bytes) -> Iterable[Reply]:
    """What the store replies to a script."""
    done = subprocess.run([program(), "replay"], input=script, capture_output=True)
    if done.returncode in (3, 6):
        raise BadScript(done.stderr.decode().splitlines()[0])
    if done.returncode:
        raise Ended(done.returncode, done.stderr.decode())
    return replies_of(map(texts_of, records_of(io.BytesIO(done.stdout))))


def said_of(reply: Reply) -> Said:
    """A reply without places, snapshots and numbers of commits."""
    if reply.is_refused:
        return Said(f"refused {reply.rest[0]}")
    return Said(reply.word, tuple(map(tuple, reply.rows)))


def tables_of(records: list[bytes]) -> dict[str, str]:
    """The tables of a script, with the kinds of their columns."""
    declared = [texts_of(record) for record in records if record.startswith((b"table,", b'"table",'))]
    is_old = texts_of(records[0])[0] != "version" if records else True
    return {name: "n" * int(columns) if is_old else columns for _, name, columns in declared}


def compare(script: bytes, database: Database) -> Comparison:
    """Runs a script here and there. It stops after a difference that leaves the two apart."""
    found, history = Comparison(), History()
    records = list(records_of(io.BytesIO(script)))
    replies = replies_to(script)
    database.begin_script(tables_of(records))
    try:
        for reply in replies:
            _, *fields = texts_of(records[reply.place - 1])
            ours = said_of(reply)
            if fields[0] == "gc" or ours.what == "refused undeclared":
                found.left_out += 1
                continue
            theirs = database.ask(reply.session, fields)
            why = history.why(fields, reply.session, ours, theirs, database.has_one_writer) if ours != theirs else None
            found.compared.append(Compared(reply.place, [str(reply.session), *fields], ours, theirs, why))
            if why == CAME_AND_WENT:
                database.undo(reply.session)
            elif ours != theirs and why != WHICH_REFUSAL:
                break
            history.note(fields, reply)
    finally:
        database.end_script()
    return found
