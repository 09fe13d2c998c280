"""The replies of the store, parted into what they say. docs/FORMATS.md has them all."""

from __future__ import annotations

from collections.abc import Iterable, Iterator, Sequence
from dataclasses import dataclass, field

Fields = list[str]
TOTALS = ("made", "undone", "group", "table", "interval", "left")


@dataclass
class Reply:
    """The reply to a statement: `at,SNAPSHOT` and `committed,GROUP` around its answer, and the rows or held snapshots after it."""

    session: int
    place: int
    word: str
    rest: Fields
    snapshot: int | None = None
    group: int | None = None
    rows: list[Fields] = field(default_factory=list)
    held: list[Fields] = field(default_factory=list)

    @property
    def is_refused(self) -> bool:
        """Whether the statement was refused."""
        return self.word == "refused"


def head_of(fields: Sequence[str]) -> Reply:
    """Returns the reply whose first record has these fields, without its rows."""
    session, place, *answer = fields
    snapshot = group = None
    if answer[0] == "at":
        snapshot, answer = int(answer[1]), answer[2:]
    word, *rest = answer
    if word in ("stored", "gone") and rest[:1] == ["committed"]:
        group, rest = int(rest[1]), []
    elif word == "committed":
        group = int(rest[0])
    return Reply(int(session), int(place), word, rest, snapshot, group)


def reply_of(records: Sequence[Fields]) -> Reply:
    """Returns the reply that is the answer to one statement of a conversation."""
    if records[0][0] == "holds":
        records = records[1:]
    reply = head_of(records[0])
    if reply.word == "rows":
        reply.rows = [fields[3:] for fields in records[1:]]
    elif reply.word == "swept":
        reply.held = [fields[3:] for fields in records[1:]]
    elif reply.word == "row":
        reply.rows = [reply.rest]
    return reply


def replies_of(records: Iterable[Fields]) -> Iterator[Reply]:
    """Parts the records of a replay's or run's text into replies. The totals at its end are left out."""
    answer: list[Fields] = []
    missing = 0
    for fields in records:
        if missing:
            missing -= 1
        elif fields[0] == "total":
            break
        elif not (answer and fields[2] == "held" and fields[:2] == answer[0][:2]):
            if answer:
                yield reply_of(answer)
            answer = []
            reply = head_of(fields)
            missing = int(reply.rest[0]) if reply.word == "rows" else 0
        answer.append(fields)
    if answer:
        yield reply_of(answer)


def totals_of(records: Iterable[Fields]) -> dict[str, int]:
    """Returns the totals among records."""
    return {fields[1]: int(fields[2]) for fields in records if fields[0] == "total" and len(fields) == 3}


def totals_line(totals: dict[str, int]) -> str:
    """Returns the totals in a line."""
    removed = ", ".join(f"{name} {totals[name]}" for name in ("group", "table", "interval"))
    return f"versions: {totals['made']} made, {totals['undone']} undone, removed by {removed}; {totals['left']} left"
