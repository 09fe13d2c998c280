"""How many versions a script holds over its records, without a collector and with each of them.

The script is replayed once for each curve, with rounds of the curve's collectors at equal distances. The replies say how many versions
there are: a write makes one for each key of its transaction, a rollback takes its own away, and a report says how many were removed.
"""

from __future__ import annotations

from collections.abc import Callable, Iterable, Iterator, Sequence
from typing import NamedTuple

from hybridgc import fields_of
from mirror import COLLECTORS

# The collectors of each curve. In the last one the rounds are those that the script asks for itself.
CURVES: dict[str, tuple[str, ...]] = {
    "no collector": (),
    "group": ("group",),
    "table": ("table",),
    "interval": ("interval",),
    "all three": COLLECTORS,
}
AS_WRITTEN = "the script's own rounds"
# So many rounds of each collector are made, if there are statements enough between them.
ROUNDS = 100
MOST_RECORDS = 1_048_576


class Unsummed(Exception):
    """The replies do not add up to the totals."""


class Statement(NamedTuple):
    """What of a record decides how many versions there are. A version and a table record have no word."""

    session: bytes
    word: bytes
    key: tuple[bytes, ...]


class Curve:
    """The versions that are held after each statement of a replay. Rounds are counted with the statement before them."""

    def __init__(self) -> None:
        self.counts: list[int] = []
        self.now = self.made = self.undone = 0
        self.writes: dict[bytes, set[tuple[bytes, ...]]] = {}

    def take(self, statement: Statement, answer: Sequence[bytes]) -> None:
        """Takes a statement, and the first record of its reply without the session and the place."""
        session, word, key = statement
        if word == b"gc":
            self.now -= int(answer[4])
            if self.counts:
                self.counts[-1] = self.now
            return
        if answer[0] in (b"stored", b"gone"):
            self.write(self.writes[session], key)
        elif answer[0] == b"at" and answer[2] in (b"stored", b"gone"):
            self.write(set(), key)
        elif word == b"begin":
            self.writes[session] = set()
        elif word == b"rollback":
            self.undone += len(self.writes[session])
            self.now -= len(self.writes.pop(session))
        elif word == b"commit":
            del self.writes[session]
        self.counts.append(self.now)

    def write(self, keys: set[tuple[bytes, ...]], key: tuple[bytes, ...]) -> None:
        """Counts a write, if it is the first one of its key in its transaction."""
        if key not in keys:
            keys.add(key)
            self.made += 1
            self.now += 1

    def check(self, totals: dict[bytes, int]) -> None:
        """Compares with the totals. What is open at the end is rolled back without a reply."""
        undone = self.undone + sum(map(len, self.writes.values()))
        if (self.made, undone) != (totals[b"made"], totals[b"undone"]):
            raise Unsummed("the replies do not add up to the totals of the same replay")


def statement_of(record: bytes) -> Statement:
    """Returns what of a record decides how many versions there are."""
    fields = fields_of(record)
    if fields[0] in (b"version", b"table"):
        return Statement(b"", b"", ())
    return Statement(fields[0], fields[1], tuple(fields[2:4]))


def with_rounds(script: Iterable[tuple[bytes, Statement]], every: int, kinds: Sequence[str]) -> Iterator[tuple[bytes, Statement]]:
    """Yields the records of a script, with a round of each collector after every so many statements."""
    statements = 0
    for record, statement in script:
        yield record, statement
        if statement.word:
            statements += 1
            if statements % every == 0:
                yield from ((b"1,gc,%b" % kind.encode(), Statement(b"1", b"gc", ())) for kind in kinds)


def curve_of(script: Sequence[tuple[bytes, Statement]], replay: Callable[[bytes], Iterable[bytes]]) -> list[int]:
    """Replays a script, and returns how many versions there are after each of its statements."""
    curve, totals, last = Curve(), {}, b""
    for record in replay(b"\n".join(record for record, _ in script) + b"\n"):
        session, place, *answer = record.split(b",", 7)
        if session == b"total":
            totals[place] = int(answer[0])
        elif place != last:
            last = place
            curve.take(script[int(place) - 1][1], answer)
    curve.check(totals)
    return curve.counts


def curves_of(records: Iterable[bytes], replay: Callable[[bytes], Iterable[bytes]]) -> tuple[dict[str, list[int]], int]:
    """Returns the curves of a script by name, and after how many statements each collector makes a round."""
    script = [(record, statement_of(record)) for record in records]
    bare = [(record, statement) for record, statement in script if statement.word != b"gc"]
    statements = sum(statement.word != b"" for _, statement in bare)
    most = max(min(ROUNDS, (MOST_RECORDS - len(bare)) // len(COLLECTORS)), 1)
    every = max(-(-statements // most), 1)
    curves = {name: curve_of(list(with_rounds(bare, every, kinds)), replay) for name, kinds in CURVES.items()}
    if len(bare) < len(script):
        curves[AS_WRITTEN] = curve_of(script, replay)
    return curves, every
