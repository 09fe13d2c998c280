"""Runs the interleavings of a spec over one conversation with the program, and gathers their outcomes.

An outcome is what a user of PostgreSQL's isolation tester sees: the answers to all steps by session, and those to the last reads. Of an
answer it leaves out what only counts: places, snapshots, and the numbers of commits and transactions. So two interleavings have one
outcome if each session saw the same.
"""

from __future__ import annotations

import functools
import math
from collections import Counter
from typing import Callable, Iterator, NamedTuple, Sequence

from hybridgc import Live, fields_of, record_of
from spec import OWN_SESSION, ROLLBACK, Line, Spec, Step

SKIPPED = "skipped"
# The bytes of records whose answers are not read yet: less than a pipe holds.
WINDOW = 16384


class BadRecord(Exception):
    """A record that breaks a rule of the grammar."""

    def __init__(self, line: Line, code: str):
        super().__init__(f"line {line.line}: the record {line.record.decode(errors='replace')} breaks the rule {code} of docs/FORMATS.md")


class Asked(NamedTuple):
    """What was said and answered: the step's name, the record and the answer."""

    step: str
    record: str
    answer: str


# For each session, and for the last reads, what was said and answered.
Outcome = tuple[tuple[Asked, ...], ...]


class Found(NamedTuple):
    """An outcome, how many interleavings have it, and the first of them."""

    outcome: Outcome
    times: int
    order: tuple[str, ...]


def count_of(spec: Spec) -> int:
    """How many interleavings there are."""
    if spec.permutations:
        return len(spec.permutations)
    sizes = [len(session.steps) for session in spec.sessions]
    return math.factorial(sum(sizes)) // math.prod(map(math.factorial, sizes))


def orders_of(spec: Spec) -> Iterator[Sequence[Step]]:
    """The orders that the spec names, or all that keep the order within each session."""
    if spec.permutations:
        yield from spec.permutations
        return
    done = [0] * len(spec.sessions)
    order: list[Step] = []
    total = len(spec.steps())

    def rest() -> Iterator[Sequence[Step]]:
        if len(order) == total:
            yield order
        for i, session in enumerate(spec.sessions):
            if done[i] < len(session.steps):
                order.append(session.steps[done[i]])
                done[i] += 1
                yield from rest()
                done[i] -= 1
                order.pop()

    yield from rest()


@functools.lru_cache(4096)
def text_of(data: bytes) -> str:
    """Bytes as a terminal shows them."""
    return data.decode("utf-8", "backslashreplace").replace("\r", "\\r").replace("\n", "\\n")


def plain(line: Line, answer: list[bytes], names: Sequence[str]) -> str:
    """An answer without what only counts. `names` are those of the sessions."""
    first = fields_of(answer[0])
    if first[0] == b"bad":
        raise BadRecord(line, first[2].decode())
    if first[0] == b"holds":
        return "swept"
    rest = first[4:] if first[2] == b"at" else first[2:]
    word = rest[0]
    if word == b"rows":
        rows = [text_of(record_of(*fields_of(record)[3:])) for record in answer[1:]]
        return f"rows: {'; '.join(rows) or 'none'}"
    if word == b"refused":
        whose = int(rest[2]) if rest[1] == b"open" else 0
        return f"refused,open by {names[whose - 1]}" if whose else "refused,newer" if rest[1] == b"newer" else text_of(record_of(*rest))
    if word == b"begun":
        return "begun"
    if b"committed" in rest[:-1] and word != b"row":
        return text_of(record_of(*rest[:-1]))
    return text_of(record_of(*rest))


class Conversation:
    """Sends records ahead of the answers, as far as a pipe holds them."""

    def __init__(self) -> None:
        self.live = Live()
        self.waiting: list[Callable[[list[bytes]], None]] = []
        self.unsent: list[bytes] = []
        self.size = 0

    def say(self, record: bytes, hear: Callable[[list[bytes]], None]) -> None:
        """Sends a record, now or later; `hear` gets its answer."""
        if self.size + len(record) > WINDOW:
            self.settle()
        self.unsent.append(record)
        self.waiting.append(hear)
        self.size += len(record) + 1

    def settle(self) -> None:
        """Waits until all that was said has been answered."""
        if self.unsent:
            self.live.send(*self.unsent)
        for hear in self.waiting:
            hear(self.live.answer())
        self.unsent, self.waiting, self.size = [], [], 0


class Runner:
    """Runs interleavings of one spec, each from the same rows."""

    def __init__(self, spec: Spec):
        self.spec = spec
        self.names = [session.name for session in spec.sessions] + [""] * (OWN_SESSION - len(spec.sessions))
        self.talk = Conversation()
        self.open: dict[int, bytes] = {}  # what ends the transaction or cursor of each session that has one
        self.out: set[int] = set()  # the sessions that gave up a transaction and have not come to its end
        self.written = self._written()
        for line in spec.declarations():
            self._tell(line, line.record)
        self.talk.settle()

    def close(self) -> None:
        """Ends the conversation."""
        self.talk.live.kill()

    def run(self, order: Sequence[Step]) -> list[list[list[str]]]:
        """Runs one interleaving from the first rows. What was asked and answered is in the lists that it returns once `settle` has run."""
        for table, key in self.written:
            self.talk.say(b"%d,del,%s,%s" % (OWN_SESSION, table, key), lambda _: None)
        for line in self.spec.first_rows():
            self._tell(line, b"%d,%s" % (OWN_SESSION, line.record))
        said: list[list[list[str]]] = [[] for _ in range(len(self.spec.sessions) + 1)]
        for session in self.spec.sessions:
            self._do(said, "setup", session.number, session.setup)
        for step in order:
            self._do(said, step.name, step.session, step.lines)
        for session in self.spec.sessions:
            self._do(said, "teardown", session.number, session.teardown)
        for number, end in self.open.items():
            self.talk.say(b"%d,%s" % (number, end), lambda _: None)
        self.open.clear()
        self.out.clear()
        for line in self.spec.teardown:
            self._say(said[-1], "", OWN_SESSION, line)
        return said

    def _written(self) -> list[tuple[bytes, bytes]]:
        """The table and key of each record that the spec may write."""
        puts = [fields_of(line.record) for line in self.spec.lines() if line.word() == b"put"]
        return list(dict.fromkeys((fields[1], fields[2]) for fields in puts if len(fields) > 2))

    def _tell(self, line: Line, record: bytes) -> None:
        """Sends a record whose answer is no part of an outcome."""

        def hear(answer: list[bytes]) -> None:
            if answer[0].startswith(b"bad,"):
                raise BadRecord(line, fields_of(answer[0])[2].decode())

        self.talk.say(record, hear)

    def _do(self, said: list[list[list[str]]], step: str, session: int, lines: list[Line]) -> None:
        """Runs the records of a step."""
        gives_up = self.spec.client_of(self.spec.sessions[session - 1]) == ROLLBACK
        for line in lines:
            word = line.word()
            if session in self.out:
                said[session - 1].append([step, text_of(line.record), SKIPPED])
                if word in (b"commit", b"rollback"):
                    self.out.discard(session)
                continue
            asked = self._say(said[session - 1], step, session, line)
            if word in (b"begin", b"open"):
                self.open[session] = b"rollback" if word == b"begin" else b"close"
            elif word in (b"commit", b"rollback", b"close"):
                self.open.pop(session, None)
            elif gives_up and word in (b"put", b"del") and session in self.open:
                self.talk.settle()
                if asked[2].startswith("refused"):
                    self._give_up(session, asked)

    def _give_up(self, session: int, asked: list[str]) -> None:
        """Rolls back the transaction of a session whose write was refused. The rest of it is skipped."""
        self.talk.say(b"%d,%s" % (session, self.open.pop(session)), lambda _: None)
        self.out.add(session)
        asked[2] += ": rolls back"

    def _say(self, said: list[list[str]], step: str, session: int, line: Line) -> list[str]:
        """Sends a record of a session, whose answer comes in its place of what was said."""
        asked = [step, text_of(line.record), ""]
        said.append(asked)

        def hear(answer: list[bytes]) -> None:
            asked[2] = plain(line, answer, self.names)

        self.talk.say(b"%d,%s" % (session, line.record), hear)
        return asked


def outcomes_of(spec: Spec, heard: Callable[[int], None] = lambda _: None, last_alone: bool = False) -> list[Found]:
    """Runs all interleavings and returns their outcomes, the most frequent first. With `last_alone` an outcome is what the last reads saw.
    `heard` is told how many have run."""
    runner = Runner(spec)
    counts: Counter[Outcome] = Counter()
    first: dict[Outcome, tuple[int, tuple[str, ...]]] = {}
    ran: list[tuple[tuple[str, ...], list[list[list[str]]]]] = []

    def gather() -> None:
        runner.talk.settle()
        for order, said in ran:
            outcome = tuple(tuple(Asked(*asked) for asked in part) for part in (said[-1:] if last_alone else said))
            counts[outcome] += 1
            first.setdefault(outcome, (len(first), order))
        ran.clear()

    try:
        for done, order in enumerate(orders_of(spec), 1):
            ran.append((tuple(step.name for step in order), runner.run(order)))
            if done % 100 == 0:
                gather()
                heard(done)
        gather()
    finally:
        runner.close()
    by_count = sorted(counts, key=lambda outcome: (-counts[outcome], first[outcome][0]))
    return [Found(outcome, counts[outcome], first[outcome][1]) for outcome in by_count]
