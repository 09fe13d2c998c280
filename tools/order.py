"""The order in which a run's replies are shown: one that agrees with each session's, with the commit numbers and with the refusals.

A run prints all replies of one session after those of another. What they say orders them: group C is committed before all that reads it,
and a write that was refused because another transaction had the key open comes after that transaction's write and before its end.
"""

from __future__ import annotations

import heapq
from collections import defaultdict
from collections.abc import Sequence
from dataclasses import dataclass

from answers import Reply

READS_AND_WRITES = ("get", "put", "del", "scan")


@dataclass
class Step:
    """A record and its reply. A report of a run has no record, and a table record no reply."""

    place: int
    session: int
    fields: list[str]
    reply: Reply | None
    table: str | None = None


def number_of(reply: Reply) -> int:
    """Returns the newest group that a reply knows of."""
    known = [reply.snapshot or 0, reply.group or 0]
    if reply.word in ("begun", "refused", "swept") and reply.rest[0] not in ("open", "undeclared"):
        known.append(int(reply.rest[0] if reply.word == "begun" else reply.rest[1]))
    return max(known)


class Transactions:
    """The transactions of the sessions, counted as refusals count them: where each wrote a key, and where it ended."""

    def __init__(self, steps: Sequence[Step]) -> None:
        self.count: dict[int, int] = defaultdict(int)
        self.open: set[int] = set()
        self.wrote: dict[tuple[int, int, str, str], int] = {}
        self.ended: dict[tuple[int, int], int] = {}
        for index, step in enumerate(steps):
            if step.reply and step.fields:
                self.take(index, step, step.fields[1])

    def take(self, index: int, step: Step, word: str) -> None:
        """Notes a statement."""
        session = step.session
        if word in ("begin", "open"):
            self.count[session] += 1
            self.open.add(session)
        elif word in READS_AND_WRITES and session not in self.open:
            self.count[session] += 1
            self.ended[session, self.count[session]] = index
        elif word in ("put", "del") and step.reply.word in ("stored", "gone"):
            self.wrote.setdefault((session, self.count[session], step.fields[2], step.fields[3]), index)
        elif word in ("commit", "rollback", "close"):
            self.open.discard(session)
            self.ended[session, self.count[session]] = index


def followers(steps: Sequence[Step]) -> list[list[int]]:
    """Returns for each step the steps that have to come after it."""
    after: list[list[int]] = [[] for _ in steps]
    last: dict[tuple[int, str], int] = {}
    for index, step in enumerate(steps):
        one = (step.session, "" if step.fields else step.reply.rest[0] if step.reply else "")
        if one in last:
            after[last[one]].append(index)
        last[one] = index
    transactions = Transactions(steps)
    for index, step in enumerate(steps):
        if step.reply and step.reply.rest[:1] == ["open"] and step.reply.is_refused:
            other = (int(step.reply.rest[1]), int(step.reply.rest[2]))
            wrote = transactions.wrote.get((*other, step.fields[2], step.fields[3]))
            if wrote is not None:
                after[wrote].append(index)
            if other in transactions.ended:
                after[index].append(transactions.ended[other])
    return after


def in_commit_order(steps: Sequence[Step]) -> list[Step]:
    """Returns the steps by the newest group that each knows of, a group's commit first, and otherwise in the order of the script."""
    after = followers(steps)
    waits = [0] * len(steps)
    for indexes in after:
        for index in indexes:
            waits[index] += 1
    times = [number_of(step.reply) if step.reply else 0 for step in steps]

    def key(index: int) -> tuple[int, bool, int]:
        """Returns what the steps are ordered by."""
        reply = steps[index].reply
        return times[index], not (reply and reply.group == times[index]), index

    ready = [key(index) for index, count in enumerate(waits) if not count]
    heapq.heapify(ready)
    ordered = []
    while ready:
        index = heapq.heappop(ready)[2]
        ordered.append(steps[index])
        for later in after[index]:
            times[later] = max(times[later], times[index])
            waits[later] -= 1
            if not waits[later]:
                heapq.heappush(ready, key(later))
    # Replies that contradict each other have no such order: the rest is as in the script.
    shown = set(map(id, ordered))
    return ordered + [step for step in steps if id(step) not in shown]
