"""Random scripts for tools/against, made by bench/chance.py."""

from __future__ import annotations

import os
import random
import sys
from typing import Any, Optional

HERE = os.path.dirname(os.path.realpath(__file__))
BENCH = os.path.join(HERE, "..", "bench")
LENGTHS = (20, 40, 80, 160)


class NoMaker(Exception):
    """bench/chance.py is missing, as where tools/ was copied alone."""


class OneWriter:
    """Which writes a database with one writer takes: those of the session that writes, whose snapshot is the newest."""

    def __init__(self) -> None:
        self._commits = 0
        self._snapshots: dict[bytes, int] = {}
        self._writer: Optional[bytes] = None

    def takes(self, record: list[bytes]) -> bool:
        """Whether a record can come next. If so it is taken as having come."""
        session, word = record[:2]
        if word in (b"put", b"del"):
            if self._writer not in (None, session) or self._snapshots.get(session, self._commits) != self._commits:
                return False
            if session in self._snapshots:
                self._writer = session
            else:
                self._commits += 1
        elif word in (b"begin", b"open"):
            self._snapshots[session] = self._commits
        elif word in (b"commit", b"rollback", b"close"):
            del self._snapshots[session]
            if self._writer == session:
                self._writer = None
                self._commits += word == b"commit"
        return True


def random_script(seed: int, one_writer: bool) -> bytes:
    """Returns the script of a seed: of one to three tables and 1 to 64 sessions, for databases with any number of writers or with one."""
    sys.path.append(BENCH)
    try:
        from chance import Maker
    except ImportError:
        raise NoMaker("random scripts are made by bench/chance.py of the repository, which is missing here") from None
    finally:
        sys.path.remove(BENCH)
    chance = random.Random(seed)
    maker = Maker(chance, chance.choice((1, 2)), chance.randint(1, 3))
    if not one_writer:
        maker.add_statements(chance.choice(LENGTHS))
        return maker.bytes()
    _add_for_one_writer(maker, chance.choice(LENGTHS))
    return maker.bytes()


def _add_for_one_writer(maker: Any, count: int) -> None:
    """Adds so many statements that a database with one writer takes."""
    from chance import FETCHING, INSIDE, OUTSIDE

    rule = OneWriter()
    while count:
        session = maker.session()
        now = maker.script.open.get(session)
        words = OUTSIDE if now is None else INSIDE if now == "transaction" else FETCHING
        record = maker.statement(session, maker.chance.choices(list(words), list(words.values()))[0])
        if rule.takes(record):
            maker.add(record)
            count -= 1
