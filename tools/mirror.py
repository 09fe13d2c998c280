"""What the records of a script or of a conversation decide by themselves: its version, its tables, and what each session has open.

No reply is needed for that. A refusal ends no transaction and closes no cursor, so `take` is called with each record that breaks no rule.
"""

from __future__ import annotations

from collections.abc import Sequence
from dataclasses import dataclass, field

SESSIONS = 64
TABLES = 64

# How each record is written, by its word, without the session.
FORMS = {
    "begin": "begin [TABLE ..]",
    "get": "get TABLE KEY",
    "put": "put TABLE KEY VALUE ..",
    "del": "del TABLE KEY",
    "scan": "scan TABLE LOW HIGH",
    "open": "open TABLE LOW HIGH",
    "fetch": "fetch N",
    "close": "close",
    "commit": "commit",
    "rollback": "rollback",
    "gc": "gc KIND",
}
# Records that no session is named for.
PLAIN_FORMS = {"table": "table NAME COLUMNS", "version": "version 2", "totals": "totals"}
COLLECTORS = ("group", "table", "interval")


@dataclass
class Session:
    """What a session has open: a transaction, perhaps on declared tables alone, or a cursor on a table."""

    in_transaction: bool = False
    declared: tuple[str, ...] = ()
    cursor: str | None = None

    @property
    def mark(self) -> str:
        """The state as a prompt shows it: `*` in a transaction, `~` with a cursor."""
        return "*" if self.in_transaction else "~" if self.cursor is not None else ""


@dataclass
class Mirror:
    """The version, the tables with the kinds of their columns (`n` a number, `t` a text), and the sessions."""

    version: int = 1
    tables: dict[str, str] = field(default_factory=dict)
    sessions: dict[int, Session] = field(default_factory=dict)
    has_begun: bool = False
    is_first: bool = True

    def session(self, number: int) -> Session:
        """Returns a session, which has nothing open at first."""
        return self.sessions.setdefault(number, Session())

    def open_sessions(self) -> list[int]:
        """Returns the sessions that have a transaction or a cursor open."""
        return sorted(number for number, session in self.sessions.items() if session.mark)

    def hear(self) -> None:
        """Notes that there was a record, whether it broke a rule or not: a version can only be the first one."""
        self.is_first = False

    def take(self, fields: Sequence[str]) -> None:
        """Notes a record that breaks no rule."""
        if fields[0] == "version" and self.is_first:
            self.version = 2
        elif fields[0] == "table":
            self.tables[fields[1]] = fields[2] if self.version == 2 else "n" * int(fields[2])
        elif len(fields) > 1:
            self.has_begun = True
            self.take_statement(self.session(int(fields[0])), fields[1], fields[2:])
        self.hear()

    def take_statement(self, session: Session, word: str, rest: Sequence[str]) -> None:
        """Notes what a statement opens or ends."""
        if word == "begin":
            session.in_transaction, session.declared = True, tuple(rest)
        elif word in ("commit", "rollback"):
            session.in_transaction, session.declared = False, ()
        elif word == "open":
            session.cursor = rest[0]
        elif word == "close":
            session.cursor = None

    def header(self, table: str) -> list[str]:
        """Returns the names of a table's columns as they are shown: the key and its values."""
        return ["key", *(f"v{i}" for i in range(1, len(self.tables.get(table, "")) + 1))]

    def columns(self, table: str) -> str:
        """Returns what a table's columns hold, in words."""
        kinds = self.tables[table]
        if "t" not in kinds:
            return f"{len(kinds)} number{'s' * (len(kinds) > 1)}"
        return f"{len(kinds)} column{'s' * (len(kinds) > 1)}: " + ", ".join("text" if kind == "t" else "number" for kind in kinds)
