"""The databases that tools/against compares with, each as one class with the methods of `Database`.

To add another: a class with the five methods of `Database`, as `Sqlite` in sqlite.py, and a line in `DATABASES` of tools/against.
`has_one_writer` says whether the difference `one writer` is allowed. `ask` returns the words of our replies: `Said("row", (("7", "x"),))`,
`Said("rows", (("5", "7", "x"), ..))` with the keys, `Said("refused open")` where another transaction holds the record,
`Said("refused newer")` where one has committed it since the snapshot. A refusal has to leave the transaction as it was, and the snapshot has
to be that of `begin`. Then `tools/against --on NAME --random 1000` says whether it agrees.
"""

from __future__ import annotations

import os
from typing import NamedTuple, Optional, Protocol

from postgres import Address, Connection, Result, Server, SqlError

Fields = list[str]
Rows = tuple[tuple[str, ...], ...]


class Said(NamedTuple):
    """What a database says to a statement, in the words of our replies, and without places, snapshots and numbers of commits: `begun`,
    `row` or `none`, `stored`, `gone`, `rows`, `committed` or `ended`, `undone`, `refused open` or `refused newer`."""

    what: str
    rows: Rows = ()


BEGUN, STORED, GONE, NONE = Said("begun"), Said("stored"), Said("gone"), Said("none")
COMMITTED, ENDED, UNDONE = Said("committed"), Said("ended"), Said("undone")
OPEN, NEWER = Said("refused open"), Said("refused newer")


class Database(Protocol):
    """A database. Texts are `str`, from bytes by `surrogateescape`."""

    name: str
    has_one_writer: bool

    def begin_script(self, tables: dict[str, str]) -> None:
        """Makes these tables, empty: of each the kinds of its columns, `n` for a number and `t` for a text."""

    def ask(self, session: int, fields: Fields) -> Said:
        """Runs a statement of a session: its word, and what follows it in a script. A refused one changes nothing."""

    def undo(self, session: int) -> None:
        """Takes back the last write of the session's transaction, which was stored."""

    def end_script(self) -> None:
        """Rolls back what is open, and removes the tables."""

    def close(self) -> None:
        """Ends."""


def bytes_of(text: str) -> bytes:
    """The bytes of a text."""
    return text.encode("utf-8", "surrogateescape")


def text_of(data: bytes) -> str:
    """The text of bytes."""
    return data.decode("utf-8", "surrogateescape")


class Postgres:
    """PostgreSQL: a connection for each session, with REPEATABLE READ."""

    has_one_writer = False
    # What a refusal is called there.
    REFUSALS = {"55P03": OPEN, "40001": NEWER, "23505": NEWER}
    BEGIN = "BEGIN ISOLATION LEVEL REPEATABLE READ"
    SCHEMA = f"against_{os.getpid()}"

    def __init__(self, address: Optional[Address] = None):
        self._server: Optional[Server] = None
        if address is None:
            self._server = Server()
            address = self._server.address
        self._address = address
        self._sessions: dict[int, Connection] = {}
        self._tables: dict[str, str] = {}
        self._is_open: dict[int, str] = {}  # `transaction` or `cursor`
        self._has_written: set[int] = set()
        self._has_savepoint: set[int] = set()
        self._had_written: set[int] = set()  # before the last write
        try:
            self._first = Connection(self._address)
        except BaseException:
            if self._server:
                self._server.stop()
            raise
        self.name = f"PostgreSQL {self._first.version}"

    def begin_script(self, tables: dict[str, str]) -> None:
        """Makes the tables in a schema of its own."""
        self._tables = tables
        kinds = {"n": "bigint", "t": "bytea"}
        commands = [f"DROP SCHEMA IF EXISTS {self.SCHEMA} CASCADE", f"CREATE SCHEMA {self.SCHEMA}"]
        for name, columns in tables.items():
            types = ", ".join(f"c{i} {kinds[kind]} NOT NULL" for i, kind in enumerate(columns, 1))
            commands.append(f"CREATE TABLE {self._table(name)} (k numeric(20) PRIMARY KEY, {types})")
        self._first.query("; ".join(commands))

    def ask(self, session: int, fields: Fields) -> Said:
        """Runs a statement on the session's connection."""
        word, rest = fields[0], fields[1:]
        if word in ("put", "del"):
            return self._write(session, word, rest)
        if word in ("begin", "open"):
            return self._begin(session, rest if word == "open" else None)
        if word in ("commit", "rollback", "close"):
            return self._end(session, word)
        if word == "fetch":
            return Said("rows", self._rows_of(self._query(session, f"FETCH {rest[0]} FROM c")))
        if word == "scan":
            return Said("rows", self._rows_of(self._query(session, self._range(*rest))))
        rows = self._rows_of(self._query(session, f"SELECT * FROM {self._table(rest[0])} WHERE k = {rest[1]}"))
        return Said("row", (rows[0][1:],)) if rows else NONE

    def undo(self, session: int) -> None:
        """Goes back to before the last write."""
        self._query(session, "ROLLBACK TO SAVEPOINT w")
        if session not in self._had_written:
            self._has_written.discard(session)

    def end_script(self) -> None:
        """Rolls back what is open. The connections stay."""
        for session in self._is_open:
            self._query(session, "ROLLBACK")
        self._is_open.clear()
        self._has_written.clear()
        self._has_savepoint.clear()
        self._first.query(f"DROP SCHEMA IF EXISTS {self.SCHEMA} CASCADE")

    def close(self) -> None:
        """Ends the connections and the server of its own."""
        for connection in (self._first, *self._sessions.values()):
            connection.close()
        if self._server:
            self._server.stop()

    def _query(self, session: int, sql: str) -> Result:
        if session not in self._sessions:
            self._sessions[session] = Connection(self._address)
            # A lock that another transaction holds is a refusal. Nobody else is at work, so it would not come free.
            self._sessions[session].query("SET lock_timeout = '1ms'")
        return self._sessions[session].query(sql)

    def _table(self, name: str) -> str:
        return f'{self.SCHEMA}."{name}"'

    def _range(self, table: str, low: str, high: str) -> str:
        return f"SELECT * FROM {self._table(table)} WHERE k BETWEEN {low} AND {high} ORDER BY k"

    def _begin(self, session: int, cursor: Optional[Fields]) -> Said:
        # The first statement takes the snapshot.
        first = "SELECT 1" if cursor is None else f"DECLARE c NO SCROLL CURSOR FOR {self._range(*cursor)}"
        self._query(session, f"{self.BEGIN}; {first}")
        self._is_open[session] = "transaction" if cursor is None else "cursor"
        return BEGUN

    def _end(self, session: int, word: str) -> Said:
        self._query(session, "ROLLBACK" if word == "rollback" else "COMMIT")
        del self._is_open[session]
        self._has_savepoint.discard(session)
        wrote = session in self._has_written
        self._has_written.discard(session)
        return UNDONE if word == "rollback" else COMMITTED if wrote and word == "commit" else ENDED

    def _write(self, session: int, word: str, fields: Fields) -> Said:
        """Locks the row, if the snapshot has it, without waiting, and then writes it."""
        table, key = self._table(fields[0]), fields[1]
        lock = f"SELECT 1 FROM {table} WHERE k = {key} FOR UPDATE NOWAIT"
        write = f"DELETE FROM {table} WHERE k = {key}" if word == "del" else self._put(fields)
        inside = session in self._is_open
        before = ("RELEASE w; " if session in self._has_savepoint else "") + "SAVEPOINT w" if inside else self.BEGIN
        try:
            done = self._query(session, f"{before}; {lock}; {write}" + ("" if inside else "; COMMIT"))
        except SqlError as error:
            self._query(session, "ROLLBACK TO SAVEPOINT w" if inside else "ROLLBACK")
            if error.code not in self.REFUSALS:
                raise
            return self.REFUSALS[error.code]
        finally:
            if inside:
                self._has_savepoint.add(session)
        if "DELETE 0" in done.tags:
            return NONE
        if inside:
            (self._had_written.add if session in self._has_written else self._had_written.discard)(session)
            self._has_written.add(session)
        return GONE if word == "del" else STORED

    def _put(self, fields: Fields) -> str:
        name, key, *values = fields
        literals = [value if kind == "n" else f"'\\x{bytes_of(value).hex()}'" for kind, value in zip(self._tables[name], values)]
        columns = [f"c{i}" for i in range(1, len(values) + 1)]
        sets = ", ".join(f"{column} = excluded.{column}" for column in columns)
        return f"INSERT INTO {self._table(name)} VALUES ({', '.join([key, *literals])}) ON CONFLICT (k) DO UPDATE SET {sets}"

    def _rows_of(self, result: Result) -> Rows:
        """The rows as our replies have them: a bytea comes as \\x and hexadecimal digits, and no number does."""
        def value(given: Optional[bytes]) -> str:
            assert given is not None
            return text_of(bytes.fromhex(given[2:].decode())) if given.startswith(b"\\x") else given.decode()

        return tuple(tuple(map(value, row)) for row in result.rows)
