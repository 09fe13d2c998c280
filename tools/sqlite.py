"""SQLite for tools/against: a connection for each session to one file with a write-ahead log, by Python's sqlite3."""

from __future__ import annotations

import os
import shutil
import sqlite3
import tempfile
from typing import Union

from databases import BEGUN, COMMITTED, ENDED, GONE, NEWER, NONE, OPEN, STORED, UNDONE, Fields, Rows, Said, bytes_of, text_of

# SQLite's integers are signed: the least key is the least integer.
KEYS_FROM = 2**63
BUSY, BUSY_SNAPSHOT = 5, 517
Value = Union[int, bytes]


class Sqlite:
    """SQLite. Any number of sessions read at their snapshots; one writes."""

    has_one_writer = True

    def __init__(self) -> None:
        self.name = f"SQLite {sqlite3.sqlite_version}"
        self._folder = tempfile.mkdtemp(prefix="against.")
        self._sessions: dict[int, sqlite3.Connection] = {}
        self._cursors: dict[int, sqlite3.Cursor] = {}
        self._has_written: set[int] = set()
        self._tables: dict[str, str] = {}
        self._scripts = 0

    def begin_script(self, tables: dict[str, str]) -> None:
        """Makes the tables in a file of their own."""
        self._tables = tables
        self._scripts += 1
        first = self._connection(0)
        first.execute("PRAGMA journal_mode = WAL")
        for name, columns in tables.items():
            first.execute(f'CREATE TABLE {_table(name)} (k INTEGER PRIMARY KEY, {", ".join(f"c{i}" for i in range(len(columns)))})')

    def ask(self, session: int, fields: Fields) -> Said:
        """Runs a statement on the session's connection."""
        word, rest = fields[0], fields[1:]
        connection = self._connection(session)
        if word == "begin":
            self._begin(connection)
            return BEGUN
        if word in ("commit", "rollback"):
            return self._end(session, word)
        if word == "open":
            self._begin(connection)
            self._cursors[session] = self._scan(connection, rest)
            return BEGUN
        if word == "fetch":
            return Said("rows", _rows_of(self._cursors[session].fetchmany(int(rest[0]))))
        if word == "close":
            self._cursors.pop(session).close()
            connection.execute("COMMIT")
            return ENDED
        if word == "scan":
            return Said("rows", _rows_of(self._scan(connection, rest).fetchall()))
        rows = _rows_of(connection.execute(f"SELECT * FROM {_table(rest[0])} WHERE k = ?", (_key(rest[1]),)).fetchall())
        if word == "get":
            return Said("row", (rows[0][1:],)) if rows else NONE
        return self._write(session, rest) if word == "put" or rows else NONE

    def undo(self, session: int) -> None:
        """Never called: SQLite refuses whatever we do."""
        raise NotImplementedError

    def end_script(self) -> None:
        """Closes the connections, which rolls back what is open, and removes the file."""
        self._cursors.clear()
        self._has_written.clear()
        for connection in self._sessions.values():
            connection.close()
        self._sessions.clear()
        for suffix in ("", "-wal", "-shm"):
            if os.path.exists(self._file() + suffix):
                os.remove(self._file() + suffix)

    def close(self) -> None:
        """Removes the folder."""
        self.end_script()
        shutil.rmtree(self._folder, ignore_errors=True)

    def _file(self) -> str:
        return os.path.join(self._folder, f"{self._scripts}.db")

    def _connection(self, session: int) -> sqlite3.Connection:
        if session not in self._sessions:
            self._sessions[session] = sqlite3.connect(self._file(), timeout=0, isolation_level=None)
            # Nothing has to survive a loss of power.
            self._sessions[session].execute("PRAGMA synchronous = OFF")
        return self._sessions[session]

    def _end(self, session: int, word: str) -> Said:
        self._connection(session).execute(word)
        wrote = session in self._has_written
        self._has_written.discard(session)
        return UNDONE if word == "rollback" else COMMITTED if wrote else ENDED

    def _begin(self, connection: sqlite3.Connection) -> None:
        # The first read takes the snapshot.
        connection.execute("BEGIN")
        connection.execute("SELECT count(*) FROM sqlite_master").fetchall()

    def _scan(self, connection: sqlite3.Connection, fields: Fields) -> sqlite3.Cursor:
        table, low, high = fields
        return connection.execute(f"SELECT * FROM {_table(table)} WHERE k BETWEEN ? AND ? ORDER BY k", (_key(low), _key(high)))

    def _write(self, session: int, fields: Fields) -> Said:
        """Sets a row, or deletes it if there are no values."""
        name, key, *values = fields
        connection = self._connection(session)
        try:
            if values:
                kinds = self._tables[name]
                row = [_key(key), *(int(value) if kind == "n" else bytes_of(value) for kind, value in zip(kinds, values))]
                connection.execute(f"REPLACE INTO {_table(name)} VALUES ({', '.join('?' * len(row))})", row)
            else:
                connection.execute(f"DELETE FROM {_table(name)} WHERE k = ?", (_key(key),))
        except sqlite3.OperationalError as error:
            code = getattr(error, "sqlite_errorcode", BUSY)
            if code not in (BUSY, BUSY_SNAPSHOT):
                raise
            return OPEN if code == BUSY else NEWER
        if connection.in_transaction:
            self._has_written.add(session)
        return STORED if values else GONE


def _table(name: str) -> str:
    return f'"t_{name}_{"".join("u" if letter.isupper() else "l" for letter in name)}"'


def _key(text: str) -> int:
    return int(text) - KEYS_FROM


def _rows_of(rows: list[tuple[Value, ...]]) -> Rows:
    """The rows as our replies have them."""
    texts = [[text_of(value) if isinstance(value, bytes) else str(value) for value in rest] for _, *rest in rows]
    return tuple((str(int(row[0]) + KEYS_FROM), *rest) for row, rest in zip(rows, texts))
