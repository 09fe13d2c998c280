#!/usr/bin/env python3
"""A client of the store for Python programs, over a pipe or over the socket of tools/listen.

    from client import Client, Conflict

    with Client() as db:                              # starts the program, and ends it on leaving
        db.declare("account", "nt")                   # a number and a text
        db.put("account", 1, 100, "Ada")              # outside of a transaction: a transaction of its own
        with db.transaction("account"):               # commits on leaving, and rolls back on an exception
            amount, owner = db.get("account", 1)
            db.put("account", 1, amount - 10, owner)
        for key, amount, owner in db.fetch("account"):
            print(key, amount, owner)

`Client()` starts a process of its own, where nothing is kept; `session()` gives it further sessions. `Client("store.sock")` and
`Client("127.0.0.1:7007")` talk to a listener, and each client is a session. Numbers are int. Texts are str (UTF-8, and bytes that are none
as surrogates), or bytes with `texts=bytes`. A row is a tuple of its values, in a scan or a fetch after its key.

Mistakes are exceptions, all of them a `StoreError`:

    Conflict      a write was refused: OpenWrite names the session and its transaction, NewerCommit the commit
    Undeclared    the transaction declared its tables, and this is none of them
    BadRecord     the statement breaks a rule, which `code` names (docs/FORMATS.md); nothing has changed
    Closed        the program or the listener ended, and why

After a Conflict or Undeclared the transaction goes on as it was. A client is for one thread; another thread takes another client.
"""

from __future__ import annotations

import random
import sys
import time
from collections import deque
from contextlib import contextmanager
from typing import Any, BinaryIO, Callable, Iterator, NamedTuple, NoReturn, Optional, Sequence, Type, TypeVar, Union

from hybridgc import Missing, Record, fail, fields_of, program, record_of, records_of
from mistakes import BadRecord, Closed, Conflict, NewerCommit, OpenWrite, StoreError, Undeclared
from wire import Later, Pipe, Socket, Wire

__all__ = ["BadRecord", "Client", "Closed", "Conflict", "Cursor", "Held", "Later", "NewerCommit", "OpenWrite", "Pipeline", "StoreError", "Sweep"]
__all__ += ["Table", "Totals", "Undeclared"]

Value = Union[int, str, bytes]
Row = tuple[Value, ...]
T = TypeVar("T")

LARGEST_KEY = 2**64 - 1
# How many rows an iteration fetches at a time.
BATCH = 256

class Totals(NamedTuple):
    """How many versions were made, and what became of them."""

    made: int
    undone: int
    group: int
    table: int
    interval: int
    left: int


class Held(NamedTuple):
    """A snapshot that is in use."""

    session: int
    snapshot: int
    moved: bool


class Sweep(NamedTuple):
    """A round of a collector: the newest group, the horizon, how many versions were removed, and the snapshots in use."""

    kind: str
    mark: int
    horizon: int
    removed: int
    held: list[Held]


class Statements:
    """The statements of a session. Each is sent, and returns its answer as a `Later`. What they do is said at `Client`."""

    def __init__(self, client: "Client"):
        self._client = client

    def _ask(self, fields: "tuple[Value, ...]", read: "Callable[[list[Record]], T]") -> "Later[T]":
        return self._client._submit(fields, read)

    def begin(self, *tables: str) -> "Later[int]":
        return self._ask(("begin", *tables), self._client._read_begun("transaction"))

    def commit(self) -> "Later[Optional[int]]":
        return self._ask(("commit",), self._client._read_ended)

    def rollback(self) -> "Later[None]":
        return self._ask(("rollback",), self._client._read_over)

    def get(self, table: str, key: int) -> "Later[Optional[Row]]":
        self._client._know(table)
        return self._ask(("get", table, key), self._client._read_get(table))

    def put(self, table: str, key: int, *values: Value) -> "Later[Optional[int]]":
        self._client._check(table, values)
        return self._ask(("put", table, key, *values), self._client._read_write(table, key))

    def delete(self, table: str, key: int) -> "Later[bool]":
        return self._ask(("del", table, key), self._client._read_delete(table, key))

    def scan(self, table: str, low: int = 0, high: int = LARGEST_KEY) -> "Later[list[Row]]":
        self._client._know(table)
        return self._ask(("scan", table, low, high), self._client._read_rows(table))

    def open(self, table: str, low: int = 0, high: int = LARGEST_KEY) -> "Later[int]":
        self._client._know(table)
        return self._ask(("open", table, low, high), self._client._read_begun("cursor", table))

    def fetch_many(self, count: int) -> "Later[list[Row]]":
        return self._ask(("fetch", count), self._client._read_rows(None))

    def close_cursor(self) -> "Later[None]":
        return self._ask(("close",), self._client._read_over)

    def gc(self, kind: str) -> "Later[Sweep]":
        return self._ask(("gc", kind), self._client._read_sweep)


class Pipeline(Statements):
    """Statements that are sent without waiting. Each method returns a `Later` in place of its value; `results` waits for all of them.
    A context manager that waits on leaving."""

    def __init__(self, client: "Client"):
        super().__init__(client)
        self._sent: list[Later[Any]] = []

    def _ask(self, fields: "tuple[Value, ...]", read: "Callable[[list[Record]], T]") -> "Later[T]":
        later = super()._ask(fields, read)
        self._sent.append(later)
        return later

    def results(self, faults: bool = False) -> list[Any]:
        """Returns the values of all statements, in their order. The first that was refused is raised, after all answers have come; with
        `faults` each exception is in the list, in the place of a value."""
        if self._sent:
            self._client._wire.wait_for(self._sent[-1])
        if not faults:
            return [later.result() for later in self._sent]
        return [later._fault or later._value for later in self._sent]

    def __len__(self) -> int:
        return len(self._sent)

    def __enter__(self) -> "Pipeline":
        return self

    def __exit__(self, kind: Optional[Type[BaseException]], *_: object) -> None:
        if kind is None:
            self.results()


class Cursor:
    """The rows of a range, as they were when it was opened. A context manager and an iterator. While it is open, its session has no other
    statements than those of the cursor and `gc`."""

    def __init__(self, client: "Client", table: str, low: int, high: int, batch: int):
        self._client, self._batch = client, batch
        self.snapshot = client.open(table, low, high)
        self._rows: deque[Row] = deque()
        self._is_at_end = False
        self.is_open = True

    def fetchmany(self, count: Optional[int] = None) -> list[Row]:
        """Returns the next rows, fewer than were asked for only at the end."""
        count = count or self._batch
        rows = [self._rows.popleft() for _ in range(min(count, len(self._rows)))]
        return rows if len(rows) == count or self._is_at_end else rows + self._more(count - len(rows))

    def _more(self, count: int) -> list[Row]:
        rows = self._client.fetch_many(count)
        self._is_at_end = len(rows) < count
        return rows

    def fetchone(self) -> Optional[Row]:
        """Returns the next row, or None at the end."""
        if not self._rows and not self._is_at_end:
            self._rows.extend(self._more(self._batch))
        return self._rows.popleft() if self._rows else None

    def fetchall(self) -> list[Row]:
        """Returns all rows that are left."""
        return list(self)

    def close(self) -> None:
        """Closes the cursor. It may be closed again."""
        if self.is_open:
            self.is_open = False
            self._client.close_cursor()

    def __iter__(self) -> Iterator[Row]:
        return iter(self.fetchone, None)

    def __enter__(self) -> "Cursor":
        return self

    def __exit__(self, *_: object) -> None:
        if not self._client.is_closed:
            self.close()


class Client:
    """A session. Without an address it starts the program; else the address is the path of a Unix socket, or HOST:PORT.

    `options` are those of the mode live ("--long", "7"), for a program that is started. `texts` is the type of texts, str or bytes. With
    `timeout`, an answer that does not come in so many seconds closes the client."""

    def __init__(
        self, address: Optional[str] = None, *, options: Sequence[str] = (), texts: "Type[Union[str, bytes]]" = str, timeout: Optional[float] = None
    ):
        self.kinds: dict[str, str] = {}
        self._wire: Wire
        if address is None:
            try:
                path = program()
            except Missing as missing:
                raise Closed(str(missing)) from None
            pipe = self._wire = Pipe(path, options, timeout)
            self._begin_session(pipe, pipe.take_session(), texts)
            self._wire.submit(b"version,2", self._read_declared).result()
        else:
            self._wire = connection = Socket(address, timeout)
            self._begin_session(connection, connection.session, texts)
            self._learn_tables()

    def _begin_session(self, wire: Wire, number: int, texts: "Type[Union[str, bytes]]") -> None:
        self._statements, self._texts, self.number = Statements(self), texts, number
        # With a listener, the number is put in front there.
        self._prefix = b"%d," % number if isinstance(wire, Pipe) else b""
        self.state = "idle"
        self.last_commit: Optional[int] = None
        self._cursor_table = ""
        self._is_first = True
        self._is_left = False

    def session(self) -> "Client":
        """Another session of the same process, with a transaction of its own. Its `close` gives the session back, and the process goes on.
        With a listener, another `Client` is another session."""
        if not isinstance(self._wire, Pipe):
            raise StoreError("with a listener each client is one session: connect again")
        other = Client.__new__(Client)
        other._wire, other.kinds = self._wire, self.kinds
        other._begin_session(self._wire, self._wire.take_session(), self._texts)
        other._is_first = False
        return other

    # Statements.

    def begin(self, *tables: str) -> int:
        """Begins a transaction on these tables, or on all. Returns its snapshot."""
        return self._statements.begin(*tables).result()

    def commit(self) -> Optional[int]:
        """Commits the transaction. Returns the number of its commit, or None if it wrote nothing."""
        return self._statements.commit().result()

    def rollback(self) -> None:
        """Rolls the transaction back."""
        return self._statements.rollback().result()

    def get(self, table: str, key: int) -> Optional[Row]:
        """Returns the values of a key's row, or None if there is no row."""
        return self._statements.get(table, key).result()

    def put(self, table: str, key: int, *values: Value) -> Optional[int]:
        """Sets a key's row. Returns the number of the commit outside of a transaction, and otherwise None."""
        return self._statements.put(table, key, *values).result()

    def delete(self, table: str, key: int) -> bool:
        """Deletes a key's row. Returns whether there was one."""
        return self._statements.delete(table, key).result()

    def scan(self, table: str, low: int = 0, high: int = LARGEST_KEY) -> list[Row]:
        """Returns the rows whose keys are from low to high, both included, by key: the key, and then the values."""
        return self._statements.scan(table, low, high).result()

    def open(self, table: str, low: int = 0, high: int = LARGEST_KEY) -> int:
        """Opens the session's cursor, and returns its snapshot. `cursor` and `fetch` are more comfortable."""
        return self._statements.open(table, low, high).result()

    def fetch_many(self, count: int) -> list[Row]:
        """Returns the next rows of the session's cursor, fewer than were asked for only at the end."""
        return self._statements.fetch_many(count).result()

    def close_cursor(self) -> None:
        """Closes the session's cursor."""
        return self._statements.close_cursor().result()

    def gc(self, kind: str) -> Sweep:
        """A round of a collector: "group", "table" or "interval"."""
        return self._statements.gc(kind).result()

    # What is sent, and how answers are read.

    def _submit(self, fields: "tuple[Value, ...]", read: "Callable[[list[Record]], T]") -> "Later[T]":
        return self._submit_record(self._prefix + record_of(*fields), read)

    def _submit_record(self, record: Record, read: "Callable[[list[Record]], T]") -> "Later[T]":
        if self._is_left:
            raise Closed("the session was closed")
        return self._wire.submit(record, self._reader(record, read))

    def _reader(self, record: Record, read: "Callable[[list[Record]], T]") -> "Callable[[list[Record]], T]":
        def read_good(answer: list[Record]) -> T:
            if answer[0].startswith(b"bad,"):
                _, place, code = fields_of(answer[0])
                raise BadRecord(code.decode(), int(place), record)
            return read(answer)

        return read_good

    def _values(self, table: str, fields: Sequence[bytes]) -> Row:
        kinds = self.kinds.get(table, "n" * len(fields))
        return tuple(int(field) if kind == "n" else self._text(field) for kind, field in zip(kinds, fields))

    def _text(self, field: bytes) -> Value:
        return field if self._texts is bytes else field.decode("utf-8", "surrogateescape")

    def _know(self, table: str) -> None:
        """Learns the kinds of a table that another client of the listener has declared."""
        if table not in self.kinds and not isinstance(self._wire, Pipe):
            self._learn_tables()

    def _check(self, table: str, values: Sequence[Value]) -> None:
        """A number for a text, or a text for a number, is a mistake of the caller's, as in a driver."""
        self._know(table)
        for at, (kind, value) in enumerate(zip(self.kinds.get(table, ""), values), 1):
            if isinstance(value, int) != (kind == "n"):
                wanted = "a number" if kind == "n" else "a text"
                raise TypeError(f"column {at} of {table} is {wanted}, and {value!r} is {type(value).__name__}")

    def _refuse(self, table: str, key: int, why: Sequence[bytes]) -> NoReturn:
        if why[0] == b"open":
            raise OpenWrite(table, key, int(why[1]), int(why[2]))
        if why[0] == b"newer":
            raise NewerCommit(table, key, int(why[1]))
        raise Undeclared(why[1].decode())

    def _said(self, answer: list[Record], table: str, key: int = 0) -> list[bytes]:
        """What an answer says after its session, place and snapshot."""
        fields = fields_of(answer[0])
        said = fields[4:] if fields[2] == b"at" else fields[2:]
        if said[0] == b"refused":
            self._refuse(table, key, said[1:])
        if said[-2:-1] == [b"committed"] and said[0] != b"row":
            self.last_commit = int(said[-1])
        return said

    def _read_declared(self, answer: list[Record]) -> None:
        pass

    def _read_begun(self, state: str, table: str = "") -> "Callable[[list[Record]], int]":
        def read(answer: list[Record]) -> int:
            self.state, self._cursor_table = state, table
            return int(self._said(answer, "")[1])

        return read

    def _read_ended(self, answer: list[Record]) -> Optional[int]:
        self.state = "idle"
        said = self._said(answer, "")
        return int(said[1]) if said[0] == b"committed" else None

    def _read_over(self, answer: list[Record]) -> None:
        self._read_ended(answer)

    def _read_get(self, table: str) -> "Callable[[list[Record]], Optional[Row]]":
        def read(answer: list[Record]) -> Optional[Row]:
            word, *values = self._said(answer, table)
            return self._values(table, values) if word == b"row" else None

        return read

    def _read_write(self, table: str, key: int) -> "Callable[[list[Record]], Optional[int]]":
        def read(answer: list[Record]) -> Optional[int]:
            said = self._said(answer, table, key)
            return int(said[2]) if len(said) == 3 else None

        return read

    def _read_delete(self, table: str, key: int) -> "Callable[[list[Record]], bool]":
        return lambda answer: self._said(answer, table, key)[0] == b"gone"

    def _read_rows(self, table: Optional[str]) -> "Callable[[list[Record]], list[Row]]":
        def read(answer: list[Record]) -> list[Row]:
            name = self._cursor_table if table is None else table
            self._said(answer, name)
            rows = (fields_of(record) for record in answer[1:])
            return [(int(row[3]), *self._values(name, row[4:])) for row in rows]

        return read

    def _read_sweep(self, answer: list[Record]) -> Sweep:
        _, _, _, kind, mark, horizon, removed = fields_of(answer[1])
        held = [fields_of(record)[3:] for record in answer[2:]]
        return Sweep(kind.decode(), int(mark), int(horizon), int(removed), [Held(int(session), int(at), how == b"moved") for session, at, how in held])

    def _read_totals(self, answer: list[Record]) -> Totals:
        return Totals(*(int(fields_of(record)[2]) for record in answer))

    def _learn_tables(self) -> None:
        def read(answer: list[Record]) -> None:
            for _, name, kinds in map(fields_of, answer[1:]):
                self.kinds[name.decode()] = kinds.decode()

        self._wire.submit(b"tables", read).result()

    # Tables.

    def declare(self, table: str, kinds: str = "n") -> None:
        """Declares a table, with a column for each letter of kinds: `n` for a number, `t` for a text. All tables come before the first
        statement of any session. A table that is there already with these kinds is left as it is."""
        if not isinstance(self._wire, Pipe):
            self._learn_tables()
        if self.kinds.get(table) == kinds:
            return
        self._submit_record(record_of("table", table, kinds), self._read_declared).result()
        self.kinds[table] = kinds

    def table(self, name: str, kinds: Optional[str] = None) -> "Table":
        """A table to call by itself. With kinds it is declared, unless it is there."""
        if kinds is not None:
            self.declare(name, kinds)
        return Table(self, name)

    # Transactions.

    @contextmanager
    def transaction(self, *tables: str) -> "Iterator[Client]":
        """A transaction on these tables, or on all: commits on leaving, and rolls back on an exception."""
        self.begin(*tables)
        try:
            yield self
        except BaseException:
            if self.state == "cursor" and not self.is_closed:
                self.close_cursor()
            if self.state == "transaction" and not self.is_closed:
                self.rollback()
            raise
        if self.state == "transaction":
            self.commit()

    def retry(self, work: "Callable[[Client], T]", *tables: str, times: int = 10) -> T:
        """Calls work with this client in a transaction, and commits. After a Conflict it is rolled back and called again in a new one, at
        most so many times in all; then the last Conflict is raised. Returns what work returned."""
        if times < 1:
            raise ValueError("times is at least 1")
        for turn in range(1, times + 1):
            try:
                with self.transaction(*tables):
                    return work(self)
            except Conflict:
                if turn == times:
                    raise
                time.sleep(random.random() * min(0.001 * 2**turn, 0.1))
        raise AssertionError

    def cursor(self, table: str, low: int = 0, high: int = LARGEST_KEY, batch: int = BATCH) -> Cursor:
        """Opens a cursor over the rows whose keys are from low to high, to be closed by its caller or by `with`."""
        return Cursor(self, table, low, high, batch)

    def fetch(self, table: str, low: int = 0, high: int = LARGEST_KEY, batch: int = BATCH) -> Iterator[Row]:
        """The rows of a scan one by one, without having all of them at once: a cursor that is closed when the iteration ends."""
        with self.cursor(table, low, high, batch) as cursor:
            yield from cursor

    def send(self, record: Record) -> "Later[list[Record]]":
        """Sends a statement as a record of bytes, without the session's number. Its answer is the list of its records, as they come."""
        return self._submit_record(self._prefix + record, lambda answer: answer)

    def pipeline(self) -> Pipeline:
        """Statements that are sent without waiting for their answers."""
        return Pipeline(self)

    # The conversation.

    def totals(self) -> Totals:
        """How many versions were made until now, and what became of them."""
        return self._wire.submit(b"totals", self._read_totals).result()

    @property
    def is_closed(self) -> bool:
        """Whether the conversation is over."""
        return self._is_left or self._wire.why_closed is not None

    def close(self) -> Optional[Totals]:
        """Ends the conversation: what is open is rolled back. Returns the totals of a program that was started here. A further session
        gives its number back, and the program goes on. It may be called again."""
        if self.is_closed:
            return None
        if not self._is_first:
            self._give_back()
            return None
        totals = self._wire.finish(self._read_totals) if isinstance(self._wire, Pipe) else None
        self._wire.why_closed = "the client was closed"
        self._wire.shut()
        return totals

    def _give_back(self) -> None:
        """Ends what the session has open, and lets another one have its number."""
        if self.state == "cursor":
            self.close_cursor()
        if self.state == "transaction":
            self.rollback()
        self._is_left = True
        assert isinstance(self._wire, Pipe)
        self._wire.give_session(self.number)

    def __enter__(self) -> "Client":
        return self

    def __exit__(self, *_: object) -> None:
        self.close()


class Table:
    """A table of a client, to call by itself."""

    def __init__(self, client: Client, name: str):
        self._client, self.name = client, name

    def get(self, key: int) -> Optional[Row]:
        """Returns the values of a key's row, or None."""
        return self._client.get(self.name, key)

    def put(self, key: int, *values: Value) -> Optional[int]:
        """Sets a key's row."""
        return self._client.put(self.name, key, *values)

    def delete(self, key: int) -> bool:
        """Deletes a key's row. Returns whether there was one."""
        return self._client.delete(self.name, key)

    def scan(self, low: int = 0, high: int = LARGEST_KEY) -> list[Row]:
        """Returns the rows of a range."""
        return self._client.scan(self.name, low, high)

    def fetch(self, low: int = 0, high: int = LARGEST_KEY, batch: int = BATCH) -> Iterator[Row]:
        """The rows of a range one by one."""
        return self._client.fetch(self.name, low, high, batch)


def talk(address: Optional[str], source: BinaryIO, out: BinaryIO) -> None:
    """Sends the records of a stream, and writes the answers as they come. Up to 1,000 are on their way, or one from a terminal."""
    most = 1 if source.isatty() else 1_000
    later: "deque[Later[list[Record]]]" = deque()
    with Client(address) as db:
        for record in records_of(source):
            later.append(db._wire.submit(record, lambda answer: answer))
            while len(later) >= most:
                out.write(b"\n".join(later.popleft().result()) + b"\n")
                out.flush()
        for last in later:
            out.write(b"\n".join(last.result()) + b"\n")
        out.flush()


def main() -> None:
    """`tools/client.py ADDRESS` sends the records of standard input to a listener, and prints the answers."""
    words = sys.argv[1:]
    if words in (["-h"], ["--help"]):
        print(f"usage: tools/client.py ADDRESS <RECORDS    {main.__doc__}\n\n{__doc__}")
    elif len(words) != 1:
        fail("usage: tools/client.py ADDRESS <RECORDS; --help shows how a Python program uses it", 2)
    else:
        try:
            talk(words[0], sys.stdin.buffer, sys.stdout.buffer)
        except (StoreError, BrokenPipeError) as fault:
            fail(fault)
        except KeyboardInterrupt:
            fail("interrupted", 130)


if __name__ == "__main__":
    main()
