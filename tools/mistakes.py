"""What a client raises: each mistake is a `StoreError`."""

from __future__ import annotations

# What each code of a record that breaks a rule says.
_RULES = {
    "Count": "there are 64 tables already",
    "Word": "there is no such statement, or `version` is not the first record",
    "Fields": "a statement of this kind has another number of fields",
    "Number": "a key, an end of a range or a number of rows is not written as one",
    "Range": "a key has 64 bits, a fetch asks for 1 to 1,048,576 rows, and a table has 1 to 8 columns `n` or `t`",
    "Name": "no such table or collector, a table that is declared already, or a name of other than 1 to 32 letters, digits and `_`",
    "Columns": "the table has another number of columns",
    "Value": "a number has 64 bits with its sign, and a text at most 64 bytes",
    "Long": "a record has at most 1,048,576 bytes",
}


# What `Order` says of each word.
_ORDER = {
    b"begin": "the session has a transaction or a cursor open",
    b"open": "the session has a transaction or a cursor open",
    b"commit": "the session has no transaction open",
    b"rollback": "the session has no transaction open",
    b"fetch": "the session has no cursor open",
    b"close": "the session has no cursor open",
    b"table": "tables are declared before the first statement of any session",
}


class StoreError(Exception):
    """What all mistakes of a client are."""


class Closed(StoreError):
    """There is no conversation any more. The text says why."""


class Conflict(StoreError):
    """A write was refused, since another transaction wrote the key. The transaction goes on; `Client.retry` runs it again."""


class OpenWrite(Conflict):
    """A transaction of another session has written the key, and is still open."""

    def __init__(self, table: str, key: int, session: int, transaction: int):
        super().__init__(f"key {key} of {table}: session {session} has written it in its transaction {transaction}, which is open")
        self.table, self.key, self.session, self.transaction = table, key, session, transaction


class NewerCommit(Conflict):
    """A transaction that has committed since this one began wrote the key."""

    def __init__(self, table: str, key: int, commit: int):
        super().__init__(f"key {key} of {table}: commit {commit} wrote it, after this transaction's snapshot")
        self.table, self.key, self.commit = table, key, commit


class Undeclared(StoreError):
    """The transaction declared the tables that it uses, and this is none of them."""

    def __init__(self, table: str):
        super().__init__(f"the transaction did not declare the table {table}")
        self.table = table


class BadRecord(StoreError):
    """A statement broke a rule. Nothing has changed."""

    def __init__(self, code: str, place: int, record: bytes):
        fields = record.split(b",")
        word = fields[1] if fields[0].isdigit() and fields[1:] else fields[0]
        rule = _ORDER.get(word, "the session has a cursor open") if code == "Order" else _RULES.get(code, "a rule of docs/FORMATS.md")
        super().__init__(f"{code}: {rule} (record {place}: {record[:100].decode(errors='replace')})")
        self.code, self.place, self.record = code, place, record
