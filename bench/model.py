"""A second reading of docs/FORMATS.md: which scripts are refused, what a replay prints, and what a conversation answers.

It is written from that page alone, to be compared with the program by bench/random and bench/talk_random, and it is slow: each record's
versions are a list, and a round of a collector looks at all of them.
"""

import collections
import math
import re

MARK = b"\xef\xbb\xbf"
MOST_BYTES = 1048576  # of a record of a conversation
MOST_RECORDS = 1048576
MOST_TABLES = 64
MOST_SESSIONS = 64
MOST_FETCHED = 1048576
GREATEST_KEY = 2**64 - 1
LEAST_VALUE = -(2**63)
GREATEST_VALUE = 2**63 - 1
LONG = 4

# The fewest and the most fields of a session record.
FIELDS = {
    b"begin": (2, 66),
    b"get": (4, 4),
    b"put": (5, 12),
    b"del": (4, 4),
    b"scan": (5, 5),
    b"open": (5, 5),
    b"fetch": (3, 3),
    b"close": (2, 2),
    b"commit": (2, 2),
    b"rollback": (2, 2),
    b"gc": (3, 3),
}
COLLECTORS = (b"group", b"table", b"interval")

NUMBER = re.compile(rb"0|[1-9][0-9]*")
VALUE = re.compile(rb"0|-?[1-9][0-9]*")
NAME = re.compile(rb"[A-Za-z0-9_]{1,32}")
KINDS = re.compile(rb"[nt]{1,8}")
NEEDS_QUOTES = re.compile(rb'[,"\r\n]')


# CSV


CsvRecord = collections.namedtuple("CsvRecord", "fields size end is_open")


def split_csv(text):
    """Yields each record of a CSV text: its fields, how many bytes it has, without the one that ends it, how many bytes of the text end it,
    or None if only the text's end does, and whether a quote is open then."""
    fields, field = [], bytearray()
    at, first = "record", 0
    for place, byte in enumerate(text.removeprefix(MARK), len(MARK) if text.startswith(MARK) else 0):
        if at == "record":
            if byte in b"\r\n":
                continue
            at, first = "field", place
        if at == "field":
            at = "quoted" if byte == ord('"') else "plain"
            if at == "quoted":
                continue
        if at == "quoted":
            if byte == ord('"'):
                at = "closed"
            else:
                field.append(byte)
        elif at == "closed" and byte == ord('"'):
            field.append(byte)
            at = "quoted"
        elif byte == ord(","):
            fields.append(bytes(field))
            field.clear()
            at = "field"
        elif byte in b"\r\n":
            yield CsvRecord([*fields, bytes(field)], place - first, place + 1, False)
            fields.clear()
            field.clear()
            at = "record"
        else:
            field.append(byte)
            at = "plain"
    if at != "record":
        yield CsvRecord([*fields, bytes(field)], len(text) - first, None, at == "quoted")


def read_csv(text):
    """Returns the records of a CSV text, each a list of fields, and whether a quote is open at the end."""
    records = list(split_csv(text))
    return [record.fields for record in records], bool(records) and records[-1].is_open


def quoted(field):
    return b'"' + field.replace(b'"', b'""') + b'"'


def write_csv(fields):
    """Returns a record as the program prints it."""
    return b",".join(quoted(field) if NEEDS_QUOTES.search(field) else field for field in fields) + b"\n"


# Scripts


class Script:
    """Takes the records of a script one by one, and says which rule the first bad one breaks."""

    def __init__(self, most_records=MOST_RECORDS):
        self.most_records = most_records
        self.place = 0
        self.version = 1
        self.tables = {}  # the kinds of each table's columns; `n` for each in version 1
        self.statements = []  # the place and the fields of each session record
        self.open = {}  # what each session has open: a transaction or a cursor

    def take(self, record):
        """Returns the first code that applies to the next record, or None if it breaks no rule."""
        self.place += 1
        if self.place > self.most_records:
            return "Count"
        if self.place == 1 and record[0] == b"version":
            return self.take_version(record)
        if record[0] == b"table":
            return self.take_table(record)
        return self.take_statement(record)

    def take_version(self, record):
        if len(record) != 2:
            return "Fields"
        if not NUMBER.fullmatch(record[1]):
            return "Number"
        if record[1] != b"2":
            return "Range"
        self.version = 2
        return None

    def take_table(self, record):
        if len(self.tables) == MOST_TABLES:
            return "Count"
        if len(record) != 3:
            return "Fields"
        _, name, columns = record
        if self.version == 1 and not NUMBER.fullmatch(columns):
            return "Number"
        kinds = b"n" * min(int(columns), 9) if self.version == 1 else columns
        if not KINDS.fullmatch(kinds):
            return "Range"
        if not NAME.fullmatch(name) or name in self.tables:
            return "Name"
        if self.statements:
            return "Order"
        self.tables[name] = kinds
        return None

    def take_statement(self, record):
        if len(record) < 2 or record[1] not in FIELDS:
            return "Word"
        session, word, *rest = record
        fewest, most = FIELDS[word]
        if not fewest <= len(record) <= most:
            return "Fields"
        keys = rest[1:2] if word in (b"get", b"put", b"del") else rest[1:] if word in (b"scan", b"open") else []
        counts = rest if word == b"fetch" else []
        values = rest[2:] if word == b"put" else []
        numbers = values if self.version == 1 else []
        if not all(map(NUMBER.fullmatch, [session, *keys, *counts])) or not all(map(VALUE.fullmatch, numbers)):
            return "Number"
        if (
            not 1 <= int(session) <= MOST_SESSIONS
            or any(int(key) > GREATEST_KEY for key in keys)
            or any(not 1 <= int(count) <= MOST_FETCHED for count in counts)
            or not all(map(fits, numbers))
        ):
            return "Range"
        named = rest if word == b"begin" else [] if word in (b"fetch", b"gc") else rest[:1]
        if any(name not in self.tables for name in named) or word == b"gc" and rest[0] not in COLLECTORS:
            return "Name"
        if word == b"put":
            kinds = self.tables[rest[0]]
            if len(values) != len(kinds):
                return "Columns"
            if self.version == 2 and not all(map(is_value, values, kinds)):
                return "Value"
        return self.take_in_order(int(session), word, record)

    def take_in_order(self, session, word, record):
        now = self.open.get(session)
        if word in (b"begin", b"open"):
            right = now is None
        elif word in (b"commit", b"rollback"):
            right = now == "transaction"
        elif word in (b"fetch", b"close"):
            right = now == "cursor"
        else:
            right = word == b"gc" or now != "cursor"
        if not right:
            return "Order"
        if word in (b"begin", b"open"):
            self.open[session] = "transaction" if word == b"begin" else "cursor"
        if word in (b"commit", b"rollback", b"close"):
            del self.open[session]
        self.statements.append((self.place, record))
        return None


def fits(value):
    return LEAST_VALUE <= int(value) <= GREATEST_VALUE


def is_value(value, kind):
    """Whether a field is a value of a column of version 2."""
    if kind == ord("t"):
        return len(value) <= 64
    return VALUE.fullmatch(value) is not None and fits(value)


def read_script(text):
    """Returns a script that was taken whole, and None; or one up to its first bad record, and that record's place and code."""
    script = Script()
    for record in read_csv(text)[0]:
        code = script.take(record)
        if code:
            return script, (script.place, code)
    return script, None


# A replay


class Transaction:
    def __init__(self, session, number, at, tables):
        self.by = (session, number)
        self.at = at
        self.tables = tables  # those that it declared, or None
        self.moved = False
        self.wrote = []
        self.rest = None  # of a cursor: its table, the next key and the last one

    def holds(self, table):
        """Whether its snapshot counts for a table."""
        return not self.moved or table in self.tables


class Version:
    def __init__(self, number, by, row):
        self.number = number  # None while its transaction is open
        self.by = by
        self.row = row  # None for a deletion


class Refusal(Exception):
    """The fields of a refused statement."""


class Replay:
    """The tables of a replay, and the text that it has printed."""

    def __init__(self, script, long=LONG):
        self.long = long
        self.mark = 0
        self.versions = {}  # by table and key, newest first
        self.taken = 0  # the newest group that the group collector has taken
        self.groups = [None]  # what each group wrote
        self.begun = {}  # how many transactions each session has begun
        self.open = {}  # the open transaction of each session
        self.totals = dict.fromkeys(("made", "undone", "group", "table", "interval"), 0)
        self.lines = []
        for place, (session, word, *rest) in script.statements:
            self.answer(int(session), place, word, rest)

    def text(self):
        """Ends the replay, and returns its text."""
        return b"".join(map(write_csv, [*self.lines, *self.end()]))

    def end(self):
        """Rolls back what is open, settles the tables, and returns the totals."""
        for session in sorted(self.open):
            self.undo(self.open.pop(session))
        self.totals["table"] += self.cut_tables()
        return self.counts()

    def counts(self):
        """Returns the totals as they are now."""
        left = sum(map(len, self.versions.values()))
        return [[b"total", name.encode(), b"%d" % count] for name, count in [*self.totals.items(), ("left", left)]]

    def say(self, session, place, *fields):
        self.lines.append([b"%d" % field if isinstance(field, int) else field for field in (session, place, *fields)])

    def answer(self, session, place, word, rest):
        """Answers one record."""
        if word == b"gc":
            self.round(session, place, rest[0].decode())
        elif word in (b"begin", b"open"):
            self.begin(session, set(rest) or None if word == b"begin" else {rest[0]})
            if word == b"open":
                self.open[session].rest = (rest[0], int(rest[1]), int(rest[2]))
            self.say(session, place, b"begun", self.mark)
        elif word in (b"commit", b"rollback", b"close"):
            transaction = self.open.pop(session)
            if word == b"rollback":
                self.undo(transaction)
                self.say(session, place, b"undone")
            else:
                self.say(session, place, *self.commit(transaction, b"ended"))
        elif session in self.open:
            self.say_all(session, place, [], *self.ask(self.open[session], word, rest), [])
        else:
            self.begin(session, {rest[0]})
            transaction = self.open.pop(session)
            fields, rows = self.ask(transaction, word, rest)
            self.say_all(session, place, [b"at", transaction.at], fields, rows, self.commit(transaction))

    def say_all(self, session, place, before, fields, rows, after):
        self.say(session, place, *before, *fields, *after)
        for key, row in rows:
            self.say(session, place, b"row", key, *row)

    def begin(self, session, tables):
        self.begun[session] = self.begun.get(session, 0) + 1
        self.open[session] = Transaction(session, self.begun[session], self.mark, tables)

    def commit(self, transaction, nothing=None):
        """Commits a transaction, and returns the fields that say so."""
        if not transaction.wrote:
            return [nothing] if nothing else []
        self.mark += 1
        for record in transaction.wrote:
            self.versions[record][0].number = self.mark
        self.groups.append(transaction.wrote)
        return [b"committed", self.mark]

    def undo(self, transaction):
        for record in transaction.wrote:
            self.keep(record, self.versions[record][1:])
        self.totals["undone"] += len(transaction.wrote)

    def keep(self, record, versions):
        """Leaves a record these versions, and returns how many have gone."""
        gone = len(self.versions[record]) - len(versions)
        self.versions[record] = versions
        if not versions:
            del self.versions[record]
        return gone

    def ask(self, transaction, word, rest):
        """Returns the fields of an answer, and the rows that follow it."""
        if word == b"fetch":
            return self.fetch(transaction, int(rest[0]))
        table = rest[0]
        if transaction.tables is not None and table not in transaction.tables:
            return [b"refused", b"undeclared", table], []
        if word == b"scan":
            rows = self.rows(transaction, table, int(rest[1]), int(rest[2]))
            return [b"rows", len(rows)], rows
        record = (table, int(rest[1]))
        row = self.see(transaction, record)
        if word == b"get" or word == b"del" and row is None:
            return ([b"none"] if row is None else [b"row", *row]), []
        try:
            self.write(transaction, record, rest[2:] if word == b"put" else None)
        except Refusal as refusal:
            return list(refusal.args), []
        return [b"stored" if word == b"put" else b"gone"], []

    def see(self, transaction, record):
        """Returns the row that a transaction sees, or None."""
        for version in self.versions.get(record, []):
            if version.by == transaction.by or version.number is not None and version.number <= transaction.at:
                return version.row
        return None

    def rows(self, transaction, table, low, high):
        """Returns the key and the row of each record that a transaction sees."""
        seen = ((key, self.see(transaction, (of, key))) for of, key in sorted(self.versions) if of == table and low <= key <= high)
        return [(key, row) for key, row in seen if row is not None]

    def fetch(self, cursor, count):
        table, low, high = cursor.rest
        rows = self.rows(cursor, table, low, high)[:count]
        cursor.rest = (table, rows[-1][0] + 1 if len(rows) == count else high + 1, high)
        return [b"rows", len(rows)], rows

    def write(self, transaction, record, row):
        versions = self.versions.setdefault(record, [])
        if versions and versions[0].by == transaction.by:
            versions[0].row = row
            return
        if versions and versions[0].number is None:
            raise Refusal(b"refused", b"open", *versions[0].by)
        if versions and versions[0].number > transaction.at:
            raise Refusal(b"refused", b"newer", versions[0].number)
        versions.insert(0, Version(None, transaction.by, row))
        transaction.wrote.append(record)
        self.totals["made"] += 1

    def round(self, session, place, kind):
        """Makes a round of a collector, and prints its report."""
        removed = {"group": self.cut_groups, "table": self.move_and_cut, "interval": self.sweep}[kind]()
        self.totals[kind] += removed
        self.say(session, place, b"swept", kind.encode(), self.mark, self.mark, removed)
        for holder in sorted(self.open):
            transaction = self.open[holder]
            self.say(session, place, b"held", holder, transaction.at, b"moved" if transaction.moved else b"unmoved")

    def snapshots(self, table):
        """Returns the snapshots in use that count for a table."""
        return [transaction.at for transaction in self.open.values() if transaction.holds(table)]

    def cut(self, record, bound):
        """Leaves of a record what the bound sees, and all newer versions; returns how many have gone."""
        versions = self.versions.get(record, [])
        newer = [version for version in versions if version.number is None or version.number > bound]
        seen = versions[len(newer) : len(newer) + 1]
        return self.keep(record, newer + [version for version in seen if version.row is not None]) if seen else 0

    def cut_groups(self):
        bound = min([self.mark, *(transaction.at for transaction in self.open.values())])
        records = {record for group in self.groups[self.taken + 1 : bound + 1] for record in group}
        self.taken = max(self.taken, bound)
        return sum(self.cut(record, bound) for record in records)

    def move_and_cut(self):
        for transaction in self.open.values():
            if transaction.tables is not None and self.mark - transaction.at >= self.long:
                transaction.moved = True
        return self.cut_tables()

    def cut_tables(self):
        return sum(self.cut(record, min([self.mark, *self.snapshots(record[0])])) for record in list(self.versions))

    def sweep(self):
        return sum(self.keep(record, self.swept(record)) for record in list(self.versions))

    def swept(self, record):
        """Returns the versions that stay when those that no snapshot sees, and that a newer one covers, go."""
        versions = self.versions[record]
        snapshots = self.snapshots(record[0])
        return [
            version
            for newer, version in zip([None, *versions], versions)
            if newer is None or newer.number is None or any(version.number <= at < newer.number for at in snapshots)
        ]


# A conversation


class Conversation:
    """What is answered to the records of a text, where no round is made that nobody asked for."""

    def __init__(self, text, long=LONG):
        self.script = Script(math.inf)  # of the records that broke no rule
        self.replay = Replay(self.script, long)
        self.stored = 0  # how many statements stored a write
        self.records = list(split_csv(text))
        self.answers = [self.answer(record.fields, record.size) for record in self.records]
        self.totals = self.replay.end()

    def answer(self, fields, size):
        """Returns the records of the answer to the next record, which has so many bytes."""
        known = len(self.script.statements)
        code = self.judge(fields, size)
        place = b"%d" % self.script.place
        if code:
            return [[b"bad", place, code.encode()]]
        if fields == [b"totals"]:
            return self.replay.counts()
        if len(self.script.statements) == known:
            return [[b"declared", place]]
        return self.reply(*self.script.statements[-1])

    def judge(self, fields, size):
        """Counts a record, and returns the code of the first rule that it breaks, or None."""
        if size <= MOST_BYTES and fields != [b"totals"]:
            return self.script.take(fields)
        self.script.place += 1
        return "Long" if size > MOST_BYTES else None

    def reply(self, place, statement):
        """Returns the records of the reply to a statement."""
        session, word, *rest = statement
        said = len(self.replay.lines)
        self.replay.answer(int(session), place, word, rest)
        lines = self.replay.lines[said:]
        self.stored += lines[0][4 if lines[0][2] == b"at" else 2] in (b"stored", b"gone")
        return [[b"holds", b"%d" % (len(lines) - 1)], *lines] if word == b"gc" else lines
