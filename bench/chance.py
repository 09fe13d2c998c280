"""Scripts by chance, for bench/random and bench/talk_random: valid ones, ones with bad records, and damaged ones."""

import sys

from model import COLLECTORS, FIELDS, MARK, NEEDS_QUOTES, Script, quoted
from model import GREATEST_KEY, GREATEST_VALUE, LEAST_VALUE, MOST_FETCHED, MOST_SESSIONS, MOST_TABLES

CODES = ("Count", "Word", "Fields", "Number", "Range", "Name", "Columns", "Value", "Order")

# What a session may say, and how often.
OUTSIDE = {b"begin": 6, b"get": 2, b"put": 7, b"del": 2, b"scan": 1, b"open": 2, b"gc": 2}
INSIDE = {b"get": 3, b"put": 8, b"del": 2, b"scan": 2, b"commit": 4, b"rollback": 1, b"gc": 2}
FETCHING = {b"fetch": 14, b"close": 4, b"gc": 2}
# The words that need no table.
BARE = (b"begin", b"fetch", b"close", b"commit", b"rollback", b"gc")

NAMES = (b"a", b"b", b"t", b"T", b"7", b"_", b"stock", b"total", b"version", b"x" * 32)
FAR_KEYS = (GREATEST_KEY, GREATEST_KEY - 1, 2**63, 63, 64, 65)
TEXTS = (
    b"",
    b"7",
    b"row",
    b"a, b",
    b'"',
    b'say "so"',
    b"\n",
    b"two\nlines\r\n",
    b"\r",
    b" ",
    b"\xff\x00\xfe",
    b"total,made,0",
    b"x" * 64,
    b"====",
)
NO_NUMBERS = (b"", b"01", b"+1", b" 1", b"1 ", b"1.0", b"0x1", b"one", b"1\xff", b"-0", b"--1", b"-1")
NO_WORDS = ([b"1"], [b"x"], [b"1", b""], [b"1", b"Begin"], [b"1", b" get"], [b"1", b"commits"], [b"version", b"2"], [b"Table", b"t", b"1"])
NO_NAMES = (b"", b"none", b"a b", b"x" * 33, b"\xff")
NO_TEXTS = (b"x" * 65, b"\n" * 70)
NO_VALUES = (b"", b"x", b"-0", b"007", b"%d" % (GREATEST_VALUE + 1), b"%d" % (LEAST_VALUE - 1))


class Maker:
    """Makes the records of one script."""

    def __init__(self, chance, version, tables):
        self.chance = chance
        self.script = Script()
        self.records = []
        if version == 2:
            self.add([b"version", b"2"])
        names = [*chance.sample(NAMES, min(tables, len(NAMES))), *(b"t%d" % i for i in range(tables - len(NAMES)))]
        for name in names:
            width = chance.choice((1, 1, 1, 2, 3, 8))
            kinds = bytes(chance.choices(b"nt", k=width))
            self.add([b"table", name, kinds if version == 2 else b"%d" % width])
        sessions = chance.choice((1, 2, 3, 3, 4, 4, 5, 8, 64))
        self.sessions = chance.sample(range(1, MOST_SESSIONS + 1), sessions) if chance.random() < 0.2 else range(1, sessions + 1)
        self.keys = [*range(chance.choice((1, 2, 4, 9))), *chance.sample(FAR_KEYS, chance.randrange(4))]

    def add(self, record):
        """Adds a record, and returns the code of its refusal, if it breaks a rule."""
        self.records.append(record)
        return self.script.take(record)

    def add_statements(self, count):
        """Adds so many session records that break no rule."""
        for _ in range(count):
            session = self.session()
            now = self.script.open.get(session)
            words = OUTSIDE if now is None else INSIDE if now == "transaction" else FETCHING
            allowed = [word for word in words if self.script.tables or word in BARE]
            word = self.chance.choices(allowed, [words[word] for word in allowed])[0]
            self.add(self.statement(session, word))

    def bytes(self):
        """Returns the script with any of the line ends, and now and then with quotes that it doesn't need."""
        chance = self.chance
        end = chance.choice((b"\n", b"\n", b"\n", b"\r\n", b"\r"))
        often = chance.choice((0, 0, 0.1))

        def shown(field):
            return quoted(field) if chance.random() < often or NEEDS_QUOTES.search(field) else field

        text = b"".join(b",".join(map(shown, record)) + end * (2 if chance.random() < 0.02 else 1) for record in self.records)
        mark = MARK if chance.random() < 0.03 else b""
        return mark + (text.removesuffix(end) if chance.random() < 0.1 else text)

    # Fields

    def session(self):
        return self.chance.choice(self.sessions)

    def table(self):
        return self.chance.choice(list(self.script.tables))

    def key(self):
        return b"%d" % self.chance.choice(self.keys)

    def range(self):
        """Returns the two ends of a range: of all keys, of some, or in the wrong order."""
        ends = self.chance.choices(self.keys, k=2)
        wide = self.chance.random()
        if wide < 0.4:
            return [b"0", b"%d" % GREATEST_KEY]
        return [b"%d" % end for end in (ends if wide < 0.5 else sorted(ends))]

    def value(self, kind):
        chance = self.chance
        if kind == ord("n"):
            return b"%d" % chance.choice((0, 1, 7, -1, -100, chance.randrange(100), LEAST_VALUE, GREATEST_VALUE))
        return chance.choice((*TEXTS, chance.randbytes(chance.randrange(65)), b"it is %d" % chance.randrange(10)))

    def row(self, table):
        return [self.value(kind) for kind in self.script.tables[table]]

    # Records

    def statement(self, session, word):
        """Returns a record of a session that says this word."""
        chance = self.chance
        rest = []
        if word == b"begin" and self.script.tables and chance.random() < 0.5:
            tables = list(self.script.tables)
            rest = chance.choices(tables, k=chance.randint(1, min(len(tables) + 1, MOST_TABLES)))
        elif word in (b"get", b"del"):
            rest = [self.table(), self.key()]
        elif word == b"put":
            table = self.table()
            rest = [table, self.key(), *self.row(table)]
        elif word in (b"scan", b"open"):
            rest = [self.table(), *self.range()]
        elif word == b"fetch":
            rest = [b"%d" % chance.choice((1, 1, 2, 3, 9, MOST_FETCHED))]
        elif word == b"gc":
            rest = [chance.choice(COLLECTORS)]
        return [b"%d" % session, word, *rest]

    def any_statement(self):
        """Returns a record of any word, which its session need not be allowed to say now."""
        return self.statement(self.session(), self.chance.choice([word for word in FIELDS if self.script.tables or word in BARE]))

    def bad(self, code):
        """Returns a record that breaks the rule of a code, and none that is tested before it."""
        chance = self.chance
        if code == "Word":
            return list(chance.choice(NO_WORDS))
        if code == "Fields":
            record = self.any_statement()
            fewest, most = FIELDS[record[1]]
            return record[: fewest - 1] if fewest > 2 and chance.random() < 0.5 else [*record, *[b"1"] * (most + 1 - len(record))]
        if code == "Number":
            wrong = chance.choice(NO_NUMBERS)
            return self.with_number(wrong, self.script.version == 1 and wrong != b"-1")
        if code == "Range":
            return self.with_number(b"%d" % chance.choice((GREATEST_KEY + 1, 10**30)), self.script.version == 1)
        if code == "Name":
            return self.with_wrong_name(chance.choice(NO_NAMES))
        if code == "Columns":
            record = self.statement(self.session(), b"put")
            return [*record, record[-1]] if len(record) < 12 else record[:-1]
        if code == "Value":
            record = self.statement(self.session(), b"put")
            column = chance.randrange(4, len(record))
            record[column] = chance.choice(NO_TEXTS if self.script.tables[record[2]][column - 4] == ord("t") else NO_VALUES)
            return record
        return self.out_of_order()

    def with_number(self, wrong, also_values):
        """Returns a record with one of its numbers replaced."""
        chance = self.chance
        words = [None, b"put", b"scan", b"open", b"fetch", *[b"value"] * also_values]
        word = chance.choice(words)
        if word is None:
            return [wrong, *self.any_statement()[1:]]
        record = self.statement(self.session(), b"put" if word == b"value" else word)
        places = {b"put": [3], b"fetch": [2], b"value": range(4, len(record))}
        record[chance.choice(places.get(word, [3, 4]))] = wrong
        return record

    def with_wrong_name(self, wrong):
        """Returns a record that names a table which is none, or a collector which is none."""
        word = self.chance.choice((b"begin", b"gc", b"get", b"put", b"del", b"scan", b"open"))
        record = self.statement(self.session(), word)
        return [*record, wrong][:66] if word == b"begin" else [*record[:2], wrong, *record[3:]]

    def out_of_order(self):
        """Returns a record that its session may not say now, or a table record that comes late."""
        chance = self.chance
        if self.script.statements and len(self.script.tables) < MOST_TABLES and chance.random() < 0.1:
            return [b"table", b"late", b"n" if self.script.version == 2 else b"1"]
        session = chance.choice([self.session(), *self.script.open])
        now = self.script.open.get(session)
        words = OUTSIDE if now is None else INSIDE if now == "transaction" else FETCHING
        return self.statement(session, chance.choice([word for word in FIELDS if word not in words]))

    def bad_front(self, code):
        """Returns a version or table record that breaks the rule of a code, and whether it comes first."""
        chance = self.chance
        old = self.script.version == 1
        right = b"1" if old else b"n"
        first = {
            "Fields": ([b"version"], [b"version", b"2", b""]),
            "Number": ([b"version", b"x"], [b"version", b"02"]),
            "Range": ([b"version", b"1"], [b"version", b"30"]),
        }
        columns = (b"0", b"9", b"123456789012345678901") if old else (b"", b"x", b"nN", b"n" * 9, b"1")
        tables = {
            "Count": ([b"table", b"more", right], [b"table"], [b"table", b"", b""]),
            "Fields": ([b"table"], [b"table", b"q"], [b"table", b"q", right, right]),
            "Number": [[b"table", b"q", wrong] for wrong in NO_NUMBERS] if old else [],
            "Range": [[b"table", b"q", wrong] for wrong in columns],
            "Name": [[b"table", wrong, right] for wrong in (*self.script.tables, b"", b"a-b", b"x" * 33)],
        }
        if code in first and (not tables[code] or chance.random() < 0.3):
            return list(chance.choice(first[code])), True
        return list(chance.choice(tables[code])), False


def make_script(chance):
    """Returns a valid script."""
    tables = chance.choice((0, 1, MOST_TABLES)) if chance.random() < 0.05 else chance.randint(1, 5)
    maker = Maker(chance, chance.choice((1, 2)), tables)
    maker.add_statements(chance.choice((0, 5, 20, 40, 80)))
    return maker.bytes()


def make_bad_script(chance, code):
    """Returns a script whose first bad record breaks the rule of a code."""
    maker = Maker(chance, 2 if code == "Value" else chance.choice((1, 2)), MOST_TABLES if code == "Count" else chance.randint(1, 5))
    in_front = code == "Count" or code in ("Fields", "Number", "Range", "Name") and chance.random() < 0.25
    if in_front:
        record, first = maker.bad_front(code)
        if first:
            maker = Maker(chance, 1, 0)
    else:
        maker.add_statements(chance.choice((0, 3, 10, 30)))
        record = maker.bad(code)
    found = maker.add(record)
    if found != code:
        sys.exit(f"bench/random: record {record} was made to break {code}, and breaks {found} by bench/model.py")
    # Nothing after it is read.
    maker.records += Maker(chance, 1, 1).records
    return maker.bytes()


def make_long_script(chance):
    """Returns a valid script of a few sessions, which write often and seldom ask for a round."""
    maker = Maker(chance, chance.choice((1, 2)), chance.randint(1, 3))
    maker.sessions = range(1, chance.choice((3, 5)))
    maker.add_statements(8000)
    maker.records = [record for record in maker.records if record[1] != b"gc" or chance.random() < 0.1]
    return maker.bytes()


def make_conversation(chance):
    """Returns records of which some break a rule, and some ask for the totals."""
    maker = Maker(chance, chance.choice((1, 2)), MOST_TABLES if chance.random() < 0.1 else chance.randint(1, 5))
    codes = [code for code in CODES[1:] if code != "Value" or maker.script.version == 2]
    for _ in range(chance.randrange(25)):
        maker.add_statements(chance.randrange(6))
        front, _ = maker.bad_front(chance.choice(("Count", "Fields", "Range", "Name")))
        maker.add(chance.choice(([b"totals"], front, maker.bad(chance.choice(codes)), maker.bad(chance.choice(codes)))))
    return maker.bytes()


def damage(chance, text):
    """Returns a script with one to three places changed."""
    for _ in range(chance.choice((1, 1, 2, 3))):
        text = chance.choice((change_bytes, change_bytes, change_lines))(chance, text)
    return text


def change_bytes(chance, text):
    """Returns a script with bytes changed, added or left out, or with its rest left out."""
    at = chance.randrange(len(text) + 1)
    byte = bytes([chance.choice(b'0123456789,,""\n\r-+ =abtn\xff\x00')])
    change = chance.randrange(5)
    if change == 4:
        return text[:at]
    taken = (1, 1, 0, chance.choice((1, 1, 2, 9)))[change]
    return text[:at] + (b"" if change == 3 else byte) + text[at + taken :]


def change_lines(chance, text):
    """Returns a script with a line twice, at another place, or left out, or without one of its fields."""
    lines = text.split(b"\n")
    line = chance.randrange(len(lines))
    change = chance.randrange(4)
    if change == 0:
        lines.insert(chance.randrange(len(lines) + 1), lines[line])
    elif change == 1:
        lines.insert(chance.randrange(len(lines)), lines.pop(line))
    elif change == 2:
        del lines[line]
    else:
        fields = lines[line].split(b",")
        del fields[chance.randrange(len(fields))]
        lines[line] = b",".join(fields)
    return b"\n".join(lines)
