"""Why a record was refused, in a sentence, and what to do.

`why_bad` explains the code of a record that breaks a rule: it names the rule, what is wrong with this record, and what is allowed.
`why_refused` explains the refusal of a statement. docs/FORMATS.md has all codes and refusals.
"""

from __future__ import annotations

import re
import signal
from collections.abc import Sequence

from hybridgc import Ended
from mirror import COLLECTORS, FORMS, PLAIN_FORMS, SESSIONS, TABLES, Mirror
from rows import shown

GREATEST_KEY = 18446744073709551615
GREATEST_VALUE = 9223372036854775807
MOST_FETCHED = 1048576
MOST_BYTES = 64
KEY = re.compile(r"0|[1-9][0-9]*")
VALUE = re.compile(r"0|-?[1-9][0-9]*")
NAME = re.compile(r"[A-Za-z0-9_]{1,32}")


def listed(names: Sequence[str], word: str = "or") -> str:
    """Returns names as a person lists them: `a, b or c`."""
    names = list(names)
    return names[0] if len(names) == 1 else f"{', '.join(names[:-1])} {word} {names[-1]}" if names else "none"


def quoted(text: str) -> str:
    """Returns a field as a sentence shows it, in quotes, and cut where it is long."""
    text = shown(text)
    return f"`{text if len(text) <= 40 else text[:39] + '…'}`"


def number_fields(fields: Sequence[str], mirror: Mirror) -> list[tuple[str, str]]:
    """Returns the fields of a record that have to be numbers, each with what it is."""
    if fields[0] == "version":
        return [("version", fields[1])]
    if fields[0] == "table":
        return [("columns", fields[2])] if mirror.version == 1 else []
    word, rest = fields[1], fields[2:]
    found = [("session", fields[0])]
    if word in ("get", "put", "del"):
        found.append(("key", rest[1]))
    elif word in ("scan", "open"):
        found += [("low end", rest[1]), ("high end", rest[2])]
    elif word == "fetch":
        found.append(("number of rows", rest[0]))
    if word == "put" and mirror.version == 1:
        found += [("value", value) for value in rest[2:]]
    return found


def bounds(what: str) -> tuple[int, int]:
    """Returns the least and the greatest number that a field may have."""
    if what == "value":
        return -GREATEST_VALUE - 1, GREATEST_VALUE
    return {
        "session": (1, SESSIONS),
        "version": (2, 2),
        "columns": (1, 8),
        "number of rows": (1, MOST_FETCHED),
    }.get(what, (0, GREATEST_KEY))


def why_count(fields: Sequence[str], mirror: Mirror) -> str:
    """Too many records, or tables."""
    if fields[0] == "table" and len(mirror.tables) >= TABLES:
        return f"there are {TABLES} tables already, and there can be no more."
    return "a script has at most 1,048,576 records; a conversation may have any number."


def why_word(fields: Sequence[str], mirror: Mirror) -> str:
    """No word, or one that there is not."""
    if fields[0] == "version":
        return "a version record can only be the first record of all. Start again, with it as the first record."
    if len(fields) < 2 or not fields[1]:
        return f"no word follows {quoted(fields[0])}. The words of a session are {listed(tuple(FORMS), 'and')}."
    return f"there is no word {quoted(fields[1])}. The words of a session are {listed(tuple(FORMS), 'and')}."


def why_fields(fields: Sequence[str], mirror: Mirror) -> str:
    """A number of fields that the word does not have."""
    word = fields[0] if fields[0] in PLAIN_FORMS else fields[1]
    form = (PLAIN_FORMS | FORMS)[word]
    more = ""
    if word == "table":
        more = ": COLUMNS is " + ("1 to 8 letters `n` or `t`" if mirror.version == 2 else "a number from 1 to 8")
    elif word == "put":
        more = ", with 1 to 8 values"
        if len(fields) > 2 and fields[2] in mirror.tables:
            more += f": {quoted(fields[2])} has {mirror.columns(fields[2])}"
    elif word == "begin":
        more = ", with at most 64 tables"
    elif word == "gc":
        more = f": KIND is {listed(COLLECTORS)}"
    return f"`{word}` is written `{form}`{more}."


def why_number(fields: Sequence[str], mirror: Mirror) -> str:
    """A field that has to be a number, and is not written as one."""
    for what, text in number_fields(fields, mirror):
        if what == "value" and not VALUE.fullmatch(text):
            return f"the value {quoted(text)} is not a number: digits without a zero in front, perhaps after a `-`. {texts_hint(mirror)}"
        if what != "value" and not KEY.fullmatch(text):
            hint = f" {texts_hint(mirror)}" if what == "columns" and set(text) <= set("nt") else ""
            return f"the {what} {quoted(text)} is not a number: digits without a sign, and without a zero in front.{hint}"
    return "a field that has to be a number is not written as one."


def texts_hint(mirror: Mirror) -> str:
    """Says how columns get texts, where all are numbers."""
    return "For columns of texts `version 2` has to be the first record." if mirror.version == 1 else ""


def why_range(fields: Sequence[str], mirror: Mirror) -> str:
    """A number, or kinds of columns, out of range."""
    if fields[0] == "table" and mirror.version == 2:
        return f"the columns of a table are 1 to 8 letters, `n` for a number and `t` for a text; {quoted(fields[2])} is not that."
    for what, text in number_fields(fields, mirror):
        least, most = bounds(what)
        if not least <= int(text) <= most:
            return f"the {what} {quoted(text)} is not " + (f"{least}." if least == most else f"from {least} to {most}.")
    return "a number is out of its range."


def why_name(fields: Sequence[str], mirror: Mirror) -> str:
    """A table that is not declared, or one that cannot be declared, or a collector that there is not."""
    if fields[0] == "table":
        name = fields[1]
        if name in mirror.tables:
            return f"the table {quoted(name)} is declared already, with {mirror.columns(name)}."
        return f"{quoted(name)} is no name for a table: a name has 1 to 32 letters (a to z, A to Z), digits and `_`."
    if fields[1] == "gc":
        return f"there is no collector {quoted(fields[2])}. The collectors are {listed(COLLECTORS, 'and')}."
    named = fields[2:] if fields[1] == "begin" else fields[2:3]
    name = next((name for name in named if name not in mirror.tables), named[0])
    if not mirror.tables:
        return f"there is no table {quoted(name)}, and no other one. Declare it before the first statement: `{PLAIN_FORMS['table']}`."
    return f"there is no table {quoted(name)}. The tables are {listed(tuple(map(shown, mirror.tables)), 'and')}."


def why_columns(fields: Sequence[str], mirror: Mirror) -> str:
    """A put with too many or too few values."""
    given = len(fields) - 4
    table = fields[2]
    return f"this put has {given} value{'s' * (given != 1)}, and the table {quoted(table)} has {mirror.columns(table)}."


def why_value(fields: Sequence[str], mirror: Mirror) -> str:
    """In version 2: a value that its column cannot hold."""
    for column, (kind, value) in enumerate(zip(mirror.tables[fields[2]], fields[4:]), 1):
        size = len(value.encode("utf-8", "surrogateescape"))
        if kind == "t" and size > MOST_BYTES:
            return f"the text for column v{column} has {size} bytes, and a text has at most {MOST_BYTES}."
        if kind == "n" and not VALUE.fullmatch(value):
            return f"column v{column} of {quoted(fields[2])} holds numbers, and {quoted(value)} is not one."
        if kind == "n" and not -GREATEST_VALUE - 1 <= int(value) <= GREATEST_VALUE:
            return f"the value {quoted(value)} is not from {-GREATEST_VALUE - 1} to {GREATEST_VALUE}."
    return "a column cannot hold its value."


def why_order(fields: Sequence[str], mirror: Mirror) -> str:
    """A record that cannot come now."""
    if fields[0] == "table":
        return "tables are declared before the first statement of a session. Start again, and declare it first."
    number, word = fields[0], fields[1]
    session = mirror.session(int(number))
    if session.cursor is not None:
        only = "until its `close` it can only `fetch` and `gc`. Use another session meanwhile."
        return f"session {number} has a cursor open on {quoted(session.cursor)}: {only}"
    if word in ("fetch", "close"):
        return f"session {number} has no cursor open. `open TABLE LOW HIGH` opens one."
    if word in ("commit", "rollback"):
        return f"session {number} is in no transaction. `begin` begins one."
    return f"session {number} is in a transaction. `commit` or `rollback` ends it."


def why_long(fields: Sequence[str], mirror: Mirror) -> str:
    """A record with too many bytes."""
    return "a record of a conversation has at most 1,048,576 bytes."


CODES = {
    "Count": why_count,
    "Word": why_word,
    "Fields": why_fields,
    "Number": why_number,
    "Range": why_range,
    "Name": why_name,
    "Columns": why_columns,
    "Value": why_value,
    "Order": why_order,
    "Long": why_long,
}


def why_bad(code: str, fields: Sequence[str], mirror: Mirror) -> str:
    """Explains the code of a record that breaks a rule. The mirror has heard all records before it, and not this one."""
    if code not in CODES:
        return f"the record breaks a rule that this tool does not know ({code})."
    return CODES[code](fields, mirror).strip()


def why_refused(refusal: Sequence[str], fields: Sequence[str], mirror: Mirror) -> str:
    """Explains the refusal of a statement: `refusal` is `open,SESSION,TRANSACTION`, `newer,C` or `undeclared,TABLE`."""
    session = mirror.session(int(fields[0]))
    if refusal[0] == "undeclared":
        return (
            f"this transaction declared {listed(session.declared, 'and')}, and not {refusal[1]}. It goes on; "
            f"use another session for {refusal[1]}, or begin again with it."
        )
    if refusal[0] == "open":
        again = "try again after its commit or rollback"
        if session.in_transaction:
            again += "; if it commits, this transaction has to roll back and begin again, since its snapshot is older"
        return f"session {refusal[1]} has written this key in its transaction {refusal[2]}, which is still open; {again}."
    return (
        f"group {refusal[1]} wrote this key after the snapshot that this transaction reads. It goes on, but it cannot write this key: "
        "roll back and begin again, to read the newer row first."
    )


def why_ended(ended: Ended) -> str:
    """Says why the program ended by itself."""
    lost = "What it held is lost: it was in its memory alone."
    if ended.status < 0:
        number = -ended.status
        name = signal.Signals(number).name if number in set(signal.Signals) else "unknown"
        perhaps = ", perhaps because the machine ran out of memory" if name == "SIGKILL" else ""
        return f"the program was ended by signal {number} ({name}){perhaps}. {lost}"
    if ended.status == 7:
        return f"the program ran out of memory at this record, which is not answered. {lost}"
    said = str(ended).partition("\n")[0]
    if ended.status == 2:
        return f"the program takes other words, or has no mode `live`: {said}"
    return (said if said.startswith("the program ended") else f"the program ended with status {ended.status}: {said}") + f". {lost}"
