"""What a person types, made into a record.

A line is a record as a script has it (`1,put,t,5,20`), or its words parted by blanks, with quotes as in a shell (`put t 5 'a b'`). It is
taken as a record if a comma follows its first field. The session may be left out in both.
"""

from __future__ import annotations

import re
import shlex
from collections.abc import Iterable, Iterator

from hybridgc import Framer, fields_of, record_of
from mirror import PLAIN_FORMS
from rows import shown

# The first field of a record that has more than one.
FIRST_FIELD = re.compile(r"""("[^"]*"|[^\s,"']*),""")
# A word that a shell would part or change.
NEEDS_QUOTES = re.compile(r"""[\s'"\\]""")


class Unfinished(Exception):
    """A quote is open at the end of a line: the record goes on in the next one."""


def decoded(field: bytes) -> str:
    """Returns a field as text. Bytes that are no UTF-8 are kept."""
    return field.decode("utf-8", "surrogateescape")


def encoded(text: str) -> bytes:
    """Returns the bytes of a text."""
    return text.encode("utf-8", "surrogateescape")


def fields_in(record: bytes) -> list[str]:
    """Returns the fields of a record as texts."""
    if b'"' not in record:
        return decoded(record).split(",")
    return [decoded(field) for field in fields_of(record)]


def record_in(line: str, session: int) -> bytes:
    """Returns the record that a line is, of this session if the line names none."""
    if FIRST_FIELD.match(line):
        record = framed(line)
        return b"%d,%b" % (session, record) if lacks_session(fields_in(record)[0]) else record
    words = split(line)
    if lacks_session(words[0]):
        words.insert(0, str(session))
    return record_of(*words)


def lacks_session(first: str) -> bool:
    """Tells whether a record that begins with this field has to be given a session."""
    return first[:1].isalpha() and first not in PLAIN_FORMS


def framed(line: str) -> bytes:
    """Returns the record of a line in CSV. No line end is in it, but in quotes."""
    framer = Framer()
    records = framer.feed(encoded(line) + b"\n")
    if framer.has_begun():
        raise Unfinished
    return records[0]


def split(line: str) -> list[str]:
    """Returns the words of a line, without their quotes."""
    try:
        return shlex.split(line)
    except ValueError:
        # A quote is open, or a backslash is last.
        raise Unfinished from None


def numbered_records(lines: Iterable[bytes]) -> Iterator[tuple[int, bytes]]:
    """Yields the records of a script, each with the line where it begins. A byte order mark is dropped, and an open quote closed."""
    framer, begun = Framer(), 1
    for number, line in enumerate(lines, 1):
        if not framer.has_begun():
            begun = number
        if number == 1:
            line = line.removeprefix(b"\xef\xbb\xbf")
        for record in framer.feed(line):
            yield begun, record
    for record in framer.finish():
        yield begun, record


def words_of(fields: Iterable[str]) -> str:
    """Returns fields as a person types them: parted by blanks, in quotes where a shell needs them."""
    return " ".join(map(quoted_word, fields))


def quoted_word(text: str) -> str:
    """Returns a field as a word that can be shown, in quotes if it has blanks or quotes, or nothing, in it."""
    if text and not NEEDS_QUOTES.search(text):
        return shown(text)
    return "'" + shown(text).replace("'", "'\\''") + "'"
