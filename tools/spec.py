"""Specs of tools/interleave: sessions, their steps and the orders to try, in the form of PostgreSQL's isolation tester.

    setup { table,t,1; put,t,1,10 }         tables and first rows
    teardown { scan,t,0,99 }                what is read at the end of each interleaving
    on conflict rollback                    what a client does when a write is refused; `continue` if nothing is said
    session alice
    setup { begin }
    step a1 { get,t,1 }
    step a2 { put,t,1,11; commit }
    teardown { get,t,1 }
    session bob
    ...
    permutation a1 b1 a2                    an order to try; if there is none, all are

In braces are records of a script without their session, each on a line of its own or parted by `;`. `#` begins a comment.
"""

from __future__ import annotations

import dataclasses
import functools
import re
from typing import Iterator, NamedTuple, Optional

from hybridgc import fields_of

# The session of the setup and of the last reads, and how many others there can be.
OWN_SESSION = 64
MOST_SESSIONS = OWN_SESSION - 1
# What a client does when a write in a transaction is refused.
CONTINUE, ROLLBACK = "continue", "rollback"

_TOKEN = re.compile(r'\s+|#[^\n]*|(?P<block>\{)|"(?P<quoted>[^"\n]*)"|(?P<word>[^\s{}"#]+)')
# A piece of a block: a quoted text, a comment, the end of a record or of the block, or any other character.
_PIECE = re.compile(r'"(?:[^"]|"")*"|#[^\n]*|[;\n}]|[^;\n}"#]+|"')


class SpecError(Exception):
    """A mistake in a spec. The text begins with its line."""

    def __init__(self, line: int, said: str):
        super().__init__(f"line {line}: {said}")


class Line(NamedTuple):
    """A record without its session, and the line of the spec that it begins at."""

    record: bytes
    line: int

    def word(self) -> bytes:
        """The record's first field."""
        return _word_of(self.record)


@functools.lru_cache(4096)
def _word_of(record: bytes) -> bytes:
    return fields_of(record)[0]


@dataclasses.dataclass
class Step:
    """A step: records that run without a pause."""

    name: str
    session: int
    lines: list[Line]


@dataclasses.dataclass
class Session:
    """A session: what it does before its steps and after them, and when a write is refused."""

    name: str
    number: int
    setup: list[Line] = dataclasses.field(default_factory=list)
    steps: list[Step] = dataclasses.field(default_factory=list)
    teardown: list[Line] = dataclasses.field(default_factory=list)
    on_conflict: Optional[str] = None


@dataclasses.dataclass
class Spec:
    """A whole spec."""

    setup: list[Line] = dataclasses.field(default_factory=list)
    teardown: list[Line] = dataclasses.field(default_factory=list)
    sessions: list[Session] = dataclasses.field(default_factory=list)
    permutations: list[list[Step]] = dataclasses.field(default_factory=list)
    on_conflict: str = CONTINUE

    def steps(self) -> dict[str, Step]:
        """All steps by name."""
        return {step.name: step for session in self.sessions for step in session.steps}

    def client_of(self, session: Session) -> str:
        """What the client of a session does when a write is refused."""
        return session.on_conflict or self.on_conflict

    def declarations(self) -> list[Line]:
        """The records of the setup that declare tables, and the version record."""
        return [line for line in self.setup if line.word() in (b"table", b"version")]

    def first_rows(self) -> list[Line]:
        """The other records of the setup."""
        return [line for line in self.setup if line.word() not in (b"table", b"version")]

    def lines(self) -> Iterator[Line]:
        """All records."""
        yield from self.setup
        for session in self.sessions:
            yield from session.setup
            for step in session.steps:
                yield from step.lines
            yield from session.teardown
        yield from self.teardown


class Reader:
    """Reads the words, names and blocks of a spec one after the other."""

    def __init__(self, text: str):
        self.text = text
        self.at = 0
        self._next: Optional[tuple[str, str, int]] = None

    def line(self) -> int:
        """The line that is read next."""
        return self.text.count("\n", 0, self.at) + 1

    def next(self) -> Optional[tuple[str, str, int]]:
        """Returns the kind of the next word, name or block, its text and its line, or None at the end."""
        token, self._next = self.peek(), None
        return token

    def peek(self) -> Optional[tuple[str, str, int]]:
        """Returns what `next` will."""
        while self._next is None and self.at < len(self.text):
            line = self.line()
            found = _TOKEN.match(self.text, self.at)
            if not found:
                raise SpecError(line, f"{self.text[self.at]!r} begins nothing")
            self.at = found.end()
            kind = found.lastgroup
            if kind:
                self._next = (kind, found[kind], line)
        return self._next

    def name(self, of: str) -> str:
        """Reads a name, in quotes or without."""
        token = self.next()
        if not token or token[0] == "block" or not token[1]:
            raise SpecError(token[2] if token else self.line(), f"the name of {of} is missing")
        return token[1]

    def block(self, of: str) -> list[Line]:
        """Reads a block of records."""
        token = self.next()
        if not token or token[0] != "block":
            raise SpecError(token[2] if token else self.line(), f"{of} wants its records in braces, as {{ get,t,1; commit }}")
        lines, record, begun = [], "", self.line()
        while self.at < len(self.text):
            piece = _PIECE.match(self.text, self.at)
            assert piece
            begun = begun if record.strip() else self.line()
            self.at = piece.end()
            if piece[0] in (";", "\n", "}"):
                if record.strip():
                    lines.append(Line(record.strip().encode("utf-8", "surrogateescape"), begun))
                record = ""
                if piece[0] == "}":
                    return lines
            elif not (piece[0].startswith("#") and not record[-1:].strip()):
                record += piece[0]
        raise SpecError(token[2], f"the braces of {of} are not closed")


def read_spec(text: str) -> Spec:
    """Reads a spec, or raises `SpecError`."""
    reader, spec = Reader(text), Spec()
    orders: list[tuple[list[str], int]] = []
    while token := reader.next():
        kind, word, line = token
        if kind == "block":
            raise SpecError(line, "these braces follow neither setup, nor a step, nor teardown")
        if word == "permutation":
            orders.append((_names(reader), line))
        elif word == "session":
            _add_session(spec, reader.name("a session"), line)
        elif word in ("setup", "teardown", "step", "on"):
            _add_part(spec, reader, word, line)
        else:
            raise SpecError(line, f"{word!r} is none of setup, teardown, session, step, on conflict and permutation")
    _check(spec)
    steps = spec.steps()
    for names, line in orders:
        spec.permutations.append([_step_of(steps, name, line) for name in names])
    return spec


def _names(reader: Reader) -> list[str]:
    """Reads the names of a permutation, which end where another part begins."""
    names = []
    while token := reader.peek():
        kind, word, _ = token
        if kind == "word" and word in ("permutation", "session", "setup", "teardown", "step", "on") or kind == "block":
            break
        names.append(word)
        reader.next()
    return names


def _add_session(spec: Spec, name: str, line: int) -> None:
    """Begins a session."""
    if name in (session.name for session in spec.sessions):
        raise SpecError(line, f"there are two sessions {name!r}")
    if len(spec.sessions) == MOST_SESSIONS:
        raise SpecError(line, f"there are more than {MOST_SESSIONS} sessions")
    spec.sessions.append(Session(name, len(spec.sessions) + 1))


def _add_part(spec: Spec, reader: Reader, word: str, line: int) -> None:
    """Reads a setup, a teardown, a step or a policy, of the session that was begun last or of the spec."""
    session = spec.sessions[-1] if spec.sessions else None
    if word == "on":
        policy = (reader.name("conflict"), reader.name("what a client does"))
        if policy not in (("conflict", CONTINUE), ("conflict", ROLLBACK)):
            raise SpecError(line, "it is `on conflict continue` or `on conflict rollback`")
        (session or spec).on_conflict = policy[1]
    elif word == "step":
        if not session:
            raise SpecError(line, "a step comes after its session")
        name = reader.name("a step")
        if name in spec.steps():
            raise SpecError(line, f"there are two steps {name!r}; a permutation would not know which")
        session.steps.append(Step(name, session.number, reader.block(f"step {name!r}")))
    else:
        getattr(session or spec, word).extend(reader.block(word))


def _step_of(steps: dict[str, Step], name: str, line: int) -> Step:
    """Returns the step that a permutation names."""
    if name.startswith("(") or name.endswith(")"):
        raise SpecError(line, f"{name!r}: there are no marks for blocking, since no statement waits; name the step alone")
    if name not in steps:
        raise SpecError(line, f"the permutation names {name!r}, which is no step; the steps are {' '.join(steps)}")
    return steps[name]


def _check(spec: Spec) -> None:
    """Refuses a spec in which there is nothing to do."""
    if not spec.declarations():
        raise SpecError(1, "the setup before the first session declares no table, as setup { table,t,1 }")
    if not spec.steps():
        raise SpecError(1, "there is no session with a step, as session s1 step r1 { get,t,1 }")
