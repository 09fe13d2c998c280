"""A script beside its replies, in lines: a column for each session where the terminal has room for them."""

from __future__ import annotations

from collections.abc import Iterator, Sequence

from answers import Reply
from order import Step
from rows import Paint, pad, width, wrapped
from speak import report_lines
from typed import words_of

BETWEEN = " │ "
# A statement or a reply that is wider is parted into lines, and no column is narrower than this.
WIDEST = 44
NARROWEST = 16


def statement_of(step: Step) -> str:
    """Returns a statement without its session, as it is typed."""
    return words_of(step.fields[1:])


def reply_words(reply: Reply) -> list[str]:
    """Returns the answer of a reply, and a text for each of its rows or held snapshots."""
    head = [reply.word, *reply.rest]
    if reply.snapshot is not None:
        head[:0] = ["at", str(reply.snapshot)]
    if reply.group is not None and reply.word != "committed":
        head += ["committed", str(reply.group)]
    below = [["held", *held] for held in reply.held] + (reply.rows if reply.word == "rows" else [])
    return [words_of(head), *(words_of(row) for row in below)]


def colour_of(step: Step) -> str:
    """Returns the colour of a step's reply."""
    return "yellow" if step.reply and step.reply.is_refused else "green" if step.reply and step.reply.group is not None else "cyan"


def coloured(said: Sequence[str], columns: int, colour: str, paint: Paint) -> list[str]:
    """Returns lines in a colour, filled with blanks to so many columns."""
    return [paint(colour, line) + " " * (columns - width(line)) for line in said]


def beside(step: Step, left: int, right: int, paint: Paint) -> list[str]:
    """Returns the lines of a step whose reply stands beside its statement."""
    asked, said = parts_of(step, left, right)
    missing = len(said) - len(asked)
    asked += [""] * missing
    said += [""] * -missing
    return [pad(a, left) + "  " + b for a, b in zip(asked, coloured(said, right, colour_of(step), paint))]


def below(step: Step, columns: int, paint: Paint) -> list[str]:
    """Returns the lines of a step whose reply stands below its statement."""
    asked, said = parts_of(step, columns, columns - 2)
    return [pad(line, columns) for line in asked] + ["  " + line for line in coloured(said, columns - 2, colour_of(step), paint)]


def parts_of(step: Step, left: int, right: int) -> tuple[list[str], list[str]]:
    """Returns the lines of a statement, and those of its reply, in so many columns."""
    said = reply_words(step.reply) if step.reply else []
    return wrapped(statement_of(step), left), [line for part in said for line in wrapped(part, right)]


class Layout:
    """How the steps are laid out in the room of a terminal."""

    def __init__(self, steps: Sequence[Step], sessions: Sequence[int], room: int, paint: Paint) -> None:
        self.sessions = sessions
        self.paint = paint
        self.places = max([len(str(step.place)) for step in steps], default=1)
        self.left: dict[int, int] = {}
        self.right: dict[int, int] = {}
        for session in sessions:
            own = [step for step in steps if step.session == session and step.fields]
            self.left[session] = min(max([width(statement_of(step)) for step in own]), WIDEST)
            self.right[session] = min(max([width(line) for step in own if step.reply for line in reply_words(step.reply)], default=1), WIDEST)
        self.free = room - self.places - 2
        self.choose()

    def choose(self) -> None:
        """Chooses the widest form that fits: replies beside the statements, or below them, or no columns at all."""
        count = len(self.sessions)
        gaps = len(BETWEEN) * (count - 1)
        wide = {session: self.left[session] + 2 + self.right[session] for session in self.sessions}
        narrow = {session: max(self.left[session], self.right[session] + 2, NARROWEST) for session in self.sessions}
        self.is_beside = self.is_in_columns = True
        self.widths = wide
        if sum(wide.values()) + gaps <= self.free:
            return
        self.is_beside = False
        while sum(narrow.values()) + gaps > self.free and max(narrow.values()) > NARROWEST:
            widest = max(narrow, key=narrow.__getitem__)
            narrow[widest] -= 1
        self.widths = narrow
        self.is_in_columns = sum(narrow.values()) + gaps <= self.free
        if not self.is_in_columns:
            self.choose_list()

    def choose_list(self) -> None:
        """Has no columns: each line names its session."""
        room = max(self.free - 6, 2 * NARROWEST)
        left = min(max(self.left.values()), max(room // 2, NARROWEST))
        right = max(room - left - 2, NARROWEST)
        self.is_beside = True
        self.left = dict.fromkeys(self.sessions, left)
        self.right = dict.fromkeys(self.sessions, right)

    def header(self) -> str:
        """Returns the names of the columns."""
        if not self.is_in_columns:
            return self.paint("bold", " " * (self.places + 2) + "S   statement and reply")
        names = BETWEEN.join(pad(f"session {session}", self.widths[session]) for session in self.sessions)
        return self.paint("bold", " " * (self.places + 2) + names.rstrip())

    def lines(self, step: Step) -> list[str]:
        """Returns the lines of a step."""
        if not step.fields:
            return [" " * (self.places + 2) + self.paint("dim", line) for line in self.report(step)]
        place = f"{step.place:>{self.places}}  "
        if step.session == 0:
            return [place + words_of(step.fields)]
        lines = self.cell(step)
        return [((place if not number else " " * len(place)) + line).rstrip() for number, line in enumerate(lines)]

    def cell(self, step: Step) -> list[str]:
        """Returns the lines of a step of a session, with the columns to its left and right."""
        session = step.session
        if not self.is_in_columns:
            lines = beside(step, self.left[session], self.right[session], self.paint)
            return [f"{session if not number else '':<4}{line}" for number, line in enumerate(lines)]
        if self.is_beside:
            lines = beside(step, self.left[session], self.right[session], self.paint)
        else:
            lines = below(step, self.widths[session], self.paint)
        before = [" " * self.widths[other] for other in self.sessions if other < session]
        after = [" " * self.widths[other] for other in self.sessions if other > session]
        return [BETWEEN.join([*before, line, *after]) for line in lines]

    def report(self, step: Step) -> list[str]:
        """Returns the report of a round of a run."""
        first, *held = report_lines(step.reply)
        return [f"round {step.place} of the {first}", *held]


def lines_of(steps: Sequence[Step], room: int, paint: Paint) -> Iterator[str]:
    """Yields the lines of a script and its replies."""
    sessions = sorted({step.session for step in steps if step.session})
    layout = Layout(steps, sessions, room, paint)
    if sessions:
        yield layout.header()
    for step in steps:
        yield from layout.lines(step)
