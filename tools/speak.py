"""What tools/shell says: answers as rows and sentences."""

from __future__ import annotations

from collections.abc import Mapping, Sequence

from answers import TOTALS, Reply, reply_of, totals_line, totals_of
from charts import bar
from explain import listed, why_bad, why_refused
from mirror import FORMS, PLAIN_FORMS, Mirror
from rows import Paint, shown, table, wrapped

# What a statement did, by its word and its answer.
SENTENCES = {
    ("begin", "begun"): "begun",
    ("open", "begun"): "cursor opened",
    ("get", "none"): "no row",
    ("put", "stored"): "stored",
    ("del", "gone"): "deleted",
    ("del", "none"): "no row to delete",
    ("close", "ended"): "cursor closed",
    ("commit", "committed"): "committed",
    ("commit", "ended"): "ended; nothing was written",
    ("rollback", "undone"): "rolled back",
    ("gc", "beside"): "left to the collectors of the run",
}

COMMANDS_HELP = {
    "\\session [N]": "the session of the lines that name none; without N, what each session has open",
    "\\tables": "the tables and their columns",
    "\\gc [KIND]": "a round of one collector, or of all three",
    "\\versions": "the versions that are held, and what each collector removed since the last look",
    "\\load FILE": "sends a script, and sums up its answers",
    "\\save FILE": "writes a script that puts back the rows that are committed now",
    "\\timing": "turns the time of each answer on or off",
    "\\help [WORD]": "this list, or how a record is written",
    "\\quit": "ends, as Ctrl-D does",
}
RECORDS_HELP = {
    "begin": "begins a transaction on every table, or on these tables alone",
    "get": "the row of a key",
    "put": "sets the row of a key, with a value for each column",
    "del": "deletes the row of a key",
    "scan": "the rows whose keys are from LOW to HIGH",
    "open": "opens a cursor, which reads the same rows in parts; until its close the session can only fetch and gc",
    "fetch": "the next N rows of the cursor",
    "close": "closes the cursor",
    "commit": "commits the transaction",
    "rollback": "rolls the transaction back",
    "gc": "a round of one collector: group, table or interval",
    "table": "declares a table, before the first statement; COLUMNS is how many numbers a row has, and in version 2 a letter for each "
    "column: n for a number, t for a text",
    "version": "the first record of a conversation with texts",
    "totals": "how many versions were made, undone, removed and are left",
}


def answer_lines(fields: Sequence[str], answer: Sequence[list[str]], mirror: Mirror, room: int, paint: Paint) -> list[str]:
    """Returns what is said for the answer to a record. The mirror has heard the records before it."""
    word, rest = answer[0][0], answer[0][1:]
    if word == "declared":
        return ["declared"]
    if word == "total":
        return [totals_line(totals_of(answer))]
    if word == "bad":
        return sentence(f"bad record ({rest[1]}):", why_bad(rest[1], fields, mirror), room, "red", paint)
    return reply_lines(fields, reply_of(answer), mirror, room, paint)


def reply_lines(fields: Sequence[str], reply: Reply, mirror: Mirror, room: int, paint: Paint) -> list[str]:
    """Returns what is said for the reply to a statement."""
    if reply.is_refused:
        return sentence(f"refused ({reply.rest[0]}):", why_refused(reply.rest, fields, mirror), room, "yellow", paint)
    if reply.word in ("row", "rows"):
        return row_lines(fields, reply, mirror, room, paint)
    if reply.word == "swept":
        return report_lines(reply)
    return [SENTENCES.get((fields[1], reply.word), reply.word) + around(reply)]


def sentence(head: str, said: str, room: int, colour: str, paint: Paint) -> list[str]:
    """Returns a sentence in lines that fit the room, with its head in colour."""
    first, *lines = wrapped(f"{head} {said}", max(room, 40))
    return [paint(colour, head) + first.removeprefix(head), *lines]


def around(reply: Reply) -> str:
    """Returns the snapshot and the group of a reply, in words."""
    said = ""
    if reply.group is not None:
        said += f" as group {reply.group}"
    if reply.word == "begun":
        said += f" at snapshot {reply.rest[0]}"
    elif reply.snapshot is not None:
        said += f" (at snapshot {reply.snapshot})"
    return said


def row_lines(fields: Sequence[str], reply: Reply, mirror: Mirror, room: int, paint: Paint) -> list[str]:
    """Returns the rows of a get, a scan or a fetch as a table, and how many they are."""
    name = mirror.session(reply.session).cursor if fields[1] == "fetch" else fields[2]
    rows = [[fields[3], *row] for row in reply.rows] if reply.word == "row" else reply.rows
    count = f"{len(rows)} row{'s' * (len(rows) != 1)}"
    if reply.snapshot is not None:
        count += f", at snapshot {reply.snapshot}"
    if fields[1] == "fetch" and len(rows) < int(fields[2]):
        count += "; the range is at its end"
    if not rows:
        return [count]
    numbers = [True, *(kind == "n" for kind in mirror.tables[name])]
    head, *lines = table(mirror.header(name), rows, room, numbers)
    return [paint("bold", head), *lines, paint("dim", f"({count})")]


def report_lines(reply: Reply) -> list[str]:
    """Returns the report of a collector's round."""
    kind, mark, horizon, removed = reply.rest
    lines = [f"{kind} collector: removed {removed} version{'s' * (removed != '1')}; newest group {mark}, horizon {horizon}"]
    for session, snapshot, moved in reply.held:
        lines.append(f"  session {session} holds snapshot {snapshot}" + (", moved to the tables that it declared" if moved == "moved" else ""))
    return lines


def table_lines(mirror: Mirror, room: int, paint: Paint) -> list[str]:
    """Returns the tables, and what their columns hold."""
    if not mirror.tables:
        return ["no tables; `table NAME COLUMNS` declares one, before the first statement"]
    rows = [[name, mirror.columns(name)] for name in mirror.tables]
    head, *lines = table(["table", "columns"], rows, room, [False, False])
    return [paint("bold", head), *lines]


def session_lines(mirror: Mirror, now: int) -> list[str]:
    """Returns which session the lines are of, and what the sessions have open."""
    lines = [f"session {now}"]
    for number in mirror.open_sessions():
        session = mirror.session(number)
        what = f"a cursor on {session.cursor}" if session.cursor is not None else "a transaction"
        on = f" on {', '.join(session.declared)}" if session.declared else ""
        lines.append(f"  session {number} has {what}{on} open")
    return lines


def version_lines(totals: dict[str, int], before: dict[str, int] | None, room: int, paint: Paint) -> list[str]:
    """Returns the versions that are held, as a bar, and below it what came and went since the last look."""
    since = before or dict.fromkeys(TOTALS, 0)
    held = {"held": totals["left"], **({"held before": since["left"]} if before else {})}
    counts = {name: totals[name] - since[name] for name in TOTALS if name != "left"}
    most = max(1, *held.values(), *counts.values())
    digits = len(str(most))
    columns = max(min(room - digits - 24, 60), 8)

    def line(name: str, count: int, colour: str) -> str:
        """Returns a count with its name and its bar."""
        return f"{name:<20} {count:>{digits}} {paint(colour, bar(count, most, columns))}".rstrip()

    lines = [line(f"versions {name}", count, "green") for name, count in held.items()]
    lines.append("since the last look" if before else "since the start")
    lines.append(line("  made", counts.pop("made"), "blue"))
    lines.append(line("  undone", counts.pop("undone"), "dim"))
    return lines + [line(f"  removed: {name}", count, "magenta") for name, count in counts.items()]


def help_lines(word: str | None, room: int) -> list[str]:
    """Returns how records and commands are written, or how one record is."""
    forms = FORMS | PLAIN_FORMS
    if word in forms:
        return explained({forms[word]: RECORDS_HELP[word]}, room)
    if word is not None:
        return [f"there is no record {shown(word)}; \\help lists them"]
    lines = ["Records, of the session of the prompt; `2 get t 5` and `2,get,t,5` are of session 2:"]
    lines += explained({form: RECORDS_HELP[name] for name, form in forms.items()}, room)
    lines.append("Commands, which may be cut short, as \\v:")
    return lines + explained(COMMANDS_HELP, room)


def explained(what: Mapping[str, str], room: int) -> list[str]:
    """Returns forms with what they mean beside them."""
    lines = []
    for form, meaning in what.items():
        first, *rest = wrapped(meaning, max(room - 26, 20))
        lines += [f"  {form:<23} {first}", *(" " * 26 + line for line in rest)]
    return lines


def end_lines(mirror: Mirror) -> list[str]:
    """Returns what becomes of what is open at the end."""
    opened = [(number, mirror.session(number)) for number in mirror.open_sessions()]
    writers = [str(number) for number, session in opened if session.in_transaction]
    readers = [str(number) for number, session in opened if session.cursor is not None]
    said = (("rolled back at the end: what is open in session", writers), ("closed at the end: the cursor of session", readers))
    return [f"{what}{'s' * (len(numbers) > 1)} {listed(numbers, 'and')}" for what, numbers in said if numbers]
