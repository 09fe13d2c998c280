"""What the dumps of a script have to be, by the replies that its run printed: a second reading of docs/FORMATS.md."""

from model import read_csv, write_csv


def parts_of(text):
    """Returns the records of the run, the first snapshot and its dump, and the last snapshot and its dump; or None if they aren't there."""
    records, _ = read_csv(text)
    # No other record of the output begins with this word.
    ends = [i for i, record in enumerate(records) if record[0] == b"snapshot"]
    if len(ends) != 2:
        return None
    first, last = ends
    return records[:first], records[first], records[first + 1 : last], records[last], records[last + 1 :]


def history_of(script, records):
    """Returns what each group writes, by its number: the row of each record, or None where it is deleted."""
    replies = {(record[0], int(record[1])): record for record in records if record[0] != b"total" and record[2] not in (b"row", b"held")}
    open_writes = {}
    history = {}
    for place, (session, word, *rest) in script.statements:
        if word in (b"begin", b"open"):
            open_writes[session] = {}
        elif word in (b"commit", b"rollback", b"close"):
            own = open_writes.pop(session)
            if replies[session, place][2] == b"committed":
                history.setdefault(int(replies[session, place][3]), {}).update(own)
        elif word in (b"put", b"del"):
            reply = replies[session, place]
            answer = reply[4] if reply[2] == b"at" else reply[2]
            if answer in (b"stored", b"gone"):
                number = None if session in open_writes else int(reply[-1])
                own = open_writes[session] if number is None else history.setdefault(number, {})
                own[rest[0], int(rest[1])] = rest[2:] if word == b"put" else None
    return history


def dump_of(script, history, at):
    """Returns the text of the script that puts back what a snapshot shows."""
    rows = {}
    for number in sorted(history):
        if number <= at:
            rows.update(history[number])
    records = [[b"version", b"2"]] * (script.version == 2)
    records += [[b"table", name, kinds if script.version == 2 else b"%d" % len(kinds)] for name, kinds in script.tables.items()]
    order = list(script.tables)
    for table, key in sorted(rows, key=lambda record: (order.index(record[0]), record[1])):
        row = rows[table, key]
        if row is not None:
            records.append([b"1", b"put", table, b"%d" % key, *row])
    return b"".join(map(write_csv, records))


def restored(dump):
    """Returns what a replay of a dump prints: each put is stored, and is a group of its own."""
    puts = [i for i, record in enumerate(dump, 1) if record[0] == b"1"]
    replies = [b"1,%d,at,%d,stored,committed,%d\n" % (place, n, n + 1) for n, place in enumerate(puts)]
    totals = zip((b"made", b"undone", b"group", b"table", b"interval", b"left"), (len(puts), 0, 0, 0, 0, len(puts)))
    return b"".join(replies) + b"".join(b"total,%s,%d\n" % total for total in totals)
