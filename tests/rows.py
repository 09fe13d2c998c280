"""The rows of text next to this module. The head of each file says what its rows are."""

import os

from help import help_is_one_text
from program import FOLDER, HERE, NO_TOTALS, USAGE, audit, bytes_of, expect, expect_end, expect_refused, records_of, replies_of, run, sound_text
from program import text_of, verdict_on


def lines_of(name):
    """Returns the lines of a file that are no comments, with their numbers."""
    with open(os.path.join(HERE, name), encoding="ascii") as file:
        return [(i, line.rstrip("\n")) for i, line in enumerate(file, 1) if not line.startswith("#")]


def rows_of(name):
    """Yields each row of a file whose rows are lines, with its place."""
    for i, line in lines_of(name):
        if line.strip():
            yield f"tests/{name}:{i}", line


def blocks_of(name):
    """Yields each block of lines of a file whose blocks are divided by empty lines, with its place."""
    block = []
    for i, line in [*lines_of(name), (0, "")]:
        if line.strip():
            block.append((i, line))
        elif block:
            yield f"tests/{name}:{block[0][0]}", [line for _, line in block], [i for i, _ in block]
            block = []


def cases_of(name):
    """Yields each case of a file of cases: its place, its words, what it shows, its script and its text."""
    commands = []
    for place, block, _ in blocks_of(name):
        if block[0].startswith("words: "):
            commands = block[0].removeprefix("words: ").split(" | ")
            continue
        if len(block) != 3:
            raise SystemExit(f"tests/check: {place}: a case has three lines")
        for words in commands or [""]:
            yield f"{place}: {words}".rstrip(": "), words, bytes_of(block[1]), bytes_of(block[2])


# What each row has to fulfil


def is_refused(script, refusal):
    expect_refused("replay", bytes_of(script), b"script " + refusal.encode())


def is_taken(script, count):
    script = bytes_of(script)
    places = {(record[0], record[1]) for record, _ in replies_of(records_of(sound_text("replay", script)))}
    expect("the statements that are answered", int(count), len(places))


def is_declared(record, tables):
    named = range(1, 65) if tables == "1 to 64" else [int(table) for table in tables.split()]
    gets = "".join(f"1,get,t{i},1/" for i in range(1, 65))
    wanted = b"1,65,begun,0\n"
    for i in range(1, 65):
        wanted += b"1,%d,%s\n" % (65 + i, b"none" if i in named else b"refused,undeclared,t%d" % i)
    expect("the text", wanted + NO_TOTALS, sound_text("replay", bytes_of("{tables 64}1," + record + "/" + gets)))


def is_answered(words, status):
    if status == "0":
        expect("the text", NO_TOTALS, text_of(words, b""))
    else:
        expect_end(words, FOLDER, int(status), USAGE)


def source_of(script):
    return FOLDER if script == "(a folder)" else bytes_of(script)


def ends_with(call, end):
    words, script = call.split(" < ")
    status, said = end.split(" ", 1)
    expect_end(words, source_of(script), int(status), said.encode() + b"\n")


def is_explained(call, why):
    words, script = call.split(" < ")
    status, text, said = run(words, source_of(script))
    expect("the last line on standard error", why, said.decode().splitlines()[-1])


def has_totals(words, totals):
    expect("the text", bytes_of(totals), text_of(words, FOLDER))


def has_reports(words, count):
    text = sound_text(words, b"")
    reports = [record[2] for record, _ in replies_of(records_of(text))]
    expect("the replies", [b"swept"] * int(count), reports)
    expect("the totals", NO_TOTALS, text[-len(NO_TOTALS) :])
    if not reports:
        expect("the text", NO_TOTALS, text)


def is_divided(source, answer):
    if answer.startswith("script record "):
        expect_refused("audit", bytes_of(source), answer.encode())
    else:
        expect("the verdict", answer, verdict_on(bytes_of(source)))


def is_printed(words, script, text):
    """A case. The part of a dump that an audit judges is the text of its run."""
    found = text_of(words, script)
    expect("the text", text, found)
    expect("the audit of the text", "sound", audit(script, found.split(b"snapshot,")[0] if words.startswith("dump") else found))


def last_dump(script):
    """Returns the last dump that is printed for a script none of whose texts has the word `snapshot`."""
    return text_of("dump --rounds 0", script).split(b"snapshot,")[-1].split(b"\n", 1)[1]


def is_put_back(dump):
    """Checks that a dump is the dump of what its own replay leaves."""
    sound_text("replay", dump)
    expect("the dump of the dump", dump, last_dump(dump))


def is_left(script, dump):
    expect("the last dump", dump, last_dump(script))
    is_put_back(dump)


def is_judged(script, text, change, verdict):
    if change != "(unchanged)":
        before, after = map(bytes_of, change.split(" -> "))
        expect("how often the bytes that are changed are there", 1, text.count(before))
        text = text.replace(before, after)
    expect("the verdict", verdict, audit(script, text))


def rows_left(script):
    """Returns the rows that a scan at the end of a script finds: the key and the values of each."""
    records = records_of(text_of("replay", script + b"1,scan,t,0,18446744073709551615\n"))
    return [row[3:] for row in list(replies_of(records))[-1][1]]


def quoted(text):
    """Returns a text in quotes, whatever it holds."""
    return b'"' + text.replace(b'"', b'""') + b'"'


def values():
    """Texts are read back as they were put, by gets and by a scan."""
    texts = [bytes_of(row[1:-1]) for _, row in rows_of("values.txt")]
    script = b"version,2\ntable,t,t\n"
    script += b"".join(b"1,put,t,%d,%s\n" % (key, quoted(text)) for key, text in enumerate(texts))
    script += b"".join(b"1,get,t,%d\n" % key for key in range(len(texts)))
    replies = list(replies_of(records_of(sound_text("replay", script))))
    expect("the rows of the gets", texts, [record[5] for record, _ in replies[len(texts) :]])
    rows = [[b"%d" % key, text] for key, text in enumerate(texts)]
    expect("the rows of the scan", rows, rows_left(script))


LINES = {
    "refused.txt": is_refused,
    "taken.txt": is_taken,
    "declared.txt": is_declared,
    "words.txt": is_answered,
    "statuses.txt": ends_with,
    "seeds.txt": has_totals,
    "rounds.txt": has_reports,
    "sources.txt": is_divided,
    "explained.txt": is_explained,
}
CASES = {
    "replayed.txt": is_printed,
    "collected.txt": is_printed,
    "cursors.txt": is_printed,
    "run.txt": is_printed,
    "dumped.txt": is_printed,
    "left.txt": lambda _, script, dump: is_left(script, dump),
}
CHANGES = ("texts.txt", "audited.txt")


def rows():
    """Yields each row: its place, the function that checks it, and what that is given."""
    for name, check in LINES.items():
        for place, row in rows_of(name):
            # Words may contain `=`, as in `--buckets=1`, but not between two spaces.
            front, back = f" {row}".rsplit(" = ", 1)
            yield place, check, (front.strip() if name == "words.txt" else front[1:], back)
    for name, check in CASES.items():
        for place, *case in cases_of(name):
            yield place, check, case
    for name in CHANGES:
        for _, block, places in blocks_of(name):
            script = bytes_of(block[1].removeprefix("script: "))
            text = bytes_of(block[2].removeprefix("text: "))
            for row, i in zip(block[3:], places[3:]):
                yield f"tests/{name}:{i}", is_judged, (script, text, *row.rsplit(" = ", 1))
    yield "tests/values.txt", values, ()
    yield "tests/help.py", help_is_one_text, ()
