"""What the modules of tests/check share: calls of the program, the bytes of rows, and the records of a text."""

import os
import re
import subprocess
import sys

HERE = os.path.dirname(os.path.realpath(__file__))
PROGRAM = os.environ.get("HYBRIDGC", os.path.join(HERE, "..", "crates", "hybridgc", "out", "hybridgc"))

sys.path.append(os.path.join(HERE, "..", "bench"))
from client import Client, Withheld
from model import read_csv

# No call takes longer.
SECONDS = 60
# How much of a long text is shown.
SHOWN = 2000
# In place of a script: standard input is then a folder, and a read of it fails.
FOLDER = None
USAGE = b"usage: hybridgc replay or run or load SEED or audit or dump, with --buckets N, --long N, --rounds N, --sweepers N\n"
TOTALS = ("made", "undone", "group", "table", "interval", "left")
NO_TOTALS = "".join(f"total,{name},0\n" for name in TOTALS).encode()
# What rows write in short, as {tables 64}.
SHORT = {
    "tables": lambda count: "".join(f"table,t{i},1/" for i in range(1, count + 1)),
    "names": lambda count: "".join(f",t{i}" for i in range(1, count + 1)),
    "declared": lambda count: "".join(f"declared,{i}/" for i in range(1, count + 1)),
    "totals": lambda *counts: "".join(f"total,{name},{count}/" for name, count in zip(TOTALS, counts, strict=True)),
    "letters": lambda count: "x" * count,
    "lines": lambda count: "/" * count,
}


class Wrong(Exception):
    """An answer other than the one that is wanted."""


def bytes_of(row):
    """Returns the bytes that a script or text of a row stands for."""
    row = re.sub(r"\{(\w+) ([\d ]+)\}", lambda it: SHORT[it[1]](*map(int, it[2].split())), row)
    row = "" if row in ("(empty)", "(nothing)") else row.replace("/", "\n")
    return re.sub(rb"\\(r|n|x[0-9A-Fa-f]{2})", lambda it: escape(it[1]), row.encode())


def escape(name):
    return {b"r": b"\r", b"n": b"\n"}.get(name) or bytes([int(name[1:], 16)])


def shown(value):
    """Returns a value as a row writes it: a text without its bytes that are not printed."""
    if not isinstance(value, bytes):
        return str(value)
    text = "".join(chr(byte) if 32 <= byte < 127 else "/" if byte == 10 else "\\r" if byte == 13 else f"\\x{byte:02x}" for byte in value)
    return text or "(nothing)"


def expect(what, wanted, found):
    """Checks that what was found is what is wanted. Of long texts the first line that differs is shown."""
    if wanted == found:
        return
    if isinstance(found, bytes) and len(wanted) + len(found) > SHOWN:
        pairs = zip([*wanted.splitlines(True), b""], [*found.splitlines(True), b""])
        line, (wanted, found) = next((i, pair) for i, pair in enumerate(pairs, 1) if pair[0] != pair[1])
        what = f"{what}, line {line}"
    raise Wrong(f"{what}\n    wanted: {shown(wanted)}\n    found:  {shown(found)}")


def run(words, source):
    """Runs the program, and returns its exit status, its text and what it says on standard error."""
    how = {"input": source}
    if source is FOLDER:
        folder = os.open(HERE, os.O_RDONLY)
        how = {"stdin": folder}
    try:
        done = subprocess.run([PROGRAM, *words.split()], capture_output=True, timeout=SECONDS, **how)
    except subprocess.TimeoutExpired:
        raise Wrong(f"{words}\n    wanted: an end\n    found:  none after {SECONDS} s") from None
    finally:
        if source is FOLDER:
            os.close(folder)
    return done.returncode, done.stdout, done.stderr


def run_to_full_disk(words, source):
    """Runs the program where nothing more can be written, and returns its exit status and what it says on standard error."""
    with open("/dev/full", "wb") as full:
        done = subprocess.run([PROGRAM, *words.split()], input=source, stdout=full, stderr=subprocess.PIPE, timeout=SECONDS)
    return done.returncode, done.stderr


def text_of(words, source):
    """Returns what the program prints where it ends with status 0 and says nothing."""
    status, text, said = run(words, source)
    expect(f"{words or '(no word)'}: the exit status and standard error", "0 (nothing)", f"{status} {shown(said)}")
    return text


def expect_end(words, source, status, said):
    """Checks that a call prints nothing, and ends with a status, a line on standard error, and lines that can be printed. Returns those."""
    found, text, error = run(words, source)
    what = f"{words or '(no word)'}: "
    first, more = error[: len(said)], error[len(said) :]
    expect(what + "the exit status and the first line on standard error", f"{status} {shown(said)}", f"{found} {shown(first)}")
    if not re.fullmatch(rb"([ -~]*\n)*", more):
        raise Wrong(f"{what}standard error\n    wanted: lines of printed ASCII\n    found:  {shown(more)}")
    expect(what + "standard output", b"", text)
    return more


def expect_refused(words, script, refusal):
    """Checks that a script is refused with this line on standard error, and that the reason follows in a line. Returns the reason."""
    why = expect_end(words, script, 3, refusal + b"\n")
    if not re.fullmatch(rb"line \d+(, field \d+)? \(.*\): .+\n", why):
        raise Wrong(f"{words}: the reason\n    wanted: line N, field N (..): ..\n    found:  {shown(why)}")
    return why


def verdict_on(source):
    """Returns the verdict of an audit. One that is not `sound` has to be explained in a line on standard error."""
    status, text, said = run("audit", source)
    verdict = text.decode().removesuffix("\n")
    expect(f"audit, which prints {verdict}: the exit status", 0, status)
    if not re.fullmatch(rb"" if verdict == "sound" else rb"output record \d+ \(.*\)(, to .+)?: .+\n", said):
        raise Wrong(f"audit, which prints {verdict}: the reason\n    wanted: output record N (..): ..\n    found:  {shown(said)}")
    return verdict


def audit(script, text):
    """Returns the verdict on a text."""
    end = b"" if not script or script.endswith(b"\n") else b"\n"
    return verdict_on(script + end + b"====\n" + text)


def sound_text(words, script):
    """Returns what is printed for a script. An audit has to find it sound."""
    text = text_of(words, script)
    expect(f"{words}: the audit of its text", "sound", audit(script, text))
    return text


def records_of(text):
    """Returns the records of a text."""
    if b'"' not in text:
        return [line.split(b",") for line in text.splitlines()]
    return read_csv(text)[0]


def replies_of(records):
    """Yields the replies among the records of a text: the first record of each, and the records that follow it."""
    i = 0
    while records[i][0] != b"total":
        answer = records[i][4 if records[i][2] == b"at" else 2 :]
        end = i + 1
        if answer[0] == b"rows":
            end += int(answer[1])
        while answer[0] == b"swept" and records[end][2] == b"held":
            end += 1
        yield records[i], records[i + 1 : end]
        i = end


def totals_of(records):
    """Returns the totals at the end of the records of a text, whose versions have to be as many as were made."""
    totals = {name.decode(): int(count) for _, name, count in records[-6:]}
    rest = sum(totals.values()) - totals["made"]
    expect("the sum of the totals but the first", totals["made"], rest)
    return totals
