"""The rows of conversations.txt: a client sends what each line says, and waits for its answer before it sends the next one."""

from program import Client, Withheld, Wrong, bytes_of, expect
from rows import blocks_of

# A case of more bytes is not sent byte by byte.
MOST_BYTES = 10_000


def pieces_of(sent, by_bytes):
    """Returns the pieces in which the bytes of a line are sent."""
    pieces = [bytes_of(piece) for piece in sent.split("|")]
    return [bytes([byte]) for byte in b"".join(pieces)] if by_bytes else pieces


def send(client, pieces):
    """Sends each piece when the one before it was read."""
    for piece in pieces[:-1]:
        client.send(piece)
        client.wait_until_read()
    client.send(pieces[-1])


def is_conversed(words, steps, by_bytes):
    """Sends each line, and checks its answer before the next one. The last line is the end of the input."""
    client = Client(words)
    try:
        for line, sent, wanted in steps[:-1]:
            send(client, pieces_of(sent, by_bytes))
            expect(f"the answer to line {line}", wanted, client.read(len(wanted)))
        line, _, wanted = steps[-1]
        expect("the exit status and what is said", (0, b""), client.end())
        expect(f"what comes at the end, line {line}", wanted, client.rest())
    except Withheld as withheld:
        raise Wrong(f"the answer to line {line}\n    wanted: {wanted}\n    found:  {withheld}") from None
    finally:
        client.kill()


def step_of(place, row, line):
    """Returns the parts of a line: its number, what is sent, and the bytes of the answer."""
    parts = row.split(" -> ")
    if len(parts) != 2:
        raise SystemExit(f"tests/check: {place}: line {line} is not SENT -> ANSWERED")
    return line, parts[0], bytes_of(parts[1])


def conversations():
    """Yields each case of conversations.txt, once as it is written and once byte by byte."""
    commands = []
    for place, block, lines in blocks_of("conversations.txt"):
        if block[0].startswith("words: "):
            commands = block[0].removeprefix("words: ").split(" | ")
            continue
        steps = [step_of(place, row, line) for row, line in zip(block[1:], lines[1:])]
        if not steps or steps[-1][1] != "(end)":
            raise SystemExit(f"tests/check: {place}: a case ends with (end)")
        size = sum(len(bytes_of(sent)) for _, sent, _ in steps[:-1])
        for words in commands:
            yield f"{place}: {words}", is_conversed, (words, steps, False)
            if size <= MOST_BYTES:
                yield f"{place}: {words}, byte by byte", is_conversed, (words, steps, True)
