"""Text for terminals: bytes that can be shown, columns that line up, and colours.

Texts of the store are bytes. Everywhere in these tools they are `str`, decoded from UTF-8 with `surrogateescape`, so that bytes which
are no UTF-8 go through unchanged. `shown` makes of such a text one that a terminal can print.
"""

from __future__ import annotations

import os
import shutil
import unicodedata
from collections.abc import Iterable, Sequence
from typing import TextIO

ESCAPES = {"\n": "\\n", "\r": "\\r", "\t": "\\t"}
COLOURS = {"bold": "1", "dim": "2", "red": "31", "green": "32", "yellow": "33", "blue": "34", "magenta": "35", "cyan": "36"}


def shown(text: str) -> str:
    """Returns a text with each character that a terminal does not print as an escape: `\\n` for a line end, `\\xff` for a stray byte."""
    return text if text.isprintable() else "".join(map(shown_character, text))


def shown_character(character: str) -> str:
    """Returns a character that is printed, or its escape."""
    if character.isprintable():
        return character
    code = ord(character)
    if character in ESCAPES:
        return ESCAPES[character]
    if 0xDC80 <= code <= 0xDCFF:
        return f"\\x{code - 0xDC00:02x}"
    return f"\\x{code:02x}" if code < 0x100 else f"\\u{code:04x}" if code < 0x10000 else f"\\U{code:08x}"


def width(text: str) -> int:
    """Returns how many columns of a terminal a text takes: two for a wide character, none for a combining one."""
    if text.isascii():
        return len(text)
    return sum(0 if unicodedata.combining(it) else 2 if unicodedata.east_asian_width(it) in "WF" else 1 for it in text)


def cut(text: str, most: int) -> str:
    """Returns a text that takes at most so many columns. One that is cut ends in an ellipsis."""
    if width(text) <= most:
        return text
    taken, columns = [], 0
    for character in text:
        columns += width(character)
        if columns > most - 1:
            break
        taken.append(character)
    return "".join(taken) + "…"


def pad(text: str, columns: int, right: bool = False) -> str:
    """Returns a text filled with blanks to so many columns, from the left if it is to stand at the right."""
    blanks = " " * (columns - width(text))
    return blanks + text if right else text + blanks


def wrapped(text: str, columns: int) -> list[str]:
    """Returns a text as lines of at most so many columns, parted at blanks where there are any."""
    lines, line = [], ""
    for word in text.split(" "):
        longer = f"{line} {word}" if line else word
        if width(longer) <= columns:
            line = longer
            continue
        if line:
            lines.append(line)
        while width(word) > columns:
            part = cut(word, columns + 1)[:-1]
            lines.append(part)
            word = word[len(part):]
        line = word
    return [*lines, line]


def flowed(text: str, columns: int) -> str:
    """Returns paragraphs in lines of at most so many columns. Those that begin with a blank stay as they are."""
    paragraphs = text.strip("\n").split("\n\n")
    return "\n\n".join(it if it.startswith(" ") else "\n".join(wrapped(it.replace("\n", " "), columns)) for it in paragraphs)


def narrowed(widths: Sequence[int], room: int) -> list[int]:
    """Returns widths that fit the room together. The widest ones give way, to no less than 8."""
    widths = list(widths)
    while sum(widths) > room and max(widths) > 8:
        widths[widths.index(max(widths))] -= 1
    return widths


def table(header: Sequence[str], rows: Iterable[Sequence[str]], room: int, numbers: Sequence[bool]) -> list[str]:
    """Returns the lines of a table: a header, a rule and the rows. Columns of numbers stand at the right.

    Cells that are too wide for the room are cut. If there are so many columns that this doesn't help, each row is a list of its fields.
    """
    cells = [[shown(cell) for cell in row] for row in rows]
    widths = [max(map(width, column)) for column in zip(header, *cells)]
    free = room - 3 * len(widths) + 1
    widths = narrowed(widths, free)
    if sum(widths) > free:
        return listed(header, cells, room)
    lines = [" " + " | ".join(pad(name, columns) for name, columns in zip(header, widths))]
    lines.append("-" + "-+-".join("-" * columns for columns in widths) + "-")
    for row in cells:
        fields = [pad(cut(cell, columns), columns, right) for cell, columns, right in zip(row, widths, numbers)]
        lines.append(" " + " | ".join(fields))
    return [line.rstrip() for line in lines]


def listed(header: Sequence[str], cells: Iterable[Sequence[str]], room: int) -> list[str]:
    """Returns each row as a list of its fields, a line each."""
    names = max(map(width, header))
    lines = []
    for number, row in enumerate(cells, 1):
        lines.append(f"-- row {number} --")
        lines += [f"{pad(name, names)} | {cut(cell, room - names - 3)}".rstrip() for name, cell in zip(header, row)]
    return lines


def has_colour(stream: TextIO) -> bool:
    """Tells whether to use colour: on a terminal that knows it, unless NO_COLOR is set."""
    return stream.isatty() and not os.environ.get("NO_COLOR") and os.environ.get("TERM") != "dumb"


class Paint:
    """Colours texts, or leaves them as they are."""

    def __init__(self, coloured: bool) -> None:
        self.coloured = coloured

    def __call__(self, colour: str, text: str) -> str:
        """Returns the text in a colour of COLOURS."""
        return f"\x1b[{COLOURS[colour]}m{text}\x1b[0m" if self.coloured and text else text


def terminal_width(most: int = 240) -> int:
    """Returns how many columns the terminal has; COLUMNS says it too, and 100 is taken where there is none."""
    return min(shutil.get_terminal_size((100, 24)).columns, most)
