"""The lines of tools/shell: from a terminal with history and completion, or from a pipe. And Ctrl-C."""

from __future__ import annotations

import glob
import os
import re
import signal
import sys
from collections.abc import Callable, Iterator
from types import FrameType

from mirror import COLLECTORS, FORMS, PLAIN_FORMS, Mirror
from speak import COMMANDS_HELP
from typed import Unfinished, decoded

try:
    import readline
except ImportError:  # a Python that was built without it
    readline = None  # type: ignore[assignment]

COMMANDS = tuple(form.split()[0] for form in COMMANDS_HELP)
TABLE_FIRST = ("get", "put", "del", "scan", "open")
LINES_KEPT = 1_000
LINE_END = re.compile(r"\r\n|\r|\n")
# In front of a line that goes on with a record.
GOES_ON = "   > "


class Interrupts:
    """Ctrl-C. While an answer comes it is only noted, so that none is left half read; otherwise it is a KeyboardInterrupt."""

    def __init__(self) -> None:
        self.is_busy = False
        self.was_pressed = False
        signal.signal(signal.SIGINT, self.handle)

    def handle(self, number: int, frame: FrameType | None) -> None:
        """Notes the key, or raises."""
        if not self.is_busy:
            raise KeyboardInterrupt
        self.was_pressed = True

    def __enter__(self) -> Interrupts:
        self.is_busy, self.was_pressed = True, False
        return self

    def __exit__(self, *_: object) -> None:
        self.is_busy = False


def history_path() -> str | None:
    """Returns where the history is kept: under XDG_STATE_HOME or in HOME, and nowhere if neither can be written."""
    state, home = os.environ.get("XDG_STATE_HOME"), os.environ.get("HOME")
    folder = os.path.join(state, "hybridgc") if state else home
    if not folder:
        return None
    try:
        os.makedirs(folder, exist_ok=True)
    except OSError:
        return None
    path = os.path.join(folder, "shell_history" if state else ".hybridgc_history")
    return path if os.access(path if os.path.exists(path) else folder, os.W_OK) else None


class Terminal:
    """Reads lines from a terminal. `mirror` returns what the tables and sessions are when a word is completed."""

    def __init__(self, mirror: Callable[[], Mirror]) -> None:
        self.mirror = mirror
        self.history = history_path()
        self.found: list[str] = []
        if readline is None:
            return
        if self.history and os.path.exists(self.history):
            try:
                readline.read_history_file(self.history)
            except OSError:
                pass
        readline.set_history_length(LINES_KEPT)
        readline.set_completer_delims(" ,\t\n")
        readline.set_completer(self.complete)
        is_libedit = "libedit" in (readline.__doc__ or "")
        readline.parse_and_bind("bind ^I rl_complete" if is_libedit else "tab: complete")

    def close(self) -> None:
        """Writes the history, which readline makes readable for its owner alone."""
        if readline is None or not self.history:
            return
        try:
            readline.write_history_file(self.history)
        except OSError:
            pass

    def complete(self, text: str, state: int) -> str | None:
        """Returns one of the words that the last word of the line can become, as readline asks for them."""
        if state == 0:
            before = readline.get_line_buffer()[: readline.get_begidx()]
            self.found = completions(before, text, self.mirror())
        return self.found[state] if state < len(self.found) else None

    def read_lines(self, prompt: Callable[[], str], take: Callable[[str], None]) -> None:
        """Has each line taken, until Ctrl-D. A line with an open quote is taken together with the next one, and Ctrl-C drops it."""
        before = ""
        try:
            while True:
                try:
                    # A text that is pasted may be several lines.
                    for line in LINE_END.split(input(GOES_ON if before else prompt())):
                        before = take_part(before, line, "\n", take)
                except KeyboardInterrupt:
                    print("^C")
                    before = ""
                except EOFError:
                    print()
                    return
        finally:
            self.close()


def completions(before: str, text: str, mirror: Mirror) -> list[str]:
    """Returns the words that begin with a text, of those that may come after what is before it in the line."""
    words = [word for word in re.split(r"[ ,\t]+", before) if word]
    if words[:1] in (["\\load"], ["\\save"]):
        return [path + "/" * os.path.isdir(path) for path in sorted(glob.glob(glob.escape(text) + "*"))]
    # A record that is written with commas goes on with one.
    end = "," if "," in before else " "
    first = tuple(FORMS)
    if words and words[0].isdigit():
        words = words[1:]
    elif not before.strip():
        first += (*PLAIN_FORMS, *COMMANDS, *map(str, mirror.open_sessions()))
    return [word + end for word in sorted(candidates(words, first, mirror)) if word.startswith(text)]


def candidates(words: list[str], first: tuple[str, ...], mirror: Mirror) -> tuple[str, ...]:
    """Returns the words that may come after these ones of a line, which are without its session."""
    if not words:
        return first
    if words[0] == "begin" or (words[0] in TABLE_FIRST and len(words) == 1):
        return tuple(mirror.tables)
    if words in (["gc"], ["\\gc"]):
        return COLLECTORS
    if words == ["\\help"]:
        return (*FORMS, *PLAIN_FORMS)
    if words == ["\\session"]:
        return tuple(map(str, sorted(mirror.sessions)))
    return ()


def take_part(before: str, line: str, end: str, take: Callable[[str], None]) -> str:
    """Has a line taken, together with the lines before it that no record ended. Returns what has no end now, with the line's end."""
    try:
        take(before + line)
    except Unfinished:
        return before + line + end
    return ""


def read_pipe(take: Callable[[str], None], echo: Callable[[str, bool], None]) -> None:
    """Has each line of standard input taken. A quote that is open at its end is closed there."""
    before = ""
    for line, end in lines_of_pipe():
        echo(line, bool(before))
        before = take_part(before, line, end, take)
    if before:
        quote = '"' if before.count('"') % 2 else "'"
        take(before + quote)


def lines_of_pipe() -> Iterator[tuple[str, str]]:
    """Yields the lines of standard input, each with its end. A byte order mark at its start is dropped."""
    is_first = True
    for piece in sys.stdin.buffer:
        if is_first:
            piece = piece.removeprefix(b"\xef\xbb\xbf")
        is_first = False
        for line in piece.splitlines(keepends=True):
            text = line.rstrip(b"\r\n")
            yield decoded(text), decoded(line[len(text) :])
