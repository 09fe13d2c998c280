#!/usr/bin/env python3
"""Runs the examples of pages, and compares what they print with what the pages say: tests/pages.py [PAGE..]

    tests/pages.py                        docs/TUTORIAL.md and docs/TOOLS.md
    tests/pages.py docs/TOOLS.md          one page
    tests/pages.py --in FOLDER PAGE..     in an unpacked archive of ./dist, and with its program and tools
    HYBRIDGC=PATH tests/pages.py          another program than crates/hybridgc/out/hybridgc

An example is a fenced block whose first line begins with `$ `: such a line is a command, and the lines up to the next one are what it
prints, on standard output and standard error together. A line that ends in a backslash goes on in the next one, and so does a command
whose `<<` document is not at its end. A line `...` stands for any number of lines, and `..` within a line for any characters. Other blocks
are not run.

The blocks of a page run in order in one shell and in one new folder, so a later block sees files and processes of those before it. There
are `hybridgc`, `tools/` and `examples/` in it, and both the tools and `hybridgc` are on the PATH. What a page leaves running is ended. A
block that fails is shown as a diff. The last line is 'N examples of pages passed, M failed', and the exit status is 1 if any failed.
"""

from __future__ import annotations

import difflib
import os
import re
import signal
import subprocess
import sys
import tempfile
from typing import Iterator, NamedTuple

HERE = os.path.dirname(os.path.realpath(__file__))
ROOT = os.path.normpath(os.path.join(HERE, ".."))
sys.dont_write_bytecode = True
sys.path.insert(0, os.path.join(ROOT, "tools"))

from hybridgc import Missing, program

# No page takes longer.
SECONDS = 60


class Step(NamedTuple):
    """A command, and what is printed for it."""

    command: str
    wanted: list[str]


class Block(NamedTuple):
    """A block of a page: where it begins, and its commands."""

    line: int
    steps: list[Step]


def is_open(command: str) -> bool:
    """Whether a command goes on in the next line."""
    if command.endswith("\\"):
        return True
    ends = re.findall(r"<<-? *['\"]?(\w+)", command)
    return any(end not in command.split("\n")[1:] for end in ends)


def steps_of(lines: list[str]) -> list[Step]:
    """The commands of a block."""
    steps: list[Step] = []
    for line in lines:
        if steps and not steps[-1].wanted and is_open(steps[-1].command):
            steps[-1] = Step(f"{steps[-1].command}\n{line.removeprefix('> ')}", [])
        elif line.startswith("$ "):
            steps.append(Step(line[2:], []))
        else:
            steps[-1].wanted.append(line)
    return steps


def blocks_of(page: str) -> Iterator[Block]:
    """The blocks of a page that are examples."""
    begun, lines = 0, []
    with open(page, encoding="utf-8") as text:
        for number, line in enumerate(text, 1):
            line = line.rstrip("\n")
            if not line.startswith("```"):
                lines.append(line)
            elif not begun:
                begun, lines = number, []
            else:
                if lines and lines[0].startswith("$ "):
                    yield Block(begun, steps_of(lines))
                begun = 0


def pattern_of(lines: list[str]) -> str:
    """The pattern of what is wanted: `...` for any lines, `..` for any characters of one."""
    return "".join(r"(?:.*\n)*?" if line == "..." else re.escape(line).replace(r"\.\.", ".*") + "\n" for line in lines)


def is_as_wanted(wanted: list[str], found: list[str]) -> bool:
    return re.fullmatch(pattern_of(wanted), "".join(line + "\n" for line in found)) is not None


def furnish(folder: str) -> None:
    """Puts into a folder what an archive has there: the program, the tools and the examples."""
    for name in ("tools", "examples"):
        os.symlink(os.path.join(ROOT, name), os.path.join(folder, name))
    os.symlink(program(), os.path.join(folder, "hybridgc"))


class Shell:
    """A shell in a folder with a program, tools and examples, whose commands run one after the other."""

    def __init__(self, folder: str):
        path = os.pathsep.join([folder, os.path.join(folder, "tools"), os.environ["PATH"]])
        env = {**os.environ, "PATH": path, "PYTHONDONTWRITEBYTECODE": "1", "NO_COLOR": "1", "COLUMNS": "120", "LC_ALL": "C.UTF-8"}
        # Tools that are linked look for the program where they lie.
        if os.path.islink(os.path.join(folder, "tools")):
            env["HYBRIDGC"] = os.path.join(folder, "hybridgc")
        self.process = subprocess.Popen(
            ["bash", "--noprofile", "--norc"], cwd=folder, env=env, stdin=subprocess.PIPE, stdout=subprocess.PIPE,
            stderr=subprocess.STDOUT, text=True, errors="backslashreplace", start_new_session=True,
        )

    def run(self, command: str, mark: str) -> list[str]:
        """Runs a command, and returns the lines that it printed. If the last one has no end, so has none of what is returned."""
        try:
            self.process.stdin.write(f"{{ {command}\n}} </dev/null\nprintf '\\n{mark}\\n'\n")
            self.process.stdin.flush()
        except BrokenPipeError:
            return ["(the shell has ended)"]
        text = ""
        while not text.endswith(f"\n{mark}\n"):
            line = self.process.stdout.readline()
            if not line:
                return [*text.splitlines(), "(the shell has ended, or was ended after too long a time)"]
            text += line
        return text.removesuffix(f"\n{mark}\n").removesuffix("\n").split("\n") if text != f"\n{mark}\n" else []

    def end(self) -> None:
        """Ends the shell and what it left running."""
        for name in (signal.SIGTERM, signal.SIGKILL):
            try:
                os.killpg(self.process.pid, name)
            except ProcessLookupError:
                pass
        try:
            self.process.stdin.close()
        except BrokenPipeError:
            pass
        self.process.stdout.close()
        self.process.wait()


def difference(wanted: list[str], found: list[str]) -> str:
    return "\n".join(list(difflib.unified_diff(wanted, found, "the page", "what was printed", lineterm="", n=2)))


def check(page: str, archive: str | None) -> tuple[int, int]:
    """Runs the examples of a page, in an archive or in a new folder, and returns how many passed and how many failed."""
    passed = failed = 0
    with tempfile.TemporaryDirectory() as new:
        if not archive:
            furnish(new)
        shell = Shell(archive or new)
        signal.signal(signal.SIGALRM, lambda *_: os.killpg(shell.process.pid, signal.SIGKILL))
        signal.alarm(SECONDS)
        try:
            for block in blocks_of(page):
                wanted, found, good = [], [], True
                for number, step in enumerate(block.steps):
                    lines = shell.run(step.command, f"==== {block.line} {number} ====")
                    good = good and is_as_wanted(step.wanted, lines)
                    wanted += [f"$ {step.command}", *step.wanted]
                    found += [f"$ {step.command}", *(step.wanted if is_as_wanted(step.wanted, lines) else lines)]
                if not good:
                    print(f"{os.path.relpath(page)}:{block.line}: an example prints something else\n{difference(wanted, found)}", flush=True)
                passed, failed = passed + good, failed + (not good)
        finally:
            signal.alarm(0)
            shell.end()
    return passed, failed


def main() -> None:
    if sys.argv[1:] in (["--help"], ["-h"]):
        print(__doc__.strip())
        return
    words, archive = sys.argv[1:], None
    if words[:1] == ["--in"] and len(words) > 2:
        archive, words = os.path.abspath(words[1]), words[2:]
    pages = words or [os.path.join(ROOT, "docs", name) for name in ("TUTORIAL.md", "TOOLS.md")]
    try:
        if not archive:
            program()
        counts = [check(page, archive) for page in pages]
    except (Missing, OSError) as fault:
        sys.exit(f"tests/pages.py: {fault}")
    passed, failed = (sum(count[i] for count in counts) for i in (0, 1))
    print(f"{passed} examples of pages passed, {failed} failed")
    sys.exit(0 if passed and not failed else 1)


if __name__ == "__main__":
    main()
