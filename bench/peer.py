"""The other stores of bench/peers: how the client of each is built (stores/*.cc), and how its replies are compared with ours."""

from __future__ import annotations

import os
import re
import shutil
import subprocess
from typing import NamedTuple, Optional

from tools import HERE, PROGRAM

SOURCES = os.path.join(HERE, "stores")
FLAGS = ["-std=c++17", "-O2", "-Wall", "-Wextra"]
# What comes before the answer: session, place, and outside of a transaction the snapshot.
REFUSED = re.compile(rb"(\d+,(\d+),(?:at,\d+,)?refused,(?:open|newer))")


class Missing(Exception):
    """A compiler or a library is missing. The text says what to install."""


class Different(Exception):
    """Another store prints something else. The text shows the first difference."""


class Peer(NamedTuple):
    """Another store. Its client is stores/SOURCE.cc, which needs this header, library and Debian package."""

    name: str
    source: str
    header: str
    library: str
    package: str
    has_one_writer: bool

    def build(self, folder: str) -> str:
        """Builds the client, and returns the program's path."""
        compiler = shutil.which("g++")
        if not compiler:
            raise Missing("g++ is missing; on Debian it comes with `apt-get install g++`")
        probe = f"#include <{self.header}>\nint main() {{}}\n".encode()
        words = [compiler, "-std=c++17", "-x", "c++", "-", f"-l{self.library}", "-o", os.path.join(folder, "probe")]
        if subprocess.run(words, input=probe, capture_output=True).returncode:
            raise Missing(f"{self.name} is missing; on Debian it comes with `apt-get install {self.package}`")
        target = os.path.join(folder, self.source)
        subprocess.run([compiler, *FLAGS, os.path.join(SOURCES, f"{self.source}.cc"), f"-l{self.library}", "-o", target], check=True)
        return target


PEERS = [
    Peer("LMDB", "lmdb", "lmdb.h", "lmdb", "liblmdb-dev", True),
    Peer("RocksDB", "rocksdb", "rocksdb/db.h", "rocksdb", "librocksdb-dev", False),
]


class Comparison(NamedTuple):
    """Two outputs that agree: how many lines were compared, how many writes each store refused, and how much of what each holds."""

    lines: int
    ours_refused: int
    theirs_refused: int
    ours_held: tuple[int, str]
    theirs_held: tuple[int, str]


def replies_of(text: bytes) -> list[bytes]:
    """The lines that another store prints, too: without totals and rounds of collectors, and of a refusal only its kind."""
    lines = []
    for line in text.splitlines():
        if line.startswith(b"total,") or line.split(b",", 3)[2] in (b"swept", b"held"):
            continue
        refusal = REFUSED.match(line)
        lines.append(refusal[1] if refusal else line)
    return lines


def refused_in(lines: list[bytes]) -> set[int]:
    """The places of the writes that were refused for a conflict."""
    return {int(refusal[2]) for refusal in map(REFUSED.match, lines) if refusal}


def versions_in(text: bytes) -> int:
    """How many versions a replay held after its last statement: those that were made, less those undone and those removed by its rounds."""
    held = 0
    for line in text.splitlines():
        fields = line.split(b",")
        if fields[:2] == [b"total", b"made"]:
            held += int(fields[2])
        elif fields[:2] == [b"total", b"undone"]:
            held -= int(fields[2])
        elif fields[2] == b"swept":
            held -= int(fields[6])
    return held


def without(script: bytes, places: set[int]) -> bytes:
    """The script with a get of the same row in place of each of these writes."""
    lines = script.split(b"\n")
    for place in places:
        session, _, table, key = lines[place - 1].split(b",")[:4]
        lines[place - 1] = b",".join((session, b"get", table, key))
    return b"\n".join(lines)


def but_for(places: set[int], lines: list[bytes]) -> list[bytes]:
    """The lines of all other places."""
    return [line for line in lines if int(line.split(b",", 2)[1]) not in places]


def first_difference(ours: list[bytes], theirs: list[bytes]) -> Optional[str]:
    """Shows the first lines that differ."""
    if ours == theirs:
        return None
    pairs = zip([*ours, b"the end"], [*theirs, b"the end"])
    return next(f"it prints {two.decode()}, and hybridgc {one.decode()}" for one, two in pairs if one != two)


def replayed(script: bytes) -> bytes:
    """What a replay prints."""
    return subprocess.run([PROGRAM, "replay"], input=script, stdout=subprocess.PIPE, check=True).stdout


def compare(peer: Peer, client: str, source: str, folder: str) -> Comparison:
    """Runs a script here and there, and compares the replies.

    A store with one writer refuses writes that ours takes, and from then on has other rows. So ours gets a script without them.
    """
    with open(source, "rb") as file:
        script = file.read()
    done = subprocess.run([client, folder, "--held"], input=script, capture_output=True)
    if done.returncode:
        raise Different(f"{peer.name} fails: {done.stderr.decode().strip()}")
    theirs = replies_of(done.stdout)
    refused = refused_in(theirs)
    text = replayed(script)
    ours = replies_of(text)
    ours_refused = len(refused_in(ours))
    if peer.has_one_writer and refused:
        ours = but_for(refused, replies_of(replayed(without(script, refused))))
        theirs = but_for(refused, theirs)
    difference = first_difference(ours, theirs)
    if difference:
        raise Different(f"{peer.name} differs: {difference}")
    number, unit = done.stderr.decode().strip().split(" ", 1)
    return Comparison(len(ours), ours_refused, len(refused), (versions_in(text), "versions"), (int(number), unit))
