#!/usr/bin/env python3
"""Tests of bench/peers: python3 tests/test_peers.py, or tests/tools peers

Those that need the library of another store, or a compiler, are skipped by name where it is missing. The others have clients that are
short shell scripts: they print what our own replay prints, or a lie.
"""

import os
import re
import subprocess
import sys
import tempfile
import unittest

HERE = os.path.dirname(os.path.realpath(__file__))
BENCH = os.path.normpath(os.path.join(HERE, "..", "bench"))
sys.dont_write_bytecode = True
sys.path.insert(0, BENCH)

from peer import PEERS, Different, Missing, Peer, compare, replies_of, versions_in, without
from tools import PROGRAM

LOST_UPDATE = b"table,t,1\n1,put,t,7,1\n1,begin\n2,begin\n1,put,t,7,2\n2,put,t,7,3\n1,commit\n2,put,t,7,4\n2,rollback\n3,get,t,7\n"
# Two transactions that write two rows, and a third write of the first. A store with one writer refuses the second transaction's write.
TWO_WRITERS = b"table,t,1\n1,begin\n2,begin\n1,put,t,1,1\n2,put,t,2,2\n2,get,t,2\n1,commit\n2,put,t,1,3\n2,commit\n3,scan,t,0,9\n"
# The least and greatest keys and values, rows of several columns, texts of each length, and statements that see no row.
ENDS = (
    b"version,2\ntable,t,nt\ntable,u,tttttttt\n1,put,t,18446744073709551615,-9223372036854775808,\n"
    b"1,put,t,0,9223372036854775807," + b"x" * 64 + b"\n1,put,u,0,a,,b,,c,,d,\n2,begin\n2,del,t,5\n2,del,t,0\n2,put,t,0,0,y\n"
    b"2,scan,t,0,18446744073709551615\n3,scan,t,0,18446744073709551615\n3,scan,t,5,4\n3,scan,u,0,0\n3,get,u,1\n3,del,u,1\n3,del,t,0\n"
    b"2,commit\n3,del,t,0\n1,gc,group\n4,begin\n4,commit\n4,begin\n4,rollback\n5,begin\n5,put,t,9,9,z\n"
)
# The words for bench/mix: few keys, so that transactions conflict.
MIXES = ("many 3000 20", "one 1000 50", "texts 1000 50", "outside 3000 10", "puts 1000 20", "scans 500 100", "same 2000 8", "hot 2000 16")
MIXES += ("tables 3000 7", "gc-many 3000 20 100", "gc-table 1000 20 100", "wide 100 2000", "twice 9000 500")


class Folder(unittest.TestCase):
    """A folder for each test."""

    def setUp(self):
        scratch = tempfile.TemporaryDirectory()
        self.addCleanup(scratch.cleanup)
        self.folder = scratch.name

    def file(self, name: str, content: bytes) -> str:
        path = os.path.join(self.folder, name)
        with open(path, "wb") as file:
            file.write(content)
        return path


class Comparisons(Folder):
    """What is compared, with clients that are made up."""

    def compare(self, script: bytes, lie: str, has_one_writer: bool = False):
        """Compares with a client that edits what a replay prints."""
        client = self.file("client", f"#!/bin/sh\necho 7 pages of 4 KiB >&2\n'{PROGRAM}' replay | sed -e '/^total/d' {lie}\n".encode())
        os.chmod(client, 0o755)
        peer = Peer("Other", "other", "other.h", "other", "libother-dev", has_one_writer)
        return compare(peer, client, self.file("script.csv", script), self.folder)

    def test_the_kind_of_a_refusal_is_compared(self):
        found = self.compare(LOST_UPDATE, r"-e 's/\(refused,[a-z]*\).*/\1/'")
        self.assertEqual((found.lines, found.ours_refused, found.theirs_refused), (9, 2, 2))
        self.assertEqual((found.ours_held, found.theirs_held), ((2, "versions"), (7, "pages of 4 KiB")))
        with self.assertRaisesRegex(Different, r"^Other differs: it prints 2,6,refused,newer, and hybridgc 2,6,refused,open$"):
            self.compare(LOST_UPDATE, "-e s/refused,open.*/refused,newer/")

    def test_each_byte_counts(self):
        lies = {"s/row,2/row,3/": "3,10,at,2,row,3,", "s/committed,2/committed,3/": "1,7,committed,3,", "1d": "1,3,begun,1,"}
        for lie, line in lies.items():
            with self.assertRaisesRegex(Different, f"it prints {line} and hybridgc "):
                self.compare(LOST_UPDATE, f"-e {lie}")
        with self.assertRaisesRegex(Different, "it prints the end, and hybridgc 3,10,at,2,row,2$"):
            self.compare(LOST_UPDATE, "-e /^3,10,/d")

    def test_one_writer_refuses_what_ours_takes(self):
        # Both refuse record 8. The second transaction has no row then, and commits nothing.
        edits = ("s/2,5,stored/2,5,refused,open/", "s/2,6,row,2/2,6,none/", "s/2,9,.*/2,9,ended/", "s/at,2,rows,2/at,1,rows,1/")
        edits += ("/row,2,2/d",)
        lie = " ".join(f"-e '{edit}'" for edit in edits)
        found = self.compare(TWO_WRITERS, lie, has_one_writer=True)
        self.assertEqual((found.ours_refused, found.theirs_refused), (1, 2))
        with self.assertRaisesRegex(Different, "it prints 2,5,refused,open, and hybridgc 2,5,stored"):
            self.compare(TWO_WRITERS, lie)

    def test_a_client_that_fails(self):
        with self.assertRaisesRegex(Different, "^Other fails: 7 pages"):
            self.compare(LOST_UPDATE, "; exit 1")

    def test_rounds_and_totals_are_left_out(self):
        text = b"1,2,at,0,stored,committed,1\n1,3,swept,group,1,1,4\n2,3,held,2,1,unmoved\n1,4,row,swept\ntotal,made,9\ntotal,undone,2\n"
        self.assertEqual(replies_of(text), [b"1,2,at,0,stored,committed,1", b"1,4,row,swept"])
        self.assertEqual(versions_in(text), 3)

    def test_a_refused_write_becomes_a_get(self):
        self.assertEqual(without(b"table,t,1\n1,put,t,5,6\n2,del,t,7\n", {2, 3}), b"table,t,1\n1,get,t,5\n2,get,t,7\n")


class Words(Folder):
    """The command line."""

    def call(self, *words, **environment):
        done = subprocess.run([sys.executable, "-B", os.path.join(BENCH, "peers"), *words], capture_output=True, text=True, env=environment)
        return done.returncode, done.stdout, done.stderr

    def test_help_and_usage(self):
        status, text, said = self.call("--help")
        self.assertEqual((status, said), (0, ""))
        self.assertTrue(text.startswith("Measures LMDB and RocksDB"), text)
        self.assertIn("where the scripts are many one texts", self.call("several")[2])
        self.assertIn("bench/peers: there is no program /no/such;", self.call("many", HYBRIDGC="/no/such")[2])

    def test_what_is_missing_is_named(self):
        status, text, said = self.call("many", HYBRIDGC=PROGRAM, PATH="/no/such")
        self.assertEqual((status, said), (1, "bench/peers: there is no other store to measure\n"))
        self.assertEqual(text, 2 * "(g++ is missing; on Debian it comes with `apt-get install g++`)\n")
        with self.assertRaisesRegex(Missing, "is missing; on Debian it comes with `apt-get install (libother-dev|g\\+\\+)`"):
            Peer("Other", "other", "no/such.h", "other", "libother-dev", False).build(self.folder)


class Store:
    """The client of a store, which is built once."""

    peer: Peer
    client = missing = ""

    @classmethod
    def setUpClass(cls):
        scratch = tempfile.TemporaryDirectory()
        cls.addClassCleanup(scratch.cleanup)
        try:
            cls.client = cls.peer.build(scratch.name)
        except Missing as missing:
            cls.missing = str(missing)

    def setUp(self):
        super().setUp()
        if self.missing:
            self.skipTest(self.missing)

    def compare(self, script: bytes):
        return compare(self.peer, self.client, self.file("script.csv", script), self.folder)

    def mix(self, words: str):
        return self.compare(subprocess.run([os.path.join(BENCH, "mix"), *words.split()], capture_output=True, check=True).stdout)

    def test_replies_to_scripts_that_are_written_by_hand(self):
        for script in (LOST_UPDATE, TWO_WRITERS, ENDS):
            found = self.compare(script)
            self.assertEqual(found.theirs_refused > found.ours_refused, self.peer.has_one_writer and script == TWO_WRITERS)

    def test_replies_to_mixes(self):
        for words in MIXES:
            self.assertGreater(self.mix(words).lines, 90, words)

    def test_what_is_held_next_to_a_long_reader(self):
        found = self.mix("gc-interval 5000 100 100")
        # After the last round 101 versions, and then 99 puts.
        self.assertEqual(found.ours_held, (200, "versions"))
        self.assertGreater(found.theirs_held[0], 4900)

    def test_other_scripts_are_refused(self):
        for script, said in (
            (b'table,t,1\n"1",get,t,1\n', "no script as bench/mix writes it"),
            (b"table,t,1\n1,get,t,1", "no script as bench/mix writes it"),
            (b"table,t,1\n1,begin\n1,open,t,1,2\n", "record 3 is none that this client runs"),
            (b"table,t,1\n1,get,t,-1\n", "record 2 is none that this client runs"),
            (b"table,t,1\n65,get,t,1\n", "record 2 is none that this client runs"),
            (b"table,t,1\n1,put,t,1\n", "record 2 is none that this client runs"),
            (b"table,t,1\n1,put,t,1,2,3\n", "record 2 is none that this client runs"),
        ):
            with self.assertRaisesRegex(Different, f"^{self.peer.name} fails: {re.escape(said)}$"):
                self.compare(script)


class Lmdb(Store, Folder):
    peer = PEERS[0]


class RocksDb(Store, Folder):
    peer = PEERS[1]


if __name__ == "__main__":
    unittest.main()
