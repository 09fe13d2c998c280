#!/usr/bin/env python3
"""Tests of tools/client.py, over a pipe and over the socket of tools/listen: python3 tests/test_client.py"""

from __future__ import annotations

import os
import signal
import subprocess
import sys
import threading
import time
import unittest

from calling import TOOLS
from listening import Listening

from client import BadRecord, Client, Closed, Conflict, Held, NewerCommit, OpenWrite, StoreError, Sweep, Undeclared


class Statements:
    """What a client does, however it is connected. `one` and `two` are two sessions of one store."""

    one: Client
    two: Client

    def test_values(self) -> None:
        rows = [(0, -(2**63), ""), (1, 2**63 - 1, 'a "quote",\r\nand a line'), (2**64 - 1, 0, "é" * 32), (7, 5, "rows"), (8, 5, "\udcff\udc80\0")]
        for key, number, text in rows:
            self.one.put("t", key, number, text)
            self.assertEqual(self.two.get("t", key), (number, text))
        self.assertEqual(self.two.scan("t"), sorted(rows))
        self.assertEqual(self.two.scan("t", 1, 7), sorted(rows)[1:3])
        self.assertEqual((self.two.get("t", 9), self.two.scan("t", 9, 8)), (None, []))
        self.one.put("t", 5, 1, b"\xff\0")
        self.assertEqual(self.one.get("t", 5), (1, "\udcff\0"))

    def test_outside_of_a_transaction(self) -> None:
        self.assertEqual([self.one.put("u", 1, 1), self.two.put("u", 1, 2)], [1, 2])
        self.assertEqual((self.one.last_commit, self.two.last_commit), (1, 2))
        self.assertEqual([self.one.delete("u", 1), self.one.delete("u", 1), self.one.last_commit], [True, False, 3])

    def test_a_transaction(self) -> None:
        self.assertEqual([self.one.begin("u"), self.one.put("u", 1, 1), self.one.state], [0, None, "transaction"])
        self.assertEqual([self.two.get("u", 1), self.one.get("u", 1), self.one.delete("u", 2)], [None, (1,), False])
        self.assertEqual([self.one.commit(), self.one.state, self.two.get("u", 1)], [1, "idle", (1,)])
        self.one.begin()
        self.assertEqual([self.one.put("u", 1, 2), self.one.rollback(), self.one.get("u", 1)], [None, None, (1,)])
        self.one.begin()
        self.assertIsNone(self.one.commit())

    def test_a_transaction_as_a_context(self) -> None:
        with self.one.transaction("u") as db:
            db.put("u", 1, 1)
        self.assertEqual((self.two.get("u", 1), self.one.last_commit), ((1,), 1))
        with self.assertRaises(KeyError), self.one.transaction():
            self.one.put("u", 1, 2)
            raise KeyError
        self.assertEqual((self.one.state, self.two.get("u", 1)), ("idle", (1,)))
        with self.one.transaction():
            self.one.put("u", 1, 3)
            self.one.rollback()
        self.assertEqual(self.two.get("u", 1), (1,))
        with self.assertRaises(BadRecord), self.one.transaction():
            with self.one.transaction():
                pass
        self.assertEqual(self.one.state, "idle")

    def test_conflicts(self) -> None:
        self.one.put("u", 9, 9)
        self.two.begin()
        self.one.begin()
        self.one.put("u", 5, 1)
        with self.assertRaises(OpenWrite) as held:
            self.two.put("u", 5, 2)
        self.assertEqual((held.exception.table, held.exception.key, held.exception.session), ("u", 5, self.one.number))
        self.assertIn(f"session {self.one.number} has written it in its transaction 2,", str(held.exception))
        self.one.commit()
        with self.assertRaises(NewerCommit) as newer:
            self.two.put("u", 5, 2)
        self.assertEqual((newer.exception.commit, self.two.state), (2, "transaction"))
        self.assertEqual(self.two.get("u", 5), None)
        self.two.rollback()

    def test_undeclared(self) -> None:
        self.one.begin("u")
        for ask in (lambda: self.one.get("t", 1), lambda: self.one.put("t", 1, 1, ""), lambda: self.one.delete("t", 1), lambda: self.one.scan("t")):
            with self.assertRaises(Undeclared) as refused:
                ask()
            self.assertEqual((refused.exception.table, self.one.state), ("t", "transaction"))
        self.one.commit()

    def test_bad_records(self) -> None:
        rows = [
            (lambda: self.one.get("x", 1), "Name"), (lambda: self.one.get("u", -1), "Number"), (lambda: self.one.get("u", 2**64), "Range"),
            (lambda: self.one.put("u", 1), "Fields"), (lambda: self.one.put("u", 1, 1, 2), "Columns"), (lambda: self.one.put("u", 1, 2**63), "Value"),
            (lambda: self.one.put("t", 1, 1, "x" * 65), "Value"), (lambda: self.one.commit(), "Order"), (lambda: self.one.close_cursor(), "Order"),
            (lambda: self.one.fetch_many(1), "Order"), (lambda: self.one.begin("x"), "Name"), (lambda: self.one.gc("all"), "Name"),
            (lambda: self.one.declare("v", "n"), "Order"), (lambda: self.one.declare("u", "t"), "Name"),
        ]  # fmt: skip
        self.one.get("u", 1)
        for ask, code in rows:
            with self.assertRaises(BadRecord) as bad:
                ask()
            self.assertEqual((bad.exception.code, self.one.state), (code, "idle"), bad.exception)
            self.assertRegex(str(bad.exception), f"^{code}: .* \\(record {bad.exception.place}: ")
        self.assertEqual(self.one.totals().made, 0)

    def test_values_of_the_wrong_type(self) -> None:
        for values in (("1", ""), (1, 2), (1.5, "")):
            with self.assertRaises(TypeError):
                self.one.put("t", 1, *values)
        self.assertIsNone(self.two.get("t", 1))

    def test_a_cursor(self) -> None:
        rows = [(key, key * key) for key in range(1_000)]
        with self.one.pipeline() as line:
            for row in rows:
                line.put("u", *row)
        reading = self.two.fetch("u", batch=7)
        self.assertEqual(next(reading), (0, 0))
        self.one.delete("u", 500)
        self.assertEqual(list(reading), rows[1:])
        self.assertEqual(self.two.state, "idle")
        for row in self.two.fetch("u", 10, 20):
            break
        self.assertEqual((row, self.two.scan("u", 499, 501)), ((10, 100), [rows[499], rows[501]]))
        with self.two.cursor("u", 990, 2**64 - 1, batch=3) as cursor:
            self.assertEqual((cursor.snapshot, cursor.fetchone(), cursor.fetchmany(4)), (1_001, rows[990], rows[991:995]))
            with self.assertRaisesRegex(BadRecord, "has a cursor open"):
                self.two.get("u", 1)
            self.assertEqual((cursor.fetchall(), cursor.fetchone(), cursor.fetchmany()), (rows[995:], None, []))
        self.assertEqual((self.two.state, cursor.fetchone()), ("idle", None))

    def test_collectors(self) -> None:
        self.two.begin("u")
        for number in range(3):
            self.one.put("u", 1, number)
        self.assertEqual(self.one.gc("interval"), Sweep("interval", 3, 3, 2, [Held(self.two.number, 0, False)]))
        made, *rest = self.one.totals()
        self.assertEqual((made, sum(rest), rest[3]), (3, 3, 2))
        self.two.commit()

    def test_retry(self) -> None:
        turns = []

        def add(db: Client) -> int:
            (before,) = db.get("u", 1)
            turns.append(before)
            if len(turns) < 3:
                self.two.put("u", 1, before + 10)
            db.put("u", 1, before + 1)
            return before

        self.one.put("u", 1, 0)
        self.assertEqual((self.one.retry(add, "u"), turns, self.two.get("u", 1)), (20, [0, 10, 20], (21,)))
        self.two.begin()
        self.two.put("u", 1, 5)
        turns[:] = [0, 0]
        with self.assertRaises(Conflict):
            self.one.retry(add, "u", times=4)
        self.assertEqual((len(turns), self.one.state), (6, "idle"))
        with self.assertRaises(ZeroDivisionError):
            self.one.retry(lambda _: 1 / 0)
        self.two.rollback()

    def test_a_pipeline(self) -> None:
        with self.one.pipeline() as line:
            values = [line.begin("u"), line.put("u", 1, 1), line.get("u", 1), line.scan("u"), line.commit(), line.put("u", 1, 2), line.delete("u", 9)]
            self.assertEqual(len(line), 7)
        self.assertEqual([value.result() for value in values], [0, None, (1,), [(1, 1)], 1, 2, False])
        line = self.two.pipeline()
        line.get("u", 1), line.get("x", 1), line.get("u", 1)
        with self.assertRaises(BadRecord):
            line.results()
        first, bad, last = line.results(faults=True)
        self.assertEqual((first, bad.code, last), ((2,), "Name", (2,)))
        with self.assertRaises(BadRecord), self.two.pipeline() as line:
            line.get("x", 1)

    def test_a_pipeline_longer_than_any_buffer(self) -> None:
        rows = [(key, key, "x" * 64) for key in range(300)]
        with self.one.pipeline() as line:
            for row in rows:
                line.put("t", *row)
            for _ in range(100):
                line.scan("t")
                for row in rows[:30]:
                    line.put("t", *row)
        results = line.results()
        self.assertEqual((results[:300], results[-31], results[-1]), ([*range(1, 301)], rows, 3_300))

    def test_a_table(self) -> None:
        table = self.one.table("u", "n")
        self.assertEqual([table.put(1, 5), table.get(1), table.scan(), list(table.fetch())], [1, (5,), [(1, 5)], [(1, 5)]])
        self.assertEqual([table.delete(1), table.get(1), self.two.kinds], [True, None, {"t": "nt", "u": "n"}])

    def test_bytes_as_they_are(self) -> None:
        self.assertEqual(self.one.send(b"get,u,1").result()[0].split(b",")[2:], [b"at", b"0", b"none"])
        with self.assertRaises(BadRecord):
            self.one.send(b"get,u").result()


class OverAPipe(Statements, unittest.TestCase):
    def setUp(self) -> None:
        self.one = Client()
        self.addCleanup(self.one.close)
        self.one.declare("t", "nt")
        self.one.declare("u", "n")
        self.two = self.one.session()

    def test_sessions(self) -> None:
        sessions = [self.one, self.two, *(self.one.session() for _ in range(62))]
        for session in sessions:
            session.begin()
        self.assertEqual([session.number for session in sessions], [*range(1, 65)])
        with self.assertRaisesRegex(StoreError, "64 sessions"):
            self.one.session()
        with sessions[7] as left:
            left.put("u", 1, 1)
        with self.assertRaisesRegex(Closed, "the session was closed"):
            left.get("u", 1)
        with self.one.session() as again:
            self.assertEqual((again.number, again.get("u", 1)), (8, None))
            again.open("u")
        self.assertEqual(self.one.session().begin(), 0)

    def test_the_end(self) -> None:
        self.one.begin()
        self.one.put("u", 1, 1)
        self.assertEqual((self.one.close(), self.one.close()), ((1, 1, 0, 0, 0, 0), None))
        for session in (self.one, self.two):
            with self.assertRaisesRegex(Closed, "the client was closed"):
                session.get("u", 1)

    def test_the_program_ends(self) -> None:
        os.kill(self.one._wire._process.pid, signal.SIGKILL)
        for _ in range(2):
            with self.assertRaisesRegex(Closed, "the program ended with status -9"), self.one.transaction():
                pass

    def test_the_program_ends_in_a_pipeline(self) -> None:
        line = self.one.pipeline()
        line.put("u", 1, 1)
        os.kill(self.one._wire._process.pid, signal.SIGKILL)
        with self.assertRaisesRegex(Closed, "the program ended with status -9"):
            for _ in range(100_000):
                line.put("u", 1, 1)
            line.results()

    def test_no_answer(self) -> None:
        with Client(timeout=0.2) as db:
            os.kill(db._wire._process.pid, signal.SIGSTOP)
            threading.Timer(0.5, os.kill, (db._wire._process.pid, signal.SIGCONT)).start()
            with self.assertRaisesRegex(Closed, "no answer in 0.2 s"):
                db.totals()
            self.assertTrue(db.is_closed)

    def test_options(self) -> None:
        with self.assertRaisesRegex(Closed, "status 2: usage: hybridgc"):
            Client(options=["--buckets", "0"])
        with Client(options=["--buckets", "7"], texts=bytes) as db:
            db.declare("t", "t")
            db.put("t", 1, "é")
            self.assertEqual(db.get("t", 1), ("é".encode(),))

    def test_no_program(self) -> None:
        words = [sys.executable, "-B", "-c", "import client; client.Client()"]
        done = subprocess.run(words, env={**os.environ, "HYBRIDGC": "/nowhere", "PYTHONPATH": TOOLS}, capture_output=True, text=True)
        self.assertIn("Closed: HYBRIDGC names /nowhere, which is no program", done.stderr)


class OverASocket(Statements, unittest.TestCase):
    def setUp(self) -> None:
        self.listening = Listening()
        self.addCleanup(self.listening.end)
        self.one = Client(self.listening.address)
        self.addCleanup(self.one.close)
        self.one.declare("t", "nt")
        self.one.declare("u", "n")
        self.two = Client(self.listening.address)
        self.addCleanup(self.two.close)

    def test_declared_by_another(self) -> None:
        self.two.declare("t", "nt")
        with self.assertRaisesRegex(StoreError, "connect again"):
            self.one.session()

    def test_declared_after_connecting(self) -> None:
        with Listening() as listening, Client(listening.address) as early, Client(listening.address) as other:
            other.declare("t", "tn")
            other.put("t", 1, "x", 7)
            self.assertEqual((early.get("t", 1), early.scan("t"), list(early.fetch("t"))), (("x", 7), [(1, "x", 7)], [(1, "x", 7)]))
            with self.assertRaises(TypeError):
                early.put("t", 1, 7, "x")

    def test_leaving_rolls_back(self) -> None:
        with self.assertRaises(KeyError), Client(self.listening.address) as third:
            third.begin()
            third.put("u", 1, 1)
            raise KeyError
        for _ in range(100):
            if not self.one.gc("group").held:
                break
        self.assertEqual(self.one.put("u", 1, 2), 1)

    def test_the_listener_ends(self) -> None:
        self.listening.end()
        with self.assertRaisesRegex(Closed, "the listener ended: the listener was ended"):
            self.one.get("u", 1)
        with self.assertRaisesRegex(Closed, "no listener at .*`tools/listen"):
            Client(self.listening.address)

    def test_too_many(self) -> None:
        others = [Client(self.listening.address) for _ in range(62)]
        with self.assertRaisesRegex(Closed, "64 clients"):
            Client(self.listening.address)
        others[7].close()
        # The listener hears of it soon.
        for _ in range(100):
            try:
                others[7] = Client(self.listening.address)
                break
            except Closed:
                time.sleep(0.1)
        self.assertEqual(others[7].number, 10)
        for other in others:
            other.close()

    def test_threads_lose_no_update(self) -> None:
        def add() -> None:
            with Client(self.listening.address) as db:
                for _ in range(20):
                    db.retry(lambda db: db.put("u", 1, db.get("u", 1)[0] + 1), "u", times=1_000)

        self.one.put("u", 1, 0)
        threads = [threading.Thread(target=add) for _ in range(5)]
        for thread in threads:
            thread.start()
        for thread in threads:
            thread.join()
        self.assertEqual(self.one.get("u", 1), (100,))

    def test_a_port(self) -> None:
        with Listening(address="127.0.0.1:0") as listening, Client(listening.address) as db:
            db.declare("t", "n")
            self.assertEqual((db.put("t", 1, 2), db.get("t", 1)), (1, (2,)))


if __name__ == "__main__":
    unittest.main()
