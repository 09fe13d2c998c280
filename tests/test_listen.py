#!/usr/bin/env python3
"""Tests of tools/listen: python3 tests/test_listen.py"""

import os
import random
import re
import signal
import socket
import tempfile
import time
import unittest

from calling import ROOT, SECONDS, run
from listening import Caller, Listening

EXAMPLES = os.path.join(ROOT, "examples")


def without_places(answer: str) -> str:
    """An answer without its place, which depends on what other clients send."""
    return re.sub(r"^(\d+),\d+,|^(bad),\d+,", lambda it: f"{it[1] or it[2]},", answer)


class Answers(unittest.TestCase):
    def setUp(self) -> None:
        self.listening = Listening()
        self.addCleanup(self.listening.end)
        self.one, self.two = Caller(self.listening), Caller(self.listening)

    def declare(self) -> None:
        self.one.ask("table,t,n")

    def test_each_client_is_a_session(self) -> None:
        self.assertEqual((self.one.greeting, self.two.greeting), ("session,1", "session,2"))
        self.assertEqual(self.one.ask("table,t,nt"), "declared,2")
        self.assertEqual(self.one.asks("begin", "put,t,5,7,x", "get,t,5"), ["1,3,begun,0", "1,4,stored", "1,5,row,7,x"])
        self.assertEqual(self.two.asks("get,t,5", "put,t,5,8,y"), ["2,6,at,0,none", "2,7,at,0,refused,open,1,1"])
        self.assertEqual(self.one.ask("commit"), "1,8,committed,1")
        self.assertEqual(self.two.ask("scan,t,0,9"), "2,9,at,1,rows,1 2,9,row,5,7,x")

    def test_a_number_in_front_is_no_session(self) -> None:
        self.declare()
        self.assertEqual(self.one.ask("2,begin"), "bad,3,Word")
        self.assertEqual(self.two.ask("begin"), "2,4,begun,0")

    def test_the_first_client_declares(self) -> None:
        self.assertEqual(self.one.ask("tables"), "tables,0")
        self.assertEqual(self.one.asks("version,2", "table,t,2", "table,u,tn"), ["declared,1", "declared,2", "declared,3"])
        self.assertEqual(self.two.ask("tables"), "tables,2 table,t,nn table,u,tn")
        self.assertEqual(self.two.asks("table,u,t", "get,t,1", "table,v,n"), ["bad,4,Name", "2,5,at,0,none", "bad,6,Order"])
        self.assertEqual(self.two.ask("tables"), "tables,2 table,t,nn table,u,tn")

    def test_answers_come_in_the_order_of_the_records(self) -> None:
        self.declare()
        records, wanted = [], []
        for n in range(5_000):
            record, answer = random.choice([
                (f"put,t,{n % 7},{n}", "stored"), ("tables", "tables,1"), ("nonsense", "bad,Word"), ("scan,t,0,9", "rows,"), ("begin,u", "bad,Name"),
                ("totals", "total,made"), ("get,t,9", "none"), ("gc,group", "holds,0"), ("\n\nget,t,9", "none"), ('"get",t,9', "none"),
            ])  # fmt: skip
            records.append(record)
            wanted.append(answer)
        for answer, part in zip(self.one.asks(*records), wanted):
            self.assertIn(part, without_places(answer))

    def test_who_leaves_has_its_transaction_rolled_back(self) -> None:
        self.declare()
        self.one.asks("begin", "put,t,5,7")
        self.one.hang_up()
        self.assertIn("stored,committed,1", self.wait_for(self.two, "put,t,5,8", "committed"))
        self.assertIn("total,undone,1 ", self.two.ask("totals"))
        third = Caller(self.listening)
        self.assertEqual(third.greeting, "session,1")
        self.assertIn("begun,1", third.ask("begin"))

    def wait_for(self, caller: Caller, record: str, part: str) -> str:
        """Asks until the answer has this part."""
        for _ in range(200):
            answer = caller.ask(record)
            if part in answer:
                return answer
        return answer

    def test_who_leaves_has_its_cursor_closed(self) -> None:
        self.declare()
        self.one.asks("put,t,5,7", "open,t,0,9")
        self.one.say(b"fetch,1\nfetch")
        self.one.hang_up()
        self.wait_for(self.two, "gc,group", "holds,0")
        third = Caller(self.listening)
        self.assertEqual((third.greeting, without_places(third.ask("get,t,5"))), ("session,1", "1,at,1,row,7"))

    def test_who_sends_no_more_still_reads(self) -> None:
        self.declare()
        self.one.say(b"put,t,1,1\n" * 3_000 + b"begin\nput,t,2,2\n")
        self.one.send_no_more()
        answers = [self.one.answer() for _ in range(3_003)]
        self.assertEqual(([without_places(answer) for answer in answers[-3:-1]], answers[-1]), (["1,begun,3000", "1,stored"], ""))
        self.assertIn("none", self.two.ask("get,t,2"))

    def test_a_record_without_its_end_is_not_run(self) -> None:
        self.declare()
        for cut in (b"put,t,1,1", b'put,t,1,"1\n', b'"'):
            caller = Caller(self.listening)
            caller.say(b"get,t,1\n" + cut)
            caller.send_no_more()
            self.assertIn("none", caller.answer())
            self.assertEqual((caller.answer(), caller.answer()), ("bad,0,End", ""))

    def test_the_65th_is_refused(self) -> None:
        others = [Caller(self.listening) for _ in range(62)]
        self.assertEqual(others[-1].greeting, "session,64")
        late = Caller(self.listening)
        self.assertEqual((late.greeting, late.answer()), ("full,64", ""))
        others[30].hang_up()
        self.one.ask("tables")
        self.assertEqual(Caller(self.listening).greeting, "session,33")


class Troubles(unittest.TestCase):
    def setUp(self) -> None:
        self.listening = Listening("--load", os.path.join(EXAMPLES, "texts.csv"))
        self.addCleanup(self.listening.end)
        self.one, self.two = Caller(self.listening), Caller(self.listening)

    def test_a_line_that_is_too_long(self) -> None:
        get = b"get,notes,7\n"
        self.one.say(get + b"x" * 3_000_000 + b"\n" + get + b"y" * 1_048_577 + b"\n")
        self.one.say(b'put,notes,1,"' + (b"z" * 98 + b",\n") * 11_000 + b'"\n' + get)
        answers = [without_places(self.one.answer()) for _ in range(6)]
        none = "1,at,5,none"
        self.assertEqual(answers, [none, "bad,Long", none, "bad,Long", "bad,Long", none])
        self.assertLess(self.listening.memory(), 80)

    def test_bytes_that_are_no_csv(self) -> None:
        random.seed(76)
        for _ in range(20):
            noise = random.randbytes(20_000)
            caller = Caller(self.listening)
            caller.say(noise)
            caller.send_no_more()
            answers = []
            while answer := caller.answer():
                answers.append(answer)
            self.assertTrue(all(answer.startswith("bad,") for answer in answers))
        self.assertEqual(without_places(self.two.ask("get,notes,2")), "2,at,5,row,")

    def fill(self, caller: Caller, text: bytes) -> int:
        """Sends a text again and again until nothing more is taken. Returns how often it was sent as a whole."""
        caller.socket.settimeout(0.3)
        count = 0
        try:
            while count < 100_000:
                caller.say(text)
                count += 1
        except socket.timeout:
            return count
        self.fail("whatever is sent is taken")

    def test_who_does_not_read_holds_nobody(self) -> None:
        self.one.asks(*(f"put,people,{key},{'x' * 64},{key}" for key in range(2_000)))
        self.fill(self.one, b"scan,people,0,9999\n" * 1_000)
        self.fill(Caller(self.listening), b"get,notes,1\n" * 1_000)
        self.fill(Caller(self.listening), b"tables\n" * 1_000)
        for _ in range(100):
            self.assertEqual(without_places(self.two.ask("get,notes,2"))[-4:], "row,")
        # It grows no more.
        before, memory = 0, self.listening.memory()
        while before < memory < 80:
            time.sleep(0.3)
            before, memory = memory, self.listening.memory()
        self.assertLess(memory, 80)

    def test_who_reads_late_gets_all(self) -> None:
        self.one.asks(*(f"put,people,{key},{'x' * 64},{key}" for key in range(500)))
        count = self.fill(self.one, b"scan,people,0,99\ntables\n")
        self.one.socket.settimeout(SECONDS)
        for _ in range(count):
            self.assertEqual([self.one.answer().count("row,"), self.one.answer()[:9]], [100, "tables,2 "])

    def test_the_program_ends(self) -> None:
        os.kill(self.listening.program(), signal.SIGKILL)
        for caller in (self.one, self.two):
            self.assertEqual((caller.answer(), caller.answer()), ('gone,"the program ended with status -9"', ""))
        status, totals, said = self.listening.end()
        self.assertEqual((status, totals, said.splitlines()[1:]), (1, [], ["tools/listen: the program ended with status -9"]))

    def test_a_signal_ends_it(self) -> None:
        for name in (signal.SIGTERM, signal.SIGINT):
            listening = Listening("--load", os.path.join(EXAMPLES, "first.csv"))
            caller = Caller(listening)
            caller.asks("begin", "put,t,9,9")
            listening.process.send_signal(name)
            self.assertEqual((caller.answer(), caller.answer()), ('gone,"the listener was ended"', ""))
            status, totals, _ = listening.end(None)
            self.assertEqual((status, totals[0], totals[1], len(totals)), (0, "total,made,2", "total,undone,1", 6))
            self.assertFalse(os.path.exists(listening.address))


    def test_who_leaves_while_it_ends(self) -> None:
        self.one.asks("begin", "put,notes,1,x")
        os.kill(self.listening.program(), signal.SIGSTOP)
        self.one.say(b"get,notes,1\n" * 10)
        time.sleep(0.2)
        self.listening.process.send_signal(signal.SIGTERM)
        time.sleep(0.2)
        self.one.hang_up()
        os.kill(self.listening.program(), signal.SIGCONT)
        status, totals, said = self.listening.end(None)
        self.assertEqual((status, totals[1:2], said.count("\n")), (0, ["total,undone,1"], 1), said)

    def test_a_page_in_a_browser(self) -> None:
        caller = Caller(self.listening)
        caller.say(b"POST / HTTP/1.1\r\nHost: localhost\r\n\r\nput,notes,1,x\n")
        self.assertEqual(self.end_of(caller), "")
        self.assertEqual(without_places(self.two.ask("get,notes,1"))[-9:], 'he left."')

    def end_of(self, caller: Caller) -> str:
        """What is still answered, if anything."""
        try:
            return caller.answer()
        except ConnectionResetError:
            return ""


class Starts(unittest.TestCase):
    def test_a_script_is_run_first(self) -> None:
        with tempfile.NamedTemporaryFile(suffix=".csv") as script:
            script.write(b"\xef\xbb\xbftable,t,2\ntable,u,1\n1,put,t,1,7,8\n2,begin\n2,put,t,2,7,8\n3,open,t,0,9\n3,fetch,1\n1,put,t,3,7,8")
            script.flush()
            with Listening("--load", script.name) as listening:
                self.assertRegex(listening.said, r"^tools/listen: at .*/store.sock; tables: t, u; Ctrl-C ends it\n$")
                callers = [Caller(listening) for _ in range(3)]
                self.assertEqual(callers[0].ask("tables"), "tables,2 table,t,nn table,u,n")
                for caller in callers:
                    self.assertIn("begun,2", caller.ask("begin"))
                    self.assertRegex(caller.ask("scan,t,0,9"), r"rows,2 .*row,1,7,8 .*row,3,7,8$")

    def test_a_port(self) -> None:
        with Listening(address="127.0.0.1:0") as listening:
            host, port = listening.address.split(":")
            with socket.create_connection((host, int(port))) as connection:
                connection.sendall(b"tables\n")
                connection.shutdown(socket.SHUT_WR)
                with connection.makefile() as file:
                    self.assertEqual(file.read(), "session,1\ntables,0\n")
            self.assertEqual(listening.end()[0], 0)

    def test_a_socket_that_nobody_listens_on(self) -> None:
        with tempfile.TemporaryDirectory() as folder:
            address = os.path.join(folder, "s")
            with socket.socket(socket.AF_UNIX) as left:
                left.bind(address)
            with Listening(address=address) as listening:
                self.assertEqual(Caller(listening).greeting, "session,1")
                self.assertEqual(os.stat(address).st_mode & 0o777, 0o600)
                status, _, said = run("listen", address)
                self.assertEqual((status, said), (1, f"tools/listen: another listener is at {address}\n"))

    def test_mistakes(self) -> None:
        with tempfile.TemporaryDirectory() as folder:
            address, script = os.path.join(folder, "s"), os.path.join(folder, "script")
            with open(script, "w") as file:
                file.write("table,t,1\n1,begin\n2,get,u,1\n")
            rows = [
                ([], 2, "required: ADDRESS"),
                (["1.2.3.4:80"], 2, "this machine alone"),
                (["127.0.0.1:70000"], 2, "this machine alone"),
                ([script], 1, f"{script} is there, and is no socket"),
                ([folder + "/no/s"], 1, "No such file or directory"),
                (["x" * 200], 1, "path too long"),
                ([address, "--load", script], 1, f"{script}: record 3: Name: 2,get,u,1"),
                ([address, "--load", folder], 1, "Is a directory"),
                ([address, "--buckets", "0"], 1, "usage: hybridgc"),
            ]
            for words, wanted, part in rows:
                status, out, said = run("listen", *words)
                self.assertEqual((status, out), (wanted, b""), words)
                self.assertIn(part, said)
            self.assertEqual(os.listdir(folder), ["script"])
        self.assertIn("store.sock", run("listen", "--help")[1].decode())


if __name__ == "__main__":
    unittest.main()
