#!/usr/bin/env python3
"""Tests of tools/import and tools/export: python3 tests/test_import.py"""

from __future__ import annotations

import csv
import glob
import io
import os
import pty
import random
import re
import shutil
import subprocess
import sys
import tempfile
import unittest

from calling import ROOT, TOOLS, run
from listening import Caller, Listening, call

from hybridgc import program

EXAMPLES = os.path.join(ROOT, "examples")
CITIES = 'id,name,people\n7,"Paris, ""the\nCity""",2100000\n5,Köln,1080000\n6,,0\n'


class WithFiles(unittest.TestCase):
    def setUp(self) -> None:
        folder = tempfile.TemporaryDirectory()
        self.addCleanup(folder.cleanup)
        self.folder = folder.name

    def file(self, text: "str | bytes", name: str = "f.csv") -> str:
        path = os.path.join(self.folder, name)
        with open(path, "wb") as file:
            file.write(text.encode() if isinstance(text, str) else text)
        return path

    def script(self, text: "str | bytes", *words: str) -> str:
        """The script of a file, without its first two records."""
        status, script, said = call("import", "t", self.file(text), *words)
        self.assertEqual((status, said), (0, ""))
        self.assertTrue(script.startswith(b"version,2\ntable,t,"))
        return script.decode(errors="surrogateescape").removeprefix("version,2\ntable,t,")


class Imports(WithFiles):
    def test_a_file(self) -> None:
        script = 'tn\n1,put,t,7,"Paris, ""the\nCity""",2100000\n1,put,t,5,Köln,1080000\n1,put,t,6,,0\n'
        self.assertEqual(self.script(CITIES), script)
        for text in (CITIES.replace("\n", "\r\n").replace("the\r", "the"), CITIES.removesuffix("\n"), "\ufeff" + CITIES, CITIES.replace("\n7", "\n\n\n7")):
            self.assertEqual(self.script(text), script)
        self.assertEqual(call("import", "t", "-", given=CITIES.encode())[1].decode(), "version,2\ntable,t," + script)

    def test_words(self) -> None:
        rows = [
            ("1,2,3\n4,5,6\n", [], "nn\n1,put,t,1,2,3\n1,put,t,4,5,6\n"),
            ("1,2,3\n4,5,6\n", ["--header"], "nn\n1,put,t,4,5,6\n"),
            ("1,2,3\n4,5,6\n", ["--key", "3"], "nn\n1,put,t,3,1,2\n1,put,t,6,4,5\n"),
            ("1,2,3\n4,5,6\n", ["--key=3", "--columns=2"], "n\n1,put,t,3,2\n1,put,t,6,5\n"),
            ("a,b,c\n4,5,6\n", ["--key", "b", "--columns", "c,a"], "nn\n1,put,t,5,6,4\n"),
            ("a,b,c\n4,5,6\n", ["--kinds", "nt"], "nt\n1,put,t,4,5,6\n"),
            ("a,b\n4,5\n", ["--key=line", "--no-header"], "tt\n1,put,t,1,a,b\n1,put,t,2,4,5\n"),
            ("a,b\n4,5\n", ["--key=line", "--header"], "nn\n1,put,t,1,4,5\n"),
            ("a;b\n4;5,1\n", ["--delimiter", ";"], 't\n1,put,t,4,"5,1"\n'),
            ("a\tb\n4\t5\n", ["--delimiter", "\\t"], "n\n1,put,t,4,5\n"),
            ("\ufeff1,2\n", [], "n\n1,put,t,1,2\n"),
            ("\ufeffa,b\n1,2\n", ["--key", "a"], "n\n1,put,t,1,2\n"),
            ("1,2\n", ["--transaction"], "n\n1,begin,t\n1,put,t,1,2\n1,commit\n"),
            ("é,b\n1,2\n", ["--columns", "é", "--key", "b"], "n\n1,put,t,2,1\n"),
        ]
        found = [call("import", *["t", "-", *words], given=text.encode()) for text, words, _ in rows]
        for (_, words, script), answer in zip(rows, found):
            self.assertEqual(answer, (0, b"version,2\ntable,t," + script.encode(), ""), words)

    def test_kinds(self) -> None:
        rows = [
            ("0", "n"), ("-1", "n"), ("007", "t"), ("+7", "t"), ("-0", "t"), ("1.5", "t"), ("", "t"), ("x", "t"), (" 1", "t"), (str(2**63 - 1), "n"),
            (str(-(2**63)), "n"), (str(2**63), "t"), (str(-(2**63) - 1), "t"), ("1" * 64, "t"),
        ]  # fmt: skip
        for some in (rows[:7], rows[7:]):
            fields = ",".join(field for field, _ in some)
            self.assertEqual(self.script(f"1,5,5,5,5,5,5,5\n2,{fields}\n").split("\n")[0], "".join(kind for _, kind in some))

    def test_bytes_that_are_no_utf_8(self) -> None:
        # Before Python 3.11 its CSV reader takes no NUL.
        text = bytes(byte for byte in range(sys.version_info < (3, 11), 256) if byte not in b'"')
        rows = [text[:64], text[64:128], text[128:192], text[192:], b"\r", b"a\r\nb"]
        path = self.file(b"".join(b'%d,"%s"\n' % (key, row) for key, row in enumerate(rows)))
        script = call("import", "t", path)[1]
        with open(path, "rb") as file:
            found = call("export", given=script)[1]
            wanted = [[str(key), row.decode("latin-1")] for key, row in enumerate(rows)]
            self.assertEqual(list(csv.reader(io.StringIO(found.decode("latin-1"), newline=""))), wanted)

    def test_bad_rows(self) -> None:
        rows = [
            ("1,2\n3,4\n5\n", [], "standard input line 3: 1 fields, and the first row has 2"),
            ("k,v\n1,2\nx,4\n", [], "standard input line 3, column 1 (k): the key 'x' is not a whole number as a script writes it"),
            ("k,v\n1,2\n-1,4\n", [], "line 3, column 1 (k): the key -1 is not from 0 to 18446744073709551615"),
            (f"k,v\n{2**64},2\n", [], f"line 2, column 1 (k): the key {2**64} is not from"),
            ("k,v\n1,2\n,4\n", [], "line 3, column 1 (k): the key is empty"),
            ('k,v\n1,"a\nb"\n3,' + "x" * 65 + "\n", [], "line 4, column 2 (v): a text of 65 bytes, and a text has at most 64"),
            ("k,v\n1," + "é" * 33 + "\n", [], "line 2, column 2 (v): a text of 66 bytes"),
            ("1,2\n2,x\n", ["--kinds", "n"], "line 2, column 2: the number 'x' is not a whole number"),
            (f"1,2\n2,{2**63}\n", ["--kinds", "n"], f"line 2, column 2: the number {2**63} is not from -9223372036854775808"),
            ("1,2\n2,\n", ["--kinds", "n"], "line 2, column 2: the number is empty"),
            ("3,2\n1,2\n\n3,4\n", [], "line 4: the key 3 is also that of line 1"),
            ('1,a\n2,"b\n3,c\n', [], "line 2: unexpected end of data; is a quote left open?"),
            ('1,a\n2,"b"x\n', [], "line 2: ',' expected after '\"'"),
            ('1,a\n2,"b\n' + "4,x\n" * 40 + '5,"\n', [], "line 2, column 2: a text of 164 bytes, and a text has at most 64; is a quote left open?"),
            ("", [], "standard input: there is no row in it"),
            ("k,v\n", [], "standard input: there is no row in it but the header"),
            ("1\n", [], "there is no column but the key in its first row\n"),
            ("k;v\n1;2\n", [], "there is no column but the key in its first row; is it --delimiter ';'?"),
            ("k\tv\n1\t2\n", [], "is it --delimiter '\\t'?"),
            (",".join("123456789") + ",0\n", [], "9 columns without the key, and a table has 1 to 8; --columns"),
            ("k,v\n1,2\n", ["--columns", "w"], "there is no column w; its first row is k,v"),
            ("k,v\n1,2\n", ["--key", "3"], "there is no column 3"),
            ("k,v\n1,2\n", ["--kinds", "nn"], "--kinds has 2 letters, and there are 1 columns"),
            ("k,v\n1,2\n", ["--key", "line"], "--header or --no-header"),
        ]
        found = [call("import", *["t", "-", *words], given=text.encode()) for text, words, _ in rows]
        for (text, words, part), (status, script, said) in zip(rows, found):
            self.assertEqual((status, script), (1, b""), (text, words))
            self.assertIn(part, said)
            self.assertEqual(said.count("\n"), 1, said)

    def test_mistakes(self) -> None:
        path = self.file(CITIES)
        rows = [
            (["t"], 2, "required: FILE"), (["a-b", path], 2, "is no name of a table"), (["t", path, "--kinds", "x"], 2, "n or t"),
            (["t", path, "--delimiter", '"'], 2, "a delimiter is one character"), (["t", self.folder], 1, "Is a directory"),
            (["t", path + "x"], 1, "f.csvx: No such file or directory"), (["t", path, "--to", path + ".sock"], 1, "no listener at"),
        ]  # fmt: skip
        found = [call("import", *words, given=b"") for words, _, _ in rows]
        for (words, wanted, part), (status, out, said) in zip(rows, found):
            self.assertEqual((status, out), (wanted, b""), words)
            self.assertIn(part, said)
        self.assertIn("--key", run("import", "--help")[1].decode())

    def test_into_a_listener(self) -> None:
        with Listening() as listening:
            path = self.file("k,v\n" + "".join(f"{key},{key % 7}\n" for key in range(5_000)))
            self.assertEqual(call("import", "t", path, "--to", listening.address), (0, b"", "tools/import: 5,000 rows in t\n"))
            said = call("import", "t", self.file("1,x\n"), "--to", listening.address)[2]
            self.assertEqual(said, "tools/import: the store's table t has the kinds n, and the file's are t; --kinds n asks for those\n")
            caller = Caller(listening)
            self.assertIn("rows,2 ", caller.ask("scan,t,4998,9999"))
            caller.asks("begin", "put,t,20,9")
            rows = self.file("".join(f"{key},1\n" for key in range(40)))
            status, _, said = call("import", "t", rows, "--to", listening.address)
            self.assertEqual(status, 1)
            self.assertRegex(said, r"f.csv line 21: the store answered \d+,\d+,at,5020,refused,open,\d+,\d+; the 20 rows before it are stored")
            status, _, said = call("import", "t", self.file("6000,1\n20,1\n"), "--to", listening.address, "--transaction")
            self.assertIn("line 2: the store answered", said)
            self.assertIn("nothing is stored", said)
            self.assertIn("none", caller.ask("get,t,6000"))
            self.assertEqual(call("export", "--from", listening.address)[1].count(b"\n"), 5_000)

    def test_progress_on_a_terminal(self) -> None:
        ours, theirs = pty.openpty()
        show = "import hybridgc; p = hybridgc.Progress('f.csv: read'); p.tell(0, 0); p._next = 0; p.tell(1234, 0.256); p.tell(2000, 1)"
        words = [sys.executable, "-B", "-c", show]
        subprocess.run(words, cwd=TOOLS, stderr=theirs, check=True)
        self.assertEqual(os.read(ours, 4_096), b"\rf.csv: read 1,234 rows, 26%\x1b[K\r\x1b[K")
        self.assertEqual(subprocess.run(words, cwd=TOOLS, stderr=subprocess.PIPE, check=True).stderr, b"")
        os.close(ours)
        os.close(theirs)

    def test_memory_is_flat(self) -> None:
        watch = (
            "import resource,subprocess,sys; subprocess.run(sys.argv[1:], stdout=subprocess.DEVNULL, check=True); "
            "print(resource.getrusage(resource.RUSAGE_CHILDREN).ru_maxrss)"
        )
        peaks = []
        for count in (1_000, 40_000):
            path = self.file("".join(f"{key},{key},text {key}\n" for key in range(count)))
            words = [sys.executable, "-c", watch, sys.executable, "-B", os.path.join(TOOLS, "import"), "t", path]
            peaks.append(int(subprocess.run(words, capture_output=True, text=True, check=True).stdout))
        self.assertLess(peaks[1] - peaks[0], 3_000, peaks)


class Exports(WithFiles):
    def export(self, script: "str | bytes", *words: str) -> str:
        status, out, said = call("export", *words, given=script.encode() if isinstance(script, str) else script)
        self.assertEqual((status, said), (0, ""))
        return out.decode()

    def test_there_and_back(self) -> None:
        random.seed(5)
        rows = []
        for key in sorted(random.sample(range(10**6), 300)):
            text = "".join(random.choice('ab ,"\n\ré;\t\\') for _ in range(random.randrange(20)))
            rows.append([str(key), str(random.randrange(-(2**63), 2**63)), text])
        text = io.StringIO(newline="")
        csv.writer(text, lineterminator="\n", quoting=csv.QUOTE_ALL).writerows([["id", "a", "b"], *rows])
        script = call("import", "t", self.file(text.getvalue()))[1]
        back = self.export(script, "--header", "id,a,b")
        self.assertEqual(list(csv.reader(io.StringIO(back, newline=""))), [["id", "a", "b"], *rows])
        self.assertEqual(call("import", "t", self.file(back))[1], script)

    def test_an_empty_text_is_no_empty_field(self) -> None:
        self.assertEqual(self.export("version,2\ntable,t,tnt\n1,put,t,1,,5,\n"), '1,"",5,""\n')

    def test_what_a_script_leaves(self) -> None:
        script = "table,t,1\n1,put,t,5,1\n1,put,t,3,1\n2,begin\n2,put,t,9,9\n1,begin\n1,put,t,3,2\n1,del,t,5\n1,put,t,7,-7\n1,commit\n3,open,t,0,9"
        self.assertEqual(self.export(script), "3,2\n7,-7\n")
        self.assertEqual(self.export("table,t,1\n"), "")

    def test_a_dump(self) -> None:
        with open(os.path.join(EXAMPLES, "texts.csv"), "rb") as file:
            script = file.read()
        dump = subprocess.run([program(), "dump", "--rounds=0"], input=script, stdout=subprocess.PIPE, check=True).stdout
        for table in ("people", "notes"):
            self.assertEqual(self.export(dump, table), self.export(script, table))
        start = dump.index(b"snapshot,")
        other = b"snapshot,0\nversion,2\ntable,t,t\n1,put,t,1,\"\nsnapshot,5\n\"\nsnapshot,1\nversion,2\ntable,t,t\n1,put,t,1,x\n"
        self.assertEqual([self.export(dump[:start] + other), self.export(other, "--first")], ["1,x\n", '1,"\nsnapshot,5\n"\n'])
        self.assertIn("replies, without the rows of a dump", call("export", given=dump[:start])[2])

    def test_a_listener(self) -> None:
        with Listening("--load", os.path.join(EXAMPLES, "texts.csv")) as listening:
            self.assertEqual(call("export", "people", "--from", listening.address)[1], b'1,"Lovelace, Ada",1815\n2,"Noether, Emmy",1882\n')
            sql = call("export", "--sql", "--from", listening.address)[1].decode()
        with open(os.path.join(EXAMPLES, "texts.csv"), "rb") as file:
            self.assertEqual(sql, self.export(file.read(), "--sql"))
        self.assertEqual(re.findall('CREATE TABLE "(.*)"', sql), ["people", "notes"])

    def test_more_rows_than_a_fetch(self) -> None:
        for count in (4_095, 4_096, 4_097, 10_000):
            script = "table,t,1\n" + "".join(f"1,put,t,{key},{key}\n" for key in range(count))
            self.assertEqual(self.export(script), "".join(f"{key},{key}\n" for key in range(count)))

    def test_mistakes(self) -> None:
        rows = [
            ("table,t,1\n", ["u"], 1, "there is no table u; there are: t"),
            ("table,t,1\ntable,u,1\n", [], 1, "there are 2 tables: name one of t, u, or use --sql"),
            ("", [], 1, "there is no table"), ("table,t,1\n1,put,t,x,1\n", [], 1, "record 2: Number: 1,put,t,x,1"),
            ("table,t,1\n1,put,t,1,1\n2,begin\n1,put,t,1,2\n2,put,t,1,1\n", [], 1, "record 5: refused,newer,2: 2,put,t,1,1"),
            ("table,t,1\n", ["--header", "a"], 1, "--header has 1 names, and the key and the columns of t are 2"),
            ("table,t,1\n", ["--header", "a,b", "--sql"], 2, "--header is of CSV"), ("table,t,1\n", ["--bytea"], 2, "--bytea of --sql"),
            ("", ["--from", "/nowhere"], 1, "no listener at /nowhere"),
            ("version,2\ntable,t,t\n1,put,t,3,\udcff\n", ["--sql"], 1, "t, key 3, column 1: b'\\xff' is no text to PostgreSQL (UTF-8"),
            ("version,2\ntable,t,t\n1,put,t,3,a\0\n", ["--sql"], 1, "t, key 3, column 1: b'a\\x00' is no text"),
        ]  # fmt: skip
        found = [call("export", *words, given=script.encode(errors="surrogateescape")) for script, words, _, _ in rows]
        for (script, words, wanted, part), (status, _, said) in zip(rows, found):
            self.assertEqual(status, wanted, (script, words))
            self.assertIn(part, said)
        self.assertIn("psql", run("export", "--help")[1].decode())


def postgres() -> "str | None":
    """The folder of PostgreSQL's server programs, which do not run as root."""
    folders = sorted(glob.glob("/usr/lib/postgresql/*/bin"))
    usable = folders and shutil.which("psql") and (os.geteuid() or shutil.which("runuser"))
    return folders[-1] if usable else None


@unittest.skipUnless(postgres(), "PostgreSQL's server is missing")
class Loaded(WithFiles):
    """What `tools/export --sql` writes, loaded by psql into a server of its own."""

    def as_user(self, *words: str) -> "list[str]":
        return ["runuser", "-u", "postgres", "--", *words] if os.geteuid() == 0 else [*words]

    def psql(self, *words: str, given: bytes = b"") -> str:
        words = ("psql", "-h", self.folder, "-d", "postgres", "-X", "-q", "-A", "-t", "-F", ",", "-v", "ON_ERROR_STOP=1", *words)
        done = subprocess.run(self.as_user(*words), input=given, capture_output=True, cwd="/")
        self.assertEqual((done.returncode, done.stderr), (0, b""))
        return done.stdout.decode()

    def setUp(self) -> None:
        super().setUp()
        if os.geteuid() == 0:
            shutil.chown(self.folder, "postgres")
        tools, data = postgres(), os.path.join(self.folder, "data")
        make = self.as_user(f"{tools}/initdb", "-D", data, "-N", "-A", "trust", "--locale=C", "-E", "UTF8")
        subprocess.run(make, check=True, stdout=subprocess.DEVNULL, cwd="/")
        options = f"-c listen_addresses= -c unix_socket_directories={self.folder} -c fsync=off"
        control = self.as_user(f"{tools}/pg_ctl", "-D", data, "-s", "-w")
        self.addCleanup(subprocess.run, [*control, "stop", "-m", "immediate"], cwd="/")
        subprocess.run([*control, "-o", options, "-l", os.path.join(self.folder, "log"), "start"], check=True, cwd="/")

    def test_as_postgresql_loads_it(self) -> None:
        rows = f'0,-{2**63},\n5,{2**63 - 1},"tab\t, back\\slash \\n \\. and\nlines\r"\n{2**64 - 1},0,é\n'
        script = call("import", "Order", self.file(rows))[1] + b"1,put,Order,7,7,\\.\n"
        status, sql, said = call("export", "--sql", given=script)
        self.assertEqual((status, said), (0, ""))
        self.psql("-f", "-", given=sql)
        shown = f"0,-{2**63},\n5,{2**63 - 1},tab\t, back\\slash \\n \\. and\nlines\r\n7,7,\\.\n{2**64 - 1},0,é\n"
        self.assertEqual(self.psql("-c", 'SELECT key, c1, c2 FROM "Order" ORDER BY key'), shown)
        bytea = call("export", "--sql", "--bytea", given=script)[1]
        self.psql("-c", 'DELETE FROM "Order" WHERE key > 9', "-c", 'ALTER TABLE "Order" ALTER key TYPE bigint', "-c", 'DROP TABLE "Order"')
        self.psql("-f", "-", given=bytea)
        self.assertEqual(self.psql("-c", "SELECT encode(c2, 'hex') FROM \"Order\" WHERE key = 7"), "5c2e\n")


if __name__ == "__main__":
    unittest.main()
