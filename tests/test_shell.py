#!/usr/bin/env python3
"""Tests tools/shell: on a pipe, on a terminal of its own (pty), and in tmux where there is one."""

from __future__ import annotations

import fcntl
import glob
import os
import pty
import random
import re
import select
import shutil
import signal
import subprocess
import sys
import tempfile
import termios
import time
import unittest

sys.dont_write_bytecode = True

import calling
from calling import ROOT, SECONDS, TOOLS

from explain import CODES, why_bad
from hybridgc import Live, program
from mirror import FORMS, PLAIN_FORMS, Mirror
from reader import completions
from rows import Paint, shown, table, width
from speak import version_lines
from typed import Unfinished, fields_in, record_in

SHELL = os.path.join(TOOLS, "shell")
ALL_BYTES = bytes(range(256)).replace(b'"', b'""')


def run(text: bytes | str, *words: str, **env: str) -> tuple[int, str, str]:
    """Runs the shell on a pipe. Returns its status, and what it printed on standard output and standard error."""
    status, out, said = calling.run("shell", *words, given=text.encode() if isinstance(text, str) else text, **env)
    return status, out.decode(errors="backslashreplace"), said


def pretty(text: bytes | str, *words: str) -> list[str]:
    """Returns the lines that the shell prints with --pretty."""
    status, out, err = run(text, "--pretty", *words)
    assert (status, err) == (0, ""), (status, out, err)
    return out.splitlines()


def answer_to(lines: list[str], record: str) -> list[str]:
    """Returns the lines between the prompt with this record and the next prompt."""
    at = next(i for i, line in enumerate(lines) if line.split("> ", 1)[1:] == [record])
    rest = lines[at + 1 :]
    end = next((i for i, line in enumerate(rest) if re.match(r"\d+[*~]?> ", line)), len(rest))
    return rest[:end]


class OnAPipe(unittest.TestCase):
    """Standard output has the records of `hybridgc live`, byte for byte."""

    def test_scripts_are_answered_as_by_live(self) -> None:
        """All examples, one after the other in one conversation, and then texts with any bytes in them."""
        texts = b'table,x,t\r\n\r\n1,begin\r1,commit\r1,put,x,9,"a\rb"\r1,put,x,1,"' + ALL_BYTES
        texts += b'"\n"1",get,x,"1"\n9,put,x,2,it\'s \\ a\n1,nonsense\n1,put,x,3,\xff\xfe\n1,scan,x,0,9\n1,put,x,4,"open'
        numbers = b""
        for path in sorted(glob.glob(f"{ROOT}/examples/*.csv")):
            with open(path, "rb") as script:
                numbers += script.read() + b"\n"
        for script in (numbers, b"version,2\n" + texts):
            live = subprocess.run([program(), "live"], input=script, capture_output=True, timeout=SECONDS)
            shell = subprocess.run([sys.executable, SHELL], input=b"\xef\xbb\xbf" + script, capture_output=True, timeout=SECONDS)
            self.assertEqual(shell.stdout, live.stdout)
            self.assertEqual((shell.returncode, shell.stderr), (0, b""))

    def test_commands_print_records_or_use_standard_error(self) -> None:
        status, out, err = run("table,t,2\n1,put,t,5,1,2\n\\tables\n\\versions\n\\gc group\n\\timing\n\\nothing\n\\quit\n1,get,t,5\n")
        totals = "total,made,1\ntotal,undone,0\ntotal,group,0\ntotal,table,0\ntotal,interval,0\ntotal,left,1\n"
        self.assertEqual(out, f"declared,1\n1,2,at,0,stored,committed,1\ntable,t,2\n{totals}holds,0\n1,4,swept,group,1,1,0\n{totals}")
        self.assertEqual(err.splitlines(), ["timing is on", "\\nothing is no command; \\help lists them"])
        self.assertEqual(status, 0)


class Typed(unittest.TestCase):
    """What a line becomes."""

    def test_forms_of_a_record(self) -> None:
        for line, wanted in (
            ("put t 5 20", b"3,put,t,5,20"),
            ("put,t,5,20", b"3,put,t,5,20"),
            ("1,put,t,5,20", b"1,put,t,5,20"),
            ("1 put t 5 20", b"1,put,t,5,20"),
            ("table t 2", b"table,t,2"),
            ("version 2", b"version,2"),
            ("totals", b"totals"),
            ("begin", b"3,begin"),
            ("  begin   a b ", b"3,begin,a,b"),
            ("put t 5 'a b'", b"3,put,t,5,a b"),
            ('put t 5 "a, b"', b'3,put,t,5,"a, b"'),
            ("put t 5 ''", b"3,put,t,5,"),
            ("put t 5 a,b", b'3,put,t,5,"a,b"'),
            ('put,t,5,"a ""b"""', b'3,put,t,5,"a ""b"""'),
            ("put t 5 'say \"x\"'", b'3,put,t,5,"say ""x"""'),
            ("put t 5 it\\'s", b"3,put,t,5,it's"),
            ("put,t,5,\udcff", b"3,put,t,5,\xff"),
            ("65,begin", b"65,begin"),
            ("-1 begin", b"-1,begin"),
            ("foo,t", b"3,foo,t"),
            ("'two\nlines'", b'3,"two\nlines"'),
        ):
            with self.subTest(line=line):
                self.assertEqual(record_in(line, 3), wanted)

    def test_an_open_quote_goes_on(self) -> None:
        for line in ("put t 5 'a", 'put t 5 "a', 'put,t,5,"a', "put t 5 a\\", '1,put,t,5,"a""'):
            with self.subTest(line=line), self.assertRaises(Unfinished):
                record_in(line, 1)
        lines = pretty('version 2\ntable t t\nput,t,1,"a\n\\quit\nb"\nput t 2 \'c\nd\'\nget t 1\nget t 2\n')
        self.assertIn("   > \\quit", lines)
        self.assertIn("   1 | a\\n\\\\quit\\nb".replace("\\\\", "\\"), lines)
        self.assertIn("   2 | c\\nd", lines)


class Pretty(unittest.TestCase):
    """What a terminal shows."""

    def test_prompts_rows_and_sentences(self) -> None:
        first = "table t 2\nbegin\nput t 5 7 -8\nput t 123456 1 2\nscan t 0 999999\ncommit\n"
        lines = pretty(first + "\\session 2\nopen t 0 9\nfetch 9\nclose\nget t 6\ndel t 6\ndel t 5\nbegin t\nrollback\ncommit\n")
        self.assertEqual(lines[:9], [
            "1> table t 2", "declared", "1> begin", "begun at snapshot 0", "1*> put t 5 7 -8", "stored", "1*> put t 123456 1 2", "stored",
            "1*> scan t 0 999999",
        ])
        self.assertEqual(lines[9:14], [" key    | v1 | v2", "--------+----+----", "      5 |  7 | -8", " 123456 |  1 |  2", "(2 rows)"])
        self.assertEqual(
            lines[14:20],
            ["1*> commit", "committed as group 1", "1> \\session 2", "2> open t 0 9", "cursor opened at snapshot 1", "2~> fetch 9"],
        )
        self.assertEqual(lines[22:26], ["   5 |  7 | -8", "(1 row; the range is at its end)", "2~> close", "cursor closed"])
        self.assertEqual(lines[26:32], [
            "2> get t 6", "no row (at snapshot 1)", "2> del t 6", "no row to delete (at snapshot 1)", "2> del t 5",
            "deleted as group 2 (at snapshot 1)",
        ])
        self.assertEqual(lines[32:36], ["2> begin t", "begun at snapshot 2", "2*> rollback", "rolled back"])
        self.assertEqual(lines[-1], "versions: 3 made, 0 undone, removed by group 0, table 2, interval 0; 1 left")

    def test_columns_line_up_whatever_is_in_them(self) -> None:
        text = b'version,2\ntable,t,tn\n1,put,t,1,"a,b",1\n'
        text += b'1,put,t,2,"\xff\x00\x1b[31m",-22\n'
        text += b'1,put,t,3,\xe6\x97\xa5\xe6\x9c\xac,3\n1,put,t,4,,4\n1,put,t,5,"e\xcc\x81""\r\n",5\n1,scan,t,0,9\n'
        rows = answer_to(pretty(text), "1,scan,t,0,9")
        self.assertEqual(rows[2:7], [
            "   1 | a,b              |   1",
            "   2 | \\xff\\x00\\x1b[31m | -22",
            "   3 | 日本             |   3",
            "   4 |                  |   4",
            '   5 | e\u0301"\\r\\n           |   5'])
        self.assertEqual({width(row[: row.rindex("|")]) for row in rows[2:7]}, {24})

    def test_a_narrow_terminal_cuts_cells_and_then_lists_fields(self) -> None:
        long = ["x" * 60, "y" * 60]
        self.assertEqual(max(map(width, table(["key", "v1", "v2"], [["1", *long]], 50, [True, False, False]))), 50)
        self.assertEqual(
            table(["key", "v1", "v2"], [["1", *long]], 20, [True, False, False])[:3], ["-- row 1 --", "key | 1", "v1  | " + "x" * 13 + "…"],
        )
        self.assertEqual(shown("tab\t, line\n, byte \udc80, é"), "tab\\t, line\\n, byte \\x80, é")

    def test_refusals_say_what_to_do(self) -> None:
        lines = pretty("table t 1\ntable u 1\nbegin t\n2 begin\n2 put t 5 1\nput t 5 2\n3 put t 5 3\nput u 1 1\n2 commit\nput t 5 4\n")
        said = {record: " ".join(answer_to(lines, record)) for record in ("put t 5 2", "3 put t 5 3", "put u 1 1", "put t 5 4")}
        self.assertRegex(
            said["put t 5 2"],
            r"^refused \(open\): session 2 has written this key in its transaction 1, which is still open; try again after .*; if it commits, ",
        )
        self.assertRegex(said["3 put t 5 3"], r"^refused \(open\): session 2 .* try again after its commit or rollback\.$")
        self.assertRegex(said["put u 1 1"], r"^refused \(undeclared\): this transaction declared t, and not u\. .*begin again with it\.$")
        self.assertRegex(said["put t 5 4"], r"^refused \(newer\): group 1 wrote this key after the snapshot .* roll back and begin again")

    def test_versions_gc_and_tables(self) -> None:
        puts = "version 2\ntable t nt\n\\tables\nput t 1 1 a\n2 begin\nput t 1 2 b\nput t 1 3 c\n"
        lines = pretty(puts + "\\versions\n\\gc interval\n\\v\n\\gc\ntotals\n")
        self.assertEqual(
            answer_to(lines, "\\tables"), [" table | columns", "-------+-------------------------", " t     | 2 columns: number, text"],
        )
        first, then = answer_to(lines, "\\versions"), answer_to(lines, "\\v")
        self.assertEqual(
            [re.split(r"\s{2,}|\s█", line.strip())[0] for line in first],
            ["versions held", "since the start", "made", "undone", "removed: group", "removed: table", "removed: interval"],
        )
        self.assertEqual((first[0].split()[2], first[2].split()[1]), ("3", "3"))
        self.assertEqual((first[0].count("█"), first[2].count("█"), first[3].count("█")), (60, 60, 0))
        self.assertEqual([re.sub(r"\s*█+$", "", re.sub(r"\s+", " ", line)) for line in then], [
            "versions held 2", "versions held before 3", "since the last look", " made 0", " undone 0",
            " removed: group 0", " removed: table 0", " removed: interval 1"])
        self.assertEqual([line.count("█") for line in then], [40, 60, 0, 0, 0, 0, 0, 20])
        self.assertEqual(
            answer_to(lines, "\\gc interval"),
            ["interval collector: removed 1 version; newest group 3, horizon 3", "  session 2 holds snapshot 1"],
        )
        self.assertEqual(sum("collector: removed" in line for line in answer_to(lines, "\\gc")), 3)
        self.assertEqual(answer_to(lines, "totals")[:1], ["versions: 3 made, 0 undone, removed by group 0, table 0, interval 1; 2 left"])

    def test_a_small_count_still_has_a_bar(self) -> None:
        totals = {"made": 100_000, "undone": 1, "group": 0, "table": 0, "interval": 0, "left": 99_999}
        bars = [line.split()[-1] for line in version_lines(totals, None, 80, Paint(False))]
        self.assertEqual((bars[3], bars[4]), ("▏", "0"))

    def test_timing_help_session_and_mistakes(self) -> None:
        lines = pretty(
            "\\timing\ntable t 1\n\\timing\n\\help\n\\help put\n\\help x\n"
            "\\session 65\n\\session x\n\\load\n\\s\n\\\n\\load 'a\n2 begin t\n3 open t 0 9\n\\session\n",
            "--rounds", "0",
        )
        self.assertRegex(answer_to(lines, "table t 1")[1], r"^time: \d+\.\d{3} ms$")
        helped = "\n".join(answer_to(lines, "\\help"))
        for form in (
            *FORMS.values(), *PLAIN_FORMS.values(), "\\session [N]", "\\tables", "\\gc [KIND]", "\\versions", "\\load FILE", "\\save FILE",
            "\\timing", "\\help [WORD]", "\\quit",
        ):
            self.assertIn(f"  {form}", helped)
        self.assertEqual(answer_to(lines, "\\help put")[0], "  put TABLE KEY VALUE ..  sets the row of a key, with a value for each column")
        self.assertEqual(answer_to(lines, "\\session 65"), ["65 is no session: they are numbered from 1 to 64"])
        self.assertEqual(answer_to(lines, "\\load"), ["it is written \\load FILE"])
        self.assertEqual(answer_to(lines, "\\s"), ["\\s can be \\session or \\save"])
        self.assertEqual(answer_to(lines, "\\load 'a"), ["a quote is open in this command"])
        self.assertEqual(
            answer_to(lines, "\\session"),
            ["session 1", "  session 2 has a transaction on t open", "  session 3 has a cursor on t open", *lines[-3:]],
        )
        self.assertEqual(lines[-3:-1], ["rolled back at the end: what is open in session 2", "closed at the end: the cursor of session 3"])

    def test_a_version_that_comes_late_begins_again_if_nothing_is_lost(self) -> None:
        self.assertEqual(answer_to(pretty("typo\n\\v\nversion 2\n"), "version 2")[0], "declared")
        self.assertRegex(
            answer_to(pretty("table t 1\nversion 2\n"), "version 2")[0], r"^bad record \(Word\): a version record can only be the first",
        )


class Bad(unittest.TestCase):
    """Each code, as the program gives it, is explained by what is wrong with the record."""

    NUMBERS = ("table,t,2", "table,u,1", "1,begin", "2,open,t,0,9")
    TEXTS = ("version,2", "table,t,tn", "1,put,t,1,a,1")
    CASES = (
        (NUMBERS, "1,foo", "Word", "no word `foo`. The words of a session are begin, get,"),
        (NUMBERS, "1", "Word", "no word follows `1`"),
        (NUMBERS, "version,2", "Word", "can only be the first record"),
        (NUMBERS, "1,put,t", "Fields", "`put` is written `put TABLE KEY VALUE ..`, with 1 to 8 values: `t` has 2 numbers"),
        (NUMBERS, "1,get,t", "Fields", "`get` is written `get TABLE KEY`."),
        (NUMBERS, "1,gc", "Fields", "`gc` is written `gc KIND`: KIND is group, table or interval."),
        ((), "table,t", "Fields", "`table` is written `table NAME COLUMNS`: COLUMNS is a number from 1 to 8"),
        (NUMBERS, "x,get,t,1", "Number", "the session `x` is not a number"),
        (NUMBERS, "1,get,t,01", "Number", "the key `01` is not a number"),
        (NUMBERS, "1,put,t,1,-0,2", "Number", "the value `-0` is not a number"),
        (NUMBERS, "1,scan,t,0,-9", "Number", "the high end `-9` is not a number"),
        ((), "table,t,tn", "Number", "the columns `tn` is not a number"),
        ((), "table,t,tn", "Number", "`version 2` has to be the first record"),
        ((), "version,3", "Range", "the version `3` is not 2"),
        (NUMBERS, "65,begin", "Range", "the session `65` is not from 1 to 64"),
        (NUMBERS, "1,get,t,18446744073709551616", "Range", "the key `18446744073709551616` is not from 0 to 18446744073709551615"),
        (NUMBERS, "1,put,t,1,9223372036854775808,1", "Range", "is not from -9223372036854775808 to 9223372036854775807"),
        (NUMBERS, "2,fetch,0", "Range", "the number of rows `0` is not from 1 to 1048576"),
        (("version,2",), "table,t,tx", "Range", "1 to 8 letters, `n` for a number and `t` for a text; `tx` is not that"),
        ((), "table,t,9", "Range", "the columns `9` is not from 1 to 8"),
        (NUMBERS, "1,get,x,1", "Name", "no table `x`. The tables are t and u"),
        (NUMBERS, "3,begin,t,x", "Name", "no table `x`"),
        ((), "1,get,x,1", "Name", "no table `x`, and no other one. Declare it"),
        (NUMBERS, "1,gc,all", "Name", "no collector `all`. The collectors are group, table and interval"),
        (("table,t,1",), "table,t,1", "Name", "the table `t` is declared already, with 1 number"),
        ((), "table,a-b,1", "Name", "`a-b` is no name for a table: a name has 1 to 32 letters"),
        (NUMBERS, "1,put,t,1,2", "Columns", "this put has 1 value, and the table `t` has 2 numbers."),
        (TEXTS, "1,put,t,1,a,b", "Value", "column v2 of `t` holds numbers, and `b` is not one"),
        (TEXTS, "1,put,t,1,a,9223372036854775808", "Value", "is not from -9223372036854775808 to"),
        (TEXTS, "1,put,t,1," + "é" * 33 + ",1", "Value", "the text for column v1 has 66 bytes, and a text has at most 64"),
        (NUMBERS, "1,begin", "Order", "session 1 is in a transaction. `commit` or `rollback` ends it"),
        (NUMBERS, "3,commit", "Order", "session 3 is in no transaction. `begin` begins one"),
        (NUMBERS, "1,fetch,1", "Order", "session 1 has no cursor open"),
        (NUMBERS, "2,get,t,1", "Order", "session 2 has a cursor open on `t`: until its `close`"),
        (NUMBERS, "table,v,1", "Order", "declared before the first statement"),
        (tuple(f"table,t{i},1" for i in range(64)), "table,u,1", "Count", "there are 64 tables already"),
    )

    def test_each_code(self) -> None:
        for before, record, code, phrase in self.CASES:
            with self.subTest(record=record):
                live, mirror = Live(), Mirror()
                for each in before:
                    live.send(each.encode())
                    self.assertNotEqual(live.answer()[0][:3], b"bad")
                    mirror.take(fields_in(each.encode()))
                live.send(record.encode())
                self.assertEqual(live.answer(), [b"bad,%d,%b" % (len(before) + 1, code.encode())])
                self.assertIn(phrase, why_bad(code, fields_in(record.encode()), mirror))
                live.kill()
        self.assertLessEqual(set(CODES) - {"Long"}, {code for _, _, code, _ in self.CASES})
        self.assertIn("at most 1,048,576 bytes", why_bad("Long", ["1", "x"], Mirror()))

    def test_whatever_is_sent_is_explained(self) -> None:
        """Records of words and values by chance, in conversations of both versions: no explanation fails or stays general."""
        chance, explained = random.Random(1), set()
        fields = (
            "1", "2", "3", "65", "x", "", "-0", "01", "t", "u", "v", "a-b", "group", "18446744073709551616", "é" * 40, "tn", "0", "9",
            *FORMS, *PLAIN_FORMS,
        )
        for version in (1, 2):
            live, mirror = Live(), Mirror()
            for place in range(1, 1201):
                words = [chance.choice(fields) for _ in range(chance.choice((1, 2, 3, 3, 4, 4, 5, 5, 6, 7)))]
                if len(words) > 1 and chance.random() < 0.9:
                    words = [
                        chance.choice("123"), chance.choice(tuple(FORMS)), *[chance.choice("tuv") for _ in words[2:3]],
                        *(chance.choice((it, "0")) for it in words[3:]),
                    ]
                if place < 4:
                    words = (f"version,{version}", f"table,t,{('2', 'tn')[version - 1]}", f"table,u,{('1', 'n')[version - 1]}")[place - 1].split(",")
                answer = live.ask(*words)[0].decode().split(",")
                if answer[0] == "bad":
                    why = why_bad(answer[2], words, mirror)
                    self.assertNotRegex(why, "^(a field that has|a number is out|a column cannot|the record breaks)", words)
                    explained.add(answer[2])
                    mirror.hear()
                else:
                    mirror.take(words)
            live.kill()
        self.assertEqual(explained, set(CODES) - {"Count", "Long"})

    def test_the_shell_says_it(self) -> None:
        lines = pretty("table t 2\nput t 1 2\n")
        self.assertEqual(lines[3], "bad record (Columns): this put has 1 value, and the table `t` has 2 numbers.")


class Files(unittest.TestCase):
    """\\load and \\save."""

    def setUp(self) -> None:
        folder = tempfile.TemporaryDirectory()
        self.addCleanup(folder.cleanup)
        self.folder = folder.name

    def path(self, name: str, text: bytes | None = None) -> str:
        path = os.path.join(self.folder, name)
        if text is not None:
            with open(path, "wb") as file:
                file.write(text)
        return path

    def test_what_is_saved_restores_the_rows(self) -> None:
        """Texts with any bytes, more rows than one fetch, and what is not committed left out."""
        texts = ((key, ALL_BYTES[key % 190 : key % 190 + 60].replace(b'"', b"")) for key in range(2500))
        puts = b"".join(b'1,put,t,%d,"%b",%d\n' % (key, text, -key) for key, text in texts)
        script = b"version,2\ntable,t,tn\ntable,u,t\n" + puts + b'1,put,u,18446744073709551615,""""\n1,del,t,7\n'
        path, saved = self.path("in.csv", script), self.path("a b.csv")
        lines = pretty(f"\\load {path}\nbegin\nput t 3 x 3\n\\save '{saved}'\n2 open u 0 9\n\\save '{saved}.2'\n")
        self.assertRegex(lines[1], r": 2505 records in \d+\.\d\d s: 2505 answered, 0 refused, 0 bad$")
        self.assertRegex(
            " ".join(answer_to(lines, f"\\save '{saved}'")),
            r": 2 tables and 2500 rows, \d+ bytes; what is not committed is not in it, and a transaction is open in session 1$",
        )
        with open(saved, "rb") as first, open(f"{saved}.2", "rb") as second:
            text = first.read()
            self.assertEqual(text, second.read())
        read = b"1,scan,t,0,18446744073709551615\n1,scan,u,0,18446744073709551615\n"
        with open(path, "rb") as file:
            scripts = [file.read() + read, text + read]
        rows = []
        for script in scripts:
            done = subprocess.run([program(), "replay"], input=script, stdout=subprocess.PIPE, check=True, timeout=SECONDS)
            rows.append(re.sub(rb"(?m)^1,\d+,(at,\d+,)?", b"", done.stdout[done.stdout.index(b"rows,") :].partition(b"total,")[0]))
        self.assertEqual(*rows)

    def test_a_summary_names_the_first_that_fail(self) -> None:
        script = b'table,t,1\n1,begin\n1,put,t,1,1\n\n2,put,t,1,2\n2,get,x,"\n\n1"\n2,put,t,1\n' + b"2,begin,y\n" * 6 + b"2,put,t,1,3"
        lines = pretty(f"\\load {self.path('s.csv', script)}\n\\load {self.path('s.csv')}\n")
        self.assertRegex(lines[1], r"^\S*/s.csv: 13 records in .* s: 3 answered, 2 refused, 8 bad$")
        summary = " ".join(line.strip() for line in answer_to(lines, f"\\load {self.path('s.csv')}"))
        self.assertIn("bad refused: open 2 line 5: 2,put,t,1,2: session 1 has written this key in its transaction 1,", summary)
        self.assertIn("commit or rollback. line 16: 2,put,t,1,3: session 1 has written", summary)
        self.assertIn(
            "commit or rollback. bad: Name 6, Number 1, Fields 1 line 6: 2,get,x,\"\\n\\n1\": the key `\\n\\n1` is not a number", summary,
        )
        self.assertIn(
            "line 9: 2,put,t,1: `put` is written `put TABLE KEY VALUE ..`, with 1 to 8 values: `t` has 1 number. line 10: 2,begin,y:",
            summary,
        )
        self.assertRegex(summary, r"line 12: 2,begin,y: there is no table `y`\. The tables are t\. and 3 more$")
        self.assertRegex(
            "\n".join(lines[3:]), r"13 records in .* s: 1 answered, 2 refused, 9 bad, 1 left out: declared\s+already\nrefused: open 2\n",
        )

    def test_scripts_of_either_version(self) -> None:
        """One of version 1 goes into a conversation of version 2, and one of version 2 into a conversation in which nothing was done."""
        one = self.path("1.csv", b"\xef\xbb\xbftable,a,2\r\n1,put,a,1,2,3\r\n")
        two = self.path("2.csv", b"version,2\ntable,b,t\n1,put,b,1,x")
        self.assertRegex(
            "\n".join(pretty(f"version 2\n\\load {one}\n\\tables\nget a 1\n")),
            r"2 records in .*: 2 answered, 0 refused, 0 bad\n(?s:.*)a     \| 2 numbers\n",
        )
        self.assertRegex(
            "\n".join(pretty(f"typo\n\\load {two}\nget b 1\n")), r"3 records in .*: 3 answered, 0 refused, 0 bad\n(?s:.*)   1 \| x\n",
        )
        self.assertRegex("\n".join(pretty("get b 1\n", two)), r"3 answered, 0 refused, 0 bad\n(?s:.*)   1 \| x\n")

    def test_files_that_cannot_be_read_or_written(self) -> None:
        loads = f"\\load {self.path('none')}\n\\load {self.folder}\n\\load {self.path('empty', b'')}\n"
        lines = pretty(loads + f"\\save {self.path('none/x')}\n\\save {self.folder}\ntable t 1\nput t 1 1\n\\save /dev/full/x\n")
        self.assertEqual(
            answer_to(lines, f"\\load {self.path('none')}"), [f"{self.path('none')} cannot be read: No such file or directory"],
        )
        self.assertEqual(answer_to(lines, f"\\load {self.folder}"), [f"{self.folder} cannot be read: Is a directory"])
        self.assertRegex(answer_to(lines, f"\\load {self.path('empty')}")[0], ": 0 records in .*: 0 answered, 0 refused, 0 bad")
        self.assertEqual(
            answer_to(lines, f"\\save {self.path('none/x')}"), [f"{self.path('none/x')} is not written: No such file or directory"],
        )
        self.assertEqual(answer_to(lines, f"\\save {self.folder}"), [f"{self.folder} is not written: Is a directory"])
        self.assertEqual(sorted(os.listdir(self.folder)), ["empty"])
        self.assertEqual(os.path.exists(f"{self.folder}.unfinished"), False)

    def test_no_session_is_free_to_save(self) -> None:
        begins = "".join(f"{session} begin\n" for session in range(1, 65))
        lines = pretty(f"table t 1\n{begins}\\save {self.path('x')}\n64 rollback\n\\save {self.path('x')}\n")
        self.assertIn(
            "each of the 64 sessions has a transaction or a cursor open; end one first",
            " ".join(answer_to(lines, f"\\save {self.path('x')}")),
        )
        self.assertEqual(os.listdir(self.folder), ["x"])


class Ends(unittest.TestCase):
    """The program ends by itself, or does not begin."""

    def program(self, script: str) -> str:
        """Makes a program of a shell script, in place of hybridgc."""
        with tempfile.NamedTemporaryFile("w", suffix=".sh", delete=False) as file:
            file.write(f"#!/bin/sh\n{script}\n")
        os.chmod(file.name, 0o755)
        self.addCleanup(os.unlink, file.name)
        return file.name

    def test_it_is_said_plainly(self) -> None:
        for script, status, said in (
            (
                "read x; echo declared,1; read x; kill -9 $$", 1,
                r"ended by signal 9 \(SIGKILL\), perhaps because the machine ran out of memory\. What it held is lost",
            ),
            ("read x; echo declared,1; read x; kill -SEGV $$", 1, r"ended by signal 11 \(SIGSEGV\)\. What it held is lost"),
            (
                "read x; echo declared,1; read x; echo out of memory >&2; exit 7", 1,
                "the program ran out of memory at this record, which is not answered. What it held",
            ),
            ("echo usage: hybridgc replay >&2; exit 2", 2, "takes other words, or has no mode `live`: usage: hybridgc replay"),
            ("exit 0", 1, r"the program ended with status 0\. What it held is lost"),
        ):
            with self.subTest(said=said):
                found, out, err = run("table t 1\nget t 1\nget t 2\n", HYBRIDGC=self.program(script))
                self.assertEqual(found, status)
                self.assertRegex(err, f"^tools/shell: .*{said}")
                self.assertEqual(len(err.splitlines()), 1)

    def test_a_load_says_how_far_it_came(self) -> None:
        """The program dies at the 1,001st put: answers come for two turns of 500 records."""
        answers = "while [ $i -le 1001 ]; do read x; echo 1,$i,at,0,stored,committed,$i; i=$((i + 1)); done"
        path = self.program(f"read x; echo declared,1; i=2; {answers}; kill -9 $$")
        with tempfile.NamedTemporaryFile("w", suffix=".csv") as script:
            script.write("table,t,1\n" + "1,put,t,1,1\n" * 2000)
            script.flush()
            status, out, err = run("", "--pretty", script.name, HYBRIDGC=path)
        self.assertEqual(status, 1)
        self.assertRegex(" ".join(out.split()), r": 1001 records in .* s: 1001 answered, 0 refused, 0 bad$")
        self.assertIn("ended by signal 9 (SIGKILL)", err)

    def test_words_that_are_wrong(self) -> None:
        self.assertEqual(run("", HYBRIDGC="/none"), (1, "", "tools/shell: HYBRIDGC names /none, which is no program\n"))
        self.assertEqual(run("", "--nothing")[0], 2)
        self.assertEqual(run("", "--buckets", "0")[0], 2)
        status, out, _ = run("", "--help")
        self.assertEqual(status, 0)
        self.assertIn("If standard input or output is no terminal, there is no prompt.", out)


class Words(unittest.TestCase):
    """Completion."""

    def test_completions(self) -> None:
        mirror = Mirror()
        for record in ("table,stock,1", "table,price,1", "2,begin", "12,open,stock,0,9"):
            mirror.take(record.split(","))
        path = os.path.join(ROOT, "examp")
        for before, text, wanted in (
            ("", "pu", ["put "]),
            ("", "c", ["close ", "commit "]),
            ("", "1", ["12 "]),
            ("", "\\s", ["\\save ", "\\session "]),
            ("", "t", ["table ", "totals "]),
            ("get ", "s", ["stock "]),
            ("get ", "", ["price ", "stock "]),
            ("get stock ", "", []),
            ("begin price ", "s", ["stock "]),
            ("2 get ", "p", ["price "]),
            ("2,get,", "p", ["price,"]),
            ("2,", "ge", ["get,"]),
            ("gc ", "", ["group ", "interval ", "table "]),
            ("\\gc ", "i", ["interval "]),
            ("\\session ", "", ["12 ", "2 "]),
            ("\\help ", "pu", ["put "]),
            ("\\load ", f"{path}les/fi", [f"{path}les/first.csv", f"{path}les/first.out"]),
            ("\\save ", path, [f"{path}les/"]),
        ):
            with self.subTest(before=before, text=text):
                self.assertEqual(completions(before, text, mirror), wanted)


class OnATerminal(unittest.TestCase):
    """A terminal of the test's own: keys go in, and what is printed comes out."""

    def setUp(self) -> None:
        folder = tempfile.TemporaryDirectory()
        self.addCleanup(folder.cleanup)
        self.state = folder.name

    def begin(self, *words: str, **env: str) -> None:
        """Begins the shell on a new terminal."""
        self.master, slave = pty.openpty()
        settings = {**os.environ, "TERM": "xterm", "XDG_STATE_HOME": self.state, "COLUMNS": "80", "INPUTRC": "/dev/null", **env}
        settings = {name: value for name, value in settings.items() if value}
        self.process = subprocess.Popen(
            [sys.executable, SHELL, *words], stdin=slave, stdout=slave, stderr=slave, env=settings, start_new_session=True,
            preexec_fn=self.take_terminal,
        )
        os.close(slave)
        self.addCleanup(os.close, self.master)
        self.addCleanup(self.process.wait)
        self.addCleanup(self.process.kill)
        self.text = ""

    def take_terminal(self) -> None:
        """Makes the terminal that of the new process, and Ctrl-C what it is for any program there."""
        fcntl.ioctl(0, termios.TIOCSCTTY, 0)
        signal.signal(signal.SIGINT, signal.SIG_DFL)

    def keys(self, keys: str, wanted: str) -> None:
        """Types keys, and waits until what is wanted is printed after them."""
        begun, end = len(self.text), time.monotonic() + SECONDS
        os.write(self.master, keys.encode())
        while not re.search(wanted, self.text[begun:]):
            ready = select.select([self.master], [], [], max(end - time.monotonic(), 0))[0]
            self.assertTrue(ready, f"{keys!r}: {self.text[begun:]!r} has no {wanted!r}")
            try:
                self.text += os.read(self.master, 65536).decode(errors="replace")
            except OSError:
                self.assertRegex(self.text[begun:], wanted)
                return

    def interrupt(self, wanted: str) -> None:
        """Types Ctrl-C once the shell waits for a key: readline sees a signal that comes before only at the next key."""
        end = time.monotonic() + SECONDS
        while self.is_running():
            self.assertLess(time.monotonic(), end, "the shell does not wait for a key")
            time.sleep(0.01)
        self.keys("\x03", wanted)

    def is_running(self) -> bool:
        with open(f"/proc/{self.process.pid}/stat") as stat:
            return stat.read().rsplit(")", 1)[1].split()[0] != "S"

    def test_keys_colours_completion_and_history(self) -> None:
        self.begin(NO_COLOR="")
        self.keys("", r"1> ")
        self.keys("tab\tt 1\r", r"declared[\r\n]+(?s:.*)1> ")
        self.keys("beg\t\r", r"begun at snapshot 0(?s:.*)\x1b\[33m1\*> ")
        self.keys("put t 5", r"put t 5")
        self.interrupt(r"\^C(?s:.*)1\*> ")
        self.keys("2 put t 5\r", r"\x1b\[31mbad record \(Fields\):\x1b\[0m")
        self.keys("rollback\r", "rolled back(?s:.*)1> ")
        self.keys("op\tt 0 9\r", r"cursor opened(?s:.*)\x1b\[36m1~> ")
        self.keys("\x04", "closed at the end: the cursor of session 1(?s:.*)versions: 0 made")
        self.assertEqual(self.process.wait(SECONDS), 0)
        history = os.path.join(self.state, "hybridgc", "shell_history")
        with open(history) as lines:
            self.assertEqual(lines.read().splitlines(), ["table t 1", "begin ", "2 put t 5", "rollback", "open t 0 9"])
        self.assertEqual(os.stat(history).st_mode & 0o777, 0o600)
        self.begin(NO_COLOR="1")
        self.keys("", r"1> ")
        self.keys("\x1b[A\x1b[A\x1b[A\x1b[A\x1b[A\r", r"table t 1\r\n(?:.*\r\n)?declared(?s:.*)1> ")
        self.keys("\\quit\r", "versions: 0 made")
        self.assertNotRegex(self.text, r"\x1b\[[0-9]+m")

    def test_a_history_that_cannot_be_kept(self) -> None:
        self.begin(XDG_STATE_HOME="/dev/null", NO_COLOR="1")
        self.keys("", r"1> ")
        self.keys("table t 1\r", r"declared\s+1> ")
        self.keys("\x04", "versions: 0 made")
        self.assertEqual(self.process.wait(SECONDS), 0)

    def test_several_lines_are_pasted(self) -> None:
        """A terminal marks what is pasted, and readline takes it as one line with line ends in it."""
        self.begin(NO_COLOR="1", XDG_STATE_HOME="/dev/null")
        self.keys("", r"1> ")
        self.keys("\x1b[200~table t 1\rbegin\rput t 5 7\x1b[201~\r", r"declared\s+begun at snapshot 0\s+stored\s+1\*> ")

    def test_plain_records_on_a_terminal(self) -> None:
        self.begin("--plain", NO_COLOR="1")
        self.keys("", r"1> ")
        self.keys("table t 1\r", r"declared,1\s+1> ")
        self.keys("begin\r", r"1,2,begun,0\s+1\*> ")
        self.keys("\x04", r"total,made,0\s+total,undone,0")

    def test_control_c_ends_neither_the_program_nor_a_load(self) -> None:
        path = os.path.join(self.state, "long.csv")
        with open(path, "w") as file:
            file.write("table,t,1\n" + "".join(f"1,put,t,{key},1\n" for key in range(300_000)))
        self.begin(NO_COLOR="1")
        self.keys("", r"1> ")
        os.write(self.master, f"\\load {path}\r".encode())
        time.sleep(0.5)
        self.keys("\x03", r"stopped; what was sent before is done(?s:.*)answered, 0 refused, 0\s+bad\s+1> ")
        self.keys("get t 0\r", r"\(1 row, at snapshot \d+\)")


@unittest.skipUnless(shutil.which("tmux"), "tmux is missing (apt-get install tmux)")
class InTmux(unittest.TestCase):
    """The screen of a real terminal program."""

    def setUp(self) -> None:
        folder = tempfile.TemporaryDirectory()
        self.addCleanup(folder.cleanup)
        self.tmux = ["tmux", "-S", os.path.join(folder.name, "socket"), "-f", "/dev/null"]
        settings = [
            "env", f"HYBRIDGC={program()}", f"XDG_STATE_HOME={folder.name}", "INPUTRC=/dev/null", "LC_ALL=C.UTF-8", sys.executable, SHELL,
        ]
        # readline, which the shell's modules load here too, sets COLUMNS for processes that get no environment of their own.
        subprocess.run([*self.tmux, "-u", "new-session", "-d", "-x", "60", "-y", "24", *settings], check=True, env=dict(os.environ))
        self.addCleanup(subprocess.run, [*self.tmux, "kill-server"], stderr=subprocess.DEVNULL)

    def test_the_screen(self) -> None:
        for keys, wanted in (
            ((), "1>"), (("version 2", "Enter"), "declared\n1>"), (("tab", "Tab", "t tn", "Enter"), "1> table t tn\ndeclared\n1>"),
            (("put t 1 'Lovelace, Ada' 1815", "Enter"), "stored as group 1 (at snapshot 0)\n1>"), (("begin", "Enter"), "1*>"),
            (
                ("scan ", "Tab", "0 9", "Enter"),
                " key | v1            | v2\n-----+---------------+------\n   1 | Lovelace, Ada | 1815\n(1 row)\n1*>",
            ),
            (("commit", "Enter"), "ended; nothing was written\n1>"),
            (
                ("foo", "Enter"),
                "word `foo`. The words of a\nsession are begin, get, put, del, scan, open, fetch, close,\ncommit, rollback and gc.\n1>",
            ),
        ):
            for key in keys:
                subprocess.run([*self.tmux, "send-keys", *([] if key in ("Tab", "Enter") else ["-l"]), key], check=True)
            self.wait_for(wanted)

    def wait_for(self, wanted: str) -> None:
        """Waits until the screen ends in what is wanted."""
        end = time.monotonic() + SECONDS
        screen = ""
        while time.monotonic() < end:
            screen = subprocess.run([*self.tmux, "capture-pane", "-p"], stdout=subprocess.PIPE, text=True).stdout
            if "\n".join(line.rstrip() for line in screen.splitlines()).strip().endswith(wanted):
                return
            time.sleep(0.02)
        self.fail(f"the screen does not end in {wanted!r}:\n{screen}")


if __name__ == "__main__":
    unittest.main()
