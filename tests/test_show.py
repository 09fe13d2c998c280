#!/usr/bin/env python3
"""Tests tools/show."""

from __future__ import annotations

import csv
import io
import json
import os
import random
import subprocess
import sys
import tempfile
import unittest
import xml.etree.ElementTree as xml

sys.dont_write_bytecode = True

import calling
from calling import ROOT, SECONDS

from answers import replies_of, totals_of
from charts import bar, curve, ticks
from columns import lines_of
from held import AS_WRITTEN, curves_of
from hybridgc import Framer, Live, program
from order import READS_AND_WRITES, Step, in_commit_order
from rows import Paint, width
from typed import fields_in, numbered_records

TEXTS = b'''version,2
table,t,tn
1,put,t,1,"a, ""b""",-7
2,begin
2,put,t,2,"two
lines",1
2,put,t,3,\xff\x00\xc3\xa9\xe6\x97\xa5,2
2,put,t,4,,3
2,put,t,5,'it''s \\,4
2,scan,t,0,9
1,get,t,1
1,get,t,2
1,open,t,0,9
1,fetch,5
'''


def run(*words: str, source: bytes = b"", **env: str) -> tuple[int, str, str]:
    """Runs the command. Returns its status, and what it printed on standard output and standard error."""
    status, out, said = calling.run("show", *words, given=source, **env)
    return status, out.decode("utf-8", "surrogateescape"), said


def shown(*words: str, source: bytes = b"") -> list[str]:
    """Returns the lines that the command prints."""
    status, out, err = run(*words, source=source)
    assert (status, err) == (0, ""), (status, out, err)
    return out.splitlines()


def call(mode: str, script: bytes) -> list[bytes]:
    """Returns the records that the program prints for a script."""
    done = subprocess.run([program(), *mode.split()], input=script, stdout=subprocess.PIPE, check=True, timeout=SECONDS)
    return Framer().feed(done.stdout)


def steps_of(script: bytes, text: list[bytes]) -> list[Step]:
    """Returns the records of a script with their replies."""
    by_place = {reply.place: reply for reply in replies_of(map(fields_in, text)) if reply.session}
    records = [fields_in(record) for _, record in numbered_records(script.splitlines(keepends=True))]
    return [Step(place, int(fields[0]) if place in by_place else 0, fields, by_place.get(place)) for place, fields in enumerate(records, 1)]


def contended(seed: int, statements: int, sessions: int = 6) -> bytes:
    """Makes a script of sessions that write the same few keys."""
    chance, lines, opened = random.Random(seed), ["table,t,1", "table,u,1"], set()
    for _ in range(statements):
        session = chance.randint(1, sessions)
        words = [
            f"put,t,{chance.randrange(4)},{chance.randrange(99)}", f"get,u,{chance.randrange(4)}", f"del,u,{chance.randrange(4)}",
            f"put,u,{chance.randrange(4)},5",
        ]
        words += ["commit", "commit", "rollback"] if session in opened else ["begin", "begin,t"]
        word = chance.choice(words)
        opened = opened | {session} if word.startswith("begin") else opened - {session} if word in ("commit", "rollback") else opened
        lines.append(f"{session},{word}")
    return "\n".join(lines).encode() + b"\n"


class Columns(unittest.TestCase):
    """A script beside its replies."""

    def test_beside_below_and_listed(self) -> None:
        path = os.path.join(ROOT, "examples", "lost_update.csv")
        wide, narrow = (shown("--width", str(columns), path) for columns in (100, 60))
        listed = shown("--width", "40", os.path.join(ROOT, "examples", "cursor.csv"))
        self.assertEqual(wide[0], "    session 1" + " " * 34 + "│ session 2")
        self.assertEqual(
            wide[1:4],
            [" 1  table account 1", " 2  put account 7 100  at 0 stored committed 1 │", " 3  begin              begun 1                 │"],
        )
        self.assertEqual(wide[8], " 8" + " " * 45 + "│ put account 7 90   refused open 1 2")
        self.assertEqual(
            narrow[2:5], [" 2  put account 7 100         │", "      at 0 stored committed 1 │", " 3  begin                     │"],
        )
        self.assertEqual(narrow[14:16], [" 8" + " " * 28 + "│ put account 7 90", " " * 30 + "│   refused open 1 2"])
        self.assertEqual(listed[:5], [
            "    S   statement and reply", " 1  table stock 1", " 2  table log 1", " 3  1   put stock 1 10   at 0 stored",
            " " * 25 + "committed 1",
        ])
        for lines in (wide, narrow):
            self.assertEqual(lines[-1], "versions: 3 made, 0 undone, removed by group 0, table 2, interval 0; 1 left")

    def test_any_texts_at_any_width(self) -> None:
        """No line is too wide, and all that was written is there."""
        for columns in (40, 58, 80, 120, 400):
            lines = shown("--width", str(columns), "-", source=TEXTS)
            with self.subTest(columns=columns):
                self.assertLessEqual(max(map(width, lines[:-3])), columns)
                whole = "".join("".join(line.replace("│", " ").split()) for line in lines)
                for part in ("'a,\"b\"'", "'two\\nlines'", "\\xff\\x00é日", "putt4''3", "it", "s\\", "rows5", "rows1"):
                    self.assertIn(part, whole)
        self.assertEqual(lines[-3:-1], ["rolled back at the end: what is open in session 2", "closed at the end: the cursor of session 1"])

    def test_many_sessions_and_none(self) -> None:
        script = b"table,t,1\n" + b"".join(b"%d,get,t,1\n" % session for session in range(1, 65))
        self.assertEqual(shown("-", source=script)[-2], "65  64  get t 1  at 0 none")
        texts = b"version,2\ntable,t,t\n" + b"".join(b"%d,put,t,%d,%b\n" % (session, session, b"word " * 12) for session in range(1, 9))
        self.assertLessEqual(max(map(width, shown("--width", "40", "-", source=texts)[:-1])), 40)
        self.assertEqual(len(shown("--width", "1000", "-", source=b"\n".join(script.splitlines()[:31]))[0].split("│")), 30)
        self.assertEqual(shown("-", source=b"")[0][:18], "versions: 0 made, ")
        self.assertEqual(
            shown("-", source=b"\xef\xbb\xbftable,t,1\r\r1,get,t,1\r")[:3], ["   session 1", "1  table t 1", "2  get t 1  at 0 none"],
        )

    def test_colours(self) -> None:
        script = b"table,t,1\n1,begin\n1,put,t,1,1\n2,put,t,1,1\n"
        lines = "\n".join(lines_of(steps_of(script, call("replay", script)), 80, Paint(True)))
        self.assertIn("\x1b[33mat 0 refused open 1 1\x1b[0m", lines)
        self.assertNotIn("\x1b", "\n".join(shown("-", source=script)))


class Runs(unittest.TestCase):
    """The order of a run."""

    def check(self, script: bytes, steps: list[Step]) -> int:
        """Checks that an order agrees with the sessions, the commit numbers and the refusals, and counts those of open writes."""
        ordered = in_commit_order(steps)
        self.assertEqual(sorted(step.place for step in ordered), [step.place for step in steps])
        at = {step.place: index for index, step in enumerate(ordered)}
        for session in {step.session for step in steps}:
            places = [step.place for step in ordered if step.session == session and step.fields]
            self.assertEqual(places, sorted(places))
        groups = [step.reply.group for step in ordered if step.reply and step.reply.group]
        self.assertEqual(groups, sorted(groups))
        newest = 0
        for step in ordered:
            if step.reply and step.reply.group is not None:
                newest = step.reply.group
            elif step.reply:
                self.assertLessEqual(step.reply.snapshot or 0, newest)
                self.assertLessEqual(int(step.reply.rest[0]) if step.reply.word == "begun" else 0, newest)
        refused = [step for step in steps if step.reply and step.reply.is_refused and step.reply.rest[0] == "open"]
        return sum(self.check_refusal(steps, step, at) for step in refused)

    def check_refusal(self, steps: list[Step], refused: Step, at: dict[int, int]) -> bool:
        """Checks that a refusal comes after the other transaction's write and before its end, and tells whether that has several records."""
        session, number = int(refused.reply.rest[1]), int(refused.reply.rest[2])
        count, is_open, own = 0, False, []
        for step in steps:
            if step.session != session or not step.fields:
                continue
            if step.fields[1] in ("begin", "open") or (not is_open and step.fields[1] in READS_AND_WRITES):
                count += 1
                is_open = step.fields[1] in ("begin", "open")
            if count == number:
                own.append(step)
            is_open = is_open and step.fields[1] not in ("commit", "rollback", "close")
        writes = [step for step in own if step.fields[2:4] == refused.fields[2:4] and step.reply.word in ("stored", "gone")]
        self.assertTrue(writes)
        if len(own) > 1:
            self.assertLess(at[writes[0].place], at[refused.place])
        if own[-1].fields[1] in ("commit", "rollback") or len(own) == 1:
            self.assertLess(at[refused.place], at[own[-1].place])
        return len(own) > 1

    def test_orders_agree_with_the_replies(self) -> None:
        """Replays, whose order is known to exist, and runs on as many threads as there are sessions."""
        found = 0
        for seed in range(12):
            script = contended(seed, 400)
            for mode in ("replay", "run --rounds 2", "run --rounds 0"):
                text = call(mode, script)
                found += self.check(script, steps_of(script, text))
        self.assertGreater(found, 50)

    def test_what_no_reply_orders_is_in_the_order_of_the_script(self) -> None:
        script = b"table,t,1\n3,put,t,9,9\n1,begin\n2,begin\n1,put,t,1,1\n2,put,t,2,2\n1,get,t,1\n2,get,t,1\n1,commit\n2,rollback\n"
        places = [step.place for step in in_commit_order(steps_of(script, call("replay", script)))]
        self.assertEqual(places, [1, 2, 3, 4, 5, 6, 7, 8, 10, 9])

    def test_a_run_is_shown_with_its_reports(self) -> None:
        lines = shown(os.path.join(ROOT, "examples", "run_alone.csv"), "--", "run", "--rounds", "2")
        self.assertEqual(sum("round 2 of the" in line for line in lines), 3)
        self.assertIn("beside", "\n".join(lines))
        self.assertRegex(lines[-1], "^versions: ")

    def test_replies_that_contradict_each_other(self) -> None:
        """Each refusal names a transaction that the other one has to wait for."""
        script = b"table,t,1\n1,begin\n2,begin\n1,put,t,1,1\n1,put,t,2,1\n2,put,t,2,1\n2,put,t,1,1\n1,rollback\n2,rollback\n"
        text = [
            b"1,2,begun,0", b"1,4,refused,open,2,1", b"1,5,stored", b"1,8,undone", b"2,3,begun,0", b"2,6,refused,open,1,1", b"2,7,stored",
            b"2,9,undone",
        ]
        self.assertEqual(sorted(step.place for step in in_commit_order(steps_of(script, text))), list(range(1, 10)))


class Rows(unittest.TestCase):
    """The rows alone."""

    def test_csv_and_json(self) -> None:
        rows = list(csv.reader(io.StringIO("\n".join(shown("--csv", "-", source=TEXTS)), newline="")))
        self.assertEqual(rows[:4], [
            ["record", "session", "table", "key", "v1", "v2"], ["9", "2", "t", "1", 'a, "b"', "-7"],
            ["9", "2", "t", "2", "two\nlines", "1"], ["9", "2", "t", "3", "\udcff\0é日", "2"],
        ])
        self.assertEqual(rows[4:], [
            ["9", "2", "t", "4", "", "3"], ["9", "2", "t", "5", "'it''s \\", "4"], ["10", "1", "t", "1", 'a, "b"', "-7"],
            ["13", "1", "t", "1", 'a, "b"', "-7"],
        ])
        found = json.loads("\n".join(shown("--json", "-", source=TEXTS)))
        self.assertEqual(found[2], {"record": 9, "session": 2, "table": "t", "key": 3, "values": ["\udcff\0é日", 2]})
        self.assertEqual(
            [[str(row["record"]), str(row["session"]), row["table"], str(row["key"]), *map(str, row["values"])] for row in found], rows[1:],
        )

    def test_tables_of_several_widths_and_no_rows(self) -> None:
        script = b"table,a,1\ntable,b,3\n1,put,a,1,5\n1,put,b,18446744073709551615,1,2,-9223372036854775808\n"
        script += b"1,get,a,1\n1,get,a,2\n1,scan,b,0,18446744073709551615\n"
        self.assertEqual(
            shown("--csv", "-", source=script),
            ["record,session,table,key,v1,v2,v3", "5,1,a,1,5,,", "7,1,b,18446744073709551615,1,2,-9223372036854775808"],
        )
        self.assertEqual(json.loads("\n".join(shown("--json", "-", source=script)))[1]["key"], 18446744073709551615)
        self.assertEqual(shown("--json", "-", source=b"table,a,1\n1,get,a,1\n"), ["[]"])
        self.assertEqual(shown("--csv", "-", source=b""), ["record,session,table,key"])

    def test_rows_of_a_run(self) -> None:
        self.assertEqual(shown("--csv", os.path.join(ROOT, "examples", "texts.csv"), "--", "run")[0], "record,session,table,key,v1,v2")


class Versions(unittest.TestCase):
    """How many versions a script holds."""

    def counted(self, script: list[bytes], every: int, kinds: tuple[str, ...]) -> list[int]:
        """Returns how many versions there are after each statement, as a conversation counts them."""
        live, counts, statements = Live(), [], 0
        for record in script:
            is_round = record.split(b",")[1] == b"gc"
            live.ask(*record.split(b","))
            statements += record[:1].isdigit() and not is_round
            if record[:1].isdigit() and not is_round and statements % every == 0:
                for kind in kinds:
                    live.ask("1", "gc", kind)
            left = int(live.ask("totals")[5].split(b",")[2])
            if is_round and counts:
                counts[-1] = left
            elif record[:1].isdigit():
                counts.append(left)
        live.kill()
        return counts

    def test_counts_are_those_of_a_conversation(self) -> None:
        """With a key that a transaction writes twice, deletions, rollbacks, cursors, and rounds of the script's own."""
        script = contended(1, 300).splitlines()
        script[50:50] = [b"9,open,t,0,9", b"10,begin,u", b"9,gc,interval", b"10,put,u,9,1", b"10,put,u,9,2", b"10,del,u,9"]
        script += [b"10,rollback", b"1,gc,table", b"9,close"]
        curves, every = curves_of(script, lambda text: call("replay", text))
        self.assertEqual(every, 4)
        bare = [record for record in script if b",gc," not in record]
        for name, kinds in (
            ("no collector", ()), ("group", ("group",)), ("table", ("table",)), ("interval", ("interval",)),
            ("all three", ("group", "table", "interval")),
        ):
            with self.subTest(name=name):
                self.assertEqual(curves[name], self.counted(bare, every, kinds))
        self.assertEqual(curves[AS_WRITTEN], self.counted(script, every, ()))

    def test_the_picture_and_the_terminal(self) -> None:
        with tempfile.TemporaryDirectory() as folder:
            path, picture = os.path.join(folder, "a&b<c>.csv"), os.path.join(folder, "out.svg")
            with open(path, "wb") as file:
                file.write(contended(2, 250))
            lines = shown("--versions", "--svg", picture, path)
            root = xml.parse(picture).getroot()
            said = f"{picture}: {os.path.getsize(picture)} bytes"
        self.assertEqual(lines[0], "versions held after each of 250 statements; each collector makes a round after every 3 statements")
        self.assertRegex(
            "\n".join(lines),
            r"no collector: at most (\d+), \d+ at the end\n +\1 │(?s:.*)\n +0 │ ▁(?s:.*)group: at most(?s:.*)all three: at most",
        )
        self.assertEqual(lines[-1], said)
        texts = [text.text for text in root.iter("{http://www.w3.org/2000/svg}text")]
        self.assertIn("Versions held by a&b<c>.csv", texts)
        self.assertLessEqual({"no collector", "group", "table", "interval", "all three", "versions", "0", "250"}, set(texts))
        self.assertLessEqual(max(map(width, lines)), 110)

    def test_bars_curves_and_scales(self) -> None:
        self.assertEqual([bar(count, 16, 2) for count in (0, 1, 8, 9, 16)], ["", "▏", "█", "█▏", "██"])
        self.assertEqual(curve([0, 1, 2, 4], 4, 4, 2), ["  4 │   █", "  0 │ ▄██"])
        self.assertEqual(curve([1, 2], 2, 4, 1), ["  2 │▄▄██"])
        for most, wanted in ((0, [0]), (1, [0, 1]), (10, [0, 2, 4, 6, 8, 10]), (17, [0, 5, 10, 15, 20]), (5836, [0, 2000, 4000, 6000])):
            self.assertEqual(ticks(most), wanted)


class Mistakes(unittest.TestCase):
    """Each mistake has a message, and its status."""

    def test_scripts_that_are_refused(self) -> None:
        for script, said in (
            (
                b"table,t,1\n\n1,put,t,1,1\n1,put,u,5,7\n",
                "nothing ran: record 3, in line 4, breaks a rule (Name)\n  1,put,u,5,7\n  there is no table `u`. The tables are t.\n",
            ),
            (b"table,t,1\n1,begin\n1,begin\n", "record 3, in line 3, breaks a rule (Order)\n  1,begin\n  session 1 is in a transaction."),
            (
                b'version,2\ntable,t,t\n1,put,t,1,"\n' + b"x" * 70 + b'"\n',
                "record 3, in line 3, breaks a rule (Value)\n  1,put,t,1,\"\\nxxx",
            ),
        ):
            with self.subTest(said=said):
                status, out, err = run("-", source=script)
                self.assertEqual((status, out), (1, ""))
                self.assertIn(said, err)

    def test_words(self) -> None:
        example = os.path.join(ROOT, "examples", "first.csv")
        for words, status, said in (
            (["none.csv"], 1, "none.csv cannot be read: No such file or directory"),
            ([ROOT], 1, "cannot be read: Is a directory"),
            ([], 2, "required: SCRIPT"),
            (["--csv", "--json", example], 2, "not allowed with"),
            (["--svg", "x", example], 2, "--svg goes with --versions"),
            (["--versions", "--svg", "/none/x", example], 1, "/none/x cannot be written: No such file or directory"),
            (["--width", "39", example], 2, "from 40 to 1000, not 39"),
            ([example, "--", "dump"], 2, "after -- comes a mode, replay or run, and its options; 'dump' is neither"),
            ([example, "--", "run", "--nothing"], 2, "does not take the words run --nothing: usage: hybridgc"),
            (["--versions", example, "--", "run"], 2, "--versions draws a replay"),
        ):
            with self.subTest(words=words):
                found, _, err = run(*words)
                self.assertEqual((found, said in err), (status, True), err)
        self.assertEqual(run(example, HYBRIDGC="/none"), (1, "", "tools/show: HYBRIDGC names /none, which is no program\n"))
        self.assertEqual(
            run("--versions", "-", source=b"table,t,1\n")[::2], (1, "tools/show: the script has no statements, so it holds no versions\n"),
        )
        self.assertIn("tools/show SCRIPT -- run --rounds 2", run("--help")[1])


if __name__ == "__main__":
    unittest.main()
