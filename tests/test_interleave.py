#!/usr/bin/env python3
"""Tests of tools/interleave: python3 tests/test_interleave.py, or tests/tools interleave"""

import collections
import glob
import os
import subprocess
import sys
import unittest
import unittest.mock

HERE = os.path.dirname(os.path.realpath(__file__))
TOOLS = os.path.normpath(os.path.join(HERE, "..", "tools"))
sys.dont_write_bytecode = True
sys.path.insert(0, TOOLS)

from calling import call
from hybridgc import program
from interleavings import count_of, orders_of, outcomes_of
from spec import SpecError, read_spec

TWO = """
setup { table,t,1; put,t,1,10 }
teardown { scan,t,0,9 }
session alice
step a1 { begin; get,t,1 }
step a2 { put,t,1,11 }
step a3 { commit }
session bob
step b1 { begin; put,t,2,20 }
step b2 { put,t,1,12 }
step b3 { commit }
"""

# A mistake in a spec, and what is said of it.
MISTAKES = (
    ("", "line 1: the setup before the first session declares no table"),
    ("setup { table,t,1 }", "line 1: there is no session with a step"),
    ("setup { put,t,1,2 }\nsession s step a { commit }", "line 1: the setup before the first session declares no table"),
    ("setup { table,t,1 }\nbegin", "line 2: 'begin' is none of setup, teardown, session, step, on conflict and permutation"),
    ("setup { table,t,1", "line 1: the braces of setup are not closed"),
    ("setup table", "line 1: setup wants its records in braces"),
    ("setup { table,t,1 }\n{ get,t,1 }", "line 2: these braces follow neither setup"),
    ("setup { table,t,1 }\n}", "line 2: '}' begins nothing"),
    ("setup { table,t,1 }\nstep a { get,t,1 }", "line 2: a step comes after its session"),
    ("setup { table,t,1 }\nsession s\nstep { get,t,1 }", "line 3: the name of a step is missing"),
    ("setup { table,t,1 }\nsession s\nstep a { get,t,1 }\nsession s", "line 4: there are two sessions 's'"),
    ("setup { table,t,1 }\nsession s\nstep a { get,t,1 }\nstep a { commit }", "line 4: there are two steps 'a'"),
    ("setup { table,t,1 }\non error stop", "line 2: it is `on conflict continue` or `on conflict rollback`"),
    (
        "setup { table,t,1 }\nsession s step a { get,t,1 }\npermutation a b",
        "line 3: the permutation names 'b', which is no step; the steps are a",
    ),
    ("setup { table,t,1 }\nsession s step a { get,t,1 }\npermutation a(b)", "line 3: 'a(b)': there are no marks for blocking"),
    ("setup { table,t,1 }\n" + "".join(f"session s{i}\n" for i in range(64)), "line 65: there are more than 63 sessions"),
)


def found(spec: str, **how) -> list:
    """The outcomes of a spec."""
    return outcomes_of(read_spec(spec), **how)


def answers(outcome) -> "list[list[str]]":
    """The answers of an outcome, by session."""
    return [[asked.answer for asked in part] for part in outcome.outcome]


class Specs(unittest.TestCase):
    """The specs of the named anomalies."""

    def test_each_spec_has_the_outcomes_next_to_it(self):
        specs = sorted(glob.glob(os.path.join(TOOLS, "specs", "*.spec")))
        self.assertEqual(len(specs), 12)
        for path in specs:
            with self.subTest(os.path.basename(path)), open(path.removesuffix("spec") + "out") as wanted:
                self.assertEqual(call("interleave", path), (0, wanted.read(), ""))


class Interleavings(unittest.TestCase):
    """Which orders there are, and what is found in them."""

    def test_all_orders_keep_the_order_within_each_session(self):
        spec = read_spec(TWO)
        orders = [tuple(step.name for step in order) for order in orders_of(spec)]
        self.assertEqual(len(orders), count_of(spec))
        self.assertEqual(len(set(orders)), 20)
        for order in orders:
            self.assertEqual([name for name in order if name[0] == "a"], ["a1", "a2", "a3"])
            self.assertEqual([name for name in order if name[0] == "b"], ["b1", "b2", "b3"])

    def test_each_interleaving_is_what_a_replay_of_it_prints(self):
        spec = read_spec(TWO)
        wanted = collections.Counter(self.replayed(spec, list(order)) for order in orders_of(spec))
        counts = {tuple(tuple(asked.answer for asked in part) for part in one.outcome): one.times for one in outcomes_of(spec)}
        self.assertEqual(counts, dict(wanted))
        self.assertGreater(len(counts), 5)

    def replayed(self, spec, order) -> "tuple[tuple[str, ...], ...]":
        """The answers of one order, by a replay of it alone."""
        lines = [f"{step.session},{line.record.decode()}" for step in order for line in step.lines]
        script = "\n".join(["table,t,1", "3,put,t,1,10", *lines, "3,scan,t,0,9", ""])
        text = subprocess.run([program(), "replay"], input=script, capture_output=True, text=True, check=True).stdout
        said = [[], [], []]
        for line in text.splitlines()[1:-6]:
            session, _, *rest = line.split(",")
            rest = rest[2:] if rest[0] == "at" else rest
            who = {"1": "alice", "2": "bob", "3": ""}
            plain = rest[0]
            if plain == "refused":
                plain = f"refused,open by {who[rest[2]]}" if rest[1] == "open" else "refused,newer"
            if rest[0] == "rows":
                said[2].append("rows: ")
            elif rest[0] == "row" and session == "3":
                said[2][-1] += ("; " if said[2][-1] != "rows: " else "") + ",".join(rest[1:])
            else:
                said[int(session) - 1].append(",".join(rest) if rest[0] == "row" else plain)
        return tuple(map(tuple, said))

    def test_without_a_policy_the_transaction_goes_on_after_a_refusal(self):
        one = found(TWO + "permutation a1 a2 b1 b2 b3 a3")[0]
        self.assertEqual(answers(one)[1], ["begun", "stored", "refused,open by alice", "committed"])
        self.assertEqual(answers(one)[2], ["rows: 1,11; 2,20"])

    def test_with_rollback_a_refused_client_leaves_nothing(self):
        one = found("on conflict rollback" + TWO + "permutation a1 a2 b1 b2 b3 a3")[0]
        self.assertEqual(answers(one)[1], ["begun", "stored", "refused,open by alice: rolls back", "skipped"])
        self.assertEqual(answers(one)[2], ["rows: 1,11"])

    def test_a_policy_of_a_session_comes_before_that_of_the_spec(self):
        spec = "on conflict rollback" + TWO.replace("session bob", "session bob\non conflict continue") + "permutation a1 a2 b1 b2 b3 a3"
        self.assertEqual(answers(found(spec)[0])[2], ["rows: 1,11; 2,20"])

    def test_after_a_transaction_that_was_given_up_the_session_goes_on(self):
        spec = "on conflict rollback" + TWO + "step b4 { get,t,1 }\npermutation a1 a2 b1 b2 b3 b4 a3"
        self.assertEqual(answers(found(spec)[0])[1][-2:], ["skipped", "row,10"])

    def test_a_permutation_may_leave_steps_out_and_repeat_them(self):
        one = found(TWO + "permutation b1 b2 b2 b3")[0]
        self.assertEqual(answers(one)[:2], [[], ["begun", "stored", "stored", "stored", "committed"]])
        self.assertEqual((one.order, one.times), (("b1", "b2", "b2", "b3"), 1))

    def test_what_is_open_at_the_end_is_ended_before_the_next_interleaving(self):
        spec = "setup { table,t,1; put,t,1,1 }\nteardown { get,t,1 }\nsession a\nstep a1 { begin; put,t,1,2 }\n"
        spec += "session b\nstep b1 { open,t,0,9 }\n"
        outcomes = found(spec)
        self.assertEqual([(one.times, answers(one)) for one in outcomes], [(2, [["begun", "stored"], ["begun"], ["row,1"]])])

    def test_a_client_that_gave_up_is_in_again_in_the_next_interleaving(self):
        spec = "setup { table,t,1 }\non conflict rollback\nsession a\nstep a1 { begin; put,t,1,2 }\nsession b\nstep b1 { begin; put,t,1,3 }"
        outcomes = found(spec)
        self.assertEqual([answers(one)[0][1] for one in outcomes], ["stored", "refused,open by b: rolls back"])
        self.assertEqual([answers(one)[1][1] for one in outcomes], ["refused,open by a: rolls back", "stored"])

    def test_setups_come_before_all_steps_and_teardowns_after(self):
        spec = "setup { table,t,1 }\nsession a\nsetup { begin }\nstep a1 { put,t,1,1 }\nteardown { commit }\n"
        spec += "session b\nstep b1 { get,t,1 }"
        self.assertEqual([answers(one) for one in found(spec)], [[["begun", "stored", "committed"], ["none"], []]])

    def test_outcomes_by_the_last_reads_alone(self):
        lasts = [(one.times, answers(one)) for one in found("on conflict rollback" + TWO, last_alone=True)]
        self.assertEqual(sum(count for count, _ in lasts), 20)
        self.assertEqual({last[0][0] for _, last in lasts}, {"rows: 1,11", "rows: 1,12; 2,20", "rows: 1,11; 2,20"})

    def test_texts_may_contain_what_ends_records(self):
        spec = 'setup { version,2\n table,t,t; put,t,1,"a;b}c#d""e" # a comment\n }\nsession s\nstep "s one" { get,t,1 }\n'
        self.assertEqual(answers(found(spec)[0])[0], ['row,"a;b}c#d""e"'])

    def test_a_round_of_a_collector_is_a_step(self):
        spec = "setup { table,t,1; put,t,1,1 }\nsession s\nstep a { begin }\nstep g { gc,group }\nsession r\nstep b { begin; gc,interval }"
        self.assertEqual([answers(one) for one in found(spec)], [[["begun", "swept"], ["begun", "swept"], []]])


class Mistakes(unittest.TestCase):
    """Each mistake has its message."""

    def test_mistakes_in_a_spec(self):
        for spec, said in MISTAKES:
            with self.subTest(said), self.assertRaises(SpecError) as caught:
                read_spec(spec)
            self.assertTrue(str(caught.exception).startswith(said), f"{caught.exception} begins with {said}")

    def test_a_record_that_breaks_a_rule(self):
        status, text, said = call("interleave", "-", source=TWO.replace("put,t,2,20", "\nput,u,2,20").encode())
        self.assertEqual((status, text), (1, ""))
        self.assertEqual(said, "tools/interleave: -: line 10: the record put,u,2,20 breaks the rule Name of docs/FORMATS.md\n")

    def test_a_mistake_is_said_with_its_file_and_line(self):
        status, text, said = call("interleave", "-", source=b"setup { table,t,1 }\nwhat")
        self.assertEqual((status, text), (1, ""))
        self.assertTrue(said.startswith("tools/interleave: -: line 2: 'what' is none of"), said)

    def test_too_many_interleavings(self):
        status, text, said = call("interleave", "--most", "19", "-", source=TWO.encode())
        self.assertEqual((status, text), (1, ""))
        self.assertIn("- has 20 interleavings, more than 19.", said)
        self.assertIn("    permutation a1 a2 a3 b1 b2 b3\n", said)

    def test_statuses(self):
        self.assertEqual(call("interleave")[0], 2)
        self.assertEqual(call("interleave", "--last", "-", source=TWO.replace("teardown", "setup").encode())[0], 2)
        self.assertEqual(call("interleave", "--count", "-", source=TWO.encode()), (0, "20 interleavings\n", ""))
        self.assertEqual(call("interleave", "no/such"), (1, "", "tools/interleave: no/such: No such file or directory\n"))
        with unittest.mock.patch.dict(os.environ, HYBRIDGC="/no/such"):
            said = "tools/interleave: HYBRIDGC names /no/such, which is no program\n"
            self.assertEqual(call("interleave", "-", source=TWO.encode()), (1, "", said))

    def test_a_spec_on_standard_input(self):
        words = (sys.executable, os.path.join(TOOLS, "interleave"), "--count", "-")
        done = subprocess.run(words, input=TWO, capture_output=True, text=True)
        self.assertEqual((done.returncode, done.stdout, done.stderr), (0, "20 interleavings\n", ""))


if __name__ == "__main__":
    unittest.main()
