#!/usr/bin/env python3
"""Tests tools/check-run."""

from __future__ import annotations

import os
import sys
import tempfile
import unittest

sys.dont_write_bytecode = True

import calling

from hybridgc import program

SCRIPT = b"table,t,1\n1,put,t,5,20\n1,get,t,5\n"
OUTPUT = (
    b"1,2,at,0,stored,committed,1\n1,3,at,1,row,20\n"
    b"total,made,1\ntotal,undone,0\ntotal,group,0\ntotal,table,0\ntotal,interval,0\ntotal,left,1\n"
)


def run(*words: str, source: bytes = SCRIPT, **env: str) -> tuple[int, str, str]:
    """Checks a script that comes on standard input. Returns the status, and what was printed on standard output and standard error."""
    status, out, said = calling.run("check-run", *words, given=source, **env)
    return status, out.decode(), said


class CheckRun(unittest.TestCase):
    def test_outputs_are_sound(self) -> None:
        for words in ([], ["--", "replay", "--buckets", "1"], ["--", "run", "--rounds", "2"], ["--", "--rounds", "0", "run"]):
            with self.subTest(words=words):
                self.assertEqual(run("-", *words), (0, "sound\n", ""))

    def test_a_script_may_lack_its_last_line_feed(self) -> None:
        self.assertEqual(run("-", source=SCRIPT[:-1]), (0, "sound\n", ""))
        self.assertEqual(run("-", source=b""), (0, "sound\n", ""))

    def test_the_output_is_kept(self) -> None:
        with tempfile.TemporaryDirectory() as folder:
            kept = os.path.join(folder, "output")
            self.assertEqual(run("--keep", kept, "-"), (0, "sound\n", ""))
            with open(kept, "rb") as file:
                self.assertEqual(file.read(), OUTPUT)
            status, out, said = run("--keep", os.path.join(kept, "none"), "-")
            self.assertEqual((status, out), (1, ""))
            self.assertIn("cannot be written", said)

    def test_a_wrong_output_is_explained(self) -> None:
        with tempfile.TemporaryDirectory() as folder:
            liar = os.path.join(folder, "liar")
            with open(liar, "w") as file:
                file.write(f'#!/bin/sh\nif [ "$1" = audit ]; then exec "{program()}" "$@"; fi\n"{program()}" "$@" | sed s/row,20/row,21/\n')
            os.chmod(liar, 0o755)
            status, out, said = run("-", HYBRIDGC=liar)
        self.assertEqual((status, said), (1, ""))
        self.assertRegex(out, r"\Aunsound,2,Reply\noutput record 2 \(1,3,at,1,row,21\)(, to .*)?: .+\n\Z")

    def test_the_program_gets_the_words(self) -> None:
        with tempfile.TemporaryDirectory() as folder:
            teller, told = os.path.join(folder, "teller"), os.path.join(folder, "told")
            with open(teller, "w") as file:
                file.write(f'#!/bin/sh\necho "$@" >>"{told}"\nexec "{program()}" "$@"\n')
            os.chmod(teller, 0o755)
            self.assertEqual(run("-", "--", "run", "--rounds", "2", HYBRIDGC=teller), (0, "sound\n", ""))
            with open(told) as file:
                self.assertEqual(file.read(), "run --rounds 2\naudit\n")

    def test_a_refused_script_is_named(self) -> None:
        status, out, said = run("-", source=b"table,t,1\n1,put,t,5\n")
        self.assertEqual((status, out), (3, ""))
        self.assertRegex(said, r"\Atools/check-run: script record 2: Fields\nline 2 .+\n\Z")

    def test_what_no_audit_judges_is_refused(self) -> None:
        for words in (["--", "dump"], ["--", "load", "7"], ["--", "live"], ["--", "--rounds", "2"]):
            with self.subTest(words=words):
                status, out, said = run("-", *words)
                self.assertEqual((status, out), (2, ""))
                self.assertIn("after -- comes replay or run", said)
        status, out, said = run("-", source=b"version,2\ntable,t,t\n1,put,t,5,\"\n====\n\"\n")
        self.assertEqual((status, out), (1, ""))
        self.assertIn("a line ====", said)

    def test_files_that_are_not_there(self) -> None:
        status, out, said = run("none.csv")
        self.assertEqual((status, out, said), (1, "", "tools/check-run: none.csv cannot be read: No such file or directory\n"))
        status, out, said = run("-", HYBRIDGC="/none")
        self.assertEqual((status, out), (1, ""))
        self.assertIn("HYBRIDGC names /none", said)

    def test_help_has_the_words(self) -> None:
        status, out, said = run("--help")
        self.assertEqual((status, said), (0, ""))
        self.assertIn("tools/check-run SCRIPT", out)
        self.assertEqual(run()[0], 2)


if __name__ == "__main__":
    unittest.main()
