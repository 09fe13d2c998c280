#!/usr/bin/env python3
"""Tests of the pictures of bench/: python3 tests/test_pictures.py, or tests/tools pictures. Skipped by name where matplotlib is missing."""

import math
import os
import subprocess
import sys
import tempfile
import unittest

HERE = os.path.dirname(os.path.realpath(__file__))
BENCH = os.path.normpath(os.path.join(HERE, "..", "bench"))
sys.dont_write_bytecode = True
sys.path.insert(0, BENCH)

from growth_picture import line_of, read_tables, slope_of
from pictures import spread

ROUNDS = """host, load 0.1

| rounds | CPU s | wall s | peak MB |
|---|---|---|---|
| 0 | 1.00 | 0.80 | 170 |
| 1,000 | 2.00 | 1.60 | 96 |
"""
GROWTH = """
| keys: replay: keys | CPU s | MB | growth |
|---|---|---|---|
| 1,000 | 0.5 | 10 |  |
| 10,000 | - | 20 | 1.00 |
| 100,000 | 50 | 40 | 1.00 |
"""


class Pictures(unittest.TestCase):
    """What is drawn, from figures that were printed before."""

    def test_names_of_lines_keep_their_order_and_do_not_touch(self):
        for places in ([0.5], [0.1, 0.9], [0.5, 0.5, 0.5], [0.2, 0.9, 0.21, 0.22, 0.1], [0.9, 0.89, 0.2]):
            found = spread(places, 0.1)
            order = sorted(range(len(places)), key=lambda i: places[i])
            for below, above in zip(order, order[1:]):
                self.assertGreaterEqual(found[above] - found[below], 0.1 - 1e-9)
        self.assertEqual(spread([0.1, 0.9], 0.1), [0.1, 0.9])
        self.assertAlmostEqual(sum(spread([0.5, 0.5, 0.5], 0.1)), 1.5)

    def test_slopes(self):
        self.assertAlmostEqual(slope_of([(x, 3 * x) for x in (1, 10, 200)]), 1)
        self.assertAlmostEqual(slope_of([(x, math.sqrt(x)) for x in (1, 10, 200)]), 0.5)
        self.assertAlmostEqual(slope_of([(1, 7), (10, 7)]), 0)

    def test_tables_that_were_printed_are_read(self):
        rows = read_tables(GROWTH)["keys"]
        self.assertEqual(line_of(rows, 0), [(1, 1), (100, 100)])
        self.assertEqual(line_of(rows, 1), [(1, 1), (10, 2), (100, 4)])

    def test_a_picture_is_the_same_again_and_has_its_text_as_text(self):
        with tempfile.TemporaryDirectory() as folder:
            source, targets = os.path.join(folder, "figures"), [os.path.join(folder, name) for name in ("a.svg", "b.svg")]
            with open(source, "w") as file:
                file.write(ROUNDS)
            for target in targets:
                words = [sys.executable, os.path.join(BENCH, "rounds"), "--from", source, target]
                done = subprocess.run(words, capture_output=True, text=True)
                if "matplotlib is missing" in done.stderr:
                    self.skipTest(done.stderr.strip())
                self.assertEqual((done.returncode, done.stderr), (0, ""))
            with open(targets[0]) as first_file, open(targets[1]) as second_file:
                first, second = first_file.read(), second_file.read()
        self.assertEqual(first, second)
        for text in (">thousand statements a second<", ">1000<", ">500<", ">none<", ">170<", ">96<"):
            self.assertIn(text, first)

    def test_without_matplotlib_there_is_a_message(self):
        code = "import sys, pictures; pictures.SYSTEM = '/no/such'; sys.modules['matplotlib'] = None; pictures.need_matplotlib()"
        done = subprocess.run([sys.executable, "-B", "-c", code], capture_output=True, text=True, cwd=BENCH)
        self.assertEqual(done.returncode, 1)
        self.assertIn("apt-get install python3-matplotlib", done.stderr)


if __name__ == "__main__":
    unittest.main()
