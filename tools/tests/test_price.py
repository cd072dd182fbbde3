"""The price of each rule and the gain of each item beside all sets of items, enumerated here."""
import csv
import html
import itertools
import json
import math
import os
import re
import statistics
import unittest
from types import SimpleNamespace

from common import PAGE, PROGRAM, needs_page, needs_program
from shadowtools.checkers import check_tree
from shadowtools.formats.examination import plan_of
from shadowtools.needs import is_there
from test_simulate import Examination

if is_there(*PAGE):
    from shadowtools.agency import price
    from shadowtools.page import price as price_page

RULES = ("CONSTRAINT,TYPE,WHAT,CONDITION,LB,UB\nlength,Number,Item,,4,4\nevens,Number,Item,K == x,1,1\nfew,Number,Item,SET == a,0,2\n"
         "foes,Enemy,Item,FOE == f,,\n")
ATTRIBUTES = "ID,K,SET,FOE\n" + "".join(f"I{k},{'xy'[k % 2]},{'ab'[k // 4]},{'f' if k in (2, 5) else ''}\n" for k in range(8))
SETS = {"evens": ({0, 2, 4, 6}, 1, 1), "few": ({0, 1, 2, 3}, 0, 2), "foes": ({2, 5}, 0, 1)}


def best(information, sets):
    """The greatest sum of four items that meet the bounds of these sets."""
    return max(sum(information[k] for k in form) for form in itertools.combinations(range(len(information)), 4)
               if all(low <= len(members & set(form)) <= high for members, low, high in sets.values()))


@needs_page
class Prices(Examination):
    def setUp(self):
        super().setUp()
        for name, text in (("attributes", ATTRIBUTES), ("constraints", RULES)):
            self.write(name, text)
        status, _, errors = self.tool("irt_bank", "--items", "items", "--attributes", "attributes", "--constraints", "constraints", "--out", "e",
                                      "--grid", "-3", "3", "7")
        self.assertEqual(status, 0, errors)

    def prices(self, *words, program=None):
        status, said, errors = self.tool("report", "e", "--prices", "--to", "page.html", "--at", "-1", "0", "1", "--program", program or self.fake, *words)
        self.assertEqual(status, 0, errors)
        return [list(csv.DictReader(self.read(name).splitlines())) for name in ("page.prices.csv", "page.write.csv")]

    def information(self, ability, extra=()):
        """The information of each item, and of items (slope, difficulty) that are added, in thousandths as the bank has it."""
        items = [one["parameters"] for one in json.loads(self.read("e.map.json"))["items"]]
        chances = [1 / (1 + math.exp(-a * (ability - b))) for a, b in [*items, *extra]]
        return [round(1000 * a * a * p * (1 - p)) for (a, _), p in zip([*items, *extra], chances)]

    def compared(self, program):
        rules, write = self.prices(program=program)
        by_name = {row["rule"].partition(":")[0]: row for row in rules}
        for ability in (-1, 0, 1):
            information = self.information(ability)
            whole = best(information, SETS)
            self.assertAlmostEqual(float(by_name["best form"][f"least at {ability}"]), whole / 1000, 4)
            self.assertAlmostEqual(float(by_name["all rules together"][f"least at {ability}"]), (best(information, {}) - whole) / 1000, 4)
            for name in SETS:
                without = best(information, {one: value for one, value in SETS.items() if one != name})
                for end in ("least", "greatest"):
                    self.assertAlmostEqual(float(by_name[name][f"{end} at {ability}"]), (without - whole) / 1000, 4, (name, ability))
        self.assertEqual(len(write), 4 * 3)
        for row in write:
            inside = {name: value for name, value in SETS.items() if name in row["kind"].split(", ")}
            sets = {name: (members | {8} if name in inside else members, low, high) for name, (members, low, high) in SETS.items()}
            gains = []
            for ability in (-1, 0, 1):
                gains.append((best(self.information(ability, [(1.2, float(row["difficulty"]))]), sets) - best(self.information(ability), SETS)) / 1000)
                self.assertAlmostEqual(float(row[f"least at {ability}"]), gains[-1], 4)
            self.assertAlmostEqual(float(row["mean"]), statistics.fmean(gains), 4)
        self.assertEqual([float(row["mean"]) for row in write], sorted((float(row["mean"]) for row in write), reverse=True))

    def test_beside_all_sets_of_items(self):
        self.compared(self.fake)

    @needs_program
    def test_of_the_program(self):
        self.compared(os.path.abspath(PROGRAM))

    def test_the_page(self):
        rules, write = self.prices()
        page = self.read("page.html")
        self.assertIn("Prices of single rules do not add up to that of all", page)
        self.assertRegex(page, r"<b>met</b><span>\d+ of \d+ numbers are proved, by \d+ forms\.")
        self.assertIsNone(re.search(r"<script|https?://", page))
        names = {"best form": "best form, all rules", "all rules together": "price of all rules together"}
        cells = {row[0]: row[1:] for row in (re.findall(r"<td[^>]*>(.*?)</td>", one) for one in re.findall(r"<tr>(.*?)</tr>", page)) if row}
        for row in rules:
            self.assertEqual(cells[names.get(row["rule"], html.escape(row["rule"], quote=False).replace('"', "&#34;"))],
                             [f"{float(row[f'least at {ability}']):.3f}" for ability in (-1, 0, 1)])
        self.assertEqual(cells["sum of the single prices"],
                         [f"{sum(float(row[f'least at {ability}']) for row in rules[2:]):.3f}" for ability in (-1, 0, 1)])
        self.assertEqual(self.prices("--rules-only")[1], [])

    def test_a_form_that_is_not_proved(self):
        """Its tree is one open leaf without multipliers. What is left open is then the best four items of the bank without any rule."""
        information = self.information(0)
        form = max((set(one) for one in itertools.combinations(range(8), 4) if all(low <= len(members & set(one)) <= high for members, low, high
                                                                                   in SETS.values())), key=lambda one: sum(information[k] for k in one))
        tree = check_tree.write_tree([], [(check_tree.OPEN, None)]).hex()
        said = f"form {' '.join(map(str, sorted(form)))}\nobjective {best(information, SETS)} unproved nodes 1\ntree {tree}"
        program = SimpleNamespace(bank=self.path("e.bank.csv"), assemble=lambda plan: (0, said))
        found = price.best_of(program, self.read("e.plan.txt"), 1000)
        self.assertEqual((found.low, found.high), (best(information, SETS) / 1000, best(information, {}) / 1000))
        self.assertFalse(found.is_proved)

    def test_a_plan_without_a_form(self):
        """The status and the name of the tool that explains it; nothing is written."""
        self.write("none", '#!/bin/sh\necho "no form 0 tree 0006"\nexit 11\n')
        os.chmod(self.path("none"), 0o755)
        status, said, errors = self.tool("report", "e", "--prices", "--to", "page.html", "--program", self.path("none"))
        self.assertEqual((status, said, os.path.exists(self.path("page.html"))), (11, "", False))
        self.assertIn("explain.py names the rules", errors)
        status, said, errors = self.tool("report", "e", "--prices", "--to", "page.html", "--at", "9", "--program", self.fake)
        self.assertEqual((status, "the grid is from -3 to 3" in errors), (1, True))


@needs_page
class Intervals(unittest.TestCase):
    def test_what_two_intervals_leave(self):
        """A form of 4 to 5 without a rule beside one of 3 to 3.5 with it: the rule costs 0.5 to 2. A price is never below 0."""
        self.assertEqual(price.Best(4, 5).less(price.Best(3, 3.5)), price.Best(0.5, 2))
        self.assertEqual(price.Best(3, 3.25).less(price.Best(3, 3.5)), price.Best(0.0, 0.25))
        self.assertTrue(price.Best(4, 4).less(price.Best(3, 3)).is_proved)

    def test_items_that_gain_as_much(self):
        """The verdict counts them, so that nobody takes the first of the table for the only one."""
        def last(*gains):
            items = [price.Gain(kind, 0.0, [price.Best(gain, gain)]) for kind, gain in zip("abcd", gains)]
            return price_page.verdicts(price.Prices([0.0], [price.Best(5, 5)], [price.Best(0, 0)], [], items, 1))[-1].text
        self.assertTrue(last(0.2, 0.1).endswith("over these abilities."))
        self.assertTrue(last(0.2, 0.2, 0.1).endswith("over these abilities. 1 other gains as much."))
        self.assertTrue(last(0.2, 0.2, 0.2, 0.1).endswith("over these abilities. 2 others gain as much."))

    def test_rows_of_a_table(self):
        """Lines of one row of the table are one rule, as those of all passages."""
        rules = plan_of("# row 0: a: Number Item\ncount 1 2 0-3\n# per passage: Number Item Per Stimulus\nstimulus 1 2 3\nstimulus 2 2 3\n"
                        "# row 1: b: Sum Item W\nquantity 0 1 9 0-3\n").rules
        self.assertEqual([(name, len(own)) for name, own in price.rows_of(rules).items()],
                         [("a: Number Item", 1), ("per passage: Number Item Per Stimulus", 2), ("b: Sum Item W", 1)])


if __name__ == "__main__":
    unittest.main()
