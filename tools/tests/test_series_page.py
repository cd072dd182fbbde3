"""The page of a series, from the knowledge example. That 1,556 is the best value was found by three solvers too."""
import csv
import os
import re
import shutil

from common import ROOT, Folder, needs_numpy, needs_page
from shadowtools.command import Refused
from shadowtools.needs import is_there

if is_there("numpy"):
    import numpy as np

    from shadowtools.agency.series_weights import weights_of

PREFIX = os.path.join(ROOT, "examples", "knowledge", "knowledge")
FORMS = ([0, 3, 6, 7, 8, 9, 10, 11, 15, 18, 25, 26, 29, 30, 31, 33, 35, 40, 43, 44],
         [1, 2, 4, 5, 14, 16, 17, 20, 21, 23, 24, 27, 28, 32, 34, 36, 37, 39, 41, 42])

# One vector: multipliers on the points of abilities -1, 0 and 1, on the words and on enemies. Its sum shows that no series is above 1,556.
TREE = ("01000c000f00400011004f0040000f03060000000f030e0200002e048000000013048400000012048a00000010048e020000"
        "2d04900000001104940000001404980000000f0901000000130200")



def weights(*values):
    """The word with these weights at the abilities -1, 0 and 1: the grid has 41 points from -4 to 4, so these are points 15, 20 and 25."""
    return ",".join(str(dict(zip((15, 20, 25), values)).get(point, 0)) for point in range(41))


@needs_numpy
class Weights(Folder):
    GRID = [-1.0, -0.5, 0.0, 0.5, 1.0]

    def test_each_is_at_the_nearest_point(self):
        for words, wanted in ((["1@0"], [0, 0, 1, 0, 0]), (["5@-1", "3@0.2", "3@1"], [5, 0, 3, 0, 3]), (["1000@-.26", "0@1"], [0, 1000, 0, 0, 0])):
            self.assertEqual(weights_of(words, np.array(self.GRID)), wanted)

    def test_refusals(self):
        for words, why in ((["1"], "as 1@-0.5"), (["1@"], "as 1@"), (["1001@0"], "0 to 1,000"), (["-1@0"], "0 to 1,000"), (["1.5@0"], "0 to 1,000"),
                           (["1@1.1"], "the grid goes from -1 to 1"), (["1@0", "2@0.1"], "another weight is at the same grid point, 0"),
                           (["0@0"], "one is above 0"), (["1@nan"], "as 1@")):
            with self.subTest(words), self.assertRaises(Refused) as refused:
                weights_of(words, np.array(self.GRID))
            self.assertIn(why, str(refused.exception))

    def test_the_file(self):
        """irt_bank.py writes the word that `shadowd series` takes."""
        self.write("items", "ID,a,b\nA,1,0\nB,1,0\n")
        words = ("irt_bank", "--items", "items", "--length", "1", "--out", "o", "--grid", "-1", "1", "5", "--program", self.takes_all())
        self.tool(*words, "--weights", "5@-1", "3@0", "3@1")
        self.assertEqual(self.read("o.weights.txt"), "5,0,3,0,3\n")
        self.assertEqual(self.tool(*words, "--weights", "0@1")[0], 1)


@needs_page
class Page(Folder):
    def setUp(self):
        super().setUp()
        for end in (".bank.csv", ".plan.txt", ".map.json"):
            shutil.copy(PREFIX + end, self.path("k" + end))
        self.write("k.weights.txt", weights(1, 1, 1) + "\n")
        self.lines = "series 2 value 1556 proved nodes 1\n" + "".join("form " + " ".join(map(str, form)) + "\n" for form in FORMS) + f"tree {TREE}\n"

    def page(self, lines, *more):
        """Status, standard output, errors, and the page as text without its tags."""
        self.write("lines", lines)
        status, said, errors = self.tool("report", "k", "--series", "lines", "--to", "page.html", *more)
        page = self.read("page.html") if status == 0 else ""
        return status, said, errors, re.sub(r"\s+", " ", re.sub(r"<[^>]*>", " ", page))

    def test_page(self):
        status, said, errors, page = self.page(self.lines)
        self.assertEqual((status, said, errors), (0, "page.html: 2 forms, value 1556, proved, 0 broken rules\n", ""))
        for text in ("met 14 of 14 rules are met in each of 2 forms. Each form has 20 items.", "No item is in two forms. 5 of the 45 items of the bank",
                     "met Proved best: no series", "a tree of 1 node,", "row 9: words: Sum Item WORDS 600 760 642 680",
                     "Weights 1 at −1, 1 at 0, 1 at 1", "−1 1 1.556 1.557 1.556", "In no form: V13, V14, V20, V23, V39."):
            self.assertIn(text, page)

    def test_the_table_of_items(self):
        self.page(self.lines)
        rows = list(csv.DictReader(self.read("page.forms.csv").splitlines()))
        for number, form in enumerate(FORMS, 1):
            self.assertEqual([int(row["number"]) for row in rows if row["form"] == str(number)], form)
        self.assertEqual([row["item"] for row in rows if not row["form"]], ["V13", "V14", "V20", "V23", "V39"])
        self.assertEqual(sum(int(row["WORDS"]) for row in rows if row["form"] == "2"), 680)

    def test_expected_points(self):
        """Of the first form at 0, by the formula of the 3PL model from the parameters of the map."""
        page = self.page(self.lines)[3]
        with open(os.path.join(os.path.dirname(PREFIX), "items.csv"), encoding="utf-8") as file:
            items = [[float(row[f"PAR{k}"]) for k in (1, 2, 3)] for row in csv.DictReader(file)]
        points = sum(c + (1 - c) / (1 + np.exp(a * b)) for a, b, c in (items[item] for item in FORMS[0]))
        self.assertIn("Expected points, of 20 Ability Form 1 Form 2", page)
        self.assertRegex(page, rf" 0 {points:.2f} \d+\.\d\d ")

    def test_what_does_not_agree(self):
        for lines in (self.lines.replace("1556", "1557"), self.lines.replace("form 0 3", "form 3"), self.lines.replace("proved", "unproved")):
            status, said, errors, _ = self.page(lines)
            self.assertEqual((status, said), (1, ""))
            self.assertTrue(errors.startswith("what was printed does not agree: "), errors)
        self.assertIn("there is no series in what was printed; tools/explain.py", self.page("no series 0005\n")[2])
        self.write("k.weights.txt", weights(2, 1, 1))
        self.assertEqual(self.page(self.lines)[0], 1)
        self.write("k.weights.txt", "1,1,1")
        self.assertIn("k.weights.txt: not 41 weights", self.page(self.lines)[2])

    def test_a_target(self):
        """The forms have 1.5 to 3.8 at each point from -1 to 1, and less than 0.5 at -3."""
        self.assertIn("met Each form reaches the target at each of the 11 grid points of its range.", self.page(self.lines, "--target", "-1", "1", "1.5")[3])
        self.assertIn("not met 2 of 2 forms are below the target somewhere in its range", self.page(self.lines, "--target", "-3", "1", "0.5")[3])

    def test_options_of_a_simulation(self):
        for more in (("--cuts", "0"), ("--run", "x"), ("--by", "estimate"), ("--picture", "x.png")):
            status, _, errors, _ = self.page(self.lines, *more)
            self.assertEqual((status, errors), (1, f"{more[0]} is about a simulation; it is not used with --series\n"))
