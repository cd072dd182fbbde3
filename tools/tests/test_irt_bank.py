"""From parameters to bank and plan: conventions, refusals, warnings, and the numbers of a bank worked out apart."""
import json
import math
import os
import re
import unittest

from common import Folder, PROGRAM, needs_numpy, needs_program

try:
    from shadowtools.agency import band_points
except ImportError:
    pass

HEAD = "ID,MODEL,PAR1,PAR2,PAR3\n"
TWO = HEAD + "A,2PL,1,0,\nB,2PL,1,0,\n"
ATTRIBUTES = "ID,STID,K,W\nA,,x,5\nB,P1,y,7\n"
RULES = "CONSTRAINT,TYPE,WHAT,CONDITION,LB,UB\n"
ONE_ITEM = RULES + "c0,Number,Item,,1,1\n"


class Converter(Folder):
    def convert(self, files, *words):
        """Status and last line of the errors."""
        given = []
        for name, text in files.items():
            self.write(name, text)
            given += ["--" + name, name]
        status, _, errors = self.tool("irt_bank", "--out", "o", *given, *words)
        return status, errors.strip()

    def bank(self, text, *words):
        status, errors = self.convert({"items": text}, "--length", "1", "--grid", "-4", "4", "41", *words)
        self.assertEqual((status, errors.count("Traceback")), (0, 0), errors)
        return self.read("o.bank.csv")


@needs_numpy
class Conventions(Converter):
    def test_three_parameters(self):
        banks = {self.bank(text) for text in (
            "ID,MODEL,PAR1,PAR2,PAR3\nx,3PL,1.5,0.4,0.2\n", "a,b,c\n1.5,0.4,0.2\n", "a,b,c,d\n1.5,0.4,0.2,1\n",
            "a1,d,g,u\n1.5,-0.6,0.2,1\n", "\ufeffa,b,c\r\n1.5,0.4,0.2\r\n")}
        self.assertEqual(len(banks), 1)

    def test_graded(self):
        banks = {self.bank(text) for text in (
            HEAD + "x,GR,2,-0.5,0.5\n", "alphaj,betaj1,betaj2\n2,-0.5,0.5\n", "a1,d1,d2\n2,1,-1\n",
            "MODEL,a,b1,b2\nGRM,2,-0.5,0.5\n")}
        self.assertEqual(len(banks), 1)

    def test_partial_credit(self):
        banks = {self.bank(text) for text in (
            HEAD + "x,GPC,2,-0.5,0.5\n", "alphaj,deltaj1,deltaj2\n2,-0.5,0.5\n",
            "a1,ak0,ak1,ak2,d0,d1,d2\n2,0,1,2,0,1,0\n")}
        self.assertEqual(len(banks), 1)
        self.assertEqual(self.bank("deltaj1,deltaj2\n-0.5,0.5\n"), self.bank(HEAD + "x,PC,-0.5,0.5,\n"))

    def test_d_is_an_intercept_in_mirt_and_an_asymptote_in_catr(self):
        self.assertEqual(self.bank("a1,d,g,u\n2,-1,0.1,0.9\n"), self.bank("a,b,c,d\n2,0.5,0.1,0.9\n"))

    def test_a_table_of_several_models(self):
        text = "ID,a1,d,g,u,d1,d2\nx,1.5,-0.6,0.2,1,NA,NA\ny,2,NA,NA,NA,1,-1\n"
        other = "ID,MODEL,PAR1,PAR2,PAR3\nx,3PL,1.5,0.4,0.2\ny,GR,2,-0.5,0.5\n"
        self.assertEqual(self.bank(text), self.bank(other))

    def test_scaling(self):
        self.assertEqual(self.bank("a,b\n1,0.5\n", "--scaling", "1.702"), self.bank("a,b\n1.702,0.5\n"))


@needs_numpy
class Numbers(Converter):
    def test_a_row_worked_out_by_hand(self):
        """2PL with a = 1, b = 0: P(0) = 1/2, I(0) = 1/4; P(1) = 1 / (1 + e^-1), I(1) = P(1) (1 - P(1))."""
        status, errors = self.convert({"items": TWO}, "--length", "1", "--grid", "-1", "1", "3")
        self.assertEqual(status, 0, errors)
        right = 1 / (1 + math.exp(-1))
        informed = round(1000 * right * (1 - right))
        high, low = round(1000 * math.log(right)), round(1000 * math.log(1 - right))
        self.assertEqual((informed, high, low), (197, -313, -1313))
        self.assertEqual(self.read("o.bank.csv").splitlines()[:2],
                         ["item,stimulus,categories,i0,i1,i2,l0_0,l0_1,l0_2,l1_0,l1_1,l1_2",
                          "0,0,2,197,250,197,-313,-693,-1313,-1313,-693,-313"])
        self.assertIn("\nprior -500 0 -500\n", self.read("o.plan.txt"))

    def test_the_greatest_value_of_a_prior_is_0(self):
        self.convert({"items": TWO}, "--length", "1", "--grid", "-1", "3", "3", "--prior", "0", "1")
        self.assertIn("\nprior 0 0 -4000\n", self.read("o.plan.txt"))

    def test_the_same_bytes_again(self):
        first = self.bank(TWO), self.read("o.plan.txt"), self.read("o.map.json")
        self.assertEqual((self.bank(TWO), self.read("o.plan.txt"), self.read("o.map.json")), first)

    def test_the_map(self):
        self.convert(dict(items=TWO, attributes=ATTRIBUTES), "--length", "1", "--grid", "-1", "1", "3")
        found = json.loads(self.read("o.map.json"))
        self.assertEqual((found["theta"], found["passages"], found["length"]), ([-1, 0, 1], ["P1"], 1))
        self.assertEqual([(i["number"], i["id"], i["passage"]) for i in found["items"]], [(0, "A", 0), (1, "B", 1)])

    def test_the_grid_follows_the_standard_error(self):
        """Ten items with a = 2, b = 0 inform 10 at 0: standard error 0.316, step at most 0.158, 51.6 points, so 53."""
        text = "a,b\n" + "2,0\n" * 10
        self.convert({"items": text}, "--length", "10")
        self.assertEqual(len(json.loads(self.read("o.map.json"))["theta"]), 53)
        self.convert({"items": "a,b\n1,0\n"}, "--length", "1")
        self.assertEqual(len(json.loads(self.read("o.map.json"))["theta"]), 41)


@needs_numpy
class Plans(Converter):
    def test_a_plan_of_each_rule(self):
        rules = ONE_ITEM + ('k,Number,Item,"K %in% c(x, y) & W >= 6",0,1\nm,Mean,Item,W,4.5,6\n'
                            "s,Number,Stimulus,,0,1\nps,Number,Item,Per Stimulus,1,2\ne,Enemy,Item,W < 99,,\n"
                            "i,Include,Item,K == x,,\nx,Exclude,Item,K == y,,\nt,Sum,Item,\"W, K == x\",1,\n")
        status, errors = self.convert(dict(items=TWO, attributes=ATTRIBUTES, constraints=rules), "--quantity", "W",
                                      "--grid", "-1", "1", "3")
        self.assertEqual(status, 0, errors)
        *lines, named, empty = self.read("o.plan.txt").split("\n")[2:-1]
        self.assertEqual((re.sub("[0-9a-f]{64}", "H", named), empty), ("# map SHA-256 H", ""))
        self.assertEqual(lines, [
            "length 1", "prior -500 0 -500", "budget 2001", "base-budget 4095", "sessions 1000", "journal 67108864",
            "# row 0: k: Number Item K %in% c(x, y) & W >= 6", "count 0 1 1",
            "# row 1: m: Mean Item W", "quantity 0 5 6 0-1", "# row 2: s: Number Stimulus", "stimuli 0 1",
            "# ps: Number Item Per Stimulus", "stimulus 1 1 2", "# row 3: e: Enemy Item W < 99", "enemies 0-1",
            "# row 4: i: Include Item K == x", "count 1 1 0", "# row 5: x: Exclude Item K == y", "count 0 0 1",
            "# row 6: t: Sum Item W, K == x", "quantity 0 1 33553920 0"])

    def test_a_mean_is_a_sum(self):
        """A mean of 5.5 to 6.2 over two items is a sum of 11 to 12."""
        rules = ONE_ITEM.replace("1,1", "2,2") + "m,Mean,Item,W,5.5,6.2\n"
        status, errors = self.convert(dict(items=TWO, attributes=ATTRIBUTES, constraints=rules), "--quantity", "W")
        self.assertEqual(status, 0, errors)
        self.assertIn("\nquantity 0 11 12 0-1\n", self.read("o.plan.txt"))

    def test_all_or_none_is_a_passage(self):
        rules = ONE_ITEM.replace("1,1", "2,2") + "pair,AllOrNone,Item,K %in% c(x),,\n"
        status, errors = self.convert(dict(items=TWO, attributes=ATTRIBUTES, constraints=rules), "--grid", "-1", "1", "3")
        self.assertEqual(status, 0, errors)
        self.assertIn("stimulus 2 1 1\n", self.read("o.plan.txt"))
        self.assertEqual([line.split(",")[1] for line in self.read("o.bank.csv").splitlines()[1:]], ["2", "1"])

    def test_a_row_that_is_off(self):
        rules = RULES.strip() + ",ONOFF\nc0,Number,Item,,1,1,\nc1,Number,Item,K == q,1,1,OFF\n"
        status, errors = self.convert(dict(items=TWO, attributes=ATTRIBUTES, constraints=rules))
        self.assertEqual(status, 0, errors)
        self.assertNotIn("count", self.read("o.plan.txt"))


@needs_numpy
class Bands(Converter):
    """Ten items with a = 2 and b = 0 inform 10 at 0; half a test of ten has 5, with the prior 6: a standard error of 0.41."""
    ITEMS = "a,b\n" + "2,0\n" * 10
    RATE = ("--length", "10", "--rate", "1", "1", "--key", "0" * 64)

    def bands(self, *words, items=ITEMS):
        """The points of the plan's line, and the standard output and error."""
        self.write("items", items)
        status, said, errors = self.tool("irt_bank", "--items", "items", "--out", "o", "--program", self.takes_all(), *self.RATE, *words)
        found = re.search(r"(?m)^bands (.*)$", self.read("o.plan.txt")) if status != 2 else None
        return [int(word) for word in found.group(1).split()] if found else [], said, errors

    def test_equal_shares_of_a_flat_prior(self):
        """20 points on -4 to 4 have four bands of five; a step is 8 / 19, so a band is 2.1 wide."""
        points, _, errors = self.bands("--bands", "4", "--prior", "flat", "--grid", "-4", "4", "20")
        self.assertEqual(points, [5, 10, 15], errors)
        self.assertNotIn("too many", errors)

    def test_quantiles_of_a_normal_prior(self):
        """The quartiles of N(0, 1) are -0.67, 0 and 0.67. The weight of a point goes half a step of 0.1 to either side, so a band that
        begins at a point begins 0.05 below it: at -0.65, -0.05 (as near as 0.05) and 0.65."""
        points, _, errors = self.bands("--bands", "4", "--grid", "-3", "3", "61")
        self.assertEqual(points, [24, 30, 37], errors)

    def test_bands_that_are_too_narrow(self):
        """Eight bands of equal shares are 0.32 to 0.49 wide in the middle, below 0.41: there are fewer, and none is narrower."""
        points, _, errors = self.bands("--bands", "8", "--grid", "-3", "3", "61")
        self.assertIn("warning: 8 bands are too many: the band from ", errors)
        self.assertIn(f"the plan has {len(points) + 1}\n", errors)
        self.assertTrue(1 < len(points) < 7)
        self.assertTrue(all(0.1 * (high - low) > 0.4 for low, high in zip(points, points[1:])))

    def test_a_grid_with_too_few_points(self):
        points, _, errors = self.bands("--bands", "5", "--prior", "flat", "--grid", "-40", "40", "3")
        self.assertEqual(points, [1, 2], errors)
        self.assertIn("5 bands are too many: the grid has too few points; the plan has 3", errors)

    def test_sessions_until_the_counts_mean_something(self):
        """At the rate 1 / 4 ten shows take 40 visits, and a band with a quarter of the examinees has them in 160 sessions."""
        self.assertEqual(band_points.sessions_needed((1, 4), 0.25), 160)
        _, said, _ = self.bands("--bands", "4", "--prior", "flat", "--grid", "-4", "4", "20")
        self.assertIn("band 0: -4 to -2.31579, 25.0% of the expected examinees; an item at the rate of its visits is shown 10 times in about 40 sessions\n",
                      said)

    def test_a_remark_with_the_abilities(self):
        self.bands("--bands", "2", "--prior", "flat", "--grid", "-2", "2", "4")
        self.assertIn("\n# bands of abilities begin at 0.666667\nbands 2\n", self.read("o.plan.txt"))

    def test_a_rate_of_visits(self):
        """Ten of ten items: each is in every test. With four bands the rate 1 / 2 of visits can be met, and 1 / 5 cannot."""
        words = ("--bands", "4", "--prior", "flat", "--grid", "-4", "4", "20")
        for rate, wanted in (("2", "the rate 1/2 is of the visits of a band, and a session visits several of 4: on average an item is shown in 10/10"),
                             ("5", "the rate 1/5 of the visits of a band cannot be met with 4 bands: on average an item is shown in 10/10 of the sessions")):
            self.write("items", self.ITEMS)
            _, _, errors = self.tool("irt_bank", "--items", "items", "--out", "o", "--program", self.takes_all(), "--length", "10", "--rate", "1", rate,
                                     "--key", "0" * 64, *words)
            self.assertIn(wanted, errors)
        self.assertNotIn("the rate", self.bands(*words)[2])

    def test_bands_without_a_rate(self):
        self.write("items", self.ITEMS)
        self.assertEqual(self.tool("irt_bank", "--items", "items", "--out", "o", "--length", "5", "--bands", "3"),
                         (1, "", "--bands is not used without --rate\n"))
        for number in ("1", "9"):
            self.assertEqual(self.tool("irt_bank", "--items", "items", "--out", "o", *self.RATE, "--bands", number)[0], 2)


@needs_numpy
class Refusals(Converter):
    def refuses(self, files, words, *more):
        with self.subTest(words):
            status, errors = self.convert(files, *more)
            self.assertEqual(status, 1, errors)
            self.assertIn(words, errors.splitlines()[-1])
            with self.assertRaises(FileNotFoundError):
                self.read("o.bank.csv")

    def test_parameters(self):
        many = HEAD + "".join(f"B{k},2PL,1,0,\n" for k in range(513))
        for text, words in (
                ("", "items: empty"), ("a;b\n1;0\n", "parted by semicolons; give --separator semicolon"), ("x,y\n1,2\n", "none of the known conventions"),
                ("lambdaj,delta1\n1,2\n", "rating scale model"), ("a,a,b\n1,1,0\n", "column a is there twice"),
                (HEAD + "A,2PL,1,zero,\n", "line 2 column PAR2: 'zero' is not a finite number"),
                (HEAD + "A,2PL,1,inf,\n", "line 2 column PAR2: 'inf' is not a finite number"),
                (HEAD + "A,2PL,1,\n", "line 2: 4 fields, the header has 5"),
                (HEAD + "A,2PL,1,0,\nA,2PL,1,0,\n", "line 3: item A is in line 2 too"),
                (HEAD + "A,2PL,-1,0,\n", "slope -1 is not above 0"), (HEAD + "A,3PL,1,0,\n", "3PL takes 3 parameters, has 2"),
                (HEAD + "A,3PL,1,0,1.2\n", "lower asymptote 1.2"), (HEAD + "A,GR,1,.5,-.5\n", "thresholds of GR do not ascend"),
                (HEAD + "A,NRM,1,0,\n", "model 'NRM' is not known"),
                ("ID,MODEL,PAR1,PAR2,PAR3,PAR4,PAR5,PAR6\nA,GPC,1,0,0,0,0,0\n", "has 6 categories; shadowd takes at most 5"),
                ("a1,a2,d\n1,0.5,0\n", "more than one dimension"), ("a,b1,b2\n1,0,1\n", "thresholds without a model"),
                ("a1,ak0,ak1,ak2,d0,d1,d2\n1,0,2,1,0,0,0\n", "nominal response model"), (HEAD, "0 items"),
                (many, "513 items; shadowd takes 1 to 512")):
            self.refuses({"items": text}, words, "--length", "1")
        self.refuses({"items": HEAD + "A,2PL,50,0,\n"}, "lower --information-unit (at most 1600)", "--length", "1",
                     "--information-unit", "10000")

    def test_attributes(self):
        for text, words in (
                ("ID,K\nA,x\n", "item B has no line"), ("ID,K\nA,x\nC,x\n", "no item has the ID 'C'"),
                ("ID,K\nA,x\nA,x\n", "line 3: item A is in line 2 too"), ("K\nx\n", "no column ID")):
            self.refuses(dict(items=TWO, attributes=text), words, "--length", "1")
        for value, words in (("5.25", "multiply the column and its bounds by 100"), ("-1", "not a whole number"),
                             ("65536", "not a whole number"), ("", "not a whole number")):
            self.refuses(dict(items=TWO, attributes=f"ID,W\nA,{value}\nB,1\n"), words, "--length", "1", "--quantity", "W")

    def test_constraints(self):
        for rules, words in (
                (RULES + "c0,Number,Item,,1,2\n", "one length; LB 1 is not UB 2"),
                (RULES + "c0,Number,Item,,3,3\n", "length 3, the bank has 2 items"),
                (RULES + "c1,Number,Item,K == x,1,1\n", "the length of a test is missing"),
                (ONE_ITEM + "c1,Number,Item,Q == x,1,1\n", "no attribute 'Q'; there are ID, STID, K, W"),
                (ONE_ITEM + "c1,Number,Item,K == z,1,1\n", "no item meets"),
                (ONE_ITEM + "c1,Number,Item,K == x,2,2\n", "at least 2 asked, 1 items meet"),
                (ONE_ITEM + "c1,Number,Item,K == x,2,1\n", "LB 2 is above UB 1"),
                (ONE_ITEM + "c1,Number,Item,W > 0,2,2\n", "at least 2 asked, a test has 1 items"),
                (ONE_ITEM + "c1,Number,Item,K == x,0.5,1\n", "line 3 column LB: '0.5' is not a whole number"),
                (ONE_ITEM + "c1,Number,Item,K ~ x,1,1\n", "c1: after K one of"),
                (ONE_ITEM + "c1,Sum,Item,W,1,9\n", "'W' is no quantity; add --quantity W"),
                (ONE_ITEM + "c1,Number,Stimulus,K == x,1,1\n", "no row on a choice of passages"),
                (ONE_ITEM + "c1,Number,Stimulus,,2,2\n", "at least 2 passages asked, there are 1"),
                (ONE_ITEM + "c1,AllOrNone,Item,K == y,,\n", "item B has a passage already"),
                (ONE_ITEM + "c1,AllOrNone,Item,K == x,,\nc2,Number,Stimulus,,0,1\n", "AllOrNone makes passages"),
                (ONE_ITEM + "c1,Order,Item,W,,\n", "is not a rule of shadowd"),
                (ONE_ITEM + "".join(f"e{k},Enemy,Item,K == x,,\n" for k in range(129)), "129 rows; shadowd takes at most 128"),
                ("TYPE,WHAT,CONDITION,LB\n", "no column UB")):
            self.refuses(dict(items=TWO, attributes=ATTRIBUTES, constraints=rules), words)

    def test_priors_that_the_grid_does_not_have(self):
        one, half = ("--length", "1"), "0.5"
        self.refuses({"items": TWO}, "--prior 10 1: 0.0% of it lies on the grid from -4 to 4", *one, "--prior", "10", "1")
        self.refuses({"items": TWO}, "--prior 0 0.001: the standard deviation is below half a step of the grid, 0.2", *one, "--prior", "0", "0.001")
        self.refuses({"items": TWO}, "--prior 50 10: 0.0% of it lies on the grid", *one, "--prior", "50", "10")
        for words, wanted in ((("--prior", "4", "1", "--grid", "-4", "4.1", "41"), "54.0% of the prior lies on the grid"), (("--prior", "2.5", "1"), "93.3% of"),
                              (("--prior", "0", half, "--grid", "-4", "4", "13"), "the prior's standard deviation 0.5 is below a step of the grid, 0.6667")):
            status, errors = self.convert({"items": TWO}, *one, *words)
            self.assertEqual((status, wanted in errors), (0, True), errors)
        for words in (("--prior", "1", "1"), ("--prior", "0", half), ("--prior", "flat"), ("--prior", "0", "3", "--grid", "-9", "9", "61")):
            status, errors = self.convert({"items": TWO}, *one, *words)
            self.assertEqual((status, "lies on" in errors, "is below" in errors), (0, False, False), errors)

    def test_parameters_of_another_metric(self):
        """T-scores on a grid of logits inform nothing there; on a grid of their own they are taken, and forms are tried at
        30 to 70, or at the point below where one lies half way between two."""
        items = {"items": HEAD + "A,2PL,0.12,45,\nB,2PL,0.1,52,\nC,2PL,0.09,61,\n"}
        self.refuses(items, "the items inform 0.000 at the abilities -2, -1, 0, 1, 2; difficulties are 45 to 61. Parameters, --grid and --prior are in "
                            "one metric: for T-scores give --grid 10 90 61 --prior 50 10", "--length", "1")
        self.write("items", items["items"])
        status, said, errors = self.tool("irt_bank", "--items", "items", "--length", "2", "--out", "o", "--grid", "10", "90", "61", "--prior", "50", "10",
                                         "--program", self.takes_all())
        self.assertEqual((status, re.findall("ability ([-+0-9.]+): best", said)), (0, ["+30", "+39.3333", "+50", "+59.3333", "+70"]), errors)

    def test_nothing_is_written_before_the_program_took_it(self):
        self.refuses({"items": TWO}, "No such file or directory", "--length", "1", "--program", "nowhere")
        self.write("no", "#!/bin/sh\necho plan: line 3 word\nexit 4\n")
        os.chmod(self.path("no"), 0o755)
        status, errors = self.convert({"items": TWO}, "--length", "1", "--program", self.path("no"))
        self.assertEqual((status, errors.splitlines()[-1]), (3, "o: shadowd check, status 4: plan: line 3 word: length 1"))
        self.assertFalse(os.path.exists(self.path("o.bank.csv")))

    def test_command_line(self):
        self.refuses({"items": TWO}, "2 to 61 points", "--length", "1", "--grid", "-4", "4", "62")
        self.refuses({"items": TWO}, "--quantity needs --attributes", "--length", "1", "--quantity", "W")
        self.refuses({"items": TWO}, "--rate needs --key", "--length", "1", "--rate", "1", "2")
        self.refuses({"items": TWO}, "the standard deviation from 0.001", "--length", "1", "--prior", "0", "0")


@needs_numpy
class Usage(Folder):
    def test_help_and_a_faulty_command_line(self):
        for tool in ("irt_bank", "explain", "score", "simulate"):
            status, said, errors = self.tool(tool, "--help")
            self.assertEqual((status, "usage: " in said, errors), (0, True, ""))
            status, said, errors = self.tool(tool)
            self.assertEqual((status, said, "usage: " in errors), (2, "", True))


@needs_numpy
class Warnings(Converter):
    def warns(self, words, files, *more, wanted=0):
        with self.subTest(words):
            status, errors = self.convert(files, *more)
            self.assertEqual(status, wanted, errors)
            self.assertIn(words, errors)

    def test_each(self):
        one = ("--length", "1")
        self.warns("no middle", {"items": TWO}, *one, "--grid", "-4", "4", "40")
        self.warns("flat prior", {"items": TWO}, *one, "--prior", "flat")
        self.warns("above half the least standard error of a test, 2.000", {"items": "a,b\n1,0\n"}, *one, "--grid", "-4", "4", "7")
        self.warns("informs little at the ends of the grid, where the prior has 5.7%", {"items": "a,b\n2,0\n"}, *one)
        self.assertEqual("informs little" in self.convert({"items": "a,b\n2,0\n"}, *one, "--prior", "0", "0.8")[1], False)
        self.assertEqual("informs little" in self.convert({"items": "a,b\n2,0\n"}, *one, "--prior", "flat")[1], True)
        self.warns("slopes below 0.2 or above 3: 1 items (item1)", {"items": "a,b\n4,0\n"}, *one)
        self.warns("lower asymptotes above 0.5", {"items": "a,b,c\n1,0,0.6\n"}, *one)
        self.warns("difficulties outside the grid", {"items": "a,b\n1,5\n"}, *one)
        self.warns("never above 10 units", {"items": "a,b\n0.1,0\n"}, *one)
        self.warns("the rate 1/2 of the sessions cannot be met: on average an item is shown in 2/2 of the sessions", {"items": TWO}, "--length", "2", "--rate", "1", "2", "--key", "0" * 64)

    def test_rules_that_cannot_agree(self):
        rules = RULES + "c0,Number,Item,,1,1\nx,Number,Item,K == x,1,1\ny,Number,Item,K == y,1,1\n"
        self.warns("the least numbers of the rules on K add up to 2, a test has 1 items",
                   dict(items=TWO, attributes=ATTRIBUTES, constraints=rules), wanted=11)
        rules = RULES + "c0,Number,Item,,2,2\nx,Number,Item,K == x,0,1\ny,Number,Item,K == y,0,0\n"
        self.warns("the greatest numbers of the rules on K add up to 1, a test has 2 items",
                   dict(items=TWO, attributes=ATTRIBUTES, constraints=rules), wanted=11)
        rules = RULES + "c0,Number,Item,,1,1\nx,Number,Item,K == x,1,1\nxy,Number,Item,\"K %in% c(x,y)\",1,1\n"
        status, errors = self.convert(dict(items=TWO, attributes=ATTRIBUTES, constraints=rules))
        self.assertEqual((status, "add up to" in errors), (0, False))

    def test_items_in_no_rule(self):
        rules = RULES + "c0,Number,Item,,1,1\ny,Number,Item,W == 7,0,1\n"
        self.warns("1 items are in no rule of content (A)", dict(items=TWO, attributes=ATTRIBUTES, constraints=rules))


@needs_numpy
@needs_program
class WithTheProgram(Converter):
    def test_what_is_written_is_taken(self):
        rules = ONE_ITEM + "x,Number,Item,K == x,0,1\nps,Number,Item,Per Stimulus,1,2\n"
        for name, text in dict(items=TWO, attributes=ATTRIBUTES, constraints=rules).items():
            self.write(name, text)
        status, said, errors = self.tool("irt_bank", "--items", "items", "--attributes", "attributes", "--constraints",
                                         "constraints", "--out", "o", "--program", PROGRAM, "--grid", "-4", "4", "41")
        self.assertEqual(status, 0, errors)
        self.assertIn("check: bank items 2 grid 41 quantities 0 stimuli 1\n", said)
        self.assertIn("ability +0: best form informs 0.250, standard error 2.000, proved nodes 1\n", said)

    def test_a_form_is_tried_at_a_point_of_the_grid(self):
        """Items of slope 1 and difficulty 0 inform 1 / (2 cosh(t / 2)) squared; half way between -4 and 0 the lower point is the estimate."""
        self.write("items", TWO)
        status, said, errors = self.tool("irt_bank", "--items", "items", "--length", "1", "--out", "o", "--program", PROGRAM, "--grid", "-4", "4", "3",
                                         "--prior", "0", "2")
        self.assertEqual(status, 0, errors)
        lines = [line.split(",")[0] for line in said.splitlines() if line.startswith("ability")]
        self.assertEqual(lines, [f"ability {t:+g}: best form informs {1 / (2 * math.cosh(t / 2)) ** 2:.3f}" for t in (-4, -4, 0, 0, 4)])

    def test_a_fault_is_translated(self):
        self.write("items", TWO)
        words = ("irt_bank", "--items", "items", "--length", "1", "--out", "o", "--program", PROGRAM, "--grid", "-1", "1", "3")
        status, _, errors = self.tool(*words, "--rate", "1", "2", "--key", "xyz")
        self.assertEqual(status, 3)
        self.assertIn("plan: line 10 number: key xyz", errors)


if __name__ == "__main__":
    unittest.main()
