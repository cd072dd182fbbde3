"""The chain from table to score: what must not be taken in silence, and files that do not belong together."""
import csv
import hashlib
import io
import json
import os
import subprocess
import sys
import unittest

import data_of_bank_a as a
from common import PROGRAM, ROOT, TOOLS, Folder, needs_numpy, needs_program
from shadowtools.agency.bank_of_map import fault_of_bank
from shadowtools.formats.examination import read_bank

FOUR = "ID,a,b\nI1,1.2,-0.5\nI2,0.8,0.4\nI3,1.5,0\nI4,1,1\n"
ATTRIBUTES = "ID,K,WORDS\nI1,x,10\nI2,x,20\nI3,y,30\nI4,y,40\n"
HEAD = "CONSTRAINT,TYPE,WHAT,CONDITION,LB,UB,ONOFF\nlength,Number,Item,,2,2,\n"


class Tables(Folder):
    """irt_bank.py with four items, which a test changes."""

    def convert(self, *words, items=FOUR, attributes=ATTRIBUTES, constraints=HEAD):
        given = []
        for name, text in (("items", items), ("attributes", attributes), ("constraints", constraints)):
            if text is not None:
                with open(self.path(name), "wb") as file:
                    file.write(text if isinstance(text, bytes) else text.encode())
                given += ["--" + name, name]
        status, said, errors = self.tool("irt_bank", "--out", "o", "--grid", "-2", "2", "5", *given, *words)
        self.assertNotIn("Traceback", errors)
        return status, errors

    def refuses(self, wanted, *words, status=1, **texts):
        with self.subTest(wanted):
            found, errors = self.convert(*words, **texts)
            self.assertEqual(found, status, errors)
            self.assertIn(wanted, errors)
            self.assertFalse(os.path.exists(self.path("o.bank.csv")))

    def bank(self, *words, **texts):
        status, errors = self.convert(*words, **texts)
        self.assertEqual(status, 0, errors)
        return self.read("o.bank.csv")


@needs_numpy
class Parameters(Tables):
    def test_irt_parameters_of_mirt_keep_their_asymptotes(self):
        """g is the lower asymptote, u the upper one, as `coef(m, simplify = TRUE, IRTpars = TRUE)` has them."""
        with_three = self.bank("--length", "1", items="a,b,g,u\n1.2,-0.5,0.25,1\n1,0,0.2,1\n", attributes=None, constraints=None)
        self.assertEqual([item["model"] for item in json.loads(self.read("o.map.json"))["items"]], ["3PL", "3PL"])
        self.assertEqual(with_three, self.bank("--length", "1", items="a,b,c\n1.2,-0.5,0.25\n1,0,0.2\n", attributes=None, constraints=None))
        with_four = self.bank("--length", "1", items="a,b,g,u\n1.2,-0.5,0.25,0.9\n", attributes=None, constraints=None)
        self.assertEqual(with_four, self.bank("--length", "1", items="a,b,c,d\n1.2,-0.5,0.25,0.9\n", attributes=None, constraints=None))
        self.assertNotEqual(with_three.splitlines()[1], with_four.splitlines()[1])

    def test_columns_that_nothing_reads(self):
        none = {"attributes": None, "constraints": None}
        self.refuses("column 'guess': not read as columns", "--length", "1", items="a,b,guess\n1,0,0.2\n", **none)
        self.refuses("none of the known conventions", "--length", "1",
                     items="Gussng,Dffclt,Dscrmn\n0.2,0,1\n", **none)
        self.refuses("columns 'se_a', 'se_b'", "--length", "1", items="a,se_a,b,se_b\n1,.1,0,.1\n", **none)
        self.refuses("column a: 2 is not used by the model 1PL", "--length", "1", items="MODEL,a,b\n1PL,2,0\n", **none)
        self.refuses("column g: 0.2 is not used by the model GR", "--length", "1", items="MODEL,a,b1,b2,g\nGR,2,0,1,0.2\n", **none)
        self.refuses("columns c and g are both the lower asymptote", "--length", "1", items="a,b,c,g\n1,0,.1,.2\n", **none)
        self.refuses("columns A and a differ by capital letters alone", "--length", "1", items="A,a,b\n1,2,0\n", **none)
        self.refuses("both betaj and deltaj have values", "--length", "1", items="alphaj,betaj1,deltaj1\n1,0,1\n", **none)
        self.refuses("par1, par2, .. have a gap", "--length", "1", items="ID,MODEL,PAR1,PAR2,PAR3\nA,GR,1,NA,2\n", **none)
        self.refuses("--model GR: no item of items lacks a model", "--length", "1", "--model", "GR", items="MODEL,a,b1,b2\nGR,1,0,1\n", **none)

    def test_names_of_other_programs(self):
        """ltm's coef() of a tpm has Gussng, Dffclt, Dscrmn and a fourth column."""
        ltm = "Item,Gussng,Dffclt,Dscrmn,P(x=1|z=0)\nI1,0.2,0.4,1.5,0.5\n"
        words = ("--length", "1", "--columns", "a=Dscrmn,b=Dffclt,c=Gussng")
        found = self.bank(*words, "--ignore", "P(x=1|z=0)", items=ltm, attributes=None, constraints=None)
        self.assertEqual(found, self.bank("--length", "1", items="ID,a,b,c\nI1,1.5,0.4,0.2\n", attributes=None, constraints=None))
        os.remove(self.path("o.bank.csv"))
        self.refuses("column 'P(x=1|z=0)': not read as columns", *words, items=ltm, attributes=None, constraints=None)
        self.refuses("--columns: items has no column 'Slope'", "--length", "1", "--columns", "a=Slope", items=ltm, attributes=None,
                     constraints=None)
        self.refuses("--ignore: items has no column 'x'", "--ignore", "x")

    def test_numbers(self):
        for text in ("1_0", "nan", "inf", "0x1", "١", "1e999"):
            self.refuses(f"column a: '{text}' is not a finite number", items=FOUR.replace("1.2", text))
        self.refuses("a slope of 1e+06", items=FOUR.replace("1.2", "1e6"))


@needs_numpy
class FromMirt(Tables):
    def test_both_exports_of_mirt_give_the_bank_of_the_example(self):
        """The knowledge example as write.csv has it: row names without a heading, and a1,d,g,u or, with IRTpars, a,b,g,u."""
        example = os.path.join(ROOT, "examples", "knowledge")
        with open(os.path.join(example, "items.csv"), encoding="utf-8", newline="") as file:
            items = [(row["ID"], *(float(row[f"PAR{k}"]) for k in (1, 2, 3))) for row in csv.DictReader(file)]
        with open(os.path.join(example, "knowledge.bank.csv"), encoding="utf-8", newline="") as file:
            wanted = file.read()
        slopes = '"","a1","d","g","u"\n' + "".join(f'"{name}",{a!r},{-a * b!r},{c!r},1\n' for name, a, b, c in items)
        irt = '"","a","b","g","u"\n' + "".join(f'"{name}",{a!r},{b!r},{c!r},1\n' for name, a, b, c in items)
        for text in (slopes, irt):
            self.write("mirt.csv", text)
            status, _, errors = self.tool("irt_bank", "--items", "mirt.csv", "--attributes", os.path.join(example, "attributes.csv"),
                                          "--constraints", os.path.join(example, "constraints.csv"), "--quantity", "WORDS", "--out", "o")
            self.assertEqual(status, 0, errors)
            self.assertEqual(self.read("o.bank.csv"), wanted)


@needs_numpy
class Constraints(Tables):
    def refuses_row(self, wanted, row, *words):
        self.refuses(wanted, *words, constraints=HEAD + row + "\n")

    def test_rows(self):
        self.refuses_row("line 3: Number, Item without a condition is the length of a test, which line 2 has already", "b,Number,Item,,3,3,")
        self.refuses_row("Enemy needs a condition", "b,Enemy,Item,,,,")
        self.refuses_row("Exclude needs a condition", "b,Exclude,Item,,,,")
        self.refuses_row("Number has neither LB nor UB", "b,Number,Item,K == x,,,")
        self.refuses_row("Sum has neither LB nor UB", "b,Sum,Item,WORDS,,,", "--quantity", "WORDS")
        self.refuses_row("Include has no bounds; leave LB and UB empty", "b,Include,Item,K == x,1,1,")
        self.refuses_row("column LB: '1_0' is not a finite number", "b,Number,Item,K == x,1_0,,")
        self.refuses_row("column ONOFF: 'maybe' is neither ON nor OFF", "b,Number,Item,K == x,1,1,maybe")
        self.refuses_row("the sum of WORDS is 600 to 1200; 2 items have 30 to 70", "b,Sum,Item,WORDS,600,1200,", "--quantity", "WORDS")
        self.refuses("'LOW': a table of constraints has", constraints=HEAD.replace("LB", "LB,LOW").replace(",2,2,", ",2,2,,"))

    def test_no_of_onoff_is_off(self):
        for word, count in (("NO", 0), ("no", 0), ("OFF", 0), ("FALSE", 0), ("0", 0), ("YES", 1), ("ON", 1), ("1", 1), ("", 1), ("NA", 1)):
            self.bank(constraints=HEAD + f"b,Number,Item,K == x,1,1,{word}\n")
            self.assertEqual(self.read("o.plan.txt").count("\ncount "), count, word)


@needs_numpy
class Options(Tables):
    def test_options_that_are_not_used(self):
        self.refuses("--length: the table of --constraints has the length", "--length", "2")
        self.refuses("--key is not used without --rate", "--key", "0" * 64)

    def test_values(self):
        for option, value in (("--scaling", "-1"), ("--scaling", "0"), ("--scaling", "nan"), ("--log-unit", "0"), ("--log-unit", "-1"),
                              ("--information-unit", "nan"), ("--information-unit", "0"), ("--budget", "1_0"), ("--sessions", "-1")):
            self.refuses(f"argument {option}:", option, value, status=2)
        self.refuses("--scaling is there twice", "--scaling", "1", "--scaling", "1.7", status=2)
        self.refuses("--prior nan 1: MEAN SD, or flat", "--prior", "nan", "1")
        self.refuses("--grid", "--grid=", status=2)

    def test_a_folder_that_is_not_there(self):
        self.write("items", FOUR)
        status, _, errors = self.tool("irt_bank", "--items", "items", "--length", "1", "--out", "no/o")
        self.assertEqual((status, "no is no folder that can be written to" in errors), (1, True))


@needs_numpy
class Spreadsheets(Tables):
    def test_separators(self):
        comma = self.bank()
        for sign, name in (("\t", "tab"), (";", "semicolon")):
            texts = {name: text.replace(",", sign) for name, text in (("items", FOUR), ("attributes", ATTRIBUTES), ("constraints", HEAD))}
            self.assertEqual(self.bank("--separator", name, **texts), comma)
            os.remove(self.path("o.bank.csv"))
            self.refuses(f"parted by {name}s; give --separator {name}", **texts)
        german = FOUR.replace(",", ";").replace(".", ",")
        texts = {"attributes": ATTRIBUTES.replace(",", ";"), "constraints": HEAD.replace(",", ";")}
        self.assertEqual(self.bank("--separator", "semicolon", "--decimal", "comma", items=german, **texts), comma)
        os.remove(self.path("o.bank.csv"))
        self.refuses("'1,2' is not a finite number; give --decimal comma", "--separator", "semicolon", items=german, **texts)

    def test_habits_of_excel(self):
        comma = self.bank()
        self.assertEqual(self.bank(items="sep=,\r\n" + FOUR.replace("\n", "\r\n")), comma)
        self.assertEqual(self.bank(items=b"\xef\xbb\xbf" + FOUR.encode()), comma)
        os.remove(self.path("o.bank.csv"))
        self.refuses("'sep=;' names another separator; give --separator semicolon", items="sep=;\n" + FOUR)
        self.refuses("the text is UTF-16 (Excel's Unicode Text); save it as UTF-8", items=FOUR.encode("utf-16"))
        self.refuses("line 3: byte 0xdc is not UTF-8; save it as UTF-8 (in Excel: CSV UTF-8)", items=FOUR.replace("I2", "Ü").encode("latin-1"))
        self.refuses("line 3: a NUL character", items=FOUR.replace("I2", "I\0"))
        self.refuses("line 3: a quotation mark is not closed", items=FOUR.replace("I2", '"I2'))
        self.refuses("no column ID; rename the column id", attributes=ATTRIBUTES.replace("ID", "id"))
        self.refuses("line 3: item I2: WORDS is ''", "--quantity", "WORDS", attributes=ATTRIBUTES.replace("20", ""))


@needs_numpy
@needs_program
class Infeasible(Tables):
    def test_the_rules_that_clash_are_named(self):
        rules = HEAD.replace("2,2", "3,3") + "few x,Number,Item,K == x,0,1,\nfew y,Number,Item,K == y,0,1,\nspare,Number,Item,WORDS < 35,0,3,\n"
        status, errors = self.convert("--program", PROGRAM, constraints=rules)
        self.assertEqual(status, 11, errors)
        self.assertIn("These 2 of 3 rules cannot be met together in a test of 3 items:", errors)
        self.assertEqual([word in errors for word in ("row 0: few x", "row 1: few y", "spare")], [True, True, False])


@needs_numpy
class Digests(Tables):
    def test_the_map_has_those_of_bank_and_plan(self):
        self.bank()
        found = json.loads(self.read("o.map.json"))["sha256"]
        for name, path in (("bank", "o.bank.csv"), ("plan", "o.plan.txt")):
            self.assertEqual(found[name], hashlib.sha256(self.read(path).encode()).hexdigest())


LETTERS = "ID,STID,K,N,S\nI1,,Reading,1,3.1\nI2,,reading,2,3.10\nI3,,writing,4,03\nI4,,listening,5,3\n"


@needs_numpy
class Meanings(Tables):
    """A blueprint that is not the one that was meant: it is refused, or a warning has the value; a right one beside it has neither."""

    def with_row(self, row, *words, attributes=LETTERS, **texts):
        return self.convert(*words, attributes=attributes, constraints=HEAD + row + "\n", **texts)

    def refuses_row(self, wanted, row, *words, attributes=LETTERS):
        self.refuses(wanted, *words, attributes=attributes, constraints=HEAD + row + "\n")

    def warns(self, wanted, row, *words, count=1, **texts):
        with self.subTest(wanted or row):
            status, errors = self.with_row(row, *words, **texts)
            self.assertEqual(status, 0, errors)
            self.assertIn(wanted, errors)
            self.assertEqual(errors.count("look") + errors.count("takes the items") + errors.count("bars nothing")
                             + errors.count("passage '") + errors.count("is read as"), count, errors)

    def test_sequences(self):
        """R's 1:2 in a set: items 1 and 2, and 4, that is I3."""
        self.with_row('n,Number,Item,"N %in% c(1:2,4)",1,2,')
        self.assertIn("\ncount 1 2 0-2\n", self.read("o.plan.txt"))
        self.with_row('n,Number,Item,"N %in% 4:9",1,2,')
        self.assertIn("\ncount 1 2 2-3\n", self.read("o.plan.txt"))
        os.remove(self.path("o.bank.csv"))
        self.refuses_row("n: no item has N '6:9'; items have 1, 2, 4, 5", 'n,Number,Item,"N %in% c(1, 6:9)",0,2,')

    def test_values_that_no_item_has(self):
        for condition in ('K %in% c(""writing"",""writting"")', 'K == ""writing"" | K == ""writting""', 'K != ""writting""', "K == writing & !(K == writting)"):
            row = f'w,Number,Item,"{condition}",0,2,'
            self.refuses_row("line 3: w: no item has K 'writting'; items have Reading, listening, reading, writing", row)
            self.assertEqual(self.with_row(row, "--absent-values")[0], 0)
            os.remove(self.path("o.bank.csv"))
        self.warns("", 'w,Number,Item,"K %in% c(writing,listening)",0,2,', count=0, attributes=LETTERS.replace("Reading", "reading"))

    def test_values_that_look_alike(self):
        self.warns("attribute K: 'Reading' (line 2) and 'reading' (line 3) look alike", "r,Number,Item,K == reading,0,2,")
        self.warns("attribute K: '\u00e4' ('\\xe4', line 2) and 'a\u0308' ('a\\u0308', line 3) look alike", "r,Number,Item,K == writing,0,2,",
                   attributes=LETTERS.replace("Reading", "\u00e4").replace("reading", "a\u0308"))
        self.warns("attribute STID: 'P 1' (line 2) and 'p  1' (line 3) look alike", "r,Number,Item,K == writing,0,2,",
                   attributes=LETTERS.replace("I1,", "I1,P 1").replace("I2,", "I2,p  1").replace("Reading", "reading"))
        self.warns("", "r,Number,Item,N == 1,0,2,", count=0)
        os.remove(self.path("o.bank.csv"))
        self.refuses("no item has the ID 'e\u0301' ('e\\u0301'); the items have '\u00e9' ('\\xe9'), which differs by its form in Unicode alone",
                     items=FOUR.replace("I1", "\u00e9"), attributes=ATTRIBUTES.replace("I1", "e\u0301"))
        self.refuses("no item has the ID 'i1' ('i1'); the items have 'I1' ('I1'), which differs by capital letters alone",
                     attributes=ATTRIBUTES.replace("I1", "i1"))

    def test_thousands(self):
        words = 'ID,K,WORDS,MORE\nI1,x,10,"1,400"\nI2,x,20,900\nI3,y,30,950\nI4,y,40,1\n'
        for more in ((), ("--decimal", "comma")):
            for row, where in (('w,Sum,Item,WORDS,"1,400",,', "LB"), ('w,Mean,Item,WORDS,,"1,400",', "UB"), ('w,Number,Item,K == x,,"1,400",', "UB")):
                self.refuses_row(f"line 3 column {where}: '1,400' may be 1400 or 1.400", row, "--quantity", "WORDS", *more, attributes=words)
            self.refuses("line 2 column MORE: '1,400' may be 1400 or 1.400", "--quantity", "MORE", *more, attributes=words)
        self.refuses_row("line 3 column LB: '1,400,000' may be 1400000; write", 'w,Sum,Item,WORDS,"1,400,000",,', "--quantity", "WORDS", attributes=words)
        self.refuses("column b: '1,400' is not a finite number; give --decimal comma, or write a thousand without a comma",
                     items=FOUR.replace("-0.5", '"1,400"'))
        self.warns("attribute MORE: '1,400' (line 2) is read as 1.400", "m,Number,Item,MORE > 2,0,2,", "--decimal", "comma", attributes=words)
        self.assertIn("\ncount 0 2 1-2\n", self.read("o.plan.txt"))
        self.assertEqual(self.with_row('w,Mean,Item,WORDS,"15,5",,', "--quantity", "WORDS", "--decimal", "comma", attributes=words)[0], 0)
        self.assertIn("\nquantity 0 31 ", self.read("o.plan.txt"))

    def test_passages_that_are_none(self):
        for name in ("0", "-", "N/A", "none"):
            self.warns(f"passage '{name}' has 4 items, which are served one after another", "r,Number,Item,N == 1,0,2,",
                       attributes=LETTERS.replace(",,", f",{name},"))
        self.warns("passage 'P' has 3 items, more than a test of 2", "r,Number,Item,N == 1,0,2,", attributes=LETTERS.replace(",,", ",P,", 3))
        for name in ("P", "NA", ""):
            self.warns("", "r,Number,Item,N == 1,0,2,", count=0, attributes=LETTERS.replace(",,", f",{name},", 2))

    def test_an_id_is_a_text(self):
        none = {"attributes": None, "constraints": None}
        self.bank("--length", "1", "--decimal", "comma", items='ID,a,b\n"7,5",1,"0,5"\nNA,1,0\n"1,250",1,0\n', **none)
        found = json.loads(self.read("o.map.json"))["items"]
        self.assertEqual([one["id"] for one in found], ["7,5", "NA", "1,250"])
        self.assertEqual(found[0]["parameters"], [1.0, 0.5])
        self.bank("--decimal", "comma", items=FOUR.replace("I1", '"7,5"'), attributes=ATTRIBUTES.replace("I1", '"7,5"'))
        self.assertEqual(json.loads(self.read("o.map.json"))["items"][0]["attributes"]["ID"], "7,5")
        self.bank("--length", "1", items="ID,a,b\n,1,0\n,1,1\n", **none)
        self.assertEqual([one["id"] for one in json.loads(self.read("o.map.json"))["items"]], ["item1", "item2"])

    def test_numbers_that_are_codes(self):
        attributes = LETTERS.replace("Reading", "reading")
        self.warns("s: the number 3.1 takes the items whose S is '3.1' or '3.10'", "s,Number,Item,S == 3.1,0,2,", attributes=attributes)
        self.warns("s: the number 3 takes the items whose S is '03' or '3'", 's,Number,Item,"S %in% c(3, 3.10)",0,2,', count=2, attributes=attributes)
        self.warns("s: the number 12 takes the items whose ID is '0012'", "s,Number,Item,ID == 12,0,2,",
                   items=FOUR.replace("I1", "0012"), attributes=attributes.replace("I1", "0012"))
        for condition in ('S == ""3.1""', "N == 1", "N == 1.0", "S > 3"):
            self.warns("", f's,Number,Item,"{condition}",0,2,', count=0, attributes=attributes)

    def test_an_enemy_of_nothing(self):
        self.warns("e: one item alone meets 'N == 1', I1, so the row bars nothing", "e,Enemy,Item,N == 1,,,")
        self.warns("", "e,Enemy,Item,N < 3,,,", count=0)

    def test_intercepts_of_mirt_have_no_scaling(self):
        none = {"attributes": None, "constraints": None}
        mirt = "a1,d,g,u\n1.2,0.1,0,1\n"
        self.refuses("--scaling 1.702: the intercepts of items are mirt's, whose D is 1", "--length", "1", "--scaling", "1.702", items=mirt, **none)
        self.bank("--length", "1", "--scaling", "1", items=mirt, **none)
        self.bank("--length", "1", "--scaling", "1.702", items="a,b\n1,0\n", **none)


# An item of each model, a steep and a flat one, and one in field test.
EACH_MODEL = ("ID,MODEL,PAR1,PAR2,PAR3,PAR4\nA,1PL,0.3,,,\nB,2PL,9.5,-1.5,,\nC,3PL,1.2,0.4,0.21,\nD,4PL,0.05,-3,0.1,0.93\n"
              "E,GR,1.7,-1,0.2,1.4\nF,GPC,0.9,0.5,-0.4,\nG,PC,-0.7,0.1,0.9,2\nH,FIELD,3,,,\n")


@needs_numpy
class Bound(Tables):
    """A plan names its map, and the map has the numbers of the bank: what is changed in one of them is found, in each tool that reads all."""

    def setUp(self):
        super().setUp()
        attributes = "ID,STID,WORDS\n" + "".join(f"{name},{'text' if name in 'AB' else ''},{50 + k}\n" for k, name in enumerate("ABCDEFGH"))
        self.bank("--quantity", "WORDS", "--scaling", "1.7", "--prior", "0.2", "1.1", items=EACH_MODEL, attributes=attributes)
        with open(self.path("j"), "wb") as file:
            file.write(a.journal([a.started(0, 70), a.served(0, 0, 2, {2, 3}), a.answered(0, 0, 1), a.closed(0)]))
        self.map, self.plan = json.loads(self.read("o.map.json")), self.read("o.plan.txt")

    def score(self, *words):
        return self.tool("score", "o.bank.csv", "o.plan.txt", "o.map.json", "--journal", "j", "--unaudited", *words)

    def written(self, plan=None, bank=None, **changes):
        """Writes a map with changes, and other texts whose digests it has."""
        found = dict(self.map, **changes)
        for name, end, text in (("plan", ".plan.txt", plan), ("bank", ".bank.csv", bank)):
            if text:
                self.write("o" + end, text)
                found["sha256"] = dict(found["sha256"], **{name: hashlib.sha256(text.encode()).hexdigest()})
        self.write("o.map.json", json.dumps(found))

    def changed_items(self, change):
        items = json.loads(json.dumps(self.map["items"]))
        change(items)
        return items

    def test_the_right_files(self):
        status, said, errors = self.score()
        self.assertEqual((status, errors), (0, ""))
        row = next(csv.DictReader(io.StringIO(said)))
        digests = [hashlib.sha256(self.read(name).encode()).hexdigest() for name in ("o.bank.csv", "o.plan.txt")]
        self.assertEqual([row[name] for name in ("bank", "plan", "map", "journal")], [*digests, "bound", "unbound"])
        self.written()    # another layout of the same JSON
        self.assertEqual(self.score()[:2], (0, said))

    def test_names_of_a_form(self):
        """With the map the form of the program has the names of its items."""
        path = self.write("program", "#!/bin/sh\nprintf 'form 1 6\\nobjective 7 proved nodes 1\\ntree 00\\n'\n")
        os.chmod(path, 0o755)
        words = ("explain", "o.bank.csv", "o.plan.txt", "--program", path)
        first = "This form is proved best: form 1 6, objective 7 proved nodes 1.\n"
        self.assertEqual(self.tool(*words), (0, first, ""))
        self.assertEqual(self.tool(*words, "--map", "o.map.json"), (0, first + "Its items: B, G\n", ""))

    def test_a_map_that_the_plan_does_not_name(self):
        """One logit more for each ability; the same with all difficulties, which gives the same bank; and IDs that were exchanged."""
        def moved(items):
            for one in items:
                places = {"1PL": slice(0, 1), "PC": slice(0, 9), "FIELD": slice(0, 0), "GR": slice(1, 9), "GPC": slice(1, 9)}
                at = places.get(one["model"], slice(1, 2))
                one["parameters"][at] = [value + 1 for value in one["parameters"][at]]

        def exchanged(items):
            items[0]["id"], items[1]["id"] = items[1]["id"], items[0]["id"]

        theta = [one + 1 for one in self.map["theta"]]
        for change in ({"theta": theta}, {"theta": theta, "items": self.changed_items(moved), "prior": ["1.2", "1.1"]},
                       {"items": self.changed_items(exchanged)}, {"prior": ["0.2", "1.2"]}, {"information_unit": 10.0}, {"note": "mine"}):
            with self.subTest(sorted(change)):
                self.written(**change)
                for more in ([], ["--unbound"]):
                    status, said, errors = self.score(*more)
                    self.assertEqual((status, said), (1, ""))
                    self.assertIn("o.map.json: not the map that o.plan.txt names, by its SHA-256 ", errors)
                self.assertIn("not the map that", self.tool("explain", "o.bank.csv", "o.plan.txt", "--map", "o.map.json")[2])
                self.assertIn("not the map that", self.tool("simulate", "o", "--out", "run", "--program", "/bin/true")[2])

    def test_a_plan_that_names_no_map(self):
        plan = "".join(line for line in self.plan.splitlines(True) if "map SHA-256" not in line)
        self.written(plan=plan)
        status, said, errors = self.score()
        self.assertEqual((status, said), (1, ""))
        self.assertIn("o.plan.txt: no line '# map SHA-256 ..'", errors)
        status, said, errors = self.score("--unbound")
        self.assertEqual((status, errors, next(csv.DictReader(io.StringIO(said)))["map"]), (0, "", "unbound"))
        for change, wanted in (({"theta": [one + 1 for one in self.map["theta"]]}, "item A: its information at -1 is "),
                               ({"prior": ["0.2", "1"]}, "not the prior of o.map.json: the prior at -2 is -"),
                               ({"information_unit": 999.0}, "item A: its information at "), ({"D": 1.71}, "item A: its information at "),
                               ({"items": self.changed_items(lambda items: items[0].update(passage=2))}, "item A: its passage, or a quantity"),
                               ({"items": self.changed_items(lambda items: items[1]["attributes"].update(WORDS="9"))}, "item B: its passage, or a quantity"),
                               ({"items": self.changed_items(lambda items: items[7].update(parameters=[2.0]))}, "item H: its log-likelihoods at -2 "),
                               ({"items": self.changed_items(lambda items: items[3].update(parameters=[0.05, 1e300, 0.1, 0.93]))}, "item D: its ")):
            with self.subTest(wanted):
                self.written(plan=plan, **change)
                status, said, errors = self.score("--unbound")
                self.assertEqual((status, said, errors.count("\n")), (1, "", 1), errors)
                self.assertIn(wanted, errors)

    def test_each_parameter_of_each_model(self):
        """The bank is that of the map; with any parameter moved by 0.02 it is not."""
        bank = read_bank(self.path("o.bank.csv"))
        self.assertIsNone(fault_of_bank(self.map, bank))
        for k, one in enumerate(self.map["items"][:7]):
            for place in range(len(one["parameters"])):
                items = self.changed_items(lambda found: found[k]["parameters"].__setitem__(place, one["parameters"][place] + 0.02))
                self.assertIn(f"item {one['id']}: its ", fault_of_bank(dict(self.map, items=items), bank) or "", (k, place))

    def test_a_number_of_the_bank(self):
        """A cell that is one more than it should be, with its digest in the map."""
        lines = self.read("o.bank.csv").split("\n")
        for column in (1, 3, 4, 8, 9, 18):
            cells = lines[3].split(",")
            cells[column] = str(int(cells[column]) + (1 if int(cells[column]) >= 0 else -1))
            self.written(bank="\n".join([*lines[:3], ",".join(cells), *lines[4:]]))
            status, _, errors = self.score()
            self.assertEqual((status, "item C: its " in errors), (1, True), (column, errors))


@needs_numpy
class Bytes(Tables):
    def test_results_are_in_utf_8(self):
        """On a console in Latin-1, or in ASCII, the digest of the record is that of the bytes that were printed."""
        self.bank()
        with open(self.path("j"), "wb") as file:
            file.write(a.journal([a.started(0, 70), a.served(0, 0, 2, {2, 3}), a.answered(0, 0, 1), a.closed(0)]))
        words = [sys.executable, os.path.join(TOOLS, "score.py"), "o.bank.csv", "o.plan.txt", "o.map.json", "--journal", "j", "--unaudited",
                 "--cuts", "-1", "--levels", "nicht genügend", "genügend", "--record", "record"]
        for encoding in ("latin-1", "ascii", "utf-8"):
            done = subprocess.run(words, cwd=self.folder, capture_output=True, env=dict(os.environ, PYTHONIOENCODING=encoding))
            self.assertEqual((done.returncode, done.stderr), (0, b""))
            self.assertIn("genügend".encode(), done.stdout)
            self.assertEqual(json.loads(self.read("record"))["sha256"]["results"], hashlib.sha256(done.stdout).hexdigest())

    def test_a_journal_without_a_session(self):
        self.bank()
        for data in (b"", b"SHADOWJ2\0"):
            with open(self.path("j"), "wb") as file:
                file.write(data)
            self.assertEqual(self.tool("score", "o.bank.csv", "o.plan.txt", "o.map.json", "--journal", "j", "--unaudited"),
                             (1, "", "j: the journal has no session; there is nothing to score\n"))


class Scores(Folder):
    """score.py with the files of the README's example, of which a test changes one."""

    def setUp(self):
        super().setUp()
        self.texts(bank=a.BANK.encode(), plan=a.PLAN.encode())
        self.journal(a.history() + [a.closed(1)])

    def texts(self, own=True, **texts):
        """Writes texts; where they are the map's own, the map has their digests."""
        found = a.scale_map()
        for name, text in texts.items():
            with open(self.path(name), "wb") as file:
                file.write(text)
            if own:
                found["sha256"][name] = hashlib.sha256(text).hexdigest()
        self.write("map", json.dumps(found))

    def journal(self, payloads):
        with open(self.path("j"), "wb") as file:
            file.write(a.journal(payloads))

    def score(self, *words, bank="bank", plan="plan"):
        return self.tool("score", bank, plan, "map", "--journal", "j", "--unbound", *words)

    def refuses(self, wanted, *words, **paths):
        with self.subTest(wanted):
            status, said, errors = self.score(*words, **paths)
            self.assertEqual((status, said), (1, ""), errors)
            self.assertIn(wanted, errors)

    def test_the_whole_chain(self):
        status, said, errors = self.score("--record", "record")
        self.assertEqual((status, errors), (0, ""))
        rows = list(csv.DictReader(io.StringIO(said)))
        self.assertEqual([(row["state"], row["audit"]) for row in rows], [("complete", "audited"), ("closed", "audited")])
        record = json.loads(self.read("record"))
        self.assertEqual(record["audit"], "entries 10 sessions 2 finished 2 proved 4 unproved 0 aside 0 nodes 4")
        self.assertEqual(record["sha256"]["results"], hashlib.sha256(said.encode()).hexdigest())
        with open(self.path("j"), "rb") as file:
            self.assertEqual(record["sha256"]["journal"], hashlib.sha256(file.read()).hexdigest())

    def test_a_damaged_bank(self):
        """A bank that is cut off has fewer log-likelihoods in its last row; no score may come of it."""
        self.texts(own=False, bank=a.BANK.encode()[:-4], plan=a.PLAN.encode())
        self.refuses("bank: not the bank of map, by its SHA-256")
        self.texts(bank=a.BANK.encode()[:-4], plan=a.PLAN.encode())
        self.refuses("bank: record 6")

    def test_other_plans(self):
        self.texts(own=False, bank=a.BANK.encode(), plan=a.PLAN.replace("count 1 1", "count 0 1").encode())
        self.refuses("plan: not the plan of map, by its SHA-256")
        self.refuses("plan: not the bank of map", bank="plan", plan="bank")
        for plan, wanted in (("length", "plan: line 1 shape"), ("length 3\nprior 0 0 0\ncount a b 0\n", "plan: line 3 number"),
                             ("length 3\n", "plan: missing prior"), ("length 3\nprior 0 0\n", "plan: prior")):
            self.texts(bank=a.BANK.encode(), plan=plan.encode())
            self.refuses(wanted)
        self.texts(bank=a.BANK.replace("2,9,5", "2,\u00fc,5").encode("latin-1"), plan=a.PLAN.encode())
        self.refuses("bank: ")

    def test_another_examination_s_journal(self):
        """A journal whose second item another one should have been, and the journal of a plan with another length."""
        history = a.history()
        self.journal(history[:3] + [a.served(0, 1, 3, {1, 2, 3}, tree=bytes.fromhex("0100010003000000410300"))])
        self.refuses("journal: bad tree at 196", "--open")
        self.journal(history)
        self.texts(bank=a.BANK.encode(), plan=a.PLAN.replace("length 3", "length 2").encode())
        self.refuses("journal: illegal at 91", "--open")

    @needs_program
    def test_a_plan_with_another_prior(self):
        """A short journal is lawful by several plans: each line of the results has the digests of those that were used, and that the journal names none."""
        history, priors = a.history() + [a.closed(1)], ("prior -10 0 -10", "prior -11 0 -11")
        self.journal(history)
        for prior in priors:
            plan = a.PLAN.replace(priors[0], prior).encode()
            self.texts(bank=a.BANK.encode(), plan=plan)
            status, said, errors = self.score("--program", PROGRAM)
            self.assertEqual(status, 0, errors)
            for row in csv.DictReader(io.StringIO(said)):
                self.assertEqual((row["audit"], row["journal"], row["plan"]), ("audited", "unbound", hashlib.sha256(plan).hexdigest()))
            words = [sys.executable, os.path.join(TOOLS, "audit.py"), "bank", "plan", "j"]
            audited = subprocess.run(words, cwd=self.folder, capture_output=True, text=True)
            self.assertEqual(audited.returncode, 0, audited.stderr)
            self.assertIn(f"plan sha256 {hashlib.sha256(plan).hexdigest()}\n", audited.stderr)

    def test_what_is_not_audited_says_so(self):
        forged = a.history()[:-1] + [a.answered(0, 2, 0), a.closed(1)]
        forged[1] = a.served(0, 0, 2, {1, 2, 3}, tree=bytes.fromhex("000600"))
        self.journal(forged)
        self.refuses("j: ")
        status, said, errors = self.score("--unaudited")
        self.assertEqual((status, errors), (0, ""))
        self.assertEqual([row["audit"] for row in csv.DictReader(io.StringIO(said))], ["unaudited"] * 2)

    def test_open_sessions(self):
        self.journal(a.history())
        self.refuses("1 sessions are open: 1 (booking 71); close them, or give --open")
        self.assertEqual(self.score("--open")[0], 0)

    def test_journals_that_are_none(self):
        for payloads in ([a.answered(0, 0, 1)], [a.started(0, 70), a.started(0, 71)], [a.started(0, 70), a.answered(0, 0, 0)],
                         [a.started(0, 70), a.served(0, 1, 2, {2})], [a.started(0, 70), a.closed(0), a.closed(0)], [b"\7"]):
            self.journal(payloads)
            self.refuses("j: " if payloads == [b"\7"] else "the journal's record", "--unaudited", "--open")

    def test_places_that_are_not_there(self):
        self.refuses("no is no folder that can be written to", "--answers", "no/answers")
        self.refuses("nowhere: No such file", bank="nowhere")
        self.refuses("status 0", "--program", "/bin/true")
        self.write("map", "[" * 100_000)
        self.refuses("no JSON")

    def test_a_reader_that_goes_away(self):
        """`score.py ... | head -c 1` ends without a traceback, however much there is to print."""
        words = [sys.executable, os.path.join(TOOLS, "score.py"), "bank", "plan", "map", "--journal", "j", "--unbound"]
        reading, writing = os.pipe()
        os.close(reading)
        done = subprocess.run(words, cwd=self.folder, stdout=writing, stderr=subprocess.PIPE, text=True)
        os.close(writing)
        self.assertEqual((done.returncode, done.stderr), (1, ""))


if __name__ == "__main__":
    unittest.main()
