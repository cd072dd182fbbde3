"""The examples are what their commands make, and the commands of docs/GUIDE.md run from parameters to results."""
import csv
import os
import re
import subprocess
import sys
import unittest

from common import PROGRAM, ROOT, Folder, needs_numpy, needs_page, needs_program

NAMES = ("knowledge", "aggression", "passages")


class Examples(Folder):
    @needs_numpy
    def test_made_again(self):
        """examples/make.sh gives the files that are there, byte for byte."""
        done = subprocess.run(["bash", os.path.join(ROOT, "examples", "make.sh"), self.folder], capture_output=True, text=True,
                              env=dict(os.environ, PYTHON=sys.executable, SHADOWD=""))
        self.assertEqual(done.returncode, 0, done.stderr)
        for name in NAMES:
            for end in ("bank.csv", "plan.txt", "map.json"):
                with self.subTest(f"{name}.{end}"):
                    with open(os.path.join(ROOT, "examples", name, f"{name}.{end}"), encoding="utf-8", newline="") as file:
                        self.assertEqual(self.read(f"{name}/{name}.{end}"), file.read())

    @needs_program
    def test_the_program_takes_them(self):
        for name, line in zip(NAMES, ("bank items 45 grid 41 quantities 1 stimuli 0", "bank items 24 grid 45 quantities 0 stimuli 4",
                                      "bank items 400 grid 61 quantities 1 stimuli 40")):
            prefix = os.path.join(ROOT, "examples", name, name)
            done = subprocess.run([PROGRAM, "check", prefix + ".bank.csv", prefix + ".plan.txt"], capture_output=True, text=True)
            self.assertEqual((done.returncode, done.stdout.splitlines()[0]), (0, line))


@needs_program
class Clashes(Folder):
    """Plans of the knowledge example that no set of items meets, with sets of rules worked out by hand."""

    def explained(self, changes, more=""):
        """The labels that explain.py names, where rows of these labels have other bounds."""
        prefix = os.path.join(ROOT, "examples", "knowledge", "knowledge")
        with open(prefix + ".plan.txt", encoding="utf-8") as file:
            text = file.read() + more
        for label, bounds in changes.items():
            text, times = re.subn(rf"(?m)^(# row \d+: {label}: .*\n\w+) \d+ \d+", rf"\g<1> {bounds}", text)
            self.assertEqual(times, 1, label)
        self.write("plan", text)
        status, said, errors = self.tool("explain", prefix + ".bank.csv", "plan", "--program", PROGRAM)
        self.assertEqual((status, errors), (11, ""))
        return re.findall(r"(?m)^  line .*?   (?:row \d+: )?([\w ]+)", said)

    def test_too_many_of_one_key(self):
        """14 of key D and 3 of each other key are 23 of 20 items; any three of the four fit."""
        self.assertEqual(self.explained({"key D": "14 20"}), ["key A", "key B", "key C", "key D"])

    def test_domains_that_add_up_to_more(self):
        """6 + 6 + 6 + 3 of four domains are 21 of 20 items; the fifth, of 3 too, is not needed beside one of its kind."""
        found = self.explained({"politics": "6 9", "history": "6 9", "economy": "6 9"})
        self.assertEqual((found[:3], len(found)), (["politics", "history", "economy"], 4))
        self.assertIn(found[3], ("culture", "science"))

    def test_one_rule_alone(self):
        """The 20 shortest items have 412 words in all."""
        self.assertEqual(self.explained({}, "# row 14: few words\nquantity 0 100 411 0-44\n"), ["few words"])


@needs_page
@needs_program
class FixedForms(Folder):
    """The commands of docs/SERIES.md as the page has them, from item parameters to the page."""

    def setUp(self):
        super().setUp()
        with open(os.path.join(ROOT, "docs", "SERIES.md"), encoding="utf-8") as file:
            self.page = file.read()
        os.symlink(os.path.abspath(PROGRAM), self.path("shadowd"))

    def run_in(self, script):
        """Status, standard output and errors of commands of the page, with their files in the test's folder."""
        words = re.sub(r"(?m)^python3 ", sys.executable + " ", script.replace("out/forms", self.folder))
        environment = dict(os.environ, SHADOWD=os.path.abspath(PROGRAM), PATH=self.folder + os.pathsep + os.environ["PATH"])
        done = subprocess.run(["bash", "-e", "-c", words], cwd=ROOT, capture_output=True, text=True, env=environment)
        return done.returncode, done.stdout, done.stderr

    def test_commands(self):
        """That 1,556 is the best value was found by three solvers, too."""
        blocks = re.findall(r"(?m)^```\n(.*?)^```$", self.page, re.S)
        self.assertEqual([block.split()[0] for block in blocks], ["mkdir", "shadowd", "python3", "python3"])
        status, said, errors = self.run_in("".join(blocks[:3]))
        self.assertEqual(status, 0, errors)
        self.assertIn("\nweights: 1 at -1, 1 at 0, 1 at 1\n", said)
        self.assertIn("\nagreed\n", said)
        self.assertRegex(self.read("series.txt"), r"\Aseries 2 value 1556 proved nodes \d+\nform ")
        self.assertIn(f"{self.path('series.html')}: 2 forms, value 1556, proved, 0 broken rules\n", said)
        with open(self.path("series.forms.csv")) as file:
            forms = [row["form"] for row in csv.DictReader(file)]
        self.assertEqual((forms.count("1"), forms.count("2"), forms.count("")), (20, 20, 5))
        self.assertEqual(self.run_in(blocks[3]), (17, self.shown("The length alone"), ""))

    def shown(self, begin):
        """The lines of the page that begin with these words, as far as they are indented."""
        lines = self.page[self.page.index("    " + begin):].split("\n\n")[0]
        return re.sub(r"(?m)^    ", "", lines) + "\n"

    def test_a_rule_that_clashes(self):
        with open(os.path.join(ROOT, "examples", "knowledge", "knowledge.plan.txt"), encoding="utf-8") as file:
            text, times = re.subn(r"(?m)^count 3 7 13 ", "count 4 7 13 ", file.read())
        self.assertEqual(times, 1)
        words = os.path.join(ROOT, "examples", "knowledge", "knowledge.bank.csv"), self.write("plan", text), "--series", "2", "--program", PROGRAM
        self.assertEqual(self.tool("explain", *words), (17, self.shown("One of 14 rules"), ""))


@needs_page
@needs_program
class Guide(Folder):
    def test_commands(self):
        """All commands of the guide, in order, with 30 examinees; the results agree with those of the report."""
        with open(os.path.join(ROOT, "docs", "GUIDE.md"), encoding="utf-8") as file:
            blocks = re.findall(r"^```\n((?:python3|mkdir) .*?)^```$", file.read(), re.M | re.S)
        script = re.sub(r"--examinees \d+", "--examinees 30", "".join(blocks).replace("/tmp/exam", self.folder))
        self.assertEqual([script.count(f"tools/{tool}.py") for tool in ("irt_bank", "explain", "simulate", "report", "score", "shadow")],
                         [3, 1, 3, 6, 1, 3])
        done = subprocess.run(["bash", "-e", "-c", script.replace("python3 ", sys.executable + " ")], cwd=ROOT, capture_output=True,
                              text=True, env=dict(os.environ, SHADOWD=os.path.abspath(PROGRAM)))
        self.assertEqual(done.returncode, 0, done.stderr)
        self.assertIn("check: bank items 45 grid 41 quantities 1 stimuli 0", done.stdout)
        self.assertIn("30 sessions of 20 items through replay, and 6 in the tails: no rule of 14 is broken", done.stdout)
        self.assertIn("30 sessions of 12 items through serve: no rule of 0 is broken", done.stdout)
        self.assertIn("second sittings 15, without the items of the first: 15 begun, 0 refused no-form, 0 refused none-found", done.stdout)
        self.assertIn("two sittings of a person: overlap 0.000, at most 0.000; ", done.stdout)
        self.assertEqual(re.findall(r"(?m)^(band \d, .*): visits", done.stdout),
                         ["band 0, -4 to -1", "band 1, -0.8 to -0.4", "band 2, -0.2 to 0.2", "band 3, 0.4 to 0.8", "band 4, 1 to 4"])
        self.assertIn("prices.html: 14 rules, 51 items to write", done.stdout)
        self.assertIn("a trial with fewer than 1000 examinees at each ability: --rate ", done.stdout)
        self.assertIn("window.html: 30 sessions, 30 complete, 0 broken rules, audits agree", done.stdout)
        self.assertIn("appeal.html: session 17, booking 17, score ", done.stdout)
        self.assertEqual(len(re.findall(r"(?m)^(?:files|documents|audit|seals|results|report): holds", done.stdout)), 6)
        with open(self.path("results.csv")) as one, open(self.path("report.sessions.csv")) as other:
            scored, reported = list(csv.DictReader(one)), [row for row in csv.DictReader(other) if row["part"] == "sample"]
        self.assertEqual([row["mode"] for row in scored], [row["mode"] for row in reported])
        for one, other in zip(scored, reported):
            self.assertLess(abs(float(one["eap"]) - float(other["eap"])), 0.01)
            self.assertLess(abs(float(one["posterior_sd"]) - float(other["posterior_sd"])), 0.01)


if __name__ == "__main__":
    unittest.main()
