"""The script of the page for an appeal, run in node, beside the checkers in Python and rows by hand; and the page in Chromium."""
import base64
import functools
import hashlib
import html
import itertools
import json
import os
import random
import re
import shutil
import subprocess
import types
import unittest
from collections import Counter

import data_of_bands as bands
import journal_maker
import test_check_tree as by_hand
from common import PROGRAM, Folder, needs_page, needs_program
from shadowtools.checkers import audit, check_tree
from shadowtools.checkers.check_tree import BOUND, COUNT, FIX, HIGH_CAP, ITEM, LOW_CAP, OPEN, RAY, STIMULUS, WHOLE, Bank, Item, Plan, Problem, Row
from shadowtools.command import Refused
from shadowtools.formats.examination import read_bank, read_journal, read_plan
from shadowtools.formats.exposure import exposure_of
from shadowtools.page import checker
from test_window import WindowFolder

HERE, NODE = os.path.dirname(os.path.abspath(__file__)), shutil.which("node")
needs_node = unittest.skipUnless(NODE, "needs node")
HOLDS, BROKEN, OPEN_LINE = "holds", "does not hold", "not judged"
PROBLEMS, CHANGES = 90, 1000


class Script(Folder):
    """Runs jobs over the script in node."""

    def run_jobs(self, jobs, script=checker.SCRIPT):
        path = self.write("jobs", json.dumps(jobs))
        done = subprocess.run([NODE, os.path.join(HERE, "appeal_harness.js"), script, path], capture_output=True, text=True, check=False)
        self.assertEqual(done.returncode, 0, done.stderr[-2000:])
        return json.loads(done.stdout)

    def call(self, name, *words):
        return {"kind": "calls", "name": name, "words": words}


# ---------------------------------------------------------------- trees

def listed(items):
    return None if items is None else sorted(items)


def tree_job(problem, form, data, budget):
    items = [{"stimulus": one.stimulus, "quantities": one.quantities, "information": one.info} for one in problem.bank.items]
    rows = [{"kind": row.kind, "low": row.low, "high": row.high, "members": listed(row.members or ()), "quantity": row.attribute}
            for row in problem.plan.rows]
    return {"kind": "trees", "form": listed(form), "tree": data.hex(), "budget": budget, "problem": {
        "bank": {"items": items, "stimuli": problem.bank.stimuli}, "plan": {"length": problem.plan.length, "rows": rows, "bounds": problem.plan.bounds},
        "point": problem.theta, "given": listed(problem.given), "barred": listed(problem.barred), "start": listed(problem.start)}}


def judged_in_python(problem, form, data):
    """The verdict on a tree and whether it spends as many nodes as it has; or the fault of its bytes. And its number of nodes."""
    try:
        vectors, nodes, _ = check_tree.read_tree(data)
    except check_tree.Fault as fault:
        return [str(fault), None], 1
    return [check_tree.verdict(problem, form, vectors, nodes), check_tree.spent(problem, vectors, nodes, len(nodes))], len(nodes)


def damaged(draw, data, vectors, nodes):
    """A bit changed anywhere, a byte of the nodes, or a node that is another one."""
    way = draw.randrange(4)
    if way < 2:
        at = draw.randrange(len(data) if way else 1 + len(check_tree.write_tree(vectors, [])) // 2)
        return data[:at] + bytes([data[at] ^ 1 << draw.randrange(8)]) + data[at + 1:]
    first = len(check_tree.write_tree(vectors, []))
    if way == 2:
        at = draw.randrange(first, len(data))
        return data[:at] + bytes([draw.randrange(9)]) + data[at + 1:]
    other = draw.choice([(ITEM, draw.randrange(9)), (STIMULUS, draw.randint(1, 4)), (BOUND, draw.randrange(4)), (RAY, draw.randrange(4)),
                         (COUNT, draw.randrange(9)), (WHOLE, None), (OPEN, None), (FIX, (draw.randrange(4), draw.randrange(90)))])
    changed = list(nodes)
    changed[draw.randrange(len(nodes))] = other
    return check_tree.write_tree(vectors, changed)


def drawn_trees(seed):
    """Trees of drawn problems, each whole and with four damages."""
    draw, number = random.Random(seed), 0
    while number < PROBLEMS:
        problem, nodes = check_tree.any_problem(draw), []
        form = check_tree.best_of_all(problem)
        if form is not None and draw.random() < 0.5:
            problem = problem._replace(start=form)
        if form is not None and draw.random() < 0.3:
            form = draw.choice([one for one in map(frozenset, itertools.combinations(range(len(problem.bank.items)), problem.plan.length))
                                if check_tree.is_form(problem, one)])
        vectors = check_tree.any_vectors(draw, problem)
        try:
            check_tree.search(draw, problem, form, vectors, check_tree.root(problem), nodes)
        except IndexError:      # the form isn't best, and a better one is left: no tree closes there
            continue
        number += 1
        data = check_tree.write_tree(vectors, nodes)
        yield problem, form, data
        yield from ((problem, form, damaged(draw, data, vectors, nodes)) for _ in range(4))


def heavy(slack):
    """A problem of 300 items that are all in the form, and a tree of one bound. 128 rows have the same sum, 300 times 65,535, as the lower bound,
    but for the last, whose bound is less by 1. With multipliers of 2^24 - 1 the constant is above 2^55, and the relaxed maximum is 256 times the
    objective and `slack`, the multiplier of the last row. So it closes for at most 255."""
    items, whole = [Item(0, [65535], [1])] * 300, 300 * 65535
    rows = [Row("quantity", whole - (number == 127), 33553920, frozenset(range(300)), 0) for number in range(128)]
    problem = Problem(Bank(items, 1, 0), Plan(300, [0], rows, []), 0, frozenset(), frozenset(), None)
    vector = {2 * number: 16777215 - 2 * number for number in range(127)}
    return problem, frozenset(range(300)), check_tree.write_tree([{**vector, 254: slack}], [(BOUND, 0)])


F, P, PLACE, NO_CAP = by_hand.FOUR, by_hand.PASSAGE, by_hand.PLACE, [{}]
# Trees with a fix, worked out by hand in test_check_tree.py: problem, vectors, nodes, verdict.
FIXES = [
    (F, PLACE, [(FIX, (0, 17)), (WHOLE, None)], "Optimal"), (F, PLACE, [(FIX, (0, 17)), (OPEN, None)], "Bad 1 OpenWhole"),
    (F, PLACE, [(FIX, (0, 18)), (COUNT, 0)], "Optimal"), (F, PLACE, [(FIX, (0, 19)), (COUNT, 0)], "Bad 0 NotClosed"),
    (F, PLACE, [(FIX, (0, 2 ** 32 - 1)), (COUNT, 0)], "Bad 0 NotClosed"), (F, PLACE, [(FIX, (255, 17)), (WHOLE, None)], "Bad 0 NoVector"),
    (F, [{0: 1}], [(FIX, (0, 17)), (WHOLE, None)], "Bad 0 NoSide"), (F, PLACE, [(FIX, (0, 10)), (WHOLE, None)], "Bad 0 FixesNothing"),
    (F, PLACE, [(FIX, (0, 17)), (FIX, (0, 17)), (WHOLE, None)], "Bad 1 FixesNothing"),
    (F, PLACE, [(FIX, (0, 17)), (ITEM, 2), (WHOLE, None), (WHOLE, None)], "Bad 1 Determined"),
    (F, NO_CAP, [(FIX, (0, 17)), (ITEM, 2), (COUNT, 0), (WHOLE, None)], "Optimal"),
    (P, PLACE, [(FIX, (0, 11)), (ITEM, 0), (ITEM, 1), (WHOLE, None), (COUNT, 0), (COUNT, 0)], "Optimal"),
    (P, PLACE, [(FIX, (0, 11)), (ITEM, 2), (WHOLE, None), (WHOLE, None)], "Bad 1 Determined"),
    (P, PLACE, [(FIX, (0, 11)), (STIMULUS, 1), (WHOLE, None), (WHOLE, None)], "Bad 1 Determined"),
    (F, [{LOW_CAP: 2500, HIGH_CAP: 500}], [(FIX, (0, 17)), (WHOLE, None)], "Optimal"),
]
SPENT_FIXES = [((0, 0), False), ((255, 17), False), ((0, 18), False), ((0, 17), True)]


@needs_node
class Trees(Script):
    def test_drawn_trees_and_damages(self):
        trees, wanted, jobs = list(drawn_trees(7)), [], []
        for problem, form, data in trees:
            said, nodes = judged_in_python(problem, form, data)
            wanted.append(said)
            jobs.append(tree_job(problem, form, data, nodes))
        for place, (got, want) in enumerate(zip(self.run_jobs(jobs), wanted)):
            self.assertEqual(got, want, jobs[place])
        seen = Counter(word for said, _ in wanted for word in said.split() if word.isalpha())
        for word in ("Optimal", "NoForm", "Partial", "Determined", "NoVector", "NoSide", "NotClosed", "NotNegative", "RowPossible", "NotWhole",
                     "OpenWhole", "FixesNothing", "Short", "BadKind", "BadVector", "Unfinished"):
            self.assertGreater(seen[word], 0, seen)
        self.assertGreater(sum(spent is True for _, spent in wanted), 3)
        kinds = {node[0] for _, _, data in trees[::5] for node in check_tree.read_tree(data)[1]}
        self.assertEqual(kinds, {ITEM, STIMULUS, BOUND, RAY, COUNT, WHOLE, OPEN, FIX})

    def test_fixes_by_hand(self):
        jobs = [tree_job(problem, by_hand.BEST, check_tree.write_tree(vectors, nodes), 1) for problem, vectors, nodes, _ in FIXES]
        self.assertEqual([said for said, _ in self.run_jobs(jobs)], [wanted for _, _, _, wanted in FIXES])
        jobs = [tree_job(F, None, check_tree.write_tree(PLACE, [(FIX, value), (OPEN, None)]), 2) for value, _ in SPENT_FIXES]
        self.assertEqual(self.run_jobs(jobs), [["Bad 0 NoVector" if value[0] else "Bad 0 NotClosed", wanted] for value, wanted in SPENT_FIXES])

    def test_sums_above_two_to_the_53(self):
        jobs = [tree_job(*heavy(slack), 1) for slack in (1, 255, 256)]
        self.assertEqual([said for said, _ in self.run_jobs(jobs)], ["Optimal", "Optimal", "Bad 0 NotClosed"])

    def test_digest_draw_and_rounding(self):
        """SHA-256 of FIPS 180-4 and of a text with letters of two, three and four bytes; words of ChaCha20 by OpenSSL, as in test_audit.py; halves away
        from 0, which the tenth decimal does not decide."""
        text = "a" * 119 + "\N{MINUS SIGN}\N{LATIN SMALL LETTER E WITH ACUTE}\N{GRINNING FACE}"
        said = self.run_jobs([
            self.call("text => sha256(bytesOfText(text))", "abc"), self.call("text => sha256(bytesOfText(text))", text),
            *[self.call("block => [...chachaBlock(new Uint8Array(32), 3, block)].slice(0, 2)", place // 16) for place in (0, 512, 3584)],
            *[self.call("rounded", value, places) for value, places in ((2.5, 0), (-0.05, 1), (-0.001, 2), (1234.56785, 4), (7.4999999999, 0))]])
        self.assertEqual(said, ["ba7816bf8f01cfea414140de5dae2223b00361a396177a9cb410ff61f20015ad", hashlib.sha256(text.encode()).hexdigest(),
                                [0xF02B2F02, 0x43175876], [0xA1EDD8BF, 0x129C84AC], [0x1FA12891, 0x2B827120], "3", "-0.1", "0.00", "1234.5679", "8"])


# ---------------------------------------------------------------- records

KEY = "00112233445566778899aabbccddeeff" * 2
# 14 items on five points, three with a passage of their own and three of another; two or three categories.
SMALL_PLAN = f"""length 4
prior -300 -100 0 -100 -300
rate 1 6
key {KEY}
bands 2 4
budget 5
sessions 200
# areas
count 1 3 0-6
quantity 0 60 61 0-13
enemies 0 9
stimuli 0 1
stimulus 1 2 3
"""


def small_bank(draw):
    """A bank with one quantity, whose fields are quoted here and there."""
    head = ["item", "stimulus", "categories", "q0", *(f"i{g}" for g in range(5)), *(f"l{r}_{g}" for r in range(3) for g in range(5))]
    rows = [head]
    for item in range(14):
        categories, peak = draw.choice((2, 2, 3)), draw.randrange(5)
        cells = [item, {2: 1, 3: 1, 4: 1, 10: 2, 11: 2, 12: 2}.get(item, 0), categories, draw.randint(5, 25)]
        cells += [max(1, draw.randint(80, 120) - 20 * abs(point - peak)) for point in range(5)]
        cells += [-draw.randint(20, 400) if r < categories else "" for r in range(3) for _ in range(5)]
        rows.append(cells)
    return "\n".join(",".join(f'"{cell}"' if draw.random() < 0.03 else str(cell) for cell in row) for row in rows) + "\n"


def scorer_of(points):
    """What the evidence needs of a scorer, where no score is judged."""
    scale = types.SimpleNamespace(start=0, unit=1, low=-3, high=3, decimals=3)
    return types.SimpleNamespace(asked=types.SimpleNamespace(estimate="eap"), scale=scale, theta=list(range(points)), unit=100,
                                 map={"information_unit": 100})


class Records(Script):
    """Journals of the small examination that the program made, with sessions in turns."""
    made = {}

    def setUp(self):
        super().setUp()
        if not self.made:
            self.made["bank"], self.made["plan"] = small_bank(random.Random(3)), SMALL_PLAN
            self.write("bank", self.made["bank"])
            self.write("plan", self.made["plan"])
            self.make(36)
            with open(self.path("journal"), "rb") as file:
                self.made["journal"] = file.read()
        for name, text in self.made.items():
            with open(self.path(name), "wb") as file:
                file.write(text if isinstance(text, bytes) else text.encode())

    def make(self, sessions):
        """Sessions three at once, some with a list of items that their examinee must not get, some closed early, all answers drawn."""
        draw = random.Random(5)
        for first in range(0, sessions, 3):
            lines = self.replay("".join(f"begin {number}{' without 5 7' if number % 3 == 2 else ''}\n" for number in range(first, first + 3)))
            while waiting := re.findall(r"session (\d+) step (\d+) item", "\n".join(lines)):
                lines = self.replay("".join(f"close {session}\n" if step == "2" and draw.random() < 0.2 else
                                            f"answer {session} {step} {draw.randrange(2)}\n" for session, step in waiting))

    def replay(self, script):
        done = subprocess.run([PROGRAM, "replay", self.path("bank"), self.path("plan"), self.write("script", script)], capture_output=True, text=True,
                              check=False, stdin=subprocess.DEVNULL, env={"SHADOWD_JOURNAL": self.path("journal")})
        self.assertEqual(done.returncode, 0, done.stdout + done.stderr)
        return done.stdout.splitlines()

    def evidence(self, session, has_key=True, journal="journal", bank="bank", plan="plan"):
        items, rules, entries = read_bank(self.path(bank)), read_plan(self.path(plan)), read_journal(self.path(journal))
        first = next(place for place, entry in enumerate(entries) if entry.session == session)
        text = self.read(plan) if has_key else checker.plan_without_key(self.read(plan))
        return checker.Evidence(session, entries[first].booking, self.read(bank), text, has_key, checker.records_of(self.path(journal), session),
                                exposure_of(entries[:first], items, rules), [f"I{item}" for item in range(len(items))], scorer_of(len(rules.prior)))

    def printed(self, evidence):
        files = [("bank", checker.digest(evidence.bank.encode())), ("plan", checker.digest(evidence.plan.encode())), *evidence.digests()]
        return {"score": "", "files": dict(files), "steps": []}

    def lines(self, changed):
        """The lines of each pair of values and printed texts."""
        return self.run_jobs([{"kind": "pages", "evidence": json.dumps(values), "printed": printed} for values, printed in changed])


def fault_of(lines):
    """The place and the kind of the first record that does not hold; `rules` where bank or plan are not read."""
    rules = [line for line in lines if line["about"] == "Bank and plan"]
    if rules[0]["mark"] != HOLDS:
        return "rules"
    records = [line for line in lines if line["about"].startswith("Record ")]
    return next(((place, line["kind"]) for place, line in enumerate(records) if line["mark"] == BROKEN), None)


rules_of = functools.lru_cache(maxsize=None)(journal_maker.rules_of)


def fault_in_python(values):
    """The same by audit.py, with the counts that the page states, and other sessions before that are not looked at."""
    try:
        rules = rules_of(values["bank"], values["plan"])
    except Refused:
        return "rules"
    if len(rules.bands) + 1 != len(values["counts"]) or len(rules.bank.items) != len(values["names"]):
        return "rules"
    judge = audit.Judge(rules, lambda at, nodes, said, spent: None)
    judge.history.sessions = [None] * values["session"]
    for band, counts in zip(judge.history.bands, values["counts"]):
        band.shown, band.eligible = list(counts["shown"]), list(counts["eligible"])
    for place, record in enumerate(values["records"]):
        frame = bytes.fromhex(record["bytes"])
        payload, head = frame[5:], frame[:5]
        if head != b"\1" + len(payload).to_bytes(4, "big"):
            return place, "record"
        try:
            if payload[1:5] != values["session"].to_bytes(4, "big") or payload[0] in (6, 9) and payload[5:13] != int(values["booking"]).to_bytes(8, "big"):
                audit.read_record(payload, record["version"])
                return place, "illegal"
            judge.take(audit.Record(0, record["version"], payload))
        except ValueError:
            return place, "record"
        except Refused as refused:
            return place, re.fullmatch(r"journal: (.*) at 0", refused.line).group(1)
    return None


def changed_byte(draw, values):
    """The values with one byte of a record, of the bank or of the plan changed, and which."""
    values = json.loads(json.dumps(values))
    where = draw.choice(("records", "records", "bank", "plan"))
    if where == "records":
        record = draw.choice(values["records"])
        data = bytearray.fromhex(record["bytes"])
        at = draw.randrange(len(data)) if draw.random() < 0.5 else draw.choice([*range(min(24, len(data))), *range(-min(30, len(data)), 0)])
        data[at] = draw.choice([byte for byte in (data[at] ^ 1 << draw.randrange(8), draw.randrange(256), draw.randrange(9)) if byte != data[at]] or
                               [data[at] ^ 1])
        record["bytes"] = data.hex()
        return values, where
    text = values[where]
    at = draw.randrange(len(text))
    near = "0123456789-" if text[at].isdigit() else "0, \n\"#a-"
    values[where] = text[:at] + draw.choice([one for one in near if one != text[at]]) + text[at + 1:]
    return values, where


@needs_node
@needs_program
class Sessions(Records):
    def test_each_session_of_the_program(self):
        """All records hold; and sessions with a list, with eligibility set aside, closed early and in each band are among them."""
        entries = read_journal(self.path("journal"))
        evidence = [self.evidence(session) for session in range(36)]
        for session, lines in enumerate(self.lines([(one.values(), self.printed(one)) for one in evidence])):
            own = [line for line in lines if not line["about"].startswith("The ") and line["about"] != "This checker"]
            self.assertEqual([line for line in own if line["mark"] != HOLDS], [], session)
            self.assertEqual(len(own), 4 + len(evidence[session].records))
        names = Counter(type(entry).__name__ for entry in entries)
        self.assertTrue({"Started", "SetAside", "Served", "Answered", "Closed"} <= set(names), names)
        self.assertEqual({entry.proved for entry in entries if hasattr(entry, "proved")}, {False, True})
        self.assertIn(0, {entry.cause for entry in entries if hasattr(entry, "cause")})
        self.assertGreater(sum(bool(entry.without) for entry in entries if hasattr(entry, "without")), 5)

    def test_changed_bytes(self):
        """Of 1,000 changes of one byte each is found by the printed SHA-256; and apart from it, the first record that does not hold is that of
        audit.py, with the same word."""
        draw, wanted, jobs, kinds = random.Random(11), [], [], Counter()
        chosen = [self.evidence(session) for session in (2, 20, 23, 34, 35)]
        for _ in range(CHANGES):
            one = draw.choice(chosen)
            values, where = changed_byte(draw, one.values())
            jobs.append((values, self.printed(one)))
            wanted.append((fault_in_python(values), where))
        for place, (lines, (want, where)) in enumerate(zip(self.lines(jobs), wanted)):
            marks = {line["about"]: line["mark"] for line in lines if line["about"].startswith("SHA-256")}
            self.assertEqual([name for name, mark in marks.items() if mark == BROKEN], [f"SHA-256 of the {where}"])
            self.assertEqual(fault_of(lines), want, (where, jobs[place][0], lines))
            kinds[want if want in ("rules", None) else want[1]] += 1
        self.assertTrue(all(kinds[word] > 20 for word in ("rules", "record", "illegal", "bad tree", None)), kinds)

    def test_counts_and_draws(self):
        """Counts that make another draw do not hold; without the key the draws are not judged, and the other rules are."""
        one = self.evidence(30)
        values, printed = one.values(), self.printed(one)
        other, eligible = json.loads(json.dumps(values)), audit.read_record(one.records[0].data[5:], 2)[1][2][0]
        other["counts"][0]["shown"][5] = 10 ** 6 if 5 in eligible else 0
        without = self.evidence(30, has_key=False)
        self.assertNotIn(KEY, json.dumps(without.values()))
        lines = self.lines([(other, printed), (without.values(), self.printed(without))])
        self.assertEqual(fault_of(lines[0]), (0, "illegal"))
        self.assertIn("are not the draw", next(line["text"] for line in lines[0] if line["mark"] == BROKEN))
        self.assertIsNone(fault_of(lines[1]))
        self.assertIn("The draws", [line["about"] for line in lines[1] if line["mark"] == OPEN_LINE])
        self.assertIn({"about": "SHA-256 of the plan without its key", "mark": HOLDS, "kind": None,
                       "text": "it is the one that is printed"}, lines[1])

    def test_a_key_in_a_remark(self):
        self.assertEqual(checker.plan_without_key(f"length 3\n# was key {KEY.upper()}\nkey {KEY}\nrate 1 2\n"),
                         f"length 3\n# was key (left out)\n{checker.WITHOUT_KEY}\nrate 1 2\n")

    def test_what_is_left_open(self):
        lines = self.lines([(self.evidence(3).values(), self.printed(self.evidence(3)))])[0]
        self.assertEqual([line["about"] for line in lines if line["mark"] == OPEN_LINE and line["about"] != "The score"],
                         ["This checker", "The journal", "The counts", "The responses", "The bank and the plan"])

    def test_values_of_another_shape(self):
        """A thrown error of any kind does not hold."""
        one, jobs = self.evidence(3), []
        for name, value in (("records", None), ("records", [{}]), ("counts", []), ("bank", 7), ("plan", ""), ("booking", "x"), ("session", "3")):
            jobs.append(({**one.values(), name: value}, self.printed(one)))
        for (values, _), lines in zip(jobs, self.lines(jobs)):
            self.assertIn(BROKEN, {line["mark"] for line in lines}, values)


@needs_node
class OldRecords(Records):
    """A journal of version 1 with two bands, whose starts have the eligible items of one band alone."""

    def setUp(self):
        Script.setUp(self)
        self.write("bank", bands.BANK_TWO)
        self.write("plan", bands.PLAN_TWO)
        with open(self.path("journal"), "wb") as file:
            file.write(journal_maker.Maker(bands.BANK_TWO, bands.PLAN_TWO).run(bands.SCRIPT_TWO).files()[0])

    def test_bands_that_a_reader_makes_anew(self):
        """Session 2 sets eligibility aside in band 0 and then in band 1. The items of band 1 are drawn with the key, which the second page has not:
        what rests on them is not judged, and does not break."""
        whole, part = (self.evidence(2, has_key=has_key) for has_key in (True, False))
        with_key, without = self.lines([(one.values(), self.printed(one)) for one in (whole, part)])
        marks = [[line["mark"] for line in lines if line["about"].startswith("Record ")] for lines in (with_key, without)]
        self.assertEqual(marks, [[HOLDS] * 7, [HOLDS] * 4 + [OPEN_LINE] * 3])
        self.assertNotIn(BROKEN, {line["mark"] for line in without})
        self.assertTrue({"The table of steps", "The score", "The draws"} <= {line["about"] for line in without if line["mark"] == OPEN_LINE})


# ---------------------------------------------------------------- pages

def texts_of(page):
    """The text of the evidence of a page, the printed texts that its script reads, and the script."""
    def text(cell):
        return html.unescape(re.sub(r"<[^>]+>", "", cell))

    steps = re.search(r'<section class="steps">(.*?)</section>', page, re.S).group(1)
    rows = [[text(cell) for cell in re.findall(r"<td[^>]*>(.*?)</td>", row)] for row in re.findall(r"<tr>(<td.*?)</tr>", steps, re.S)]
    files = re.findall(r"<dt>(.*?)</dt><dd>(.*?)</dd>", re.search(r'<dl class="files">(.*?)</dl>', page, re.S).group(1))
    evidence, script = re.findall(r"<script[^>]*>(.*?)</script>", page, re.S)
    return evidence, {"score": text(re.search(r'<ul class="verdicts">.*?<span>(.*?)</span>', page, re.S).group(1)), "steps": rows,
                      "files": {text(name).replace("SHA-256, ", ""): text(value) for name, value in files}}, script


class PageFolder(WindowFolder, Script):
    """Pages of the window of 40 sessions of four items."""

    def page(self, *words, journal="j", wanted=0):
        status, _, errors = self.tool("report", "e", "--journal", journal, "--record", "record", "--to", "page.html", "--program", "none", *words)
        self.assertEqual(status, wanted, errors)
        self.errors = errors
        return "" if status else self.read("page.html")

    def judge(self, *texts):
        return self.run_jobs([{"kind": "pages", "evidence": evidence, "printed": printed} for evidence, printed in texts])


@needs_node
@needs_page
class Pages(PageFolder):
    def test_its_script_and_its_policy(self):
        """The script is appeal.js to the byte; its SHA-256 is printed, and the policy lets this one alone run, and no network."""
        page = self.page("--session", "0")
        evidence, printed, script = texts_of(page)
        with open(checker.SCRIPT, "rb") as file:
            data = file.read()
        self.assertEqual(script.encode(), data)
        self.assertEqual(printed["files"]["checker of this page, appeal.js"], hashlib.sha256(data).hexdigest())
        policy = html.unescape(re.search(r'<meta http-equiv="Content-Security-Policy" content="(.*?)">', page).group(1))
        style = re.search(r"<style>(.*?)</style>", page, re.S).group(1)
        own, its_style = (base64.b64encode(hashlib.sha256(text).digest()).decode() for text in (data, style.encode()))
        self.assertEqual(policy, f"default-src 'none'; script-src 'sha256-{own}'; style-src 'sha256-{its_style}'; img-src data:; base-uri 'none'; "
                                 "form-action 'none'")
        self.assertLess(page.index("Content-Security-Policy"), page.index("<style>"))
        self.assertIsNone(re.search(r"\beval\b|\bFunction\b|fetch|XMLHttpRequest|WebSocket|import |innerHTML|crypto\.", script))
        self.assertNotIn("<", evidence)
        self.assertIn("is confidential: has the whole bank.", page)

    def test_sessions_that_end_and_that_are_closed(self):
        closed = next(row["session"] for row in self.results if row["state"] == "closed" and row["answered"] == "2")
        for session in ("0", closed):
            lines = self.judge(texts_of(self.page("--session", session))[:2])[0]
            self.assertEqual([line for line in lines if line["mark"] == BROKEN], [])
            self.assertEqual({line["about"] for line in lines if line["mark"] == OPEN_LINE},
                             {"This checker", "The journal", "The counts", "The responses", "The bank and the plan"})

    def test_journals_of_each_version(self):
        files = journal_maker.drawn(5, 12, self.read("e.bank.csv"), self.read("e.plan.txt")).files()
        for name, data in zip(("one", "two", "moved"), files):
            with open(self.path(name), "wb") as file:
                file.write(data)
            self.score(journal=name)
            evidence, printed, _ = texts_of(self.page("--session", "4", journal=name))
            self.assertEqual({record["version"] for record in json.loads(evidence)["records"]}, {1 if name == "one" else 2})
            self.assertNotIn(BROKEN, {line["mark"] for line in self.judge((evidence, printed))[0]}, name)

    def test_changed_print(self):
        """Each cell of the table of steps, the score and its error, and the printed digests."""
        evidence, printed, _ = texts_of(self.page("--session", "0"))
        others = []
        for row, column in itertools.product(range(4), range(8)):
            other = json.loads(json.dumps(printed))
            cell = other["steps"][row][column]
            other["steps"][row][column] = re.sub(r"\d(?=\D*$)", lambda digit: str((int(digit.group()) + 2) % 10), cell) if re.search(r"\d", cell) \
                else cell + "x"
            others.append((other, "The table of steps"))
        score, error = re.match(r"The score is (\S+), its standard error (\d+\.\d)", printed["score"]).groups()
        for text in (printed["score"].replace(score, str(int(score) + 1)), printed["score"].replace(error, str(float(error) + 0.2)), "No score."):
            others.append(({**printed, "score": text}, "The score"))
        others += [({**printed, "files": {**printed["files"], name: "0" * 64}}, f"SHA-256 of the {about}")
                   for name, about in (("bank", "bank"), ("plan", "plan"), ("records of this session", "records"))]
        others.append(({**printed, "steps": printed["steps"][:3]}, "The table of steps"))
        for (other, about), lines in zip(others, self.judge(*((evidence, other) for other, _ in others))):
            self.assertEqual([line["about"] for line in lines if line["mark"] == BROKEN], [about], other)

    def test_estimates_by_likelihood_are_left_open(self):
        self.score("--estimate", "wle")
        lines = self.judge(texts_of(self.page("--session", "0"))[:2])[0]
        self.assertNotIn(BROKEN, {line["mark"] for line in lines})
        self.assertIn(("The score", OPEN_LINE), {(line["about"], line["mark"]) for line in lines})

    def test_refusals(self):
        self.page("--without-key", wanted=1)
        self.assertIn("--without-key is about the page of one session", self.errors)
        most = checker.MOST_BYTES
        self.addCleanup(setattr, checker, "MOST_BYTES", most)
        checker.MOST_BYTES = 20_000
        self.page("--session", "0", wanted=1)
        self.assertRegex(self.errors, r"page\.html: the page would have [\d,]+ bytes, above 20,000; judge the records by python3 tools/audit\.py "
                                      r"e\.bank\.csv e\.plan\.txt j --trees")
        self.assertFalse(os.path.exists(self.path("page.html")))


@needs_node
@needs_page
class Keys(PageFolder):
    """The same examination with a rate: one examinee in two may get an item."""
    made = {}

    def test_with_and_without_the_key(self):
        os.remove(self.path("e.plan.txt"))
        self.assertEqual(self.tool("irt_bank", "--items", "items", "--attributes", "attributes", "--constraints", "constraints", "--out", "e", "--grid",
                                   "-3", "3", "7", "--rate", "1", "2", "--key", KEY)[0], 0)
        with open(self.path("j"), "wb") as file:
            file.write(journal_maker.drawn(5, 20, self.read("e.bank.csv"), self.read("e.plan.txt")).files()[1])
        self.score()
        last = str(len(self.results) - 1)
        page = self.page("--session", last)
        self.assertIn(KEY, page)
        self.assertIn("is confidential: has the whole bank and the key of the draws.", page)
        self.assertIn("warning: the plan takes 980 sessions more. Who has this page has the key of their draws: make it after the window, or give "
                      "--without-key", self.errors)
        without = self.page("--session", last, "--without-key")
        self.assertNotIn(KEY, without)
        self.assertNotIn("warning", self.errors)
        self.assertIn("The page was made without the key of the draws (--without-key), so its button does not judge them.", without)
        whole, part = self.judge(texts_of(page)[:2], texts_of(without)[:2])
        self.assertNotIn(BROKEN, {line["mark"] for line in [*whole, *part]})
        self.assertEqual([["The draws" in line["about"] for line in lines].count(True) for lines in (whole, part)], [0, 1])


# ---------------------------------------------------------------- Chromium

@needs_node
@needs_page
class Browser(PageFolder):
    """The page from disk in headless Chromium, without a network."""

    def driver(self):
        try:
            from selenium import webdriver
            from selenium.webdriver.chrome.service import Service
        except ImportError:
            self.skipTest("needs python3-selenium")
        programs = [shutil.which("chromium"), shutil.which("chromedriver")]
        if None in programs:
            self.skipTest("needs chromium, chromium-driver")
        options = webdriver.ChromeOptions()
        options.binary_location = programs[0]
        for word in ("--headless=new", "--no-sandbox", "--disable-gpu", "--disable-dev-shm-usage"):
            options.add_argument(word)
        driver = webdriver.Chrome(service=Service(programs[1]), options=options)
        self.addCleanup(driver.quit)
        return driver

    def clicked(self, driver, page):
        """The marks and texts of the lines after a click, and what is said of all."""
        driver.get("file://" + self.write("shown.html", page))
        return driver.execute_async_script("""
            const done = arguments[0], said = document.getElementById("judging");
            document.getElementById("judge").click();
            const wait = left => / are not judged\\.$/.test(said.textContent) || !left ? done([said.textContent,
                Array.from(document.querySelectorAll("#judged li"), row => Array.from(row.children, cell => cell.textContent))])
                : setTimeout(wait, 20, left - 1);
            wait(document.getElementById("judge").disabled ? 3000 : 10);""")

    def test_fifty_pages(self):
        """The lines are those of node: of the page, and of 50 pages of which one byte of bank, plan or records was changed."""
        driver = self.driver()
        driver.set_script_timeout(100)
        page = self.page("--session", "0")
        evidence, printed, script = texts_of(page)
        draw, changed = random.Random(2), [evidence]
        changed += [json.dumps(changed_byte(draw, json.loads(evidence))[0]).replace("<", "\\u003c") for _ in range(50)]
        for text, lines in zip(changed, self.judge(*((text, printed) for text in changed))):
            said, rows = self.clicked(driver, page.replace(evidence, text))
            self.assertEqual(rows, [[line["mark"], f"{line['about']}: {line['text']}"] for line in lines])
            self.assertTrue(said.startswith("All that was judged holds." if text is evidence else "This page does not hold."), said)
        self.assertEqual(self.clicked(driver, page.replace(evidence, "{"))[1][0][0], BROKEN)
        self.assertEqual(self.clicked(driver, page.replace(script, script + " "))[1], [])      # its policy lets no other script run


if __name__ == "__main__":
    unittest.main()
