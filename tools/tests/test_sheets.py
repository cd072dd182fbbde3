"""Score sheets: what an examinee reads is what the results have, with names for those who hear it, and no item is on any of them."""
import csv
import io
import json
import math
import os
import statistics
import unittest
from html.parser import HTMLParser
from unittest import mock

import data_of_bank_a as a
from common import Folder, needs_page
from shadowtools.agency import sheets
from shadowtools.agency.scoring import Scale
from test_window import WindowFolder


class Read(HTMLParser):
    """The text of a page, its terms with their values, its headings of tables, and the attributes of its tags."""

    def __init__(self, text):
        super().__init__()
        self.open, self.facts, self.rows, self.tags, self.text = [], [], [], [], []
        self.feed(text)

    def handle_starttag(self, tag, attributes):
        self.tags.append((tag, dict(attributes)))
        if tag not in ("meta",):
            self.open.append(tag)
        if tag in ("dt", "dd"):
            self.facts.append([tag, "", dict(attributes).get("aria-label")])
        if tag in ("th", "td"):
            self.rows.append([tag, ""])

    def handle_endtag(self, tag):
        while self.open.pop() != tag:
            pass

    def handle_data(self, data):
        if "style" not in self.open:
            self.text.append(data)
        if self.open and self.open[-1] in ("dt", "dd"):
            self.facts[-1][1] += data.replace("\xa0", "")
        if self.open and self.open[-1] in ("th", "td"):
            self.rows[-1][1] += data

    def pairs(self):
        return {name[1]: value[1] for name, value in zip(self.facts[::2], self.facts[1::2])}


@needs_page
class Sheets(Folder):
    def setUp(self):
        super().setUp()
        for name, text in (("bank", a.BANK), ("plan", a.PLAN), ("script", a.SCRIPT), ("lines", a.LINES), ("map", json.dumps(a.scale_map()))):
            self.write(name, text)

    def sheets(self, *words, folder="sheets"):
        status, said, errors = self.tool("score", "bank", "plan", "map", "--lines", "lines", "--script", "script", "--open", "--unbound", "--sheets", folder,
                                         "--scale", "500", "100", *words)
        self.assertEqual(status, 0, errors)
        return {row["booking"]: row for row in csv.DictReader(io.StringIO(said))}

    def page(self, booking, folder="sheets"):
        text = self.read(f"{folder}/booking-{booking}.html")
        return text, Read(text)

    def test_what_an_examinee_reads(self):
        results = self.sheets("--cuts", "480", "499.99", "--levels", "below", "at $1$ or more of them all", "<above>", "--decimals", "1", "--obtainable", "400", "600")
        self.assertEqual(sorted(os.listdir(self.path("sheets"))), [f"booking-{k}.{end}" for k in ("70", "71") for end in ("html", "pdf")])
        row, (text, found) = results["70"], self.page("70")
        value, error = float(row["scale"]), float(row["scale_se"])
        low, high = max(400, value - 1.96 * error), min(600, value + 1.96 * error)
        self.assertEqual(found.pairs(), {"Name": "", "Booking": "70", "Score": row["scale"], "Interval": f"{low:.1f} to {high:.1f}", "Level": row["level"]})
        said = "".join(found.text)
        chance = round(100 * float(row["level_error"]))
        self.assertIn(f"about {chance} in 100." if chance else "below 1 in 100.", said.split("another level is ")[1])
        self.assertIn("Scores are reported from 400.0 to 600.0.", said)
        self.assertEqual([cell for tag, cell in found.rows if tag == "td"], ["below 480", "480 and above, below 499.99", "499.99 and above"])
        self.assertIn("&lt;above&gt;", text)

    def test_the_interval_by_hand(self):
        """500 with a standard error of 50 is 402 to 598; at 880 it ends at the highest score. 95 in 100 of a normal distribution are in it."""
        scale = Scale(500, 100, 100, 900, [450], ["a", "b"], 0)
        row = {"booking": "1", "scale": "500", "scale_se": "50", "remark": "", "state": "complete", "level": "b", "level_error": "0.004"}
        self.assertEqual(sheets.sheet_of(row, scale).interval, "402 to 598")
        self.assertEqual(sheets.sheet_of(dict(row, scale="880"), scale).interval, "782 to 900")
        self.assertIn("below 1 in 100", sheets.sheet_of(row, scale).of_level[0])
        self.assertIn("The test was closed before its end.", sheets.sheet_of(dict(row, state="closed"), scale).meaning)
        normal = statistics.NormalDist(500, 50)
        self.assertAlmostEqual(normal.cdf(598) - normal.cdf(402), 0.95, 3)

    def test_a_test_without_a_score(self):
        self.sheets()
        text, found = self.page("71")
        self.assertEqual(found.pairs(), {"Name": "", "Booking": "71"})
        self.assertIn("This test has no score: too few questions were answered.", "".join(found.text))

    def test_names_for_those_who_hear_it(self):
        self.sheets("--cuts", "480")
        text, found = self.page("70")
        tags = [tag for tag, _ in found.tags]
        self.assertEqual(dict(found.tags)["html"], {"lang": "en"})
        self.assertIn("<title>Score sheet, booking 70</title>", text)
        self.assertEqual((tags.count("h1"), tags.count("main")), (1, 1))
        self.assertEqual([(name[0], value[0]) for name, value in zip(found.facts[::2], found.facts[1::2])], [("dt", "dd")] * 5)
        self.assertEqual([value[2] for value in found.facts[1::2] if not value[1]], ["left blank"])
        self.assertEqual([attributes["scope"] for tag, attributes in found.tags if tag == "th"], ["col", "col", "row", "row"])
        self.assertNotIn("<script", text)

    def test_no_item_is_on_a_sheet(self):
        self.sheets()
        for name in os.listdir(self.path("sheets")):
            if name.endswith(".html"):
                said = "".join(Read(self.read("sheets/" + name)).text)
                for item in json.loads(self.read("map"))["items"]:
                    self.assertNotIn(item["id"], said)

    def test_the_same_results_give_the_same_bytes(self):
        self.sheets("--cuts", "480")
        self.sheets("--cuts", "480", folder="again")
        for name in os.listdir(self.path("sheets")):
            with open(self.path("sheets/" + name), "rb") as one, open(self.path("again/" + name), "rb") as other:
                data = one.read()
                self.assertEqual(data, other.read(), name)
            if name.endswith(".pdf"):
                self.assertTrue(data.startswith(b"%PDF-"))
                self.assertIn(b"Score sheet, booking", data)

    def test_a_folder_with_files(self):
        os.mkdir(self.path("sheets"))
        self.write("sheets/old.html", "")
        status, said, errors = self.tool("score", "bank", "plan", "map", "--lines", "lines", "--script", "script", "--open", "--unbound", "--sheets", "sheets")
        self.assertEqual((status, said, "the folder is not empty" in errors), (1, "", True))


def answers_of(data):
    """By session the booking and the items with their responses of a journal in the bytes of docs/FORMATS.md, read by this test alone."""
    found, gate = {}, 8
    while data[gate] == 1:
        size = int.from_bytes(data[gate + 1:gate + 5], "big")
        payload, gate = data[gate + 5:gate + 5 + size], gate + 5 + size
        kind, session = payload[0], int.from_bytes(payload[1:5], "big")
        if kind == 6:
            found[session] = [int.from_bytes(payload[5:13], "big"), [], []]
        if kind == 3:
            found[session][1].append(int.from_bytes(payload[7:9], "big"))
        if kind == 4:
            found[session][2].append(payload[7])
    return found.values()


@needs_page
class Computed(WindowFolder):
    """The sheets of a window of 40 sessions, with scores 50 + 10 times the ability in whole numbers."""

    def posterior(self, items, responses):
        """Mean and standard deviation over the seven points of the grid, by the two-parameter model in thousandths of logarithms."""
        parameters = [one["parameters"] for one in json.loads(self.read("e.map.json"))["items"]]
        weights = []
        for point in range(-3, 4):
            total = round(-1000 * point ** 2 / 2)
            for item, response in zip(items, responses):
                slope, place = parameters[item]
                right = 1 / (1 + math.exp(-slope * (point - place)))
                total += round(1000 * math.log(right if response else 1 - right))
            weights.append(math.exp(total / 1000))
        mean = sum(weight * point for weight, point in zip(weights, range(-3, 4))) / sum(weights)
        return mean, math.sqrt(sum(weight * (point - mean) ** 2 for weight, point in zip(weights, range(-3, 4))) / sum(weights))

    def test_score_interval_and_level(self):
        with mock.patch.object(sheets, "write_pdf"):   # which has the same facts, and takes long
            self.score("--sheets", "sheets")
        with open(self.path("j"), "rb") as file:
            sittings, levels = list(answers_of(file.read())), set()
        self.assertEqual(len(sittings), 40)
        for booking, items, responses in sittings:
            facts = Read(self.read(f"sheets/booking-{booking}.html")).pairs()
            self.assertEqual(facts["Booking"], str(booking))
            if not responses:
                self.assertNotIn("Score", facts)
                continue
            mean, spread = self.posterior(items, responses)
            score = int(facts["Score"])
            self.assertLess(abs(50 + 10 * mean - score), 0.501)
            low, high = map(int, facts["Interval"].split(" to "))
            self.assertLess(abs(max(20, score - 19.6 * spread) - low), 0.501)
            self.assertLess(abs(min(80, score + 19.6 * spread) - high), 0.501)
            levels.add((sum(score >= cut for cut in (45, 55)), facts["Level"]))
        self.assertEqual(sorted(below for below, _ in levels), [0, 1, 2])
        self.assertEqual(len({name for _, name in levels}), 3)


if __name__ == "__main__":
    unittest.main()
