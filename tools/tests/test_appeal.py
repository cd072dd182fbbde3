"""The page for an appeal, each number of its steps computed again here from the bank's table."""
import base64
import json
import math
import os
import re
import unittest

from common import PROGRAM, needs_page, needs_program
from shadowtools.formats.examination import Answered, Served, read_bank, read_journal, read_plan
from test_window import WindowFolder


@needs_page
class Appeals(WindowFolder):
    def page_of(self, *words, wanted=0, program="none"):
        status, said, errors = self.tool("report", "e", "--journal", "j", "--record", "record", "--to", "page.html", "--program", program, *words)
        self.assertEqual(status, wanted, errors)
        return errors if status else self.read("page.html")

    def test_each_step(self):
        """The estimate before, the information there, score, error and kept items of each step of two sessions."""
        bank, plan, theta = read_bank(self.path("e.bank.csv")), read_plan(self.path("e.plan.txt")), [-3, -2, -1, 0, 1, 2, 3]
        entries = read_journal(self.path("j"))
        for session in (0, next(int(row["session"]) for row in self.results if row["state"] == "closed" and row["answered"] == "2")):
            page = self.page_of("--session", str(session))
            rows = re.findall(r"<tr>(<td class=\"text\">\d+\. I.*?)</tr>", page)
            served = [one for one in entries if isinstance(one, Served) and one.session == session]
            answers = [one for one in entries if isinstance(one, Answered) and one.session == session]
            self.assertEqual(len(rows), len(served))
            sums = list(plan.prior)
            for step, (row, one) in enumerate(zip(rows, served)):
                cells = [cell.replace("\N{MINUS SIGN}", "-") for cell in re.findall(r"<td[^>]*>(.*?)</td>", row)]
                point = sums.index(max(sums))
                self.assertEqual(cells[0], f"{step + 1}. I{one.item}")
                self.assertEqual((float(cells[2]), cells[3]), (theta[point], f"{bank[one.item].information[point] / 1000:.3f}"))
                self.assertEqual(cells[6], f"{len(one.form & served[step - 1].form)} of 4" if step else "–")
                self.assertEqual(cells[7], "proved" if one.proved else "not proved")
                if step >= len(answers):
                    self.assertEqual((cells[1], cells[4], cells[5]), ("–", "–", "–"))
                    continue
                self.assertEqual(cells[1], str(answers[step].response))
                sums = [total + log for total, log in zip(sums, bank[one.item].logs[answers[step].response])]
                weights = [math.exp(total / 1000) for total in sums]
                mean = sum(w * t for w, t in zip(weights, theta)) / sum(weights)
                spread = math.sqrt(sum(w * (t - mean) ** 2 for w, t in zip(weights, theta)) / sum(weights))
                self.assertLess(abs(float(cells[4]) - (50 + 10 * mean)), 0.5001)
                self.assertAlmostEqual(float(cells[5]), 10 * spread, 1)
            row = self.results[session]
            self.assertEqual(re.findall(r"<td[^>]*>(.*?)</td>", rows[len(answers) - 1])[4], row["scale"])
            self.assertIn(f"The score is {row['scale']}, its standard error {float(row['scale_se']):.1f}", page)
            own = [place for place, entry in enumerate(entries, 1) if entry.session == session]
            self.assertIn(f"The session is in the records {own[0]} to {own[-1]} of {len(entries)};", page)

    def test_what_is_on_the_page(self):
        row = self.results[3]
        page = self.page_of("--booking", row["booking"])
        self.assertIn(f"booking {row['booking']}, session 3", page)
        self.assertIn("it names items, and is confidential", page)
        self.assertIn("The answers of the table below give this score again.", page)
        for digest in json.loads(self.read("record"))["sha256"].values():
            self.assertIn(digest, page)
        self.assertIsNone(re.search(r"https?://", re.sub(r"base64,[A-Za-z0-9+/=]+", "", page)))
        self.assertEqual(re.findall(r"<script([^>]*)>", page), [' type="application/json" id="evidence"', ""])
        self.assertIn("Name (Head of testing)", page)

    def test_the_picture_of_the_forms(self):
        """A red cell for each item that is served, a blue one for each that was given before, a grey one for the rest of each form of four."""
        page = self.page_of("--session", "0")
        picture = base64.b64decode(re.search(r"svg\+xml;base64,([A-Za-z0-9+/=]+)", page).group(1)).decode()
        self.assertEqual([picture.count(f'fill="{color}"') for color in ("#b3261e", "#23609f", "#c9c9c9")], [4, 6, 6])

    def test_words_that_do_not_belong_together(self):
        for words, why in ((("--session", "40"), "the journal has 40 sessions"), (("--booking", "9"), "no such booking"),
                           (("--session", "0", "--booking", "1"), "and not both"), (("--session", "0", "--annul", "x"), "--annul is about a window")):
            self.assertIn(why, self.page_of(*words, wanted=1))

    @needs_program
    def test_two_programs(self):
        self.assertIn("A second program checked each proof, and agrees", self.page_of("--session", "1", program=os.path.abspath(PROGRAM)))


if __name__ == "__main__":
    unittest.main()
