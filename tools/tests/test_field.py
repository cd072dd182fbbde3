"""Items in field test: they are served, and no estimate has anything of them."""
import csv
import io
import json
import unittest

from common import Folder, needs_numpy

ITEMS = "ID,MODEL,PAR1,PAR2\nA,2PL,1,0\nB,2PL,1.4,0.5\nF1,FIELD,,\nF2,FIELD,3,\n"


@needs_numpy
class FieldItems(Folder):
    def setUp(self):
        super().setUp()
        self.write("items", ITEMS)
        status, _, errors = self.tool("irt_bank", "--items", "items", "--length", "4", "--out", "o", "--grid", "-2", "2", "5")
        self.assertEqual((status, "F1" in errors), (0, False), errors)

    def test_the_bank(self):
        """Information 0, and the same log-likelihood at each point: 1000 log 1/2 and 1000 log 1/3."""
        rows = [record[2:] for record in csv.reader(io.StringIO(self.read("o.bank.csv")))][3:]
        self.assertEqual(rows[0], ["2"] + ["0"] * 5 + ["-693"] * 10 + [""] * 5)
        self.assertEqual(rows[1], ["3"] + ["0"] * 5 + ["-1099"] * 15)
        self.assertEqual([item["parameters"] for item in json.loads(self.read("o.map.json"))["items"]][2:], [[2.0], [3.0]])

    def scored(self, items, *words):
        """The score of a session with these answers by item."""
        self.write("script", "begin 1\n" + "".join(f"answer 0 {k} {answer}\n" for k, (_, answer) in enumerate(items)))
        self.write("lines", "".join(f"session 0 step {k} item {item} proved\n" for k, (item, _) in enumerate(items)) + "session 0 closed\n")
        status, said, errors = self.tool("score", "o.bank.csv", "o.plan.txt", "o.map.json", "--lines", "lines", "--script", "script", "--open",
                                         *words)
        self.assertEqual(status, 0, errors)
        return next(csv.DictReader(io.StringIO(said)))

    def test_their_answers_change_no_estimate(self):
        for estimate in ("eap", "mode", "wle", "mle"):
            alone = self.scored([(0, 1), (1, 0)], "--estimate", estimate)
            for answers in ((0, 0), (1, 2)):
                found = self.scored([(0, 1), (2, answers[0]), (1, 0), (3, answers[1])], "--estimate", estimate)
                self.assertEqual([found[name] for name in ("mode", "eap", "posterior_sd", "theta", "se")],
                                 [alone[name] for name in ("mode", "eap", "posterior_sd", "theta", "se")])
        self.assertEqual(self.scored([(2, 1), (3, 1)])["remark"], "too few answers")


if __name__ == "__main__":
    unittest.main()
