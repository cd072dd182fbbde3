"""Conditions on attributes."""
import unittest

from conditions import BadCondition, chosen

ROWS = [{"K": "x", "W": "5", "T": ""}, {"K": "y", "W": "7", "T": "a b"}, {"K": "x", "W": "10", "T": "NA"}]


class Conditions(unittest.TestCase):
    def test_choices(self):
        for text, wanted in (
                ("", [0, 1, 2]), ('K == "x"', [0, 2]), ("K == x", [0, 2]), ("K != x", [1]), ("W >= 7", [1, 2]),
                ("W < 10", [0, 1]), ("W == 5.0", [0]), ('W == "5.0"', []), ('T == "a b"', [1]), ("T != a", [1]),
                ("K %in% c(x, 'y')", [0, 1, 2]), ("K %in% c(x) & W > 5", [2]), ("K == y | W == 5", [0, 1]),
                ("K == y | K == x & W > 5", [1, 2]), ("(K == y | K == x) & W > 5", [1, 2]), ("!(K == x)", [1]),
                ("is.na(T)", [0, 2]), ("!is.na(T)", [1]), ("W %in% c(5, 7)", [0, 1]),
                ("W %in% 5:7", [0, 1]), ("W %in% c(1:5, 10)", [0, 2]), ("W %in% c(10:8)", [2]), ("W %in% -3:4", []), ("W %in% c('5:7')", [])):
            with self.subTest(text):
                self.assertEqual(chosen(text, ROWS), wanted)

    def test_refusals(self):
        for text, words in (
                ("Q == x", "no attribute 'Q'; there are K, W, T"), ("K ~ x", "is missing"), ("K", "is missing"),
                ("K == ", "a value is missing at the end"), ("(K == x", "')' is missing at the end"),
                ("K == x y", "'y' is not understood"), ("W > low", "'low' is not a number"),
                ("K > 3", "the attribute 'x' is not a number"), ("W == 5:7", "5:7 is a sequence, which follows %in% alone"),
                ("W < 5:7", "5:7 is a sequence"), ("W %in% 1:2000", "the sequence 1:2000 has more than 1000 numbers"), ("& K == x", "a name of an attribute is missing"),
                ('K == "x', "is not understood")):
            with self.subTest(text):
                with self.assertRaises(BadCondition) as raised:
                    chosen(text, ROWS)
                self.assertIn(words, str(raised.exception))

    def test_nothing_is_evaluated(self):
        with self.assertRaises(BadCondition):
            chosen("__import__('os').getcwd() == 1", ROWS)


if __name__ == "__main__":
    unittest.main()
