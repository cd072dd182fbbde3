"""The response models beside published closed forms and beside each other."""
import unittest

from common import needs_numpy

try:
    import numpy as np
    from irt import Item, fault
    GRID = np.linspace(-4, 4, 81)
except ImportError:
    pass


def one_of_each():
    return [Item("x", "1PL", [0.4]), Item("x", "2PL", [1.3, 0.4]), Item("x", "3PL", [1.3, 0.4, 0.2]),
            Item("x", "4PL", [1.3, 0.4, 0.2, 0.95]), Item("x", "GPC", [1.3, -0.5, 0.7, 0.2]),
            Item("x", "GR", [1.3, -0.5, 0.2, 0.7]), Item("x", "PC", [-0.5, 0.5])]


@needs_numpy
class Models(unittest.TestCase):
    def near(self, found, wanted, tolerance=1e-9):
        np.testing.assert_allclose(found, wanted, rtol=0, atol=tolerance)

    def same(self, one, other):
        self.near(one.probabilities(GRID), other.probabilities(GRID), 1e-12)
        self.near(one.information(GRID), other.information(GRID), 1e-12)

    def test_at_the_difficulty(self):
        """P(b) = (1 + c) / 2 and I(b) = D^2 a^2 / 4 without guessing (Birnbaum 1968)."""
        self.near(Item("x", "2PL", [1.3, 0.4]).probabilities(0.4)[1], 0.5)
        self.near(Item("x", "3PL", [1.3, 0.4, 0.2]).probabilities(0.4)[1], 0.6)
        self.near(Item("x", "2PL", [1.3, 0.4]).information(0.4, 1.702), 1.702 ** 2 * 1.3 ** 2 / 4)
        self.near(Item("x", "1PL", [0.0]).information(0.0), 0.25)
        self.near(Item("x", "3PL", [1.0, 0.0, 0.25]).information(0.0), 0.15)

    def test_greatest_information_of_3pl(self):
        """Place b + ln((1 + sqrt(1 + 8c)) / 2) / (D a), and its height (Birnbaum 1968; Lord 1980)."""
        a, b, c, scaling = 1.3, 0.4, 0.2, 1.702
        item = Item("x", "3PL", [a, b, c])
        place = b + np.log((1 + np.sqrt(1 + 8 * c)) / 2) / (scaling * a)
        height = (scaling * a) ** 2 / (8 * (1 - c) ** 2) * (1 - 20 * c - 8 * c * c + (1 + 8 * c) ** 1.5)
        self.near(item.information(place, scaling), height)
        around = item.information([place - 1e-3, place + 1e-3], scaling)
        self.assertTrue((around < height).all())

    def test_models_within_models(self):
        two = Item("x", "2PL", [1.3, 0.4])
        self.same(Item("x", "3PL", [1.3, 0.4, 0.0]), two)
        self.same(Item("x", "4PL", [1.3, 0.4, 0.2, 1.0]), Item("x", "3PL", [1.3, 0.4, 0.2]))
        self.same(Item("x", "GPC", [1.3, 0.4]), two)
        self.same(Item("x", "GR", [1.3, 0.4]), two)
        self.same(Item("x", "PC", [-0.5, 0.5]), Item("x", "GPC", [1.0, -0.5, 0.5]))
        self.same(Item("x", "1PL", [0.4]), Item("x", "2PL", [1.0, 0.4]))

    def test_steps_and_thresholds(self):
        """Adjacent categories of GPC cross at their step (Muraki 1992); P(X >= k) = 1/2 at b_k of GR (Samejima 1969)."""
        chances = Item("x", "GPC", [1.3, -0.5, 0.7, 0.2]).probabilities(0.7)
        self.near(chances[1], chances[2])
        self.near(Item("x", "GR", [1.3, -0.5, 0.2, 0.7]).probabilities(0.2)[2:].sum(), 0.5)

    def test_information_is_the_sum_of_squared_slopes(self):
        """I = sum P'^2 / P, by differences; and the probabilities sum to 1."""
        for item in one_of_each():
            with self.subTest(item.model):
                chances = item.probabilities(GRID, 1.702)
                self.near(chances.sum(0), 1.0)
                slopes = (item.probabilities(GRID + 1e-5, 1.702) - item.probabilities(GRID - 1e-5, 1.702)) / 2e-5
                self.near(item.information(GRID, 1.702), (slopes ** 2 / chances).sum(0), 1e-6)

    def test_far_out(self):
        self.near(np.log(Item("x", "2PL", [2.5, 4.0]).probabilities(-8.0)[1]), -30.0)
        self.near(np.log(Item("x", "GR", [2.5, -4.0, 4.0]).probabilities(-8.0)[2]), -30.0)
        self.near(np.log(Item("x", "2PL", [2.5, -4.0]).probabilities(8.0)[0]), -30.0)
        self.near(np.log(Item("x", "GR", [2.5, -4.0, 4.0]).probabilities(8.0)[0]), -30.0)

    def test_faults(self):
        for item in one_of_each():
            self.assertIsNone(fault(item))
        for model, parameters, words in (
                ("2PL", [1.0], "takes 2 parameters, has 1"), ("2PL", [-1.0, 0.0], "is not above 0"),
                ("3PL", [1.0, 0.0, 1.0], "lower asymptote"), ("4PL", [1.0, 0.0, 0.3, 0.2], "upper asymptote"),
                ("GR", [1.0, 0.5, 0.5], "do not ascend"), ("GPC", [1.0], "at least one threshold"),
                ("PC", [], "at least one step"), ("1PL", [float("nan")], "not finite")):
            self.assertIn(words, fault(Item("x", model, parameters)))


if __name__ == "__main__":
    unittest.main()
