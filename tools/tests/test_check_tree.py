"""Proof trees that fix items, judged by check_tree.py; each number is worked out by hand."""
import unittest

from shadowtools.checkers.check_tree import COUNT, FIX, ITEM, LOW_CAP, OPEN, STIMULUS, WHOLE, Bank, Item, Plan, Problem, spent, verdict

# Four items of no stimulus, of which two make a form. They weigh 2560, 2048, 1280 and 256.
FOUR = Problem(Bank([Item(0, [], [10]), Item(0, [], [8]), Item(0, [], [5]), Item(0, [], [1])], 1, 0), Plan(2, [0], [], []),
               0, frozenset(), frozenset(), None)
BEST = frozenset((0, 1))
# A place costs 2000: margins 560, 48, -720 and -1744, and a bound of 2 * 2000 + 560 + 48 = 256 * 18.
PLACE = [{LOW_CAP: 2000}]

# The same with a passage of items 2 and 3, of which a form has both or neither.
PASSAGE = Problem(Bank([Item(0, [], [10]), Item(0, [], [8]), Item(1, [], [5]), Item(1, [], [1])], 1, 1), Plan(2, [0], [], [(2, 2)]),
                  0, frozenset(), frozenset(), None)


def judged(nodes, vectors=None, problem=FOUR, form=BEST):
    return verdict(problem, form, PLACE if vectors is None else vectors, nodes)


class Fixing(unittest.TestCase):
    def test_settles_each_item(self):
        """Goal 17 leaves a room of 1: the items below the threshold are out, and those above are in."""
        self.assertEqual(judged([(FIX, (0, 17)), (WHOLE, None)]), "Optimal")
        self.assertEqual(judged([(FIX, (0, 17)), (OPEN, None)]), "Bad 1 OpenWhole")

    def test_no_room(self):
        """Goal 18, that of the form, leaves a room of -255: all items are out, and the length is impossible."""
        self.assertEqual(judged([(FIX, (0, 18)), (COUNT, 0)]), "Optimal")

    def test_goal_above_the_form(self):
        self.assertEqual(judged([(FIX, (0, 19)), (COUNT, 0)]), "Bad 0 NotClosed")
        self.assertEqual(judged([(FIX, (0, 2 ** 32 - 1)), (COUNT, 0)]), "Bad 0 NotClosed")
        self.assertEqual(judged([(FIX, (0, 17)), (WHOLE, None)], form=None), "Bad 0 NotClosed")

    def test_vector_that_is_not_there(self):
        self.assertEqual(judged([(FIX, (255, 17)), (WHOLE, None)]), "Bad 0 NoVector")
        self.assertEqual(judged([(FIX, (0, 17)), (WHOLE, None)], [{0: 1}]), "Bad 0 NoSide")

    def test_settles_nothing(self):
        """Goal 0 leaves a room of 4608 - 255, more than any item may lose; so does goal 10, with 1793."""
        self.assertEqual(judged([(FIX, (0, 0)), (WHOLE, None)]), "Bad 0 FixesNothing")
        self.assertEqual(judged([(FIX, (0, 10)), (WHOLE, None)]), "Bad 0 FixesNothing")
        self.assertEqual(judged([(FIX, (0, 17)), (FIX, (0, 17)), (WHOLE, None)]), "Bad 1 FixesNothing")

    def test_branch_on_what_is_settled(self):
        self.assertEqual(judged([(FIX, (0, 17)), (ITEM, 2), (WHOLE, None), (WHOLE, None)]), "Bad 1 Determined")

    def test_vector_without_a_cap(self):
        """A place costs nothing: the bound is 6144, and the room 1537 for goal 17. Items 0 and 1 are in, none is out."""
        self.assertEqual(judged([(FIX, (0, 17)), (WHOLE, None)], [{}]), "Optimal")
        self.assertEqual(judged([(FIX, (0, 17)), (ITEM, 2), (COUNT, 0), (WHOLE, None)], [{}]), "Optimal")

    def test_passage_with_too_few_items_left(self):
        """Item 3 is too dear: it would lose 1744, and goal 11 leaves a room of 1537. The passage keeps one item, and needs two, so both are out."""
        tree = [(FIX, (0, 11)), (ITEM, 0), (ITEM, 1), (WHOLE, None), (COUNT, 0), (COUNT, 0)]
        self.assertEqual(judged(tree, problem=PASSAGE), "Optimal")
        self.assertEqual(judged([(FIX, (0, 11)), (ITEM, 2), (WHOLE, None), (WHOLE, None)], problem=PASSAGE), "Bad 1 Determined")
        self.assertEqual(judged([(FIX, (0, 11)), (STIMULUS, 1), (WHOLE, None), (WHOLE, None)], problem=PASSAGE), "Bad 1 Determined")

    def test_spent_goes_past_what_settles_something_alone(self):
        self.assertFalse(spent(FOUR, PLACE, [(FIX, (0, 0)), (OPEN, None)], 2))
        self.assertFalse(spent(FOUR, PLACE, [(FIX, (255, 17)), (OPEN, None)], 2))
        self.assertFalse(spent(FOUR, PLACE, [(FIX, (0, 18)), (OPEN, None)], 2))
        self.assertTrue(spent(FOUR, PLACE, [(FIX, (0, 17)), (OPEN, None)], 2))


if __name__ == "__main__":
    unittest.main()
