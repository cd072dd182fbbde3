"""The checker of series trees, with trees and sums that were worked out by hand."""
from check_series import BOUND, COUNT, FORM, OPEN, TWIN, USE, WHOLE, write_tree
from common import Folder
from data_of_bank_a import BANK

# At point 1 the items of bank A have information 5, 8, 9, 6, 4, 7. The best two forms of two items have 8 + 7 and 9 + 6.
PLAIN = {1: 1, 65: 1, 257: 3, 258: 4, 259: 1, 261: 2}
POOL = {1: 1, 65: 1, 2314: 1}
SERIES = ("--form", "1,5", "--form", "2,3")
# Three items of passage 1 with information 10, and three alone with information 1; a form has two items of the passage or none.
PASSAGES = """item,stimulus,categories,i0,l0_0,l1_0
0,1,2,10,-1,-1
1,1,2,10,-1,-1
2,1,2,10,-1,-1
3,0,2,1,-1,-1
4,0,2,1,-1,-1
5,0,2,1,-1,-1
"""


class Trees(Folder):
    def setUp(self):
        super().setUp()
        self.write("bank", BANK)
        self.write("two", "length 2\nprior -10 0 -10\n")
        self.write("four", "length 4\nprior -10 0 -10\n")

    def said(self, vectors, nodes, *more, plan="two", count="2", weights="0,1,0", bank="bank"):
        tree = write_tree(vectors, nodes).hex()
        status, said, errors = self.tool("check_series", bank, plan, count, weights, tree, *more)
        self.assertEqual((status, errors), (0, ""))
        return said.split("\n")[0] if len(said.split("\n")) == 2 else said.split("\n")[:-1]

    def test_best_series(self):
        """Common use 3, 4, 1, 2 leaves 5, 5, 5, 5, 4, 5: 10 for each form, and 10 before; 30 is below 2 * 15 + 2."""
        self.assertEqual(write_tree([PLAIN], [(BOUND, 0)]).hex(),
                         "01" "0006" "000100000001" "004100000001" "010100000003" "010200000004" "010300000001" "010500000002"
                         "0200")
        self.assertEqual(self.said([PLAIN], [(BOUND, 0)], *SERIES, "--brute"), ["Optimal", "best 15"])
        self.assertEqual(self.said([POOL], [(BOUND, 0)], *SERIES), "Optimal")
        for rule in (PLAIN, POOL):
            self.assertEqual(self.said([rule], [(BOUND, 0)], "--at-most", "15"), "AtMost 15")
            self.assertEqual(self.said([rule], [(BOUND, 0)], "--at-most", "14"), "Bad 0")

    def test_no_series(self):
        """Two forms of four items have six items to share: 6 - 4 - 4 is below 0."""
        tree = "010006" + "".join("01%02x00000001" % i for i in range(6)) + "0300"
        status, said, _ = self.tool("check_series", "bank", "four", "2", "0,1,0", tree, "--brute")
        self.assertEqual((status, said), (0, "NoSeries\nbest none\n"))
        tree = "010005" + "".join("01%02x00000001" % i for i in range(5)) + "0300"
        self.assertEqual(self.tool("check_series", "bank", "four", "2", "0,1,0", tree)[1], "NoSeries\n")
        tree = "010004" + "".join("01%02x00000001" % i for i in range(4)) + "0300"
        self.assertEqual(self.tool("check_series", "bank", "four", "2", "0,1,0", tree)[1], "Bad 0\n")

    def test_goal_by_point(self):
        """At weight 1,000 a value above 15,000 is at least 16,000 at each form: the pool rule has this goal, the plain rule 15,001."""
        for rule, goals in ((POOL, {15000: "AtMost 15000", 14999: "Bad 0"}), (PLAIN, {15000: "Bad 0"})):
            for most, wanted in goals.items():
                self.assertEqual(self.said([rule], [(BOUND, 0)], "--at-most", str(most), weights="0,1000,0"), wanted)

    def test_length_multipliers(self):
        """A unit taken off in form 0 and added in form 1: 30 + 4 over the items, and 2 - 2 before; 34 is below 2 * 18."""
        self.assertEqual(self.said([{1: 1, 65: 1, 2304: 1, 2307: 1}], [(BOUND, 0)], "--at-most", "17"), "AtMost 17")
        self.assertEqual(self.said([{1: 1, 65: 1, 2304: 1, 2307: 1}], [(BOUND, 0)], "--at-most", "16"), "Bad 0")

    def test_vectors_that_fit_nothing(self):
        """A form that is not there, a point, an item or a row that is not there, both rules at once; a multiplier that is too great."""
        for side in (129, 3, 262, 768, 768 + 2 * 384, 2308):
            self.assertEqual(self.said([POOL | {side: 1}], [(BOUND, 0)], *SERIES), "Bad 0", side)
        self.assertEqual(self.said([PLAIN | {2314: 1}], [(BOUND, 0)], *SERIES), "Bad 0")
        self.assertEqual(self.said([{side: 16777217 for side in (1, 65)} | {2314: 1}], [(BOUND, 0)], *SERIES), "Optimal")
        great = {side: 4000000 * m for side, m in PLAIN.items()}
        self.assertEqual(self.said([great], [(BOUND, 0)], *SERIES), "Optimal")
        self.assertEqual(self.said([great | {256: 16777217}], [(BOUND, 0)], *SERIES), "BadVector 17")
        self.assertEqual(self.said([{256: 1}], [(BOUND, 0)], *SERIES), "Bad 0")
        self.assertEqual(self.said([{0: 1, 64: 1}], [(BOUND, 0)], *SERIES), "Bad 0")

    def test_branches(self):
        """A form that is not there; an item that is not free; what a twin takes away, and only where it is one."""
        self.assertEqual(self.said([], [(FORM, 2, 0), (OPEN,), (OPEN,)]), "Bad 0")
        self.assertEqual(self.said([], [(FORM, 0, 6), (OPEN,), (OPEN,)]), "Bad 0")
        self.assertEqual(self.said([], [(FORM, 0, 0), (FORM, 1, 0), (OPEN,), (OPEN,), (OPEN,)]), "Bad 1")
        below = [(OPEN,), (FORM, 1, 0), (OPEN,), (OPEN,)]
        self.assertEqual(self.said([], [(FORM, 0, 0), *below]), "Partial 3")
        self.assertEqual(self.said([], [(TWIN, 0, 0), *below]), "Bad 2")
        self.assertEqual(self.said([], [(FORM, 0, 5), (TWIN, 0, 0), *below, (OPEN,)]), "Partial 4")

    def test_used_items(self):
        """An item is used once; if it has no form, counting closes the leaf, and only then."""
        self.assertEqual(self.said([], [(USE, 0), (USE, 0), (OPEN,), (OPEN,), (OPEN,)]), "Bad 1")
        self.assertEqual(self.said([], [(FORM, 0, 0), (USE, 0), (OPEN,), (OPEN,), (OPEN,)]), "Bad 1")
        nodes = [(TWIN, 0, 0), (OPEN,), (COUNT, 0, 0)]
        self.assertEqual(self.said([], nodes), "Bad 2")
        self.assertEqual(self.said([], [(USE, 0), *nodes, (OPEN,)]), "Partial 2")
        five = [(USE, i) for i in range(5)]
        self.assertEqual(self.said([], [*five, (COUNT, 0, 0)] + [(OPEN,)] * 5), "Partial 5")
        self.assertEqual(self.said([], [*five[:4], (COUNT, 0, 0)] + [(OPEN,)] * 4), "Bad 4")

    def test_leaves(self):
        """Whole asks that nothing is free, Open that something is; a tree of three nodes spends a budget of three."""
        self.assertEqual(self.said([], [(WHOLE,)]), "Bad 0")
        self.assertEqual(self.said([], [(OPEN,)], "--spent", "1"), ["Partial 1", "spent true"])
        self.assertEqual(self.said([], [(FORM, 0, 0), (OPEN,), (OPEN,)], "--spent", "3"), ["Partial 2", "spent true"])
        self.assertEqual(self.said([], [(FORM, 0, 0), (OPEN,), (FORM, 0, 1), (OPEN,), (OPEN,)], "--spent", "5"),
                         ["Partial 3", "spent false"])

    def test_threshold(self):
        """Three items of a passage go into one form alone. At threshold 1 it counts 2 * 9, and 4 * 1 are added: 22 is below 2 * 12."""
        self.write("passages", PASSAGES)
        self.write("plan", "length 2\nprior 0\nstimulus 1 2 2\n")
        for vector, most in ((POOL_OF_ONE, 15), (POOL_OF_ONE | {2312: 1}, 11)):
            for value, wanted in ((most, f"AtMost {most}"), (most - 1, "Bad 0")):
                self.assertEqual(self.said([vector], [(BOUND, 0)], "--at-most", str(value), plan="plan", weights="1",
                                           bank="passages"), wanted)

    def test_printed(self):
        """The lines of a series, and the same with a greater value or a form out of order."""
        tree = write_tree([POOL], [(BOUND, 0)]).hex()
        lines = f"series 2 value 15 proved nodes 1\nform 1 5\nform 2 3\ntree {tree}\n"
        for text, wanted in ((lines, (0, "agreed\n")), (lines.replace("15", "16"), (1, "does not agree: the value\n")),
                             (lines.replace("form 1 5\nform 2 3", "form 2 3\nform 1 5"), (1, "does not agree: the order of the forms\n")),
                             (lines.replace("proved", "unproved"), (1, "does not agree: the tree of an unproved series\n"))):
            status, said, _ = self.tool("check_series", "bank", "two", "2", "0,1,0", "--printed", self.write("lines", text))
            self.assertEqual((status, said), wanted)

    def test_printed_spellings(self):
        """Each line has one spelling: nothing else is taken that has the same meaning."""
        tree = write_tree([POOL], [(BOUND, 0)]).hex()
        lines = f"series 2 value 15 proved nodes 1\nform 1 5\nform 2 3\ntree {tree}\n"
        others = {
            "capitals": lines.replace(tree, tree.replace("0a", "0A")),
            "spaces within the tree": lines.replace(tree, tree[:2] + " " + tree[2:]),
            "a plus": lines.replace("15", "+15"),
            "a leading zero": lines.replace("15", "015"),
            "an underscore": lines.replace("15", "1_5"),
            "a word more": lines.replace("nodes 1\n", "nodes 1 or so\n"),
            "an item with a leading zero": lines.replace("form 1 5", "form 01 5"),
            "an item twice": lines.replace("form 1 5", "form 1 5 5"),
            "carriage returns": lines.replace("\n", "\r\n"),
            "form feeds": lines.replace("\n", "\f"),
            "no last line feed": lines[:-1],
            "an empty line more": lines + "\n",
            "two bounds": lines.replace("proved", "unproved") + f"at most 15 tree {tree}\n" * 2,
            "a letter outside ASCII": lines.replace("15", "1\u0665"),
        }
        self.assertEqual(len(set(others.values()) | {lines}), len(others) + 1)
        for name, text in others.items():
            status, said, _ = self.tool("check_series", "bank", "two", "2", "0,1,0", "--printed", self.write("lines", text))
            self.assertEqual((status, said.startswith("does not agree: ")), (1, True), name)

    def test_printed_none(self):
        """After `no series T` no line follows."""
        tree = "010006" + "".join("01%02x00000001" % i for i in range(6)) + "0300"
        for text, wanted in ((f"no series {tree}\n", (0, "agreed\n")),
                             (f"no series {tree}\nform 1 5\n", (1, "does not agree: the number of lines\n")),
                             (f"no series {tree}", (1, "does not agree: the end of the last line\n"))):
            status, said, _ = self.tool("check_series", "bank", "four", "2", "0,1,0", "--printed", self.write("lines", text))
            self.assertEqual((status, said), wanted)

    def test_forms_with_a_number(self):
        """Beside a number the forms are a series too: as many as there are forms, with no item in two of them, of the plan."""
        at_most = ("--at-most", "15")
        self.assertEqual(self.said([POOL], [(BOUND, 0)], *SERIES, *at_most), "AtMost 15")
        for forms in (("1,5", "1,5"), ("1,5",), ("1,5", "2,3", "0,4"), ("1,5", "2"), ("1,5", "2,300")):
            words = [word for form in forms for word in ("--form", form)]
            self.assertEqual(self.said([POOL], [(BOUND, 0)], *words, *at_most), "Bad 0", forms)

    def test_words(self):
        """Numbers, sets and trees of the command line have one spelling."""
        tree = write_tree([POOL], [(BOUND, 0)]).hex()
        for words in (("02", "0,1,0", tree), ("2", "0,01,0", tree), ("2", "0,1001,0", tree), ("2", "0, 1,0", tree),
                      ("2", "0,1,0", tree.upper()), ("2", "0,1,0", tree + " "), ("2", "0,1,0", tree, "--at-most", "+15"),
                      ("2", "0,1,0", tree, "--spent", "1_5"), ("2", "0,1,0", tree, "--form", "1,1", "--form", "2,3"),
                      ("2", "0,1,0", tree, "--form", "5,1", "--form", "2,3"), ("2", "0,1,0", tree, "--form", "1-1", "--form", "2,3")):
            status, said, errors = self.tool("check_series", "bank", "two", *words)
            self.assertEqual((status, said), (1, ""), words)
            self.assertTrue(errors, words)

    def test_trials(self):
        """Random problems: no verdict that all series contradict."""
        self.assertEqual(self.tool("check_series", "--trials", "25", "3")[0], 0)


POOL_OF_ONE = {0: 1, 64: 1, 2314: 1}
