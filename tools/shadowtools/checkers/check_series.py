"""Checks the tree of a series of fixed forms against an item bank and a plan, on its own.

usage: check_series.py BANK PLAN K WEIGHTS TREE [options]
       check_series.py BANK PLAN K WEIGHTS --printed FILE
       check_series.py --trials N [SEED]

K is the number of forms, WEIGHTS a weight for each grid point, as `0,1,0`. TREE is the tree's bytes in hexadecimal.
The verdict is printed as `Optimal`, `NoSeries`, `Partial OPEN` or `Bad NODE`; with --at-most as `AtMost U` in the
place of `Optimal`; a tree that can't be read as `Short`, `BadVector AT`, `BadKind AT`, `Unfinished AT` or `TooLong AT`.

  --form SET       a form of the series that the tree is to show best, as `1-3,7`: once for each form, or never;
                   without any the tree is to show that there is no series
  --at-most U      the tree is to show that no series has a value above U
  --spent BUDGET   also prints whether the tree spends this node budget, as `spent true` or `spent false`
  --brute          also compares with all series, where at most 20,000 sets of items are forms of the plan
  --printed FILE   judges each line that `shadowd series` printed, and prints `agreed` or what does not agree; a line
                   that the format page does not have is refused

--trials makes N small problems at random, searches each, damages some of the trees, and compares each verdict that
claims something with all series; it prints how many of each verdict it saw.

It shares no text with the product: its rules are those of the format page alone. All numbers are whole numbers of any
size. Exit status: 0, or 1 where all series or a printed line contradict a verdict or a
file is refused, 2 for a faulty command line.
"""
import itertools
import math
import random
import re
import sys
from collections import namedtuple

from shadowtools.checkers import check_tree
from shadowtools.checkers.check_tree import Fault
from shadowtools.command import Refused, as_command

# ---------------------------------------------------------------- what a series is

# `count` is the number of forms, K; `weights` has one for each grid point.
Problem = namedtuple("Problem", "bank plan weights count")


def alone(P):
    """The problem of one form: the plan alone, with nothing given and nothing barred."""
    return check_tree.Problem(P.bank, P.plan, 0, frozenset(), frozenset(), None)


def is_series(P, forms):
    if len(forms) != P.count or any(max(X, default=0) >= len(P.bank.items) for X in forms):
        return False
    if any(not check_tree.is_form(alone(P), X) for X in forms):
        return False
    return all(not X & Y for X, Y in itertools.combinations(forms, 2))


def least_weighted(P, X):
    """The least weighted information of one form over the points that have a weight."""
    return min(w * sum(P.bank.items[i].info[g] for i in X) for g, w in enumerate(P.weights) if w)


def value(P, forms):
    return min(least_weighted(P, X) for X in forms)


# ---------------------------------------------------------------- the bytes of a tree

FORM, BOUND, RAY, COUNT, WHOLE, OPEN, USE, TWIN = 1, 2, 3, 4, 5, 6, 7, 8
BRANCHES = (FORM, USE, TWIN)
# The sizes in bytes of the numbers of a node, and the greatest of each.
FIELDS = {FORM: ((1, 3), (2, 511)), BOUND: ((1, 255),), RAY: ((1, 255),), COUNT: ((1, 3), (1, 192)), WHOLE: (), OPEN: (),
          USE: ((2, 511),), TWIN: ((1, 3), (2, 511))}

USES, ROWS, LENGTHS, LOW_THRESHOLD, HIGH_THRESHOLD, MARK, SIDES = 256, 768, 2304, 2312, 2313, 2314, 2315
MOST_PAIRS, MOST_OF_VECTOR, MOST_NODES = 12288, 2304, 4095
MOST_PLAIN = 16777216


def is_pool(vector):
    """Whether the pool rule judges the vector."""
    return any(side >= LENGTHS for side in vector)


class Reader:
    """The bytes of a tree, from left to right."""

    def __init__(self, data):
        self.data, self.at = data, 0

    def number(self, size):
        if self.at + size > len(self.data):
            raise Fault("Short")
        self.at += size
        return int.from_bytes(self.data[self.at - size:self.at], "big")

    def tested(self, size, word, fits):
        """A number that `fits` accepts."""
        begin, number = self.at, self.number(size)
        if not fits(number):
            raise Fault("%s %d" % (word, begin))
        return number

    def vector(self, room):
        pairs = self.tested(2, "BadVector", lambda n: n <= min(MOST_OF_VECTOR, room))
        vector, least, large = {}, 0, None
        for _ in range(pairs):
            side = self.tested(2, "BadVector", lambda n: least <= n < SIDES)
            vector[side] = self.tested(4, "BadVector", lambda n: n >= 1)
            if vector[side] > MOST_PLAIN and large is None:
                large = self.at - 4
            least = side + 1
        if large is not None and not is_pool(vector):
            raise Fault("BadVector %d" % large)
        return vector

    def node(self):
        begin, kind = self.at, self.number(1)
        if kind not in FIELDS:
            raise Fault("BadKind %d" % begin)
        numbers = []
        for size, most in FIELDS[kind]:
            number = self.number(size)
            if number > most:
                raise Fault("BadKind %d" % begin)
            numbers.append(number)
        return (kind, *numbers)


def read_tree(data):
    """The vectors, the nodes and the number of bytes used."""
    reader, vectors, nodes, room = Reader(data), [], [], MOST_PAIRS
    for _ in range(reader.number(1)):
        vectors.append(reader.vector(room))
        room -= len(vectors[-1])
    waiting = 1
    while waiting:
        if reader.at == len(data):
            raise Fault("Unfinished %d" % reader.at)
        if len(nodes) == MOST_NODES:
            raise Fault("TooLong %d" % reader.at)
        nodes.append(reader.node())
        waiting += 1 if nodes[-1][0] in BRANCHES else -1
    return vectors, nodes, reader.at


def write_tree(vectors, nodes):
    out = bytes([len(vectors)])
    for vector in vectors:
        out += len(vector).to_bytes(2, "big")
        for side in sorted(vector):
            out += side.to_bytes(2, "big") + vector[side].to_bytes(4, "big")
    for kind, *numbers in nodes:
        out += bytes([kind]) + b"".join(n.to_bytes(size, "big") for n, (size, _) in zip(numbers, FIELDS[kind]))
    return out


# ---------------------------------------------------------------- paths

# For each form its items in and its free items; `used` are the items that a branch on use took.
Path = namedtuple("Path", "taken free used")


def root(P):
    everything = frozenset(range(len(P.bank.items)))
    return Path((frozenset(),) * P.count, (everything,) * P.count, frozenset())


def placed(p):
    """The items that are in some form."""
    return frozenset().union(*p.taken)


def live(p):
    """The items that are free in some form."""
    return frozenset().union(*p.free)


def may_branch(P, p, node):
    kind, *numbers = node
    if kind == USE:
        item, = numbers
        return item in live(p) and item not in p.used and item not in placed(p)
    form, item = numbers
    return form < P.count and item in p.free[form]


def without(p, item, forms):
    """The path with the item out of these forms."""
    return p._replace(free=tuple(free - {item} if f in forms else free for f, free in enumerate(p.free)))


def below(P, p, node):
    """The paths below a branch, left first."""
    kind, *numbers = node
    if kind == USE:
        item, = numbers
        return [p._replace(used=p.used | {item}), without(p, item, range(P.count))]
    form, item = numbers
    left = without(p, item, range(P.count))
    left = left._replace(taken=tuple(X | {item} if f == form else X for f, X in enumerate(p.taken)))
    same = {form}
    if kind == TWIN:
        same = {f for f in range(P.count) if (p.taken[f], p.free[f]) == (p.taken[form], p.free[form])}
    return [left, without(p, item, same)]


def of_form(P, p, form):
    """The path of one form, for the rules of one form."""
    return check_tree.Path(p.taken[form], p.free[form], frozenset())


def some_row_impossible(P, p):
    return any(check_tree.some_impossible(alone(P), of_form(P, p, f)) for f in range(P.count))


def counts_fail(P, p):
    """Whether a used item has no form left, or more items are in and used than the forms have."""
    return bool(p.used - placed(p) - live(p)) or len(placed(p) | p.used) > P.count * P.plan.length


# ---------------------------------------------------------------- the relaxed maximum

# Of one form: the constant, and the weight of each item and each stimulus.
Reduced = namedtuple("Reduced", "constant weight stimulus")


def sides_fit(P, vector):
    """Whether the problem has each side that the vector names, and the vector may name them together."""
    of_rows = 2 * len(P.plan.rows) + 2 * P.bank.stimuli
    for side in vector:
        if side < USES:
            fits = side // 64 < P.count and side % 64 < P.bank.grid
        elif side < ROWS:
            fits = side - USES < len(P.bank.items) and not is_pool(vector)
        elif side < LENGTHS:
            form, row = divmod(side - ROWS, 384)
            fits = form < P.count and row < of_rows
        else:
            fits = side >= LOW_THRESHOLD or (side - LENGTHS) // 2 < P.count
        if not fits:
            return False
    return True


def reduced(P, vector, form, ray):
    """The constant and the weights of one form, which don't depend on the path."""
    first = ROWS + 384 * form
    rows = {side - first: m for side, m in vector.items() if first <= side < first + 384}
    r = check_tree.reduced(alone(P), rows, True)
    points = {} if ray else {g: vector[64 * form + g] * w for g, w in enumerate(P.weights) if 64 * form + g in vector}
    weight = [old + sum(m * item.info[g] for g, m in points.items()) for old, item in zip(r.weight, P.bank.items)]
    return Reduced(r.constant, weight, r.stimulus)


def all_reduced(P, vector, ray):
    return [reduced(P, vector, f, ray) for f in range(P.count)]


def plain_maximum(P, p, vector, forms):
    """The plain rule: each form for itself, an item less its multiplier of common use."""
    prices = [vector.get(USES + i, 0) for i in range(len(P.bank.items))]
    total = sum(prices)
    for f, r in enumerate(forms):
        priced = check_tree.Reduced(r.constant, [w - m for w, m in zip(r.weight, prices)], r.stimulus, None)
        maximum = check_tree.maximum(alone(P), of_form(P, p, f), priced)
        if maximum is None:
            return None
        total += maximum
    return total


def difference(vector, low):
    """The number of either sign that two sides give."""
    return vector.get(low, 0) - vector.get(low + 1, 0)


def weighed(P, p, vector, forms):
    """What each item counts under the pool rule: of the items that must be taken, and of those that may be."""
    must, may = {}, {}
    for f, r in enumerate(forms):
        price = difference(vector, LENGTHS + 2 * f)
        for i in p.taken[f]:
            must[i] = r.weight[i] - price
        for i in p.free[f]:
            may[i] = max(may.get(i, r.weight[i] - price), r.weight[i] - price)
    for i in p.used - placed(p):
        must[i] = may.pop(i)
    return must, may


def pool_maximum(P, p, vector, forms):
    """The pool rule: each item once, K times the length in all."""
    if p.used - placed(p) - live(p):
        return None
    must, may = weighed(P, p, vector, forms)
    room = P.count * P.plan.length - len(must)
    if not 0 <= room <= len(may):
        return None
    total = sum(r.constant + P.plan.length * difference(vector, LENGTHS + 2 * f) for f, r in enumerate(forms))
    if LOW_THRESHOLD not in vector and HIGH_THRESHOLD not in vector:
        return total + sum(must.values()) + sum(sorted(may.values(), reverse=True)[:room]) + stimulus_terms(P, p, forms)
    threshold = difference(vector, LOW_THRESHOLD)
    total += P.count * P.plan.length * threshold
    for s in range(P.bank.stimuli + 1):
        inside = [w - threshold for i, w in must.items() if P.bank.items[i].stimulus == s]
        others = [w - threshold for i, w in may.items() if P.bank.items[i].stimulus == s]
        best = sum(inside) + sum(max(0, w) for w in others) if s == 0 else best_of_stimulus(P, p, forms, s, inside, others)
        if best is None:
            return None
        total += best
    return total


def stimulus_terms(P, p, forms):
    """Of each form the weights of its chosen stimuli, and those above 0 of its open ones."""
    total = 0
    for f, r in enumerate(forms):
        path = of_form(P, p, f)
        total += sum(r.stimulus[s] for s in check_tree.chosen(alone(P), path))
        total += sum(max(0, r.stimulus[s]) for s in check_tree.opened(alone(P), path))
    return total


def best_of_stimulus(P, p, forms, s, inside, others):
    """The most that a stimulus and its items count at the threshold, or None where no number of forms fits."""
    low, high = P.plan.bounds[s - 1]
    sure, maybe = [], []
    for f, r in enumerate(forms):
        path = of_form(P, p, f)
        if s in check_tree.chosen(alone(P), path):
            sure.append(r.stimulus[s])
        elif s in check_tree.opened(alone(P), path):
            maybe.append(r.stimulus[s])
    maybe.sort(reverse=True)
    others.sort(reverse=True)
    found = []
    for more in range(len(maybe) + 1):
        z = len(sure) + more
        for j in range(len(others) + 1):
            if z * low <= len(inside) + j <= z * high:
                found.append(sum(sure) + sum(maybe[:more]) + sum(inside) + sum(others[:j]))
    return max(found, default=None)


def maximum(P, p, vector, forms):
    """The relaxed maximum, or None where it isn't defined."""
    return (pool_maximum if is_pool(vector) else plain_maximum)(P, p, vector, forms)


def goal(P, vector, best):
    """The least sum of weighted information that a value above `best` has, and whether it counts at all."""
    points = [(vector[64 * f + g], w) for f in range(P.count) for g, w in enumerate(P.weights)
              if w and 64 * f + g in vector]
    count = sum(m for m, _ in points)
    least = sum(m * w * (best // w + 1) for m, w in points) if is_pool(vector) else count * (best + 1)
    return least if count else None


# ---------------------------------------------------------------- the verdict

class Judge:
    """What a tree is judged with: the value that no series is to exceed (None where no series is to be there)."""

    def __init__(self, P, vectors, best):
        self.P, self.vectors, self.best = P, vectors, best
        self.known = {}

    def maximum(self, p, number, ray):
        """The relaxed maximum of a vector, or None where it isn't defined or the vector isn't sound."""
        if number >= len(self.vectors) or not sides_fit(self.P, self.vectors[number]):
            return None
        if (number, ray) not in self.known:
            self.known[number, ray] = all_reduced(self.P, self.vectors[number], ray)
        return maximum(self.P, p, self.vectors[number], self.known[number, ray])

    def is_bound(self, p, number):
        most = self.maximum(p, number, False)
        if most is None or self.best is None:
            return False
        least = goal(self.P, self.vectors[number], self.best)
        return least is not None and most <= least - 1

    def is_ray(self, p, number):
        most = self.maximum(p, number, True)
        return most is not None and most < 0

    def is_counted(self, p, form, row):
        P = self.P
        if form >= P.count or row > len(P.plan.rows) + P.bank.stimuli:
            return False
        return counts_fail(P, p) or check_tree.impossible(alone(P), of_form(P, p, form), row)

    def is_whole(self, p):
        if live(p):
            return False
        return not is_series(self.P, p.taken) or self.best is not None and value(self.P, p.taken) <= self.best

    def is_sound(self, p, node):
        kind, *numbers = node
        if kind in BRANCHES:
            return may_branch(self.P, p, node)
        tests = {BOUND: self.is_bound, RAY: self.is_ray, COUNT: self.is_counted, WHOLE: self.is_whole,
                 OPEN: lambda p: bool(live(p))}
        return tests[kind](p, *numbers)


def verdict(P, forms, vectors, nodes, at_most=None):
    """The verdict on a tree, with the forms of a series, a number that no series exceeds, or neither."""
    if forms is not None and not is_series(P, forms):
        return "Bad 0"
    best = at_most if at_most is not None else None if forms is None else value(P, forms)
    judge, waiting, open_leaves = Judge(P, vectors, best), [root(P)], 0
    for number, node in enumerate(nodes):
        p = waiting.pop()
        if not judge.is_sound(p, node):
            return "Bad %d" % number
        if node[0] in BRANCHES:
            waiting.extend(reversed(below(P, p, node)))
        open_leaves += node[0] == OPEN
    if open_leaves:
        return "Partial %d" % open_leaves
    return "AtMost %d" % at_most if at_most is not None else "NoSeries" if forms is None else "Optimal"


def spent(P, forms, vectors, nodes, budget):
    """Whether the tree spends the node budget."""
    kinds = [node[0] for node in nodes]
    if len(nodes) != budget or OPEN not in kinds or verdict(P, forms, vectors, nodes).startswith("Bad"):
        return False
    if any(kind in BRANCHES for kind in kinds[kinds.index(OPEN):]):
        return False
    waiting = [root(P)]
    for node in nodes:
        p = waiting.pop()
        if node[0] in BRANCHES + (OPEN,) and some_row_impossible(P, p):
            return False
        if node[0] in BRANCHES:
            waiting.extend(reversed(below(P, p, node)))
    return True


# ---------------------------------------------------------------- all series

def forms_of(P):
    """The forms of the plan, the best alone first."""
    sets = itertools.combinations(range(len(P.bank.items)), P.plan.length)
    found = [frozenset(X) for X in sets if check_tree.is_form(alone(P), frozenset(X))]
    return sorted(found, key=lambda X: -least_weighted(P, X))


def disjoint(P, forms, wanted):
    """Whether so many of these forms have no item in two of them."""
    if wanted == 0:
        return True
    return any(disjoint(P, [Y for Y in forms[at + 1:] if not X & Y], wanted - 1) for at, X in enumerate(forms))


def best_value(P):
    """The greatest value of a series, or None: the least of the first forms among which a series is."""
    forms = forms_of(P)
    for at, X in enumerate(forms):
        if disjoint(P, [Y for Y in forms[:at] if not X & Y], P.count - 1):
            return least_weighted(P, X)
    return None


def contradicts(P, forms, said):
    """Whether all series say otherwise."""
    best = best_value(P)
    if said == "NoSeries":
        return best is not None
    if said.startswith("AtMost"):
        return best is not None and best > int(said.split(" ")[1])
    return said == "Optimal" and (best is None or value(P, forms) != best)


# ---------------------------------------------------------------- what was printed

NUMBER = "(0|[1-9][0-9]*)"
TREE = "((?:[0-9a-f]{2})+)"
SERIES_LINE = re.compile("series ([1-4]) value %s (proved|unproved) nodes %s" % (NUMBER, NUMBER))
FORM_LINE = re.compile("form((?: (?:0|[1-9][0-9]*))+)")
TREE_LINE = re.compile("tree " + TREE)
BOUND_LINE = re.compile("at most %s tree %s" % (NUMBER, TREE))
NONE_LINE = re.compile("no series " + TREE)
NONE_FOUND_LINE = re.compile("no series in %s nodes %s" % (NUMBER, TREE))


def parts(pattern, line, what):
    """The parts of a line that is spelled so as a whole."""
    match = pattern.fullmatch(line)
    expect(match, what)
    return match.groups()


def items_of(line):
    """The items of a form's line, which ascend strictly."""
    items = [int(word) for word in parts(FORM_LINE, line, "the forms")[0].split()]
    expect(all(one < other for one, other in zip(items, items[1:])), "the order of the forms")
    return items


def judged(P, forms, text, at_most=None):
    """The verdict on a tree in hexadecimal, and the tree."""
    data = bytes.fromhex(text)
    vectors, nodes, used = read_tree(data)
    said = verdict(P, forms, vectors, nodes, at_most) if used == len(data) else "Extra"
    return said, (vectors, nodes)


def expect(condition, what):
    if not condition:
        raise ValueError(what)


def printed_series(P, lines, budget):
    """Tests the lines of a series: the first line, a line for each form, the tree, and perhaps the bound."""
    count, best, mark, number = parts(SERIES_LINE, lines[0], "the first line")
    expect(int(count) == P.count, "the number of forms")
    expect(len(lines) in (P.count + 2, P.count + 3), "the number of lines")
    forms = [items_of(line) for line in lines[1:P.count + 1]]
    expect(forms == sorted(forms), "the order of the forms")
    forms = [frozenset(X) for X in forms]
    expect(is_series(P, forms) and value(P, forms) == int(best), "the value")
    said, (vectors, nodes) = judged(P, forms, *parts(TREE_LINE, lines[P.count + 1], "the tree"))
    expect(len(nodes) == int(number), "the number of nodes")
    if mark == "proved":
        expect(said == "Optimal" and len(lines) == P.count + 2, "the tree of a proved series")
        return
    expect(said.startswith("Partial"), "the tree of an unproved series")
    expect(spent(P, forms, vectors, nodes, budget), "the budget")
    for line in lines[P.count + 2:]:
        most, tree = parts(BOUND_LINE, line, "the bound")
        expect(judged(P, forms, tree, int(most))[0] == "AtMost " + most, "the tree of the bound")


def printed(P, text, budget):
    """Tests what `shadowd series` printed, at status 0, 17 or 18."""
    expect(text.endswith("\n"), "the end of the last line")
    lines = text[:-1].split("\n")
    if not lines[0].startswith("no series "):
        printed_series(P, lines, budget)
        return
    expect(len(lines) == 1, "the number of lines")
    if lines[0].startswith("no series in "):
        number, tree = parts(NONE_FOUND_LINE, lines[0], "the first line")
        said, (vectors, nodes) = judged(P, None, tree)
        expect(int(number) == budget and said.startswith("Partial"), "the tree of no series in so many nodes")
        expect(spent(P, None, vectors, nodes, budget), "the budget")
    else:
        expect(judged(P, None, *parts(NONE_LINE, lines[0], "the first line"))[0] == "NoSeries", "the tree of no series")


# ---------------------------------------------------------------- trials

def any_problem(rng):
    """A problem that mostly has a series."""
    for _ in range(12):
        P = drawn_problem(rng)
        if rng.random() < 0.15 or best_value(P) is not None:
            break
    return P


def drawn_problem(rng):
    one = check_tree.any_problem(rng)
    weights = [rng.choice([0, 1, 1, 2, 3]) for _ in range(one.bank.grid)]
    weights[rng.randrange(len(weights))] = rng.choice([1, 1, 5])
    return Problem(one.bank, one.plan._replace(length=min(one.plan.length, rng.randint(1, 3))), weights, rng.randint(1, 4))


def any_vector(rng, P):
    """A vector of the plain rule or of the pool rule, the same for each form or not."""
    rows, vector, pool = 2 * len(P.plan.rows) + 2 * P.bank.stimuli, {}, rng.random() < 0.6
    points = {g: rng.randint(1, 9) for g in range(P.bank.grid) if rng.random() < 0.8}
    chosen = {side: rng.randint(1, 20) for side in range(rows) if rng.random() < 0.2}
    for f in range(P.count):
        if rng.random() < 0.9:
            vector.update({64 * f + g: m for g, m in points.items()})
            vector.update({ROWS + 384 * f + side: m for side, m in chosen.items()})
    if not pool:
        vector.update({USES + i: rng.randint(1, 150) for i in range(len(P.bank.items)) if rng.random() < 0.6})
        return vector
    vector[MARK] = 1
    for low in [LENGTHS + 2 * f for f in range(P.count)] + [LOW_THRESHOLD]:
        if rng.random() < 0.3:
            vector[low + rng.randrange(2)] = rng.randint(1, 60)
    return vector


def search(rng, P, judge, p, nodes):
    """A plain search: each leaf that is sound closes, else it branches."""
    leaves = [(kind, v) for kind in (BOUND, RAY) for v in range(len(judge.vectors))] + [(WHOLE,)]
    leaves += [(COUNT, f, row) for f in range(P.count) for row in range(len(P.plan.rows) + P.bank.stimuli + 1)]
    rng.shuffle(leaves)
    if rng.random() < 0.005 and live(p):
        leaves.insert(0, (OPEN,))
    found = next((node for node in leaves if judge.is_sound(p, node)), None)
    if found is None:
        branches = [(kind, f, i) for kind in (FORM, TWIN) for f in range(P.count) for i in sorted(p.free[f])]
        branches += [(USE, i) for i in sorted(live(p) - p.used - placed(p))]
        found = rng.choice(branches)
    nodes.append(found)
    if len(nodes) > MOST_NODES:
        raise OverflowError
    if found[0] in BRANCHES:
        for q in below(P, p, found):
            search(rng, P, judge, q, nodes)


def any_series(rng, P):
    """A series and its value, often the best one; or neither."""
    best, forms = best_value(P), forms_of(P)
    if best is None:
        return None
    for _ in range(50):
        series = rng.sample(forms, P.count) if len(forms) >= P.count else []
        if is_series(P, series) and (value(P, series) == best or rng.random() < 0.3):
            return series
    for series in itertools.combinations([X for X in forms if least_weighted(P, X) >= best], P.count):
        if is_series(P, series):
            return list(series)
    raise AssertionError("a best value without a series")


def trials(count, seed):
    rng, seen, wrong = random.Random(seed), {}, 0
    for number in range(count):
        P = any_problem(rng)
        forms = any_series(rng, P)
        vectors, nodes = [any_vector(rng, P) for _ in range(rng.randint(0, 4))], []
        best = None if forms is None else value(P, forms)
        try:
            search(rng, P, Judge(P, vectors, best), root(P), nodes)
        except (IndexError, OverflowError):    # a better series is left, and no tree closes there; or it is too long
            seen["given up"] = seen.get("given up", 0) + 1
            continue
        data = write_tree(vectors, nodes)
        if read_tree(data + b"tail") != (vectors, nodes, len(data)):
            print("problem %d: the bytes give another tree" % number)
            wrong += 1
        for damaged in (False, True, True):
            if damaged:
                at = rng.randrange(len(data))
                changed = data[:at] + bytes([data[at] ^ 1 << rng.randrange(8)]) + data[at + 1:]
                try:
                    vectors, nodes, _ = read_tree(changed)
                except Fault as fault:
                    word = str(fault).split(" ")[0]
                    seen[word] = seen.get(word, 0) + 1
                    continue
            said = verdict(P, forms, vectors, nodes)
            word = said.split(" ")[0]
            seen[word] = seen.get(word, 0) + 1
            if contradicts(P, forms, said) or not damaged and word not in ("Optimal", "NoSeries", "Partial"):
                print("problem %d: %s is wrong: %r %r %s" % (number, said, P, forms, write_tree(vectors, nodes).hex()))
                wrong += 1
    print(", ".join("%s %d" % pair for pair in sorted(seen.items())))
    print("%d passed, %d failed" % (sum(seen.values()) - wrong, wrong))
    return 1 if wrong or not seen else 0


# ---------------------------------------------------------------- command line

WITH_VALUE = ("--form", "--at-most", "--spent", "--printed")


def options_of(words):
    """The options, each with the list of its values, and the plain words."""
    options, plain, words = {}, [], list(words)
    while words:
        word = words.pop(0)
        if word in WITH_VALUE and words:
            options.setdefault(word, []).append(words.pop(0))
        elif word == "--brute":
            options[word] = []
        else:
            plain.append(word)
    return options, plain


def base_budget(path):
    """The base budget of a plan."""
    with open(path, encoding="utf-8") as file:
        return next((int(line.split(" ")[1]) for line in file if line.startswith("base-budget ")), 4095)


def number_of(word, what):
    """A whole number in decimal digits without a leading zero."""
    if not re.fullmatch(NUMBER, word):
        raise Refused("%s %s: a whole number" % (what, word))
    return int(word)


def numbers_of(word, count, bank):
    """The weights of a word, and the number of forms."""
    words = word.split(",")
    if not all(re.fullmatch(NUMBER, part) for part in words) or len(words) != bank.grid or not 0 < max(map(int, words)) <= 1000:
        raise Refused("weights %s: %d whole numbers from 0 to 1000 parted by commas, one above 0" % (word, bank.grid))
    if count not in ("1", "2", "3", "4"):
        raise Refused("%s forms: 1 to 4" % count)
    return [int(part) for part in words], int(count)


def set_of(word):
    """The items of a SET whose words are parted by commas: they ascend strictly, and none is named twice."""
    least = 0
    for part in word.split(","):
        match = re.fullmatch(NUMBER + "(?:-%s)?" % NUMBER, part)
        low, high = (int(match[1]), int(match[2] or match[1])) if match else (1, 0)
        if not least <= low <= high <= 511 or match[2] and low == high:
            raise Refused("--form %s: no set of items" % word)
        least = high + 1
    return check_tree.read_set(word.split(","))


def text_in(path):
    """The text of a file, byte by byte: no line end is turned into another."""
    try:
        with open(path, encoding="latin-1", newline="") as file:
            return file.read()
    except OSError as error:
        raise Refused("%s: %s" % (error.filename, error.strerror))


def compare(P, forms, said):
    """Prints the best value of all series; 1 where it contradicts the verdict."""
    if math.comb(len(P.bank.items), P.plan.length) > 2000000 or len(forms_of(P)) > 20000:
        print("too many sets of items")
        return 0
    best = best_value(P)
    print("best", "none" if best is None else best)
    if contradicts(P, forms, said):
        print("all series say otherwise")
        return 1
    return 0


def main(words):
    if words[:1] == ["--trials"] and len(words) in (2, 3):
        return trials(int(words[1]), int(words[2]) if len(words) == 3 else 1)
    options, plain = options_of(words)
    if len(plain) != (4 if "--printed" in options else 5):
        print(__doc__, file=sys.stderr)
        return 2
    from shadowtools.checkers.audit import require_texts   # whose module reads trees by check_tree
    require_texts(*plain[:2])
    bank = check_tree.read_bank(plain[0])
    P = Problem(bank, check_tree.read_plan(plain[1], bank), *numbers_of(plain[3], plain[2], bank))
    if "--printed" in options:
        text = text_in(options["--printed"][0])
        try:
            printed(P, text, base_budget(plain[1]))
        except (ValueError, IndexError, Fault) as fault:
            print("does not agree: %s" % fault)
            return 1
        print("agreed")
        return 0
    forms = [set_of(word) for word in options.get("--form", [])] or None
    if not re.fullmatch("(?:[0-9a-f]{2})*", plain[4]):
        raise Refused("the tree: pairs of lower-case hexadecimal digits")
    try:
        vectors, nodes, _ = read_tree(bytes.fromhex(plain[4]))
    except Fault as fault:
        print(fault)
        return 0
    at_most = number_of(options["--at-most"][0], "--at-most") if "--at-most" in options else None
    budget = number_of(options["--spent"][0], "--spent") if "--spent" in options else None
    said = verdict(P, forms, vectors, nodes, at_most)
    print(said)
    if budget is not None:
        print("spent", "true" if spent(P, forms, vectors, nodes, budget) else "false")
    return compare(P, forms, said) if "--brute" in options else 0


command = as_command(main)


if __name__ == "__main__":
    sys.exit(command())
