"""Checks a proof tree against an item bank and a plan, on its own.

usage: check_tree.py BANK PLAN TREE [options]
       check_tree.py --trials N [SEED]

TREE is the tree's bytes in hexadecimal. The verdict is printed as `Optimal`, `NoForm`, `Partial K`, or
`Bad NODE REASON`; a tree that can't be read as `Short`, `BadKind AT`, `BadVector AT`, `Unfinished AT` or `TooLong AT`.

  --form SET       the form that the tree is to show best, as `1-3,7`; without it the tree is to show that there is none
  --given SET      the items given (default none)
  --barred SET     the items barred (default none)
  --theta POINT    the grid point of the estimate (default the mode of the plan's prior)
  --start SET      the form served from before (read by --spent alone)
  --spent BUDGET   also prints whether the tree spends this node budget, as `spent true` or `spent false`
  --brute          also compares with all sets of items, where they are at most 2,000,000

--trials makes N small problems at random, searches each, damages some of the trees, and compares each Optimal and
NoForm with all sets of items; it prints how many of each verdict it saw.

It shares no text with the product: its rules are those of the format page alone. The last item given isn't asked
for, since no rule here reads it. All numbers are whole numbers of any size. Exit status: 0, or 1 where the comparison
with all sets contradicts the verdict, 2 for a faulty command line.
"""
import csv
import itertools
import math
import random
import sys
from collections import namedtuple
from typing import Callable, Dict, FrozenSet, Iterable, List, Optional, Sequence, Set, Tuple

from shadowtools.command import Refused, as_command

# ---------------------------------------------------------------- bank, plan, problem

Item = namedtuple("Item", "stimulus quantities info")
Bank = namedtuple("Bank", "items grid stimuli")
Row = namedtuple("Row", "kind low high members attribute")
Plan = namedtuple("Plan", "length prior rows bounds")
Problem = namedtuple("Problem", "bank plan theta given barred start")
# The vectors of a tree, each a multiplier by the number of a side, and its nodes, each a kind and a value.
Vectors = List[Dict[int, int]]
Nodes = List[Tuple[int, Optional[int]]]


def read_bank(path: str) -> Bank:
    with open(path, newline="", encoding="utf-8", errors="surrogateescape") as f:
        records = [r for r in csv.reader(f) if r]
    header = records[0]
    quantities = sum(1 for name in header if name[0] == "q")
    grid = sum(1 for name in header if name[0] == "i" and name[1:].isdigit())
    items = []
    for r in records[1:]:
        numbers = [int(x) for x in r[3:3 + quantities + grid]]
        items.append(Item(int(r[1]), numbers[:quantities], numbers[quantities:]))
    return Bank(items, grid, max(i.stimulus for i in items))


def read_set(words: Iterable[str]) -> FrozenSet[int]:
    out = set()
    for word in words:
        low, _, high = word.partition("-")
        out.update(range(int(low), int(high or low) + 1))
    return frozenset(out)


def read_plan(path: str, bank: Bank) -> Plan:
    length, prior, rows, bounds = None, None, [], {}
    with open(path, encoding="utf-8", errors="surrogateescape", newline="\n") as f:
        for line in f:
            words = line.rstrip("\n").split(" ")
            if line.startswith("#") or words == [""]:
                continue
            first, rest = words[0], words[1:]
            if first == "length":
                length = int(rest[0])
            elif first == "prior":
                prior = [int(x) for x in rest]
            elif first == "count":
                rows.append(Row("count", int(rest[0]), int(rest[1]), read_set(rest[2:]), None))
            elif first == "quantity":
                rows.append(Row("quantity", int(rest[1]), int(rest[2]), read_set(rest[3:]), int(rest[0])))
            elif first == "enemies":
                rows.append(Row("enemies", 0, 1, read_set(rest), None))
            elif first == "stimuli":
                rows.append(Row("stimuli", int(rest[0]), int(rest[1]), None, None))
            elif first == "stimulus":
                bounds[int(rest[0])] = (int(rest[1]), int(rest[2]))
    return Plan(length, prior, rows, [bounds.get(s, (1, 512)) for s in range(1, bank.stimuli + 1)])


def amount(P: Problem, row: Row, items: Iterable[int], stimuli: Iterable[int]) -> int:
    """What items and stimuli come to on a row."""
    if row.kind == "stimuli":
        return len(stimuli)
    if row.kind == "quantity":
        return sum(P.bank.items[i].quantities[row.attribute] for i in items if i in row.members)
    return sum(1 for i in items if i in row.members)


def stimuli_of(P: Problem, items: Iterable[int]) -> Set[int]:
    return {P.bank.items[i].stimulus for i in items} - {0}


def of_stimulus(P: Problem, items: Iterable[int], s: int) -> int:
    return sum(1 for i in items if P.bank.items[i].stimulus == s)


def is_form(P: Problem, X: FrozenSet[int]) -> bool:
    if len(X) != P.plan.length or any(i >= len(P.bank.items) for i in X):
        return False
    if not (P.given <= X) or X & P.barred:
        return False
    used = stimuli_of(P, X)
    if any(not row.low <= amount(P, row, X, used) <= row.high for row in P.plan.rows):
        return False
    return all(P.plan.bounds[s - 1][0] <= of_stimulus(P, X, s) <= P.plan.bounds[s - 1][1] for s in used)


def objective(P: Problem, X: FrozenSet[int]) -> int:
    return sum(P.bank.items[i].info[P.theta] for i in X)


# ---------------------------------------------------------------- the bytes of a tree

class Fault(Exception):
    pass


def read_tree(data: bytes) -> Tuple[Vectors, Nodes, int]:
    """The vectors, the nodes and the number of bytes used."""
    at = 0

    def number(size):
        nonlocal at
        if at + size > len(data):
            raise Fault("Short")
        value = int.from_bytes(data[at:at + size], "big")
        at += size
        return value

    vectors, nodes = [], []
    count, room = number(1), 12288
    for _ in range(count):
        begin = at
        pairs = number(2)
        if pairs > min(384, room):
            raise Fault("BadVector %d" % begin)
        room -= pairs
        vector, before = {}, -1
        for _ in range(pairs):
            begin = at
            side = number(2)
            if side <= before or side >= 386:
                raise Fault("BadVector %d" % begin)
            begin = at
            multiplier = number(4)
            if not 1 <= multiplier <= 16777216:
                raise Fault("BadVector %d" % begin)
            vector[side] = multiplier
            before = side
        vectors.append(vector)
    waiting = 1
    while waiting:
        begin = at
        if at == len(data):
            raise Fault("Unfinished %d" % at)
        if len(nodes) == 4095:
            raise Fault("TooLong %d" % at)
        kind = number(1)
        if kind not in (1, 2, 3, 4, 5, 6, 7, 8):
            raise Fault("BadKind %d" % begin)
        value = number(2) if kind == 1 else number(1) if kind < 6 else (number(1), number(4)) if kind == FIX else None
        if kind == 1 and value > 511 or kind == 2 and not 1 <= value <= 64 or kind == 5 and value > 192:
            raise Fault("BadKind %d" % begin)
        nodes.append((kind, value))
        waiting += 1 if kind < 3 else 0 if kind == FIX else -1
    return vectors, nodes, at


def write_tree(vectors: Vectors, nodes: Nodes) -> bytes:
    out = bytes([len(vectors)])
    for v in vectors:
        out += len(v).to_bytes(2, "big")
        for side in sorted(v):
            out += side.to_bytes(2, "big") + v[side].to_bytes(4, "big")
    for kind, value in nodes:
        out += bytes([kind])
        if kind == 1:
            out += value.to_bytes(2, "big")
        elif kind < 6:
            out += bytes([value])
        elif kind == FIX:
            out += bytes([value[0]]) + value[1].to_bytes(4, "big")
    return out


ITEM, STIMULUS, BOUND, RAY, COUNT, WHOLE, OPEN, FIX = 1, 2, 3, 4, 5, 6, 7, 8

# ---------------------------------------------------------------- paths

Path = namedtuple("Path", "taken free branched")
Reduced = namedtuple("Reduced", "constant weight stimulus cap")

LOW_CAP, HIGH_CAP = 384, 385


def root(P: Problem) -> Path:
    free = frozenset(range(len(P.bank.items))) - P.given - P.barred
    return Path(P.given, free, frozenset())


def chosen(P: Problem, p: Path) -> Set[int]:
    return stimuli_of(P, p.taken) | p.branched


def opened(P: Problem, p: Path) -> Set[int]:
    return stimuli_of(P, p.free) - chosen(P, p)


def below(P: Problem, p: Path, kind: int, value: int) -> List[Path]:
    """The paths below a branch, left first."""
    if kind == ITEM:
        rest = p.free - {value}
        return [p._replace(taken=p.taken | {value}, free=rest), p._replace(free=rest)]
    rest = frozenset(i for i in p.free if P.bank.items[i].stimulus != value)
    return [p._replace(branched=p.branched | {value}), p._replace(free=rest)]


def length_impossible(P, p):
    return len(p.taken) > P.plan.length or len(p.taken) + len(p.free) < P.plan.length


def row_impossible(P, p, row, sure, may):
    """The same of a row of the plan, with the stimuli chosen, and those chosen or open."""
    least = amount(P, row, p.taken, sure)
    most = amount(P, row, p.taken | p.free, may)
    return least > row.high or most < row.low


def stimulus_impossible(P, p, s, sure):
    low, high = P.plan.bounds[s - 1]
    return of_stimulus(P, p.taken, s) > high or s in sure and of_stimulus(P, p.taken | p.free, s) < low


def impossible(P: Problem, p: Path, number: int) -> bool:
    """Whether a row is impossible by counting: 0 is the length, then the plan's rows, then the stimuli."""
    if number == 0:
        return length_impossible(P, p)
    if number <= len(P.plan.rows):
        return row_impossible(P, p, P.plan.rows[number - 1], chosen(P, p), chosen(P, p) | opened(P, p))
    return number in rows(P) and stimulus_impossible(P, p, number - len(P.plan.rows), chosen(P, p))


def some_impossible(P: Problem, p: Path) -> bool:
    """Whether any row is impossible by counting."""
    sure, may = chosen(P, p), chosen(P, p) | opened(P, p)
    return (length_impossible(P, p) or any(row_impossible(P, p, row, sure, may) for row in P.plan.rows)
            or any(stimulus_impossible(P, p, s, sure) for s in range(1, P.bank.stimuli + 1)))


def rows(P):
    return range(len(P.plan.rows) + P.bank.stimuli + 1)


def reduced(P: Problem, vector: Dict[int, int], ray: bool) -> Reduced:
    """The constant, and the weight of each item and each stimulus, which don't depend on the path."""
    constant = 0
    weight = [0 if ray else 256 * item.info[P.theta] for item in P.bank.items]
    stimulus = [0] * (P.bank.stimuli + 1)
    for side, m in vector.items():
        if side in (LOW_CAP, HIGH_CAP):
            continue
        k, sign = side // 2, 1 if side % 2 == 0 else -1
        if k < len(P.plan.rows):
            row = P.plan.rows[k]
            constant -= sign * m * (row.low if sign == 1 else row.high)
            if row.kind == "stimuli":
                for s in range(1, P.bank.stimuli + 1):
                    stimulus[s] += sign * m
            else:
                for i in row.members:
                    each = P.bank.items[i].quantities[row.attribute] if row.kind == "quantity" else 1
                    weight[i] += sign * m * each
        else:
            s = k - len(P.plan.rows) + 1
            low, high = P.plan.bounds[s - 1]
            stimulus[s] -= sign * m * (low if sign == 1 else high)
            for i, item in enumerate(P.bank.items):
                if item.stimulus == s:
                    weight[i] += sign * m
    return Reduced(constant, weight, stimulus, cap_of(vector))


def cap_of(vector):
    """The cap, or None where the vector names neither of its sides."""
    if LOW_CAP not in vector and HIGH_CAP not in vector:
        return None
    return vector.get(LOW_CAP, 0) - vector.get(HIGH_CAP, 0)


def maximum(P: Problem, p: Path, r: Reduced) -> Optional[int]:
    """The relaxed maximum with reduced weights, or None where it isn't defined.

    What a free item of an open stimulus weighs above the cap goes to the stimulus."""
    if length_impossible(P, p):
        return None
    may = opened(P, p)
    free, excess = [], dict.fromkeys(may, 0)
    for i in p.free:
        weight, s = r.weight[i], P.bank.items[i].stimulus
        if r.cap is not None and s in may and weight > r.cap:
            excess[s] += weight - r.cap
            weight = r.cap
        free.append(weight)
    free = sorted(free, reverse=True)[:P.plan.length - len(p.taken)]
    return (r.constant + sum(r.weight[i] for i in p.taken) + sum(free) + sum(r.stimulus[s] for s in chosen(P, p))
            + sum(max(0, r.stimulus[s] + excess[s]) for s in may))


def last_set(P, p):
    """The one set of items that is left, or None."""
    if not p.free or len(p.taken) == P.plan.length:
        return p.taken
    if len(p.taken | p.free) == P.plan.length:
        return p.taken | p.free
    return None


def fixed(P: Problem, p: Path, r: Reduced, goal: int) -> Tuple[Set[int], Set[int], Set[int]]:
    """The items out, the items taken and the stimuli chosen: a form on the path that is better than the goal has it so."""
    threshold, may, sure = r.cap or 0, opened(P, p), chosen(P, p)
    over = {i: r.weight[i] - threshold for i in p.free}
    value = {s: r.stimulus[s] + sum(max(0, over[i]) for i in p.free if P.bank.items[i].stimulus == s) for s in may}
    bound = (r.constant + sum(r.weight[i] for i in p.taken) + threshold * max(0, P.plan.length - len(p.taken))
             + sum(max(0, over[i]) for i in p.free if P.bank.items[i].stimulus not in may)
             + sum(r.stimulus[s] for s in sure) + sum(max(0, v) for v in value.values()))
    room = bound - (256 * goal + 255)
    out, taken = set(), set()
    for i in p.free:
        s = P.bank.items[i].stimulus
        closed = max(0, -value[s]) if s in may else 0
        if closed + max(0, -over[i]) >= room:
            out.add(i)
        elif max(0, over[i]) >= room and (s not in may or value[s] >= room):
            taken.add(i)
    kept = {s for s in may if max(0, -value[s]) < room and max(0, value[s]) >= room}
    for s in may:
        of = {i for i in p.free if P.bank.items[i].stimulus == s}
        if len(of - out) < P.plan.bounds[s - 1][0]:
            out, taken, kept = out | of, taken - of, kept - {s}
    return out, taken, kept


def names_only_sides(P: Problem, vector: Dict[int, int]) -> bool:
    return all(side < 2 * len(P.plan.rows) + 2 * P.bank.stimuli or side in (LOW_CAP, HIGH_CAP) for side in vector)


def settles(P: Problem, vectors: Vectors, p: Path, number: int, goal: int) -> bool:
    """Whether the tree has the vector, it names only sides, and it settles something for the goal."""
    if number >= len(vectors) or not names_only_sides(P, vectors[number]):
        return False
    return any(fixed(P, p, reduced(P, vectors[number], False), goal))


def below_fix(P: Problem, p: Path, r: Reduced, goal: int) -> Path:
    out, taken, kept = fixed(P, p, r, goal)
    return Path(p.taken | taken, p.free - out - taken, p.branched | kept)


# ---------------------------------------------------------------- the verdict

def reason(P, X, vectors, p, kind, value, known=None):
    """Why the node is unsound, or None. What is known of a vector is kept from node to node."""
    known = {} if known is None else known
    if kind == ITEM:
        return None if value in p.free else "Determined"
    if kind == STIMULUS:
        return None if value in opened(P, p) else "Determined"
    if kind in (BOUND, RAY, FIX):
        value, goal = value if kind == FIX else (value, None)
        if value >= len(vectors):
            return "NoVector"
        if not names_only_sides(P, vectors[value]):
            return "NoSide"
        if (kind, value) not in known:
            known[kind, value] = reduced(P, vectors[value], kind == RAY)
        if kind == FIX:
            if X is None or goal > objective(P, X):
                return "NotClosed"
            return None if any(fixed(P, p, known[kind, value], goal)) else "FixesNothing"
        r = maximum(P, p, known[kind, value])
        if kind == RAY:
            return None if r is not None and r < 0 else "NotNegative"
        return None if X is not None and r is not None and r <= 256 * objective(P, X) + 255 else "NotClosed"
    if kind == COUNT:
        return None if value in rows(P) and impossible(P, p, value) else "RowPossible"
    left = last_set(P, p)
    if kind == OPEN:
        return None if left is None else "OpenWhole"
    if left is None:
        return "NotWhole"
    settled = not is_form(P, left) or chosen(P, p) - stimuli_of(P, left) or X is not None and objective(P, left) <= objective(P, X)
    return None if settled else "Better"


def verdict(P: Problem, X: Optional[FrozenSet[int]], vectors: Vectors, nodes: Nodes) -> str:
    if X is not None and not is_form(P, X):
        return "Bad 0 NotForm"
    waiting, open_leaves, known = [root(P)], 0, {}
    for number, (kind, value) in enumerate(nodes):
        p = waiting.pop()
        why = reason(P, X, vectors, p, kind, value, known)
        if why:
            return "Bad %d %s" % (number, why)
        if kind in (ITEM, STIMULUS):
            waiting.extend(reversed(below(P, p, kind, value)))
        if kind == FIX:
            waiting.append(below_fix(P, p, known[kind, value[0]], value[1]))
        open_leaves += kind == OPEN
    if open_leaves:
        return "Partial %d" % open_leaves
    return "NoForm" if X is None else "Optimal"


def spent(P: Problem, vectors: Vectors, nodes: Nodes, budget: int) -> bool:
    kinds = [kind for kind, _ in nodes]
    if len(nodes) != budget or OPEN not in kinds:
        return False
    if any(kind in (ITEM, STIMULUS, FIX) for kind in kinds[kinds.index(OPEN):]):
        return False
    start = P.start if P.start is not None and is_form(P, P.start) else None
    plain = reduced(P, {}, False)
    waiting = [root(P)]
    for kind, value in nodes:
        p = waiting.pop()
        if kind in (ITEM, STIMULUS):
            if reason(P, None, [], p, kind, value):
                return False
            waiting.extend(reversed(below(P, p, kind, value)))
        if kind == FIX:
            if not settles(P, vectors, p, *value):
                return False
            waiting.append(below_fix(P, p, reduced(P, vectors[value[0]], False), value[1]))
        if kind in (ITEM, STIMULUS, OPEN, FIX):
            if some_impossible(P, p):
                return False
            if start is not None and not maximum(P, p, plain) > 256 * objective(P, start) + 255:
                return False
    return True


# ---------------------------------------------------------------- all sets of items

def best_of_all(P: Problem) -> Optional[FrozenSet[int]]:
    """A best form over all sets of items, or None."""
    free = sorted(set(range(len(P.bank.items))) - P.given - P.barred)
    best = None
    for rest in itertools.combinations(free, max(0, P.plan.length - len(P.given))):
        X = P.given | set(rest)
        if is_form(P, X) and (best is None or objective(P, X) > objective(P, best)):
            best = frozenset(X)
    return best


def contradicts(P: Problem, X: Optional[FrozenSet[int]], said: str) -> bool:
    """Whether all sets of items say otherwise."""
    if said not in ("Optimal", "NoForm"):
        return False
    best = best_of_all(P)
    if said == "NoForm":
        return best is not None
    return best is None or not is_form(P, X) or objective(P, X) != objective(P, best)


# ---------------------------------------------------------------- trials

def any_problem(rng: random.Random) -> Problem:
    count, grid, kinds = rng.randint(3, 9), rng.randint(1, 3), rng.randint(0, 2)
    stimuli = rng.choice([0, 0, 1, 2, 3])
    items = [Item(rng.randint(0, stimuli), [rng.randint(0, 9) for _ in range(kinds)], [rng.randint(0, 20) for _ in range(grid)])
             for _ in range(count)]
    bank = Bank(items, grid, max(i.stimulus for i in items))
    length = rng.randint(1, count)
    drawn = []
    for _ in range(rng.randint(0, 4)):
        members = frozenset(rng.sample(range(count), rng.randint(1, count)))
        kind = rng.choice(["count", "enemies", "stimuli"] + ["quantity"] * (kinds > 0))
        if kind == "enemies":
            drawn.append(Row(kind, 0, 1, frozenset(rng.sample(range(count), rng.randint(1, 3))), None))
        elif kind == "stimuli":
            low = rng.randint(0, 1)
            drawn.append(Row(kind, low, low + rng.randint(0, 2), None, None))
        elif kind == "count":
            low = rng.randint(0, 2)
            drawn.append(Row(kind, low, low + rng.randint(0, 2), members, None))
        else:
            low = rng.randint(0, 10)
            drawn.append(Row(kind, low, low + rng.randint(0, 20), members, rng.randrange(kinds)))
    bounds = [(low, low + rng.randint(0, 2)) for low in (rng.randint(1, 2) for _ in range(bank.stimuli))]
    sets = rng.sample(range(count), count)
    given, barred = rng.choice([0, 0, 1]), rng.choice([0, 0, 1, 2])
    return Problem(bank, Plan(length, [0] * grid, drawn, bounds), rng.randrange(grid),
                   frozenset(sets[:given]), frozenset(sets[given:given + barred]), None)


def any_vectors(rng: random.Random, P: Problem) -> Vectors:
    sides = 2 * len(P.plan.rows) + 2 * P.bank.stimuli
    vectors = [{s: rng.randint(1, 900) for s in rng.sample(range(sides), rng.randint(0, sides))} for _ in range(rng.randint(0, 4))]
    for vector in vectors:
        for side in rng.choice([(), (), (LOW_CAP,), (LOW_CAP,), (HIGH_CAP,), (LOW_CAP, HIGH_CAP)]):
            vector[side] = rng.randint(1, 4000)
    return vectors


def search(rng, P, X, vectors, p, nodes):
    """A plain search: each leaf that is sound closes, else it branches."""
    leaves = [(BOUND, v) for v in range(len(vectors))] + [(RAY, v) for v in range(len(vectors))] + [(COUNT, r) for r in rows(P)] + [(WHOLE, None)]
    rng.shuffle(leaves)
    for kind, value in leaves:
        if reason(P, X, vectors, p, kind, value) is None:
            nodes.append((kind, value))
            return
    if rng.random() < 0.02 and reason(P, X, vectors, p, OPEN, None) is None:
        nodes.append((OPEN, None))
        return
    if X is not None and vectors and rng.random() < 0.5:
        value = rng.randrange(len(vectors)), max(0, objective(P, X) - rng.choice((0, 0, 0, 1)))
        if reason(P, X, vectors, p, FIX, value) is None:
            nodes.append((FIX, value))
            search(rng, P, X, vectors, below_fix(P, p, reduced(P, vectors[value[0]], False), value[1]), nodes)
            return
    branches = [(ITEM, i) for i in p.free] + [(STIMULUS, s) for s in opened(P, p)]
    kind, value = rng.choice(branches)
    nodes.append((kind, value))
    for q in below(P, p, kind, value):
        search(rng, P, X, vectors, q, nodes)


def trials(count: int, seed: int) -> int:
    rng, seen, wrong = random.Random(seed), {}, 0
    for number in range(count):
        P = any_problem(rng)
        best = best_of_all(P)
        X = best
        if best is not None and rng.random() < 0.3:
            others = [frozenset(c) for c in itertools.combinations(range(len(P.bank.items)), P.plan.length) if is_form(P, frozenset(c))]
            X = rng.choice(others)
        vectors, nodes = any_vectors(rng, P), []
        try:
            search(rng, P, X, vectors, root(P), nodes)
        except IndexError:      # X isn't best, and a better set is left: no tree closes there
            nodes.append((WHOLE, None))
            continue
        data = write_tree(vectors, nodes)
        back = read_tree(data + b"tail")
        if back != (vectors, nodes, len(data)):
            print("problem %d: the bytes give another tree" % number)
            wrong += 1
        for damaged in (False, True):
            if damaged:
                at = rng.randrange(len(data))
                changed = data[:at] + bytes([data[at] ^ 1 << rng.randrange(8)]) + data[at + 1:]
                try:
                    vectors, nodes, _ = read_tree(changed)
                except Fault as fault:
                    said = str(fault).split(" ")[0]
                    seen[said] = seen.get(said, 0) + 1
                    continue
            said = verdict(P, X, vectors, nodes)
            word = said if said in ("Optimal", "NoForm") else said.split(" ")[0] if said[0] == "P" else said.split(" ")[2]
            seen[word] = seen.get(word, 0) + 1
            if contradicts(P, X, said) or not damaged and word not in ("Optimal", "NoForm", "Partial"):
                print("problem %d: %s is wrong: %r %r %s" % (number, said, P, X, write_tree(vectors, nodes).hex()))
                wrong += 1
    print(", ".join("%s %d" % pair for pair in sorted(seen.items())))
    print("%d passed, %d failed" % (sum(seen.values()) - wrong, wrong))
    return 1 if wrong or not seen else 0


# ---------------------------------------------------------------- command line

def word_of(name: str, word: str, reader: Callable):
    """A value of the command line; another word is refused."""
    try:
        return reader(word)
    except (ValueError, IndexError):
        raise Refused(f"{name} {word[:40]}: not what it should be")


def main(words: Sequence[str]) -> int:
    if words[:1] == ["--trials"] and len(words) in (2, 3):
        return trials(word_of("--trials", words[1], int), word_of("--trials", words[2], int) if len(words) == 3 else 1)
    options, plain = {}, []
    words = list(words)
    while words:
        word = words.pop(0)
        if word == "--brute":
            options[word] = True
        elif word in ("--form", "--given", "--barred", "--theta", "--start", "--spent") and words:
            options[word] = words.pop(0)
        else:
            plain.append(word)
    if len(plain) != 3:
        print(__doc__, file=sys.stderr)
        return 2

    def items(name):
        return word_of(name, options[name], lambda word: read_set(word.split(","))) if options.get(name) else None

    def point(word):
        return range(bank.grid).index(int(word))

    from shadowtools.checkers.audit import require_texts   # whose module reads trees by this one
    require_texts(*plain[:2])
    bank = read_bank(plain[0])
    plan = read_plan(plain[1], bank)
    theta = word_of("--theta", options["--theta"], point) if "--theta" in options \
        else plan.prior.index(max(plan.prior))
    P = Problem(bank, plan, theta, items("--given") or frozenset(), items("--barred") or frozenset(), items("--start"))
    X = items("--form")
    try:
        vectors, nodes, used = read_tree(word_of("TREE", plain[2], bytes.fromhex))
    except Fault as fault:
        print(fault)
        return 0
    said = verdict(P, X, vectors, nodes)
    print(said)
    if "--spent" in options:
        print("spent", "true" if spent(P, vectors, nodes, word_of("--spent", options["--spent"], int)) else "false")
    if "--brute" in options:
        free = len(bank.items) - len(P.given) - len(P.barred)
        if math.comb(free, max(0, plan.length - len(P.given))) > 2000000:
            print("too many sets of items")
            return 0
        best = best_of_all(P)
        print("best", objective(P, best) if best is not None else "none")
        if contradicts(P, X, said):
            print("all sets of items say otherwise")
            return 1
    return 0


command = as_command(main)


if __name__ == "__main__":
    sys.exit(command())
