"""Readers of plan and script that name the first fault of a text, and the canonical text of a plan.

They are written from docs/FORMATS.md alone and share nothing with the product. `mutate_bank.read`
is the reader of banks beside them. A text is bytes. A text that is refused raises `Refused` with
the line that is printed.
"""
import re
from collections import namedtuple
from typing import FrozenSet, List, Optional, Sequence

from shadowtools.checkers import check_tree
from shadowtools.checkers.mutate_bank import number, signed
from shadowtools.command import Refused
from shadowtools.formats.tables import runs

LONGEST_PLAN, LONGEST_SCRIPT = 1048576, 16777216
NINE, MOST_POINT, MOST_POINTS = 999999999, 255, 7
# How many words a line has; the second is None where there is no most.
WORDS = {b"length": (2, 2), b"prior": (2, None), b"rate": (3, 3), b"key": (2, 2),
         b"bands": (2, None), b"budget": (2, 2), b"base-budget": (2, 2),
         b"sessions": (2, 2), b"journal": (2, 2), b"count": (4, None), b"quantity": (5, None),
         b"enemies": (2, None),
         b"stimuli": (3, 3), b"stimulus": (4, 4), b"base": (2, None)}
# The greatest of each number before the set of a line.
NUMBERS = {b"length": [NINE], b"rate": [NINE, NINE], b"budget": [NINE], b"base-budget": [NINE],
           b"sessions": [NINE],
           b"journal": [NINE], b"count": [NINE, NINE], b"quantity": [255, NINE, NINE],
           b"enemies": [], b"stimuli": [NINE, NINE],
           b"stimulus": [255, NINE, NINE], b"base": []}
WITH_SET = {b"count", b"quantity", b"enemies", b"base"}
ROWS = {b"count", b"quantity", b"enemies", b"stimuli"}
DEFAULTS = {b"rate": [1, 1], b"key": "0" * 64, b"bands": [], b"budget": [2001],
            b"base-budget": [4095], b"sessions": [1000], b"journal": [67108864]}
MOST = {b"count": 512, b"quantity": 33553920, b"stimuli": 64}

# `lines` has the values of each line that occurs once, `bounds` those of stimuli by number, `rows`
# are lines as (word, numbers, set).
Plan = namedtuple("Plan", "lines bounds rows")
# `kind` is the first word of a line of a script, `numbers` are the others. After the booking of a
# beginning with a list comes the set of its items. The booking that an answer or a closing names is
# its last number.
Request = namedtuple("Request", "kind numbers")


def lines_of(text: bytes) -> List[bytes]:
    """The lines of a text; the last may lack its line feed."""
    lines = text.split(b"\n")
    return lines[:-1] if not lines[-1] else lines


# ---------------------------------------------------------------- a plan

def set_of(words: Sequence[bytes]) -> Optional[FrozenSet[int]]:
    """The items of a set, or None."""
    items, least = set(), 0
    for word in words:
        first, dash, last = word.partition(b"-")
        low, high = number(first), number(last) if dash else number(first)
        if low is None or high is None or high > 511 or low < least or dash and low >= high:
            return None
        items.update(range(low, high + 1))
        least = high + 1
    return frozenset(items)


def values_of(line):
    """The first word of a line, its values and its set, or the kind of its fault as text."""
    word, *rest = line.split(b" ")
    if word not in WORDS:
        return "word"
    least, most = WORDS[word]
    if not least <= len(rest) + 1 <= (most or len(rest) + 1) or b"" in rest:
        return "shape"
    if word == b"prior":
        values = [signed(one) for one in rest]
    elif word == b"key":
        is_key = re.fullmatch(rb"[0-9a-f]{64}", rest[0])
        values = rest[0].decode("ascii") if is_key else [None]
    else:
        greatest = [MOST_POINT] * len(rest) if word == b"bands" else NUMBERS[word]
        values = [number(one) for one in rest[:len(greatest)]]
        values = [value if value is None or value <= most else None
                  for value, most in zip(values, greatest)]
    if None in values if isinstance(values, list) else False:
        return "number"
    items = set_of(rest[len(NUMBERS[word]):]) if word in WITH_SET else frozenset()
    return "set" if items is None else (word, values, items)


def marked(word, values):
    """What may occur only once, or None for a row."""
    return None if word in ROWS else (word, values[0]) if word == b"stimulus" else word


def rules_of(text):
    """The lines of a plan, each with its values; the first faulty line is refused."""
    found, marks = [], set()
    for at, line in enumerate(lines_of(text), 1):
        if not line or line.startswith(b"#"):
            continue
        rule = values_of(line)
        if isinstance(rule, str):
            raise Refused(f"plan: line {at} {rule}", rule)
        mark = marked(*rule[:2])
        if mark is not None and mark in marks:
            raise Refused(f"plan: line {at} twice", "twice")
        marks.add(mark)
        found.append(rule)
    for name, missing in ((b"length", b"length" not in marks), (b"prior", b"prior" not in marks),
                          (b"key", b"rate" in marks and b"key" not in marks)):
        if missing:
            raise Refused(f"plan: missing {name.decode()}", "missing")
    return found


def row_fault(row, items):
    """The first fault of a row for the items of a bank, or None."""
    word, values, members = row
    if word in MOST and (values[-2] > values[-1] or values[-1] > MOST[word]):
        return "bounds"
    if word != b"stimuli" and any(i >= len(items) for i in members):
        return "item"
    return "quantity" if word == b"quantity" and values[0] >= len(items[0][2]) else None


def plan_faults(plan, named, grid, items):
    """The faults of a plan for a bank, in the order of their tests, without that of the base."""
    prior, stimuli = plan.lines[b"prior"], max(item[0] for item in items)
    if not 1 <= plan.lines[b"length"][0] <= len(items):
        yield "length"
    if len(prior) != grid or any(not -10000000 <= value <= 0 for value in prior):
        yield "prior"
    if len(plan.rows) > 128:
        yield "rows"
    for at, row in enumerate(plan.rows):
        fault = row_fault(row, items)
        if fault:
            yield f"row {at} {fault}"
    yield from (f"stimulus {s}" for s in named if not 1 <= s <= stimuli)
    for s in range(1, stimuli + 1):
        low, high = plan.bounds.get(s, (1, 512))
        if not 1 <= low <= high <= 512:
            yield f"stimulus {s}"
    yield from limit_faults(plan.lines, grid)


def limit_faults(lines, grid):
    """The faults of the rate, the bands, the budgets and the limits."""
    above, below = lines[b"rate"]
    if not 1 <= above <= below <= 65535:
        yield "rate"
    points = lines[b"bands"]
    if (len(points) > MOST_POINTS or any(not 1 <= point < grid for point in points)
            or any(one >= other for one, other in zip(points, points[1:]))):
        yield "bands"
    if any(nodes % 2 == 0 or nodes > 4095 for nodes in lines[b"budget"] + lines[b"base-budget"]):
        yield "budget"
    sessions, journal = lines[b"sessions"][0], lines[b"journal"][0]
    if not 1 <= sessions <= 65536 or not 64 <= journal <= 536870912:
        yield "limit"


def read_plan(text: bytes, grid: int, items: list) -> Plan:
    """The plan of a text for the items of a bank, as `mutate_bank.read` gives them."""
    if len(text) > LONGEST_PLAN:
        raise Refused("plan: too long", "too long")
    plan, named = Plan(dict(DEFAULTS), {}, []), []
    for word, values, members in rules_of(text):
        if word in ROWS:
            plan.rows.append((word, values, members))
        elif word == b"stimulus":
            plan.bounds[values[0]] = values[1], values[2]
            named.append(values[0])
        else:
            plan.lines[word] = members if word == b"base" else values
    for fault in plan_faults(plan, named, grid, items):
        raise Refused(f"plan: {fault}", "bank")
    base = plan.lines.get(b"base")
    if base is not None and not check_tree.is_form(problem_of(plan, grid, items), base):
        raise Refused("plan: base", "bank")
    return plan


def problem_of(plan: Plan, grid: int, items: list) -> check_tree.Problem:
    """The problem of a plan alone, at the mode of its prior, for the checker of trees."""
    rows = [check_tree.Row(word.decode(), *((0, 1) if word == b"enemies" else values[-2:]), members,
                           values[0] if word == b"quantity" else None)
            for word, values, members in plan.rows]
    bank = check_tree.Bank([check_tree.Item(stimulus, sizes, info)
                            for stimulus, _, sizes, info, _ in items], grid,
                           max(item[0] for item in items))
    prior = plan.lines[b"prior"]
    bounds = [plan.bounds.get(s, (1, 512)) for s in range(1, bank.stimuli + 1)]
    form = check_tree.Plan(plan.lines[b"length"][0], prior, rows, bounds)
    return check_tree.Problem(bank, form, prior.index(max(prior)), frozenset(), frozenset(), None)


def canonical(plan: Plan, stimuli: int) -> str:
    """The canonical text of a plan for a bank with so many stimuli."""
    lines = [[b"length", *plan.lines[b"length"]], [b"prior", *plan.lines[b"prior"]],
             [b"rate", *plan.lines[b"rate"]],
             [b"key", plan.lines[b"key"]]]
    if plan.lines[b"bands"]:
        lines.append([b"bands", *plan.lines[b"bands"]])
    lines += [[word, *plan.lines[word]]
              for word in (b"budget", b"base-budget", b"sessions", b"journal")]
    lines += [[word, *values] + [runs(members)] * (word != b"stimuli")
              for word, values, members in plan.rows]
    lines += [[b"stimulus", s, *plan.bounds.get(s, (1, 512))] for s in range(1, stimuli + 1)]
    if b"base" in plan.lines:
        lines.append([b"base", runs(plan.lines[b"base"])])
    return "".join(" ".join([line[0].decode(), *map(str, line[1:])]) + "\n" for line in lines)


def bank_text(grid: int, items: list) -> str:
    """The text of a bank with nothing to spare, for readers that take no other."""
    most = max(item[1] for item in items)
    head = ["item", "stimulus", "categories", *(f"q{k}" for k in range(len(items[0][2]))),
            *(f"i{g}" for g in range(grid))]
    records = [head + [f"l{r}_{g}" for r in range(most) for g in range(grid)]]
    for i, (stimulus, categories, sizes, info, logs) in enumerate(items):
        records.append([i, stimulus, categories, *sizes, *info, *logs]
                       + [""] * (grid * (most - categories)))
    return "".join(",".join(map(str, record)) + "\n" for record in records)


# ---------------------------------------------------------------- a script

REQUESTS = {b"begin": [2**64 - 1], b"answer": [2**32 - 1, 65535, 255], b"close": [2**32 - 1],
            b"look": [2**32 - 1], b"exposure": []}
NAMING = {b"answer", b"close"}  # these may end with `for` and a booking


def begin_with_list(booking: bytes, words: Sequence[bytes]) -> Optional[Request]:
    """The beginning of a session with a list that these words spell, or None. A list has an item,
    and one spelling: its maximal runs."""
    first, items = request_of(b"begin " + booking), set_of(words)
    if first is None or not items or runs(items).encode() != b" ".join(words):
        return None
    return Request("begin", first.numbers + [items])


def request_of(line: bytes) -> Optional[Request]:
    """The request of a line, or None."""
    word, *rest = line.split(b" ")
    if word == b"begin" and rest[1:2] == [b"without"]:
        return begin_with_list(rest[0], rest[2:])
    greatest = REQUESTS.get(word)
    if word in NAMING and rest[len(greatest):][:1] == [b"for"]:
        del rest[len(greatest)]
        greatest = greatest + REQUESTS[b"begin"]
    if greatest is None or len(rest) != len(greatest):
        return None
    if not all(re.fullmatch(rb"0|[1-9][0-9]*", one) for one in rest):
        return None
    numbers = [int(one) for one in rest]
    fits = all(value <= most for value, most in zip(numbers, greatest))
    return Request(word.decode(), numbers) if fits else None


def read_script(text: bytes) -> List[Request]:
    """The requests of a script."""
    if len(text) > LONGEST_SCRIPT:
        raise Refused("script: too long", "too long")
    found = []
    for at, line in enumerate(lines_of(text), 1):
        request = request_of(line)
        if request is None:
            raise Refused(f"script: line {at}", "line")
        found.append(request)
    return found
