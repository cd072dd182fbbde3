"""From a table of constraints by name, as R's TestDesign has it, to the rules of a plan.

Columns: CONSTRAINT (or CONSTRAINT_ID), TYPE, WHAT, CONDITION, LB, UB and perhaps ONOFF; a row that is OFF, NO, FALSE or 0 is
skipped, and one that is empty, ON, YES, TRUE or 1 counts. Any other column or word is refused. So is a bound that the type does not
have, a rule without its condition, and a Number or Sum without a bound.

    TYPE     WHAT      CONDITION             line of the plan
    Number   Item      none, LB = UB         length
    Number   Item      a condition           count LB UB set
    Number   Item      Per Stimulus          stimulus s LB UB, for each passage
    Number   Stimulus  none                  stimuli LB UB
    Sum      Item      ATTRIBUTE[, condition] quantity q LB UB set
    Mean     Item      ATTRIBUTE             quantity q, LB and UB times the length, all items
    Include  Item      a condition           count k k set, k the number of items that meet it
    Exclude  Item      a condition           count 0 0 set
    Enemy    Item      a condition           enemies set
    AllOrNone Item     a condition           a passage of its own, whose items are served all or none
"""
import math
import re
import unicodedata
from dataclasses import dataclass, field
from typing import Dict, Iterable, List, Sequence

from shadowtools.agency.conditions import BadCondition, Compared, attributes_of, chosen, comparisons, has_value, spellings
from shadowtools.agency.irt import Item
from shadowtools.command import Refused
from shadowtools.formats.tables import ABSENT, Dialect, members, number, read_table, refuse_thousand, runs

MOST_ROWS, MOST_ITEMS, MOST_PASSAGES, MOST_SUM = 128, 512, 64, 33_553_920
NO_CHOICE = "shadowd has no row on a choice of passages or on their attributes; only their number can be bounded"
COLUMNS = ("CONSTRAINT", "CONSTRAINT_ID", "TYPE", "WHAT", "CONDITION", "LB", "UB", "ONOFF")
ON, OFF = ("", "ON", "YES", "TRUE", "1"), ("OFF", "NO", "FALSE", "0")
PER_PASSAGE = ("per stimulus", "per passage", "per set")
MOST_NAMED = 8
PASSAGE_WORDS = ("stimulus", "passage", "set")


@dataclass
class Rule:
    """One constraint of the table, as lines of a plan."""
    label: str
    remark: str
    source: str
    attribute: str = ""     # of a condition that is one comparison
    lines: List[str] = field(default_factory=list)


@dataclass
class Blueprint:
    length: int
    rules: List[Rule]
    passages: List[str]
    warnings: List[str]
    clashes: List[str] = field(default_factory=list)    # why no form meets the rules, as far as it shows in their bounds


class Compiler:
    """The rules of one table of constraints."""

    def __init__(self, path: str, items: List[Item], passages: List[str], quantities: Sequence[str], dialect: Dialect,
                 may_have_absent: bool) -> None:
        self.path, self.items, self.passages, self.quantities, self.dialect = path, items, passages, quantities, dialect
        self.may_have_absent = may_have_absent
        self.attributes = [item.attributes for item in items]
        self.length, self.covered, self.warnings = 0, set(), []
        self.used: Dict[str, None] = {}    # the attributes that conditions name, in order

    def where(self, line, label):
        return f"{self.path}: line {line}: {label}"

    def chosen(self, line, label, text):
        try:
            found, compared = chosen(text, self.attributes), comparisons(text, self.attributes)
            self.used.update(dict.fromkeys(attributes_of(text, self.attributes)))
        except (BadCondition, RecursionError) as error:
            raise Refused(f"{self.where(line, label)}: {error}")
        if not found:
            raise Refused(f"{self.where(line, label)}: no item meets {text!r}")
        for one in compared:
            self.note_values(line, label, one)
        self.covered.update(found)
        return found

    def note_values(self, line, label, one: Compared):
        """Refuses a value that no item has, and warns of a number that items write in two ways."""
        if not self.may_have_absent and not any(has_value(one, row[one.name]) for row in self.attributes):
            values = sorted({row[one.name] for row in self.attributes} - set(ABSENT))
            more = ", .." if len(values) > MOST_NAMED else ""
            raise Refused(f"{self.where(line, label)}: no item has {one.name} {one.written!r}; items have {', '.join(values[:MOST_NAMED])}{more} "
                          "(--absent-values allows it)")
        for kind, text in one.values:
            written = spellings(Compared(one.name, [(kind, text)], text), self.attributes)
            if len(written) > 1 or written and re.match(r"0[0-9]", written[0]) and written[0] != text:
                self.warnings.append(f"{label}: the number {text} takes the items whose {one.name} is {' or '.join(map(repr, written))}; "
                                     "a text in quotation marks takes one alone")

    def bound(self, line, row, column, absent):
        """A whole number of a column."""
        if row[column] in ABSENT:
            return absent
        value = self.number(line, row, column)
        if value != int(value) or value < 0:
            raise Refused(f"{self.path}: line {line} column {column}: {row[column]!r} is not a whole number from 0 up")
        return int(value)

    def number(self, line, row, column):
        """A bound. A comma before three digits is a thousand or a decimal, and is refused."""
        refuse_thousand(f"{self.path}: line {line} column {column}", row[column])
        return number(self.path, line, {column: self.dialect.decimal(row[column])}, column)

    def read(self) -> List[Rule]:
        head, rows = read_table(self.path, self.dialect)
        for needed in ("TYPE", "WHAT", "CONDITION", "LB", "UB"):
            if needed not in head:
                raise Refused(f"{self.path}: line 1: no column {needed}")
        others = [name for name in head if name not in COLUMNS]
        if others:
            raise Refused(f"{self.path}: line 1: {', '.join(map(repr, others))}: a table of constraints has {', '.join(COLUMNS)}")
        rows = [(line, row) for line, row in rows if self.is_on(line, row)]
        self.length = self.read_length(rows)
        if any(row["TYPE"].lower() == "allornone" for _, row in rows):
            self.refuse_numbers_of_passages(rows)
        return [rule for line, row in rows for rule in self.rule(line, row)]

    def is_on(self, line, row):
        word = row.get("ONOFF", "")
        if word.upper() in ON or word == "NA":
            return True
        if word.upper() in OFF:
            return False
        raise Refused(f"{self.path}: line {line} column ONOFF: {word!r} is neither ON nor OFF")

    def read_length(self, rows):
        found = [(line, row) for line, row in rows if is_length(row)]
        if not found:
            raise Refused(f"{self.path}: no line Number,Item without a condition: the length of a test is missing")
        line, row = found[0]
        if len(found) > 1:
            raise Refused(f"{self.path}: line {found[1][0]}: Number, Item without a condition is the length of a test, "
                          f"which line {line} has already")
        low, high = self.bound(line, row, "LB", None), self.bound(line, row, "UB", None)
        if low != high or not low:
            raise Refused(f"{self.path}: line {line}: shadowd serves tests of one length; LB {row['LB']} is not UB {row['UB']}")
        if low > len(self.items):
            raise Refused(f"{self.path}: line {line}: length {low}, the bank has {len(self.items)} items")
        return low

    def refuse_numbers_of_passages(self, rows):
        for line, row in rows:
            if row["WHAT"].lower() in PASSAGE_WORDS:
                raise Refused(f"{self.path}: line {line}: AllOrNone makes passages of its sets, "
                              "which a number of passages would count; give the sets a STID instead")

    def rule(self, line, row):
        """The rules of a row of the table: one, or none where it is the length."""
        if is_length(row):
            return []
        kind, what, condition = row["TYPE"].lower(), row["WHAT"].lower(), row["CONDITION"]
        self.require_condition_and_bounds(line, row, kind, what)
        label = row.get("CONSTRAINT") or row.get("CONSTRAINT_ID") or f"line {line}"
        remark = " ".join(f"{label}: {row['TYPE']} {row['WHAT']} {condition}".split())
        simple = not any(sign in condition for sign in "&|!(") and bool(condition.split())
        rule = Rule(label, remark, f"{self.path}: line {line}", condition.split()[0] if simple else "")
        if what in PASSAGE_WORDS:
            rule.lines = self.number_of_passages(line, label, row)
        elif what != "item":
            raise Refused(f"{self.where(line, label)}: WHAT {row['WHAT']!r} is neither Item nor Stimulus")
        elif kind == "number" and condition.lower() in PER_PASSAGE:
            rule.lines = self.per_passage(line, label, row)
        elif kind in ("number", "include", "exclude"):
            rule.lines = [self.count(line, label, row, kind)]
        elif kind == "enemy":
            rule.lines = [self.enemies(line, label, condition)]
        elif kind in ("sum", "mean", "average"):
            rule.lines = [self.quantity(line, label, row, kind)]
        elif kind == "allornone":
            rule.lines = [self.all_or_none(line, label, condition)]
        else:
            raise Refused(f"{self.where(line, label)}: {row['TYPE']} {row['WHAT']} is not a rule of shadowd")
        return [rule]

    def require_condition_and_bounds(self, line, row, kind, what):
        """Refuses a rule without what it needs, and a bound that says something else than the rule."""
        where, bounds = f"{self.path}: line {line}", [row[name] for name in ("LB", "UB") if row[name] not in ABSENT]
        if kind in ("include", "exclude", "enemy", "allornone"):
            if what == "item" and row["CONDITION"] in ABSENT:
                raise Refused(f"{where}: {row['TYPE']} needs a condition")
            if bounds and not (kind == "enemy" and row["LB"] in ABSENT + ("0",) and row["UB"] in ABSENT + ("1",)):
                raise Refused(f"{where}: {row['TYPE']} has no bounds; leave LB and UB empty")
        elif kind in ("number", "sum", "mean", "average") and not bounds:
            raise Refused(f"{where}: {row['TYPE']} has neither LB nor UB")

    def number_of_passages(self, line, label, row):
        if row["TYPE"].lower() != "number" or row["CONDITION"]:
            raise Refused(f"{self.where(line, label)}: {NO_CHOICE} (see docs/GUIDE.md)")
        low, high = self.bound(line, row, "LB", 0), self.bound(line, row, "UB", MOST_PASSAGES)
        self.ordered(line, label, low, high)
        if low > len(self.passages):
            raise Refused(f"{self.where(line, label)}: at least {low} passages asked, there are {len(self.passages)}")
        return [f"stimuli {low} {min(high, MOST_PASSAGES)}"]

    def per_passage(self, line, label, row):
        low, high = max(1, self.bound(line, row, "LB", 1)), self.bound(line, row, "UB", MOST_ITEMS)
        self.ordered(line, label, low, high)
        if not self.passages:
            raise Refused(f"{self.where(line, label)}: no item has a passage (column STID)")
        return [f"stimulus {s} {low} {min(high, MOST_ITEMS)}" for s in range(1, len(self.passages) + 1)]

    def count(self, line, label, row, kind):
        found = self.chosen(line, label, row["CONDITION"])
        if kind == "number":
            low, high = self.bound(line, row, "LB", 0), min(self.bound(line, row, "UB", MOST_ITEMS), MOST_ITEMS)
            self.ordered(line, label, low, high)
        else:
            low = high = len(found) if kind == "include" else 0
        if low > len(found):
            raise Refused(f"{self.where(line, label)}: at least {low} asked, {len(found)} items meet {row['CONDITION']!r}")
        if low > self.length:
            raise Refused(f"{self.where(line, label)}: at least {low} asked, a test has {self.length} items")
        return f"count {low} {high} {runs(found)}"

    def enemies(self, line, label, condition):
        found = self.chosen(line, label, condition)
        if len(found) == 1:
            self.warnings.append(f"{label}: one item alone meets {condition!r}, {self.items[found[0]].name}, so the row bars nothing")
        return f"enemies {runs(found)}"

    def quantity(self, line, label, row, kind):
        name, _, rest = row["CONDITION"].partition(",")
        name = name.strip()
        if name not in self.quantities:
            raise Refused(f"{self.where(line, label)}: {name!r} is no quantity; add --quantity {name}")
        if kind != "sum" and rest.strip():
            raise Refused(f"{self.where(line, label)}: a mean over a part of the form is not linear in the items")
        times = 1 if kind == "sum" else self.length
        low = 0 if row["LB"] in ABSENT else math.ceil(times * self.number(line, row, "LB") - 1e-9)
        high = MOST_SUM if row["UB"] in ABSENT else math.floor(times * self.number(line, row, "UB") + 1e-9)
        high = min(high, MOST_SUM)
        self.ordered(line, label, low, high)
        covered = set(self.covered)
        found = self.chosen(line, label, rest)
        self.covered = covered
        self.require_reachable(line, label, name, found, low, high)
        return f"quantity {self.quantities.index(name)} {max(0, low)} {high} {runs(found)}"

    def require_reachable(self, line, label, name, found, low, high):
        """Refuses a sum that no set of items of the length has, whatever the other rules are."""
        values = sorted(int(float(self.items[k].attributes[name])) for k in found)
        most = sum(values[-self.length:])
        least = sum(values[:max(0, self.length - (len(self.items) - len(found)))])
        if low > most or high < least:
            raise Refused(f"{self.where(line, label)}: the sum of {name} is {low} to {high}; {self.length} items have {least} to {most}")

    def ordered(self, line, label, low, high):
        if low > high:
            raise Refused(f"{self.where(line, label)}: LB {low} is above UB {high}")

    def all_or_none(self, line, label, condition):
        found = self.chosen(line, label, condition)
        for k in found:
            if self.items[k].passage:
                raise Refused(f"{self.where(line, label)}: item {self.items[k].name} has a passage already")
        if len(self.passages) == MOST_PASSAGES:
            raise Refused(f"{self.where(line, label)}: with it there are more than {MOST_PASSAGES} passages")
        self.passages.append(label)
        for k in found:
            self.items[k].passage = len(self.passages)
        self.warnings.append(f"{label}: its {len(found)} items are a passage, so they are served one after another")
        return f"stimulus {len(self.passages)} {len(found)} {len(found)}"


def is_length(row: Dict[str, str]) -> bool:
    return (row["TYPE"].lower(), row["WHAT"].lower()) == ("number", "item") and row["CONDITION"] in ABSENT


def alike(items: Sequence[Item], names: Iterable[str]) -> List[str]:
    """What is to be said of values of these attributes that a reader takes for one: that differ by capital letters, by spaces or by
    their form in Unicode alone."""
    said = []
    for name in names:
        first: Dict[str, Dict[str, int]] = {}
        for item in items:
            value = item.attributes.get(name, "")
            key = " ".join(unicodedata.normalize("NFKC", value).casefold().split())
            first.setdefault(key, {}).setdefault(value, item.line)
        for found in first.values():
            if len(found) > 1:
                values = " and ".join(f"{value!r} ({ascii(value)}, line {line})" if not value.isascii() else f"{value!r} (line {line})"
                                      for value, line in found.items())
                said.append(f"attribute {name}: {values} look alike, and are different values to a rule")
    return said


def compile_blueprint(path: str, items: List[Item], passages: Sequence[str], quantities: Sequence[str],
                      dialect: Dialect = Dialect(), may_have_absent: bool = False) -> Blueprint:
    """The length, the rules, the passages (with those of AllOrNone) and warnings; or a refusal. Values in conditions that no item has
    are refused, unless they may be absent."""
    passages = list(passages)
    compiler = Compiler(path, items, passages, quantities, dialect, may_have_absent)
    rules = compiler.read()
    rows = sum(line.split()[0] != "stimulus" for rule in rules for line in rule.lines)
    if rows > MOST_ROWS:
        raise Refused(f"{path}: {rows} rows; shadowd takes at most {MOST_ROWS}")
    names = list(dict.fromkeys([*compiler.used, "STID"] if passages else compiler.used))
    warnings, clashes = compiler.warnings + alike(items, names), disagreements(compiler.length, rules, len(items))
    free = [item.name for k, item in enumerate(items) if k not in compiler.covered and not item.passage]
    if rules and free:
        more = ", .." if len(free) > 3 else ""
        warnings.append(f"{len(free)} items are in no rule of content ({', '.join(free[:3])}{more})")
    return Blueprint(compiler.length, rules, passages, warnings + clashes, clashes)


def disagreements(length: int, rules: Sequence[Rule], items: int) -> List[str]:
    """Counts over disjoint sets whose lows pass the length, or, where they cover the bank, whose highs do not reach it."""
    found, groups = [], {}
    for rule in rules:
        words = rule.lines[0].split() if rule.lines else [""]
        if words[0] == "count" and rule.attribute:
            groups.setdefault(rule.attribute, []).append((int(words[1]), int(words[2]), words[3:]))
    for name, group in groups.items():
        sets = [set(members(words)) for _, _, words in group]
        union = set().union(*sets)
        if sum(map(len, sets)) != len(union):
            continue
        low, high = sum(g[0] for g in group), sum(min(g[1], len(s)) for g, s in zip(group, sets))
        if low > length:
            found.append(f"the least numbers of the rules on {name} add up to {low}, a test has {length} items")
        if len(union) == items and high < length:
            found.append(f"the greatest numbers of the rules on {name} add up to {high}, a test has {length} items")
    return found
