"""How far rules that cannot be met together are from a form, where a count shows it: a sentence, or nothing.

Each sentence is a proof by itself that no set of items meets the rules. A clash that takes more than such a count has none.
Forms without common items have together so many times the length, and so many times the bounds of each rule on items.
"""
from collections import Counter
from dataclasses import dataclass, replace
from typing import Collection, FrozenSet, Iterator, List, Optional, Sequence

from shadowtools.formats.examination import BankItem, Rule


@dataclass(frozen=True)
class Count:
    """From `low` to `high` items of a set. `line` is the rule's line in the plan, 0 for the length of the test."""
    items: FrozenSet[int]
    low: int
    high: int
    line: int = 0


def distance(rules: Sequence[Rule], bank: Sequence[BankItem], length: int, forms: int = 1) -> Optional[str]:
    """The first sentence that shows that no test of this length meets all rules, or no so many forms without common items."""
    alone = next(filter(None, sentences(rules, bank, length)), None) or passages_out_of_reach(rules, bank, length)
    if alone or forms == 1:
        return alone
    if len(bank) < forms * length:
        return f"The bank has {len(bank)} items, {forms} forms of {length} items have {forms * length}."
    of_all = [replace(rule, low=forms * rule.low, high=forms * rule.high) for rule in rules]
    found = next(filter(None, sentences(of_all, bank, forms * length)), None)
    if found:
        return f"{forms} forms have {forms} times the length and {forms} times the bounds of one. {found}"
    return passages_shared(rules, bank, forms)


def sentences(rules: Sequence[Rule], bank: Sequence[BankItem], length: int) -> Iterator[Optional[str]]:
    """What sums and counts of items show, in order."""
    whole = Count(frozenset(range(len(bank))), length, length)
    counts = [Count(rule.members, rule.low, rule.high, rule.line) for rule in rules if rule.kind in ("count", "enemies")]
    yield from (sum_out_of_reach(rule, bank, length) for rule in rules if rule.kind == "quantity")
    yield from (count_out_of_reach(count, len(bank), length) for count in counts)
    for one in [whole] + counts:
        others = [other for other in counts if other is not one]
        if are_disjoint(others):
            yield lows_above(one, others)
            yield highs_below(one, others)


def are_disjoint(counts: Sequence[Count]) -> bool:
    return sum(len(one.items) for one in counts) == len(frozenset().union(*(one.items for one in counts)))


def sum_out_of_reach(rule: Rule, bank: Sequence[BankItem], length: int) -> Optional[str]:
    """A sum that the items cannot have: the least and the greatest that a test of this length can have of the set."""
    values = sorted(bank[item].quantities[rule.number] for item in rule.members)
    least = sum(values[:max(0, length - (len(bank) - len(values)))])
    greatest = sum(values[-min(length, len(values)):])
    if least > rule.high:
        return f"A test has at least {least:,} in the sum of line {rule.line}, whose high bound is {rule.high:,}."
    if greatest < rule.low:
        return f"A test has at most {greatest:,} in the sum of line {rule.line}, whose low bound is {rule.low:,}."
    return None


def count_out_of_reach(count: Count, items: int, length: int) -> Optional[str]:
    """A set that is too small for its low bound, or too great for its high bound."""
    if len(count.items) < count.low:
        return f"The set of line {count.line} has {len(count.items)} items, its low bound is {count.low}."
    outside = items - len(count.items)
    if length - outside > count.high:
        return (f"Only {outside} items are outside of the set of line {count.line}: a test of {length} has at least "
                f"{length - outside} of it, its high bound is {count.high}.")
    return None


def lows_above(one: Count, others: Sequence[Count]) -> Optional[str]:
    """Low bounds of disjoint sets that ask for more items of one set than its high bound."""
    asked = [max(0, other.low - len(other.items - one.items)) for other in others]
    if sum(asked) <= one.high:
        return None
    if one.line == 0:
        return f"The low bounds add up to {sum(asked)}, the length is {one.high}."
    named = lines([other for other, low in zip(others, asked) if low])
    return (f"The low bounds of {named} ask for at least {sum(asked)} items of the set of line {one.line}, whose high bound is "
            f"{one.high}.")


def highs_below(one: Count, others: Sequence[Count]) -> Optional[str]:
    """High bounds of disjoint sets that leave fewer items of one set than its low bound."""
    covered = [other for other in others if other.items & one.items]
    highs = sum(min(other.high, len(other.items & one.items)) for other in covered)
    free = len(one.items.difference(*(other.items for other in covered)))
    if not covered or highs + free >= one.low:
        return None
    of = "the length" if one.line == 0 else f"the low bound of line {one.line}"
    more = f", and {free} items are in none of these sets: {highs + free} items at most" if free else ""
    return f"The high bounds of {lines(covered)} add up to {highs}{more}; {of} is {one.low}."


def passages_out_of_reach(rules: Sequence[Rule], bank: Sequence[BankItem], length: int) -> Optional[str]:
    """A number of passages that the bank, or the length of the test, cannot have."""
    sizes = {passage: sum(item.passage == passage for item in bank) for passage in {item.passage for item in bank} - {0}}
    bounds = {rule.number: rule for rule in rules if rule.kind == "stimulus"}
    lows = sorted(max(1, bounds[passage].low) if passage in bounds else 1 for passage in sizes)
    highs = sorted(min(size, bounds[passage].high) if passage in bounds else size for passage, size in sizes.items())
    free = sum(item.passage == 0 for item in bank)
    for rule in (rule for rule in rules if rule.kind == "stimuli"):
        if len(sizes) < rule.low:
            return f"The bank has {len(sizes)} passages, the low bound of line {rule.line} is {rule.low}."
        if sum(lows[:rule.low]) > length:
            return f"{rule.low} passages have at least {sum(lows[:rule.low])} items, the length is {length}."
        most = sum(highs[len(highs) - min(rule.high, len(highs)):]) + free
        if most < length:
            return f"{rule.high} passages and the {free} items without one are at most {most} items, the length is {length}."
    return None


def passages_shared(rules: Sequence[Rule], bank: Sequence[BankItem], forms: int) -> Optional[str]:
    """A number of passages that so many forms without common items cannot have: each form needs items of its own of a passage."""
    bounds = {rule.number: max(1, rule.low) for rule in rules if rule.kind == "stimulus"}
    sizes = Counter(item.passage for item in bank if item.passage)
    most = sum(min(forms, size // bounds.get(passage, 1)) for passage, size in sizes.items())
    for rule in (rule for rule in rules if rule.kind == "stimuli"):
        if most < forms * rule.low:
            return (f"The passages have items for {most} choices of a passage, {forms} forms choose at least "
                    f"{forms * rule.low} by line {rule.line}.")
    return None


def lines(counts: Collection[Count]) -> str:
    """The lines of some counts, in words."""
    names: List[str] = [str(count.line) for count in counts]
    return f"line {names[0]}" if len(names) == 1 else f"lines {', '.join(names[:-1])} and {names[-1]}"
