"""Why a plan has no form, or no series of forms; and how far from the best an unproved form can be.

usage: explain.py BANK PLAN [--series K] [--map MAP [--unbound]] [--program SHADOWD]
       the program is by default $SHADOWD, else crates/shadowd/out/shadowd

It runs `shadowd assemble`. Where no set of items meets the plan (status 11), it leaves out one rule after the
other for as long as there is still no form. The lines of a row of the agency's table, which have one remark (as those of each passage),
are one rule; of one that stays it then leaves out the passages that are not needed. The rules that stay cannot be met together, and
without any one of them there is a form, or none was found within the base budget. Each step is a proved `no form`. Where a count
shows it, a sentence has how far the rules are from a form ("the low bounds add up to 21, the length is 20").
Where a form is unproved, it reads the proof tree. Each open leaf has a bound; the greatest of them bounds all forms.
The gap is what the best form can inform more than this one.

With --series it does the first for K forms without common items (status 17 of `shadowd series`): it begins with the rules that the
rays and counts of the series tree name. Each step is a proved `no series`, but where the bank has too few items for K forms. The
weights and the information play no part, so it asks with a bank whose items inform alike.

Rules are named by the remark above them in the plan, as irt_bank.py writes it. With --map the form has its items' names, and the gap is in
units of information; the map has to be that of bank and plan. With --unbound the plan need not name it by its SHA-256. Exit status: 0 where there is a form or a
series, 11 where there is no form, 12 where none was found, 17 where there is no series, 18 where none was found, 1 where the files
are refused.
"""
import argparse
import sys
from typing import Callable, Iterable, List, Optional, Sequence, Set, TextIO, Tuple

from shadowtools.agency.clash_distance import distance
from shadowtools.agency.custody import read_documents
from shadowtools.agency.program import DONE, NO_FORM, NO_SERIES, NO_SERIES_FOUND, NOT_FOUND, Form, Program, form_of
from shadowtools.checkers import check_series, check_tree
from shadowtools.command import Refused, as_command
from shadowtools.formats.examination import BankItem, Rule, plan_of, read_bank
from shadowtools.formats.tables import text_of
from shadowtools.options import Options, whole
from shadowtools.places import BUILT

SIDES_OF_A_FORM = 384   # the sides of rows and passages that a series tree numbers for each form


# ---------------------------------------------------------------- no form

def without(text: str, rules: Sequence[Rule], kept: Sequence[Rule]) -> str:
    """The plan with only these of its rules, and without a base form, which the others may be needed for."""
    dropped = {rule.line for rule in rules} - {rule.line for rule in kept}
    lines = [line for number, line in enumerate(text.split("\n"), 1)
             if number not in dropped and not line.startswith("base ")]
    return "\n".join(lines)


def used_by(tree: str, rules: Sequence[Rule], passages: bool) -> List[Rule]:
    """The rules that the tree's leaves name; a place to begin from, which the program then tests."""
    try:
        vectors, nodes, _ = check_tree.read_tree(bytes.fromhex(tree))
    except (check_tree.Fault, ValueError) as fault:
        raise Refused(f"shadowd assemble printed no proof tree: {fault}")
    numbers = {side // 2 + 1 for kind, value in nodes if kind == check_tree.RAY for side in vectors[value]}
    numbers |= {value for kind, value in nodes if kind == check_tree.COUNT}
    return named_by(numbers, rules, passages)


def named_by(numbers: Iterable[int], rules: Sequence[Rule], passages: bool) -> List[Rule]:
    """The rules whose rows have these numbers, from 1, and those of all passages where `passages`."""
    rows = [rule for rule in rules if rule.kind != "stimulus"]
    found = {rule.line for rule in rules if rule.kind == "stimulus" and passages}
    found |= {rows[number - 1].line for number in numbers if 1 <= number <= len(rows)}
    return [rule for rule in rules if rule.line in found]


def used_by_series(tree: str, rules: Sequence[Rule], passages: bool) -> List[Rule]:
    """The rules that the rays and the counts of a series tree name, in any form."""
    try:
        vectors, nodes, _ = check_series.read_tree(bytes.fromhex(tree))
    except (check_tree.Fault, ValueError) as fault:
        raise Refused(f"shadowd series printed no series tree: {fault}")
    numbers: Set[int] = set()
    for kind, *fields in nodes:
        if kind == check_series.COUNT:
            numbers.add(fields[1])
        if kind == check_series.RAY:
            sides = [side - check_series.ROWS for side in vectors[fields[0]] if check_series.ROWS <= side < check_series.LENGTHS]
            numbers |= {side % SIDES_OF_A_FORM // 2 + 1 for side in sides}
    return named_by(numbers, rules, passages)


def clash(program: Program, text: str, tree: str) -> Tuple[List[Rule], int]:
    """An irreducible set of rules that no form meets together, and the number of all rules."""
    return irreducible(text, lambda rules, passages: used_by(tree, rules, passages), lambda plan: program.assemble(plan)[0] == NO_FORM)


def series_clash(program: Program, text: str, tree: str, count: int) -> Tuple[List[Rule], int]:
    """An irreducible set of rules that so many forms without common items don't meet, and the number of all rules."""
    return irreducible(text, lambda rules, passages: used_by_series(tree, rules, passages),
                       lambda plan: program.series(plan, count)[0] == NO_SERIES)


def rows_of(rules: Sequence[Rule]) -> List[List[Rule]]:
    """The rules by row of the agency's table: lines of passages that follow one another below one remark are one row."""
    rows: List[List[Rule]] = []
    for rule in rules:
        if rows and remark_of(rule) and remark_of(rule) == remark_of(rows[-1][0]):
            rows[-1].append(rule)
        else:
            rows.append([rule])
    return rows


def remark_of(rule: Rule) -> str:
    """The remark above the line of a passage; an empty text where there is none, or the rule is another."""
    return rule.label.removesuffix(f", passage {rule.number}") if rule.kind == "stimulus" and rule.label != rule.text else ""


def irreducible(text: str, named: Callable[[Sequence[Rule], bool], List[Rule]], has_none: Callable[[str], bool]) -> Tuple[List[Rule], int]:
    """The rules that stay where one row after the other, and then one passage after the other, is left out for as long as the plan
    `has_none`; and the number of all rows."""
    rules = plan_of(text).rules
    rows, kept = rows_of(rules), list(rules)
    guess = named(rules, any(rule.kind == "stimulus" for rule in rules))
    if len(guess) < len(kept) and has_none(without(text, rules, guess)):
        kept = guess
    passages = [[rule] for row in rows if len(row) > 1 for rule in row]
    for part in [*reversed(rows), *reversed(passages)]:
        fewer = [rule for rule in kept if rule not in part]
        if len(fewer) < len(kept) and has_none(without(text, rules, fewer)):
            kept = fewer
    return kept, len(rows)


def line_of(row: Sequence[Rule]) -> str:
    """A row of a clash: its line of the plan with its remark; of several passages the first one, and how many there are."""
    rule = row[0]
    text = rule.text if len(rule.text) <= 60 else rule.text[:57] + "..."
    if len(row) > 1:
        return f"lines {rule.line} to {row[-1].line}: {text} and {len(row) - 1} more, {len(row)} passages   {remark_of(rule)}"
    return f"line {rule.line}: {text}" + ("" if rule.label == rule.text else f"   {rule.label}")


def print_clash(kept: Sequence[Rule], of: int, length: int, bank: Sequence[BankItem], out: Optional[TextIO] = None, forms: int = 1) -> None:
    """The rules that clash, and how far they are from a form, or from so many forms, where a count shows it."""
    of_what = f"a test of {length} items" if forms == 1 else f"{forms} forms of {length} items without common items"
    far, rows = distance(kept, bank, length, forms), rows_of(kept)
    if kept:
        begin = f"These {len(rows)} of {of} rules cannot be met together" if len(rows) > 1 else f"One of {of} rules cannot be met"
        print(f"{begin} in {of_what}:", file=out)
    else:
        print(f"No set of {length} items is a form by the length alone." if forms == 1 else f"The length alone rules out {of_what}.", file=out)
    for row in rows:
        print("  " + line_of(row), file=out)
    if far:
        print(far, file=out)
    if len(rows) > 1:
        print(f"Without any one of them there is a {'form' if forms == 1 else 'series'}, or none was found within the base budget.", file=out)


# ---------------------------------------------------------------- the gap of an unproved form

def greatest_bound(problem, vectors, nodes):
    """The greatest bound of the open leaves, in units of the bank; None where no leaf is open.

    The bound of a leaf is the least relaxed maximum of the tree's vectors and of no multipliers, on its path."""
    reduced = [check_tree.reduced(problem, vector, False) for vector in [{}] + vectors]
    waiting, greatest = [check_tree.root(problem)], None
    for kind, value in nodes:
        path = waiting.pop()
        if kind in (check_tree.ITEM, check_tree.STIMULUS):
            waiting.extend(reversed(check_tree.below(problem, path, kind, value)))
        if kind == check_tree.FIX:
            waiting.append(check_tree.below_fix(problem, path, reduced[value[0] + 1], value[1]))
        if kind == check_tree.OPEN:
            maxima = [check_tree.maximum(problem, path, one) for one in reduced]
            if any(one is None for one in maxima):
                continue
            least = min(maxima) // 256
            greatest = least if greatest is None else max(greatest, least)
    return greatest


def gap(bank_path: str, plan_path: str, found: Form) -> Tuple[int, int]:
    """The form's objective and the bound that its tree gives."""
    form = frozenset(found.items)
    bank = check_tree.read_bank(bank_path)
    plan = check_tree.read_plan(plan_path, bank)
    start = plan.prior.index(max(plan.prior))
    problem = check_tree.Problem(bank, plan, start, frozenset(), frozenset(), None)
    vectors, nodes, _ = check_tree.read_tree(found.tree)
    verdict = check_tree.verdict(problem, form, vectors, nodes)
    if not verdict.startswith("Partial"):
        raise Refused(f"the tree's verdict is {verdict}, not Partial")
    objective = check_tree.objective(problem, form)
    bound = greatest_bound(problem, vectors, nodes)
    return objective, objective if bound is None else max(objective, bound)


def print_gap(objective, bound, unit):
    scale = 1 if unit is None else unit
    shown = f"{bound / scale:g}", f"{(bound - objective) / scale:g}"
    share = (bound - objective) / objective if objective else float("inf")
    print(f"No form informs more than {shown[0]}: the gap is {shown[1]}, {share:.2%} of this form.")


# ---------------------------------------------------------------- command line

def options(words: Sequence[str]) -> argparse.Namespace:
    parser = Options(__doc__)
    parser.add_argument("bank", nargs="?")
    parser.add_argument("plan", nargs="?")
    parser.add_argument("--map")
    parser.add_argument("--series", type=whole(1, 4))
    parser.add_argument("--program", default=BUILT)
    parser.add_argument("--unbound", action="store_true")
    return parser.read(words, lambda given: bool(given.plan))


def main(words: Sequence[str]) -> int:
    given = options(words)
    scale = read_documents(given.bank, given.plan, given.map, may_be_unbound=given.unbound).map if given.map else None
    text = text_of(given.plan)
    program = Program(given.program, given.bank)
    return on_series(program, text, given.series) if given.series else on_form(program, text, given, scale)


def on_series(program: Program, text: str, count: int) -> int:
    """Explains why there are no such forms. The status of `shadowd series`, or 17 where the bank has too few items for them."""
    length, bank = plan_of(text).length, read_bank(program.bank)
    if len(bank) < count * length:
        print_clash([], 0, length, bank, forms=count)
        return NO_SERIES
    status, said = program.series(text, count)
    if status == NO_SERIES:
        kept, of = series_clash(program, text, said.split()[-1], count)
        print_clash(kept, of, length, bank, forms=count)
    elif status == NO_SERIES_FOUND:
        print(" ".join(said.split()[:5]))
        print(f"It is open whether the plan has {count} forms without common items. Raise base-budget (to 4095), or loosen rules.")
    elif status == DONE:
        print(f"The plan has {count} forms without common items. shadowd series has how far from the best they are.")
    else:
        raise Refused(f"shadowd series, status {status}: {said[:200]}")
    return status


def on_form(program: Program, text: str, given: argparse.Namespace, scale: Optional[dict]) -> int:
    """Explains why there is no form, or how far from the best one it is, with the names and the unit of the map. The status of `shadowd
    assemble`."""
    status, said = program.assemble(text)
    if status == NO_FORM:
        kept, of = clash(program, text, said.split()[-1])
        print_clash(kept, of, plan_of(text).length, read_bank(given.bank))
    elif status == NOT_FOUND:
        print(said.split(" tree ")[0][:60].rsplit(" ", 1)[0])
        print("It is open whether the plan has a form. Raise base-budget (to 4095), or give a base form.")
    elif status == DONE:
        form, (items, objective) = form_of(said), said.splitlines()[:2]
        print(f"This form is {'' if form.is_proved else 'not '}proved best: {items}, {objective}.")
        if scale:
            print("Its items: " + ", ".join(scale["items"][item]["id"] for item in form.items))
        if not form.is_proved:
            print_gap(*gap(given.bank, given.plan, form), scale["information_unit"] if scale else None)
    else:
        raise Refused(f"shadowd assemble, status {status}: {said[:200]}")
    return status


command = as_command(main)


if __name__ == "__main__":
    sys.exit(command())
