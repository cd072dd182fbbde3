"""The page on the price of each rule and on items to write."""
from typing import List, Sequence, Tuple

from shadowtools.agency.price import MOST_KINDS, Best, Prices
from shadowtools.page.parts import Facts, Note, Section, Table, Verdict
from shadowtools.page.study import plain
from shadowtools.page.verdicts import MEASURED, MET

MOST_GAINS = 10


def cell(one: Best) -> str:
    """What is proved: a number, or an interval."""
    return f"{one.low:.3f}" if one.is_proved else f"{one.low:.3f} to {one.high:.3f}"


def at(abilities: Sequence[float]) -> List[str]:
    return [f"at {plain(round(ability, 3))}" for ability in abilities]


def verdicts(found: Prices) -> List[Verdict]:
    values = [*found.best, *found.together, *(one for _, row in found.rows for one in row), *(one for gain in found.gains for one in gain.gains)]
    proved = sum(one.is_proved for one in values)
    text = f"{proved:,} of {len(values):,} numbers are proved, by {found.forms:,} forms"
    said = [Verdict(MET, text + ".") if proved == len(values) else
            Verdict(MEASURED, text + "; the others are intervals, from what the search left open.")]
    if found.rows:
        place = max(range(len(found.abilities)), key=lambda k: found.together[k].low)
        said.append(Verdict(MEASURED, f"All rules together cost at most {cell(found.together[place])} of information ({at(found.abilities)[place]}), "
                                      f"beside {cell(found.best[place])} that the best form has there."))
        name, row = max(found.rows, key=lambda pair: max(one.low for one in pair[1]))
        dear = max(range(len(row)), key=lambda k: row[k].low)
        said.append(Verdict(MEASURED, f"The dearest single rule is “{name}”: {cell(row[dear])} {at(found.abilities)[dear]}."))
    if found.gains:
        first = found.gains[0]
        equal = sum(f"{one.mean:.3f}" == f"{first.mean:.3f}" for one in found.gains[1:])
        also = f" {equal} {'other gains' if equal == 1 else 'others gain'} as much." if equal else ""
        said.append(Verdict(MEASURED, f"The item to write first is of the kind “{first.kind}” with difficulty {plain(first.difficulty)}: the best form "
                                      f"informs {first.mean:.3f} more in the mean over these abilities.{also}"))
    return said


def sections(found: Prices, digests: Sequence[Tuple[str, str]]) -> List[Section]:
    head, single = at(found.abilities), [sum(row[k].low for _, row in found.rows) for k in range(len(found.abilities))]
    rows = [["best form, all rules", *map(cell, found.best)], ["price of all rules together", *map(cell, found.together)]]
    rows += [[name, *map(cell, values)] for name, values in found.rows]
    rows += [["sum of the single prices", *(f"{value:.3f}" for value in single)]] if found.rows else []
    parts = [Table(["Rule", *head], rows, "Information of the best form, and what it would be more without the rule"), Note(
        "Abilities are in logits, as points of the grid. The price of a rule is what the best form informs more without its row of the table "
        "of constraints. Prices of single rules do not add up to that of all: one rule alone may be free while another forces the same choice, and "
        "two together may cost more than each. A number is proved; an interval is what is known where a search ended at its budget.")]
    return [Section("rules", "The price of each rule", parts), *write(found), Section("files", "Files", [Facts(
        [(f"SHA-256, {name}", value) for name, value in digests], "digests")])]


def write(found: Prices) -> List[Section]:
    """The ten items that gain the most."""
    if not found.gains:
        return []
    rows = [[one.kind, plain(round(one.difficulty, 3)), f"{one.mean:.3f}", *map(cell, one.gains)] for one in found.gains[:MOST_GAINS]]
    said = (f"One more item with the median slope and lower asymptote of the bank, of a kind of items that the rules tell apart. It is in no passage, and "
            f"nobody's enemy. The ten greatest of {len(found.gains)} gains; all are in the file PAGE.write.csv.")
    if found.kinds_left_out:
        said += f" The {MOST_KINDS} most frequent kinds are tried, and {found.kinds_left_out} rarer ones are not."
    return [Section("write", "Which items to write", [Table(["Kind", "Difficulty", "Mean gain", *at(found.abilities)], rows), Note(said)])]
