"""From item parameters, attributes and a table of constraints to the bank and the plan of an examination.

usage: irt_bank.py --items ITEMS.csv [--attributes ATTRIBUTES.csv] [--constraints CONSTRAINTS.csv | --length N] --out PREFIX

  --format F           auto (default), testdesign, columns, catr or mirt: the convention of ITEMS
  --columns OWN=THEIRS,..   other names of the columns of ITEMS, as a=Dscrmn,b=Dffclt,c=Gussng
  --ignore COLUMN      a column of ITEMS that is no parameter (may be given again); every other column is read, or refused
  --model M            GR, GPC or PC, for thresholds without a column MODEL
  --separator S        comma (default), semicolon or tab, in all three tables
  --decimal D          point (default) or comma
  --scaling D          1 (default) or 1.702: the constant D of the calibration
  --grid LOW HIGH N    the ability points; default -4 4 and as many as the rule below asks, 41 to 61
  --prior MEAN SD      the prior of ability, default 0 1; or --prior flat
  --information-unit F whole numbers for one unit of Fisher information, default 1000
  --log-unit L         whole numbers for one natural logarithm, default 1000; for bank and prior both
  --absent-values      conditions may name values that no item has; without it each is refused, as a misspelt one
  --quantity NAME      an attribute that becomes a quantity of the bank, in the order given (words, seconds)
  --budget N, --base-budget N, --sessions N, --journal N   lines of the plan
  --rate NUM DEN --key HEX                                 exposure control
  --bands N            2 to 8, with a rate: the control is for each of N bands of abilities with equal shares of the expected
                       examinees, or of fewer where one would be narrower than the standard error half way through the test
  --weights WEIGHT@ABILITY ..   the weights of a series of fixed forms, as 1@-1 2@0 1@1: whole numbers to 1,000, each at the grid point
                       nearest to its ability; PREFIX.weights.txt has the word WEIGHTS of `shadowd series` then
  --program SHADOWD    the program that checks what is written; default $SHADOWD, else crates/shadowd/out/shadowd if it is there

ATTRIBUTES has a line for each item: ID, perhaps STID (the name of its passage), and any other columns. An item
without a value has an empty field or NA. CONSTRAINTS is described in blueprint.py, conditions in conditions.py.

PREFIX.bank.csv, PREFIX.plan.txt and PREFIX.map.json are written. The map has what no text of shadowd holds: which
ability each point is, the units, and the names of the items and passages. The same input gives the same bytes.

Rule for the grid: an odd number of points, with a step of at most half the least standard error of a test.
Exit status: 0; 1 where the input is refused, with file, line and column; 2 for a faulty command line; 3 where the program refuses the
texts. With these nothing is written. 11 where no set of items meets the constraints, with those that clash; 12 where none was found.
"""
import argparse
import hashlib
import math
import os
import re
import sys
import tempfile
from typing import Any, Dict, List, Sequence, Tuple

from shadowtools.needs import require

require("irt_bank.py", "numpy")

import numpy as np  # noqa: E402

from shadowtools.agency import band_points  # noqa: E402
from shadowtools.agency.attributes import passage_warnings, read_attributes, read_quantities, rows_of_attributes  # noqa: E402
from shadowtools.agency.bank_parameters import FORMATS, Reading, read_items  # noqa: E402
from shadowtools.agency.bank_tables import (Tables, ability_grid, grid_warnings, item_warnings, key_numbers,  # noqa: E402
                                            least_error, log_prior, rate_warnings, require_prior, rounding_cost)
from shadowtools.agency.blueprint import Blueprint, compile_blueprint  # noqa: E402
from shadowtools.agency.custody import map_digest  # noqa: E402
from shadowtools.agency.explain import clash, print_clash  # noqa: E402
from shadowtools.agency.expected import Expected, expected_by  # noqa: E402
from shadowtools.agency.irt import FIELD, Item  # noqa: E402
from shadowtools.agency.program import DONE, NO_FORM, NOT_FOUND, Program, form_of, written  # noqa: E402
from shadowtools.agency.series_weights import weights_of, word_of  # noqa: E402
from shadowtools.command import Refused, as_command  # noqa: E402
from shadowtools.formats.examination import plan_of, read_bank  # noqa: E402
from shadowtools.formats.tables import SEPARATORS, Dialect  # noqa: E402
from shadowtools.formats.written import json_text, write  # noqa: E402
from shadowtools.options import Options, between, require_folder, whole  # noqa: E402
from shadowtools.places import BUILT  # noqa: E402

DEVIATIONS, LEAST_INFORMATION = (-2, -1, 0, 1, 2), 0.0005
REFUSED, ENDS = 3, (".bank.csv", ".plan.txt", ".map.json", ".weights.txt")


def options(words: Sequence[str]) -> argparse.Namespace:
    parser = Options(__doc__, repeated=("--quantity", "--ignore"))
    for name in ("items", "attributes", "constraints", "out", "key", "model", "program", "columns"):
        parser.add_argument("--" + name)
    parser.add_argument("--format", default="auto", choices=("auto",) + FORMATS)
    parser.add_argument("--separator", default="comma", choices=tuple(SEPARATORS))
    parser.add_argument("--decimal", default="point", choices=("point", "comma"))
    parser.add_argument("--scaling", type=between(0.1, 10), default=1.0)
    parser.add_argument("--grid", nargs=3)
    parser.add_argument("--prior", nargs="+", default=["0", "1"])
    parser.add_argument("--information-unit", type=between(1e-3, 1e6), default=1000.0)
    parser.add_argument("--log-unit", type=between(1e-3, 1e6), default=1000.0)
    for name in ("quantity", "ignore"):
        parser.add_argument("--" + name, action="append", default=[])
    for name, value in (("budget", 2001), ("base-budget", 4095), ("sessions", 1000), ("journal", 67108864)):
        parser.add_argument("--" + name, type=whole(0, 999_999_999), default=value)
    parser.add_argument("--rate", nargs=2, type=whole(1, 65_535))
    parser.add_argument("--bands", type=whole(band_points.FEWEST_BANDS, band_points.MOST_BANDS))
    parser.add_argument("--length", type=whole(1, 512))
    parser.add_argument("--weights", nargs="+")
    parser.add_argument("--absent-values", action="store_true")
    found = parser.read(words, lambda given: bool(given.items and given.out and (given.constraints or given.length)))
    if found.constraints and found.length:
        raise Refused("--length: the table of --constraints has the length; leave one of the two out")
    if bool(found.rate) != bool(found.key):
        raise Refused("--rate needs --key, 64 hexadecimal digits drawn at random" if found.rate else "--key is not used without --rate")
    if found.bands and not found.rate:
        raise Refused("--bands is not used without --rate")
    if found.model and found.model.upper() not in ("GR", "GPC", "PC"):
        raise Refused(f"--model {found.model}: GR, GPC or PC")
    return found


def reading_of(given: argparse.Namespace) -> Reading:
    """How the table of items is to be read."""
    columns: Dict[str, str] = {}
    for pair in given.columns.split(",") if given.columns else []:
        own, sign, theirs = pair.partition("=")
        if not (own and sign and theirs) or own in columns:
            raise Refused(f"--columns {given.columns}: OWN=THEIRS,.. with each name once")
        columns[own] = theirs
    return Reading(given.format, given.model and given.model.upper(), dialect_of(given), columns, given.ignore)


def dialect_of(given: argparse.Namespace) -> Dialect:
    return Dialect(SEPARATORS[given.separator], given.decimal == "comma")


# ---------------------------------------------------------------- what is written

def advice_of(given: argparse.Namespace, tables: Tables, length: int) -> band_points.Advice:
    """The points of the bands that are asked for; none where none are."""
    if not given.bands:
        return band_points.Advice([], [], [])
    weights = np.exp(log_prior(given.prior, tables.theta, given.log_unit) / given.log_unit)
    return band_points.advice(given.bands, tables.items, tables.theta, given.scaling, length, given.prior, weights)


def plan_text(given: argparse.Namespace, tables: Tables, blueprint: Blueprint, digest: str, points: Sequence[int] = ()) -> str:
    """The plan, with a remark above each rule, and at its end one that names its map by the digest. The empty line after it keeps it
    from being the label of a row that somebody adds."""
    theta = tables.theta
    lines = [f"# made by irt_bank.py from {' '.join(os.path.basename(given.items).split())}",
             f"# {len(theta)} points from {theta[0]:g} to {theta[-1]:g}; D {given.scaling:g}; "
             f"{given.information_unit:g} for one unit of information, {given.log_unit:g} for one natural logarithm",
             f"length {blueprint.length}", "prior " + " ".join(map(str, log_prior(given.prior, theta, given.log_unit).tolist())),
             f"budget {given.budget}", f"base-budget {given.base_budget}",
             f"sessions {given.sessions}", f"journal {given.journal}"]
    if given.rate:
        lines += [f"rate {given.rate[0]} {given.rate[1]}", f"key {given.key}"]
    if points:
        lines += [f"# bands of abilities begin at {', '.join(f'{theta[point]:g}' for point in points)}",
                  "bands " + " ".join(map(str, points))]
    row = 0
    for rule in blueprint.rules:
        if rule.lines[0].startswith("stimulus "):
            lines.append(f"# {rule.remark}")
        else:
            lines.append(f"# row {row}: {rule.remark}")
            row += 1
        lines += rule.lines
    return "\n".join([*lines, f"# map SHA-256 {digest}", ""]) + "\n"


def map_of(given: argparse.Namespace, tables: Tables, blueprint: Blueprint) -> Dict[str, Any]:
    """The map without the digests of bank and plan: the scale, the units and the names."""
    return {
        "theta": tables.theta.tolist(), "D": given.scaling, "information_unit": given.information_unit,
        "log_unit": given.log_unit, "prior": given.prior, "length": blueprint.length, "quantities": given.quantity,
        "passages": blueprint.passages, "sha256": {},
        "items": [{"number": k, "id": item.name, "model": item.model, "parameters": item.parameters,
                   "passage": item.passage, "attributes": item.attributes} for k, item in enumerate(tables.items)],
    }


def texts_of(given: argparse.Namespace, tables: Tables, blueprint: Blueprint, points: Sequence[int]) -> Tuple[str, str, str]:
    """Bank, plan and map. The plan names the map by its SHA-256, and the map has those of bank and plan."""
    bank, scale_map = tables.text(), map_of(given, tables, blueprint)
    plan = plan_text(given, tables, blueprint, map_digest(scale_map), points)
    scale_map["sha256"] = {"bank": digest_of(bank), "plan": digest_of(plan)}
    return bank, plan, json_text(scale_map, indent=1) + "\n"


def digest_of(text: str) -> str:
    return hashlib.sha256(text.encode("utf-8")).hexdigest()


# ---------------------------------------------------------------- the program's own check

def explained(said: str, items: Sequence[Item], blueprint: Blueprint, plan: str) -> str:
    """A fault of the program, with the name and the line of the agency's table."""
    row, line = re.search(r"plan: row (\d+)", said), re.search(r"plan: line (\d+)", said)
    item, record = re.search(r"of item (\d+)", said), re.search(r"bank: record (\d+)", said)
    if row:
        rule = [rule for rule in blueprint.rules if not rule.lines[0].startswith("stimulus ")][int(row.group(1))]
        return f"{said}: {rule.label} ({rule.source})"
    if line:
        return f"{said}: {plan.splitlines()[int(line.group(1)) - 1][:80]}"
    if item or record:
        return f"{said}: {items[int(item.group(1)) if item else int(record.group(1)) - 1].name}"
    return said


def checked(program: Program, prefix: str, items: Sequence[Item], blueprint: Blueprint, plan: str) -> bool:
    """Whether the program takes bank and plan; prints what it says."""
    status, said = program.check(plan)
    if status or not said.startswith("bank items "):
        try:
            said = explained(said, items, blueprint, plan)
        except IndexError:
            pass
        print(f"{prefix}: shadowd check, status {status}: {said[:200]}", file=sys.stderr)
        return False
    print("check: " + said.splitlines()[0])
    return True


def abilities_tried(examinees: Expected, tables: Tables) -> List[float]:
    """The abilities at which forms are assembled: two standard deviations of the prior to each side, where the grid has them."""
    return [ability for ability in map(examinees.at, DEVIATIONS) if tables.theta[0] <= ability <= tables.theta[-1]]


def require_information(words: Sequence[str], tables: Tables, length: int) -> None:
    """Refuses a bank whose best items inform 0.000 at each ability at which forms are assembled."""
    tried = abilities_tried(expected_by(words, tables.theta), tables)
    information = np.stack([item.information(tried, tables.scaling) for item in tables.items])
    if np.sort(information, 0)[::-1][:length].sum(0).max() >= LEAST_INFORMATION:
        return
    places = [key_numbers(item)[1] for item in tables.items if item.model != FIELD]
    said = f"difficulties are {min(places):g} to {max(places):g}" if places else "all items are in field test"
    raise Refused(f"the items inform 0.000 at the abilities {', '.join(f'{one:g}' for one in tried)}; {said}. Parameters, --grid and --prior are "
                  "in one metric: for T-scores give --grid 10 90 61 --prior 50 10")


def first_forms(program: Program, tables: Tables, words: Sequence[str], plan: str) -> int:
    """Prints by priors at five abilities what a test can inform at the grid point of each. The status of the first that has no form, else 0."""
    examinees = expected_by(words, tables.theta)
    for mean in abilities_tried(examinees, tables):
        values = log_prior([repr(mean), repr(examinees.deviation)], tables.theta, tables.log_unit).tolist()
        point = tables.theta[values.index(max(values))]     # where the estimate begins: the greatest value, in a tie the lowest point
        status, said = program.assemble(re.sub(r"(?m)^prior .*$", "prior " + " ".join(map(str, values)), plan))
        if status == NO_FORM:
            print("no form: no set of items meets the constraints (status 11)", file=sys.stderr)
            print_clash(*clash(program, plan, said.split()[-1]), plan_of(plan).length, read_bank(program.bank), sys.stderr)
            return status
        if status == NOT_FOUND:
            print(f"ability {point:+g}: no form found within the base budget (status 12); raise --base-budget", file=sys.stderr)
            return status
        if status != DONE:
            raise Refused(f"shadowd assemble, status {status}: {said[:60]}")
        form = form_of(said)
        print(f"ability {point:+g}: best form informs {form.objective / tables.information_unit:.3f}, "
              f"standard error {math.sqrt(tables.information_unit / max(1, form.objective)):.3f}, "
              f"{'proved' if form.is_proved else 'unproved'} nodes {form.nodes}")
    return DONE


# ---------------------------------------------------------------- command line

def blueprint_of(given: argparse.Namespace, items: List[Item]) -> Tuple[Blueprint, List[List[int]]]:
    """The blueprint, and the values of the quantities by item."""
    warnings: List[str] = []
    rows = rows_of_attributes(given.attributes, dialect_of(given), given.quantity, warnings) if given.attributes else []
    passages = read_attributes(given.attributes, items, rows) if given.attributes else []
    quantities = read_quantities(given.attributes, items, given.quantity)
    if given.constraints:
        found = compile_blueprint(given.constraints, items, passages, given.quantity, dialect_of(given), given.absent_values)
        found.warnings += warnings + passage_warnings(items, passages, found.length)
        return found, quantities
    if given.length > len(items):
        raise Refused(f"--length {given.length}: the bank has {len(items)} items")
    return Blueprint(given.length, [], passages, warnings + passage_warnings(items, passages, given.length)), quantities


def main(words: Sequence[str]) -> int:
    given = options(words)
    for end in ENDS if given.weights else ENDS[:3]:
        require_folder("--out", given.out + end)
    items, _, form = read_items(given.items, reading_of(given))
    if form == "mirt" and given.scaling != 1:
        raise Refused(f"--scaling {given.scaling:g}: the intercepts of {given.items} are mirt's, whose D is 1; each slope would be "
                      f"{given.scaling:g} times as great")
    blueprint, quantities = blueprint_of(given, items)
    theta = ability_grid(given.grid, items, given.scaling, blueprint.length)
    warnings = require_prior(given.prior, theta)
    tables = Tables(items, quantities, theta, given.scaling, given.information_unit, given.log_unit)
    bands = advice_of(given, tables, blueprint.length)
    texts = texts_of(given, tables, blueprint, bands.points)
    warnings += blueprint.warnings + item_warnings(items, theta) + grid_warnings(given.prior, tables, blueprint.length)
    warnings += rate_warnings(given.rate, blueprint.length, len(items), len(bands.points) + 1) + bands.warnings
    weights = weights_of(given.weights, theta) if given.weights else []
    print_made(given, form, tables, blueprint)
    if weights:
        print("weights: " + ", ".join(f"{weight} at {theta[g]:g}" for g, weight in enumerate(weights) if weight))
    for line in band_points.sentences(bands, theta, given.rate):
        print(line)
    for warning in warnings:
        print("warning: " + warning, file=sys.stderr)
    status = tried(given, tables, blueprint, *texts[:2])
    if status == DONE:
        require_information(given.prior, tables, blueprint.length)
    if status != REFUSED:
        for end, text in zip(ENDS, texts + ((word_of(weights) + "\n",) if weights else ())):
            write(given.out + end, text)
    return status


def print_made(given: argparse.Namespace, form: str, tables: Tables, blueprint: Blueprint) -> None:
    """Prints what was made, and what the grid and the rounding cost."""
    theta, items = tables.theta, tables.items
    step, error = theta[1] - theta[0], least_error(items, theta, given.scaling, blueprint.length)
    width = max(item.categories for item in items)
    print(f"{len(items)} items ({form}), at most {width} categories, {len(blueprint.passages)} passages, "
          f"{len(given.quantity)} quantities, {len(blueprint.rules)} rules, tests of {blueprint.length}")
    print(f"{len(theta)} points from {theta[0]:g} to {theta[-1]:g}, step {step:.3f}; least standard error of a test "
          f"{error:.3f}: rounding to the grid costs {rounding_cost(step, error):.1%} of it")
    print(f"rounding to whole numbers: information by at most {tables.worst:.5f}, logarithms by {0.5 / given.log_unit:.5f}")


def tried(given: argparse.Namespace, tables: Tables, blueprint: Blueprint, bank: str, plan: str) -> int:
    """Lets the program check bank and plan, and assemble forms, before anything is written. The exit status."""
    path = given.program or (BUILT if os.path.exists(BUILT) else None)
    if not path:
        print("not checked: there is no built program (--program SHADOWD)")
        return NO_FORM if blueprint.clashes else DONE
    with tempfile.TemporaryDirectory() as folder:
        program = Program(path, written(folder, "bank", bank))
        if not checked(program, given.out, tables.items, blueprint, plan):
            return REFUSED
        return first_forms(program, tables, given.prior, plan)


command = as_command(main)


if __name__ == "__main__":
    sys.exit(command())
