#!/usr/bin/env python3
"""Times the search for series of forms beside free solvers on the same models.

usage: series.py PROGRAM [--plain] [--short] [--seconds N] [--kept FILE] [--alone] [--only WORD]
       series.py --peers [--short] [--seconds N] --kept FILE [--only WORD]

PROGRAM is the built shadowd or series_bench. The problems are those of problems.py and of examples/ with one to four forms: small
banks, the drill's, larger banks, and passages, with one, three or five points of equal weight. Each peer that is installed solves
the same 0-1 model (a column for each item and form, one for the value) for at most N seconds (default 60), and may stop below one
unit of the value: GLPK (`glpsol`), CBC (`cbc`) and SYMPHONY (`symphony`) on a file in the LP format, HiGHS by
`scipy.optimize.milp`. All seconds are those of a processor, also the N: a peer is shown a clock that goes with its own work (a small
library made by gcc), so that it has N seconds on a busy machine, too. A peer's seconds have the reading of its file. Where ours took
more than 1.1 times as many by the clock, these follow in brackets.

With --plain series_bench makes trees without the rule of the pool and without branches on use: each vector is judged form by form.
The trees of shadowd have both. Without --plain series_bench has thresholds too, some of which it cuts to 32 bits, and
check_series.py refuses such a tree.

FILE keeps what peers found, by the digest of the model. With --peers they alone run, and with --alone
none of them, so that both need not run at the same time.
--only takes the problems whose name has the word. Every tree is judged by tools/check_series.py. Exit status: 0, or 1 where a tree
or a value is wrong.
"""
import hashlib
import json
import os
import re
import resource
import shutil
import subprocess
import sys
import tempfile
import time
from collections import namedtuple

HERE = os.path.dirname(os.path.abspath(__file__))
sys.path.insert(0, os.path.join(HERE, "..", "tools"))

import check_series  # noqa: E402
import check_tree  # noqa: E402
import problems  # noqa: E402

# A value (None where none was found), whether it is said to be best, or that there is none; seconds of a processor, and by the clock.
Found = namedtuple("Found", "value proved seconds clock")
# The columns are numbers from 0; rows are (low, high, [(column, coefficient)]), where a bound may be None.
Model = namedtuple("Model", "columns value rows")
# `weighed` are the grid points of weight 1; `peers` are the names of those that try the problem.
Case = namedtuple("Case", "name bank plan count weighed peers")


# ---------------------------------------------------------------- the model of the peers

def model_of(P):
    """The model of a series: a column for each form and item, for each form and stimulus, and for the value."""
    items, stimuli = len(P.bank.items), P.bank.stimuli
    size = items + stimuli
    value, rows = P.count * size, []
    for f in range(P.count):
        first = f * size
        rows.append((P.plan.length, P.plan.length, [(first + i, 1) for i in range(items)]))
        for row in P.plan.rows:
            if row.kind == "stimuli":
                parts = [(first + items + s, 1) for s in range(stimuli)]
            else:
                each = lambda i: P.bank.items[i].quantities[row.attribute] if row.kind == "quantity" else 1  # noqa: E731
                parts = [(first + i, each(i)) for i in sorted(row.members)]
            rows.append((row.low, row.high, parts))
        for s, (low, high) in enumerate(P.plan.bounds):
            members = [(first + i, 1) for i, item in enumerate(P.bank.items) if item.stimulus == s + 1]
            rows.append((0, None, members + [(first + items + s, -low)]))
            rows.append((None, 0, members + [(first + items + s, -high)]))
            rows += [(0, None, [(first + items + s, 1), (column, -1)]) for column, _ in members]
        for g, weight in enumerate(P.weights):
            if weight:
                parts = [(first + i, weight * item.info[g]) for i, item in enumerate(P.bank.items)]
                rows.append((0, None, parts + [(value, -1)]))
    rows += [(None, 1, [(f * size + i, 1) for f in range(P.count)]) for i in range(items) if P.count > 1]
    return Model(value + 1, value, [(low, high, [part for part in parts if part[1]]) for low, high, parts in rows])


def lp_text(model):
    """The model in the LP format of CPLEX."""
    lines = ["Maximize", f" obj: x{model.value}", "Subject To"]
    for low, high, parts in model.rows:
        if not parts:
            continue
        left = " ".join(f"{'+' if c > 0 else '-'} {abs(c)} x{column}" for column, c in parts)
        if low is not None and low == high:
            lines.append(f" {left} = {low}")
            continue
        lines += [f" {left} >= {low}"] * (low is not None) + [f" {left} <= {high}"] * (high is not None)
    lines += ["Bounds", f" 0 <= x{model.value}", "Binary"]
    return "\n".join(lines + [f" x{column}" for column in range(model.columns) if column != model.value] + ["End", ""])


# ---------------------------------------------------------------- the peers

# A clock that goes with the process's own work, for peers that count their limit by the clock.
CLOCK = r"""
#define _GNU_SOURCE
#include <sys/resource.h>
#include <sys/time.h>
#include <time.h>
static void used(struct timeval *at) {
  struct rusage u;
  getrusage(RUSAGE_SELF, &u);
  timeradd(&u.ru_utime, &u.ru_stime, at);
  at->tv_sec += 1700000000;
}
int clock_gettime(clockid_t clock, struct timespec *at) {
  struct timeval now;
  (void)clock;
  used(&now);
  at->tv_sec = now.tv_sec;
  at->tv_nsec = now.tv_usec * 1000;
  return 0;
}
int gettimeofday(struct timeval *at, void *zone) {
  (void)zone;
  used(at);
  return 0;
}
time_t time(time_t *at) {
  struct timeval now;
  used(&now);
  if (at) *at = now.tv_sec;
  return now.tv_sec;
}
"""


def made_clock(folder):
    """The path of the library with the clock."""
    path = os.path.join(folder, "clock.so")
    subprocess.run(["gcc", "-shared", "-fPIC", "-O1", "-xc", "-", "-o", path], input=CLOCK, text=True, check=True)
    return path


def child(words, limit, clock=None):
    """Standard output of a command, and the seconds that it took of a processor and by the clock. A peer ends at the latest after so
    many seconds of a processor; others after so many by the clock."""
    before, begin = resource.getrusage(resource.RUSAGE_CHILDREN), time.monotonic()
    if clock:
        words = ["prlimit", f"--cpu={limit}", "env", f"LD_PRELOAD={clock}", *words]
    else:
        words = ["timeout", "-s", "INT", str(limit), *words]
    done = subprocess.run(words, stdin=subprocess.DEVNULL, capture_output=True, text=True)
    after, end = resource.getrusage(resource.RUSAGE_CHILDREN), time.monotonic()
    return done.stdout, (after.ru_utime + after.ru_stime - before.ru_utime - before.ru_stime, end - begin)


def number_in(pattern, text):
    """The last number that the pattern finds, rounded: a peer's value is whole but for its tolerances."""
    found = re.findall(pattern, text, re.M)
    return round(abs(float(found[-1]))) if found else None


def glpk(path, seconds, gap, clock):
    text, took = child(["glpsol", "--lp", path, "--tmlim", str(seconds), "--mipgap", f"{gap:.9f}"], seconds + 60, clock)
    value = number_in(r">>>>>\s+(\S+)\s+<=", text) or number_in(r"mip =\s+([0-9.e+]+)\s+<=", text)
    none = re.search(r"HAS NO (INTEGER |PRIMAL )?FEASIBLE SOLUTION", text) is not None
    return Found(value, "INTEGER OPTIMAL" in text or "GAP TOLERANCE REACHED" in text or none, *took)


def cbc(path, seconds, gap, clock):
    text, took = child(["cbc", path, "ratioGap", "0", "allowableGap", "0.999", "sec", str(seconds), "solve"], seconds + 60, clock)
    none = re.search(r"^(Result - )?Problem (proven )?(is )?infeasible", text, re.M) is not None
    value = None if none or "No feasible solution found" in text else number_in(r"^Objective value:\s+(\S+)", text)
    return Found(value, "Optimal solution found" in text or none, *took)


def symphony(path, seconds, gap, clock):
    text, took = child(["symphony", "-L", path, "-t", str(seconds), "-p", "0"], seconds + 60, clock)
    none = "Problem Infeasible" in text or "Problem Found Infeasible" in text
    return Found(None if none else number_in(r"Solution Cost:\s+(\S+)", text), "Optimal Solution Found" in text or none, *took)


HIGHS = """
import json, resource, sys
import numpy as np
from scipy.optimize import Bounds, LinearConstraint, milp
from scipy.sparse import csr_matrix
columns, value, rows, seconds, gap = json.load(open(sys.argv[1]))
at = [(r, c, a) for r, (_, _, parts) in enumerate(rows) for c, a in parts]
matrix = csr_matrix(([a for _, _, a in at], ([r for r, _, _ in at], [c for _, c, _ in at])), shape=(len(rows), columns))
low = np.array([-np.inf if row[0] is None else row[0] for row in rows])
high = np.array([np.inf if row[1] is None else row[1] for row in rows])
cost, upper, whole = np.zeros(columns), np.ones(columns), np.ones(columns)
cost[value], upper[value], whole[value] = -1, np.inf, 0
begin = resource.getrusage(resource.RUSAGE_SELF)
got = milp(cost, integrality=whole, bounds=Bounds(np.zeros(columns), upper), constraints=LinearConstraint(matrix, low, high),
           options=dict(time_limit=seconds, mip_rel_gap=gap))
end, value = resource.getrusage(resource.RUSAGE_SELF), None if got.x is None else round(-got.fun)
print(json.dumps([value, got.status in (0, 2), end.ru_utime + end.ru_stime - begin.ru_utime - begin.ru_stime]))
"""


def highs(path, seconds, gap, clock):
    text, took = child(["/usr/bin/python3", "-c", HIGHS, path + ".json"], seconds + 120, clock)
    value, proved, seconds = json.loads(text)
    return Found(value, proved, seconds, took[1])


PEERS = {"GLPK": glpk, "CBC": cbc, "SYMPHONY": symphony, "HiGHS": highs}
COMMANDS = {"GLPK": "glpsol", "CBC": "cbc", "SYMPHONY": "symphony", "HiGHS": "/usr/bin/python3"}
ALL, BEST_TWO = tuple(PEERS), ("CBC", "HiGHS")


def solved(P, names, seconds, kept, folder, is_tried=True):
    """What each of these peers finds, or what FILE has of the same model and the same seconds; no other is tried unless `is_tried`."""
    model, found = model_of(P), {}
    text = lp_text(model)
    digest = hashlib.sha256(text.encode("ascii")).hexdigest()[:16]
    path, gap = os.path.join(folder, "model.lp"), 0.999 / max(1, most_of_each(P))
    for name in names:
        key = f"{name} {seconds} {digest}"
        if is_tried and key not in kept and shutil.which(COMMANDS[name]):
            with open(path, "w", encoding="ascii") as file:
                file.write(text)
            with open(path + ".json", "w", encoding="ascii") as file:
                json.dump([model.columns, model.value, model.rows, seconds, gap], file)
            kept[key] = PEERS[name](path, seconds, gap, made_clock(folder))
        found[name] = Found(*kept[key]) if kept.get(key) else None
    return found


def most_of_each(P):
    """A number that no value exceeds: the best items at each weighted point, without rules, once for each form."""
    best = []
    for g, weight in enumerate(P.weights):
        if weight:
            table = sorted((weight * item.info[g] for item in P.bank.items), reverse=True)
            best.append(sum(table[:P.count * P.plan.length]) // P.count)
    return min(best)


# ---------------------------------------------------------------- ours

def ours(program, folder, P):
    """What the program found, its nodes, and its bound; a tree that is wrong raises ValueError."""
    bank, plan = os.path.join(folder, "bank"), os.path.join(folder, "plan")
    text, took = child([*program, bank, plan, str(P.count), ",".join(map(str, P.weights))], 900)
    check_series.printed(P, in_order(text), check_series.base_budget(plan))
    words = text.split("\n")[0].split(" ")
    if words[0] != "series":
        return Found(None, "in" not in words, *took), int(words[3]) if "in" in words else 0, None
    most = re.search(r"^at most (\d+)", text, re.M)
    bound = int(most[1]) if most else int(words[3]) if words[4] == "proved" else None
    return Found(int(words[3]), words[4] == "proved", *took), int(words[6]), bound


def in_order(text):
    """The lines with the forms in the order that shadowd prints them in; series_bench has that of its search."""
    lines = text.splitlines()
    places = [k for k, line in enumerate(lines) if line.startswith("form ")]
    forms = sorted((lines[k] for k in places), key=lambda line: [int(word) for word in line.split(" ")[1:]])
    for k, form in zip(places, forms):
        lines[k] = form
    return "\n".join(lines) + "\n"


def contradicts(mine, most, peer):
    """Whether a peer's value is above what a tree of ours allows, or both claim what can't both be."""
    if peer is None:
        return False
    if mine.value is None or peer.value is None:
        return mine.proved and peer.value is not None and mine.value is None or peer.proved and peer.value is None and mine.value is not None
    above = most is not None and peer.value > most
    return above or mine.proved and peer.proved and peer.value != mine.value


# ---------------------------------------------------------------- the problems

def weighed(grid, points):
    """So many points about the middle of the grid, two apart."""
    return [grid // 2 + 2 * k - (points - 1) for k in range(points)]


def coarse(text, divisor):
    """A bank with its information in a unit that is so many times as great."""
    lines = text.splitlines()
    columns = [k for k, name in enumerate(lines[0].split(",")) if re.fullmatch(r"i\d+", name)]
    for at, line in enumerate(lines[1:], 1):
        cells = line.split(",")
        for k in columns:
            cells[k] = str((2 * int(cells[k]) + divisor) // (2 * divisor))
        lines[at] = ",".join(cells)
    return "\n".join(lines) + "\n"


def example(name):
    """Bank and plan of an example."""
    texts = []
    for end in (".bank.csv", ".plan.txt"):
        with open(os.path.join(HERE, "..", "examples", name, name + end), encoding="utf-8", newline="") as file:
            texts.append(file.read())
    return texts


def small(items, length):
    """A bank of few items in three subjects, whose plan bounds each subject by its share, and a sum loosely; with two pairs of enemies."""
    draws, rows, kinds = problems.Draws(items), [], []
    for _ in range(items):
        place, height, words = draws.between(0, 10), draws.between(200, 1000), draws.between(30, 120)
        kinds.append(draws.between(0, 2))
        rows.append((0, [words], [max(0, height - 60 * abs(g - place)) for g in range(11)], [-1] * 11, [-1] * 11))
    plan, middle = [f"length {length}", "prior" + " 0" * 11], length * sum(row[1][0] for row in rows) // items
    for kind in range(3):
        members = [i for i in range(items) if kinds[i] == kind]
        least = length * len(members) // items
        plan.append(f"count {least} {least + 1} {problems.set_words(members)}")
    plan += [f"quantity 0 {middle - middle // 4} {middle + middle // 4} 0-{items - 1}"]
    plan += ["enemies " + " ".join(map(str, sorted(draws.some(2, range(items))))) for _ in range(2)]
    return f"{items} items", problems.bank_text(rows, 1, 11), "\n".join(plan) + "\n"


def larger(items, length, rows, stimuli=0, divisor=10):
    """A bank of problems.py: the unit of information is such that an item has at most 10,000 / `divisor`."""
    made = problems.Larger(items + stimuli, items, length, rows, stimuli).problem(1)
    return f"{items} items" + (f", {stimuli} stimuli" if stimuli else "") + (", 1/100" if divisor == 100 else ""), coarse(made.bank, divisor), made.plan


def passages(items, rows, stimuli):
    made = problems.Passages(items + rows, items, rows, stimuli).problem(1)
    return f"{items} items, {stimuli} passages", coarse(made.bank, 10), made.plan


def cases(short):
    """Problems with the number of forms, the points that have a weight, and the peers that try them."""
    drill, bank_l = problems.drill(7, 1), problems.twelve_categories()
    drill, bank_l = ("drill 7", drill.bank, drill.plan), ("bank L", bank_l.bank, bank_l.plan)

    def made(one, counts, points=3, peers=ALL, grid=11):
        name = one[0] + (f", {points} points" if points != 3 else "")
        return [Case(name, one[1], one[2], count, weighed(grid, points), peers) for count in counts]

    if short:
        return made(drill, (1, 2)) + made(small(16, 4), (2,))
    found = [Case("knowledge", *example("knowledge"), 2, (15, 20, 25), ALL), Case("aggression", *example("aggression"), 2, (16, 22, 28), ALL)]
    found += made(small(16, 4), (1, 2, 3, 4)) + made(small(24, 5), (2, 3)) + made(small(32, 7), (2, 3))
    found += made(drill, (1, 2)) + made(drill, (3, 4), peers=BEST_TWO) + made(drill, (2,), 1) + made(drill, (2,), 5)
    found += made(larger(64, 10, 20), (1, 2)) + made(larger(64, 10, 20), (3, 4), peers=BEST_TWO)
    found += made(larger(128, 20, 30), (1, 2)) + made(larger(128, 20, 30), (3, 4), peers=BEST_TWO)
    found += made(larger(128, 20, 30), (2,), 1) + made(larger(128, 20, 30), (2,), 5, BEST_TWO)
    found += made(larger(256, 25, 30), (4,), peers=BEST_TWO) + made(larger(256, 25, 30, divisor=100), (4,), peers=BEST_TWO)
    found += made(larger(512, 30, 60), (4,), peers=BEST_TWO) + made(larger(512, 30, 60, divisor=100), (4,), peers=BEST_TWO)
    found += made(bank_l, (2,), grid=7) + made(larger(128, 20, 30, 4), (1, 2), peers=BEST_TWO)
    found += made(passages(200, 20, 16), (1, 2), peers=BEST_TWO) + made(passages(400, 30, 40), (2,), peers=BEST_TWO)
    found += [Case("passages", *example("passages"), count, (20, 30, 40), BEST_TWO) for count in (1, 2)]
    return found + lost()


def lost() -> list[Case]:
    """Problems of which more is known than the program of version 0.12.0 finds or proves."""
    drill = problems.drill(201, 1)
    found = [Case("drill 201", drill.bank, drill.plan, 2, weighed(11, 3), BEST_TWO)]
    found.append(Case("32 items, 3PL", *problems.three_parameters(32, 201, 7, 3, 2, 4), 4, (1, 2, 3), BEST_TWO))
    for items, seed in ((36, 11), (40, 2)):
        found.append(Case(f"{items} items, 2PL, 5 points", *problems.two_parameters(items, seed), 2, range(5), BEST_TWO))
    return found


# ---------------------------------------------------------------- the table

def cell(found, has_clock=False):
    """Value and seconds of a processor, and perhaps by the clock."""
    if found is None:
        return "-"
    mark = "p " if found.proved else ""
    clock = f" ({found.clock:.1f})" if has_clock and found.clock > 1.1 * found.seconds + 0.1 else ""
    return f"{mark}{'none' if found.value is None else found.value}, {found.seconds:.2f}{clock}"


def problem_of(case, folder):
    """The problem of a case, whose texts are written into the folder."""
    for name, text in (("bank", case.bank), ("plan", case.plan)):
        with open(os.path.join(folder, name), "w", encoding="utf-8") as file:
            file.write(text)
    bank = check_tree.read_bank(os.path.join(folder, "bank"))
    plan = check_tree.read_plan(os.path.join(folder, "plan"), bank)
    return check_series.Problem(bank, plan, [int(g in case.weighed) for g in range(bank.grid)], case.count)


def row_of(program, folder, case, found):
    """A line of the table, and what is wrong, if anything is."""
    P = problem_of(case, folder)
    try:
        mine, nodes, most = ours(program, folder, P)
    except (ValueError, IndexError, check_tree.Fault) as fault:
        return f"| {case.name} | {case.count} | {fault} |", str(fault)
    bad = [name for name, peer in found.items() if contradicts(mine, most, peer)]
    cells = [case.name, str(case.count), cell(mine, True), str(nodes), "-" if most is None else str(most)]
    return "| " + " | ".join(cells + [cell(found.get(name)) for name in PEERS]) + " |", ", ".join(bad)


def read_kept(path):
    if not path or not os.path.exists(path):
        return {}
    with open(path, encoding="ascii") as file:
        return json.load(file)


def write_kept(path, kept):
    if path:
        with open(path, "w", encoding="ascii") as file:
            json.dump(kept, file, indent=1)


def options(words):
    """The values of the options, and the plain words."""
    given = {"--seconds": "60", "--kept": None, "--only": ""}
    for name in given:
        if name in words:
            at = words.index(name)
            given[name] = words[at + 1]
            del words[at:at + 2]
    return given, [word for word in words if not word.startswith("--")]


def main(words):
    words = list(words)
    given, plain = options(words)
    alone = "--peers" in words
    if len(plain) != (0 if alone else 1) or alone and not given["--kept"]:
        print(__doc__, file=sys.stderr)
        return 2
    wrong, kept = 0, read_kept(given["--kept"])
    if not alone:
        program = [os.path.abspath(plain[0])] + ["series"] * (os.path.basename(plain[0]) == "shadowd") + ["plain"] * ("--plain" in words)
        print(f"| Problem | K | {os.path.basename(plain[0])}: value, s | nodes | at most | " + " | ".join(PEERS) + " |")
        print("|---" * (5 + len(PEERS)) + "|")
    with tempfile.TemporaryDirectory() as folder:
        for case in (one for one in cases("--short" in words) if given["--only"] in one.name):
            found = solved(problem_of(case, folder), case.peers, int(given["--seconds"]), kept, folder, "--alone" not in words)
            write_kept(given["--kept"], kept)
            if alone:
                print(case.name, case.count, *(f"{name}: {cell(found[name])};" for name in found), flush=True)
                continue
            line, bad = row_of(program, folder, case, found)
            print(line, flush=True)
            if bad:
                print(f"wrong: {case.name}, K {case.count}: {bad}", file=sys.stderr)
                wrong += 1
    return 1 if wrong else 0


if __name__ == "__main__":
    if sys.argv[1:] == ["--help"]:
        sys.exit(print(__doc__))
    sys.exit(main(sys.argv[1:]))
