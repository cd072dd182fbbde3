#!/usr/bin/env python3
"""Times the assembler beside GLPK, CBC, HiGHS and SYMPHONY on the same steps, and judges every proof tree. See assembly.md.

usage: assembly.py PROGRAM [--short] [--rounds N] [--only TEXT] [--seeds N] [--alone]

PROGRAM is the built program of crates/assembly_bench. --short takes few and small problems; --only those whose names have
this text; --rounds is how often each step is solved, of which the least time counts (3 without it); --seeds makes other
problems of the same kinds, N added to each seed. --alone runs no peer; the trees are judged all the same.
"""
import os
import subprocess
import sys
import tempfile
from collections import namedtuple

import peers
import problems

sys.path.insert(0, os.path.join(os.path.dirname(os.path.abspath(__file__)), "..", "tools"))
import check_tree

# one solved step: the problem as check_tree has it, the node budget, the form or None, and what the program said of it
Step = namedtuple("Step", "problem budget form microseconds nodes mark search objective item tree")
# one bank: its name, the steps of its sessions, those of sessions whose searches begin with the multipliers of the step
# before, the base forms, and for each peer what it made of the steps
Result = namedtuple("Result", "name steps warm bases peers")


def set_of(word):
    return frozenset() if word == "-" else check_tree.read_set(word.split(","))


def budgets_of(text):
    budgets = {"budget": 2001, "base-budget": 4095}
    for line in text.splitlines():
        words = line.split(" ")
        if words[0] in budgets:
            budgets[words[0]] = int(words[1])
    return budgets


def step_of(words, bank, plan, budgets):
    """The step that a line of the program tells."""
    said = dict(zip(words[1::2], words[2::2])) if words[0] == "base" else dict(zip(words[0::2], words[1::2]))
    problem = check_tree.Problem(bank, plan, int(said["theta"]), set_of(said["given"]), set_of(said["barred"]),
                                 None if said["start"] == "-" else set_of(said["start"]))
    form = None if said["form"] == "-" else set_of(said["form"])
    return Step(problem, budgets["base-budget" if words[0] == "base" else "budget"], form, float(said["microseconds"]),
                int(said["nodes"]), said["mark"], said["search"], said["objective"], said.get("item"), bytes.fromhex(said["tree"]))


def run_session(program, command, paths, answers, left_out, rounds):
    """The lines of a session, each with the least time of so many runs."""
    words = [program, command, *paths, answers, "trees"]
    if left_out:
        words += ["without", ",".join(map(str, sorted(left_out)))]
    runs = []
    for _ in range(rounds):
        done = subprocess.run(words, stdout=subprocess.PIPE, check=True)
        runs.append([line.split(" ") for line in done.stdout.decode().splitlines()])
    for at, line in enumerate(runs[0]):
        place = line.index("microseconds") + 1
        others = [run[at][:place] + run[at][place + 1:] for run in runs]
        if any(other != others[0] for other in others):
            raise ValueError("a run says otherwise than another: %r" % others)
        line[place] = min((run[at][place] for run in runs), key=float)
    return runs[0]


def left_out_items(rate, counts, sessions):
    """The items that were given in too great a part of the sessions before; the first sessions are let off."""
    if rate is None:
        return []
    return [i for i, n in enumerate(counts) if n * rate[1] > (sessions + 4) * rate[0]]


def run_program(program, command, problem, folder, rounds):
    """The steps of all sessions of a bank by this command of the program, and their base forms."""
    paths = [os.path.join(folder, name) for name in ("bank", "plan")]
    for path, text in zip(paths, (problem.bank, problem.plan)):
        with open(path, "w") as file:
            file.write(text)
    bank = check_tree.read_bank(paths[0])
    plan = check_tree.read_plan(paths[1], bank)
    budgets = budgets_of(problem.plan)
    counts, steps, bases = [0] * len(bank.items), [], []
    for number, answers in enumerate(problem.sessions):
        lines = run_session(program, command, paths, answers, left_out_items(problem.rate, counts, number), rounds)
        for words in lines:
            step = step_of(words, bank, plan, budgets)
            (bases if words[0] == "base" else steps).append(step)
            if words[0] != "base" and step.item != "-":
                counts[int(step.item)] += 1
    return steps, bases


# ---------------------------------------------------------------- 0-1 models

def model_of(P, links=False):
    """The 0-1 model of a problem: a column for each item, and behind them one for each stimulus; with `links` also a row
    for each item of a stimulus, which is chosen only where its stimulus is."""
    count, stimuli = len(P.bank.items), P.bank.stimuli
    lower = [1 if i in P.given else 0 for i in range(count)] + [0] * stimuli
    upper = [0 if i in P.barred else 1 for i in range(count)] + [1] * stimuli
    cost = [item.info[P.theta] for item in P.bank.items] + [0] * stimuli
    rows = [(P.plan.length, P.plan.length, [(i, 1) for i in range(count)])]
    for row in P.plan.rows:
        if row.kind == "stimuli":
            parts = [(count + s, 1) for s in range(stimuli)]
        elif row.kind == "quantity":
            parts = [(i, P.bank.items[i].quantities[row.attribute]) for i in sorted(row.members)]
        else:
            parts = [(i, 1) for i in sorted(row.members)]
        parts = [(column, each) for column, each in parts if each]
        rows.append((row.low, min(row.high, sum(each for _, each in parts)), parts))
    for s in range(1, stimuli + 1):
        members = [(i, 1) for i in range(count) if P.bank.items[i].stimulus == s]
        low, high = P.plan.bounds[s - 1]
        rows.append((0, len(members), members + [(count + s - 1, -low)]))
        rows.append((-len(members), 0, members + [(count + s - 1, -min(high, len(members)))]))
        rows += [(0, 1, [(count + s - 1, 1), (item, -1)]) for item, _ in members if links]
    return peers.Model(lower, upper, cost, rows)


# ---------------------------------------------------------------- judging

def judge(step):
    """What is wrong with a step's tree, or None."""
    P, X = step.problem, step.form
    try:
        vectors, nodes, used = check_tree.read_tree(step.tree)
    except check_tree.Fault as fault:
        return str(fault)
    said = check_tree.verdict(P, X, vectors, nodes)
    if used != len(step.tree) or len(nodes) != step.nodes:
        return "%d nodes in %d bytes" % (len(nodes), used)
    if X is not None and str(check_tree.objective(P, X)) != step.objective:
        return "the objective is %d" % check_tree.objective(P, X)
    if step.mark == "proved":
        return None if said == ("NoForm" if X is None else "Optimal") else said
    if not said.startswith("Partial"):
        return said
    return None if check_tree.spent(P, nodes, step.budget) else "not spent"


def compare(step, solved):
    """What is wrong beside a peer's answer, or None."""
    P, form = step.problem, frozenset(i for i in solved.ones if i < len(step.problem.bank.items))
    if not solved.optimal:
        return None
    if not check_tree.is_form(P, form):
        return "the peer's answer is no form"
    best = check_tree.objective(P, form)
    if step.form is None or step.mark == "proved" and best != int(step.objective) or best < int(step.objective):
        return "objective %s, the peer's is %d" % (step.objective, best)
    return None


# ---------------------------------------------------------------- the table

TIMES = ["Median", "95th in 100", "Greatest", "Mean"]


def milliseconds(times):
    """Median, the 95th in a hundred, the greatest and the mean."""
    ordered = sorted(times)
    at = [ordered[len(ordered) // 2], ordered[-(-95 * len(ordered) // 100) - 1], ordered[-1], sum(ordered) / len(ordered)]
    return ["%.2f" % (t / 1000) for t in at]


def mean(numbers):
    return sum(numbers) / len(numbers)


def own_times(result):
    return [step.microseconds for step in result.steps]


def cells_of_assembler(result):
    nodes = sorted(step.nodes for step in result.steps)
    everything = result.steps + result.warm
    return [str(len(nodes)), *milliseconds(own_times(result)), str(nodes[len(nodes) // 2]), "%.1f" % mean(nodes), str(nodes[-1]),
            str(sum(step.mark != "proved" for step in everything)),
            str(sum(step.search == "fallback" for step in everything + result.bases))]


def cells_of_warm(result):
    warm = [step.microseconds for step in result.warm]
    return [*milliseconds(warm), "%.1f" % mean([step.nodes for step in result.warm]), "%.2f" % (mean(warm) / mean(own_times(result)))]


def cells_of_peer(result, name):
    solved = result.peers[name]
    times = [s.microseconds for s in solved]
    return [*milliseconds(times), "%.2f" % (mean(times) / mean(own_times(result))), str(sum(not s.optimal for s in solved))]


# GLPK on banks of many passages, with the links of items to their stimuli in its model
WITH_LINKS = "GLPK with links"

# rows that take several banks together
GROUPS = (
    ("all drills", lambda name: name.startswith("drill")),
    ("larger, no stimuli", lambda name: name.endswith(", 0 stimuli")),
    ("larger, stimuli", lambda name: name.endswith("stimuli") and not name.endswith(", 0 stimuli")),
    ("passages", lambda name: name.endswith("passages")),
)


def together(name, group, names):
    shared = [peer for peer in names if all(peer in r.peers for r in group)]
    solved = {peer: [s for r in group for s in r.peers[peer]] for peer in shared}
    return Result(name, [s for r in group for s in r.steps], [s for r in group for s in r.warm],
                  [s for r in group for s in r.bases], solved)


def print_table(title, heads, rows):
    print("### %s\n" % title)
    for cells in [["Bank", *heads], ["---"] * (len(heads) + 1), *rows]:
        print("| " + " | ".join(cells) + " |" if cells[0] != "---" else "|" + "---|" * len(cells))
    print()


def table(results, names):
    """One table of the assembler, one of warm searches and one of each peer, with one number in each cell."""
    groups = [(name, [r for r in results if belongs(r.name)]) for name, belongs in GROUPS]
    rows = results + [together(name, group, names) for name, group in groups if len(group) > 1]
    print_table("The assembler", ["Steps", *TIMES, "Nodes: median", "Mean", "Greatest", "Unproved", "Fallback"],
                [[r.name, *cells_of_assembler(r)] for r in rows])
    print_table("Warm", [*TIMES, "Nodes: mean", "Share"], [[r.name, *cells_of_warm(r)] for r in rows])
    for name in names:
        print_table(name, [*TIMES, "Ratio", "Not optimal"], [[r.name, *cells_of_peer(r, name)] for r in rows if name in r.peers])
    print("Times are of a step, in milliseconds. A ratio is the mean of the peer by that of the assembler. Fallback is how often the")
    print("fallback search was called. Warm are sessions whose searches begin with the multipliers of the step before; the share is")
    print("their mean time by that of the others.")


def measure(program, problem, commands, folder, rounds):
    steps, bases = run_program(program, "steps", problem, folder, rounds)
    warm, _ = run_program(program, "warm", problem, folder, rounds)
    models = [model_of(step.problem) for step in steps]
    solved = {}
    for name, command in commands.items():
        try:
            solved[name] = peers.solve_all(folder, command, models, rounds)
        except subprocess.CalledProcessError as ended:
            print("%s: %s ended by itself: %s" % (problem.name, name, ended.returncode), flush=True)
    if "GLPK" in commands and problem.name.endswith("passages"):
        linked = [model_of(step.problem, True) for step in steps]
        solved[WITH_LINKS] = peers.solve_all(folder, commands["GLPK"], linked, rounds)
    wrong = []
    for step in bases + steps + warm:
        said = judge(step)
        if said:
            wrong.append("%s: a tree is wrong: %s" % (problem.name, said))
    for name in solved:
        for number, (step, answer) in enumerate(zip(steps, solved[name])):
            said = compare(step, answer)
            if said:
                wrong.append("%s: step %d beside %s: %s" % (problem.name, number, name, said))
    print("%s: %d steps, %d trees judged, %d wrong" % (problem.name, len(steps), len(steps) + len(warm) + len(bases), len(wrong)), flush=True)
    return Result(problem.name, steps, warm, bases, solved), wrong


def main(words):
    rounds, short, only, shift, alone, plain = 3, False, "", 0, False, []
    while words:
        word = words.pop(0)
        if word == "--short":
            short = True
        elif word == "--alone":
            alone = True
        elif word in ("--rounds", "--only") and words:
            rounds, only = (int(words.pop(0)), only) if word == "--rounds" else (rounds, words.pop(0))
        elif word == "--seeds" and words:
            shift = int(words.pop(0))
        else:
            plain.append(word)
    if len(plain) != 1:
        print(__doc__)
        return 2
    results, wrong = [], []
    with tempfile.TemporaryDirectory() as folder:
        commands = {} if alone else peers.all_peers(folder)
        for problem in problems.all_problems(short, shift):
            if only in problem.name:
                result, faults = measure(plain[0], problem, commands, folder, rounds)
                results.append(result)
                wrong += faults
    print()
    table(results, list(commands) + [name for name in [WITH_LINKS] if any(name in r.peers for r in results)])
    if not {"GLPK", "CBC"} <= set(commands):
        print("GLPK or CBC is missing: this is no result to publish.")
    for fault in wrong:
        print(fault)
    print("%d trees judged, %d faults" % (sum(len(r.steps) + len(r.warm) + len(r.bases) for r in results), len(wrong)))
    return 1 if wrong else 0


if __name__ == "__main__":
    if sys.argv[1:] == ["--help"]:
        sys.exit(print(__doc__))
    sys.exit(main(sys.argv[1:]))
