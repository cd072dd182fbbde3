#!/usr/bin/env python3
"""Assembles forms of plans whose bounds were moved, without a base form, and judges every proof tree. See assembly.md.

usage: changed_plans.py PROGRAM [COUNT]

PROGRAM is the built program of crates/assembly_bench. It makes COUNT plans (60 without it) from those of the drills and of the
larger banks with stimuli: bounds of counts, quantities and stimuli are moved by a fixed recurrence, and the base form is left
out. Many of these plans have no form, or are hard. The program looks for the base form within 501 nodes, and then serves one
step. A line for each plan has its number, its bank, and the mark, the nodes and the verdict on the tree of each search. The
last line has the sums. The status is 1 where a tree is not what its mark says.
"""
import os
import subprocess
import sys
import tempfile

import assembly
import check_tree
import problems

BUDGET = 501
SECONDS = 120


def moved(words, draws):
    """The words of a line of the plan with other bounds, or None where the line goes."""
    if words[0] == "base":
        return None
    if words[0] == "base-budget":
        return ["base-budget", str(BUDGET)]
    if words[0] == "quantity" and draws.next() % 10 < 7:
        high = int(words[3]) * draws.some(1, [3, 6, 8, 9, 10])[0] // 10
        low = min(int(words[2]), high) if draws.next() % 2 else max(0, high - draws.between(0, 29))
        return words[:2] + [str(low), str(high)] + words[4:]
    if words[0] == "count" and draws.next() % 10 < 3:
        low = max(0, int(words[1]) + draws.between(-1, 2))
        return ["count", str(low), str(max(low, int(words[2]) + draws.between(-1, 1)))] + words[3:]
    if words[0] == "stimuli" and draws.next() % 10 < 6:
        low = draws.between(0, 3)
        return ["stimuli", str(low), str(low + draws.between(0, 2))]
    if words[0] == "stimulus" and draws.next() % 10 < 3:
        low = draws.between(1, 4)
        return words[:2] + [str(low), str(low + draws.between(0, 2))]
    return words


def has_some_stimuli(name):
    return name.startswith("drill") or name.endswith("stimuli") and not name.endswith(", 0 stimuli")


def searches(program, problem, text, folder):
    """The searches of the program on a bank and a plan; None where it took too long."""
    paths = [os.path.join(folder, name) for name in ("bank", "plan")]
    for path, content in zip(paths, (problem.bank, text)):
        with open(path, "w") as file:
            file.write(content)
    bank = check_tree.read_bank(paths[0])
    plan = check_tree.read_plan(paths[1], bank)
    words = [program, "steps", *paths, problem.sessions[0][:1], "trees"]
    try:
        done = subprocess.run(words, stdout=subprocess.PIPE, stderr=subprocess.DEVNULL, timeout=SECONDS)
    except subprocess.TimeoutExpired:
        return None
    lines = [line.split(" ") for line in done.stdout.decode().splitlines()]
    return [assembly.step_of(line, bank, plan, assembly.budgets_of(text)) for line in lines if "tree" in line]


def fault_of(step):
    """What is wrong with a tree, or None. A plan without a form has the mark `noform`."""
    said = assembly.judge(step)
    return None if step.mark == "noform" and said == "NoForm" else said


def main(words):
    if len(words) not in (1, 2):
        print(__doc__)
        return 2
    kinds = [problem for problem in problems.all_problems(False, 0) if has_some_stimuli(problem.name)]
    draws = problems.Draws(1)
    sums = {"nodes": 0, "seconds": 0.0, "unproved": 0, "fallback": 0, "late": 0, "faults": 0}
    for number in range(int(words[1]) if len(words) == 2 else 60):
        problem = kinds[draws.next() % len(kinds)] if draws.next() % 2 else problems.drill(draws.next() % 1000000, 1)
        lines = [moved(line.split(" "), draws) for line in problem.plan.splitlines()]
        text = "".join(" ".join(line) + "\n" for line in lines if line)
        with tempfile.TemporaryDirectory() as folder:
            found = searches(words[0], problem, text, folder)
        sums["late"] += found is None
        faults = [fault_of(step) for step in found or []]
        for step, fault in zip(found or [], faults):
            sums["nodes"] += step.nodes
            sums["seconds"] += step.microseconds / 1e6
            sums["unproved"] += step.mark in ("unproved", "none")
            sums["fallback"] += step.search == "fallback"
            sums["faults"] += fault is not None
        said = ", ".join("%s %d %s" % (step.mark, step.nodes, fault or "sound") for step, fault in zip(found or [], faults))
        print("%d: %s: %s" % (number, problem.name, said or "late"), flush=True)
    print(" ".join("%s %s" % (name, "%.1f" % value if name == "seconds" else value) for name, value in sums.items()))
    return 1 if sums["faults"] else 0


if __name__ == "__main__":
    if sys.argv[1:] == ["--help"]:
        sys.exit(print(__doc__))
    sys.exit(main(sys.argv[1:]))
