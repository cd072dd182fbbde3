#!/usr/bin/env python3
"""Items in field test beside the knowledge example: where they come in a test, how often each is shown, and what they change.

usage: field_items.py [EXAMINEES] [PROGRAM]      default 1000, and the built shadowd

Six items with the MODEL FIELD are put after the 45 of `examples/knowledge`. Three examinations of this bank are simulated with the same
examinees and answers: 20 items with none of the six; 22 with two of the six; and 22 at an exposure rate of 2 in 3. Printed is a table
in Markdown, and whether the operational items, the answers and the mean of the posterior are the same as without them.
Needs python3-numpy.
"""
import collections
import csv
import os
import subprocess
import sys
import tempfile

TOP = os.path.dirname(os.path.dirname(os.path.abspath(__file__)))
sys.path.insert(0, os.path.join(TOP, "tools"))
from shadowtools.places import BUILT  # noqa: E402

EXAMPLE = os.path.join(TOP, "examples", "knowledge")
FIELD = [f"F{k}" for k in range(1, 7)]
ONE_BY_ONE = ["--through", "serve", "--clients", "1"]     # so that the draws of a session see all sessions before it
KEY = "00112233445566778899aabbccddeeff" * 2
RULES = {"none": (20, 0, []), "two of six": (22, 2, []), "two of six, rate 2/3": (22, 2, ["--rate", "2", "3", "--key", KEY])}


def write_tables(folder):
    """The example's tables with the items in field test. Each rule on content speaks of the operational items alone."""
    with open(os.path.join(EXAMPLE, "items.csv"), encoding="utf-8") as file, open(f"{folder}/items.csv", "w", encoding="utf-8") as out:
        text = file.read()
        width = text.splitlines()[0].count(",")
        out.write(text + "".join(f"{name},FIELD{',' * (width - 1)}\n" for name in FIELD))
    with open(os.path.join(EXAMPLE, "attributes.csv"), encoding="utf-8", newline="") as file:
        head, *rows = csv.reader(file)
    with open(f"{folder}/attributes.csv", "w", encoding="utf-8", newline="") as file:
        writer = csv.writer(file)
        writer.writerow(head + ["USE"])
        writer.writerows([row + ["operational"] for row in rows])
        writer.writerows([[name] + ["NA" if column != "WORDS" else "0" for column in head[1:]] + ["field"] for name in FIELD])


def write_rules(folder, length, field):
    with open(os.path.join(EXAMPLE, "constraints.csv"), encoding="utf-8", newline="") as file:
        head, *rows = csv.reader(file)
    lb, ub = head.index("LB"), head.index("UB")
    for row in rows:
        if row[head.index("TYPE")] == "Number" and not row[head.index("CONDITION")]:
            row[lb] = row[ub] = str(length)
    added = dict(CONSTRAINT="field test", TYPE="Number", WHAT="Item", CONDITION='USE == "field"', LB=str(field), UB=str(field))
    with open(f"{folder}/constraints.csv", "w", encoding="utf-8", newline="") as file:
        csv.writer(file).writerows([head, *rows, [added.get(name, "") for name in head]])


def run(words):
    done = subprocess.run([sys.executable, os.path.join(TOP, "tools", words[0]), *words[1:]], capture_output=True, text=True)
    if done.returncode:
        sys.exit(f"{words[0]}: status {done.returncode}: {done.stderr[-600:]}")
    return done.stdout


def simulated(folder, name, examinees, program):
    """The sessions of an examination: by booking the answers with their items, and the mean of the posterior."""
    length, field, more = RULES[name]
    write_rules(folder, length, field)
    prefix = f"{folder}/exam"
    run(["irt_bank.py", *(word for table in ("items", "attributes", "constraints") for word in (f"--{table}", f"{folder}/{table}.csv")),
         "--quantity", "WORDS", "--out", prefix, "--program", program, *more])
    run(["simulate.py", prefix, "--out", f"{folder}/run", "--examinees", str(examinees), "--tails", "none", "--program", program,
         *ONE_BY_ONE])
    said = run(["score.py", f"{prefix}.bank.csv", f"{prefix}.plan.txt", f"{prefix}.map.json", "--journal", f"{folder}/run.journal",
                "--answers", f"{folder}/answers.csv", "--program", program])
    answers = collections.defaultdict(list)
    with open(f"{folder}/answers.csv", encoding="utf-8", newline="") as file:
        for row in csv.DictReader(file):
            answers[row["booking"]].append((row["item"], row["response"]))
    return {row["booking"]: (answers[row["booking"]], row["eap"]) for row in csv.DictReader(said.splitlines())}


def main(words):
    examinees, program = int(words[0]) if words else 1000, os.path.abspath(words[1] if len(words) > 1 else BUILT)
    with tempfile.TemporaryDirectory() as folder:
        write_tables(folder)
        found = {name: simulated(folder, name, examinees, program) for name in RULES}
    print("| Items in field test | " + " | ".join(f"{name} shown" for name in FIELD) + " | Their places in the test |")
    print("|---|" + "---|" * (len(FIELD) + 1))
    for name, sessions in found.items():
        shown = collections.Counter(item for answers, _ in sessions.values() for item, _ in answers)
        places = sorted({place + 1 for answers, _ in sessions.values() for place, (item, _) in enumerate(answers) if item in FIELD})
        print(f"| {name} | " + " | ".join(f"{shown[item] / examinees:.3f}" for item in FIELD) + f" | {', '.join(map(str, places)) or '-'} |")
    without = {booking: ([pair for pair in answers if pair[0] not in FIELD], eap) for booking, (answers, eap) in found["two of six"].items()}
    same = sum(without[booking] == found["none"][booking] for booking in without)
    print(f"\nOf {len(without)} examinees {same} had with two items in field test the same 20 operational items in the same order, "
          "the same answers and the same mean of the posterior as without them.")
    return 0


if __name__ == "__main__":
    if sys.argv[1:] == ["--help"]:
        sys.exit(print(__doc__))
    sys.exit(main(sys.argv[1:]))
