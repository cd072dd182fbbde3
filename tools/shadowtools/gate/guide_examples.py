"""Runs the built program on the examples of docs/PLAN_GUIDE.md, as the page has them.

    tools/guide_examples.py PROGRAM

Each whole plan must be taken by `check`, and what `check` prints of it must be taken again and give the same bytes. Each example of the
table of messages must give its message with status 4. The last line is 'N passed, M failed'.
"""
import os
import re
import subprocess
import sys
import tempfile

from shadowtools.command import as_command
from shadowtools.places import TOP

PAGE = os.path.join(TOP, "docs", "PLAN_GUIDE.md")
# The sections whose examples are for bank P.
OF_BANK_P = ("A sum", "Passages")
LEAST = ["length 3", "prior 0 0 0"]


def examples(text):
    """The two banks, the plans each with the number of its bank, and the lines of each message."""
    banks, plans, messages, section = [], [], [], ""
    blocks = re.finditer(r"^## (?P<head>[^\n]*)$|^```(?P<kind>\w*)\n(?P<body>.*?)^```$|^\| `(?P<message>plan: [^`]*)` \| (?P<lines>[^|]*) \|", text, re.M | re.S)
    for it in blocks:
        if it["head"] is not None:
            section = it["head"]
        elif it["message"] is not None:
            messages.append((it["message"], re.findall(r"`([^`]*)`", it["lines"])))
        elif it["kind"] == "csv":
            banks.append(it["body"])
        else:
            plans.append((1 if section.startswith(OF_BANK_P) else 0, it["body"]))
    return banks, plans, messages


def changed(lines):
    """The least plan with these lines, each in the place of one with the same first letters or after all."""
    plan = {it[:3]: [it] for it in LEAST}
    for line in lines:
        if line[:3] in ("len", "pri"):
            plan[line[:3]] = [line]
        else:
            plan.setdefault("more", []).append(line)
    return "".join(f"{line}\n" for it in plan.values() for line in it)


def main(words):
    if len(words) != 1:
        print(__doc__)
        return 2
    banks, plans, messages = examples(open(PAGE, encoding="utf-8").read())
    passed = failed = 0
    with tempfile.TemporaryDirectory() as folder:

        def check(bank, plan):
            for name, text in (("bank", bank), ("plan", plan)):
                with open(os.path.join(folder, name), "w", encoding="utf-8", newline="") as file:
                    file.write(text)
            asked = [os.path.abspath(words[0]), "check", "bank", "plan"]
            ran = subprocess.run(asked, cwd=folder, stdin=subprocess.DEVNULL, capture_output=True, text=True, timeout=60)
            return ran.returncode, ran.stdout

        for number, plan in plans:
            status, said = check(banks[number], plan)
            again = check(banks[number], said.partition("\n")[2])
            if status == 0 and said.startswith("bank items 6 ") and again == (0, said):
                passed += 1
            else:
                failed += 1
                print(f"not taken, or not the same again: {plan!r}: status {status}, {said!r}, {again!r}")
        for message, lines in messages:
            found = check(banks[0], changed(lines))
            if found == (4, f"{message}\n"):
                passed += 1
            else:
                failed += 1
                print(f"{changed(lines)!r} gave {found!r}, and the page says {message!r}")
    if not (len(banks) == 2 and plans and messages):
        failed += 1
        print("the page has no two banks, no plan or no table of messages")
    print(f"{passed} passed, {failed} failed")
    return 1 if failed else 0


command = as_command(main)


if __name__ == "__main__":
    sys.exit(command())
