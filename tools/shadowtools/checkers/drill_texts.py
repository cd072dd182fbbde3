"""Writes the bank, the plan and the script of a drill.

usage: drill_texts.py NUMBER SESSIONS FOLDER

NUMBER is 0 to 4294967295, SESSIONS is 1 to 200. The files are `bank.csv`, `plan.txt` and `script.txt` in FOLDER, which is made if
it is missing. It shares no text with the product: it is written from the rules of the drill alone (docs/FORMATS.md),
so that the texts of crate bank_maker have a second source. Exit status: 0, or 2 for a faulty command line.
"""
import os
import sys
from typing import Sequence

from shadowtools.command import as_command

ITEMS = range(120)
POINTS = range(11)


def draws(number):
    """The draws of a number, without end: a linear congruential generator of 64 bits."""
    state = number
    while True:
        state = (state * 6364136223846793005 + 1442695040888963407) % 2**64
        yield state // 2**33


def draw_items(draw):
    """Peak, height and quantity of each item."""
    return [(next(draw) % 11, 200 + next(draw) % 801, 30 + next(draw) % 91) for _ in ITEMS]


def bank_text(items: list) -> str:
    header = ["item", "stimulus", "categories", "q0"]
    header += [f"i{g}" for g in POINTS]
    header += [f"l{r}_{g}" for r in (0, 1) for g in POINTS]
    records = [header]
    for i, (peak, height, quantity) in enumerate(items):
        stimulus = 1 + i // 5 if i < 30 else 0
        info = [max(0, height - 60 * abs(g - peak)) for g in POINTS]
        wrong = [-(50 + 40 * max(0, g - peak)) for g in POINTS]
        right = [-(50 + 40 * max(0, peak - g)) for g in POINTS]
        records.append([i, stimulus, 2, quantity] + info + wrong + right)
    return "".join(",".join(map(str, record)) + "\n" for record in records)


def set_text(items: Sequence[int]) -> str:
    """A set of items as its maximal runs."""
    runs = []
    for i in sorted(items):
        if runs and runs[-1][1] == i - 1:
            runs[-1][1] = i
        else:
            runs.append([i, i])
    return " ".join(f"{low}" if low == high else f"{low}-{high}" for low, high in runs)


def plan_text(number: int, sessions: int, items: list) -> str:
    high = sum(items[i][2] for i in range(30, 50)) + 50
    lines = ["length 20", "prior " + " ".join(str(-20 * (g - 5) ** 2) for g in POINTS), "rate 1 4"]
    lines += ["key " + number.to_bytes(8, "big").hex() * 4]
    lines += ["budget 501", "base-budget 4095", f"sessions {sessions}", "journal 536870912"]
    lines += ["count 3 5 " + set_text(i for i in ITEMS if i % 5 == c) for c in range(5)]
    lines += [f"quantity 0 600 {high} " + set_text(ITEMS)]
    lines += ["enemies " + set_text([50 + 2 * k, 51 + 2 * k]) for k in range(10)]
    lines += ["stimuli 0 2"]
    lines += [f"stimulus {s} 2 4" for s in range(1, 7)]
    lines += ["base " + set_text(range(30, 50))]
    return "".join(line + "\n" for line in lines)


def script_text(sessions, draw):
    lines = []
    for first in range(0, sessions, 10):
        group = range(first, min(first + 10, sessions))
        lines += [f"begin {s + 1}" for s in group]
        for step in range(20):
            for s in group:
                if s < sessions - 1 or step < 10:
                    lines.append(f"answer {s} {step} {next(draw) % 2}")
                elif step == 10:
                    lines.append(f"close {s}")
    return "".join(line + "\n" for line in lines)


def number_in(word: str, low: int, high: int) -> int:
    if not (word.isascii() and word.isdigit() and (word == "0" or word[0] != "0") and low <= int(word) <= high):
        raise ValueError(word)
    return int(word)


def main(words: Sequence[str]) -> int:
    try:
        number, sessions, folder = words
        number, sessions = number_in(number, 0, 2**32 - 1), number_in(sessions, 1, 200)
    except ValueError:
        print("usage: drill_texts.py NUMBER SESSIONS FOLDER", file=sys.stderr)
        return 2
    draw = draws(number)
    items = draw_items(draw)
    texts = {
        "bank.csv": bank_text(items),
        "plan.txt": plan_text(number, sessions, items),
        "script.txt": script_text(sessions, draw),
    }
    os.makedirs(folder, exist_ok=True)
    for name, text in texts.items():
        with open(os.path.join(folder, name), "w", newline="") as file:
            file.write(text)
    return 0


command = as_command(main)


if __name__ == "__main__":
    sys.exit(command())
