"""shadowd as the tools of agencies run it."""
import csv
import io
import os
import re
import subprocess
import tempfile
from dataclasses import dataclass
from typing import List, Optional, Sequence, Tuple

from shadowtools.alive import shown
from shadowtools.command import Refused
from shadowtools.formats.tables import text_of

DONE, NO_FORM, NOT_FOUND, NO_SERIES, NO_SERIES_FOUND = 0, 11, 12, 17, 18
ASSEMBLED = re.compile(r"form((?: \d+)+)\nobjective (\d+) (proved|unproved) nodes (\d+)\ntree ([0-9a-f]+)")


@dataclass(frozen=True)
class Form:
    """What `assemble` prints where it has a form."""
    items: List[int]
    objective: int
    is_proved: bool
    nodes: int
    tree: bytes


def form_of(said: str) -> Form:
    found = ASSEMBLED.fullmatch(said.strip())
    if not found:
        raise Refused(f"shadowd assemble printed {said[:60]!r}, which is no form")
    items, objective, mark, nodes, tree = found.groups()
    return Form([int(word) for word in items.split()], int(objective), mark == "proved", int(nodes), bytes.fromhex(tree))


class Program:
    """The program over one bank, with any plan."""

    def __init__(self, path: str, bank: str) -> None:
        self.path, self.bank, self.runs = path, bank, 0

    def check(self, plan: str) -> Tuple[int, str]:
        """Status and output of `check` for the text of a plan."""
        with tempfile.TemporaryDirectory() as folder:
            return run(self.path, "check", self.bank, written(folder, "plan", plan))

    def assemble(self, plan: str) -> Tuple[int, str]:
        """Status and output for the text of a plan."""
        self.runs += 1
        with tempfile.TemporaryDirectory() as folder:
            return run(self.path, "assemble", self.bank, written(folder, "plan", plan))

    def series(self, plan: str, count: int) -> Tuple[int, str]:
        """Status and output of `series` for the text of a plan and so many forms, in a bank whose items all inform alike.

        Whether there is a series does not depend on the information. With equal information any series is best, so the search
        ends with the first that it finds. A tree that shows that there is none is one for the bank itself, too."""
        self.runs += 1
        bank, points = alike(text_of(self.bank))
        with tempfile.TemporaryDirectory() as folder:
            weights = ",".join(["1"] + ["0"] * (points - 1))
            files = written(folder, "bank", bank), written(folder, "plan", plan)
            return run(self.path, "series", *files, more=(str(count), weights))


def written(folder: str, name: str, text: str) -> str:
    """The path of a file with this text."""
    path = os.path.join(folder, name)
    with open(path, "w", encoding="utf-8", newline="\n") as file:
        file.write(text)
    return path


def alike(bank: str) -> Tuple[str, int]:
    """The text of a bank in which each item has the information 1,000 at each point, and the number of points."""
    rows = list(csv.reader(io.StringIO(bank, newline="")))
    columns = [k for k, name in enumerate(rows[0] if rows else []) if re.fullmatch(r"i\d+", name)]
    for row in rows[1:]:
        row[:] = ["1000" if k in columns else cell for k, cell in enumerate(row)]
    return "".join(",".join(row) + "\n" for row in rows), len(columns)


def run(program: str, command: str, bank: str, plan: str, journal: Optional[str] = None, more: Sequence[str] = ()) -> Tuple[int, str]:
    """Status and output of a command of shadowd; `more` are its words after bank and plan."""
    environment = dict(os.environ, SHADOWD_JOURNAL=journal) if journal else None
    try:
        with shown(f"shadowd {command}"):
            done = subprocess.run([program, command, bank, plan, *more], env=environment, stdin=subprocess.DEVNULL, capture_output=True)
    except (OSError, ValueError) as error:
        raise Refused(f"{program}: {getattr(error, 'strerror', None) or error}")
    return done.returncode, done.stdout.decode("utf-8", "replace").strip()
