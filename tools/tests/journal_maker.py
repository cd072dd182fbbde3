"""Journals of small examinations, made in Python: each form by enumeration, each tree by the plain search of check_tree.

A maker has each record in the bytes of version 1 and of version 2, so that a history has three files: one of each version, and
one that was moved. They are written from docs/FORMATS.md; a record that may not follow is refused by the judge of audit.py.
"""
import random
from typing import FrozenSet, List, Optional, Sequence

import audit
import check_tree
import data_of_bank_a as a
import mutate_bank
import text_readers

ONE, TWO = b"SHADOWJ1", b"SHADOWJ2"


def rules_of(bank: str, plan: str) -> audit.Rules:
    """Bank and plan as audit.py has them."""
    grid, items = mutate_bank.read(bank.encode())
    read = text_readers.read_plan(plan.encode(), grid, items)
    problem, lines = text_readers.problem_of(read, grid, items), read.lines
    logs = [[cells[r * grid:(r + 1) * grid] for r in range(count)] for _, count, _, _, cells in items]
    return audit.Rules(problem.bank, problem.plan, [item[1] for item in items], logs, tuple(lines[b"rate"]),
                       bytes.fromhex(lines[b"key"]), lines[b"budget"][0], lines[b"sessions"][0], lines[b"journal"][0],
                       tuple(lines[b"bands"]))


def file_of(header: bytes, payloads: Sequence[bytes]) -> bytes:
    return header + b"".join(b"\1" + len(one).to_bytes(4, "big") + one for one in payloads) + b"\0"


class Maker:
    """A history that goes on by requests as a script has them."""

    def __init__(self, bank: str, plan: str, seed: int = 1) -> None:
        self.rules, self.draw = rules_of(bank, plan), random.Random(seed)
        self.judge = audit.Judge(self.rules, lambda at, nodes, said, spent: None)
        self.old: List[bytes] = []
        self.new: List[bytes] = []

    @property
    def history(self) -> audit.History:
        return self.judge.history

    def add(self, new: bytes, old: Optional[bytes] = None) -> None:
        self.new.append(new)
        self.old.append(new if old is None else old)
        self.judge.take(audit.Record(0, 2, new))

    def tree(self, problem: check_tree.Problem, form: Optional[FrozenSet[int]]):
        """A tree without open leaves: its number of nodes, and its bytes."""
        while True:
            nodes: list = []
            check_tree.search(self.draw, problem, form, [], check_tree.root(problem), nodes)
            if all(kind != check_tree.OPEN for kind, _ in nodes):
                return len(nodes), check_tree.write_tree([], nodes)

    def serve(self, number: int) -> None:
        """What follows where the session waits for an item: perhaps that eligibility is set aside, then the item."""
        H, session = self.history, self.history.sessions[number]
        place, step = H.place(session)
        if place != "pending":
            return
        problem, band = H.problem(session), H.band_now(session)
        form = check_tree.best_of_all(problem)
        if form is None:
            nodes, tree = self.tree(problem, None)
            self.add(a.set_aside(number, step, band, 0, nodes, tree), a.old_set_aside(number, 0, nodes, tree))
            problem = H.problem(session)
            form = check_tree.best_of_all(problem)
        nodes, tree = self.tree(problem, form)
        head = a.served(number, step, H.next_item(session, problem, form), form, True, b"")
        self.add(head[:-2] + nodes.to_bytes(2, "big") + tree)

    def begin(self, booking: int) -> None:
        number = len(self.history.sessions)
        sets = self.history.draws(number)
        self.add(a.started(number, booking, sets), a.old_started(number, booking, sets[self.history.first_band]))
        self.serve(number)

    def answer(self, number: int, step: int, response: int) -> None:
        self.add(a.answered(number, step, response))
        self.serve(number)

    def close(self, number: int) -> None:
        self.add(a.closed(number))

    def run(self, script: str) -> "Maker":
        """The requests of a script."""
        for line in script.splitlines():
            word, *numbers = line.split()
            getattr(self, word)(*map(int, numbers))
        return self

    def files(self) -> List[bytes]:
        """The journal of version 1, that of version 2, and the one that was moved."""
        return [file_of(ONE, self.old), file_of(TWO, self.new), file_of(ONE, [*self.old, b"\x08", *self.new])]


def drawn(seed: int, sessions: int, bank: str, plan: str) -> Maker:
    """Sessions of drawn answers that go on in turns, some of which are closed early."""
    made, draw, open_ones = Maker(bank, plan, seed), random.Random(seed), []
    length = made.rules.plan.length
    while sessions or open_ones:
        if sessions and (len(open_ones) < 2 or draw.random() < 0.3):
            open_ones.append(len(made.history.sessions))
            made.begin(len(open_ones) + 1000 * sessions)
            sessions -= 1
            continue
        number = draw.choice(open_ones)
        session = made.history.sessions[number]
        if draw.random() < 0.05:
            made.close(number)
        else:
            step = len(session.responses)
            made.answer(number, step, draw.randrange(made.rules.categories[session.shown[step]]))
        if session.closed or len(session.responses) == length:
            open_ones.remove(number)
    return made
