"""A model of the examination: what each request adds to a journal, and the reply to it.

It is written from docs/FORMATS.md and docs/HTTP.md, and shares nothing with the product. The
entries themselves come from a journal: a request is given, and the model takes the records that it
has to have added, each judged with its tree by `audit.Judge`. So which form is served is the
program's choice within the rules, and all else follows from the records.
"""
import io
import json
import math
from collections import namedtuple

from shadowtools.checkers import audit
from shadowtools.checkers import check_tree
from shadowtools.command import Refused

# The version of the journals that the program writes.
VERSION = audit.VERSIONS[audit.HEADER]
EMPTY = audit.HEADER + b"\0"
ENDED = ("complete", "closed")
ENUMERATED = 20000  # so many sets of items are looked at the most

# The place of a session after a request; `fresh` where the request started it.
At = namedtuple("At", "session state step item proved fresh")
Counts = namedtuple("Counts", "finished rows")
Refusal = namedtuple("Refusal", "word value")


class Surprise(Exception):
    """What was seen is not what the documents have."""


class Missing(Exception):
    """The journal lacks the next entry of the request: its kind, and the bytes that its record
    needs at the least."""

    def __init__(self, kind, least, exact):
        super().__init__(f"no record of kind {kind}")
        self.kind, self.least, self.exact = kind, least, exact


def records_of(data):
    """The records that count of a journal's bytes, and the bytes up to the first closed gate with
    that gate."""
    if len(data) <= 9:
        return [], EMPTY
    file, end = io.BytesIO(data), len(audit.HEADER)
    for at, length in audit.frames(file, len(data)):
        end = at + 5 + length
    return list(audit.counted(file, len(data))), data[:end + 1]


def length_of(records):
    """The length of a journal that ends with the last of these records."""
    return records[-1].at + 5 + len(records[-1].payload) + 1 if records else len(EMPTY)


class Model:
    """The history after some records of a journal; the rest of its records wait for requests that
    add them."""

    def __init__(self, rules, records):
        self.judge, self.records, self.taken = audit.Judge(rules, self.note), records, 0
        self.rules, self.bookings, self.marks, self.trees = rules, {}, {}, []
        self.opens = [0]  # after each record the sessions that are neither complete nor closed

    @property
    def history(self):
        return self.judge.history

    def note(self, at, nodes, said, spent):
        self.trees.append((at, nodes, said, spent))

    def kind(self):
        """The kind of the next record, or None."""
        if self.taken == len(self.records):
            return None
        return audit.kind_of(self.records[self.taken].payload, self.records[self.taken].version)

    def take(self):
        """Judges the next record."""
        record = self.records[self.taken]
        try:
            kind, fields = audit.read_record(record.payload, record.version)
            if kind == audit.SERVED and fields[4] == 0 and fields[0] < len(self.history.sessions):
                self.no_exchange(self.history.problem(self.history.sessions[fields[0]]), fields[3])
            self.judge.take(record)
        except (Refused, ValueError) as refused:
            raise Surprise(f"record {self.taken}: {refused}") from refused
        self.taken += 1
        self.opens.append(len(self.history.sessions) - self.history.finished)
        if kind == audit.STARTED:
            self.bookings[fields[1]] = fields[0]
        elif kind == audit.SERVED:
            self.marks[fields[0], fields[1]] = fields[4]
        return kind, fields

    def no_exchange(self, problem, form):
        """Demands that no exchange of one item improves a form that is not proved best."""
        left = frozenset(range(len(problem.bank.items))) - form - problem.barred
        information = [item.info[problem.theta] for item in problem.bank.items]
        for out in form - problem.given:
            for other in left:
                better = information[other] > information[out]
                if better and check_tree.is_form(problem, form - {out} | {other}):
                    raise Surprise(f"record {self.taken}: item {other} for {out} improves the form")

    def take_first(self, count):
        """The records that were there before the first request."""
        while self.taken < count:
            self.take()

    def need(self, kind, *wanted, without=frozenset()):
        """Takes a record of this kind whose first fields are these; a start has this list."""
        exact = kind not in (audit.ASIDE, audit.SERVED)
        next_one = self.records[self.taken] if self.kind() == kind else None
        fields = next_one and audit.read_record(next_one.payload, next_one.version)[1]
        listed = fields and kind == audit.STARTED and fields[3:4] != ((without,) if without else ())
        if not fields or fields[:len(wanted)] != wanted or listed:
            raise Missing(kind, self.least_size(kind, without), exact)
        self.take()

    def least_size(self, kind, without):
        """How many bytes a payload of this kind has at the least, as the program writes it. The
        least tree has two bytes. A list and its form have 64 bytes each."""
        started = 77 if VERSION == 1 else 14 + 64 * (len(self.rules.bands) + 1 + 2 * bool(without))
        return {audit.STARTED: started, audit.ASIDE: 10 if VERSION == 1 else 13, audit.SERVED: 78,
                audit.ANSWERED: 8, audit.CLOSED: 5}[kind]

    # ------------------------------------------------------------ places

    def place(self, number, fresh=False):
        """Where a session is."""
        session = self.history.sessions[number]
        kind, step = self.history.place(session)
        if kind == "over":
            return At(number, "closed" if session.closed else "complete", None, None, None, fresh)
        if kind == "pending":
            return At(number, kind, step, None, None, fresh)
        return At(number, kind, step, session.shown[step], bool(self.marks[number, step]), fresh)

    def advance(self, number, fresh=False):
        """Serves an item where the session waits for one. Before its first item, and before an item
        in another band than that of the one before, its eligibility may be set aside there once."""
        if self.place(number).state == "pending":
            session = self.history.sessions[number]
            band = self.history.band_now(session)
            may_be_aside = session.bands[-1:] != [band] and band not in session.aside
            if self.kind() == audit.ASIDE or self.kind() is None and may_be_aside:
                self.need(audit.ASIDE, number)
            self.need(audit.SERVED, number)
        return self.place(number, fresh)

    # ------------------------------------------------------------ requests

    def reply(self, request):
        """The reply to a request, whose entries are taken from the journal. `Missing` where the
        journal lacks one."""
        return getattr(self, request.kind)(*request.numbers)

    def begin(self, booking, without=frozenset()):
        number = self.bookings.get(booking)
        if number is not None:
            other = without and self.history.sessions[number].without != without
            return Refusal("other-list", number) if other else self.advance(number)
        count, size = len(self.history.sessions), len(self.rules.bank.items)
        if any(item >= size for item in without):
            return Refusal("no-item", size)
        if count >= self.rules.sessions:
            return Refusal("sessions-full", count)
        if without and self.lacks_form(without):
            return Refusal("no-form", None)
        self.need(audit.STARTED, count, booking, without=without)
        return self.advance(count, True)

    def lacks_form(self, without):
        """Whether all sets of items show that the plan has no form without these. A bank with too
        many sets is taken to have one: its records show it, or a start that is missing."""
        problem = self.history.whole_without(without)
        few = math.comb(len(problem.bank.items), problem.plan.length) <= ENUMERATED
        return few and check_tree.best_of_all(problem) is None

    def answer(self, number, step, response, booking=None):
        at = self.find(number, booking)
        if isinstance(at, Refusal):
            return at
        given = self.history.sessions[number].responses
        if step < len(given):
            return self.advance(number) if given[step] == response else Refusal("other",
                                                                                given[step])
        if at.state in ENDED:
            return Refusal("is-closed", at.state)
        if at.state == "pending" or at.step != step:
            return Refusal("wrong-step", at.step)
        categories = self.rules.categories[at.item]
        if response >= categories:
            return Refusal("bad-response", categories)
        self.need(audit.ANSWERED, number, step, response)
        return self.advance(number)

    def close(self, number, booking=None):
        at = self.find(number, booking)
        if isinstance(at, Refusal):
            return at
        if at.state in ENDED:
            return Refusal("is-closed", at.state)
        self.need(audit.CLOSED, number)
        return self.place(number)

    def look(self, number):
        at = self.find(number)
        return at if isinstance(at, Refusal) else self.advance(number)

    def exposure(self):
        return Counts(self.history.finished, list(zip(self.history.shown, self.history.eligible)))

    def find(self, number, booking=None):
        """The place of a session, or that there is none, or that it is of another booking than the one that is named."""
        count = len(self.history.sessions)
        if number >= count:
            return Refusal("no-session", count)
        other = booking is not None and self.bookings.get(booking) != number
        return Refusal("other-booking", None) if other else self.place(number)


# ---------------------------------------------------------------- how replies are written

def lines_of(reply, rules):
    """The lines of a replay for a reply; of a limit, the last line of the run."""
    if isinstance(reply, Counts):
        rows = (f"item {i} shown {shown} eligible {eligible}"
                for i, (shown, eligible) in enumerate(reply.rows))
        return [f"exposure finished {reply.finished}", *rows]
    if isinstance(reply, Refusal):
        if reply.word == "sessions-full":
            return [f"limit sessions {reply.value} of {rules.sessions}"]
        return [" ".join(["refused", reply.word, *([] if reply.value is None else [str(reply.value)])])]
    if reply.state == "waiting":
        mark = "proved" if reply.proved else "unproved"
        return [f"session {reply.session} step {reply.step} item {reply.item} {mark}"]
    return [f"session {reply.session} {reply.state}"]


STATUS = {"no-session": 404, "other-booking": 409, "other": 409, "is-closed": 409,
          "wrong-step": 409, "bad-response": 422, "other-list": 409, "no-item": 422, "no-form": 422,
          "sessions-full": 507, "journal-full": 507, "disk": 503, "memory": 500}


def response_of(reply):
    """The status and the body of a response for a reply."""
    if isinstance(reply, Counts):
        return 200, {"finished": reply.finished, "rows": [list(row) for row in reply.rows]}
    if isinstance(reply, Refusal):
        return STATUS[reply.word], {"error": reply.word} | ({} if reply.value is None
                                                            else {"value": reply.value})
    body = {"session": reply.session, "state": reply.state, "step": reply.step, "item": reply.item,
            "proved": reply.proved}
    return 201 if reply.fresh else 200, {name: value for name, value in body.items()
                                         if value is not None}


def compact(body):
    """A body as the program writes it: members in the byte order of their names."""
    return json.dumps(body, sort_keys=True, separators=(",", ":")).encode("ascii")


def summary(history):
    """The lines of an audit: the first one is the summary."""
    return list(audit.lines(history, with_bands=True))
