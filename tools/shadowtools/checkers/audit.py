"""Audits a journal: reads each record, judges it, and checks every proof tree in it.

usage: audit.py BANK PLAN JOURNAL [--trees] [--bands]
       audit.py --seal JOURNAL
       audit.py --against SEAL JOURNAL

Prints the summary of the history, `entries E sessions S finished F proved P unproved U aside A nodes N`, then the exposure:
`exposure finished F` and a line `item I shown A eligible E` for each item. A journal that stands for no history of this
bank and plan gives one line in place of that: `journal: too long L`, `journal: header`, or `journal: X at A` with X
`length`, `cut`, `record`, `illegal` or `bad tree` and A the place of the record's gate in bytes.

  --trees    first prints a line for each proof tree: `tree at A nodes N VERDICT`, with ` spent` after a tree that spends
             the plan's budget
  --bands    where the plan has more than one band of abilities, then prints for each band `band B visited V`, the finished
             sessions that visited it, and a line `band B item I shown A eligible E` for each item

  --seal     prints `seal records N bytes B sha256 H`: the number of the records, the bytes up to the gate after them, and the
             SHA-256 of these bytes, which `head -c B JOURNAL | sha256sum` prints too. The records are not judged
  --against  tests that the journal begins with the records of a seal, a file with such a line, and prints the seal of now

It shares no text with the product: its rules are those of docs/FORMATS.md alone. The journal is only read, by version 1 or 2 of
its format: the header tells which, and a file of version 1 that was moved has its records of version 2 after a mark. One record
is in memory at a time. A journal does not name its bank and plan: the SHA-256 of those that it was judged by are printed on standard
error. Exit status: 0; 6 for a journal that is refused; 2 for a faulty command line; 1 for a file that can't be read,
and for a bank or a plan that shadowd does not take.
"""
import csv
import functools
import hashlib
import itertools
import re
import struct
import sys
from collections import namedtuple
from typing import BinaryIO, Callable, Dict, Iterator, List, NamedTuple, Optional, Sequence, Tuple

from shadowtools.checkers import check_tree
from shadowtools.command import Refused, as_command

# The header that is written, that of version 1, and the version of each. In a file of version 1 that was moved to version 2 the
# payloads before the mark count for nothing, and those after it are of version 2.
HEADER, OLD_HEADER, MARK = b"SHADOWJ2", b"SHADOWJ1", b"\x08"
VERSIONS = {OLD_HEADER: 1, HEADER: 2}
OPEN, LONGEST = 1, 131072
DEFAULTS = {"rate": (1, 1), "key": bytes(32), "bands": (), "budget": 2001, "sessions": 1000, "journal": 67108864}
STARTED, ASIDE, SERVED, ANSWERED, CLOSED = range(5)
# What the first byte of a payload says, by version. Kind 9 is a start with a list of items that the examinee must not get.
KINDS = {1: {1: STARTED, 2: ASIDE, 3: SERVED, 4: ANSWERED, 5: CLOSED},
         2: {6: STARTED, 9: STARTED, 7: ASIDE, 3: SERVED, 4: ANSWERED, 5: CLOSED}}
WITH_LIST = 9
NO_FORM, MOST_BANDS, PLACES = 0, 8, 512

# `bands` has the grid points that begin new bands.
Rules = namedtuple("Rules", "bank plan categories likelihood rate key budget sessions journal bands")
# A record that counts: the place of its gate, its version and its payload.
Record = namedtuple("Record", "at version payload")


# ---------------------------------------------------------------- bank and plan

def read_responses(path: str, bank: check_tree.Bank) -> Tuple[List[int], List[List[List[int]]]]:
    """The number of categories of each item, and its log-likelihoods by response and grid point."""
    with open(path, newline="", encoding="utf-8", errors="surrogateescape") as file:
        header, *records = [record for record in csv.reader(file) if record]
    first = header.index("l0_0")
    categories = [int(record[2]) for record in records]
    likelihood = [[[int(x) for x in record[first + r * bank.grid:first + (r + 1) * bank.grid]] for r in range(count)]
                  for record, count in zip(records, categories)]
    return categories, likelihood


def read_limits(path: str) -> Dict[str, object]:
    """What the lines of the plan say that a form doesn't depend on."""
    limits = dict(DEFAULTS)
    with open(path, encoding="utf-8", errors="surrogateescape", newline="\n") as file:
        for line in file:
            word, *rest = line.rstrip("\n").split(" ")
            if word == "rate":
                limits[word] = int(rest[0]), int(rest[1])
            elif word == "key":
                limits[word] = bytes.fromhex(rest[0])
            elif word == "bands":
                limits[word] = tuple(map(int, rest))
            elif word in limits:
                limits[word] = int(rest[0])
    return limits


def read_rules(bank_path: str, plan_path: str) -> Rules:
    bank = check_tree.read_bank(bank_path)
    plan = check_tree.read_plan(plan_path, bank)
    categories, likelihood = read_responses(bank_path, bank)
    return Rules(bank, plan, categories, likelihood, **read_limits(plan_path))


# ---------------------------------------------------------------- the draw

def quarter(x, a, b, c, d):
    for left, right, other, turn in ((a, b, d, 16), (c, d, b, 12), (a, b, d, 8), (c, d, b, 7)):
        x[left] = (x[left] + x[right]) % 2**32
        mixed = x[other] ^ x[left]
        x[other] = (mixed << turn | mixed >> 32 - turn) % 2**32


@functools.lru_cache(maxsize=512)
def chacha_block(key: bytes, stream: int, number: int) -> List[int]:
    """The sixteen words of a block of ChaCha20, with a counter and a stream of 64 bits each."""
    start = list(struct.unpack("<16I", b"expand 32-byte k" + key + struct.pack("<QQ", number, stream)))
    x = list(start)
    for _ in range(10):
        for i in range(4):
            quarter(x, i, 4 + i, 8 + i, 12 + i)
        for i in range(4):
            quarter(x, i, 4 + (i + 1) % 4, 8 + (i + 2) % 4, 12 + (i + 3) % 4)
    return [(a + b) % 2**32 for a, b in zip(x, start)]


# ---------------------------------------------------------------- a history

class Session:
    """A session: its eligible items by band, the bands in which eligibility was set aside, the items that its examinee must not
    get, the items shown with the band of the estimate at each, the responses, and the form last served from or that of the list."""

    def __init__(self, eligible, without=frozenset(), form=None):
        self.eligible, self.aside, self.closed, self.without = eligible, set(), False, without
        self.shown, self.bands, self.responses, self.form = [], [], [], form


class Counts:
    """Of the finished sessions that visited a band: their number, in how many of them an item was shown there, and in how many
    it could be."""

    def __init__(self, items):
        self.visited, self.shown, self.eligible = 0, [0] * items, [0] * items

    def add(self, shown, eligible):
        self.visited += 1
        for i in shown:
            self.shown[i] += 1
        for i in eligible:
            self.eligible[i] += 1


class History:
    """The sessions so far, the exposure counts of the finished ones in all and by band, and the numbers of the summary."""

    def __init__(self, rules):
        self.rules, self.sessions, self.bookings = rules, [], set()
        self.items = range(len(rules.bank.items))
        self.total = Counts(len(self.items))
        self.bands = [Counts(len(self.items)) for _ in range(len(rules.bands) + 1)]
        self.first_band = self.band(self.mode(Session([])))
        self.entries = self.proved = self.unproved = self.aside = self.nodes = 0

    @property
    def finished(self):
        return self.total.visited

    @property
    def shown(self):
        return self.total.shown

    @property
    def eligible(self):
        return self.total.eligible

    def place(self, session):
        """`pending`, `waiting` or `over`, with the step."""
        step = len(session.responses)
        if session.closed or step >= self.rules.plan.length:
            return "over", step
        return ("waiting" if len(session.shown) > step else "pending"), step

    def band(self, point):
        """The number of the band that a grid point is in."""
        return sum(begin <= point for begin in self.rules.bands)

    def band_now(self, session):
        return self.band(self.mode(session))

    def draw(self, number, band):
        """The items that are eligible for a session in a band."""
        (above, below), counts = self.rules.rate, self.bands[band]

        def word(i):
            place = PLACES * band + i
            return chacha_block(self.rules.key, number, place // 16)[place % 16]

        return frozenset(i for i in self.items if counts.shown[i] == 0
                         or word(i) * below * counts.shown[i] < 2**32 * above * counts.eligible[i])

    def draws(self, number):
        """The same in each band of the plan."""
        return [self.draw(number, band) for band in range(len(self.bands))]

    def mode(self, session):
        """The lowest grid point at which the posterior is greatest."""
        def posterior(point):
            answers = zip(session.shown, session.responses)
            return self.rules.plan.prior[point] + sum(self.rules.likelihood[i][r][point] for i, r in answers)
        return max(range(self.rules.bank.grid), key=lambda point: (posterior(point), -point))

    def problem(self, session):
        """The problem of a session that waits for an item."""
        items, given = self.rules.bank.items, frozenset(session.shown)
        last = items[session.shown[-1]].stimulus if session.shown else 0
        left, theta = {items[i].stimulus for i in given} - {0, last}, self.mode(session)
        may = self.open_in(session, self.band(theta))
        barred = frozenset(i for i in self.items if i not in given and (items[i].stimulus in left or i not in may))
        return check_tree.Problem(self.rules.bank, self.rules.plan, theta, given, barred, session.form)

    def open_in(self, session, band):
        """The items that may be served in a band: those eligible there, or all where eligibility was set aside there, without those of
        the session's list."""
        return (frozenset(self.items) if band in session.aside else session.eligible[band]) - session.without

    def whole_without(self, without):
        """The problem that has only the plan, at the mode of the prior, with the items of a list barred."""
        return check_tree.Problem(self.rules.bank, self.rules.plan, self.mode(Session([])), frozenset(), without, None)

    def next_item(self, session, problem, form):
        """The item that is served from a form."""
        items, left = self.rules.bank.items, form - problem.given
        last = items[session.shown[-1]].stimulus if session.shown else 0
        same = [i for i in left if last and items[i].stimulus == last]
        return max(same or left, key=lambda i: (items[i].info[problem.theta], -i))

    def end(self, session):
        """Counts a session that is finished, in all and in each band that it visited: the one where it began, and those in which
        an item was shown."""
        visited = {self.first_band, *session.bands}
        for band in visited:
            there = {item for item, at in zip(session.shown, session.bands) if at == band}
            self.bands[band].add(there, self.open_in(session, band))
        self.total.add(set(session.shown), frozenset().union(*(self.open_in(session, band) for band in visited)))


# ---------------------------------------------------------------- records

class Fields:
    """The fields of a payload, from the left."""

    def __init__(self, payload):
        self.payload, self.at = payload, 0

    def number(self, size):
        if self.at + size > len(self.payload):
            raise ValueError("short")
        self.at += size
        return int.from_bytes(self.payload[self.at - size:self.at], "big")

    def within(self, low, high):
        """A number of one byte in a range."""
        value = self.number(1)
        if not low <= value <= high:
            raise ValueError("field")
        return value

    def items(self):
        bits = [self.number(1) for _ in range(64)]
        return frozenset(i for i in range(512) if bits[i // 8] >> i % 8 & 1)

    def tree(self):
        nodes = self.number(2)
        try:
            vectors, read, used = check_tree.read_tree(self.payload[self.at:])
        except check_tree.Fault as fault:
            raise ValueError("tree") from fault
        self.at += used
        if nodes != len(read):
            raise ValueError("field")
        return vectors, read


def kind_of(payload: bytes, version: int) -> Optional[int]:
    """The kind that the first byte of a payload says, or None."""
    return KINDS[version].get(payload[0]) if payload else None


def list_of(fields: Fields) -> Tuple[frozenset, frozenset]:
    """The items that the examinee must not get, which are some, and a form without them."""
    without = fields.items()
    if not without:
        raise ValueError("field")
    return without, fields.items()


def read_record(payload: bytes, version: int) -> Tuple[int, tuple]:
    """The kind of a record and its fields, in the order of the format. Version 1 has one set of a start, and neither step nor band
    where eligibility is set aside: these two are None."""
    fields, kind = Fields(payload), kind_of(payload, version)
    if kind is None:
        raise ValueError("kind")
    fields.number(1)
    session = fields.number(4)
    if kind == STARTED:
        booking = fields.number(8)
        sets = [fields.items() for _ in range(1 if version == 1 else fields.within(1, MOST_BANDS))]
        record = (session, booking, sets, *list_of(fields)) if payload[0] == WITH_LIST else (session, booking, sets)
    elif kind == ASIDE:
        place = (None, None) if version == 1 else (fields.number(2), fields.within(0, MOST_BANDS - 1))
        record = (session, *place, fields.within(0, 1), fields.tree())
    elif kind == SERVED:
        record = session, fields.number(2), fields.number(2), fields.items(), fields.within(0, 1), fields.tree()
    elif kind == ANSWERED:
        record = session, fields.number(2), fields.number(1)
    else:
        record = (session,)
    if fields.at != len(payload):
        raise ValueError("extra")
    return kind, record


# ---------------------------------------------------------------- which record may follow

class Judge:
    """Takes records into a history, and notes the verdict on each tree."""

    def __init__(self, rules, note):
        self.history, self.note = History(rules), note

    def take(self, record: Record):
        at = record.at
        try:
            kind, fields = read_record(record.payload, record.version)
        except ValueError as fault:
            raise Refused(f"journal: record at {at}") from fault
        if record.version == 1:
            fields = self.lifted(kind, fields)
        steps = {STARTED: self.start, ASIDE: self.set_aside, SERVED: self.serve, ANSWERED: self.answer, CLOSED: self.close}
        steps[kind](at, *fields)
        self.history.entries += 1

    def lifted(self, kind, fields):
        """The fields of a record of version 1 as version 2 has them: a start also has the draws of the other bands, and where
        eligibility is set aside are the step and the band of the session's place."""
        H = self.history
        if kind == STARTED:
            number, booking, (first,) = fields
            sets = H.draws(number)
            sets[H.first_band] = first
            return number, booking, sets
        if kind == ASIDE and fields[0] < len(H.sessions):
            session = H.sessions[fields[0]]
            return (fields[0], H.place(session)[1], H.band_now(session), *fields[3:])
        return fields

    def session(self, at, number, *places):
        """A session at one of these places."""
        H = self.history
        if number >= len(H.sessions) or places and H.place(H.sessions[number]) not in places:
            raise Refused(f"journal: illegal at {at}")
        return H.sessions[number]

    def require(self, holds, at):
        if not holds:
            raise Refused(f"journal: illegal at {at}")

    def tree(self, at, problem, form, wanted, tree):
        """Checks a tree against what the entry claims: `Optimal` or `NoForm`, or `Partial` with a spent budget."""
        said = check_tree.verdict(problem, form, *tree)
        spent = check_tree.spent(problem, tree[0], tree[1], self.history.rules.budget)
        self.note(at, len(tree[1]), said, spent)
        if not (said == wanted or wanted == "Partial" and said.startswith("Partial") and spent):
            raise Refused(f"journal: bad tree at {at}")
        self.history.nodes += len(tree[1])

    def start(self, at, number, booking, sets, without=frozenset(), form=None):
        H = self.history
        self.require(number == len(H.sessions) < H.rules.sessions and booking not in H.bookings, at)
        self.require(sets == H.draws(number), at)
        if without:
            self.require(without <= frozenset(H.items) and check_tree.is_form(H.whole_without(without), form), at)
        H.sessions.append(Session(sets, without, form))
        H.bookings.add(booking)

    def set_aside(self, at, number, step, band, cause, tree):
        H, session = self.history, self.session(at, number, ("pending", step))
        self.require(band == H.band_now(session) and band not in session.aside, at)
        self.tree(at, H.problem(session), None, "NoForm" if cause == NO_FORM else "Partial", tree)
        session.aside.add(band)
        H.aside += 1

    def serve(self, at, number, step, item, form, proved, tree):
        H, session = self.history, self.session(at, number, ("pending", step))
        problem = H.problem(session)
        self.require(check_tree.is_form(problem, form) and item == H.next_item(session, problem, form), at)
        self.tree(at, problem, form, "Optimal" if proved else "Partial", tree)
        session.shown.append(item)
        session.bands.append(H.band(problem.theta))
        session.form = form
        H.proved += proved
        H.unproved += not proved

    def answer(self, at, number, step, response):
        H, session = self.history, self.session(at, number, ("waiting", step))
        self.require(response < H.rules.categories[session.shown[step]], at)
        session.responses.append(response)
        if H.place(session)[0] == "over":
            H.end(session)

    def close(self, at, number):
        H, session = self.history, self.session(at, number)
        self.require(H.place(session)[0] != "over", at)
        session.closed = True
        H.end(session)


# ---------------------------------------------------------------- the journal

def version_of(file: BinaryIO) -> int:
    """The version that the header of a file names."""
    file.seek(0)
    version = VERSIONS.get(file.read(len(HEADER)))
    if version is None:
        raise Refused("journal: header")
    return version


def frames(file: BinaryIO, size: int) -> Iterator[Tuple[int, int]]:
    """The place of each record's gate with its payload's length, up to the first closed gate."""
    version_of(file)
    at = len(HEADER)
    while True:
        file.seek(at)
        head = file.read(5)
        if head[0] != OPEN:
            return
        if len(head) < 5:
            raise Refused(f"journal: cut at {at}")
        length = int.from_bytes(head[1:], "big")
        if not 1 <= length <= LONGEST:
            raise Refused(f"journal: length at {at}")
        if at + 5 + length >= size:
            raise Refused(f"journal: cut at {at}")
        yield at, length
        at += 5 + length


def payload_at(file: BinaryIO, at: int, length: int) -> bytes:
    file.seek(at + 5)
    return file.read(length)


def begins(file: BinaryIO, size: int) -> Tuple[int, int]:
    """The place from which records count, and their version. All frames are tested to the end."""
    version, first = version_of(file), len(HEADER)
    for at, length in frames(file, size):
        if version == 1 and length == len(MARK) and payload_at(file, at, length) == MARK:
            version, first = 2, at + 5 + length
    return first, version


def counted(file: BinaryIO, size: int) -> Iterator[Record]:
    """The records that count. The frames are tested to the end before the first of them; a file of at most nine bytes has none."""
    if size > len(HEADER) + 1:
        first, version = begins(file, size)
        for at, length in frames(file, size):
            if at >= first:
                yield Record(at, version, payload_at(file, at, length))


def audit(rules: Rules, file: BinaryIO, note: Callable[[int, int, str, bool], None] = lambda at, nodes, said, spent: None) -> History:
    """The history of a journal."""
    size = file.seek(0, 2)
    if size > rules.journal:
        raise Refused(f"journal: too long {size}")
    judge = Judge(rules, note)
    for record in counted(file, size):
        judge.take(record)
    return judge.history


def lines(history: History, with_bands: bool = False) -> Iterator[str]:
    """The summary and the exposure. With bands, the exposure in each band of a plan that has more than one follows."""
    H = history
    yield (f"entries {H.entries} sessions {len(H.sessions)} finished {H.finished} proved {H.proved} unproved {H.unproved} "
           f"aside {H.aside} nodes {H.nodes}")
    yield f"exposure finished {H.finished}"
    yield from item_lines("", H.total)
    if with_bands and len(H.bands) > 1:
        for band, counts in enumerate(H.bands):
            yield f"band {band} visited {counts.visited}"
            yield from item_lines(f"band {band} ", counts)


def item_lines(front: str, counts: Counts) -> Iterator[str]:
    for i, (shown, eligible) in enumerate(zip(counts.shown, counts.eligible)):
        yield f"{front}item {i} shown {shown} eligible {eligible}"


def print_tree(at: int, nodes: int, said: str, spent: bool) -> None:
    print(f"tree at {at} nodes {nodes} {said}" + (" spent" if spent else ""))


# ---------------------------------------------------------------- seals

class Seal(NamedTuple):
    """The records of a journal at one moment: their number, the bytes of the file up to the gate that ends them, and the
    SHA-256 of these bytes. A record that is added later changes none of them, nor does a move to version 2."""
    records: int
    bytes: int
    sha256: str

    def line(self) -> str:
        return f"seal records {self.records} bytes {self.bytes} sha256 {self.sha256}"


def seal_of(file: BinaryIO, most: Optional[int] = None) -> Seal:
    """The seal of a journal, or of its first `most` records where it has as many."""
    size, records, end = file.seek(0, 2), 0, len(HEADER)
    for at, length in itertools.islice(frames(file, size) if size > 9 else (), most):
        records, end = records + 1, at + 5 + length
    file.seek(0)
    header = file.read(len(HEADER)) if size > 9 else HEADER
    digest, left = hashlib.sha256(header), end - len(HEADER)
    file.seek(len(HEADER))
    while left:
        block = file.read(min(left, 1 << 20))
        if not block:
            raise Refused(f"journal: cut at {end}")
        digest.update(block)
        left -= len(block)
    return Seal(records, end, digest.hexdigest())


def read_seal(path: str) -> Seal:
    """The seal of a file with one line of `--seal`."""
    text = bytes_of(path).decode("ascii", "replace")
    found = re.fullmatch(r"seal records (\d{1,12}) bytes (\d{1,12}) sha256 ([0-9a-f]{64})\s*", text)
    if not found:
        raise Unread(f"{path}: no seal of audit.py")
    return Seal(int(found.group(1)), int(found.group(2)), found.group(3))


def print_seal(path: str, before: Optional[str]) -> int:
    """Prints the seal of a journal; where one from before is named, the journal must go on from it."""
    sealed = read_seal(before) if before else None
    with opened(path) as file:
        now = seal_of(file)
        if sealed and seal_of(file, sealed.records) != sealed:
            print(f"journal: not from the seal of {sealed.records} records")
            return 6
    print(now.line())
    if sealed:
        print(f"from the seal of {sealed.records} records")
    return 0


# ---------------------------------------------------------------- command line

def opened(path: str) -> BinaryIO:
    try:
        return open(path, "rb")
    except (OSError, ValueError) as error:
        raise Unread(f"{path}: {getattr(error, 'strerror', None) or error}")


def bytes_of(path: str) -> bytes:
    with opened(path) as file:
        try:
            return file.read()
        except OSError as error:
            raise Unread(f"{path}: {error.strerror}")


class Unread(Refused):
    """A file that can't be read, or a bank or a plan that shadowd doesn't take: no judgement on the journal."""


def require_texts(bank_path: str, plan_path: str) -> None:
    """Refuses texts that `shadowd check` refuses, with its line."""
    from shadowtools.checkers import mutate_bank, text_readers   # the second reads this module's neighbours
    try:
        grid, items = mutate_bank.read(bytes_of(bank_path))
        text_readers.read_plan(bytes_of(plan_path), grid, items)
    except Unread:
        raise
    except Refused as refused:
        raise Unread(refused.line)


def main(words: Sequence[str]) -> int:
    if words and words[0] in ("--seal", "--against") and len(words) == (2 if words[0] == "--seal" else 3):
        return sealed_or_refused(words[-1], words[1] if words[0] == "--against" else None)
    paths = [word for word in words if word not in ("--trees", "--bands")]
    if len(paths) != 3 or any(path.startswith("--") for path in paths):
        print(__doc__.split("\n\n")[1], file=sys.stderr)
        return 2
    require_texts(*paths[:2])
    rules = read_rules(*paths[:2])
    for name, path in zip(("bank", "plan"), paths):
        print(f"{name} sha256 {hashlib.sha256(bytes_of(path)).hexdigest()}", file=sys.stderr)
    note = print_tree if "--trees" in words else lambda at, nodes, said, spent: None
    with opened(paths[2]) as file:
        try:
            history = audit(rules, file, note)
        except Refused as refused:
            print(refused)
            return 6
    print("\n".join(lines(history, "--bands" in words)))
    return 0


def sealed_or_refused(journal: str, before: Optional[str]) -> int:
    try:
        return print_seal(journal, before)
    except Unread:
        raise
    except Refused as refused:
        print(refused)
        return 6


command = as_command(main)


if __name__ == "__main__":
    sys.exit(command())
