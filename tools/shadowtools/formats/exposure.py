"""Sessions with their exposure, in all and in each band of abilities, counted from a journal; docs/FORMATS.md has the rules.

It shares nothing with the product, and needs the standard library alone. A session visits the band in which it begins and each
band in which an item is served. Rates are conditional on the estimate at each step, and not on the ability.

A journal of version 1 has the eligible items of the first estimate's band alone. Those of the other bands are drawn here anew, at the
counts before the session's start, and so are those that a journal has: they must be the same.
"""
import struct
from typing import Dict, FrozenSet, Iterable, List, Optional, Sequence, Set, Tuple

from shadowtools.command import Refused
from shadowtools.formats.examination import (
    Answered, BankItem, Closed, Plan, Served, Session, SetAside, Started, band_of, follow)

PLACES = 512    # words of a band in the stream of a session
Words = Tuple[int, ...]


# ---------------------------------------------------------------- ChaCha20 (RFC 8439)

def rotated(value: int, by: int) -> int:
    return (value << by | value >> 32 - by) & 0xFFFFFFFF


def mix(x: List[int], a: int, b: int, c: int, d: int) -> None:
    """The quarter round of the cipher."""
    x[a] = x[a] + x[b] & 0xFFFFFFFF
    x[d] = rotated(x[d] ^ x[a], 16)
    x[c] = x[c] + x[d] & 0xFFFFFFFF
    x[b] = rotated(x[b] ^ x[c], 12)
    x[a] = x[a] + x[b] & 0xFFFFFFFF
    x[d] = rotated(x[d] ^ x[a], 8)
    x[c] = x[c] + x[d] & 0xFFFFFFFF
    x[b] = rotated(x[b] ^ x[c], 7)


def words_of(key: bytes, stream: int, block: int) -> Words:
    """The sixteen words of a block, with a counter and a stream of 64 bits each."""
    begin = struct.unpack("<16I", b"expand 32-byte k" + key + struct.pack("<QQ", block, stream))
    x = list(begin)
    for _ in range(10):
        for column in range(4):
            mix(x, column, 4 + column, 8 + column, 12 + column)
        mix(x, 0, 5, 10, 15)
        mix(x, 1, 6, 11, 12)
        mix(x, 2, 7, 8, 13)
        mix(x, 3, 4, 9, 14)
    return tuple(one + other & 0xFFFFFFFF for one, other in zip(x, begin))


# ---------------------------------------------------------------- counts

class Counts:
    """Of the finished sessions that visited a band, or of all: their number, and by item in how many of them it was shown there and
    in how many it could be. `aside` is how many times eligibility was set aside there, and `steps` how often at each step."""

    def __init__(self, items: int) -> None:
        self.visited, self.shown, self.eligible = 0, [0] * items, [0] * items
        self.steps: Dict[int, int] = {}

    @property
    def aside(self) -> int:
        return sum(self.steps.values())

    def add(self, shown: Iterable[int], eligible: Iterable[int]) -> None:
        self.visited += 1
        for item in shown:
            self.shown[item] += 1
        for item in eligible:
            self.eligible[item] += 1

    def rates(self) -> List[float]:
        """By item the share of the visits in which it was shown there; 0 without a visit."""
        return [shown / self.visited if self.visited else 0.0 for shown in self.shown]


class Seat:
    """A session on its way: its sums by point, its eligible items by band, where eligibility was set aside, and the estimate at each
    item that was served, a point of the grid."""

    def __init__(self, session: Session, sums: List[int], eligible: List[FrozenSet[int]]) -> None:
        self.session, self.sums, self.eligible = session, sums, eligible
        self.aside: Dict[int, int] = {}     # the step, by band
        self.estimates: List[int] = []


class Exposure:
    """The counts of the entries so far: in all, for each band of the plan, and for each band that is watched. These are the plan's,
    or begin at other points, as where the plan has one band alone."""

    def __init__(self, bank: Sequence[BankItem], plan: Plan, watch: Optional[Sequence[int]] = None) -> None:
        self.bank, self.plan, self.items = bank, plan, range(len(bank))
        self.total = Counts(len(bank))
        self.bands = [Counts(len(bank)) for _ in range(plan.bands)]
        self.points = plan.points if watch is None else list(watch)
        self.watched = self.bands if watch is None else [Counts(len(bank)) for _ in range(len(self.points) + 1)]
        self.first = band_of(plan.points, plan.start)
        self.seats: List[Seat] = []

    def take(self, one: tuple) -> None:
        """Takes the next entry of a journal."""
        if isinstance(one, Started) and one.session == len(self.seats):
            session = Session(booking=one.booking, eligible=one.eligible, without=one.without)
            self.seats.append(Seat(session, list(self.plan.prior), self.sets_of(one)))
            return
        seat = self.seats[one.session] if one.session < len(self.seats) and not isinstance(one, Started) else None
        if seat is None or not follow(seat.session, one):
            raise Refused(f"session {one.session}: an entry does not follow from those before it")
        if isinstance(one, SetAside):
            self.set_aside(seat, one)
        elif isinstance(one, Served):
            self.serve(seat, one)
        elif isinstance(one, Answered):
            self.answer(seat, one)
        if isinstance(one, Closed) or isinstance(one, Answered) and one.step + 1 == self.plan.length:
            self.finish(seat)

    @property
    def sessions(self) -> List[Session]:
        """The sessions, by number."""
        return [seat.session for seat in self.seats]

    # ------------------------------------------------------------ draws

    def draw(self, session: int, band: int) -> FrozenSet[int]:
        """The items that are eligible for a session in a band. Words are drawn only where one decides."""
        (num, den), counts, blocks = self.plan.rate, self.bands[band], {}

        def word(item: int) -> int:
            block, place = divmod(PLACES * band + item, 16)
            if block not in blocks:
                blocks[block] = words_of(self.plan.key, session, block)
            return blocks[block][place]

        return frozenset(
            item for item in self.items
            if den * counts.shown[item] <= num * counts.eligible[item] or counts.shown[item] == 0
            or word(item) * den * counts.shown[item] < 2 ** 32 * num * counts.eligible[item])

    def sets_of(self, one: Started) -> List[FrozenSet[int]]:
        """The eligible items of each band. Refused are recorded ones that are not the draw."""
        drawn = [self.draw(one.session, band) for band in range(self.plan.bands)]
        bands = [self.first] if one.is_first_alone else range(len(drawn))
        if len(one.eligible) != len(bands):
            raise Refused(f"session {one.session}: eligible items of {len(one.eligible)} bands, the plan has {len(drawn)}")
        for band, recorded in zip(bands, one.eligible):
            if recorded != drawn[band]:
                raise Refused(f"session {one.session}: its eligible items in band {band} are not the draw")
        return drawn

    # ------------------------------------------------------------ one session

    def band_now(self, seat: Seat) -> int:
        """The band of the estimate."""
        return band_of(self.plan.points, estimate_of(seat))

    def may(self, seat: Seat, band: int) -> Iterable[int]:
        """The items that could be served in a band: none of those that the examinee must not get."""
        found = self.items if band in seat.aside else seat.eligible[band]
        return frozenset(found) - seat.session.without if seat.session.without else found

    def set_aside(self, seat: Seat, one: SetAside) -> None:
        band = self.band_now(seat)
        if one.band not in (None, band) or band in seat.aside:
            raise Refused(f"session {one.session}: eligibility is set aside in band {one.band}, where the estimate is in band "
                          f"{band}")
        seat.aside[band] = len(seat.session.items)

    def serve(self, seat: Seat, one: Served) -> None:
        band = self.band_now(seat)
        if one.item not in self.may(seat, band):
            raise Refused(f"session {one.session}: item {one.item} is served at step {one.step} in band {band}, where it is not "
                          "eligible")
        seat.estimates.append(estimate_of(seat))

    def answer(self, seat: Seat, one: Answered) -> None:
        logs = self.bank[seat.session.items[-1]].logs
        if one.response >= len(logs):
            raise Refused(f"session {one.session}: a response {one.response} at step {one.step}, where the item has {len(logs)} "
                          "categories")
        seat.sums = [total + log for total, log in zip(seat.sums, logs[one.response])]

    def finish(self, seat: Seat) -> None:
        """Counts a session that is finished: in each band that it visited, and in all."""
        self.count(seat, self.bands, self.plan.points)
        if self.watched is not self.bands:
            self.count(seat, self.watched, self.points)
        visited = {band_of(self.plan.points, point) for point in [self.plan.start, *seat.estimates]}
        seat.session.could = frozenset().union(*(self.may(seat, band) for band in visited))
        self.total.add(seat.session.items, seat.session.could)

    def count(self, seat: Seat, counts: Sequence[Counts], points: Sequence[int]) -> None:
        """Counts a session in the bands that begin at some points. What it could be shown there is by the bands of the plan."""
        controls: Dict[int, Set[int]] = {}
        for point in [self.plan.start, *seat.estimates]:
            controls.setdefault(band_of(points, point), set()).add(band_of(self.plan.points, point))
        for band, inside in controls.items():
            shown = [item for item, point in zip(seat.session.items, seat.estimates) if band_of(points, point) == band]
            counts[band].add(shown, frozenset().union(*(self.may(seat, control) for control in inside)))
            for step in (seat.aside[control] for control in inside if control in seat.aside):
                counts[band].steps[step] = counts[band].steps.get(step, 0) + 1


def estimate_of(seat: Seat) -> int:
    """The lowest point at which the sum is greatest."""
    return seat.sums.index(max(seat.sums))


def exposure_of(entries: Iterable[tuple], bank: Sequence[BankItem], plan: Plan, watch: Optional[Sequence[int]] = None) -> Exposure:
    """The exposure of a journal's entries. Refused is an entry that can't follow, as far as the counts rest on it."""
    found = Exposure(bank, plan, watch)
    for one in entries:
        found.take(one)
    return found


def differs(found: Exposure, program: Tuple[int, Sequence[Tuple[int, int]]]) -> Optional[str]:
    """Where the totals that the program counts are not those of the journal, or None. An item is shown in one band of a session, so
    what it is shown in the bands adds up to its total."""
    finished, rows = program
    if finished != found.total.visited:
        return f"{finished} sessions are counted as finished, the journal has {found.total.visited}"
    for item, (shown, eligible) in enumerate(rows):
        counted = found.total.shown[item], found.total.eligible[item]
        if (shown, eligible) != counted:
            return f"item {item}: shown {shown} and eligible {eligible}, the journal has {counted[0]} and {counted[1]}"
        if sum(band.shown[item] for band in found.bands) != shown:
            return f"item {item}: shown {shown}, in the bands {sum(band.shown[item] for band in found.bands)}"
    return None
