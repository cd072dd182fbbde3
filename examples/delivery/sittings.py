"""The sitting of a booking: what was answered is sent to shadowd, and a test that is to end is closed there."""
import collections
import sys
import threading

from exam_server import Away, Refused


class Sittings:
    """`turns` lets one request of a booking at a time talk to shadowd. A second process may do so at the same time: what both
    send is recorded once."""

    def __init__(self, desk, server, patience):
        self.desk, self.server, self.patience = desk, server, patience
        self.turns = collections.defaultdict(threading.Lock)

    def place(self, booking):
        """The place of the booking's session, which is begun if there is none. Its answers that are on their way were sent."""
        return self.in_turn(self.go_on, booking)

    def close(self, booking, why):
        """Closes the booking's session for a reason, which is noted first; so an end whose reply is lost is asked for again."""
        self.desk.ask_to_end(booking, why)
        return self.in_turn(self.closed, booking)

    def in_turn(self, act, booking):
        if not self.turns[booking].acquire(timeout=self.patience):
            raise Away("another request of this booking is under way")
        try:
            return act(booking)
        finally:
            self.turns[booking].release()

    def go_on(self, booking):
        asked_at = self.desk.moment()
        place = self.sent(booking)
        if place.state == "waiting":
            self.desk.show(booking, place.step, place.item, asked_at)
        else:
            self.desk.end(booking, place.state)
        return place

    def closed(self, booking):
        place = self.sent(booking)
        if place.state == "waiting":
            try:
                place = self.server.close(place.session, booking)
            except Refused as refused:
                if refused.error not in ("is-closed", "other-booking", "no-session"):
                    raise
                place = self.begin(booking)
        if place.state == "waiting":
            raise Away("the session is not closed yet")
        self.desk.end(booking, place.state)
        return place

    def sent(self, booking):
        """The place after the answers that are on their way were sent, if need be once more."""
        place = self.begin(booking)
        for given in self.desk.given(booking, False):
            recorded = given.response
            try:
                require_item(place, given)
                place = self.server.answer(place.session, given.step, given.response, booking)
            except Refused as refused:  # closed meanwhile, answered otherwise by somebody else, or another server took over
                log(booking, refused)
                recorded = refused.value if refused.error == "other" else None
                place = self.begin(booking)
            self.desk.settle(booking, given.step, recorded)
        return place

    def begin(self, booking):
        return self.server.begin(booking, self.desk.withheld(booking))


def require_item(place, given):
    """Refuses an answer to another item than that for which shadowd waits at its step: the journal is of another moment."""
    if place.state == "waiting" and place.step == given.step and place.item != given.item:
        raise Refused("other-item", place.item)


def log(booking, fault):
    print(f"delivery: booking {booking}: {fault}", file=sys.stderr, flush=True)
