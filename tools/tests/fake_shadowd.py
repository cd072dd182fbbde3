#!/usr/bin/env python3
"""A small stand-in for shadowd: check, assemble, replay and serve over a journal, with forms from all sets of items.

usage: fake_shadowd.py check BANK PLAN | assemble BANK PLAN | replay BANK PLAN SCRIPT | serve BANK PLAN

Environment: SHADOWD_JOURNAL, SHADOWD_LISTEN and SHADOWD_CONNECTIONS as shadowd has them; FAKE makes it faulty:
`rules` leaves the plan's rules out, `refuse` refuses the answer of step 1, `status` ends with 9, `end` the same after it has an address, `count` counts an
exposure wrong, `answer` records another response, `garbled` serves an item that the bank does not have, `list` forgets the list of a booking.
"""
import json
import os
import sys
import threading

sys.path[:0] = [os.path.dirname(os.path.dirname(os.path.abspath(__file__))), os.path.dirname(os.path.abspath(__file__))]
import check_tree  # noqa: E402
import data_of_bank_a as bytes_of  # noqa: E402
from examination import read_bank, read_journal, read_plan, sessions_of  # noqa: E402
from shadowtools.formats.exposure import exposure_of  # noqa: E402
from shadowtools.formats.tables import members  # noqa: E402

FAULT = os.environ.get("FAKE", "")
PATH = os.environ.get("SHADOWD_JOURNAL", "shadowd.journal")


class Office:
    """The sessions of a journal, which is read at the start and added to."""

    def __init__(self, bank_path, plan_path):
        self.bank, self.plan = read_bank(bank_path), read_plan(plan_path)
        tables = check_tree.read_bank(bank_path)
        plan = check_tree.read_plan(plan_path, tables)
        if FAULT == "rules":
            plan = plan._replace(rows=[])
        self.problem = check_tree.Problem(tables, plan, 0, frozenset(), frozenset(), None)
        self.sessions = sessions_of(read_journal(PATH)) if os.path.exists(PATH) else []
        self.lock, self.ended = threading.Lock(), 0

    def add(self, payload):
        data = open(PATH, "rb").read() if os.path.exists(PATH) else b"SHADOWJ2\0"
        with open(PATH, "wb") as file:
            file.write(data[:-1] + b"\1" + len(payload).to_bytes(4, "big") + payload + b"\0")

    def serve(self, number):
        """Serves the next item of a session, if there is one."""
        session = self.sessions[number]
        step = len(session.responses)
        if step == self.plan.length:
            return
        counts = self.counts()
        seat = counts.seats[number]
        given, all_items = frozenset(session.items), frozenset(range(len(self.bank)))
        may = frozenset(counts.may(seat, counts.band_now(seat)))
        problem = self.problem._replace(theta=seat.sums.index(max(seat.sums)), given=given, barred=all_items - may - given)
        form = check_tree.best_of_all(problem)
        if form is None:
            self.add(bytes_of.set_aside(number, step, counts.band_now(seat), 0, 1, bytes.fromhex("0006")))
            form = check_tree.best_of_all(problem._replace(barred=session.without))
        item = max(sorted(form - given), key=lambda i: self.bank[i].information[problem.theta])
        self.add(bytes_of.served(number, step, item, form))
        session.items.append(item)

    def counts(self):
        """The exposure so far, with the seats of the sessions."""
        return exposure_of(read_journal(PATH) if os.path.exists(PATH) else [], self.bank, self.plan)

    def begin(self, booking, without=frozenset()):
        """The number of the booking's session, or None where there is no form without the items of its list."""
        for number, session in enumerate(self.sessions):
            if session.booking == booking:
                return number
        number = len(self.sessions)
        counts = self.counts()
        sets = [counts.draw(number, band) for band in range(self.plan.bands)]
        if without and FAULT != "list":
            form = check_tree.best_of_all(self.problem._replace(barred=without))
            if form is None:
                return None
            self.add(bytes_of.started_without(number, booking, without, form, sets))
        else:
            self.add(bytes_of.started(number, booking, sets))
        self.sessions = sessions_of(read_journal(PATH))
        self.serve(number)
        return number

    def answer(self, number, step, response):
        session = self.sessions[number]
        if FAULT == "refuse" and step == 1:
            return False
        if step == len(session.responses) < self.plan.length:
            kept = 1 - response if FAULT == "answer" and step == 1 else response
            self.add(bytes_of.answered(number, step, kept))
            session.responses.append(kept)
            self.serve(number)
        return True

    def complete(self, number):
        return len(self.sessions[number].responses) == self.plan.length

    def line(self, number):
        session = self.sessions[number]
        if self.complete(number):
            return f"session {number} complete"
        item = 999 if FAULT == "garbled" else session.items[-1]
        return f"session {number} step {len(session.responses)} item {item} proved"

    def place(self, number):
        session = self.sessions[number]
        if self.complete(number):
            return {"session": number, "state": "complete"}
        item = None if FAULT == "garbled" else session.items[-1]
        return {"item": item, "proved": True, "session": number, "state": "waiting", "step": len(session.responses)}

    def exposure(self):
        total = self.counts().total
        rows = [list(row) for row in zip(total.shown, total.eligible)]
        rows[0][0] += FAULT == "count"
        return total.visited, rows


def replay(office, requests):
    for request in requests:
        words = request.split()
        if words[0] == "begin":
            begun = office.begin(int(words[1]), frozenset(members(words[3:])))
            print("refused no-form" if begun is None else office.line(begun))
        elif words[0] == "exposure":
            finished, rows = office.exposure()
            print("exposure finished", finished)
            for item, (shown, eligible) in enumerate(rows):
                print("item", item, "shown", shown, "eligible", eligible)
        elif office.answer(*map(int, words[1:])):
            print(office.line(int(words[1])))
        else:
            print("refused bad-response 2")


def handler(office):
    from http.server import BaseHTTPRequestHandler

    class Handler(BaseHTTPRequestHandler):
        protocol_version = "HTTP/1.1"

        def log_message(self, *words):
            pass

        def finish(self):
            """The last of as many connections as there are workers ends the server."""
            super().finish()
            with office.lock:
                office.ended += 1
                if office.ended == int(os.environ["SHADOWD_WORKERS"]):
                    print("entries told", flush=True)
                    os._exit(0)

        def told(self, status, body):
            text = json.dumps(body).encode()
            self.send_response(status)
            self.send_header("Content-Length", str(len(text)))
            self.end_headers()
            self.wfile.write(text)

        def do_GET(self):
            finished, rows = office.exposure()
            self.told(200, {"finished": finished, "rows": rows})

        def do_POST(self):
            body = json.loads(self.rfile.read(int(self.headers["Content-Length"])))
            with office.lock:
                if self.path == "/sessions":
                    begun = office.begin(body["booking"], frozenset(body.get("without", ())))
                    self.told(*((422, {"error": "no-form"}) if begun is None else (201, office.place(begun))))
                    return
                number = int(self.path.split("/")[2])
                if office.answer(number, body["step"], body["response"]):
                    self.told(200, office.place(number))
                else:
                    self.told(422, {"error": "bad-response", "value": 2})
    return Handler


def main(words):
    if words[1] == "check":
        office = Office(*words[2:4])
        points = len(office.plan.prior)
        print(f"bank items {len(office.bank)} grid {points} quantities 0 stimuli 0")
        return 0
    if words[1] == "assemble":
        office = Office(*words[2:4])
        problem = office.problem._replace(theta=office.plan.start)
        best = check_tree.best_of_all(problem)
        print("form", *sorted(best))
        print("objective", check_tree.objective(problem, best), "proved nodes 1")
        print("tree 0006")
        return 0
    if FAULT == "status":
        print("disk failed")
        return 9
    office = Office(*words[2:4])
    if words[1] == "replay":
        with open(words[4]) as file:
            replay(office, file.read().splitlines())
        return 0
    from http.server import ThreadingHTTPServer  # not at the top, since it is slow to import

    host, port = os.environ["SHADOWD_LISTEN"].split(":")
    server = ThreadingHTTPServer((host, int(port)), handler(office))
    print("shadowd: listening on %s:%d, journal %s" % (*server.server_address, PATH), file=sys.stderr, flush=True)
    if FAULT == "end":
        return 9
    server.serve_forever()
    return 0


if __name__ == "__main__":
    sys.exit(main(sys.argv))
