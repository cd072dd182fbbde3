"""The built server on a socket: one whole session, refusals, its end, and its journal read back by `replay`."""
import http.client
import json
import os
import re
import shutil
import socket
import subprocess
import threading
import time
import unittest

from common import PROGRAM, ROOT, Folder, needs_program

DATA = os.path.join(ROOT, "crates", "shadowd", "data")
FILES = [os.path.join(DATA, name) for name in ("bank.csv", "plan.txt")]
LIMIT = 60  # seconds for each wait


class Serving(Folder):
    """One run of `serve` on a free port of the loopback address, of which each worker takes a stated number of connections."""

    def start(self, listen="127.0.0.1:0", workers=1, connections=1, idle=60):
        """The first line of standard error. With "" for the connections the server has no end, and keeps idle ones aside."""
        environment = dict(os.environ, SHADOWD_JOURNAL=self.path("journal"), SHADOWD_LISTEN=listen, SHADOWD_IDLE=str(idle),
                           SHADOWD_WORKERS=str(workers), SHADOWD_CONNECTIONS=str(connections))
        self.server = subprocess.Popen([PROGRAM, "serve", *FILES], env=environment, stdin=subprocess.DEVNULL,
                                       stdout=subprocess.PIPE, stderr=subprocess.PIPE, text=True)
        watch = threading.Timer(LIMIT, self.server.kill)
        watch.start()
        self.addCleanup(watch.cancel)
        self.addCleanup(self.stop)
        return self.server.stderr.readline()

    def stop(self):
        self.server.kill()
        if not self.server.stdout.closed:
            self.server.communicate(timeout=LIMIT)

    def port(self, line, entries=0, sessions=0):
        """The port, of the line on the address, which comes after this one on the journal that was read."""
        if line == f"shadowd: journal {self.path('journal')}: there was none: it is made\n":
            line = self.server.stderr.readline()
        read = f"shadowd: journal {self.path('journal')}: {entries} entries, {sessions} sessions, read "
        self.assertRegex(line, rf"\A{re.escape(read)}\d+\.\d{{3}} seconds after the start\n\Z")
        line = self.server.stderr.readline()
        found = re.fullmatch(r"shadowd: listening on 127\.0\.0\.1:(\d+), journal (.*)\n", line)
        self.assertIsNotNone(found, line)
        self.assertEqual(found.group(2), self.path("journal"))
        return int(found.group(1))

    def last_line(self, entries, sessions):
        """What standard error has at the end of a server."""
        return f"shadowd: journal {self.path('journal')}: {entries} entries, {sessions} sessions at the end\n"

    def end(self):
        """Status, standard output, and what standard error has after the lines that were read."""
        errors = self.server.stderr.read()  # `communicate` leaves out what `readline` has in store
        said, _ = self.server.communicate(timeout=LIMIT)
        return self.server.returncode, said, errors

    def replay(self, *requests):
        script = self.write("script", "".join(request + "\n" for request in requests))
        done = subprocess.run([PROGRAM, "replay", *FILES, script], env=dict(os.environ, SHADOWD_JOURNAL=self.path("journal")),
                              stdin=subprocess.DEVNULL, capture_output=True, text=True, timeout=LIMIT)
        self.assertEqual(done.returncode, 0, done.stdout)
        return done.stdout.splitlines()

    def journal(self):
        with open(self.path("journal"), "rb") as file:
            return file.read()


@needs_program
class Session(Serving):
    """The worked session of the example's bank: items 2, 4 and 1 for the responses 1, 0 and 1."""

    def asked(self, method, path, body=None):
        self.connection.request(method, path, None if body is None else json.dumps(body))
        response = self.connection.getresponse()
        return response.status, json.loads(response.read())

    def waiting(self, step, item):
        return {"item": item, "proved": True, "session": 0, "state": "waiting", "step": step}

    def test_a_whole_session(self):
        port = self.port(self.start())
        self.connection = http.client.HTTPConnection("127.0.0.1", port, timeout=LIMIT)
        self.addCleanup(self.connection.close)
        self.assertEqual(self.asked("POST", "/sessions", {"booking": 70}), (201, self.waiting(0, 2)))
        self.assertEqual(self.asked("POST", "/sessions", {"booking": 70}), (200, self.waiting(0, 2)))
        answers = "/sessions/0/answers"
        self.assertEqual(self.asked("POST", answers, {"step": 0, "response": 2}), (422, {"error": "bad-response", "value": 2}))
        self.assertEqual(self.asked("POST", answers, {"step": 0, "response": 1}), (200, self.waiting(1, 4)))
        self.assertEqual(self.asked("POST", answers, {"step": 1, "response": 0}), (200, self.waiting(2, 1)))
        self.assertEqual(self.asked("GET", "/sessions/0"), (200, self.waiting(2, 1)))
        self.assertEqual(self.asked("POST", answers, {"step": 2, "response": 1}), (200, {"session": 0, "state": "complete"}))
        counts = {"finished": 1, "rows": [[0, 1], [1, 1], [1, 1], [0, 1], [1, 1], [0, 1]]}
        self.assertEqual(self.asked("GET", "/exposure"), (200, counts))
        self.connection.close()
        status, said, errors = self.end()
        self.assertRegex(said, r"\Aentries 7 sessions 1 finished 1 proved 3 unproved 0 aside 0 nodes \d+\n\Z")
        self.assertEqual((status, errors), (0, self.last_line(7, 1)))
        kept = self.journal()
        self.assertEqual(self.replay("begin 70", "answer 0 0 0", "answer 0 1 1", "answer 0 2 0", "exposure")[:5],
                         ["session 0 complete", "refused other 1", "refused other 0", "refused other 1", "exposure finished 1"])
        self.assertEqual(self.journal(), kept)

    def test_two_messages_in_one_piece_from_a_client_that_waits(self):
        """A server that reads on before it looks at what it has kept would wait for ever."""
        port = self.port(self.start())
        message = b"GET /sessions/9 HTTP/1.1\r\nHost: localhost\r\nContent-Length: 0\r\n\r\n"
        with socket.create_connection(("127.0.0.1", port), LIMIT) as client:
            client.settimeout(LIMIT / 2)
            client.sendall(message + message)
            said = b""
            while said.count(b"HTTP/1.1 404 Not Found\r\n") < 2 or not said.endswith(b"}"):
                piece = client.recv(4096)
                self.assertNotEqual(piece, b"", said)
                said += piece
            half = len(said) // 2
            self.assertEqual(said[:half], said[half:])
        self.assertEqual(self.end()[0], 0)

    def test_a_message_that_is_none_ends_its_connection_alone(self):
        port = self.port(self.start(workers=2))
        self.connection = http.client.HTTPConnection("127.0.0.1", port, timeout=LIMIT)
        self.addCleanup(self.connection.close)
        self.assertEqual(self.asked("POST", "/sessions", {"booking": 70})[0], 201)
        with socket.create_connection(("127.0.0.1", port), LIMIT) as other:
            other.sendall(b"nonsense\r\n\r\n")
            said = b"".join(iter(lambda: other.recv(4096), b""))
        self.assertTrue(said.startswith(b"HTTP/1.1 400 Bad Request\r\n"), said)
        self.assertTrue(said.endswith(b'{"error":"bad-head"}'), said)
        self.assertEqual(self.asked("GET", "/sessions/0"), (200, self.waiting(0, 2)))
        self.connection.close()
        self.assertEqual(self.end()[0], 0)


@needs_program
class TakenOver(Serving):
    """A server goes on with a copy of the journal that lacks the last session: its number is another booking's then."""

    def served(self, entries, sessions, *requests):
        """The replies of a server with this many entries and sessions, which then ends."""
        connection = http.client.HTTPConnection("127.0.0.1", self.port(self.start(), entries, sessions), timeout=LIMIT)
        found = []
        for path, body in requests:
            connection.request("POST", path, json.dumps(body))
            response = connection.getresponse()
            found.append((response.status, json.loads(response.read())))
        connection.close()
        self.assertEqual(self.end()[0], 0)
        return found

    def test_a_booking_that_is_named_keeps_its_own_session(self):
        begin, answers, close = "/sessions", "/sessions/1/answers", "/sessions/1/close"
        first, lost, other = {"booking": 70}, {"booking": 71}, {"booking": 72}
        self.served(0, 0, (begin, first))
        shutil.copy(self.path("journal"), self.path("copy"))
        place = {"item": 2, "proved": True, "session": 1, "state": "waiting", "step": 0}
        self.assertEqual(self.served(2, 1, (begin, lost)), [(201, place)])
        os.replace(self.path("copy"), self.path("journal"))
        refused, own = (409, {"error": "other-booking"}), {**place, "item": 4, "step": 1}
        found = self.served(
            2, 1, (answers, {"step": 0, "response": 0, **lost}), (close, lost), (begin, other), (answers, {"step": 0, "response": 0, **lost}),
            (close, lost), (answers, {"step": 0, "response": 1, **other}), (answers, {"step": 0, "response": 1, **other}),
            (answers, {"step": 0, "response": 0, **lost}), (answers, {"step": 7, "response": 9, **lost}), (begin, lost), (begin, other))
        gone = (404, {"error": "no-session", "value": 1})
        self.assertEqual(found, [gone, gone, (201, place), refused, refused, (200, own), (200, own), refused, refused,
                                 (201, {**place, "session": 2}), (200, own)])
        self.assertEqual(self.replay("answer 1 1 0 for 71", "close 1 for 71", "answer 1 1 0 for 72", "close 2 for 71", "look 1"),
                         ["refused other-booking", "refused other-booking", "session 1 step 2 item 1 proved", "session 2 closed",
                          "session 1 step 2 item 1 proved"])

    def test_bodies_that_name_no_booking(self):
        answers, close, bad = "/sessions/0/answers", "/sessions/0/close", (422, {"error": "bad-body"})
        asked = [("/sessions", {"booking": 70})]
        for value in (None, "70", 70.0, -1, 2**64, [70], True):
            asked += [(answers, {"step": 0, "response": 1, "booking": value}), (close, {"booking": value})]
        found = self.served(0, 0, *asked, (close, [71]), (close, {"booking": 71}), (close, {"booking": 70}))
        self.assertEqual(found[1:15], [bad] * 14)
        closed = [(200, {"session": 0, "state": "closed"}), (409, {"error": "other-booking"}), (409, {"error": "is-closed", "value": "closed"})]
        self.assertEqual(found[15:], closed)


# What is sent before the client falls silent.
SILENT = {"nothing": b"", "half a head": b"POST /sess", "half a body": b"POST /sessions HTTP/1.1\r\nContent-Length: 14\r\n\r\n{",
          "a whole request": b"GET /sessions/9 HTTP/1.1\r\n\r\n"}


@needs_program
class Time(Serving):
    """Connections that wait: what a client beside them gets, and how they end."""

    def connection(self, port):
        made = socket.create_connection(("127.0.0.1", port), LIMIT)
        self.addCleanup(made.close)
        made.settimeout(LIMIT)
        return made

    def status(self, connection):
        connection.sendall(b"GET /sessions/9 HTTP/1.1\r\n\r\n")
        said = b""
        while not said.endswith(b"}"):
            piece = connection.recv(4096)
            self.assertNotEqual(piece, b"", "no reply")
            said += piece
        return said.split(b" ", 2)[1]

    def test_more_connections_than_workers(self):
        """Forty clients that keep their connections open, in turn, on one worker, beside ten that send nothing."""
        port = self.port(self.start(connections=""))
        idle = [self.connection(port) for _ in range(10)]
        clients = [self.connection(port) for _ in range(40)]
        for _ in range(3):
            for client in clients:
                self.assertEqual(self.status(client), b"404")
        self.assertEqual({self.status(client) for client in idle}, {b"404"})

    def test_two_messages_in_pieces_on_a_connection_that_is_kept_aside(self):
        """The server has the half of the second message when it answers the first: it must not set the connection aside then."""
        port = self.port(self.start(connections=""))
        message, client = b"GET /sessions/9 HTTP/1.1\r\n\r\n", self.connection(port)
        client.sendall(message + message[:9])
        self.assertTrue(client.recv(4096).startswith(b"HTTP/1.1 404 "))
        time.sleep(0.2)
        client.sendall(message[9:])
        self.assertTrue(client.recv(4096).startswith(b"HTTP/1.1 404 "))

    def test_silent_clients_lose_their_connections(self):
        port = self.port(self.start(workers=8, connections="", idle=1))
        clients = {name: self.connection(port) for name in SILENT}
        for name, client in clients.items():
            client.sendall(SILENT[name])
        said = {name: b"".join(iter(lambda client=client: client.recv(4096), b"")) for name, client in clients.items()}
        self.assertTrue(said.pop("a whole request").startswith(b"HTTP/1.1 404 "))
        self.assertEqual(set(said.values()), {b""})
        self.assertEqual(self.status(self.connection(port)), b"404")

    def test_a_byte_a_second(self):
        """A message that takes longer than its limit, though each byte comes soon."""
        port = self.port(self.start(connections=""))
        client, sent = self.connection(port), 0
        try:
            for sent in range(LIMIT):
                client.sendall(b"GET /sessions/0 HTTP/1.1\r\nA: " + b"a" * 100 if sent == 0 else b"a")
                time.sleep(1)
        except OSError:
            pass
        self.assertLess(sent, 30)
        self.assertEqual(self.status(self.connection(port)), b"404")

    def test_a_client_that_does_not_read(self):
        port = self.port(self.start(connections=""))
        deaf = self.connection(port)
        deaf.setblocking(False)
        try:
            while deaf.send(b"GET /exposure HTTP/1.1\r\n\r\n" * 1000):
                pass
        except BlockingIOError:
            pass
        self.assertEqual(self.status(self.connection(port)), b"404")


@needs_program
class Clients(Serving):
    """A whole session by clients that are not ours."""

    REQUESTS = [("/sessions", '{"booking":70}')] + [("/sessions/0/answers", '{"step":%d,"response":%d}' % answer)
                                                    for answer in ((0, 1), (1, 0), (2, 1))]

    def session(self, word, arguments):
        """The state in each reply to the requests; `arguments` makes the words for an address and a body."""
        if shutil.which(word) is None:
            self.skipTest(f"needs {word}")
        port = self.port(self.start(connections="", workers=2))
        states = []
        for path, body in self.REQUESTS:
            done = subprocess.run([word, *arguments(f"http://127.0.0.1:{port}{path}", body)], capture_output=True, text=True, timeout=LIMIT)
            states.append(json.loads(done.stdout)["state"])
        self.assertEqual(states, ["waiting", "waiting", "waiting", "complete"])

    def test_curl(self):
        self.session("curl", lambda address, body: ["-s", "--http1.1", "-d", body, address])

    def test_lwp(self):
        """Perl's LWP sends `Connection: TE, close`."""
        text = "use LWP::UserAgent; my ($to, $body) = @ARGV; print LWP::UserAgent->new->post($to, Content => $body)->content"
        if shutil.which("perl") is None or subprocess.run(["perl", "-MLWP::UserAgent", "-e1"], stderr=subprocess.DEVNULL).returncode:
            self.skipTest("needs libwww-perl")
        self.session("perl", lambda address, body: ["-e", text, address, body])


@needs_program
class Pages(Serving):
    """The requests by curl and the responses beside them that the pages have."""

    def response(self, port, method, path, body):
        """The bytes of a response, of which curl shows all, or the body alone."""
        with socket.create_connection(("127.0.0.1", port), LIMIT) as connection:
            head = f"{method} {path} HTTP/1.1\r\nHost: localhost\r\nContent-Length: {len(body)}\r\n\r\n"
            connection.sendall((head + body).encode("ascii"))
            connection.shutdown(socket.SHUT_WR)
            return b"".join(iter(lambda: connection.recv(4096), b"")).decode("ascii")

    def test_the_session_of_the_tour(self):
        with open(os.path.join(ROOT, "docs", "TOUR.md"), encoding="utf-8") as page:
            found = re.findall(r"^    curl localhost:4710(\S+) -d '(.*)'\n    (.*)$", page.read(), re.M)
        self.assertGreaterEqual(len(found), 2)
        port = self.port(self.start(connections=len(found)))
        for path, body, wanted in found:
            self.assertEqual(self.response(port, "POST", path, body).partition("\r\n\r\n")[2], wanted)
        self.assertEqual(self.end()[0], 0)

    def test_the_responses_of_the_page_on_messages(self):
        with open(os.path.join(ROOT, "docs", "HTTP.md"), encoding="utf-8") as page:
            found = re.findall(r"^curl -i (?:-X (\w+) )?localhost:4710(\S+)(?: -d '(.*)')?\n(HTTP/1\.1 [^`]*)\n```", page.read(), re.M)
        self.assertEqual([wanted.splitlines()[0] for *_, wanted in found], ["HTTP/1.1 201 Created", "HTTP/1.1 200 OK", "HTTP/1.1 404 Not Found"])
        port = self.port(self.start(connections=3))
        for method, path, body, wanted in found:
            self.assertEqual(self.response(port, method or "GET", path, body), wanted.replace("\n", "\r\n"))
        self.assertEqual(self.end()[0], 0)


@needs_program
class Ends(Serving):
    def test_an_address_that_is_taken(self):
        with socket.create_server(("127.0.0.1", 0)) as taken:
            address = "127.0.0.1:%d" % taken.getsockname()[1]
            line = self.start(listen=address)
            self.assertTrue(line.startswith(f"shadowd: cannot listen on {address}: "), line)
            status, said, _ = self.end()
        self.assertEqual((status, said), (14, "door failed\n"))

    def test_a_number_that_counts_as_not_set(self):
        line = self.start(workers=32, connections=0)
        self.assertEqual(line, "shadowd: SHADOWD_WORKERS=32 counts as not set: it is no number from 1 to 16\n")
        self.port(self.server.stderr.readline())
        self.assertEqual(self.end()[0], 0)

    def test_no_connections_give_the_summary(self):
        self.port(self.start(connections=0))
        said = "entries 0 sessions 0 finished 0 proved 0 unproved 0 aside 0 nodes 0\n"
        self.assertEqual(self.end(), (0, said, self.last_line(0, 0)))

    def test_a_server_that_is_started_again_tells_what_it_read(self):
        self.replay("begin 70", "answer 0 0 1", "begin 71")
        self.port(self.start(connections=0), entries=6, sessions=2)
        self.assertEqual(self.end()[2], self.last_line(6, 2))


if __name__ == "__main__":
    unittest.main()
