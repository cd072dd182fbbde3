"""The doors of the built program: clients that dawdle, messages in parts, the queue of the listener, the end that is asked for, silent connections at `follow`."""
import contextlib
import os
import re
import select
import signal
import socket
import stat
import subprocess
import threading
import time
from pathlib import Path

from common import PROGRAM, ROOT, Folder, asked, needs_program

DATA = os.path.join(ROOT, "crates", "shadowd", "data")
FILES = [os.path.join(DATA, name) for name in ("bank.csv", "plan.txt")]
LIMIT = 60  # seconds for each wait
HELD = 4  # a message in parts, and a response that is not taken, have five seconds: whoever waits for one of them waits longer
HEAD = b"POST /sessions HTTP/1.1\r\nContent-Length: 14\r\n\r\n"
HEALTH = b"GET /health HTTP/1.1\r\n\r\n"
LOOK = b"GET /sessions/9 HTTP/1.1\r\n"
FLIGHT = 60

# Messages and the statuses of all responses to each; HTTP.md has the rules. A client waits for none of them until a limit of time.
MESSAGES = [
    (LOOK + b"\r\n", [404]),
    (b"\r\n\n\r\n" + LOOK + b"\n", [404]),
    (LOOK + b"\r\n" + LOOK + b"\r\n" + HEAD + b"nonsense that ", [404, 404, 400]),
    (LOOK + b"content-LENGTH: 5\r\n\r\nabcde" + LOOK + b"\r\n", [404, 404]),
    (LOOK + b"Connection: close\r\n\r\n" + LOOK + b"\r\n", [404]),
    (b"GET /sessions/9 HTTP/1.0\r\n\r\n", [404]),
    (b"POST /sessions HTTP/1.1\r\n\r\n", [411]),
    (LOOK + b"Transfer-Encoding: chunked\r\n\r\n", [411]),
    (LOOK + b"Content-Length: 5\r\nContent-Length: 5\r\n\r\n", [400]),
    (LOOK + b"Content-Length: +5\r\n\r\n", [400]),
    (LOOK + b"Content-Length: 0000000005\r\n\r\n", [400]),
    (LOOK + b"Content-Length: five\r\n\r\n", [400]),
    (LOOK + b"Content-Length:\r\n\r\n", [400]),
    (LOOK + b"Content-Length: 4097\r\n\r\n", [413]),
    (LOOK + b"Content-Length: 4096\r\n\r\n" + b"x" * 4096, [404]),
    (b"ping\n", [400]),
    (LOOK + b"no field\r\n", [400]),
    (LOOK + b"a: b\r\n" * 65 + b"\r\n", [400]),
    (LOOK + b"a: " + b"x" * 8200, [413]),
    (b"\r\n" * 4096, [413]),
]


class Doors(Folder):
    def run_program(self, *words, **settings):
        environment = {"PATH": os.environ["PATH"], "SHADOWD_JOURNAL": self.path("journal"), "SHADOWD_LISTEN": "127.0.0.1:0", **settings}
        done = subprocess.Popen([PROGRAM, *words], env=environment, stdin=subprocess.DEVNULL, stdout=subprocess.PIPE, stderr=subprocess.PIPE, text=True)
        self.addCleanup(self.stop, done)
        return done

    def stop(self, process):
        if process.poll() is None:
            process.kill()
        if not process.stdout.closed:
            process.communicate(timeout=LIMIT)

    def port_of(self, process):
        """The port that a line on standard error has; None where the process ends first."""
        while line := process.stderr.readline():
            found = re.match(r"shadowd: (?:listening|following) on [0-9.]+:(\d+), ", line)
            if found:
                return int(found[1])
        return None

    def serve(self, **settings):
        server = self.run_program("serve", *FILES, **settings)
        return server, self.port_of(server)

    def connected(self, port, data=b""):
        connection = socket.create_connection(("127.0.0.1", port), LIMIT)
        self.addCleanup(connection.close)
        connection.sendall(data)
        return connection

    def asked(self, port, method, path, body=None, limit=LIMIT):
        return asked(port, method, path, body, limit, {"Connection": "close"})


@needs_program
class Dawdlers(Doors):
    def beside(self, *clients):
        """A client beside these has each of its responses long before a limit of time ends one of them. The port of the server."""
        _, port = self.serve(SHADOWD_WORKERS="2")
        for client in clients:
            for _ in range(20):
                client(self.connected(port))
        for number in range(20):
            self.assertEqual(self.asked(port, "POST", "/sessions", {"booking": number}, HELD)[0], 201)
        return port

    def test_they_stop_within_a_message(self):
        port = self.beside(lambda one: one.sendall(HEAD[:9]), lambda one: one.sendall(HEAD + b'{"boo'), lambda one: one.sendall(b"\r\n"))
        self.assertEqual(self.asked(port, "GET", "/health")[1]["busy"], 1)

    def test_they_send_a_byte_now_and_then(self):
        """Within a head and within a body."""
        _, port = self.serve(SHADOWD_WORKERS="4")
        clients, over = [self.connected(port, front) for front in (b"", HEAD) for _ in range(32)], threading.Event()

        def send():
            for byte in HEAD:
                for one in clients:
                    one.sendall(bytes([byte]) if one in clients[:32] else b" ")
                if over.wait(0.5):
                    return

        sender = threading.Thread(target=send)
        sender.start()
        try:
            for number in range(20):
                self.assertEqual(self.asked(port, "POST", "/sessions", {"booking": number}, HELD)[0], 201)
        finally:
            over.set()
            sender.join()

    def test_they_do_not_close(self):
        port = self.beside(lambda one: one.sendall(LOOK + b"Connection: close\r\n\r\n"), lambda one: one.sendall(b"ping\n"))
        self.assertEqual(self.asked(port, "GET", "/health")[1]["busy"], 1)

    def test_they_read_nothing(self):
        def flood(one):
            one.setblocking(False)
            try:
                for _ in range(40):
                    one.send((b"GET /exposure HTTP/1.1\r\n\r\n") * 1000)
            except BlockingIOError:
                pass
        self.beside(flood)

    def test_a_response_that_is_taken_late(self):
        """A client that sends more than a socket holds, and then reads, has a response to each message, in order."""
        _, port = self.serve(SHADOWD_WORKERS="1")
        one, messages = self.connected(port), 30_000
        sender = threading.Thread(target=lambda: [one.sendall(LOOK + b"\r\n") for _ in range(messages)])
        sender.start()
        time.sleep(1)
        got = b""
        while got.count(b"HTTP/1.1 404") < messages:
            more = one.recv(1 << 16)
            self.assertTrue(more)
            got += more
        sender.join()
        self.assertEqual(len(set(got.split(b"HTTP/1.1 404")[1:-1])), 1)

    def test_the_limits(self):
        """What stops within a message ends without a response, and so does what is idle for too long."""
        _, port = self.serve(SHADOWD_WORKERS="1", SHADOWD_IDLE="2")
        for data, least, most in ((HEAD[:9], 4, 12), (b"", 1, 9), (HEALTH, 1, 9)):
            one, begun = self.connected(port, data), time.monotonic()
            got = b"".join(iter(lambda one=one: one.recv(4096), b""))
            self.assertEqual(got[:15], b"HTTP/1.1 200 OK" if data == HEALTH else b"")
            self.assertTrue(least < time.monotonic() - begun < most)


@needs_program
class Parts(Doors):
    def statuses(self, one):
        """The statuses of all responses until the client's end is seen, or a limit of time is met."""
        one.settimeout(HELD)
        got = b"".join(iter(lambda: one.recv(4096), b""))
        return [int(status) for status in re.findall(rb"HTTP/1.1 (\d+) ", got)]

    def test_messages_as_a_whole(self):
        _, port = self.serve(SHADOWD_WORKERS="2")
        for message, statuses in MESSAGES:
            one = self.connected(port, message)
            one.shutdown(socket.SHUT_WR)
            self.assertEqual(self.statuses(one), statuses, message[:60])

    def test_messages_byte_by_byte(self):
        """The last response comes before the client has ended its side: no message waits for more bytes than it has."""
        _, port = self.serve(SHADOWD_WORKERS="2")
        for message, statuses in MESSAGES:
            one = self.connected(port)
            one.setsockopt(socket.IPPROTO_TCP, socket.TCP_NODELAY, 1)
            got = b""
            one.settimeout(HELD)
            for place in range(len(message)):
                try:
                    one.sendall(message[place:place + 1])
                except OSError:  # the server has ended the connection
                    break
            while len(re.findall(rb"HTTP/1.1 \d+ [^\0]*?\r\n\r\n", got)) < len(statuses):
                more = one.recv(4096)
                self.assertTrue(more, message[:60])
                got += more
            self.assertEqual([int(status) for status in re.findall(rb"HTTP/1.1 (\d+) ", got)], statuses, message[:60])

    def test_a_client_that_ends_its_side(self):
        """It has the responses to the messages that are whole, and none to a part of one."""
        _, port = self.serve(SHADOWD_WORKERS="1")
        one = self.connected(port, (LOOK + b"\r\n") * 3 + HEAD + b'{"booking')
        one.shutdown(socket.SHUT_WR)
        self.assertEqual(self.statuses(one), [404] * 3)


@needs_program
class Queue(Doors):
    def test_a_burst_is_connected(self):
        """While the server does nothing at all, the system takes more connections than 128 for it. Each has its response later."""
        server, port = self.serve()
        most = int(self.read("/proc/sys/net/core/somaxconn"))
        if most < 600:
            self.skipTest("net.core.somaxconn is below 600")
        server.send_signal(signal.SIGSTOP)
        poll, clients, made = select.poll(), {}, 0
        for _ in range(500):
            one = socket.socket()
            self.addCleanup(one.close)
            one.setblocking(False)
            one.connect_ex(("127.0.0.1", port))
            poll.register(one, select.POLLOUT)
            clients[one.fileno()] = one
        until = time.monotonic() + LIMIT
        while made < 500 and time.monotonic() < until:
            for place, _ in poll.poll(1000):
                made += 1
                poll.unregister(place)
        for one in clients.values():
            one.setblocking(True)
            one.settimeout(LIMIT)
            one.sendall(HEALTH)
        server.send_signal(signal.SIGCONT)
        self.assertEqual(made, 500)
        self.assertEqual({one.recv(4096)[9:12] for one in clients.values()}, {b"200"})


@needs_program
class End(Doors):
    def setUp(self):
        super().setUp()
        self.end = self.path("end")

    def ask_for_end(self):
        """The status and the standard output of `shadowd end`."""
        done = subprocess.run([PROGRAM, "end"], env={"SHADOWD_END": self.end}, capture_output=True, text=True, timeout=LIMIT + 30)
        return done.returncode, done.stdout

    def test_requests_in_flight(self):
        server, port = self.serve(SHADOWD_END=self.end)
        sessions = [self.asked(port, "POST", "/sessions", {"booking": booking})[1]["session"] for booking in range(FLIGHT)]
        idle, half = self.connected(port, HEALTH), self.connected(port, HEAD + b"{")
        self.assertTrue(idle.recv(4096))
        got, gate = [], threading.Barrier(FLIGHT + 1)

        def client(session):
            with socket.create_connection(("127.0.0.1", port), LIMIT) as one:
                gate.wait()
                body = b'{"step":0,"response":1}'
                one.sendall(b"POST /sessions/%d/answers HTTP/1.1\r\nContent-Length: %d\r\n\r\n%s" % (session, len(body), body))
                got.append(one.recv(4096)[9:12])

        clients = [threading.Thread(target=client, args=(session,)) for session in sessions]
        for one in clients:
            one.start()
        gate.wait()
        self.assertEqual(self.ask_for_end(), (0, "ended\n"))
        for one in clients:
            one.join()
        half.sendall(b"\0")
        said, lines = server.communicate(timeout=LIMIT)
        self.assertEqual(got, [b"200"] * FLIGHT)
        self.assertEqual(server.returncode, 0)
        self.assertRegex(said, rf"^entries \d+ sessions {FLIGHT} ")
        self.assertIn("shadowd: asked to end\n", lines)
        self.assertIn(f" {FLIGHT} sessions at the end\n", lines)
        self.assertFalse(os.path.exists(self.end))

    def test_clients_that_send_without_a_pause(self):
        """Each sends its next messages before it has the responses, until its connection ends, so that each worker has a message at each moment."""
        server, port = self.serve(SHADOWD_END=self.end, SHADOWD_WORKERS="2")
        got = []

        def send(one):
            with contextlib.suppress(OSError):
                while True:
                    one.sendall(HEALTH * 64)

        def read(one):
            count = 0
            with contextlib.suppress(OSError):
                while piece := one.recv(65536):
                    count += piece.count(b"HTTP/1.1 200 ")
            got.append(count)

        clients = [self.connected(port) for _ in range(8)]
        threads = [threading.Thread(target=part, args=(one,)) for one in clients for part in (send, read)]
        for one in threads:
            one.start()
        self.assertEqual(self.asked(port, "GET", "/health")[0], 200)
        self.assertEqual(self.ask_for_end(), (0, "ended\n"))
        for one in threads:
            one.join(LIMIT)
        self.assertEqual((server.wait(LIMIT), len(got)), (0, len(clients)))
        self.assertGreater(min(got), 64)

    def asked_within_a_message(self):
        """A server that is asked to end, a connection with a part of a message, and the thread that waits for the end."""
        server, port = self.serve(SHADOWD_END=self.end)
        half = self.connected(port, HEAD + b'{"boo')
        self.asked(port, "GET", "/health")
        asks = threading.Thread(target=lambda: self.assertEqual(self.ask_for_end(), (0, "ended\n")))
        asks.start()
        while server.stderr.readline() != "shadowd: asked to end\n":
            pass
        return server, half, asks

    def test_a_message_that_has_begun(self):
        server, half, asks = self.asked_within_a_message()
        time.sleep(1)
        self.assertIsNone(server.poll())
        half.sendall(b'king":1}\n')
        self.assertEqual(half.recv(4096)[9:12], b"201")
        asks.join()
        self.assertEqual(server.wait(LIMIT), 0)

    def test_a_message_that_is_never_whole(self):
        server, half, asks = self.asked_within_a_message()
        asks.join()
        self.assertEqual(server.wait(LIMIT), 0)
        self.assertEqual(half.recv(4096), b"")

    def test_the_last_entry_is_not_recorded(self):
        """The journal is lost before the last message in hand is whole."""
        server, half, asks = self.asked_within_a_message()
        os.rename(self.path("journal"), self.path("elsewhere"))
        half.sendall(b'king":1}\n')
        self.assertEqual(half.recv(4096)[9:12], b"503")
        asks.join()
        self.assertEqual((server.communicate(timeout=LIMIT)[0], server.returncode), ("disk failed\n", 9))

    def test_the_socket(self):
        self.assertEqual(self.ask_for_end(), (14, "door failed\n"))
        server, _ = self.serve(SHADOWD_END=self.end)
        self.assertEqual(stat.S_IMODE(os.stat(self.end).st_mode), 0o600)
        # Another server of another journal and port leaves it alone, and ends.
        other = self.run_program("serve", *FILES, SHADOWD_END=self.end, SHADOWD_JOURNAL=self.path("other"))
        said, lines = other.communicate(timeout=LIMIT)
        self.assertEqual((said, other.returncode), ("door failed\n", 14))
        self.assertIn(f"cannot listen on {self.end}: ", lines)
        self.assertIsNone(server.poll())
        # What a killed server left is replaced.
        server.kill()
        server.wait()
        self.assertEqual(self.ask_for_end(), (14, "door failed\n"))
        again, port = self.serve(SHADOWD_END=self.end)
        self.assertEqual(self.asked(port, "GET", "/health")[0], 200)
        self.assertEqual(self.ask_for_end(), (0, "ended\n"))
        self.assertEqual(again.wait(LIMIT), 0)

    def test_a_path_that_is_no_socket(self):
        self.write("end", "a letter")
        server = self.run_program("serve", *FILES, SHADOWD_END=self.end)
        self.assertEqual((server.communicate(timeout=LIMIT)[0], server.returncode), ("door failed\n", 14))
        self.assertEqual(self.read("end"), "a letter")


@needs_program
class Words(Doors):
    def test_words_that_are_no_command_open_and_make_nothing(self):
        """The address is taken, so that each listening has its line; a journal, a reserve and a socket would be files of the folder."""
        taken = socket.create_server(("127.0.0.1", 0))
        self.addCleanup(taken.close)
        address = "{}:{}".format(*taken.getsockname())
        for words in (("serve",), ("serve", FILES[0]), ("serve", *FILES, "0"), ("serve", *FILES, "9", "9"), ("follow", FILES[0]), ("follow", *FILES, "9")):
            with self.subTest(words):
                done = self.run_program(*words, SHADOWD_LISTEN=address, SHADOWD_RESERVE="1000000", SHADOWD_END=self.path("end"))
                said, errors = done.communicate(timeout=LIMIT)
                self.assertEqual((done.returncode, said[:7], errors, os.listdir(self.folder)), (2, "usage: ", "", []))


@needs_program
class Follower(Doors):
    def follower(self):
        """A follower with no records, its port, and 64 strangers, of which some have ended."""
        follower = self.run_program("follow", *FILES, SHADOWD_JOURNAL=self.path("copy"))
        port = self.port_of(follower)
        for number in range(64):
            stranger = self.connected(port)
            if number % 8 == 0:
                stranger.close()
        return follower, port

    def test_silent_connections(self):
        """A leader gets in beside connections that send nothing, of which one ends now and then."""
        _, made = self.serve(SHADOWD_CONNECTIONS="0"), self.path("journal")
        self.assertTrue(os.path.exists(made))
        follower, port = self.follower()
        leader = self.run_program("ship", *FILES, SHADOWD_FOLLOWER=f"127.0.0.1:{port}")
        self.assertEqual((leader.communicate(timeout=30)[0], leader.returncode), ("shipped 0\n", 0))
        self.connected(port).close()
        time.sleep(0.5)
        self.assertIsNone(follower.poll())
        # A stranger that sends what no leader sends is judged as before.
        self.connected(port, b"x" * 64)
        self.assertEqual(follower.wait(LIMIT), 20)

    def test_a_stream_beside_silent_connections(self):
        _, port = self.serve(SHADOWD_WORKERS="1")
        self.assertEqual(self.asked(port, "POST", "/sessions", {"booking": 70})[0], 201)
        follower, place = self.follower()
        self.run_program("stream", *FILES, SHADOWD_LISTEN=f"127.0.0.1:{port}", SHADOWD_FOLLOWER=f"127.0.0.1:{place}")
        leader, copy, until = Path(self.path("journal")), Path(self.path("copy")), time.monotonic() + LIMIT
        while copy.read_bytes() != leader.read_bytes() and time.monotonic() < until:
            time.sleep(0.05)
        self.assertEqual(copy.read_bytes(), leader.read_bytes())
        self.assertGreater(len(copy.read_bytes()), 9)
        self.assertIsNone(follower.poll())
