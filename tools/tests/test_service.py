"""The built server as a service: who may ask, its health, and whole sessions by clients that are not ours."""
import http.client
import json
import os
import re
import shutil
import signal
import socket
import subprocess
import threading
import time
import unittest

from common import PROGRAM, ROOT, Folder, needs_program
from exam_client import children_of

DATA = os.path.join(ROOT, "crates", "shadowd", "data")
FILES = [os.path.join(DATA, name) for name in ("bank.csv", "plan.txt")]
LIMIT = 60  # seconds for each wait
TOKEN = "a-token.of~40+characters/with=signs_of_it"
STATES = ["waiting", "waiting", "waiting", "complete"]
REQUESTS = [("/sessions", {"booking": 70})] + [("/sessions/0/answers", {"step": step, "response": response})
                                               for step, response in enumerate((1, 0, 1))]
# A whole session by fetch: the states of its replies.
FETCH = """
const ask = (origin, path, body) => fetch(origin + path, {method: 'POST', body: JSON.stringify(body),
    headers: {'Content-Type': 'application/json', 'Authorization': 'Bearer %s'}}).then(reply => reply.json());
const whole = async origin => {
    const states = [(await ask(origin, '/sessions', {booking: 70})).state];
    for (const [step, response] of [[0, 1], [1, 0], [2, 1]])
        states.push((await ask(origin, '/sessions/0/answers', {step, response})).state);
    return states;
};
""" % TOKEN


class Service(Folder):
    """A run of `serve` on a free port of the loopback address, which has no end of its own."""

    def start(self, workers=2, token="", front=(), files=None, connections=""):
        """Starts the server, and gives its port, or None if it ends first. `self.lines` has standard error up to there; `front` is a
        command that runs the program."""
        environment = dict(os.environ, SHADOWD_JOURNAL=self.path("journal"), SHADOWD_LISTEN="127.0.0.1:0", SHADOWD_WORKERS=str(workers))
        for name in ("SHADOWD_TOKEN", "SHADOWD_CONNECTIONS", "SHADOWD_IDLE"):
            environment.pop(name, None)
        if token:
            environment["SHADOWD_TOKEN"] = token
        if connections:
            environment["SHADOWD_CONNECTIONS"] = connections
        self.server = subprocess.Popen([*front, PROGRAM, "serve", *(files or FILES)], env=environment, stdin=subprocess.DEVNULL,
                                       stdout=subprocess.PIPE, stderr=subprocess.PIPE, text=True)
        watch = threading.Timer(LIMIT, self.server.kill)
        watch.start()
        self.addCleanup(watch.cancel)
        self.addCleanup(self.stop, self.server)
        self.lines = []
        while line := self.server.stderr.readline():
            self.lines.append(line)
            found = re.match(r"shadowd: listening on [0-9.]+:(\d+), ", line)
            if found:
                return int(found[1])
        return None

    def stop(self, server):
        """Ends a server, and what it runs where it is another command."""
        if server.poll() is None:
            for child in children_of(server.pid):
                os.kill(child, signal.SIGKILL)
            server.kill()
        if not server.stdout.closed:
            server.communicate(timeout=LIMIT)

    def whole(self, port, data, *fields):
        """All that the server sends on a connection that has sent these bytes, and the fields among them, and then nothing more."""
        at = data.index("\r\n") + 2
        data = data[:at] + "".join(field + "\r\n" for field in fields) + data[at:]
        with socket.create_connection(("127.0.0.1", port), LIMIT) as connection:
            connection.settimeout(LIMIT)
            connection.sendall(data.encode("ascii"))
            connection.shutdown(socket.SHUT_WR)
            return b"".join(iter(lambda: connection.recv(4096), b"")).decode("ascii")

    def asked(self, port, method="GET", path="/health", body=""):
        """The status and the body of a response."""
        said = self.whole(port, f"{method} {path} HTTP/1.1\r\nContent-Length: {len(body)}\r\n\r\n{body}")
        return int(said.split(" ", 2)[1]), json.loads(said.partition("\r\n\r\n")[2])

    def begun(self, port, booking):
        return self.asked(port, "POST", "/sessions", json.dumps({"booking": booking}))[0]


@needs_program
class Clients(Service):
    """A whole session by clients that are not ours, over a server with a token."""

    def session(self, word, arguments):
        """The requests by a command; `arguments` makes its words for an address and a body."""
        port, states = self.start(token=TOKEN), []
        for path, body in REQUESTS:
            done = subprocess.run([word, *arguments(f"http://127.0.0.1:{port}{path}", json.dumps(body))], capture_output=True, text=True,
                                  timeout=LIMIT, check=False)
            states.append(json.loads(done.stdout)["state"])
        self.assertEqual(states, STATES)

    def test_curl(self):
        if shutil.which("curl") is None:
            self.skipTest("needs curl")
        self.session("curl", lambda address, body: ["-s", "--http1.1", "-H", f"Authorization: Bearer {TOKEN}", "-d", body, address])

    def test_lwp(self):
        """Perl's LWP sends `Connection: TE, close`."""
        text = "use LWP::UserAgent; my ($to, $body) = @ARGV; " \
               f"print LWP::UserAgent->new->post($to, Authorization => 'Bearer {TOKEN}', Content => $body)->content"
        if shutil.which("perl") is None or subprocess.run(["perl", "-MLWP::UserAgent", "-e1"], stderr=subprocess.DEVNULL, check=False).returncode:
            self.skipTest("needs libwww-perl")
        self.session("perl", lambda address, body: ["-e", text, address, body])

    def test_http_client_of_python(self):
        """By turns on a connection that stays open, and on one of its own."""
        port = self.start(token=TOKEN)
        kept, states = http.client.HTTPConnection("127.0.0.1", port, timeout=LIMIT), []
        self.addCleanup(kept.close)
        for number, (path, body) in enumerate(REQUESTS):
            connection = kept if number % 2 else http.client.HTTPConnection("127.0.0.1", port, timeout=LIMIT)
            connection.request("POST", path, json.dumps(body), {"Authorization": f"Bearer {TOKEN}", "Content-Type": "application/json"})
            states.append(json.loads(connection.getresponse().read())["state"])
            if connection is not kept:
                connection.close()
        self.assertEqual(states, STATES)

    def test_fetch_of_node(self):
        if shutil.which("node") is None or subprocess.run(["node", "-e", "fetch"], stderr=subprocess.DEVNULL, check=False).returncode:
            self.skipTest("needs node with fetch")
        text = FETCH + f"whole('http://127.0.0.1:{self.start(token=TOKEN)}').then(states => console.log(JSON.stringify(states)))"
        done = subprocess.run(["node", "-e", text], capture_output=True, text=True, timeout=LIMIT, check=False)
        self.assertEqual(json.loads(done.stdout or "null"), STATES, done.stderr)

    def test_fetch_of_a_browser(self):
        """A page of the server itself in headless Chromium, on one worker: the browser may open other connections that send nothing."""
        driver = self.browser()
        driver.get(f"http://127.0.0.1:{self.start(workers=1, token=TOKEN)}/health")
        found = driver.execute_async_script(FETCH + "const done = arguments[0]; whole('').then(done, fault => done(String(fault)));")
        self.assertEqual(found, STATES)

    def browser(self):
        try:
            from selenium import webdriver
            from selenium.webdriver.chrome.service import Service as Driver
        except ImportError:
            self.skipTest("needs python3-selenium")
        if not os.path.exists("/usr/bin/chromium") or not os.path.exists("/usr/bin/chromedriver"):
            self.skipTest("needs chromium, chromium-driver")
        options = webdriver.ChromeOptions()
        options.binary_location = "/usr/bin/chromium"
        for word in ("--headless=new", "--no-sandbox", "--disable-gpu", "--disable-dev-shm-usage"):
            options.add_argument(word)
        driver = webdriver.Chrome(service=Driver("/usr/bin/chromedriver"), options=options)
        self.addCleanup(driver.quit)
        driver.set_page_load_timeout(LIMIT)
        driver.set_script_timeout(LIMIT)
        return driver


@needs_program
class Tokens(Service):
    """A server with a token."""

    LOOK, HEALTH = "GET /sessions/9 HTTP/1.1\r\n\r\n", "GET /health HTTP/1.1\r\n\r\n"

    def status(self, port, data, *fields):
        return self.whole(port, data, *fields).split(" ", 2)[1]

    def test_who_may_ask(self):
        port, good = self.start(token=TOKEN), f"Authorization: Bearer {TOKEN}"
        for fields in ([good], [f"authorization:\tBearer {TOKEN} "], [f"Authorization: bEARER {TOKEN}"], [good, "Accept: */*"]):
            self.assertEqual(self.status(port, self.LOOK, *fields), "404", fields)
        for fields in ([], [good[:-1]], [good[:-1] + "x"], [good + "x"], ["Authorization: Bearer"], [f"Authorization: Basic {TOKEN}"],
                       [f"Authorization: {TOKEN}"], [f"Authorization: Bearer  {TOKEN}"], [good, good],
                       ["Authorization: Bearer x", good], [f"X-Authorization: Bearer {TOKEN}"]):
            self.assertEqual(self.status(port, self.LOOK, *fields), "401", fields)
        self.assertEqual(self.status(port, self.HEALTH), "200")
        self.assertEqual(self.status(port, self.HEALTH.replace("/health", "/health?full")), "200")
        for method in ("POST", "HEAD", "PUT"):
            message = self.HEALTH.replace("GET", method).replace("1.1\r\n", "1.1\r\nContent-Length: 0\r\n")
            self.assertEqual((self.status(port, message), self.status(port, message, good)), ("401", "405"), method)

    def test_nothing_is_done_without_it(self):
        port = self.start(token=TOKEN)
        begin = 'POST /sessions HTTP/1.1\r\nContent-Length: 14\r\n\r\n{"booking":70}'
        self.assertEqual(self.status(port, begin), "401")
        self.assertIn('"entries":0', self.whole(port, self.HEALTH))
        self.assertEqual(self.status(port, begin, f"Authorization: Bearer {TOKEN}"), "201")

    def test_the_connection_goes_on_after_a_refusal(self):
        port = self.start(token=TOKEN)
        said = self.whole(port, self.LOOK + self.LOOK.replace("\r\n\r\n", f"\r\nAuthorization: Bearer {TOKEN}\r\n\r\n"))
        self.assertEqual(re.findall(r"HTTP/1\.1 (\d+)", said), ["401", "404"])
        with open(os.path.join(ROOT, "docs", "HTTP.md"), encoding="utf-8") as page:
            wanted = re.search(r"^```\n(HTTP/1\.1 401 [^`]*)\n```", page.read(), re.M).group(1)
        self.assertTrue(said.startswith(wanted.replace("\n", "\r\n")), said)

    def test_a_token_that_is_none(self):
        """The server does not start, also with a token that is no UTF-8; one of the greatest length is taken."""
        for token in ("two words", "caf\u00e9", "caf\udce9", "tab\there", "x" * 1025):
            with self.subTest(token[:10]):
                self.assertIsNone(self.start(token=token))
                self.server.communicate(timeout=LIMIT)
                self.assertEqual((self.server.returncode, len(self.lines)), (2, 1), self.lines)
                self.assertIn("SHADOWD_TOKEN", self.lines[0])
                self.assertNotIn(token, self.lines[0])
                self.assertFalse(os.path.exists(self.path("journal")))
        port = self.start(token="~" * 1024)
        self.assertEqual(self.status(port, self.LOOK, "Authorization: Bearer " + "~" * 1024), "404")


@needs_program
class Health(Service):
    """What `GET /health` answers."""

    def numbers(self, port, body=""):
        """The numbers of a server that is well, without that of the workers. The one before this may not have ended yet."""
        status, found = self.asked(port, body=body)
        self.assertEqual(status, 200)
        self.assertIn(found.pop("busy"), (1, 2))
        return found

    def test_the_numbers(self):
        """The worked session has two entries for each item, one for the last answer, and its journal may have 67,108,864 bytes."""
        port = self.start()
        self.assertEqual(self.numbers(port), {"entries": 0, "open": 0, "room": 67_108_855})
        for (path, body), entries, opened in zip(REQUESTS, (2, 4, 6, 7), (1, 1, 1, 0)):
            self.asked(port, "POST", path, json.dumps(body))
            wanted = {"entries": entries, "open": opened, "room": 67_108_864 - os.path.getsize(self.path("journal"))}
            self.assertEqual(self.numbers(port, "not JSON"), wanted)
        self.assertEqual(self.begun(port, 71), 201)
        self.assertEqual(self.numbers(port)["open"], 1)
        self.asked(port, "POST", "/sessions/1/close")
        self.assertEqual(self.numbers(port)["open"], 0)

    def test_another_method(self):
        port = self.start()
        for method in ("POST", "PUT", "HEAD", "get"):
            self.assertEqual(self.asked(port, method), (405, {"error": "no-method"}))
        self.assertEqual(self.asked(port, path="/health/"), (404, {"error": "no-route"}))

    def test_workers_that_are_busy(self):
        """A client between two messages holds no worker, and one within a message neither. With a number of connections each connection holds one."""
        port = self.start(workers=3)
        idle = self.connected(port)
        idle.sendall(b"GET /sessions/9 HTTP/1.1\r\n\r\n")
        self.assertTrue(idle.recv(4096))
        self.connected(port).sendall(b"GET /sessions/9")
        time.sleep(0.5)  # its worker has the part by then
        self.assertEqual(self.asked(port)[1]["busy"], 1)
        self.stop(self.server)
        os.remove(self.path("journal"))
        port = self.start(workers=3, connections="100")
        within = self.connected(port)
        within.sendall(b"GET /sessions/9")
        self.assertTrue(self.becomes(port, 2, 4))  # a message in parts has five seconds between its bytes
        within.close()
        self.assertTrue(self.becomes(port, 1, LIMIT))

    def connected(self, port):
        connection = socket.create_connection(("127.0.0.1", port), LIMIT)
        self.addCleanup(connection.close)
        return connection

    def becomes(self, port, busy, seconds):
        """Whether a look finds so many busy workers within some seconds."""
        until = time.monotonic() + seconds
        while self.asked(port)[1]["busy"] != busy:
            if time.monotonic() > until:
                return False
            time.sleep(0.2)  # the connection of the look before has ended by then
        return True

    def test_a_disk_that_fails(self):
        """Syncs fail from one on: no look finds the server well. Where they succeed again after some, a look settles what is in doubt."""
        log = self.path("calls")
        words = ["strace", "-f", "-o", log, "-e", "trace=fsync,fdatasync"]
        if shutil.which("strace") is None or subprocess.run([*words, "true"], stderr=subprocess.DEVNULL, check=False).returncode:
            self.skipTest("needs strace, which may trace")
        port = self.start(workers=1, front=words)
        opening = threads_that_sync(log)
        self.assertEqual(self.begun(port, 70), 201)
        first = opening.count(threads_that_sync(log)[len(opening)]) + 1  # strace counts the calls of each thread
        self.stop(self.server)
        for last in ("+", f"..{first + 2}"):
            with self.subTest(last):
                os.remove(self.path("journal"))
                fault = f"inject=fsync,fdatasync:error=EIO:when={first}{last}"
                port = self.start(workers=1, front=[*words, "-e", fault])
                self.assertEqual(self.asked(port)[0], 200)
                self.assertEqual(self.begun(port, 70), 503)
                found = [self.asked(port) for _ in range(6)]
                sick = [status for status, _ in found].count(503)
                self.assertGreater(sick, 0)
                self.assertEqual(found[:sick], [(503, {"error": "disk"})] * sick)
                if last == "+":
                    self.assertEqual(sick, 6)
                else:
                    self.assertEqual({status for status, _ in found[sick:]}, {200})
                    self.assertIn(self.begun(port, 70), (200, 201))
                    self.assertEqual(self.asked(port)[1]["open"], 1)
                self.stop(self.server)


def threads_that_sync(log):
    """The threads of the syncs in a trace, in order."""
    with open(log, encoding="utf-8") as file:
        return re.findall(r"(?m)^(\d+) +f(?:data)?sync\(", file.read())


@needs_program
class Lines(Service):
    """What an operator finds on standard error."""

    def plan(self, line):
        """The example's bank, and its plan with a line more."""
        with open(FILES[1], encoding="ascii") as file:
            return [FILES[0], self.write("plan.txt", file.read() + line + "\n")]

    def lines_of(self, count):
        return [self.server.stderr.readline() for _ in range(count)]

    def test_the_journal_and_then_the_address(self):
        self.start()
        read = rf"shadowd: journal {re.escape(self.path('journal'))}: 0 entries, 0 sessions, read \d+\.\d\d\d seconds after the start\n"
        made = rf"shadowd: journal {re.escape(self.path('journal'))}: there was none: it is made\n"
        self.assertRegex("".join(self.lines), rf"\A{made}{read}shadowd: listening on 127\.0\.0\.1:\d+, journal {re.escape(self.path('journal'))}\n\Z")

    def test_most_of_the_sessions(self):
        """Of five sessions four are 80 of 100, and the fifth is above 95; each level has one line."""
        port = self.start(files=self.plan("sessions 5"))
        self.assertEqual([self.begun(port, booking) for booking in (1, 2, 3, 4, 4, 5, 5, 6)], [201, 201, 201, 201, 200, 201, 200, 507])
        self.assertEqual(self.lines_of(2), ["shadowd: 80 of 100 of the plan's sessions: 4 have started, and 1 may still start\n",
                                            "shadowd: 95 of 100 of the plan's sessions: 5 have started, and 0 may still start\n"])
        self.server.terminate()
        self.assertEqual(self.server.communicate(timeout=LIMIT)[1], "")

    def test_most_of_the_journal(self):
        """The header, a start of 83 bytes, an item of 92 and the closed gate are 184: 80 of 100 of 230. The answer adds 13."""
        port = self.start(files=self.plan("journal 230"))
        self.assertEqual(self.begun(port, 70), 201)
        self.assertEqual(self.lines_of(1), ["shadowd: 80 of 100 of the plan's journal: it has 184 bytes, and room for 46 more\n"])
        self.assertEqual(self.asked(port, "POST", REQUESTS[1][0], json.dumps(REQUESTS[1][1]))[0], 507)
        self.assertEqual(self.asked(port)[1]["room"], 33)


@needs_program
class Backups(Service):
    """The commands by which OPERATING tests a copy of the journal, and restores one."""

    def setUp(self):
        super().setUp()
        if shutil.which("curl") is None or shutil.which("bash") is None:
            self.skipTest("needs curl and bash")
        os.mkdir(self.path("bin"))
        os.symlink(PROGRAM, self.path("bin/shadowd"))

    def commands(self, pattern, port):
        """Lines of the page, over the files and the server of this test."""
        with open(os.path.join(ROOT, "docs", "OPERATING.md"), encoding="utf-8") as page:
            text = re.search(pattern, page.read(), re.M | re.S).group(1)
        for path, other in (("/backup/", self.folder + "/"), ("/var/lib/shadowd/spring", self.folder), ("127.0.0.1:4710", f"127.0.0.1:{port}"),
                            ("/etc/shadowd/spring/bank.csv", FILES[0]), ("/etc/shadowd/spring/plan.txt", FILES[1])):
            self.assertIn(path, text)
            text = text.replace(path, other)
        return text

    def run_text(self, text):
        path = self.path("bin") + os.pathsep + os.environ["PATH"]
        return subprocess.run(["bash", "-c", text], env=dict(os.environ, PATH=path), capture_output=True, text=True, timeout=LIMIT, check=False)

    def test_only_a_whole_copy_is_good(self):
        """Not none, an empty one, one that is shorter than a header, or one that was cut; and none where no server answers."""
        port = self.start()
        self.assertEqual([self.begun(port, booking) for booking in (70, 71)], [201, 201])
        text, copied = self.commands(r"^## Backup of the journal\n.*?^```\n(.*?)^```$", port), "&& sync $COPY\n"
        self.assertIn(copied, text)
        for change, good in (("true", True), ("rm $COPY", False), (": > $COPY", False), ("truncate -s 8 $COPY", False), ("truncate -s 9 $COPY", False),
                             ("truncate -s -1 $COPY", False), ("truncate -s -20 $COPY", False), ("BEFORE=", False)):
            done = self.run_text(text.replace(copied, f"{copied}{change}\n"))
            self.assertRegex(done.stdout, r"is good: 4 entries\n\Z" if good else r"IS NO BACKUP\n\Z", change)

    def test_a_restore(self):
        """The old file is kept, the copy is in its place with its mode, and the server is asked to stop before and to start after."""
        port = self.start()
        self.assertEqual(self.begun(port, 70), 201)
        shutil.copy(self.path("journal"), self.path("spring.20261202-090000.journal"))
        self.assertEqual(self.begun(port, 71), 201)
        self.stop(self.server)
        for name in ("systemctl", "journalctl"):
            self.write("bin/" + name, f'#!/bin/sh\necho "{name} $1, $(stat -c %s {self.path("journal")})" >> {self.path("asked")}\n')
            os.chmod(self.path("bin/" + name), 0o755)
        before = os.path.getsize(self.path("journal"))
        text = self.commands(r"^### Restore\n(.*?)^5\. ", port)
        text = "".join(line.strip() + "\n" for line in text.splitlines() if line.startswith("       ")).replace("-o shadowd -g shadowd ", "")
        done = self.run_text(text)
        self.assertIn("\nentries 2 sessions 1 ", done.stdout, done.stderr)
        after = os.path.getsize(self.path("spring.20261202-090000.journal"))
        self.assertEqual(self.read("asked").splitlines()[:2], [f"systemctl stop, {before}", f"systemctl start, {after}"])
        self.assertEqual(os.stat(self.path("journal")).st_mode & 0o777, 0o600)
        kept = [name for name in os.listdir(self.folder) if name.startswith("journal.old-")]
        self.assertEqual([os.path.getsize(self.path(name)) for name in kept], [before])
        self.assertIn('"entries":2', self.whole(self.start(), "GET /health HTTP/1.1\r\n\r\n"))


class Units(Folder):
    """The units of systemd: the server's, the follower's and the stream's."""

    UNITS = {"shadowd": "serve", "shadowd-follow": "follow", "shadowd-stream": "stream"}

    def unit(self, name):
        with open(os.path.join(ROOT, "examples", "service", name + "@.service"), encoding="utf-8") as file:
            return file.read()

    def test_what_they_run(self):
        """Each runs a command of the program over the one layout, and they have the same walls."""
        walls = []
        for name, command in self.UNITS.items():
            unit = self.unit(name)
            self.assertEqual(re.findall(r"(?m)^ExecStart=(.*)$", unit),
                             [f"/usr/local/bin/shadowd {command} /etc/shadowd/%i/bank.csv /etc/shadowd/%i/plan.txt"])
            self.assertIn("\nEnvironment=SHADOWD_JOURNAL=/var/lib/shadowd/%i/journal\n", unit)
            walls.append(unit[unit.index("LimitNOFILE="):unit.index("[Install]")])
        self.assertEqual(walls, walls[:1] * 3)
        self.assertIn("\nEnvironment=SHADOWD_MAKE=no\n", self.unit("shadowd"))
        for name in ("shadowd-follow", "shadowd-stream"):  # the first fault of a link ends a follower
            self.assertIn("\nRestart=always\n", self.unit(name))

    def test_systemd_takes_them(self):
        if shutil.which("systemd-analyze") is None:
            self.skipTest("needs systemd-analyze")
        for name in self.UNITS:
            self.write(name + "@.service", self.unit(name).replace("/usr/local/bin/shadowd", "/bin/true"))
        for name in self.UNITS:
            done = subprocess.run(["systemd-analyze", "verify", self.path(name + "@spring.service")], capture_output=True, text=True, timeout=LIMIT, check=False)
            self.assertEqual((done.returncode, done.stderr), (0, ""), name)


if __name__ == "__main__":
    unittest.main()
