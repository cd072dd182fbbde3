"""What the tests share: an examination in a folder of its own, a stand-in for shadowd, and the program as a process."""
import contextlib
import hashlib
import http.client
import importlib.util
import json
import os
import re
import signal
import socket
import subprocess
import sys
import tempfile
import time
import unittest
import urllib.parse

HERE = os.path.dirname(os.path.dirname(os.path.abspath(__file__)))
EXAMPLES = os.path.dirname(HERE)
PROGRAM = os.environ.get("SHADOWD") or os.path.join(EXAMPLES, "..", "crates", "shadowd", "out", "shadowd")
LIMIT = 300  # seconds for each wait: the machine may be busy


# Two users, whose passwords are `p` and `q` sixteen times, with salts of zeros and a cost that is good for tests alone: the hashes are those of OpenSSL's command
# openssl kdf -keylen 32 -kdfopt pass:pppppppppppppppp -kdfopt hexsalt:00000000000000000000000000000000 -kdfopt n:1024 -kdfopt r:8 -kdfopt p:1 SCRYPT
STAFF = """[users.looker]
role = "look"
password = "1024:8:1:00000000000000000000000000000000:bfef008843442e6f2cd2b2b46a22379332b82c75c89bea95f25cd3503880bd60"
[users.actor]
role = "act"
password = "1024:8:1:00000000000000000000000000000000:54ef21a0bd00bd64d252bb45a3ed231d9894f3e818f0c08be37e8a86c6ca8bb7"
"""


def has(*modules):
    return all(importlib.util.find_spec(module) for module in modules)


needs_flask = unittest.skipUnless(has("flask", "flask_wtf", "waitress"), "needs python3-flask, python3-flaskext.wtf, python3-waitress")
needs_program = unittest.skipUnless(os.path.exists(PROGRAM), "needs the built program")
needs_browser = unittest.skipUnless(has("selenium") and os.path.exists("/usr/bin/chromium") and os.path.exists("/usr/bin/chromedriver"),
                                    "needs chromium, chromium-driver, python3-selenium")


def free_port():
    with socket.create_server(("127.0.0.1", 0)) as one:
        return one.getsockname()[1]


def wait_until(holds, what):
    until = time.monotonic() + LIMIT
    while not holds():
        if time.monotonic() > until:
            raise AssertionError(f"not within {LIMIT} seconds: {what}")
        time.sleep(0.02)


def listens(port):
    with contextlib.suppress(OSError), socket.create_connection(("127.0.0.1", port), 1):
        return True
    return False


class Examination(unittest.TestCase):
    """A test with settings of an example in a folder of its own."""
    example = "knowledge"

    def setUp(self):
        holder = tempfile.TemporaryDirectory(dir="/dev/shm" if os.access("/dev/shm", os.W_OK) else None)
        self.addCleanup(holder.cleanup)
        self.folder = holder.name
        self.ports = {name: free_port() for name in ("listen", "control_listen", "server")}
        for name, text in (("secret", "s" * 32), ("journal", ""), ("staff.toml", STAFF)):
            self.write(name, text)
        data = os.path.join(EXAMPLES, self.example, self.example)
        with open(data + ".plan.txt", encoding="ascii") as plan:
            self.write("plan.txt", plan.read() + f"rate 2 3\nkey {'07' * 32}\n")
        with open(data + ".map.json", encoding="utf-8") as file:
            found = json.load(file)
        found["sha256"]["plan"] = hashlib.sha256(self.bytes_of("plan.txt")).hexdigest()
        self.write("map.json", json.dumps(found))
        paths = {"program": PROGRAM, "bank": data + ".bank.csv", "plan": "plan.txt", "map": "map.json",
                 "texts": os.path.join(HERE, "texts", self.example), "journal": "journal", "store": "store", "secret": "secret",
                 "staff": "staff.toml", "title": "A <b>test</b>"}
        lines = [f'{name} = "127.0.0.1:{port}"' for name, port in self.ports.items()]
        lines += [f'{name} = "{value}"' for name, value in paths.items()]
        self.settings_path = self.write("settings.toml", "\n".join([*lines, "secure_cookies = false", f"patience = {LIMIT}", ""]))
        self.bank, self.plan = paths["bank"], self.path("plan.txt")

    def path(self, name):
        return os.path.join(self.folder, name)

    def write(self, name, text):
        with open(self.path(name), "w", encoding="utf-8") as file:
            file.write(text)
        return self.path(name)

    def read(self, name):
        with open(self.path(name), encoding="utf-8") as file:
            return file.read()

    def bytes_of(self, name):
        with open(self.path(name), "rb") as file:
            return file.read()

    def change_settings(self, **changed):
        """Gives settings other values, in the spelling of TOML; an empty one leaves the setting out."""
        with open(self.settings_path, encoding="utf-8") as file:
            kept = [line for line in file if line.partition(" = ")[0] not in changed]
        self.write("settings.toml", "".join(kept + [f"{name} = {value}\n" for name, value in changed.items() if value]))

    def settings(self):
        from settings import read_settings
        return read_settings(self.settings_path)

    def desk(self):
        from booking_desk import Desk
        return Desk(self.path("store"), "s" * 32)

    def start(self, *words, **environment):
        """A process that is ended with the test."""
        process = subprocess.Popen(words, env=os.environ | environment, stdin=subprocess.DEVNULL,
                                   stdout=subprocess.DEVNULL, stderr=subprocess.DEVNULL)
        self.addCleanup(process.wait)
        self.addCleanup(process.kill)
        return process

    def start_server(self, port=None):
        port = port or self.ports["server"]
        process = self.start(PROGRAM, "serve", self.bank, self.plan, SHADOWD_JOURNAL=self.path("journal"),
                             SHADOWD_LISTEN=f"127.0.0.1:{port}", SHADOWD_WORKERS="16")
        wait_until(lambda: process.poll() is not None or listens(port), "shadowd listens")
        self.assertIsNone(process.poll())
        return process

    def start_pages(self, name="delivery", port="listen"):
        process = self.start(sys.executable, os.path.join(HERE, name + ".py"), self.settings_path)
        wait_until(lambda: process.poll() is not None or listens(self.ports[port]), f"{name} listens")
        self.assertIsNone(process.poll())
        return process

    def kill(self, process):
        process.send_signal(signal.SIGKILL)
        process.wait()

    def journal_sessions(self):
        """The sessions of the journal, as the reader of the tools has them."""
        from readers import read_journal, sessions_of
        return sessions_of(read_journal(self.path("journal")))


class StandIn:
    """Sessions as shadowd has them, with the items in order. `lost` has what befalls the next answers: `before` and `after`
    it is recorded, no reply; `taken over`, another server that has no session but those of two other bookings."""

    def __init__(self, length=20):
        self.length, self.sessions, self.recorded, self.lost, self.closed, self.asked = length, {}, {}, [], set(), 0
        self.lists = {}

    def place(self, session):
        from exam_server import Place
        step = len(self.recorded[session])
        if session in self.closed:
            return Place(session, "closed")
        return Place(session, "waiting", step, step) if step < self.length else Place(session, "complete")

    def begin(self, booking, without=()):
        self.asked += 1
        session = self.sessions.setdefault(booking, len(self.sessions))
        self.lists.setdefault(session, list(without))
        self.recorded.setdefault(session, [])
        return self.place(session)

    def close(self, session, booking):
        from exam_server import Away, Refused
        self.asked += 1
        if self.sessions.get(booking) != session:
            raise Refused("other-booking")
        fault = self.lost.pop(0) if self.lost else ""
        if fault == "before":
            raise Away("the stand-in lost the request")
        if self.place(session).state != "waiting":
            raise Refused("is-closed", self.place(session).state)
        self.closed.add(session)
        if fault == "after":
            raise Away("the stand-in lost the reply")
        return self.place(session)

    def answer(self, session, step, response, booking):
        from exam_server import Away, Refused
        self.asked += 1
        fault = self.lost.pop(0) if self.lost else ""
        if fault == "before":
            raise Away("the stand-in lost the request")
        if fault == "taken over":
            self.sessions, self.recorded = {901: 0, 902: 1}, {0: [], 1: []}
        if session not in self.recorded:
            raise Refused("no-session", len(self.recorded))
        if self.sessions.get(booking) != session:
            raise Refused("other-booking")
        answers = self.recorded[session]
        if step < len(answers):
            if answers[step] != response:
                raise Refused("other", answers[step])
        elif session in self.closed or step > len(answers):
            raise Refused("is-closed" if session in self.closed else "wrong-step")
        else:
            answers.append(response)
        if fault == "after":
            raise Away("the stand-in lost the reply")
        return self.place(session)


class Client:
    """An examinee's browser without a window: cookies, forms with their hidden fields, and the page."""

    def __init__(self, app):
        self.client = app.test_client()

    def get(self, path="/test"):
        self.reply = self.client.get(path, follow_redirects=True)
        return self.reply

    @property
    def page(self):
        return self.reply.get_data(as_text=True)

    def hidden(self):
        return dict(re.findall(r'<input type="hidden" name="(\w+)" value="([^"]*)">', self.page))

    def post(self, path, **fields):
        self.reply = self.client.post(path, data=fields, follow_redirects=True)
        return self.reply

    def sign_in(self, code):
        self.get("/")
        return self.post("/", **self.hidden(), code=code)

    def begin(self, code):
        self.sign_in(code)
        return self.post("/begin", **self.hidden())

    def answer(self, option):
        return self.post("/test", **self.hidden(), option=option)

    def place(self):
        """The number of the item that the page shows, from 1, or None."""
        found = re.search(r"<h1>Item (\d+) of \d+</h1>", self.page)
        return int(found.group(1)) if found else None


class LossyDoor:
    """A door in front of shadowd. `lose` is how many replies it drops, after shadowd has given them."""

    def __init__(self, port):
        self.port, self.lose, self.listener = port, 0, socket.create_server(("127.0.0.1", 0))

    def address(self):
        return "127.0.0.1:%d" % self.listener.getsockname()[1]

    def run(self):
        with contextlib.suppress(OSError):
            while True:
                with self.listener.accept()[0] as client:
                    self.pass_on(client)

    def pass_on(self, client):
        head = client.recv(65536)
        length = re.search(rb"(?i)content-length: (\d+)", head)
        while length and len(head.partition(b"\r\n\r\n")[2]) < int(length.group(1)):
            head += client.recv(65536)
        with socket.create_connection(("127.0.0.1", self.port), LIMIT) as server:
            server.sendall(head)
            reply = b"".join(iter(lambda: server.recv(65536), b""))
        if b"/answers" in head and self.lose:
            self.lose -= 1
            return
        client.sendall(reply)


def fetch(port, path, cookie=None, **form):
    """Status and text of a page, and the cookie that it sets. With fields of a form it is posted."""
    fields = {} if cookie is None else {"Cookie": cookie}
    connection = http.client.HTTPConnection("127.0.0.1", port, timeout=LIMIT)
    if form:
        connection.request("POST", path, urllib.parse.urlencode(form), fields | {"Content-Type": "application/x-www-form-urlencoded"})
    else:
        connection.request("GET", path, headers=fields)
    reply = connection.getresponse()
    found = reply.status, reply.read().decode(), (reply.headers["Set-Cookie"] or "").partition(";")[0]
    connection.close()
    return found


def signed_in(port, user, password):
    """The cookie of a user of the control room."""
    page, cookie = fetch(port, "/sign-in")[1:]
    token = re.search(r'name="csrf_token" value="([^"]*)"', page).group(1)
    return fetch(port, "/sign-in", cookie, csrf_token=token, user=user, password=password)[2]
