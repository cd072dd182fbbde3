"""Tries the proxies of docs/OPERATING.md in front of `shadowd serve`: each of so many clients takes a whole session through them.

usage: proxies.py PROGRAM [--clients 60 200] [--only nginx haproxy]

The set-ups are those of the page, between its ``` lines, without TLS and with other ports and folders, and 127.0.0.1 as the address that nginx is open
to: it has to refuse 127.0.0.2. A proxy that is not installed is named and passed over. Each client keeps its connection to the proxy open; the server has a token, which each request has. Then syncs of the disk fail for a while:
HAProxy takes the server out, and has to put it in again by its probes alone, since it sends nothing else (this needs strace). The status is 1 if a request had no reply
of the server, or none within the limit, or if the server did not come back.
"""
import argparse
import http.client
import os
import re
import shutil
import socket
import subprocess
import sys
import tempfile
import threading
import time

from shadowtools.command import as_command
from shadowtools.gate.exam_client import Connection, Lost, Server, answer, bearing, begin, request_bytes
from shadowtools.places import TOP as ROOT

DATA = os.path.join(ROOT, "crates", "shadowd", "data")
LIMIT = 60  # seconds for a reply
WORKERS = 16
TOKEN = "a-token.of~40+characters/with=signs_of_it"
FAILING = 12  # syncs that fail in a row: more than the probes that take a server out


def set_up(name):
    """The set-up of the page for this proxy."""
    with open(os.path.join(ROOT, "docs", "OPERATING.md"), encoding="utf-8") as page:
        found = re.search(rf"^```{name}\n(.*?)^```$", page.read(), re.M | re.S)
    return found.group(1)


def free_port():
    with socket.create_server(("127.0.0.1", 0)) as taken:
        return taken.getsockname()[1]


def nginx(folder, port, server):
    text = set_up("nginx").replace("127.0.0.1:4710", f"127.0.0.1:{server}").replace("listen 443 ssl;", f"listen 127.0.0.1:{port};")
    text = text.replace("allow 10.0.0.10;", "allow 127.0.0.1;")
    text = "".join(line for line in text.splitlines(True) if "ssl_certificate" not in line)
    paths = "".join(f"{kind}_temp_path {folder}/{kind};\n" for kind in ("client_body", "proxy", "fastcgi", "uwsgi", "scgi"))
    whole = (f"daemon off; pid {folder}/pid; error_log {folder}/errors; worker_processes 2;\nevents {{ worker_connections 1024; }}\n"
             f"http {{\naccess_log off;\n{paths}{text}}}\n")
    return ["nginx", "-p", folder, "-e", f"{folder}/errors", "-c", whole]


def haproxy(folder, port, server):
    text = set_up("haproxy").replace("127.0.0.1:4710", f"127.0.0.1:{server}")
    return ["haproxy", "-f", re.sub(r"bind .*", f"bind 127.0.0.1:{port}", text)]


PROXIES = {"nginx": nginx, "haproxy": haproxy}


def start(name, folder, server):
    """The process of a proxy in front of this port, and its own port."""
    port = free_port()
    *words, text = PROXIES[name](folder, port, server)
    path = os.path.join(folder, name + ".conf")
    with open(path, "w", encoding="utf-8") as file:
        file.write(text)
    process = subprocess.Popen([*words, path], stdout=subprocess.DEVNULL, stderr=subprocess.DEVNULL)
    until = time.monotonic() + LIMIT
    while time.monotonic() < until:
        try:
            socket.create_connection(("127.0.0.1", port), 1).close()
            return process, port
        except OSError:
            time.sleep(0.05)
    process.kill()
    raise RuntimeError(f"{name} did not begin")


class Client(threading.Thread):
    """A client that takes a whole session, and notes the time to each reply."""

    def __init__(self, port, booking, gate):
        super().__init__(daemon=True)
        self.port, self.booking, self.gate = port, booking, gate
        self.times, self.fault = [], None

    def ask(self, connection, message):
        start_of = time.monotonic()
        status, body = connection.ask(bearing(message, TOKEN))
        self.times.append(time.monotonic() - start_of)
        if status not in (200, 201):
            raise RuntimeError(f"status {status}: {body}")
        return body

    def run(self):
        try:
            self.gate.wait()
            connection = Connection(("127.0.0.1", self.port), LIMIT)
            place = self.ask(connection, begin(self.booking))
            while place["state"] == "waiting":
                place = self.ask(connection, answer(place["session"], place["step"], 1, self.booking))
            connection.close()
        except (Lost, RuntimeError, ValueError, OSError) as fault:
            self.fault = repr(fault)


def refused_elsewhere(port):
    """One line on what nginx answers to an address that it is not open to; whether that is 403."""
    connection = http.client.HTTPConnection("127.0.0.1", port, LIMIT, source_address=("127.0.0.2", 0))
    connection.request("GET", "/health")
    status = connection.getresponse().status
    connection.close()
    print(f"nginx: {status} for an address that is not allowed", flush=True)
    return status == 403


def sessions(port, count, bookings):
    """So many clients at the same moment: their times, and the first fault."""
    gate = threading.Barrier(count)
    clients = [Client(port, next(bookings), gate) for _ in range(count)]
    for client in clients:
        client.start()
    for client in clients:
        client.join(LIMIT * 4)
    faults = [client.fault or "a client waits" for client in clients if client.fault or client.is_alive()]
    return sorted(t for client in clients for t in client.times), faults


def server_in(folder, program, workers=WORKERS, front=()):
    """A server with a token over a new journal of a folder; `front` is a command that runs the program."""
    plan, journal = os.path.join(folder, "plan.txt"), os.path.join(folder, "journal")
    with open(os.path.join(DATA, "plan.txt"), encoding="ascii") as file, open(plan, "w", encoding="ascii") as made:
        made.write(file.read() + "sessions 65536\n")
    if os.path.exists(journal):
        os.remove(journal)
    return Server([*front, program], os.path.join(DATA, "bank.csv"), plan, journal, workers, token=TOKEN)


def tried(name, program, counts):
    """One line for each number of clients; whether all had their replies."""
    with tempfile.TemporaryDirectory() as folder:
        server = server_in(folder, program)
        process, bookings, well = None, iter(range(10**6)), True
        try:
            process, port = start(name, folder, server.address[1])
            well = name != "nginx" or refused_elsewhere(port)
            for count in counts:
                times, faults = sessions(port, count, bookings)
                well = well and not faults
                middle, last = (times[len(times) // 2], times[-1]) if times else (0, 0)
                print(f"{name}: {count} clients, {len(times)} replies, median {middle * 1e3:.0f} ms, longest {last * 1e3:.0f} ms, "
                      f"{len(faults)} faults{': ' + faults[0] if faults else ''}", flush=True)
        finally:
            if process:
                process.terminate()
                process.wait()
            server.kill()
    return well


# ---------------------------------------------------------------- a disk that fails for a while

def status_by(port, message):
    """The status of a response, and whether it is the server's: those of a proxy are no JSON."""
    connection = Connection(("127.0.0.1", port), LIMIT)
    try:
        return connection.ask(bearing(message, TOKEN))[0], True
    except ValueError:
        return 503, False
    finally:
        connection.close()


def threads_that_sync(log):
    """The threads of the syncs in a trace, in order."""
    with open(log, encoding="utf-8") as file:
        return re.findall(r"(?m)^(\d+) +f(?:data)?sync\(", file.read())


def first_sync_of_a_request(folder, program, front, log):
    """Which sync of its thread the first one of a request is, with one worker: strace counts the calls of each thread."""
    server = server_in(folder, program, 1, front)
    try:
        opening = threads_that_sync(log)
        Connection(server.address, LIMIT).ask(bearing(begin(1), TOKEN))
        return opening.count(threads_that_sync(log)[len(opening)]) + 1
    finally:
        server.kill()


def comes_back(program):
    """One line on a server that HAProxy takes out while its disk fails; whether it was put in again."""
    with tempfile.TemporaryDirectory() as folder:
        log = os.path.join(folder, "calls")
        front = ["strace", "-f", "-o", log, "-e", "trace=fsync,fdatasync"]
        if shutil.which("strace") is None or subprocess.run([*front, "true"], stderr=subprocess.DEVNULL).returncode:
            print("haproxy with a disk that fails: passed over, strace is not there or may not trace")
            return True
        first = first_sync_of_a_request(folder, program, front, log)
        server = server_in(folder, program, 1, [*front, "-e", f"inject=fsync,fdatasync:error=EIO:when={first}..{first + FAILING - 1}"])
        process = None
        try:
            process, port = start("haproxy", folder, server.address[1])
            return came_back(port)
        finally:
            if process:
                process.terminate()
                process.wait()
            server.kill()


def came_back(port):
    """Begins a session on a disk that fails, waits without a request until the server is out, and then until it is in again."""
    found, begun = [status_by(port, begin(1))], time.monotonic()
    time.sleep(8)  # three probes, two seconds apart
    while time.monotonic() < begun + 2 * LIMIT:
        found.append(status_by(port, request_bytes("GET", "/exposure")))
        if found[-1] == (200, True):
            break
        time.sleep(0.5)
    took = time.monotonic() - begun
    well = found[0] == (503, True) and found[1] == (503, False) and found[-1] == (200, True) and status_by(port, begin(1)) in ((200, True), (201, True))
    print(f"haproxy: a disk that fails: {found[0][0]} of the server, then {'out' if (503, False) in found else 'never out'}, "
          f"{f'in again after {took:.0f} s' if found[-1][1] else 'and never in again'}", flush=True)
    return well


def main(arguments):
    words = argparse.ArgumentParser(description="Tries the proxies of docs/OPERATING.md in front of the server.")
    words.add_argument("program")
    words.add_argument("--clients", type=int, nargs="+", default=[60, 200])
    words.add_argument("--only", nargs="+", choices=PROXIES, default=list(PROXIES))
    asked = words.parse_args(arguments)
    well = True
    for name in asked.only:
        if shutil.which(name) is None:
            print(f"{name}: not installed, passed over")
            continue
        well = tried(name, os.path.abspath(asked.program), asked.clients) and well
    if "haproxy" in asked.only and shutil.which("haproxy"):
        well = comes_back(os.path.abspath(asked.program)) and well
    return 0 if well else 1


command = as_command(main)


if __name__ == "__main__":
    sys.exit(command())
