"""A client of `shadowd serve` for trials and measurements: the server as a process, and connections that are kept open."""
import json
import os
import re
import select
import signal
import socket
import subprocess
import time
from typing import Any, Dict, List, Optional, Sequence, Tuple

HEAD_END = b"\r\n\r\n"


class Lost(Exception):
    """The connection ended before its reply was whole."""


def request_bytes(method: str, path: str, body: Any = None) -> bytes:
    """One message; `body` is a value that becomes JSON, or None for no body."""
    text = b"" if body is None else json.dumps(body, separators=(",", ":")).encode("ascii")
    head = f"{method} {path} HTTP/1.1\r\nHost: exam\r\n"
    if body is not None or method == "POST":
        head += f"Content-Length: {len(text)}\r\n"
    return head.encode("ascii") + b"\r\n" + text


def bearing(message: bytes, token: str) -> bytes:
    """The same message with a token, if there is one."""
    field = f"Authorization: Bearer {token}\r\n".encode("ascii") if token else b""
    return message.replace(b"Host: exam\r\n", b"Host: exam\r\n" + field, 1)


def begin(booking: int, without: Sequence[int] = ()) -> bytes:
    return request_bytes("POST", "/sessions", {"booking": booking, **({"without": list(without)} if without else {})})


def naming(booking: Optional[int]) -> Dict[str, int]:
    """The member of an answer or a closing that names the booking of its session, if one is given."""
    return {} if booking is None else {"booking": booking}


def answer(session: int, step: int, response: int, booking: Optional[int] = None) -> bytes:
    return request_bytes("POST", f"/sessions/{session}/answers", {"step": step, "response": response, **naming(booking)})


def close(session: int, booking: Optional[int] = None) -> bytes:
    return request_bytes("POST", f"/sessions/{session}/close", naming(booking) or None)


def split_reply(data: bytes) -> Optional[Tuple[Tuple[int, Any], bytes]]:
    """The first reply of these bytes and the bytes after it, as ((status, body), rest), or None if it is not whole yet."""
    at = data.find(HEAD_END)
    if at < 0:
        return None
    head = data[:at].decode("ascii")
    length = int(re.search(r"(?im)^content-length:\s*(\d+)\s*$", head).group(1))
    end = at + len(HEAD_END) + length
    if len(data) < end:
        return None
    return (int(head.split(" ", 2)[1]), json.loads(data[at + len(HEAD_END):end])), data[end:]


class Connection:
    """A connection on which one request after another is asked. `Lost` where the server is gone."""

    def __init__(self, address: Tuple[str, int], timeout: float = 300) -> None:
        self.kept = b""
        try:
            self.socket = socket.create_connection(address, timeout)
        except OSError as fault:
            raise Lost from fault
        if self.socket.getsockname() == self.socket.getpeername():
            raise Lost  # nobody listens there, and the connection is to itself
        self.socket.setsockopt(socket.IPPROTO_TCP, socket.TCP_NODELAY, 1)

    def ask(self, message: bytes) -> Tuple[int, Any]:
        """The status and the body of the reply."""
        try:
            self.socket.sendall(message)
            while True:
                found = split_reply(self.kept)
                if found:
                    reply, self.kept = found
                    return reply
                more = self.socket.recv(65536)
                if not more:
                    raise Lost
                self.kept += more
        except OSError as fault:
            raise Lost from fault

    def close(self) -> None:
        self.socket.close()


def children_of(process: int) -> List[int]:
    """The processes that a process runs, as far as the system tells."""
    try:
        with open(f"/proc/{process}/task/{process}/children", encoding="ascii") as file:
            return list(map(int, file.read().split()))
    except OSError:
        return []


class Server:
    """A process of `shadowd serve BANK PLAN [AHEAD]` on a free port of the loopback address. Without `ahead` it prepares no form."""

    def __init__(self, program: Sequence[str], bank: str, plan: str, journal: str, workers: int = 4, wait: float = 900,
                 idle: int = 300, listen: str = "127.0.0.1:0", token: str = "", ahead: Optional[int] = None) -> None:
        env = dict(os.environ, SHADOWD_JOURNAL=journal, SHADOWD_LISTEN=listen, SHADOWD_WORKERS=str(workers),
                   SHADOWD_IDLE=str(idle))
        env.pop("SHADOWD_CONNECTIONS", None)
        if token:
            env["SHADOWD_TOKEN"] = token
        words = [bank, plan] if ahead is None else [bank, plan, str(ahead)]
        self.process = subprocess.Popen([*program, "serve", *words], env=env, stdin=subprocess.DEVNULL,
                                        stdout=subprocess.PIPE, stderr=subprocess.PIPE)
        self.address = self.announced(time.monotonic() + wait)
        self.await_reply(time.monotonic() + wait)

    def announced(self, until: float) -> Tuple[str, int]:
        """The address that the line on standard error names."""
        said = b""
        while time.monotonic() < until:
            ready, _, _ = select.select([self.process.stderr], [], [], 1)
            if ready:
                more = os.read(self.process.stderr.fileno(), 4096)
                said += more
                found = re.search(rb"listening on ([0-9.]+):(\d+)", said)
                if found:
                    return found.group(1).decode("ascii"), int(found.group(2))
                if not more:  # it has ended
                    raise RuntimeError(f"the server ended with status {self.process.wait()}: {said.decode('utf-8', 'replace')}")
        self.kill()
        raise RuntimeError(f"the server did not begin: {said.decode('utf-8', 'replace')}")

    def await_reply(self, until: float) -> None:
        """Waits until the journal is open: from then on requests are answered."""
        while time.monotonic() < until:
            if self.process.poll() is not None:
                raise RuntimeError(f"the server ended with status {self.process.returncode}: {self.process.stdout.read()!r}")
            try:
                connection = Connection(self.address)
                connection.ask(request_bytes("GET", "/exposure"))
                connection.close()
                return
            except Lost:
                time.sleep(0.01)
        self.kill()
        raise RuntimeError("the server does not answer")

    def kill(self) -> None:
        """SIGKILL: the process has no time to do anything more, nor what it runs, if it is a command that runs the program."""
        if self.process.poll() is None:
            for child in children_of(self.process.pid):
                os.kill(child, signal.SIGKILL)
            self.process.send_signal(signal.SIGKILL)
        self.process.wait()
        self.process.stdout.close()
        self.process.stderr.close()
