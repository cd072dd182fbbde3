"""A follower of a journal in Python: it takes each offer of the next number, and judges nothing. Its file is that of a journal."""
import os
import socket
import struct
import threading

HEADER = b"SHADOWJ2"


def frames(payloads):
    """The bytes of a journal of these records."""
    body = b"".join(b"\1" + struct.pack(">I", len(payload)) + payload for payload in payloads)
    return HEADER + body + b"\0"


def records(journal):
    """The payloads of the records of a journal's bytes, up to the first closed gate."""
    assert journal[:8] == HEADER, journal[:8]
    found, at = [], 8
    while journal[at:at + 1] == b"\1":
        size = struct.unpack(">I", journal[at + 1:at + 5])[0]
        found.append(journal[at + 5:at + 5 + size])
        assert len(found[-1]) == size, (at, size)
        at += 5 + size
    return found


def exactly(link, size):
    """So many bytes of a link, or None where it ends before."""
    piece = b""
    while len(piece) < size:
        more = link.recv(size - len(piece))
        if not more:
            return None
        piece += more
    return piece


class Follower:
    """It listens on a free port, and takes one link after another until it is stopped. `seen(count)` is called after each
    record that was taken, before its have."""

    def __init__(self, payloads=(), port=0, seen=None):
        self.payloads, self.seen, self.offers, self.links = list(payloads), seen, [], 0
        self.listener = socket.create_server(("127.0.0.1", port))
        self.port = self.listener.getsockname()[1]
        self.link = None
        self.thread = threading.Thread(target=self.run, daemon=True)
        self.thread.start()

    def run(self):
        while True:
            try:
                self.link, _ = self.listener.accept()
            except OSError:
                return
            self.links += 1
            try:
                self.follow(self.link)
            except OSError:
                pass
            self.link.close()

    def follow(self, link):
        link.sendall(b"\2" + struct.pack(">Q", len(self.payloads)))
        while True:
            head = exactly(link, 13)
            if head is None:
                return
            kind, number, size = struct.unpack(">BQI", head)
            assert kind == 1 and 1 <= size <= 131072, head
            payload = exactly(link, size)
            if payload is None:
                return
            self.offers.append((number, payload))
            if number == len(self.payloads):
                self.payloads.append(payload)
                if self.seen:
                    self.seen(len(self.payloads))
            link.sendall(b"\2" + struct.pack(">Q", len(self.payloads)))

    def cut(self):
        """Ends the link that is there."""
        if self.link is not None:
            try:
                self.link.shutdown(socket.SHUT_RDWR)
            except OSError:
                pass

    def stop(self):
        self.listener.close()
        try:
            socket.create_connection(("127.0.0.1", self.port), 1).close()
        except OSError:
            pass
        self.cut()

    def journal(self):
        return frames(self.payloads)


def is_beginning(follower, leader):
    """Whether the follower's journal, but for its last gate, is a beginning of the leader's bytes."""
    return leader[:len(follower) - 1] == follower[:-1]


def size_of(path):
    return os.path.getsize(path) if os.path.exists(path) else 0
