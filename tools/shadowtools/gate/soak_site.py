"""The two machines of soak.py: their disks, and the processes of the program on them."""
import collections
import contextlib
import os
import re
import resource
import signal
import subprocess
import threading
import time
from dataclasses import dataclass
from typing import Dict, Iterator, List, Optional, Sequence, Tuple

from shadowtools.gate.kill_follow import ENDS, Relay, Wrong, front_of, records_of
from shadowtools.gate.kill_stream import free_port
from shadowtools.gate.lost_sync import has_loop_device
from shadowtools.gate.soak_clients import LIMIT, Place

SIZE = 256 << 20  # bytes of a disk
SPARE = 200  # bytes that a journal may still grow where its process has a limit in place of a full disk
RESERVE = 65536
NO_JOURNAL, DISK_FAILED = 9, "disk failed\n"
LAST_LINES = 40
PIECE = 4096  # bytes that are read, or written, of a pipe at a time


def bytes_of(path: str) -> bytes:
    try:
        with open(path, "rb") as file:
            return file.read()
    except FileNotFoundError:
        return b""


# ---------------------------------------------------------------- disks

class Disk:
    """A folder whose room can be taken away. Without root it is a limit on the length of the files that its processes write."""

    KIND = "RLIMIT_FSIZE"

    def __init__(self, folder: str) -> None:
        self.folder = folder
        os.mkdir(folder)

    def fill(self, processes: Sequence["Process"], journal: str) -> None:
        for process in processes:
            resource.prlimit(process.child.pid, resource.RLIMIT_FSIZE, (os.path.getsize(journal) + SPARE, resource.RLIM_INFINITY))

    def empty(self, processes: Sequence["Process"]) -> None:
        for process in processes:
            resource.prlimit(process.child.pid, resource.RLIMIT_FSIZE, (resource.RLIM_INFINITY, resource.RLIM_INFINITY))

    def close(self) -> None:
        pass


class Mounted(Disk):
    """A file system of its own, which another file takes as a whole."""

    @property
    def other(self) -> str:
        return os.path.join(self.folder, "other")

    def fill(self, processes: Sequence["Process"], journal: str) -> None:
        with open(self.other, "wb", 0) as file:
            room = os.statvfs(self.folder)
            with contextlib.suppress(OSError):
                os.posix_fallocate(file.fileno(), 0, max(1, (room.f_bavail - 1) * room.f_frsize))
            file.seek(0, os.SEEK_END)
            with contextlib.suppress(OSError):
                while True:
                    file.write(b"x" * 4096)

    def empty(self, processes: Sequence["Process"]) -> None:
        os.remove(self.other)

    def close(self) -> None:
        subprocess.run(["umount", self.folder], check=False)


class Tmpfs(Mounted):
    KIND = "tmpfs"

    def __init__(self, folder: str) -> None:
        super().__init__(folder)
        subprocess.run(["mount", "-t", "tmpfs", "-o", f"size={SIZE}", "tmpfs", folder], check=True, capture_output=True)


class Ext4(Mounted):
    """ext4 over a loop device."""

    KIND = "ext4"

    def __init__(self, folder: str) -> None:
        super().__init__(folder)
        image = folder + ".image"
        with open(image, "wb") as file:
            file.truncate(SIZE)
        subprocess.run(["mkfs.ext4", "-q", "-F", image], check=True, capture_output=True)
        subprocess.run(["mount", "-o", "loop", image, folder], check=True, capture_output=True)


DISKS = {kind.KIND: kind for kind in (Ext4, Tmpfs, Disk)}


def disk_kind(asked: Optional[str]) -> str:
    """The kind of disk that is asked for, or the nearest to a real one that this machine has."""
    if asked:
        return asked
    if os.geteuid() != 0:
        return Disk.KIND
    return Ext4.KIND if has_loop_device() else Tmpfs.KIND


# ---------------------------------------------------------------- processes

def ignore_the_limit() -> None:
    """A write past the limit of a file's length fails, and the process goes on."""
    signal.signal(signal.SIGXFSZ, signal.SIG_IGN)


def kind_of(line: str) -> str:
    """A line on standard error without its numbers, addresses and paths."""
    line = re.sub(r"SHA-256 [0-9a-f]+", "SHA-256 H", re.sub(r"/\S*/", "", line))
    return re.sub(r"\d[\d.:]*", "N", re.sub(r"SHA-256", "SHA", line)).strip()


class Process:
    """A process of the program. Its lines on standard error are read by a thread, unless nobody is to read them."""

    def __init__(self, words: Sequence[str], environment: Dict[str, str], log: str) -> None:
        self.name, self.port, self.told, self.counts = words[1], None, collections.deque(maxlen=LAST_LINES), collections.Counter()
        self.is_read, self.is_known, self.log, self.out = threading.Event(), threading.Event(), log, log + ".out"
        self.is_read.set()
        reader, self.errors = os.pipe()
        with open(self.out, "wb") as out:
            self.child = subprocess.Popen(words, env=environment, stdin=subprocess.DEVNULL, stdout=out, stderr=self.errors, preexec_fn=ignore_the_limit)
        self.reading = threading.Thread(target=self.read, args=(reader,), daemon=True)
        self.reading.start()

    def read(self, reader: int) -> None:
        """Reads a piece at a time, so that at most one comes after nobody is to read."""
        begun = b""
        with open(reader, "rb", 0) as pipe, open(self.log, "ab", 0) as log:
            while piece := pipe.read(PIECE):
                log.write(piece)
                *lines, begun = (begun + piece).split(b"\n")
                for line in lines:
                    self.take_line(line.decode("utf-8", "replace").lstrip("x"))
                self.is_read.wait()

    def take_line(self, line: str) -> None:
        self.told.append(line + "\n")
        self.counts[kind_of(line)] += 1
        found = re.search(r"(?:listening|following) on 127\.0\.0\.1:(\d+),", line)
        if found:
            self.port = int(found[1])
            self.is_known.set()

    def await_port(self) -> bool:
        """Whether it listens; False where it ends before."""
        until = time.monotonic() + LIMIT
        while not self.is_known.wait(0.02):
            if self.child.poll() is not None or time.monotonic() > until:
                return False
        return True

    def block(self) -> None:
        """Nobody reads its standard error, which is full."""
        self.is_read.clear()
        os.set_blocking(self.errors, False)
        for _ in range(3):  # the thread may take one piece more
            with contextlib.suppress(BlockingIOError):
                while True:
                    os.write(self.errors, b"x" * PIECE)
            time.sleep(0.05)

    def unblock(self) -> None:
        self.is_read.set()

    def end(self) -> int:
        """Waits for its end, and takes its last lines."""
        try:
            status = self.child.wait(LIMIT)
        except subprocess.TimeoutExpired as late:
            raise Wrong(f"{self.name} does not end in {LIMIT} s: {self.last_lines()}") from late
        if not self.is_read.is_set():
            self.unblock()
        if self.errors is not None:
            os.close(self.errors)
            self.errors = None
        self.reading.join(5)
        return status

    def kill(self) -> int:
        if self.child.poll() is None:
            self.child.kill()
        return self.end()

    def printed(self) -> str:
        return bytes_of(self.out).decode("ascii", "replace")

    def last_lines(self) -> str:
        return "".join(self.told)[-400:]


@dataclass
class Machine:
    """A machine with a journal on a disk of its own."""
    name: str
    disk: Disk

    @property
    def journal(self) -> str:
        return os.path.join(self.disk.folder, "journal")

    @property
    def reserve(self) -> str:
        return self.journal + ".reserve"

    def data(self) -> bytes:
        return bytes_of(self.journal)

    def files(self) -> List[str]:
        return sorted(os.listdir(self.disk.folder))


# ---------------------------------------------------------------- the site

class Site:
    """A leader with its stream, and a follower, each on a machine of its own."""

    def __init__(self, program: str, folder: str, texts: Sequence[str], disk: str, place: Place) -> None:
        self.program, self.folder, self.texts, self.place = program, folder, list(texts), place
        self.machines = [Machine(name, DISKS[disk](os.path.join(folder, name))) for name in ("one", "two")]
        self.leader: Optional[Process] = None
        self.follower: Optional[Process] = None
        self.streaming: Optional[Process] = None
        self.relay, self.address, self.started = Relay(), ("127.0.0.1", free_port()), 0
        self.lines, self.seen, self.front, self.ahead, self.reserve = collections.Counter(), collections.Counter(), b"", False, 0
        self.may_lack_disk = False
        self.used: Tuple[int, int, int] = (0, 0, 0)

    # ------------------------------------------------------------ starts and ends

    def settings(self, journal: str, **more: str) -> Dict[str, str]:
        """The environment of a process: none makes a journal unless it is told to."""
        kept = {name: value for name, value in os.environ.items() if not name.startswith("SHADOWD")}
        return {**kept, "SHADOWD_JOURNAL": journal, "SHADOWD_MAKE": "no", "SHADOWD_TOKEN": self.place.token, **more}

    def start(self, command: str, journal: str, *words: str, **more: str) -> Process:
        self.started += 1
        log = os.path.join(self.folder, f"{command}.{self.started}")
        return Process([self.program, command, *self.texts, *words], self.settings(journal, **more), log)

    def make_journal(self, machine: Machine) -> None:
        """The first journal of a machine, by the command of the page on operating."""
        made = self.start("serve", machine.journal, SHADOWD_MAKE="yes", SHADOWD_CONNECTIONS="0", SHADOWD_LISTEN="127.0.0.1:0")
        if made.end() != 0 or len(machine.data()) != 9:
            raise Wrong(f"the first journal: {made.last_lines()}")

    @property
    def end_socket(self) -> str:
        return os.path.join(self.folder, "end")

    def serve_on(self, machine: Machine) -> Process:
        words = ["16"] if self.ahead else []
        return self.start("serve", machine.journal, *words, SHADOWD_LISTEN=f"127.0.0.1:{self.address[1]}", SHADOWD_WORKERS="4",
                          SHADOWD_END=self.end_socket, SHADOWD_RESERVE=str(self.reserve))

    def lead(self) -> None:
        """Starts the server of the leader, again where its port is taken, until it listens. The clients come by the place."""
        until = time.monotonic() + LIMIT
        while True:
            self.leader = self.serve_on(self.machines[0])
            if self.leader.await_port():
                break
            status = self.leader.end()
            if status != 14 or time.monotonic() > until:
                raise Wrong(f"serve ended with {status}: {self.leader.last_lines()}")
            time.sleep(0.2)
        self.place.leads(self.address, self.place.epoch)

    def follow(self) -> None:
        """Starts the follower, unless it runs, and waits until it listens."""
        if self.follower and self.follower.child.poll() is None:
            return
        self.follower = self.start("follow", self.machines[1].journal, SHADOWD_LISTEN="127.0.0.1:0")
        if not self.follower.await_port():
            raise Wrong(f"follow ended with {self.follower.end()}: {self.follower.last_lines()}")
        self.relay.target = self.follower.port
        self.place.follower = ("127.0.0.1", self.follower.port)

    def stream(self) -> None:
        self.streaming = self.start("stream", self.machines[0].journal, SHADOWD_LISTEN=f"127.0.0.1:{self.address[1]}",
                                    SHADOWD_FOLLOWER=f"127.0.0.1:{self.relay.port}")

    def begin(self) -> None:
        for machine in self.machines:
            self.make_journal(machine)
        self.follow()
        self.lead()
        self.stream()

    def take_lines(self, process: Process) -> None:
        self.lines.update(process.counts)
        process.counts = collections.Counter()

    def kill(self, process: Process) -> int:
        status = process.kill()
        self.take_lines(process)
        return status

    # ------------------------------------------------------------ what holds meanwhile

    def keep(self) -> None:
        """Starts a follower again whose link or disk has failed, as a supervisor does. Nothing else may have ended."""
        if self.follower.child.poll() is not None:
            status = self.follower.end()
            if status not in ENDS and not (status == NO_JOURNAL and self.may_lack_disk):
                raise Wrong(f"follow ended with {status}: {self.follower.last_lines()}")
            self.seen["ends of follow"] += 1
            self.take_lines(self.follower)
            if self.may_lack_disk:
                time.sleep(0.2)
            self.follow_or_wait()
        for process in (self.leader, self.streaming):
            if process.child.poll() is not None:
                raise Wrong(f"{process.name} ended with {process.end()}: {process.last_lines()}")
        if self.relay.fault:
            raise Wrong(self.relay.fault)
        self.measure()

    def follow_or_wait(self) -> None:
        """A follower whose disk is full may not be able to open its journal."""
        try:
            self.follow()
        except Wrong:
            if not self.may_lack_disk:
                raise

    def measure(self) -> None:
        """The most memory, open files and threads that a leader had: pages of 4 KiB, files, threads."""
        with contextlib.suppress(OSError, ValueError, IndexError):
            process = f"/proc/{self.leader.child.pid}"
            memory = int(bytes_of(process + "/statm").split()[1])
            found = memory, len(os.listdir(process + "/fd")), len(os.listdir(process + "/task"))
            self.used = tuple(map(max, self.used, found))

    def wait(self, seconds: float) -> None:
        until = time.monotonic() + seconds
        while time.monotonic() < until:
            self.keep()
            time.sleep(0.05)

    def compare(self, when: str) -> None:
        """Demands that the follower's file is a beginning of the leader's with each record that it answered for, and that the leader's
        file goes on from what it was."""
        most = self.relay.most
        found = self.machines[1].data()
        whole = front_of(self.machines[0].data())
        if not whole.startswith(front_of(found)):
            raise Wrong(f"{when}: the follower's file is no beginning of the leader's")
        if records_of(found) < most:
            raise Wrong(f"{when}: the follower answered {most} and has {records_of(found)} records")
        if not whole.startswith(self.front):
            raise Wrong(f"{when}: the leader's file lacks what it had")
        self.front = whole

    def await_records(self, when: str) -> None:
        """Waits until the follower has all records that the leader has now."""
        count, most, until = records_of(self.machines[0].data()), -1, time.monotonic() + LIMIT
        while self.relay.most < count:
            self.wait(0.05)
            if self.relay.most > most:
                most, until = self.relay.most, time.monotonic() + LIMIT
            if time.monotonic() > until:
                raise Wrong(f"{when}: the follower answers {most} of {count} records, and no more in {LIMIT} s")

    @contextlib.contextmanager
    def full(self, machine: Machine, processes: Sequence[Process]) -> Iterator[None]:
        machine.disk.fill(processes, machine.journal)
        try:
            yield
        finally:
            machine.disk.empty([process for process in processes if process.child.poll() is None])

    def close(self) -> None:
        for process in (self.streaming, self.leader, self.follower):
            if process:
                self.kill(process)
        for machine in self.machines:
            machine.disk.close()
