"""Looks for answers that were acknowledged and are lost, over a disk of which a write fails.

usage: lost_sync.py PROGRAM [--bases N] [--only WORD]

After a sync that failed, Linux takes the written pages for clean: the next sync succeeds and writes nothing, and a read
gives the memory of the host, not the disk. So `shadowd serve` is run on ext4, over a loop device, over a file of FUSE that
fails one write to the blocks of the journal, or two in a row: the first one, then the second one, and so on to the last one
that opening the journal and a session make. The client asks again until each answer is acknowledged. Ten sessions follow
on the healthy disk. Then the server is killed, and three views of the journal are compared: what a read gives, what it
gives once the pages are thrown out, and what a power cut leaves, which is the disk itself, mounted elsewhere. Each has to
have the same records, and a replay over the last one has to find each session complete. Each run is done in two ways:

  mending    the server goes on after a response 503
  opening    the server is killed (SIGKILL) after a response 503, and started again

The same journal as one of version 1 is migrated over the same disk; then a session is begun, and what is acknowledged is looked for in
the same views. Each run is done in two ways:

  moving     `migrate` runs again after a status 9, until it ends with 0
  beginning  after a status 9 a session is begun at once; `migrate` runs again only where the journal is refused as one of version 1

  --bases N      so many journals to begin with, of which the page boundary is in another record of the session (1 to 4)
  --only WORD    the runs of which the name has this word

It needs root, /dev/fuse, a loop device, mkfs.ext4, filefrag and the Python module of python3-fusepy. Where one of them is
missing it prints `skipped: lost sync: no NAME` and ends with status 0. The last line is 'N passed, M failed' else.
"""
import argparse
import collections
import contextlib
import errno
import importlib
import importlib.util
import multiprocessing
import os
import re
import shutil
import stat
import subprocess
import sys
import tempfile
import time

from shadowtools.checkers import audit
from shadowtools.checkers import journal_move
from shadowtools.command import as_command
from shadowtools.gate import exam_client
from shadowtools.places import DATA, TOOLS

BANK, PLAN = os.path.join(DATA, "bank.csv"), os.path.join(DATA, "plan.txt")
DEBIAN = "/usr/bin/python3"
FUSEPY = "python3-fusepy"  # the last thing that is asked for: Debian's interpreter may have it
BLOCK = 4096
IMAGE = 32 << 20
ROOM = 64  # blocks behind the last one of the journal, into which it grows
AFTER = 10  # sessions on the healthy disk
TRIES = 8
MOST_FAILED = 10  # after so many runs that lose something the others of their kind are left out

Fault = collections.namedtuple("Fault", "low high first count")
Base = collections.namedtuple("Base", "bookings journal")
# What was acknowledged over a disk: requests with the lines that they have to have later, how many writes there were when the fault
# was over, and how many requests were refused.
Acknowledged = collections.namedtuple("Acknowledged", "requests lines made refused")


class Lost(Exception):
    """Something that was acknowledged is lost, or the server gave another response than the page on messages has."""


# ---------------------------------------------------------------- what is needed

def fuse_module():
    """The name of fusepy: Debian has it as `fusepy`, others as `fuse`."""
    return next((name for name in ("fusepy", "fuse") if importlib.util.find_spec(name)), None)


def has_loop_device():
    found = shutil.which("losetup") and subprocess.run(["losetup", "-f"], capture_output=True, text=True)
    return bool(found) and found.returncode == 0 and os.path.exists(found.stdout.strip())


def missing():
    """The first thing that is needed and not there, or None."""
    needs = [("root", lambda: os.geteuid() == 0), ("/dev/fuse", lambda: os.access("/dev/fuse", os.R_OK | os.W_OK)),
             ("loop device", has_loop_device), ("mkfs.ext4", lambda: shutil.which("mkfs.ext4")),
             ("filefrag", lambda: shutil.which("filefrag")), (FUSEPY, fuse_module)]
    return next((name for name, is_there in needs if not is_there()), None)


# ---------------------------------------------------------------- the disk

def faulty_disk(backing, folder, fault, counts):
    """Mounts one file, `disk`, at a folder, until it is unmounted. Of the writes to the bytes from `low` to `high`, `count`
    fail, from number `first` on. `counts` gets how many there were and how many failed."""
    fuse = importlib.import_module(fuse_module())

    class Disk(fuse.Operations):
        def __init__(self):
            self.file = os.open(backing, os.O_RDWR)

        def getattr(self, path, handle=None):
            if path == "/":
                return {"st_mode": stat.S_IFDIR | 0o755, "st_nlink": 2}
            if path != "/disk":
                raise fuse.FuseOSError(errno.ENOENT)
            return {"st_mode": stat.S_IFREG | 0o600, "st_nlink": 1, "st_size": os.fstat(self.file).st_size}

        def readdir(self, path, handle):
            return [".", "..", "disk"]

        def read(self, path, size, at, handle):
            return os.pread(self.file, size, at)

        def write(self, path, data, at, handle):
            if fault and at < fault.high and at + len(data) > fault.low:
                counts[0] += 1
                if fault.first <= counts[0] < fault.first + fault.count:
                    counts[1] += 1
                    raise fuse.FuseOSError(errno.EIO)
            return os.pwrite(self.file, data, at)

        def flush(self, path, handle):
            return 0

        def fsync(self, path, is_of_data, handle):
            return 0

    fuse.FUSE(Disk(), folder, foreground=True, nothreads=True)


def run_quietly(*words):
    done = subprocess.run(words, stdout=subprocess.PIPE, stderr=subprocess.STDOUT, text=True)
    if done.returncode != 0:
        raise RuntimeError(f"{' '.join(words)}: {done.stdout.strip()}")
    return done.stdout.strip()


def await_file(path, patience=10.0):
    until = time.monotonic() + patience
    while not os.path.exists(path):
        if time.monotonic() > until:
            raise RuntimeError(f"{path} does not appear")
        time.sleep(0.01)


@contextlib.contextmanager
def mounted(folder, image):
    """The file system of an image, by a loop device: the folder where it is mounted."""
    os.mkdir(folder)
    with contextlib.ExitStack() as stack:
        stack.callback(os.rmdir, folder)
        loop = run_quietly("losetup", "-f", "--show", image)
        stack.callback(run_quietly, "losetup", "-d", loop)
        run_quietly("mount", loop, folder)
        stack.callback(run_quietly, "umount", folder)
        yield folder


@contextlib.contextmanager
def faulty(folder, image, fault):
    """A file of FUSE over an image, with the fault: its path, and the counts of writes and failures."""
    os.mkdir(folder)
    fork = multiprocessing.get_context("fork")
    counts = fork.Array("i", 2)
    process = fork.Process(target=faulty_disk, args=(image, folder, fault, counts))
    with contextlib.ExitStack() as stack:
        stack.callback(os.rmdir, folder)
        process.start()
        stack.callback(process.join, 10)
        stack.callback(run_quietly, "umount", folder)
        await_file(os.path.join(folder, "disk"))
        yield os.path.join(folder, "disk"), counts


def blocks_of(path):
    """The place on the disk of a file's first byte, and of the end of its last block, in bytes."""
    said = run_quietly("filefrag", "-v", f"-b{BLOCK}", path)
    rows = re.findall(r"^\s*\d+:\s+\d+\.\.\s*\d+:\s+(\d+)\.\.\s*(\d+):", said, re.M)
    if not rows:
        raise RuntimeError(f"filefrag shows no extent: {said}")
    return min(int(low) for low, _ in rows) * BLOCK, (max(int(high) for _, high in rows) + 1) * BLOCK


# ---------------------------------------------------------------- journals

def payloads(path):
    """The records of a journal, by the reader of tools/audit.py, which shares nothing with the product."""
    with open(path, "rb") as file:
        found = list(audit.frames(file, os.path.getsize(path)))
        file.seek(0)
        data = file.read()
    return [data[at + 5:at + 5 + length] for at, length in found]


def run_over(program, journal, command, *script):
    """A run of a command over a journal."""
    return subprocess.run([program, command, BANK, PLAN, *script], env=dict(os.environ, SHADOWD_JOURNAL=journal),
                          stdin=subprocess.DEVNULL, capture_output=True, text=True)


def script_with(folder, requests):
    """A script with these requests: its path."""
    script = os.path.join(folder, "script.txt")
    with open(script, "w", encoding="ascii") as file:
        file.write("".join(request + "\n" for request in requests))
    return script


def replay(program, journal, requests, folder):
    """The lines of a replay over a journal."""
    done = run_over(program, journal, "replay", script_with(folder, requests))
    if done.returncode != 0:
        raise Lost(f"a replay ends with status {done.returncode}: {done.stdout.splitlines()[-1:]} {done.stderr.strip()}")
    return done.stdout.splitlines()


def session_of(session, booking):
    return [f"begin {booking}"] + [f"answer {session} {step} 1" for step in range(3)]


def base_journal(program, folder, whole, begun):
    """A journal with so many whole sessions and so many that are only begun: how many bookings it has, and its path."""
    path = os.path.join(folder, f"{whole}-{begun}.journal")
    requests = [line for k in range(whole) for line in session_of(k, k)]
    replay(program, path, requests + [f"begin {k}" for k in range(whole, whole + begun)], folder)
    return Base(whole + begun, path)


def crossing(program, folder, base):
    """The record of the next session across which a page ends behind its gate: its number in that session, or None."""
    copy = os.path.join(folder, "next.journal")
    shutil.copy(base.journal, copy)
    replay(program, copy, session_of(base.bookings, base.bookings), folder)
    at, records = os.path.getsize(base.journal) - 1, payloads(copy)[len(payloads(base.journal)):]
    os.remove(copy)
    for number, payload in enumerate(records):
        if at // BLOCK != (at + 5 + len(payload)) // BLOCK:
            return number
        at += 5 + len(payload)
    return None


def base_journals(program, folder, most):
    """Journals to begin with, of which the next session ends a page in records of different numbers."""
    found = {}
    for whole, begun in ((whole, begun) for whole in range(8, 40) for begun in range(4)):
        base = base_journal(program, folder, whole, begun)
        number = crossing(program, folder, base)
        if number is not None:
            found.setdefault(number, base)
        if len(found) == most:
            break
    return [found[number] for number in sorted(found)]


# ---------------------------------------------------------------- an examination

class Examination:
    """Sessions at a server, each asked for until it is acknowledged."""

    def __init__(self, program, journal, is_restarted):
        self.program, self.journal, self.is_restarted = program, journal, is_restarted
        self.server = self.connection = None
        self.complete, self.refused = {}, 0
        self.start()

    def start(self):
        """Starts the server. A start that fails by the disk is tried again, as an operator would."""
        for _ in range(TRIES):
            try:
                self.server = exam_client.Server([self.program], BANK, PLAN, self.journal, workers=2, wait=60)
                self.connection = exam_client.Connection(self.server.address, 60)
                return
            except RuntimeError as ended:
                if "status 9" not in str(ended):
                    raise Lost(str(ended)) from ended
                self.refused += 1
        raise Lost("the server does not start again")

    def kill(self):
        if self.connection:
            self.connection.close()
        if self.server:
            self.server.kill()

    def ask(self, message):
        """The body of the response with which the request is acknowledged."""
        for _ in range(TRIES):
            status, body = self.connection.ask(message)
            if status in (200, 201):
                return body
            if status != 503:
                raise Lost(f"status {status}: {body}")
            self.refused += 1
            if self.is_restarted:
                self.kill()
                self.start()
        raise Lost("the request is refused on and on")

    def session(self, booking):
        place = self.ask(exam_client.begin(booking))
        while place["state"] == "waiting":
            place = self.ask(exam_client.answer(place["session"], place["step"], 1, booking))
        self.complete[booking] = place["session"]


def throw_out_pages(path):
    """A read gives what is on the disk from now on: the pages of a file that are clean are thrown out."""
    file = os.open(path, os.O_RDONLY)
    try:
        os.posix_fadvise(file, 0, 0, os.POSIX_FADV_DONTNEED)
    finally:
        os.close(file)


def compare(name, wanted, found):
    if found != wanted:
        same = next((k for k, (a, b) in enumerate(zip(wanted, found)) if a != b), min(len(wanted), len(found)))
        raise Lost(f"{len(wanted)} records are read, {name} has {len(found)}, of which {same} are the same")


def examined(program, journal, base, counts, is_restarted):
    """A session over the fault, and ten more."""
    examination = Examination(program, journal, is_restarted)
    try:
        examination.session(base.bookings)
        made = counts[0]
        for booking in range(base.bookings + 1, base.bookings + 1 + AFTER):
            examination.session(booking)
    finally:
        examination.kill()
    complete = examination.complete
    return Acknowledged([f"begin {booking}" for booking in complete], [f"session {session} complete" for session in complete.values()],
                        made, examination.refused)


def moved(program, journal, base, counts, is_begun_at_once):
    """A migration over the fault, and a session that is begun after it."""
    requests, refused = [f"begin {base.bookings}"], 0
    script = script_with(os.path.dirname(base.journal), requests)
    for _ in range(TRIES):
        done = run_over(program, journal, "migrate")
        if done.returncode not in (0, 9):
            raise Lost(f"migrate ends with status {done.returncode}: {done.stdout.strip()}")
        refused += done.returncode == 9
        if done.returncode == 0 or is_begun_at_once:
            done = run_over(program, journal, "replay", script)
            if done.returncode == 0:
                return Acknowledged(requests, done.stdout.splitlines(), counts[0], refused)
            if done.returncode != 9 and (done.returncode, done.stdout) != (6, "journal: version\n"):
                raise Lost(f"a session is begun with status {done.returncode}: {done.stdout.strip()}")
            refused += done.returncode == 9
    raise Lost("the migration fails on and on")


WAYS = {"mending": (examined, False), "opening": (examined, True), "moving": (moved, False), "beginning": (moved, True)}


def run(program, folder, image, base, fault, way):
    """One run over one fault: how many writes there were, how many failed, and how many requests were refused."""
    backing, cut = os.path.join(folder, "backing"), os.path.join(folder, "cut")
    shutil.copy(image, backing)
    with faulty(os.path.join(folder, "device"), backing, fault) as (disk, counts), \
            mounted(os.path.join(folder, "fs"), disk) as root:
        journal, (over, word) = os.path.join(root, "journal"), WAYS[way]
        known = over(program, journal, base, counts, word)
        shutil.copy(backing, cut)
        read = payloads(journal)
        throw_out_pages(journal)
        compare("the disk", read, payloads(journal))
    with mounted(os.path.join(folder, "after"), cut) as root:
        compare("a power cut", read, payloads(os.path.join(root, "journal")))
        said = replay(program, os.path.join(root, "journal"), known.requests, folder)
    if said != known.lines:
        raise Lost(f"what was acknowledged is not there: {said}")
    return known.made, counts[1], known.refused


# ---------------------------------------------------------------- all runs

def image_with(folder, journal):
    """An image of a file system with this journal, and the bytes of the disk that it has and grows into."""
    image = os.path.join(folder, "image")
    with open(image, "wb") as file:
        file.truncate(IMAGE)
    run_quietly("mkfs.ext4", "-q", "-F", "-b", str(BLOCK), image)
    with mounted(os.path.join(folder, "made"), image) as root:
        path = os.path.join(root, "journal")
        shutil.copy(journal, path)
        with open(path, "rb") as file:
            os.fsync(file.fileno())
        low, high = blocks_of(path)
    return image, low, high + ROOM * BLOCK


class Runs:
    """The runs over one journal to begin with."""

    def __init__(self, program, folder, base, only):
        self.program, self.folder, self.base, self.only = program, folder, base, only
        self.image, self.low, self.high = image_with(folder, base.journal)
        self.passed = self.failed = 0

    def each_write(self, way, count):
        """Lets each write fail in turn, up to the first that is not made before the session is complete."""
        refused = 0
        for first in range(1, 1000):
            name = f"{way}, {os.path.getsize(self.base.journal)} bytes, write {first}" + (f" to {first + count - 1}" if count > 1 else "")
            if self.only not in name:
                continue
            try:
                made, failures, asked_again = run(self.program, self.folder, self.image, self.base,
                                                  Fault(self.low, self.high, first, count), way)
            except Lost as lost:
                self.failed += 1
                print(f"FAIL {name}: {lost}", flush=True)
                if self.failed >= MOST_FAILED:
                    return
                continue
            if first > made:
                print(f"{way}, {count} in a row: {first - 1} writes, {refused} refusals", flush=True)
                return
            if failures == 0:
                raise RuntimeError(f"{name}: no write failed")
            self.passed, refused = self.passed + 1, refused + asked_again


def old_journal(base, folder):
    """The journal of a base as one of version 1."""
    path = os.path.join(folder, "old.journal")
    with open(base.journal, "rb") as made, open(path, "wb") as file:
        file.write(journal_move.as_version_1(audit.read_rules(BANK, PLAN), made.read()))
    return Base(base.bookings, path)


def main(words):
    asked = argparse.ArgumentParser(description=__doc__.splitlines()[0])
    asked.add_argument("program")
    asked.add_argument("--bases", type=int, default=1, choices=range(1, 5))
    asked.add_argument("--only", default="")
    asked = asked.parse_args(words)
    lacking = missing()
    if lacking == FUSEPY and sys.executable != DEBIAN and os.path.exists(DEBIAN):
        os.execv(DEBIAN, [DEBIAN, os.path.join(TOOLS, "lost_sync.py"), *words])
    if lacking:
        print(f"skipped: lost sync: no {lacking}")
        return 0
    passed = failed = 0
    program = os.path.abspath(asked.program)
    with tempfile.TemporaryDirectory() as folder:
        for base in base_journals(program, folder, asked.bases):
            for way, (over, _) in WAYS.items():
                with tempfile.TemporaryDirectory(dir=folder) as own:
                    runs = Runs(program, own, old_journal(base, own) if over is moved else base, asked.only)
                    for count in (1, 2):
                        runs.each_write(way, count)
                passed, failed = passed + runs.passed, failed + runs.failed
    print(f"{passed} passed, {failed} failed")
    return 1 if failed or not passed else 0


command = as_command(main)


if __name__ == "__main__":
    sys.exit(command())
