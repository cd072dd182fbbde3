"""The journal's file of the built program: its rights, its folder, what is cut from it, and other programs at it."""
import os
import re
import resource
import signal
import stat
import subprocess
import threading
import unittest

import data_of_bands as bands
import journal_maker
from common import PROGRAM, Folder, asked, needs_program
from data_of_bank_a import BANK, PLAN, SCRIPT
from shadowtools.checkers import journal_move

LIMIT = 60  # seconds for each wait
LINE = "shadowd: journal {}: {}\n"
MADE = "there was none: it is made"
BEGIN, *ANSWERS = SCRIPT.splitlines()[:4]


def limit_files(size):
    """A file may get so many bytes; a call that would write more fails."""
    resource.setrlimit(resource.RLIMIT_FSIZE, (size, size))
    signal.signal(signal.SIGXFSZ, signal.SIG_IGN)


def behind(*payloads, last=b"\0"):
    """What follows a closed gate: records that would count if it were open, and the last gate."""
    return b"\1".join(len(payload).to_bytes(4, "big") + payload for payload in payloads) + last


class WithJournal(Folder):
    def setUp(self):
        super().setUp()
        self.files = [self.write("bank.csv", BANK), self.write("plan.txt", PLAN)]
        self.journal = self.path("journal")

    def put(self, data, mode=0o600):
        with open(self.journal, "wb") as file:
            file.write(data)
        os.chmod(self.journal, mode)

    def bytes_of(self, path):
        with open(path, "rb") as file:
            return file.read()

    def run_program(self, command, *words, name=None, **settings):
        """Status, standard output and standard error."""
        done = subprocess.run([PROGRAM, command, *self.files, *words], env=dict(os.environ, SHADOWD_JOURNAL=name or self.journal, **settings),
                              stdin=subprocess.DEVNULL, capture_output=True, text=True, timeout=LIMIT)
        return done.returncode, done.stdout, done.stderr

    def replay(self, *requests, name=None, **settings):
        script = self.write("script.txt", "".join(request + "\n" for request in requests))
        return self.run_program("replay", script, name=name, **settings)

    def kept_after(self, *requests):
        """The bytes of a new journal after these requests."""
        name = self.path("made")
        self.assertEqual(self.replay(*requests, name=name)[0], 0)
        data = self.bytes_of(name)
        os.remove(name)
        return data

    def copies(self):
        return sorted(name for name in os.listdir(self.folder) if ".cut-" in name)


@needs_program
class Rights(WithJournal):
    def test_a_new_journal_is_its_owners_alone(self):
        before = os.umask(0)
        self.addCleanup(os.umask, before)
        self.assertEqual(self.replay(), (0, "", LINE.format(self.journal, MADE)))
        self.assertEqual(stat.S_IMODE(os.stat(self.journal).st_mode), 0o600)

    def test_rights_of_others_have_a_line(self):
        for mode in (0o644, 0o660, 0o601):
            with self.subTest(mode=oct(mode)):
                self.put(b"SHADOWJ1\0", mode)
                wanted = LINE.format(self.journal, f"its mode is 0{mode:o}: other users have rights to it")
                self.assertEqual(self.replay(), (0, "", wanted))
                self.assertEqual(stat.S_IMODE(os.stat(self.journal).st_mode), mode)


@needs_program
class Made(WithJournal):
    """A journal that is not there is made where SHADOWD_MAKE allows it, and no other."""

    NONE = "there is none, and SHADOWD_MAKE=no makes none"
    SHORT = "it is too short for a journal, and SHADOWD_MAKE=no makes none"
    FAILED = "disk failed\n"

    def end_of(self, command, **settings):
        """What a command of no requests and no connections does. A follower goes on where it opened its journal, and is stopped then."""
        settings = {"SHADOWD_LISTEN": "127.0.0.1:0", "SHADOWD_CONNECTIONS": "0", **settings}
        if command == "replay":
            return self.replay(**settings)
        try:
            return self.run_program(command, **settings)
        except subprocess.TimeoutExpired:
            self.fail(f"{command} does not end")

    def test_it_is_made_and_a_line_says_so(self):
        for value in (None, "", "yes"):
            for command in ("serve", "replay"):
                with self.subTest(value=value, command=command):
                    status, _, errors = self.end_of(command, **({} if value is None else {"SHADOWD_MAKE": value}))
                    self.assertEqual((status, errors.count(LINE.format(self.journal, MADE)), self.bytes_of(self.journal)), (0, 1, b"SHADOWJ2\0"))
                    self.assertEqual(self.end_of(command)[2].count(MADE), 0)
                    os.remove(self.journal)

    def test_none_is_made(self):
        for value in ("no", "No", "YES", "0"):
            for command in ("serve", "replay", "follow"):
                with self.subTest(value=value, command=command):
                    status, said, errors = self.end_of(command, SHADOWD_MAKE=value)
                    *before, last = errors.splitlines(keepends=True)
                    self.assertEqual((status, said, last), (9, self.FAILED, LINE.format(self.journal, self.NONE)))
                    told = f"shadowd: SHADOWD_MAKE={value} counts as no: it is neither yes nor no\n"
                    self.assertEqual([line for line in before if "SHADOWD_MAKE" in line], [] if value == "no" else [told])
                    self.assertFalse(os.path.exists(self.journal))

    def test_no_reserve_is_made_where_no_journal_is(self):
        self.assertEqual(self.end_of("serve", SHADOWD_MAKE="no", SHADOWD_RESERVE="65536")[0], 9)
        self.assertEqual([name for name in os.listdir(self.folder) if "journal" in name], [])

    def test_a_line_that_is_too_long_is_cut(self):
        name = "/".join([self.folder] + ["a" * 200] * 6 + ["journal"])
        status, _, errors = self.run_program("serve", name=name, SHADOWD_MAKE="no", SHADOWD_CONNECTIONS="0", SHADOWD_LISTEN="127.0.0.1:0")
        self.assertEqual((status, len(errors), errors[-5:]), (9, 1024, "a...\n"))

    def test_a_file_that_is_too_short_is_left(self):
        for data in (b"", b"abc", b"SHADOWJ2"):
            for command in ("serve", "replay", "follow"):
                with self.subTest(data=data, command=command):
                    self.put(data)
                    status, said, errors = self.end_of(command, SHADOWD_MAKE="no")
                    self.assertEqual((status, said, errors.splitlines(keepends=True)[-1]), (9, self.FAILED, LINE.format(self.journal, self.SHORT)))
                    self.assertEqual(self.bytes_of(self.journal), data)
            self.put(data)
            self.assertEqual(self.replay(), (0, "", LINE.format(self.journal, f"no journal was in its {len(data)} bytes: it is made")))

    def test_a_journal_without_entries_is_one(self):
        self.put(b"SHADOWJ2\0")
        self.assertEqual(self.replay(SHADOWD_MAKE="no"), (0, "", ""))
        self.assertEqual(self.end_of("serve", SHADOWD_MAKE="no")[0], 0)

    def test_other_commands_do_not_ask(self):
        for command in ("audit", "migrate", "ship"):
            for value in ("yes", "no", "No"):
                with self.subTest(command=command, value=value):
                    status, said, errors = self.run_program(command, SHADOWD_MAKE=value, SHADOWD_FOLLOWER="127.0.0.1:9")
                    self.assertEqual((status, said, errors), (9, self.FAILED, LINE.format(self.journal, "No such file or directory (os error 2)")))
                    self.assertFalse(os.path.exists(self.journal))
        self.assertEqual(self.run_program("assemble", SHADOWD_MAKE="No")[2], "")


@needs_program
class Refused(WithJournal):
    """Why a journal is refused, in words."""

    def test_the_record_and_its_reason(self):
        start = self.kept_after(BEGIN)
        closed = b"\1\0\0\0\5\5\0\0\0\0"  # the record that ends session 0, after its gate and its length
        aside = b"\1\0\0\0\x0d\7" + bytes(8) + b"\0\1\0\7"  # eligibility set aside in it at step 0, with a tree of one open node
        vector = b"\1\0\0\0\x10\7" + bytes(10) + b"\1\0\1\1\x82"  # the same with a tree whose vector has a side 386
        for data, line, words in (
                (b"SHADOWJ3\0x", "header", "its first bytes are not those of a journal"),
                (b"SHADOWJ2\1\0\0\0\1\x0a\0", "record at 8", "record 0: its bytes are no record: byte 0 has the number of no kind"),
                (b"SHADOWJ2\1\0\0\0\1\x09\0", "record at 8", "record 0: its bytes are no record: they end within a field"),
                (b"SHADOWJ2" + vector + b"\0", "record at 8", "record 0: its bytes are no record: its tree breaks a rule of vectors at byte 3"),
                (start[:-1] + aside + b"\0", f"illegal at {len(start) - 1}",
                 "record 2: no item is to be served at this step: item 2 waits for its answer at step 0"),
                (b"SHADOWJ2" + closed + b"\0", "illegal at 8", "record 0: there is no such session: the number of sessions is 0"),
                (start[:-1] + closed + closed + b"\0", f"illegal at {len(start) + 9}", "record 3: the session ended before: the session is closed"),
                (start[:-1] + start[8:], f"illegal at {len(start) - 1}", "record 2: the next session is 1, if the plan allows it")):
            with self.subTest(words=words):
                self.put(data)
                self.assertEqual(self.run_program("audit"), (6, f"journal: {line}\n", LINE.format(self.journal, words)))
                self.assertEqual(self.bytes_of(self.journal), data)

    def test_the_command_that_explains(self):
        self.write("plan.txt", PLAN + "count 0 0 0-5\n")
        status, said, errors = self.run_program("assemble")
        self.assertEqual((status, said[:8], errors), (
            11, "no form ", "shadowd: there is no form: tools/explain.py BANK PLAN names the rules that allow none\n"))


@needs_program
class PutAside(WithJournal):
    """A journal of which a gate in the midst is closed. With that gate open it has the five records behind it, too."""

    def setUp(self):
        super().setUp()
        self.front, self.whole = self.kept_after(BEGIN), self.kept_after(BEGIN, *ANSWERS[:2])
        self.gate = len(self.front) - 1
        self.assertEqual((self.whole[:self.gate], self.whole[self.gate]), (self.front[:-1], 1))
        self.found = LINE.format(self.journal, "{} whole records, {} bytes, are behind the closed gate at " + str(self.gate))

    def test_two_records_or_more_are_kept_and_told(self):
        name = first = f"{self.journal}.cut-{self.gate}"
        two = behind(b"\4one", b"\4two")
        cases = [(self.whole[len(self.front):], 4), (two + b"more", 2), (two[:-1] + b"\1", 2), (two[:-1] + b"\1\0\0\0\0", 2)]
        for number, (data, records) in enumerate(cases, 1):
            with self.subTest(number=number):
                self.put(self.front + data)
                told = self.found.format(records, len(data)) + LINE.format(self.journal, f"they are kept in {name} and cut")
                self.assertEqual(self.replay(), (0, "", told))
                self.assertEqual((self.bytes_of(self.journal), self.bytes_of(name)), (self.front, data))
                self.assertEqual(stat.S_IMODE(os.stat(name).st_mode), 0o600)
                name = f"{first}.{number + 1}"

    def test_a_move_that_ended_is_kept(self):
        """More records follow its mark than are before the gate: its gate was damaged."""
        data = behind(b"\x08", b"\4one", b"\4two", b"\4three")
        self.put(self.front + data)
        name = f"{self.journal}.cut-{self.gate}"
        told = self.found.format(4, len(data)) + LINE.format(self.journal, f"they are kept in {name} and cut")
        self.assertEqual(self.replay(), (0, "", told))
        self.assertEqual((self.bytes_of(self.journal), self.bytes_of(name)), (self.front, data))

    def test_the_page_of_the_operator_joins_the_two(self):
        self.put(self.front + self.whole[len(self.front):])
        self.replay()
        cut = self.bytes_of(f"{self.journal}.cut-{self.gate}")
        self.assertEqual(self.bytes_of(self.journal)[:self.gate] + b"\1" + cut, self.whole)

    def test_an_audit_tells_and_keeps_nothing(self):
        data = self.front + self.whole[len(self.front):]
        self.put(data)
        status, said, errors = self.run_program("audit")
        self.assertEqual((status, errors), (0, self.found.format(4, len(data) - len(self.front))))
        self.assertTrue(said.startswith("entries 2 sessions 1 finished 0 "), said)
        self.assertEqual((self.bytes_of(self.journal), self.copies()), (data, []))

    def test_one_record_or_a_move_is_cut_alone(self):
        for data in (behind(b"\4one"), behind(b"\4one")[:-1], behind(b"\4one", last=b"\1") + b"junk", b"junk",
                     behind(b"\x08", b"\4one", b"\4two"), behind(b"\x08one", b"\4two", last=b"\1")):
            with self.subTest(data=data):
                self.put(self.front + data)
                self.assertEqual(self.replay(), (0, "", ""))
                self.assertEqual((self.bytes_of(self.journal), self.copies()), (self.front, []))

    def test_what_cannot_be_kept_is_not_cut(self):
        """The name of the copy would be longer than a file system allows."""
        name, data = self.path("j" * 250), self.front + behind(b"\4one", b"\4two")
        self.put(data)
        os.rename(self.journal, name)
        status, said, errors = self.replay(name=name)
        self.assertEqual((status, said), (9, "disk failed\n"))
        self.assertRegex(errors, r"File name too long \(os error 36\)\n\Z")
        self.assertEqual((self.bytes_of(name), self.copies()), (data, []))


@needs_program
class Moved(WithJournal):
    """A journal of version 1 in which eligibility is set aside at a later step, and what `migrate` makes of it."""

    def setUp(self):
        super().setUp()
        self.files = [self.write("bank.csv", bands.BANK_TWO), self.write("plan.txt", bands.PLAN_TWO)]
        self.maker = journal_maker.Maker(bands.BANK_TWO, bands.PLAN_TWO).run(bands.SCRIPT_TWO)
        self.old, self.new, self.moved = self.maker.files()
        self.said = f"migrated 17 records length {len(self.moved)}\n"

    def audited(self, data):
        self.put(data)
        status, said, errors = self.run_program("audit")
        self.assertEqual((status, errors, self.bytes_of(self.journal)), (0, "", data))
        return said.splitlines()

    def test_an_audit_reads_each_file(self):
        for data in (self.old, self.new, self.moved):
            found = self.audited(data)
            self.assertEqual((found[0].rsplit(" nodes ")[0], found[1:]), (bands.SUMMARY_TWO, bands.LINES_TWO))

    def test_an_old_journal_is_moved(self):
        for tail in (b"\0", b"\2", b"\0junk", b"\0" + self.moved[len(self.old):-1]):
            with self.subTest(tail=tail[:9]):
                self.put(self.old[:-1] + tail)
                self.assertEqual(self.run_program("migrate"), (0, self.said, ""))
                self.assertEqual((self.bytes_of(self.journal), self.copies()), (self.moved, []))
                self.assertEqual(self.run_program("migrate"), (0, self.said.replace(" 17 ", " 0 "), ""))
                self.assertEqual(self.bytes_of(self.journal), self.moved)

    def test_no_file_is_made(self):
        status, said, errors = self.run_program("migrate")
        self.assertEqual((status, said, os.path.exists(self.journal)), (9, "disk failed\n", False))
        self.assertIn("No such file", errors)

    def test_what_was_added_to_a_moved_journal_is_kept(self):
        """The one byte that moved it is damaged, and it is migrated again."""
        self.put(self.moved)
        self.assertEqual(self.replay("begin 73")[0], 0)
        left = self.bytes_of(self.journal)
        gate = len(self.old) - 1
        self.put(left[:gate] + b"\0" + left[gate + 1:])
        self.assertEqual(self.run_program("migrate")[:2], (0, self.said))
        self.assertEqual([self.bytes_of(self.path(name)) for name in self.copies()], [left[gate + 1:]])

    def test_whole_records_behind_the_gate_are_kept(self):
        data = behind(b"\4one", b"\4two")
        self.put(self.old + data)
        status, said, errors = self.run_program("migrate")
        self.assertEqual((status, said, self.bytes_of(self.journal)), (0, self.said, self.moved))
        self.assertIn(f"2 whole records, {len(data)} bytes, are behind the closed gate at {len(self.old) - 1}", errors)
        self.assertEqual([self.bytes_of(self.path(name)) for name in self.copies()], [data])

    def test_an_old_journal_is_not_opened(self):
        for data in (self.old, self.old + b"junk", b"SHADOWJ1\0x"):
            self.put(data)
            status, said, errors = self.replay("begin 9")
            self.assertEqual((status, said, self.bytes_of(self.journal)), (6, "journal: version\n", data))
            self.assertRegex(errors, r"\A.*migrate.*\n\Z")

    def test_a_moved_journal_goes_on(self):
        for data in (self.moved, self.moved + b"junk"):
            self.put(data)
            self.assertEqual(self.replay("begin 73", "begin 70"), (0, "session 3 step 0 item 0 proved\nsession 0 complete\n", ""))
            left = self.bytes_of(self.journal)
            self.assertTrue(left.startswith(self.moved[:-1] + b"\1"))
            self.assertEqual(self.run_program("migrate"), (0, f"migrated 0 records length {len(left)}\n", ""))
            self.assertEqual(self.bytes_of(self.journal), left)

    def test_a_new_journal_is_of_version_2(self):
        for data in (b"", b"SHADOWJ1\0", b"any bytes"):
            self.put(data)
            self.assertEqual(self.run_program("migrate"), (0, f"migrated 0 records length {len(data)}\n", ""))
            told = LINE.format(self.journal, "no journal was in its 0 bytes: it is made") if not data else ""
            self.assertEqual((self.bytes_of(self.journal), self.replay(), self.bytes_of(self.journal)), (data, (0, "", told), b"SHADOWJ2\0"))

    def test_there_is_no_room(self):
        for limit, wanted in ((len(self.moved), (0, self.said, "")),
                              (len(self.moved) - 1, (13, f"limit journal {len(self.moved)} of {len(self.moved) - 1}\n", "")),
                              (len(self.old) - 1, (6, f"journal: too long {len(self.old)}\n", LINE.format(
                                  self.journal, f"it has {len(self.old)} bytes, and the plan's line journal allows fewer")))):
            self.write("plan.txt", f"{bands.PLAN_TWO}journal {limit}\n")
            self.put(self.old)
            self.assertEqual(self.run_program("migrate"), wanted)
            self.assertEqual(self.bytes_of(self.journal), self.moved if wanted[0] == 0 else self.old)

    def test_each_write_that_cannot_grow_the_file(self):
        """The file may get so many bytes and no more: what is left represents the history, and a second run moves it."""
        for size in range(len(self.old), len(self.moved), 7):
            self.put(self.old)
            done = subprocess.run([PROGRAM, "migrate", *self.files], env=dict(os.environ, SHADOWD_JOURNAL=self.journal),
                                  preexec_fn=lambda size=size: limit_files(size), capture_output=True, text=True, timeout=LIMIT)
            left = self.bytes_of(self.journal)
            with self.subTest(size=size):
                self.assertEqual((done.returncode, done.stdout, left[:len(self.old)]), (9, "disk failed\n", self.old))
                self.assertEqual(self.audited(left)[1:], bands.LINES_TWO)
                self.assertEqual((self.run_program("migrate")[:2], self.bytes_of(self.journal)), ((0, self.said), self.moved))


@needs_program
class Watched(WithJournal):
    """A server at whose journal another program is."""

    def start(self):
        environment = dict(os.environ, SHADOWD_JOURNAL=self.journal, SHADOWD_LISTEN="127.0.0.1:0", SHADOWD_WORKERS="2")
        environment.pop("SHADOWD_CONNECTIONS", None)
        self.server = subprocess.Popen([PROGRAM, "serve", *self.files], env=environment, stdin=subprocess.DEVNULL,
                                       stdout=subprocess.PIPE, stderr=subprocess.PIPE, text=True)
        watch = threading.Timer(LIMIT, self.server.kill)
        watch.start()
        self.addCleanup(watch.cancel)
        self.addCleanup(self.server.kill)
        line = ""
        while not (found := re.search(r"listening on [0-9.]+:(\d+)", line)):
            line = self.server.stderr.readline()
            self.assertNotEqual(line, "")
        self.port = int(found.group(1))

    def asked(self, path, body):
        return asked(self.port, "POST", path, body, LIMIT)

    def is_lost_by(self, change, cause):
        """The server refuses what would be written, says why once, and ends. Gives what it had written before."""
        self.start()
        self.assertEqual(self.asked("/sessions", {"booking": 70})[0], 201)
        written = self.bytes_of(self.journal)
        change()
        self.assertEqual(self.asked("/sessions", {"booking": 71}), (503, {"error": "disk"}))
        said, errors = self.server.communicate(timeout=LIMIT)
        self.assertEqual((self.server.returncode, said), (9, "disk failed\n"))
        self.assertEqual(errors.count(LINE.format(self.journal, cause)), 1, errors)
        return written

    def test_a_journal_that_is_renamed(self):
        other = self.path("other")
        written = self.is_lost_by(lambda: os.rename(self.journal, other), "the journal was removed")
        self.assertEqual(self.bytes_of(other), written)
        self.assertFalse(os.path.exists(self.journal))

    def test_a_journal_that_is_replaced(self):
        other = self.path("other")
        with open(other, "wb") as file:
            file.write(b"other")
        self.is_lost_by(lambda: os.rename(other, self.journal), "another file is at its path")
        self.assertEqual(self.bytes_of(self.journal), b"other")

    def test_a_journal_that_is_cut(self):
        self.is_lost_by(lambda: os.truncate(self.journal, 0), "another program changed its length")
        self.assertEqual(self.bytes_of(self.journal), b"")

    def test_a_journal_behind_a_link_that_is_changed(self):
        own, other = self.path("own"), self.path("other")
        os.symlink(own, self.journal)

        def change():
            os.remove(self.journal)
            os.symlink(other, self.journal)
            with open(other, "wb"):
                pass
        written = self.is_lost_by(change, "another file is at its path")
        self.assertEqual((self.bytes_of(own), self.bytes_of(other)), (written, b""))


@needs_program
class Limited(WithJournal):
    """A disk that is full, and works again: the file may not grow beyond a limit."""

    def test_a_full_disk_has_one_line(self):
        script = self.write("script.txt", SCRIPT)
        limit = ["prlimit", "--fsize=300", PROGRAM, "replay", *self.files, script]
        done = subprocess.run(limit, env=dict(os.environ, SHADOWD_JOURNAL=self.journal), stdin=subprocess.DEVNULL,
                              capture_output=True, text=True, timeout=LIMIT, preexec_fn=ignore_the_signal)
        self.assertEqual((done.returncode, done.stdout.splitlines()[-1]), (9, "disk failed"))
        self.assertEqual(done.stderr, LINE.format(self.journal, MADE) + LINE.format(self.journal, "File too large (os error 27)"))


def ignore_the_signal():
    """A write past the limit fails, and the process goes on."""
    signal.signal(signal.SIGXFSZ, signal.SIG_IGN)


if __name__ == "__main__":
    unittest.main()
