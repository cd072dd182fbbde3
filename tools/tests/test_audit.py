"""The audit of a journal, by hand-made files and beside the program on drills."""
import hashlib
import os
import random
import shutil
import struct
import subprocess
import unittest

import audit
import check_tree
import data_of_bank_a as a
import drill_texts
from common import PROGRAM, Folder, needs_program
from shadowtools.command import Refused
from shadowtools.formats import examination, exposure

EMPTY = b"SHADOWJ1\0"
# Three records with payloads of one, two and three bytes, the gates at 8, 14, 21 and 29.
THREE = b"SHADOWJ1" + bytes([1, 0, 0, 0, 1, 5, 1, 0, 0, 0, 2, 6, 7, 1, 0, 0, 0, 3, 8, 9, 10, 0])
SESSIONS, CHANGES = 2, 60


def framed(payload):
    return b"\1" + struct.pack(">I", len(payload)) + payload


class Draw(unittest.TestCase):
    def test_block_of_the_rfc(self):
        """RFC 8439, section 2.3.2: counter 1, nonce 000000090000004a00000000."""
        words = audit.chacha_block(bytes(range(32)), 0x4A000000, 0x09000000 << 32 | 1)
        self.assertEqual(exposure.words_of(bytes(range(32)), 0x4A000000, 0x09000000 << 32 | 1), tuple(words))
        self.assertEqual(words[:4], [0xE4E7F110, 0x15593BD1, 0x1FDD0F50, 0xC47120A3])
        self.assertEqual(words[-1], 0x4E3C50A2)


    def test_words_of_other_bands(self):
        """The key of zeros and stream 3, at the places 0, 512 and 3,584 (`openssl enc -chacha20`, 3.0.19)."""
        for place, wanted in ((0, (0xF02B2F02, 0x43175876)), (512, (0xA1EDD8BF, 0x129C84AC)), (3584, (0x1FA12891, 0x2B827120))):
            for block in (audit.chacha_block, exposure.words_of):
                self.assertEqual(tuple(block(bytes(32), 3, place // 16)[:2]), wanted)


class Files(Folder):
    """What a file that stands for no history is refused for."""

    def said(self, data):
        with open(self.path("journal"), "wb") as file:
            file.write(data)
        status, said, errors = self.tool("audit", self.bank, self.plan, self.path("journal"))
        self.assertEqual(errors, self.digests)
        return status, said.splitlines()[0]

    def setUp(self):
        super().setUp()
        self.bank, self.plan = self.write("bank", a.BANK), self.write("plan", a.PLAN)
        self.digests = "".join(f"{name} sha256 {hashlib.sha256(text.encode()).hexdigest()}\n" for name, text in (("bank", a.BANK), ("plan", a.PLAN)))

    def test_frames(self):
        none = (0, "entries 0 sessions 0 finished 0 proved 0 unproved 0 aside 0 nodes 0")
        for data, wanted in (
                (b"", none), (b"any bytes", none), (EMPTY, none), (EMPTY + b"junk", none), (b"SHADOWJ1\2junk", none),
                (b"SHADOWJ2\0junk", none), (b"SHADOWJ3\0junk", (6, "journal: header")),
                (b"SHADOWJ1\1\0\0\0", (6, "journal: cut at 8")),
                (b"SHADOWJ1\1\0\0\0\0\0", (6, "journal: length at 8")),
                (b"SHADOWJ1\1\0\2\0\1\0", (6, "journal: length at 8")),
                (THREE[:-1], (6, "journal: cut at 21")),
                (THREE[:21] + b"\1\0\0\0\3\10\11", (6, "journal: cut at 21")),
                (THREE, (6, "journal: record at 8"))):
            with self.subTest(data):
                self.assertEqual(self.said(data), wanted)

    def test_records(self):
        started = bytes.fromhex("01 00000000 0000000000000046 3f") + bytes(63)
        answered = bytes.fromhex("04 00000000 0000 01")
        for payloads, wanted in (
                ([started], (0, "entries 1 sessions 1 finished 0 proved 0 unproved 0 aside 0 nodes 0")),
                ([started[:14] + b"\1" + started[15:]], (6, "journal: illegal at 8")),
                ([started, started], (6, "journal: illegal at 90")),
                ([started, answered], (6, "journal: illegal at 90")),
                ([answered[:7]], (6, "journal: record at 8")), ([answered + b"\0"], (6, "journal: record at 8")),
                ([started, b"\5\0\0\0\0", b"\5\0\0\0\0"], (6, "journal: illegal at 100")),
                ([started, b"\5\0\0\0\0"], (0, "entries 2 sessions 1 finished 1 proved 0 unproved 0 aside 0 nodes 0"))):
            with self.subTest(payloads):
                self.assertEqual(self.said(b"SHADOWJ1" + b"".join(map(framed, payloads)) + b"\0"), wanted)


class Lists(Files):
    """Session 1 of bank A begins without item 2: its best form is that of items 1, 3 and 5, and its first item is 1."""

    FIRST = [a.started(0, 70), a.served(0, 0, 2, {1, 2, 3}, tree=bytes.fromhex("0100010003000000410300"))]
    SHOWN = a.served(1, 0, 1, {1, 3, 5}, tree=bytes.fromhex("0100000300"))

    def lines(self, payloads):
        with open(self.path("journal"), "wb") as file:
            file.write(a.journal(payloads))
        status, said, _ = self.tool("audit", self.bank, self.plan, self.path("journal"))
        return status, said.splitlines()

    def test_a_session_without_an_item(self):
        payloads = [*self.FIRST, a.started_without(1, 71, {2}, {1, 3, 5}), self.SHOWN, a.closed(1)]
        self.assertEqual(len(payloads[2]), 206)
        counts = [(0, 1), (1, 1), (0, 0), (0, 1), (0, 1), (0, 1)]
        self.assertEqual(self.lines(payloads), (0, [
            "entries 5 sessions 2 finished 1 proved 2 unproved 0 aside 0 nodes 2", "exposure finished 1",
            *(f"item {k} shown {shown} eligible {eligible}" for k, (shown, eligible) in enumerate(counts))]))
        entries = examination.read_journal(self.path("journal"))
        self.assertEqual((entries[2].without, entries[2].form), ({2}, {1, 3, 5}))
        found = exposure.exposure_of(entries, examination.read_bank(self.bank), examination.read_plan(self.plan))
        self.assertIsNone(exposure.differs(found, (1, counts)))

    def test_lists_that_are_none(self):
        at = len(a.journal(self.FIRST)) - 1
        empty = a.started_without(1, 71, set(), {1, 3, 5})
        for payload, word in (
                (empty, "record"), (empty[:-64], "record"), (a.started_without(1, 71, {2}, {1, 3, 5})[:-1], "record"),
                (a.started_without(1, 71, {6}, {1, 3, 5}), "illegal"), (a.started_without(1, 71, {2}, {1, 2, 3}), "illegal"),
                (a.started_without(1, 71, {0, 1}, {3, 4, 5}), "illegal"), (a.started_without(1, 70, {2}, {1, 3, 5}), "illegal")):
            with self.subTest(payload):
                self.assertEqual(self.lines([*self.FIRST, payload]), (6, [f"journal: {word} at {at}"]))

    def test_an_item_of_the_list_is_not_served(self):
        payloads = [*self.FIRST, a.started_without(1, 71, {2}, {1, 3, 5})]
        at = len(a.journal(payloads)) - 1
        served = a.served(1, 0, 2, {1, 2, 3}, tree=bytes.fromhex("0100010003000000410300"))
        self.assertEqual(self.lines([*payloads, served]), (6, [f"journal: illegal at {at}"]))
        with self.assertRaisesRegex(Refused, "session 1: item 2 is served at step 0 in band 0, where it is not eligible"):
            exposure.exposure_of(examination.read_journal(self.path("journal")), examination.read_bank(self.bank), examination.read_plan(self.plan))

    def test_a_later_step(self):
        """The estimate stays point 1. With item 1 given, {1, 2, 3} has 23; without item 2 {1, 3, 5} is best with 21, and item 5 has most of it."""
        payloads = [*self.FIRST, a.started_without(1, 71, {2}, {1, 3, 5}), self.SHOWN, a.answered(1, 0, 0)]
        later = a.served(1, 1, 5, {1, 3, 5}, tree=bytes.fromhex("0100000300"))
        self.assertEqual(self.lines([*payloads, later])[1][0],
                         "entries 6 sessions 2 finished 0 proved 3 unproved 0 aside 0 nodes 3")
        at = len(a.journal(payloads)) - 1
        served = a.served(1, 1, 2, {1, 2, 3}, tree=bytes.fromhex("0100010003000000410300"))
        self.assertEqual(self.lines([*payloads, served]), (6, [f"journal: illegal at {at}"]))

    def aside(self):
        """Sessions 0 and 1 show each item once; then none is eligible, and session 2 begins without item 2 and is set aside."""
        self.write("plan", a.PLAN + "rate 1 65535\nkey " + "0" * 64 + "\n")
        whole = bytes.fromhex("0006")
        return [*a.history()[:6], a.answered(0, 2, 1), a.started(1, 71, ((0, 3, 5),)),
                a.served(1, 0, 5, {0, 3, 5}, tree=whole), a.answered(1, 0, 0), a.served(1, 1, 3, {0, 3, 5}, tree=whole),
                a.answered(1, 1, 0), a.served(1, 2, 0, {0, 3, 5}, tree=whole), a.answered(1, 2, 0),
                a.started_without(2, 72, {2}, {1, 3, 5}, ((),)), a.set_aside(2, 0, 0, 0, 1, bytes.fromhex("000500"))]

    def test_eligibility_set_aside(self):
        payloads = self.aside()
        shown = a.served(2, 0, 1, {1, 3, 5}, tree=bytes.fromhex("0100000300"))
        status, said = self.lines([*payloads, shown, a.closed(2)])
        self.assertEqual((status, said[:2]), (0, ["entries 18 sessions 3 finished 3 proved 7 unproved 0 aside 1 nodes 8", "exposure finished 3"]))
        self.assertEqual(said[2:], [f"item {k} shown {shown} eligible {eligible}" for k, (shown, eligible)
                                    in enumerate(((1, 3), (2, 2), (1, 1), (1, 3), (1, 2), (1, 3)))])
        at = len(a.journal(payloads)) - 1
        served = a.served(2, 0, 2, {1, 2, 3}, tree=bytes.fromhex("0100010003000000410300"))
        self.assertEqual(self.lines([*payloads, served]), (6, [f"journal: illegal at {at}"]))

    @needs_program
    def test_the_program_reads_it(self):
        later = a.served(1, 1, 5, {1, 3, 5}, tree=bytes.fromhex("0100000300"))
        for payloads in ([*self.FIRST, a.started_without(1, 71, {2}, {1, 3, 5}), self.SHOWN, a.answered(1, 0, 0), later], self.aside()):
            with self.subTest(len(payloads)):
                status, said = self.lines(payloads)
                done = subprocess.run([PROGRAM, "audit", self.bank, self.plan], stdin=subprocess.DEVNULL, capture_output=True,
                                      text=True, env={"SHADOWD_JOURNAL": self.path("journal")})
                self.assertEqual((done.returncode, done.stdout.splitlines()), (status, said))

    @needs_program
    def test_the_program_goes_on(self):
        """Session 2 gets the best form without item 2: {1, 3, 5} with 21; after it {1, 3, 4} has 18 and {1, 4, 5} 19."""
        with open(self.path("journal"), "wb") as file:
            file.write(a.journal(self.aside()))
        script = self.write("script", "look 2\nanswer 2 0 0\nanswer 2 1 0\n")
        done = subprocess.run([PROGRAM, "replay", self.bank, self.plan, script], stdin=subprocess.DEVNULL, capture_output=True,
                              text=True, env={"SHADOWD_JOURNAL": self.path("journal")})
        self.assertEqual((done.returncode, done.stdout.splitlines()), (0, [
            "session 2 step 0 item 1 proved", "session 2 step 1 item 5 proved", "session 2 step 2 item 3 proved"]))

    @needs_program
    def test_requests_with_lists(self):
        """By enumeration of the forms: without item 2 the best of session 1 is {1, 3, 5}; each form has one of the items 0 and 1, and one
        or more of the items 3, 4 and 5. The journal is judged by audit.py and by the program."""
        script = self.write("script", "begin 70\nbegin 71 without 2\nbegin 71 without 1\nbegin 71\nbegin 72 without 0-1\n"
                                      "begin 72 without 3-5\nbegin 72 without 6\nclose 1\nexposure\n")
        counts = ["exposure finished 1", "item 0 shown 0 eligible 1", "item 1 shown 1 eligible 1", "item 2 shown 0 eligible 0",
                  *(f"item {k} shown 0 eligible 1" for k in (3, 4, 5))]

        def ran(*words):
            done = subprocess.run([PROGRAM, *words], stdin=subprocess.DEVNULL, capture_output=True, text=True,
                                  env={"SHADOWD_JOURNAL": self.path("journal")})
            return done.returncode, done.stdout.splitlines()

        self.assertEqual(ran("replay", self.bank, self.plan, script), (0, [
            "session 0 step 0 item 2 proved", "session 1 step 0 item 1 proved", "refused other-list 1", "session 1 step 0 item 1 proved",
            "refused no-form", "refused no-form", "refused no-item 6", "session 1 closed", *counts]))
        started = examination.read_journal(self.path("journal"))[2]
        rules = audit.read_rules(self.bank, self.plan)
        self.assertEqual((started.session, started.booking, started.without), (1, 71, {2}))
        self.assertTrue(check_tree.is_form(audit.History(rules).whole_without(started.without), started.form))
        status, said, _ = self.tool("audit", self.bank, self.plan, self.path("journal"))
        self.assertEqual((status, said.split()[:6], said.splitlines()[1:]), (0, "entries 5 sessions 2 finished 1".split(), counts))
        self.assertEqual(ran("audit", self.bank, self.plan), (status, said.splitlines()))

    def test_version_1_has_none(self):
        payload = a.started_without(0, 70, {2}, {1, 3, 5})
        self.assertEqual(self.said(b"SHADOWJ1" + framed(payload) + b"\0"), (6, "journal: record at 8"))


class Fixes(Files):
    """Session 0 of bank A is served by a tree that fixes items.

    At point 1 the items weigh 1280, 2048, 2304, 1536, 1024 and 1792. The row of items 2 and 5 costs 512 and a place 1536, so the margins are
    -256, 512, 256, 0, -512 and -256, and the bound is 512 + 3 * 1536 + 512 + 256 = 256 * 23, the objective of {1, 2, 3}. Goal 22 leaves a room
    of 1: items 1 and 2 are in, 0, 4 and 5 are out, and item 3 fills the form. Goal 23 leaves a room of -255: each item is out.
    """

    COSTS = bytes.fromhex("01 0002 0003 00000200 0180 00000600")
    LENGTH_IMPOSSIBLE, WHOLE, OPEN = b"\5\0", b"\6", b"\7"

    def audited(self, goal, leaf):
        """What the Python audit has of a journal with a start and an item whose tree has this goal and this leaf, and what the program has."""
        tree = self.COSTS + b"\x08\0" + goal.to_bytes(4, "big") + leaf
        with open(self.path("journal"), "wb") as file:
            file.write(a.journal([a.started(0, 70), a.served(0, 0, 2, {1, 2, 3}, tree=tree, nodes=2)]))
        status, said, _ = self.tool("audit", self.bank, self.plan, self.path("journal"))
        if os.path.exists(PROGRAM):
            done = subprocess.run([PROGRAM, "audit", self.bank, self.plan], stdin=subprocess.DEVNULL, capture_output=True, text=True,
                                  env={"SHADOWD_JOURNAL": self.path("journal")})
            self.assertEqual((done.returncode, done.stdout), (status, said))
        return status, said.splitlines()[0]

    def test_a_tree_that_shows_its_form_best(self):
        for goal, leaf in ((22, self.WHOLE), (23, self.LENGTH_IMPOSSIBLE)):
            with self.subTest(goal):
                self.assertEqual(self.audited(goal, leaf), (0, "entries 2 sessions 1 finished 0 proved 1 unproved 0 aside 0 nodes 2"))

    def test_a_tree_that_does_not(self):
        """A goal above the form's objective; a row that is possible; an open leaf at a whole form; and goal 17, whose room of 1281 settles nothing."""
        at = len(a.journal([a.started(0, 70)])) - 1
        for goal, leaf in ((24, self.LENGTH_IMPOSSIBLE), (22, self.LENGTH_IMPOSSIBLE), (22, self.OPEN), (17, self.WHOLE)):
            with self.subTest((goal, leaf)):
                self.assertEqual(self.audited(goal, leaf), (6, f"journal: bad tree at {at}"))


class Seals(Folder):
    """A seal is the SHA-256 of the bytes that no later record changes."""

    def setUp(self):
        super().setUp()
        self.payloads = a.history()
        self.journal("now", self.payloads)

    def journal(self, name, payloads, after=b""):
        with open(self.path(name), "wb") as file:
            file.write(a.journal(payloads) + after)

    def test_a_journal_goes_on_from_each_of_its_seals(self):
        for many in range(len(self.payloads) + 1):
            self.journal("then", self.payloads[:many])
            status, said, _ = self.tool("audit", "--seal", "then")
            data = a.journal(self.payloads[:many])[:-1]
            self.assertEqual((status, said), (0, f"seal records {many} bytes {len(data)} sha256 {hashlib.sha256(data).hexdigest()}\n"))
            self.write("seal", said)
            self.assertEqual(self.tool("audit", "--against", "seal", "now")[0], 0)
            self.journal("then", self.payloads[:many], b"\0a record whose gate is not open")
            self.assertEqual(self.tool("audit", "--against", "seal", "then")[:2], (0, said + f"from the seal of {many} records\n"))

    def test_another_history_does_not(self):
        """The flipped last answer that an audit takes, and a record that is gone, are seen beside the seal."""
        self.write("bank", a.BANK)
        self.write("plan", a.PLAN)
        self.write("seal", self.tool("audit", "--seal", "now")[1])
        self.journal("flipped", self.payloads[:-1] + [a.answered(0, 2, 0)])
        self.assertEqual(self.tool("audit", "bank", "plan", "flipped")[0], 0)
        self.journal("shorter", self.payloads[:-1])
        for name in ("flipped", "shorter"):
            self.assertEqual(self.tool("audit", "--against", "seal", name)[:2], (6, "journal: not from the seal of 9 records\n"))

    def test_files_that_are_none(self):
        self.write("seal", "seal records 1\n")
        for words in (("--against", "seal", "now"), ("--against", "now", "now"), ("--seal", "nowhere"), ("--against", "seal", "nowhere")):
            status, said, errors = self.tool("audit", *words)
            self.assertEqual((status, said, len(errors.splitlines())), (1, "", 1))
        self.write("now", "no journal at all")
        self.assertEqual(self.tool("audit", "--seal", "now")[:2], (6, "journal: header\n"))


class Unread(Folder):
    def test_texts_that_shadowd_does_not_take(self):
        for bank, plan, wanted in ((a.BANK, "length", "plan: line 1 shape"), ("x", a.PLAN, "bank: header column 0")):
            self.write("bank", bank)
            self.write("plan", plan)
            for tool, last in (("audit", "journal"), ("check_tree", "0006")):
                self.assertEqual(self.tool(tool, "bank", "plan", last), (1, "", wanted + "\n"))
        self.assertEqual(self.tool("audit", "no", "plan", "journal"), (1, "", "no: No such file or directory\n"))


@needs_program
class Drills(Folder):
    """Journals of drills, and such journals with a byte changed, as the program reads them."""

    def drill(self, number):
        """A folder with the texts of a drill, its journal, and a script that asks for the exposure."""
        folder = self.path(str(number))
        self.assertFalse(drill_texts.main([str(number), str(SESSIONS), folder]))
        with open(os.path.join(folder, "report.txt"), "w", encoding="utf-8") as file:
            file.write("exposure\n")
        self.assertEqual(self.replay(folder, "script.txt", "journal")[0], 0)
        return folder

    def replay(self, folder, script, journal):
        words = [os.path.join(folder, name) for name in ("bank.csv", "plan.txt", script)]
        done = subprocess.run([PROGRAM, "replay", *words], stdin=subprocess.DEVNULL, capture_output=True, text=True,
                              env={"SHADOWD_JOURNAL": os.path.join(folder, journal)})
        return done.returncode, done.stdout.splitlines()

    def audit(self, folder, journal, *more):
        words = [os.path.join(folder, name) for name in ("bank.csv", "plan.txt", journal)]
        status, said, _ = self.tool("audit", *words, *more)
        return status, said.splitlines()

    def test_drills(self):
        for number in range(3):
            with self.subTest(number):
                folder = self.drill(number)
                status, said = self.audit(folder, "journal", "--trees")
                trees = [line.split() for line in said if line.startswith("tree")]
                summary = said[len(trees)].split()
                self.assertEqual((status, said[len(trees) + 1:]), self.replay(folder, "report.txt", "journal"))
                # Two starts; 20 items served and answered; 11 served and 10 answered before the session is closed.
                self.assertEqual(summary[:6], ["entries", "64", "sessions", "2", "finished", "2"])
                self.assertEqual(len(trees), 20 + 11)
                self.assertEqual(int(summary[-1]), sum(int(tree[4]) for tree in trees))
                self.assertEqual(int(summary[7]), sum(tree[5] == "Optimal" for tree in trees))

    def test_changed_bytes(self):
        folder = self.drill(3)
        with open(os.path.join(folder, "journal"), "rb") as file:
            data = file.read()
        seen, rng = set(), random.Random(1)
        for at in sorted(rng.sample(range(len(data)), CHANGES)):
            changed = bytearray(data)
            changed[at] ^= 1 << rng.randrange(8)
            with self.subTest(at), open(os.path.join(folder, "changed"), "wb") as file:
                file.write(changed)
                file.flush()
                shutil.copy(file.name, os.path.join(folder, "read"))
                status, said = self.audit(folder, "read")
                self.assertEqual((status, said[1:] if status == 0 else said), self.replay(folder, "report.txt", "changed"))
                seen.add(said[0].rsplit(" ", 1)[0] if status else "0")
        self.assertGreater(len(seen), 2)


if __name__ == "__main__":
    unittest.main()
