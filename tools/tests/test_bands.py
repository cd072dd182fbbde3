"""Bands of abilities: two worked examinations in both versions of a journal, and the two counts by band beside each other."""
import io
import os
import random
import subprocess
import unittest

import audit
import check_tree
import data_of_bank_a as a
import data_of_bands as d
import journal_maker as made
import torture_draws as draws
from common import PROGRAM, Folder, needs_program
from shadowtools.command import Refused
from shadowtools.formats import examination, exposure

EXAMPLES = [(d.BANK_ONE, d.PLAN_ONE, d.SCRIPT_ONE, d.ITEMS_ONE, d.SUMMARY_ONE, d.LINES_ONE),
            (d.BANK_TWO, d.PLAN_TWO, d.SCRIPT_TWO, d.ITEMS_TWO, d.SUMMARY_TWO, d.LINES_TWO)]
# The first records of bank A's example: a start with items 0 to 5, and item 2 from the form of items 1 to 3.
PLAN_A = "length 3\nprior -10 0 -10\ncount 1 1 0-1\nenemies 2 5\n"
START, SERVED = a.old_started(0, 70), a.served(0, 0, 2, {1, 2, 3}, tree=bytes.fromhex("0100010003000000010300"))
NEW_START = a.started(0, 70)
OLD_FILE = made.file_of(made.ONE, [START, SERVED])


def said(rules, data):
    """The lines of an audit, with bands, or the line of its refusal."""
    try:
        return list(audit.lines(audit.audit(rules, io.BytesIO(data)), True))
    except Refused as refused:
        return [str(refused)]


class Worked(unittest.TestCase):
    def test_each_file_of_the_two_histories(self):
        for bank, plan, script, items, summary, lines in EXAMPLES:
            maker = made.Maker(bank, plan).run(script)
            self.assertEqual([session.shown for session in maker.history.sessions], items)
            for data in maker.files():
                with self.subTest(data[:8], length=len(data)):
                    found = said(maker.rules, data)
                    self.assertEqual((found[0].rsplit(" nodes ")[0], found[1:]), (summary, lines))

    def test_one_without_bands_and_with_another_response(self):
        script = d.SCRIPT_ONE.replace("close 1\n", "")
        for plan, asked, last in ((d.PLAN_ONE.replace("bands 2\n", ""), script, d.LAST_WITHOUT_BANDS),
                                  (d.PLAN_ONE, script.replace("answer 1 1 1", "answer 1 1 0"), d.LAST_AFTER_ANOTHER)):
            sessions = made.Maker(d.BANK_ONE, plan).run(asked).history.sessions
            self.assertEqual([session.shown for session in sessions], [[2, 1, 3], [5, 4, last]])

    def test_one_ineligible_in_band_0_alone(self):
        sets = made.Maker(d.BANK_ONE, d.PLAN_ONE).run(d.SCRIPT_ONE).history.sessions[1].eligible
        self.assertEqual(sets, [{0, 4, 5}, set(range(6))])

    def test_a_seat_whose_band_has_one_item_left(self):
        """Item 5 was shown and answered with 1, so the estimate is point 2: items 1 to 4 are barred, as 5 is given, and no form is
        left. With band 1 set aside nothing is barred, and the best form {1, 4, 5} informs 2 + 9 + 5 at point 2."""
        H = made.Maker(d.BANK_ONE, d.PLAN_ONE).history
        session = audit.Session([frozenset(range(6)), frozenset({0})])
        session.shown, session.bands, session.responses, session.form = [5], [0], [1], frozenset({0, 3, 5})
        problem = H.problem(session)
        self.assertEqual((problem.theta, problem.barred, check_tree.best_of_all(problem)), (2, {1, 2, 3, 4}, None))
        session.aside.add(1)
        problem = H.problem(session)
        best = check_tree.best_of_all(problem)
        self.assertEqual((problem.barred, best, check_tree.objective(problem, best)), (set(), {1, 4, 5}, 16))

    def test_a_flag_of_another_band_bars_on(self):
        """Set aside in band 0, the same seat still has no form in band 1."""
        H = made.Maker(d.BANK_ONE, d.PLAN_ONE).history
        session = audit.Session([frozenset(range(6)), frozenset({0})])
        session.shown, session.bands, session.responses = [5], [0], [1]
        session.aside.add(0)
        self.assertEqual(H.problem(session).barred, {1, 2, 3, 4})


class Versions(unittest.TestCase):
    def setUp(self):
        self.rules = made.rules_of(a.BANK, PLAN_A)
        self.lines = said(self.rules, OLD_FILE)

    def test_the_move_of_two_records(self):
        """183 bytes with the gates 8, 90 and 182; moved, 364 bytes with the gates 188, 271 and 363. Each beginning of what is written
        after the closed gate stands for the same history, and so does each value of the old gate."""
        moved = made.file_of(made.ONE, [START, SERVED, b"\x08", NEW_START, SERVED])
        self.assertEqual((len(OLD_FILE), len(moved), self.lines[0]),
                         (183, 364, "entries 2 sessions 1 finished 0 proved 1 unproved 0 aside 0 nodes 1"))
        for file, gates in ((OLD_FILE, [8, 90]), (moved, [8, 90, 182, 188, 271])):
            self.assertEqual([at for at, _ in audit.frames(io.BytesIO(file), len(file))], gates)
        self.assertEqual([record.at for record in audit.counted(io.BytesIO(moved), 364)], [188, 271])
        for size in range(183, 365):
            self.assertEqual(said(self.rules, OLD_FILE + moved[183:size]), self.lines)
        for gate in range(256):
            self.assertEqual(said(self.rules, moved[:182] + bytes([gate]) + moved[183:]), self.lines)

    def test_records_before_the_mark_count_for_nothing(self):
        """Their frames are tested, and their bytes are not."""
        for front in ([], [b"x"], [SERVED, b"\1"], [b"\x09"]):
            self.assertEqual(said(self.rules, made.file_of(made.ONE, [*front, b"\x08", NEW_START, SERVED])), self.lines)
        data = made.file_of(made.ONE, [START, b"\x08", NEW_START])
        self.assertEqual(said(self.rules, data[:10] + b"\xff" + data[11:]), ["journal: length at 8"])
        self.assertEqual(said(self.rules, data[:-1]), ["journal: cut at 96"])

    def test_records_of_the_other_version(self):
        aside = a.set_aside(0, 0, 0, 0, 1, bytes.fromhex("0006"))
        for header, payloads, wanted in (
                (made.ONE, [NEW_START], "record at 8"), (made.TWO, [START], "record at 8"),
                (made.ONE, [START, aside], "record at 90"), (made.TWO, [NEW_START, a.old_set_aside(0, 0, 1, b"\0\6")], "record at 91"),
                (made.TWO, [NEW_START, b"\x08"], "record at 91"), (made.ONE, [b"\x08", b"\x08"], "record at 14"),
                (made.ONE, [START, b"\x08", START], "record at 96"), (made.TWO, [b"\6"], "record at 8")):
            with self.subTest(header, payloads=payloads):
                self.assertEqual(said(self.rules, made.file_of(header, payloads)), ["journal: " + wanted])

    def test_an_altered_multiplier(self):
        """With 65,537 in the place of 1, items 0, 1 and 3 alone give 256 * 19 + 65,537, above 256 * 23 + 255."""
        data = made.file_of(made.ONE, [START, SERVED, b"\x08", NEW_START, SERVED[:82] + b"\1" + SERVED[83:]])
        self.assertEqual(said(self.rules, data), ["journal: bad tree at 271"])

    def test_fields_of_bands(self):
        """A number of bands or a band out of range is no record; one that is not the plan's, or the place's, may not follow."""
        rules, maker = made.rules_of(d.BANK_TWO, d.PLAN_TWO), made.Maker(d.BANK_TWO, d.PLAN_TWO).run(d.SCRIPT_TWO)
        both = frozenset(range(3))
        for sets, wanted in (([], "record"), ([both] * 9, "record"), ([both], "illegal"), ([both] * 3, "illegal"),
                             ([both, frozenset({0, 1})], "illegal"), ([frozenset({0, 1}), both], "illegal")):
            self.assertEqual(said(rules, made.file_of(made.TWO, [a.started(0, 70, sets)])), [f"journal: {wanted} at 8"])
        where = [k for k, payload in enumerate(maker.new) if payload[0] == 7]
        self.assertEqual([maker.new[k][1:8].hex() for k in where], ["00000002000000", "00000002000101"])
        for k in where:
            front = made.file_of(made.TWO, maker.new[:k])
            for place, value, wanted in ((6, 2, "illegal"), (7, 1 - maker.new[k][7], "illegal"), (7, 8, "record"), (8, 2, "record")):
                changed = maker.new[k][:place] + bytes([value]) + maker.new[k][place + 1:]
                self.assertEqual(said(rules, made.file_of(made.TWO, [*maker.new[:k], changed])), [f"journal: {wanted} at {len(front) - 1}"])
            self.assertEqual(said(rules, made.file_of(made.TWO, [*maker.new[:k + 1], maker.new[k]])),
                             [f"journal: illegal at {len(front) + 4 + len(maker.new[k])}"])

    def test_a_plan_with_other_bands(self):
        """Of another number of bands the first start is none; version 1 has but the first band's set, and it is the same there."""
        maker = made.Maker(d.BANK_TWO, d.PLAN_TWO).run("begin 70\n")
        other = made.rules_of(d.BANK_TWO, d.PLAN_TWO.replace("bands 1\n", ""))
        self.assertEqual([said(other, data)[0].split(" nodes")[0] for data in maker.files()],
                         ["entries 2 sessions 1 finished 0 proved 1 unproved 0 aside 0", "journal: illegal at 8", f"journal: illegal at "
                          f"{len(maker.files()[0]) + 5}"])

    def test_a_seal_goes_on_over_a_move(self):
        moved = made.file_of(made.ONE, [START, SERVED, b"\x08", NEW_START, SERVED])
        self.assertEqual(audit.seal_of(io.BytesIO(OLD_FILE)), audit.seal_of(io.BytesIO(moved), 2))
        new = made.file_of(made.TWO, [NEW_START])
        self.assertNotEqual(audit.seal_of(io.BytesIO(new)).sha256, audit.seal_of(io.BytesIO(made.ONE + new[8:])).sha256)


class Counted(Folder):
    """The counts of the agencies' tools beside those of audit.py, which share no line."""

    def read(self, bank, plan):
        return examination.read_bank(self.write("bank", bank)), examination.read_plan(self.write("plan", plan))

    def entries(self, data):
        with open(self.path("journal"), "wb") as file:
            file.write(data)
        return examination.read_journal(self.path("journal"))

    def agree(self, maker, bank, plan):
        """Each file gives the counts of the history; what the bands are watched for is the same where they are the plan's."""
        tables, rules, H = *self.read(bank, plan), maker.history
        for data in maker.files():
            found = exposure.exposure_of(self.entries(data), tables, rules, rules.points)
            for counts in (found.bands, found.watched):
                self.assertEqual([(one.visited, one.shown, one.eligible) for one in counts],
                                 [(one.visited, one.shown, one.eligible) for one in H.bands])
            self.assertEqual((found.total.visited, found.total.shown, found.total.eligible), (H.finished, H.shown, H.eligible))
            self.assertIsNone(exposure.differs(found, (H.finished, list(zip(H.shown, H.eligible)))))
            self.assertEqual([session.items for session in found.sessions], [session.shown for session in H.sessions])

    def test_the_two_histories(self):
        for bank, plan, script, *_ in EXAMPLES:
            self.agree(made.Maker(bank, plan).run(script), bank, plan)

    def test_drawn_examinations(self):
        """Small ones with a strong rate, whose sessions go on in turns. Eligibility is set aside in some, at a later step too."""
        number = later = 0
        for seed in range(60):
            bank, plan = (text.decode() for text in draws.small_exam(random.Random(seed)))
            lines = [line for line in plan.splitlines() if line.split(" ")[0] not in ("sessions", "journal", "budget", "rate", "key")]
            if not any(line.startswith("bands") for line in lines) or "\r" in bank:
                continue
            plan = "\n".join([*lines, "rate 1 65535", "key " + "5a" * 32, ""])
            try:
                maker = made.drawn(seed, 8, bank, plan)
            except (TypeError, IndexError):      # no set of items meets the plan
                continue
            self.agree(maker, bank, plan)
            number += 1
            later += sum(payload[0] == 7 and payload[6] > 0 for payload in maker.new)
        self.assertGreater(number, 5)
        self.assertGreater(later, 0)

    def test_bands_that_are_watched(self):
        """The plan has one band; watched from point 2 on, session 1 visits the second band with items 4 and 0."""
        plan = d.PLAN_ONE.replace("bands 2\n", "")
        maker = made.Maker(d.BANK_ONE, plan).run(d.SCRIPT_ONE)
        tables, rules = self.read(d.BANK_ONE, plan)
        found = exposure.exposure_of(self.entries(maker.files()[0]), tables, rules, [2])
        self.assertEqual([one.visited for one in found.watched], [2, 1])
        self.assertEqual([one.shown for one in found.watched], [[0, 1, 1, 1, 0, 1], [1, 0, 0, 0, 1, 0]])
        self.assertEqual([one.eligible for one in found.watched], [[2, 1, 1, 1, 2, 2], [1, 0, 0, 0, 1, 1]])
        self.assertEqual(found.watched[1].rates(), [1, 0, 0, 0, 1, 0])
        self.assertEqual((len(found.bands), found.bands[0].shown), (1, [1, 1, 1, 1, 1, 1]))

    def test_steps_at_which_eligibility_is_set_aside(self):
        tables, rules = self.read(d.BANK_TWO, d.PLAN_TWO)
        found = exposure.exposure_of(self.entries(made.Maker(d.BANK_TWO, d.PLAN_TWO).run(d.SCRIPT_TWO).files()[0]), tables, rules)
        self.assertEqual([one.steps for one in found.bands], [{0: 1}, {1: 1}])

    def test_entries_that_cannot_follow(self):
        tables, rules = self.read(d.BANK_TWO, d.PLAN_TWO)
        entries = self.entries(made.Maker(d.BANK_TWO, d.PLAN_TWO).run(d.SCRIPT_TWO).files()[1])
        sets = [entry.eligible for entry in entries if isinstance(entry, examination.Started)]
        aside = next(k for k, entry in enumerate(entries) if isinstance(entry, examination.SetAside))
        for at, change, wanted in ((0, {"eligible": sets[0][:1]}, "eligible items of 1 bands, the plan has 2"),
                                   (0, {"eligible": (sets[0][0], frozenset())}, "its eligible items in band 1 are not the draw"),
                                   (0, {"session": 1}, "does not follow"), (aside, {"band": 1}, "in band 1, where the estimate is in band 0"),
                                   (aside, {"step": 1}, "does not follow"), (2, {"response": 2}, "where the item has 2 categories"),
                                   (6, {"item": 0}, "item 0 is served at step 0 in band 0, where it is not eligible")):
            changed = [*entries[:at], entries[at]._replace(**change), *entries[at + 1:]]
            with self.subTest(change), self.assertRaisesRegex(Refused, wanted):
                exposure.exposure_of(changed, tables, rules)

    def test_totals_that_differ(self):
        tables, rules = self.read(d.BANK_TWO, d.PLAN_TWO)
        found = exposure.exposure_of(self.entries(made.Maker(d.BANK_TWO, d.PLAN_TWO).run(d.SCRIPT_TWO).files()[0]), tables, rules)
        rows = [(2, 3), (3, 3), (1, 3)]
        self.assertIsNone(exposure.differs(found, (3, rows)))
        self.assertIn("2 sessions are counted", exposure.differs(found, (2, rows)))
        self.assertIn("item 1: shown 3 and eligible 2", exposure.differs(found, (3, [rows[0], (3, 2), rows[2]])))
        found.bands[0].shown[2] += 1
        self.assertIn("item 2: shown 1, in the bands 2", exposure.differs(found, (3, rows)))


class Plans(Folder):
    def test_points_that_are_none(self):
        bank = examination.read_bank(self.write("bank", a.BANK))
        for points, holds in (("1", True), ("1 2", True), ("0", False), ("3", False), ("2 1", False), ("1 1", False)):
            plan = examination.plan_of(f"length 1\nprior 0 0 0\nbands {points}\n")
            with self.subTest(points):
                if holds:
                    examination.require_agreement(bank, plan, "plan")
                else:
                    self.assertRaisesRegex(Refused, "the points of bands ascend from 1 to 2", examination.require_agreement, bank, plan, "plan")
        many = examination.plan_of("length 1\nprior" + " 0" * 20 + "\nbands 1 2 3 4 5 6 7 8\n")
        self.assertRaises(Refused, examination.require_points, many.points, 20, "plan")

    def test_a_key_is_not_shown(self):
        with self.assertRaises(Refused) as caught:
            examination.plan_of("length 1\nkey 0123SECRET\n")
        self.assertNotIn("SECRET", str(caught.exception))


@needs_program
class Program(Folder):
    def test_the_two_histories(self):
        """The replies of the program, its exposure, and what tools/audit.py and the program itself read of its journal."""
        for bank, plan, script, items, summary, lines in EXAMPLES:
            for name, text in (("bank", bank), ("plan", plan), ("script", script + "exposure\n")):
                self.write(name, text)
            done = subprocess.run([PROGRAM, "replay", "bank", "plan", "script"], cwd=self.folder, stdin=subprocess.DEVNULL,
                                  capture_output=True, text=True, env=dict(os.environ, SHADOWD_JOURNAL="journal"))
            said = done.stdout.splitlines()
            served = [line.split() for line in said if " item " in line and line.startswith("session")]
            found = [[int(words[5]) for words in served if words[1] == str(session)] for session in range(len(items))]
            totals = [line for line in lines if not line.startswith("band")]
            self.assertEqual((done.returncode, found, said[-len(totals):]), (0, items, totals))
            status, said, _ = self.tool("audit", "bank", "plan", "journal", "--bands")
            self.assertEqual((status, said.splitlines()[0].split(" nodes ")[0], said.splitlines()[1:]), (0, summary, lines))
            done = subprocess.run([PROGRAM, "audit", "bank", "plan"], cwd=self.folder, capture_output=True, text=True,
                                  env=dict(os.environ, SHADOWD_JOURNAL="journal"))
            self.assertEqual((done.returncode, done.stdout), (status, said))
            os.unlink(self.path("journal"))


if __name__ == "__main__":
    unittest.main()
