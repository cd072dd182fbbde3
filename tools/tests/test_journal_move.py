"""What a move to version 2 makes of a journal, by files of both versions made beside each other."""
import io
import unittest

import audit
import data_of_bank_a as a
import data_of_bands as d
import journal_maker as made
from shadowtools.checkers import journal_move

EXAMPLES = [(d.BANK_ONE, d.PLAN_ONE, d.SCRIPT_ONE), (d.BANK_TWO, d.PLAN_TWO, d.SCRIPT_TWO)]
PLAN_A = "length 3\nprior -10 0 -10\ncount 1 1 0-1\nenemies 2 5\n"
START, SERVED = a.old_started(0, 70), a.served(0, 0, 2, {1, 2, 3}, tree=bytes.fromhex("0100010003000000010300"))


class Moves(unittest.TestCase):
    def test_each_file_of_two_histories(self):
        for bank, plan, script in EXAMPLES:
            maker = made.Maker(bank, plan).run(script)
            old, new, moved = maker.files()
            count = len(maker.old)
            self.assertEqual([journal_move.as_version_1(maker.rules, data) for data in (old, new, moved)], [old] * 3)
            self.assertEqual(journal_move.moved(maker.rules, old), moved)
            self.assertEqual([journal_move.is_unmoved(data) for data in (old, new, moved)], [True, False, False])
            self.assertEqual(journal_move.move_of(maker.rules, old), (0, [f"migrated {count} records length {len(moved)}"], moved))
            for data in (new, moved, new + b"more", moved + b"\0\0\0\1\5\0"):
                self.assertEqual(journal_move.move_of(maker.rules, data), (0, [f"migrated 0 records length {len(data)}"], data))

    def test_two_records(self):
        """183 bytes, moved 364 with the gates 188, 271 and 363; what is behind the closed gate is gone, and its value is 1."""
        rules, old = made.rules_of(a.BANK, PLAN_A), made.file_of(made.ONE, [START, SERVED])
        moved = journal_move.moved(rules, old)
        self.assertEqual((len(old), len(moved), moved[:182], moved[182:189].hex()), (183, 364, old[:182], "01000000010801"))
        self.assertEqual([at for at, _ in audit.frames(io.BytesIO(moved), len(moved))], [8, 90, 182, 188, 271])
        for tail in (b"\0more", b"\xff", b"\2" + moved[183:300]):
            self.assertEqual(journal_move.move_of(rules, old[:-1] + tail).data, moved)

    def test_the_byte_of_the_move_that_was_lost(self):
        """The seal of such a file has its place, and the old records count; with the byte set again the file is the one that was moved."""
        for bank, plan, script in EXAMPLES:
            maker = made.Maker(bank, plan).run(script)
            old, _, moved = maker.files()
            lost = moved[:len(old) - 1] + b"\0" + moved[len(old):]
            place = audit.seal_of(io.BytesIO(lost)).bytes
            self.assertTrue(journal_move.is_unmoved(lost))
            self.assertEqual((place, lost[:place] + b"\1" + lost[place + 1:]), (len(old) - 1, moved))

    def test_files_without_records(self):
        rules = made.rules_of(a.BANK, PLAN_A)
        for data in (b"", b"SHADOWJ1", b"SHADOWJ1\0", b"SHADOWJ1\1", b"any bytes", b"SHADOWJ2\0more"):
            self.assertEqual(journal_move.move_of(rules, data), (0, [f"migrated 0 records length {len(data)}"], data))
        self.assertEqual(journal_move.move_of(rules, b"SHADOWJ1\0x"), (0, ["migrated 0 records length 15"], b"SHADOWJ1\1\0\0\0\1\x08\0"))

    def test_what_is_refused(self):
        old = made.file_of(made.ONE, [START, SERVED])
        for limit, wanted in ((364, 0), (363, 13), (183, 13), (182, 6)):
            rules = made.rules_of(a.BANK, PLAN_A + f"journal {limit}\n")
            status, lines, data = journal_move.move_of(rules, old)
            self.assertEqual(status, wanted)
            if status:
                self.assertEqual((lines, data), ([f"limit journal 364 of {limit}" if status == 13 else "journal: too long 183"], old))
        rules = made.rules_of(a.BANK, PLAN_A)
        for data, line in ((old[:90] + b"\1" + old[91:-1], "cut at 90"), (old[:30] + b"\1" + old[31:], "illegal at 8"),
                           (made.file_of(made.TWO, [START]), "record at 8"), (b"SHADOWJ3\0x", "header"),
                           (made.file_of(made.ONE, [START, b"\x08", START]), "record at 96")):
            self.assertEqual(journal_move.move_of(rules, data), (6, ["journal: " + line], data))


if __name__ == "__main__":
    unittest.main()
