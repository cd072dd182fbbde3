"""The order of system calls, on traces that were written by hand."""
import unittest

import system_calls

OPENING = ["1 fsync(5</d>) = 0",
           "1 fsync(4</d/j>) = 0",
           '1 pwrite64(4</d/j>, "\\x53\\x48\\x41\\x44\\x4f\\x57\\x4a\\x31\\x00", 9, 0) = 9',
           "1 fsync(4</d/j>) = 0"]
ENTRY = ['1 pwrite64(4</d/j>, "\\x00\\x00\\x00\\x01\\x05\\x00", 6, 9) = 6',
         "1 fsync(4</d/j>) = 0",
         '1 pwrite64(4</d/j>, "\\x01", 1, 8) = 1',
         "1 fsync(4</d/j>) = 0"]
LINE = ['1 write(1</dev/null>, "\\x61\\x0a", 2) = 2']
WHOLE = OPENING + ENTRY + LINE
ENTRIES = [(8, 1)]
FILE = b"SHADOWJ1\1\0\0\0\1\5\0"


def wrong(lines):
    """The demands on a journal that is made which a trace does not meet."""
    made = system_calls.after(system_calls.Journal("/d/j", b""), "\n".join(lines))
    return [name for name, faults in system_calls.tests_of_adding(made, ENTRIES, ["/d"]) if faults]


class Adding(unittest.TestCase):
    def test_a_whole_trace(self):
        self.assertEqual(wrong(WHOLE), [])
        made = system_calls.after(system_calls.Journal("/d/j", b""), "\n".join(WHOLE))
        self.assertEqual((made.data, made.letters), (FILE, "SOSWSGS"))

    def test_each_sync_that_is_missing(self):
        for at, line in enumerate(WHOLE):
            if "fsync" in line and at != 1:
                with self.subTest(at=at):
                    self.assertNotEqual(wrong(WHOLE[:at] + WHOLE[at + 1:]), [])

    def test_a_sync_that_failed_is_none(self):
        failed = [line.replace("= 0", "= -1 EIO (Input/output error)") for line in ENTRY[-1:]]
        self.assertNotEqual(wrong(OPENING + ENTRY[:-1] + failed + LINE), [])

    def test_a_line_before_its_last_sync(self):
        self.assertNotEqual(wrong(OPENING + ENTRY[:-1] + LINE + ENTRY[-1:]), [])

    def test_a_gate_that_is_opened_before_its_record_is_synced(self):
        self.assertNotEqual(wrong(OPENING + [ENTRY[0], ENTRY[2], ENTRY[1], ENTRY[3]] + LINE), [])

    def test_another_folder_that_is_synced(self):
        self.assertNotEqual(wrong(["1 fsync(5</e>) = 0"] + WHOLE[1:]), [])


class Opening(unittest.TestCase):
    """A journal with one record, and a byte behind its closed gate."""

    def wrong(self, *lines):
        opened = system_calls.after(system_calls.Journal("/d/j", FILE + b"x"), "\n".join(lines))
        return [name for name, faults in system_calls.tests_of_opening(opened, [8, 14]) if faults]

    def test_the_order_of_opening(self):
        sync, cut = "1 fsync(4</d/j>) = 0", "1 ftruncate(4</d/j>, 15) = 0"
        gates = ['1 pwrite64(4</d/j>, "\\x01", 1, 8) = 1', '1 pwrite64(4</d/j>, "\\x00", 1, 14) = 1']
        self.assertEqual(self.wrong(sync, *gates, sync, cut, sync), [])
        for lines in ([sync, sync, cut, sync], [sync, gates[0], sync, cut, sync], [sync, *gates, cut, sync],
                      [sync, *gates, sync, cut], [sync, cut, *gates, sync]):
            with self.subTest(lines=lines):
                self.assertNotEqual(self.wrong(*lines), [])


class Moving(unittest.TestCase):
    """A journal with one record and a byte behind its closed gate is migrated: a mark and a record are written at its end."""
    SYNC, CUT = "1 fsync(4</d/j>) = 0", "1 ftruncate(4</d/j>, 15) = 0"
    GATES = ['1 pwrite64(4</d/j>, "\\x01", 1, 8) = 1', '1 pwrite64(4</d/j>, "\\x00", 1, 14) = 1']
    MARK = '1 pwrite64(4</d/j>, "\\x00\\x00\\x00\\x01\\x08", 5, 15) = 5'
    RECORD = '1 pwrite64(4</d/j>, "\\x01\\x00\\x00\\x00\\x01\\x05", 6, 20) = 6'
    IN_TWO = ['1 pwrite64(4</d/j>, "\\x01", 1, 20) = 1', '1 pwrite64(4</d/j>, "\\x00\\x00\\x00\\x01\\x05", 5, 21) = 5']
    LAST = '1 pwrite64(4</d/j>, "\\x00", 1, 26) = 1'
    OPENED = '1 pwrite64(4</d/j>, "\\x01", 1, 14) = 1'
    WHOLE = [SYNC, *GATES, SYNC, CUT, SYNC, MARK, RECORD, LAST, SYNC, OPENED, SYNC]
    LINE = '1 write(1</dev/null>, "\\x6d", 1) = 1'

    def moved(self, lines):
        return system_calls.after(system_calls.Journal("/d/j", FILE + b"x", True), "\n".join(lines))

    def wrong(self, lines):
        return [name for name, faults in system_calls.tests_of_moving(self.moved(lines), [8, 14], 1) if faults]

    def test_the_order_of_a_migration(self):
        self.assertEqual(self.wrong([*self.WHOLE, self.LINE]), [])
        moved = self.moved(self.WHOLE)
        self.assertEqual((moved.data, moved.letters), (FILE[:14] + bytes.fromhex("01 00000001 08 01 00000001 05 00"), "SRRSCSWWWSGS"))

    def test_each_sync_that_is_missing(self):
        for at, line in enumerate(self.WHOLE):
            if line == self.SYNC and at:
                with self.subTest(at=at):
                    self.assertNotEqual(self.wrong([*self.WHOLE[:at], *self.WHOLE[at + 1:], self.LINE]), [])

    def test_another_order(self):
        sync, opened, line = self.SYNC, self.OPENED, self.LINE
        new = [self.MARK, self.RECORD, self.LAST]
        for lines in ([opened, sync, *new, sync], [*new, opened, sync], [*new, opened, sync, sync],
                      [*new, sync, opened, line, sync], [*new, sync], [sync, opened, sync],
                      [self.MARK, *self.IN_TWO, self.LAST, sync, opened, sync]):
            with self.subTest(lines=lines):
                self.assertNotEqual(self.wrong(self.WHOLE[:6] + lines), [])

    def test_a_migration_of_a_moved_journal(self):
        data = self.moved(self.WHOLE).data
        renewed = '1 pwrite64(4</d/j>, "\\x01", 1, 14) = 1'
        for lines, wanted in (([renewed, self.SYNC], []), ([self.SYNC, *self.GATES[:1], renewed, self.SYNC], []), ([], [14]),
                              ([self.SYNC], [14]), ([renewed], [14]), ([self.GATES[0], self.SYNC], [14]),
                              ([renewed, self.SYNC, "1 ftruncate(4</d/j>, 27) = 0", self.SYNC], [14])):
            again = system_calls.after(system_calls.Journal("/d/j", data, True), "\n".join(lines))
            found = [faults for _, faults in system_calls.tests_of_moving_again(again, 14) if faults]
            with self.subTest(lines=lines):
                self.assertEqual(bool(found), bool(wanted))


if __name__ == "__main__":
    unittest.main()
