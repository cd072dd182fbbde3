"""What the trial of lost syncs needs, and how it compares."""
import unittest
from unittest import mock

import lost_sync
from common import Folder


class Needs(Folder):
    def test_what_is_missing_is_named(self):
        with mock.patch("os.geteuid", return_value=1000):
            self.assertEqual(self.tool("lost_sync", "shadowd"), (0, "skipped: lost sync: no root\n", ""))


class Compares(unittest.TestCase):
    def test_records_that_are_lost_are_counted(self):
        lost_sync.compare("the disk", [b"a", b"b"], [b"a", b"b"])
        for found, same in (([b"a"], 1), ([], 0), ([b"x", b"b"], 0), ([b"a", b"b", b"c"], 2)):
            with self.assertRaisesRegex(lost_sync.Lost, rf"\A2 records are read, the disk has {len(found)}, of which {same} are the same\Z"):
                lost_sync.compare("the disk", [b"a", b"b"], found)


if __name__ == "__main__":
    unittest.main()
