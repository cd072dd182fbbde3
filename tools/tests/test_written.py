"""The one writer of JSON and the one of CSV: what is written can be read again, and a number that is not finite is never written."""
import csv
import io
import json
import math
import os
import re
import unittest

from common import ROOT, Folder
from shadowtools.command import Refused
from shadowtools.formats import written

PRODUCT = [os.path.join(ROOT, "tools", "shadowtools", folder) for folder in ("agency", "page", "formats")]


class Written(Folder):
    def test_no_number_that_is_not_finite(self):
        for value in (math.nan, math.inf, -math.inf):
            for where in (value, [1, value], {"a": {"b": value}}):
                with self.assertRaisesRegex(Refused, "not finite"):
                    written.json_text(where)
        self.assertEqual(written.json_text({"b": 0.1, "a": [1e308, None]}), '{"b": 0.1, "a": [1e+308, null]}')

    def test_layouts(self):
        value = {"b": "ä", "a": 1}
        self.assertEqual(written.json_text(value, in_order_of_names=True, is_compact=True), '{"a":1,"b":"ä"}')
        self.assertEqual(written.json_text(value, in_ascii=True), '{"b": "\\u00e4", "a": 1}')
        self.assertEqual(written.json_text(value, indent=1), '{\n "b": "ä",\n "a": 1\n}')

    def test_cells_that_need_quotes(self):
        rows = [["a", "b"], ['one "word"', "two, three"], ["line\nend", ""], [7, 0.5]]
        text = written.table_text(rows)
        self.assertEqual(list(csv.reader(io.StringIO(text))), [[str(cell) for cell in row] for row in rows])
        self.assertNotIn("\r", text)

    def test_files(self):
        written.write(self.path("a"), "ä\nb\n")
        with open(self.path("a"), "rb") as file:
            self.assertEqual(file.read(), b"\xc3\xa4\nb\n")
        with self.assertRaisesRegex(Refused, "nowhere/a: No such file or directory"):
            written.write(self.path("nowhere/a"), "")

    def test_the_tools_of_agencies_have_no_other_writer(self):
        """But for the body of a request, and the tables that pandas writes."""
        found = []
        for folder in PRODUCT:
            for name in sorted(os.listdir(folder)):
                if name.endswith(".py"):
                    with open(os.path.join(folder, name), encoding="utf-8") as file:
                        found += [f"{name}: {one}" for one in re.findall(r"json\.dumps?\b|csv\.(?:writer|DictWriter)\b", file.read())]
        self.assertEqual(found, ["drivers.py: json.dumps", "written.py: csv.writer", "written.py: json.dumps"])


if __name__ == "__main__":
    unittest.main()
