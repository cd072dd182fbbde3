"""The custody folder: it is whole or not there, and each file that is changed, added, left out or exchanged is found."""
import contextlib
import hashlib
import io
import json
import os
import subprocess
import unittest

from common import PROGRAM, needs_page, needs_program
from shadowtools.agency import custody_folder
from test_window import WindowFolder


@needs_page
class Folders(WindowFolder):
    def setUp(self):
        super().setUp()
        self.write("seal", self.tool("audit", "--seal", "j")[1])
        self.tool("report", "e", "--journal", "j", "--record", "record", "--to", "page.html", "--program", "none")
        status, said, self.errors = self.make("box")
        self.assertEqual(status, 0, self.errors)

    def make(self, folder, *words, record="record"):
        return self.tool("shadow", "custody", "make", folder, "e", "--journal", "j", "--record", record, "--seals", "seal", "--report", "page.html",
                         "--program", "none", *words)

    def check(self, program="none"):
        """The status, and the line of each test by its name."""
        status, said, errors = self.tool("shadow", "custody", "check", "box", "--program", program)
        self.assertEqual(errors, "")
        return status, dict(line.split(": ", 1) for line in said.splitlines())

    def change(self, name, data):
        with open(self.path("box/" + name), "wb") as file:
            file.write(data)

    def bytes(self, name):
        with open(self.path("box/" + name), "rb") as file:
            return file.read()

    def sealed_again(self):
        """A manifest of the files as they are now, as a forger would write it."""
        names = [os.path.relpath(os.path.join(at, name), self.path("box")) for at, _, files in os.walk(self.path("box")) for name in files]
        self.change("MANIFEST", "".join(f"{hashlib.sha256(self.bytes(name)).hexdigest()}  {name}\n" for name in sorted(names) if name != "MANIFEST").encode())

    def bad(self):
        status, found = self.check()
        self.assertEqual(status, 1)
        return {name: line for name, line in found.items() if line.startswith("does not hold")}

    def test_a_whole_folder(self):
        status, found = self.check()
        self.assertEqual((status, list(found)), (0, ["files", "documents", "audit", "seals", "results", "report"]))
        self.assertTrue(all(line.startswith("holds") for line in found.values()), found)
        done = subprocess.run(["sha256sum", "-c", "--quiet", "MANIFEST"], cwd=self.path("box"), capture_output=True, text=True)
        self.assertEqual((done.returncode, done.stdout), (0, ""))
        names = [line[66:] for line in self.bytes("MANIFEST").decode().splitlines()]
        self.assertEqual(names, sorted(names, key=str.encode))
        self.assertIn("Seals that are kept elsewhere", self.bytes("VERDICT").decode())
        self.assertNotIn("key of the draws", self.bytes("VERDICT").decode())
        for name, original in (("bank.csv", "e.bank.csv"), ("journal", "j"), ("record.json", "record"), ("report.html", "page.html")):
            with open(self.path(original), "rb") as file:
                self.assertEqual(self.bytes(name), file.read())

    def test_files_that_are_changed_added_or_gone(self):
        for name in ("bank.csv", "plan.txt", "map.json", "journal", "results.csv", "record.json", "report.html", "seals/00-seal", "VERDICT"):
            with self.subTest(name):
                before = self.bytes(name)
                self.change(name, before[:-2] + bytes([before[-2] ^ 1]) + before[-1:])
                self.assertIn(f"{name}: its SHA-256 is not", self.bad()["files"])
                os.unlink(self.path("box/" + name))
                self.assertIn(f"{name}: in MANIFEST, and not there", self.bad()["files"])
                self.change(name, before)
        self.change("note", b"x")
        self.assertEqual(list(self.bad()), ["files"])
        os.unlink(self.path("box/note"))
        os.symlink(self.path("j"), self.path("box/more"))
        self.assertIn("neither a file nor a folder", self.bad()["files"])
        os.unlink(self.path("box/more"))
        self.assertEqual(self.check()[0], 0)

    def test_a_forger_who_writes_the_manifest_again(self):
        """Results, seals, records and pages of other files do not hold, whatever the manifest is."""
        whole = {name: self.bytes(name) for name in ("results.csv", "seals/00-seal", "record.json", "report.html", "journal", "map.json")}

        def forged(name, data):
            self.change(name, data)
            self.sealed_again()
            found = self.bad()
            self.change(name, whole[name])
            self.sealed_again()
            return found
        self.assertIn("line 2 is not that of the record's options", forged("results.csv", whole["results.csv"].replace(b",complete,", b",closed,", 1))["results"])
        self.assertIn("does not go on from it", forged("seals/00-seal", whole["seals/00-seal"][:-3] + b"00\n")["seals"])
        record = json.loads(whole["record.json"])
        record["options"]["cuts"] = [40.0, 55.0]
        self.assertIn("results", forged("record.json", json.dumps(record).encode()))
        self.assertIn("does not have the SHA-256 of journal", forged("report.html", whole["report.html"].replace(
            hashlib.sha256(whole["journal"]).hexdigest().encode(), b"0" * 64))["report"])
        self.assertIn("documents", forged("map.json", whole["map.json"].replace(b'"theta": [\n  -3.0', b'"theta": [\n  -3.5')))
        self.assertIn("journal:", forged("journal", whole["journal"][:-9] + b"\7" + whole["journal"][-8:])["audit"])
        self.assertEqual(self.check()[0], 0)

    def test_nothing_is_written_over_or_left_by_half(self):
        self.assertIn("it is there already", self.make("box")[2])
        record = json.loads(self.read("record"))
        record["sha256"]["results"] = "0"
        self.write("other", json.dumps(record))
        status, _, errors = self.make("second", record="other")
        self.assertEqual((status, os.path.exists(self.path("second")), os.path.exists(self.path("second.partial"))), (1, False, False), errors)
        os.mkdir(self.path("third.partial"))
        self.assertIn("interrupted", self.make("third")[2])
        self.assertTrue(os.path.isdir(self.path("third.partial")))

    def test_a_plan_with_sessions_left(self):
        """A plan with a rate has a key, and the warning says so; this one has none."""
        self.assertNotIn("warning", self.errors)
        self.write("plan", self.read("e.plan.txt") + "rate 1 2\nkey " + "07" * 32 + "\n")
        said = io.StringIO()
        with contextlib.redirect_stderr(said):
            custody_folder.warn_of_later(self.path("plan"), self.path("j"))
        self.assertIn("the plan takes 960 sessions more", said.getvalue())
        os.mkdir(self.path("drawn"))
        self.write("drawn/plan.txt", self.read("plan"))
        custody_folder.seal_off(self.path("drawn"), [])
        self.assertIn("\nThe plan has the key of the draws: ", self.read("drawn/VERDICT"))

    @needs_program
    def test_by_two_programs(self):
        status, found = self.check(os.path.abspath(PROGRAM))
        self.assertEqual(status, 0, found)
        self.assertIn("two programs agree", found["audit"])


if __name__ == "__main__":
    unittest.main()
