"""A simulation in parts: the same bytes on any number of workers as by one chain, and a study that goes on where it was interrupted."""
import concurrent.futures
import json
import os
import pickle
import signal
import subprocess
import sys
import time
import types
import unittest
from unittest import mock

from common import PROGRAM, TOOLS, heed_interruptions, needs_numpy, needs_program
from shadowtools.command import Refused
from shadowtools.needs import is_there
from test_simulate import Examination

try:
    from shadowtools.agency import parts
    from shadowtools.agency.custody import sha256_of
except ImportError:
    pass

needs_dask = unittest.skipUnless(is_there("distributed"), "needs python3-distributed")
# The program; it notes each run of replay, and ends with the status of the file `fails` where a script has the line of `at`.
NOTING = f"""#!/bin/sh
here=$(dirname "$0")
if [ "$1" = replay ]; then
    head -n 1 "$4" >> "$here/runs"
    if [ -e "$here/fails" ] && grep -q -x -f "$here/at" "$4"; then
        read status < "$here/fails"
        [ "$status" != sleep ] || exec sleep 60
        echo disk failed
        exit "$status"
    fi
fi
exec "{PROGRAM}" "$@"
"""


@needs_program
@needs_numpy
class Parts(Examination):
    """Four examinees in parts of two, each with a test of two items: four runs of replay a part, the last one for the exposure."""

    def setUp(self):
        super().setUp()
        os.chmod(self.write("noting", NOTING), 0o755)
        status, _, errors = self.tool("irt_bank", "--items", "items", "--length", "2", "--out", "e", "--grid", "-3", "3", "7", "--program", PROGRAM)
        self.assertEqual(status, 0, errors)

    def taken(self, *words, part=("--part", "2")):
        return self.simulate(*part, *words, program=self.path("noting"))

    def journal(self, *words, **more):
        status, said, errors = self.taken(*words, **more)
        self.assertEqual((status, errors), (0, ""))
        self.assertIn("4 sessions of 2 items through replay", said)
        return self.bytes_of("run.journal")

    def bytes_of(self, name):
        with open(self.path(name), "rb") as file:
            return file.read()

    def runs(self):
        """How many runs of replay there were since the last call."""
        number = self.read("runs").count("\n") if os.path.exists(self.path("runs")) else 0
        self.write("runs", "")
        return number

    def left(self):
        return sorted(name for name in os.listdir(self.folder) if "part" in name)


class Bytes(Parts):
    def test_any_number_of_workers(self):
        """They are those of one chain that takes two examinees at a time; the tails have parts of their own."""
        tails = ("--tails", "-2", "--each", "3")
        chain, of_tails = self.journal("--group", "2", *tails, part=()), self.bytes_of("run.tails.journal")
        self.assertEqual((self.journal("--workers", "4", *tails), self.bytes_of("run.tails.journal")), (chain, of_tails))
        self.assertEqual(self.left(), [])
        self.assertEqual(self.journal("--workers", "1"), chain)
        self.assertNotEqual(self.journal(part=()), chain)    # one part of all, where the sessions' records are in another order

    def test_a_second_program_takes_them(self):
        """The program adds second sittings to the joined journal, and an audit in other code takes it."""
        status, said, errors = self.taken("--retakers", "0.5", "--no-lists")
        self.assertEqual(status, 0, errors)
        self.assertIn("second sittings 2, with no list: 2 begun, ", said)
        for name, sessions in (("run.journal", 4), ("run.second.journal", 6)):
            status, said, errors = self.tool("audit", "e.bank.csv", "e.plan.txt", name)
            self.assertEqual((status, said.split()[:4]), (0, ["entries", str(5 * sessions), "sessions", str(sessions)]), errors)


class Interrupted(Parts):
    def interrupted(self):
        """A run whose second part fails."""
        self.write("at", "begin 2\n")
        self.write("fails", "9\n")
        status, _, errors = self.taken("--workers", "1")
        os.unlink(self.path("fails"))
        self.assertEqual((status, "status 9: disk failed" in errors), (1, True), errors)
        self.assertEqual(self.left(), ["run.part-0.journal", "run.parts.json"])
        self.assertFalse(os.path.exists(self.path("run.journal")))
        self.runs()

    def test_it_goes_on(self):
        whole, of_all = self.journal(), self.runs()
        self.assertEqual(of_all, 2 * 4)
        self.interrupted()
        self.assertEqual((self.journal(), self.runs(), self.left()), (whole, 4, []))

    def test_a_part_that_is_not_what_it_was(self):
        """It is taken through again where a byte of it was changed, where what it is of is not known, and with another seed."""
        whole = self.journal()
        self.interrupted()
        with open(self.path("run.part-0.journal"), "r+b") as file:
            file.seek(40)
            file.write(b"\xff")
        self.assertEqual((self.journal(), self.runs()), (whole, 8))
        self.interrupted()
        self.write("run.parts.json", '{"0": 7, "1": {}}')
        self.assertEqual((self.journal(), self.runs()), (whole, 8))
        self.interrupted()
        self.journal("--seed", "2")
        self.assertEqual((self.runs(), self.left()), (8, []))

    def test_numbers_of_an_index_that_were_changed(self):
        """The journal itself is right, so the exposure that the index has is found out."""
        self.interrupted()
        index = json.loads(self.read("run.parts.json"))
        index["0"]["exposure"][1][0][0] += 1
        self.write("run.parts.json", json.dumps(index))
        status, _, errors = self.taken()
        self.assertEqual((status, "item 0: shown " in errors), (1, True), errors)

    def test_ctrl_c(self):
        """It ends with 130 and no traceback, and the same command goes on."""
        self.write("at", "begin 2\n")
        self.write("fails", "sleep\n")
        words = [sys.executable, os.path.join(TOOLS, "simulate.py"), "e", "--out", "run", "--program", self.path("noting"), "--tails", "none",
                 "--examinees", "4", "--part", "2", "--workers", "1"]
        with subprocess.Popen(words, cwd=self.folder, stdout=subprocess.PIPE, stderr=subprocess.PIPE, text=True, start_new_session=True,
                              preexec_fn=heed_interruptions) as started:
            until = time.monotonic() + 60
            while not (len(self.left()) == 2 and "begin 2" in self.read("runs")) and time.monotonic() < until:
                time.sleep(0.05)
            time.sleep(0.5)
            os.killpg(started.pid, signal.SIGINT)
            said, errors = started.communicate(timeout=60)
        self.assertEqual((started.returncode, said, errors.splitlines()[-1:], "Traceback" in errors), (130, "", ["interrupted"], False), errors)
        os.unlink(self.path("fails"))
        self.runs()
        self.journal()
        self.assertEqual(self.runs(), 4)


class Pickling(concurrent.futures.ThreadPoolExecutor):
    """What is sent to it, and what comes back, goes through bytes, as to another machine."""

    def submit(self, function, *words):
        sent = pickle.dumps((function, words))

        def work():
            called, own = pickle.loads(sent)
            return pickle.loads(pickle.dumps(called(*own)))
        return super().submit(work)


def distributed_for(addresses):
    """A stand-in for the module `distributed`, whose clients note their address."""
    class Client:
        def __init__(self, address, timeout):
            if address == "tcp://nowhere":
                raise OSError("Timed out trying to connect to tcp://nowhere")
            addresses.append(address)

        def get_executor(self, pure):
            assert not pure
            return Pickling(3)
    return types.SimpleNamespace(Client=Client, __spec__=None)


class Clusters(Parts):
    def test_a_stand_in(self):
        """The same bytes as on this machine; no real cluster is tried here."""
        whole, addresses = self.journal(), []
        with mock.patch.dict(sys.modules, distributed=distributed_for(addresses)), mock.patch.object(parts, "require"):
            self.assertEqual(self.journal("--cluster", "tcp://other:8786"), whole)
            status, _, errors = self.taken("--cluster", "tcp://nowhere")
        self.assertEqual(addresses, ["tcp://other:8786"])
        self.assertEqual((status, errors), (1, "--cluster tcp://nowhere: Timed out trying to connect to tcp://nowhere\n"))

    @unittest.skipIf(is_there("distributed"), "python3-distributed is here")
    def test_without_the_library(self):
        status, _, _ = self.taken("--cluster", "tcp://other:8786")
        self.assertEqual(status, "simulate.py --cluster needs distributed: apt-get install python3-distributed, and run it by /usr/bin/python3")

    @needs_dask
    def test_a_real_cluster(self):
        """One and four workers on this machine, each a process of its own."""
        from distributed import LocalCluster
        whole = self.journal()
        for workers in (1, 4):
            with LocalCluster(n_workers=workers, threads_per_worker=1, dashboard_address=None) as cluster:
                self.assertEqual(self.journal("--cluster", cluster.scheduler_address), whole)

    def test_a_program_that_is_another(self):
        part = parts.Part(self.path("noting"), "00" * 32, "", "", 8, {0: [0] * 8})
        with self.assertRaisesRegex(Refused, "noting: not the program of the study, whose SHA-256 is 00"):
            parts.take_part(part)
        self.assertNotEqual(part.digest(), parts.Part(self.path("noting"), sha256_of(self.path("noting")), "", "", 8, {0: [0] * 8}).digest())


@needs_numpy
class Joined(unittest.TestCase):
    def test_by_hand(self):
        """Two parts: a start (06) and an answer (04) of session 0, and the same; the second session becomes 1."""
        begin, answer = b"\6" + bytes(4) + b"\x07", b"\4" + bytes(4) + b"\0\0\1"
        part = b"SHADOWJ2" + b"\1\0\0\0\6" + begin + b"\1\0\0\0\x08" + answer + b"\0"
        numbered = b"\1\0\0\0\6\6\0\0\0\1\x07" + b"\1\0\0\0\x08\4\0\0\0\1\0\0\1"
        self.assertEqual(parts.joined([part, part]), part[:-1] + numbered + b"\0")
        self.assertEqual(parts.joined([part]), part)

    def test_what_has_no_session(self):
        for data in (b"SHADOWJ2\1\0\0\0\1\x08\0", b"SHADOWJ1\1\0\0\0\6\6\0\0\0\0\x07\0", b"SHADOWJ2\1\0\0\0\2\x10\0\0"):
            with self.assertRaisesRegex(Refused, "part 0: byte 8: a record that can't be numbered on"):
                parts.joined([data])

    def test_sums(self):
        self.assertEqual(parts.summed([(2, [(1, 2), (0, 2)]), (3, [(3, 3), (2, 1)])]), (5, [(4, 5), (2, 3)]))


class Refusals(Parts):
    def test_options_of_one_chain(self):
        for words, said in ((("--group", "2"), "--part is not used beside --group"), (("--through", "serve"), "--part is not used beside --through serve"),
                            (("--workers", "2", "--cluster", "a"), "--workers is not used beside --cluster")):
            status, _, errors = self.taken(*words)
            self.assertEqual((status, said in errors, errors.count("\n")), (1, True, 1), errors)
        self.tool("irt_bank", "--items", "items", "--attributes", "attributes", "--constraints", "constraints", "--out", "e", "--grid", "-3", "3", "7",
                  "--rate", "2", "3", "--key", "07" * 32, "--program", self.fake)
        for words in (("--part", "2"), ("--workers", "2"), ("--cluster", "a")):
            status, _, errors = self.taken(*words, part=())
            self.assertEqual((status, errors), (1, f"{words[0]}: the plan has an exposure rate, whose draws see the sessions before; one study is "
                                                   "one chain\n"))
            self.assertFalse(os.path.exists(self.path("run.journal")))
        self.assertEqual(self.taken("--group", "3", part=())[0], 0)


if __name__ == "__main__":
    unittest.main()
