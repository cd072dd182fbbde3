"""The built program with a stack that is too small, and with the deepest tree of items."""
import os
import resource
import subprocess
import unittest

import data_of_bank_a as bank_a
from common import PROGRAM, Folder, needs_program

LIMIT = 60  # seconds for each command


@needs_program
class Stack(Folder):
    """The deepest tree of items: a record of eligibility that was set aside, which is judged from its leaves up."""

    ITEMS = 512

    def journal(self):
        rows = [bank_a.BANK.splitlines()[0]] + [f"{i},0,2,1,2,3,-7,-7,-7,-7,-7,-7" for i in range(self.ITEMS)]
        self.files = [self.write("bank.csv", "\n".join(rows) + "\n"), self.write("plan.txt", "length 3\nprior -10 0 -10\ncount 0 3 0-511\n")]
        start = b"\6" + bytes(4) + (70).to_bytes(8, "big") + b"\1" + b"\xff" * 64
        nodes = b"".join(b"\1" + i.to_bytes(2, "big") for i in range(self.ITEMS)) + b"\6" * (self.ITEMS + 1)
        aside = b"\7" + bytes(6) + b"\0\0" + (2 * self.ITEMS + 1).to_bytes(2, "big") + b"\0" + nodes
        with open(self.path("journal"), "wb") as file:
            file.write(bank_a.journal([start, aside]))

    def end_of(self, command, kilobytes, *words):
        def limit():
            resource.setrlimit(resource.RLIMIT_STACK, (kilobytes * 1024, resource.getrlimit(resource.RLIMIT_STACK)[1]))
        environment = dict(os.environ, SHADOWD_JOURNAL=self.path("journal"), SHADOWD_LISTEN="127.0.0.1:0", SHADOWD_CONNECTIONS="0")
        done = subprocess.run([PROGRAM, command, *words], env=environment, stdin=subprocess.DEVNULL, capture_output=True, text=True, timeout=LIMIT,
                              preexec_fn=limit, check=False)
        return done.returncode, done.stdout, done.stderr

    def test_the_deepest_tree_is_judged(self):
        self.journal()
        for command in ("audit", "serve"):
            status, said, _ = self.end_of(command, 8192, *self.files)
            self.assertEqual((status, said), (6, "journal: bad tree at 91\n"), command)

    def test_a_small_stack_ends_the_start(self):
        self.journal()
        told = "shadowd: the stack may have 1024 KB, and 8192 KB are needed: ulimit -s 8192, or LimitSTACK of systemd\n"
        for command, *words in (("audit", *self.files), ("serve", *self.files), ("follow", *self.files), ("drill", "7", "2"), ("series", *self.files, "1", "1")):
            self.assertEqual(self.end_of(command, 1024, *words), (10, "no memory\n", told), command)
        self.assertEqual(self.end_of("check", 1024, *self.files)[0], 0)


if __name__ == "__main__":
    unittest.main()
