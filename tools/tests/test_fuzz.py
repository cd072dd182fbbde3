"""Inputs of the tools, changed at random from a seed: each ends with a status and a line, and none with a traceback."""
import contextlib
import hashlib
import importlib
import io
import json
import os
import random
import unittest
import warnings

import data_of_bank_a as a
from common import ROOT, Folder, needs_numpy

CASES, SEED = 400, 48
TOKENS = ("", ",", ";", "\t", "\n", "\r\n", '"', "'", "0", "-1", "1_0", "1e6", "1e-300", "1e308", "-1e308", "nan", "inf", "NA", "99999999999999999999",
          "\0", "\ufeff", "ü", "(", "(" * 3000, "!", "c(", "%in%", "&", "==", "ID", "a", "b", "c", "d", "g", "MODEL", "PAR9", "GR", "PC", "3PL",
          "Number", "Sum", "Mean", "Enemy", "AllOrNone", "Stimulus", "Per Stimulus", "OFF", "length", "prior", "rate 1 2", "key", "base 0",
          "count a b 0", "quantity 9 0 1 0", "stimulus 9 1 2", "enemies 0-999999999", "session 0 step 0 item 9 proved", "begin x", "answer 0 0",
          "[" * 3000, "{}", "null", "true", '"theta"', "[1]", "\u2028")
OPTIONS = (("--scaling", "1.7"), ("--scaling", "-1"), ("--grid", "-4", "4", "9"), ("--grid", "nan", "4", "9"), ("--grid", "0", "1e-9", "61"),
           ("--prior", "flat"), ("--prior", "0"), ("--prior", "5", "0.001"), ("--log-unit", "0.001"), ("--log-unit", "1e6"),
           ("--information-unit", "1e6"), ("--quantity", "WORDS"), ("--quantity", "K"), ("--model", "GPC"), ("--format", "mirt"), ("--format", "catr"),
           ("--format", "testdesign"), ("--ignore", "ID"), ("--columns", "a=PAR1,b=PAR2"), ("--columns", "="), ("--separator", "tab"),
           ("--decimal", "comma"), ("--rate", "1", "3", "--key", "0" * 64), ("--rate", "3", "1"), ("--budget", "2"), ("--length", "2"),
           ("--program", "/bin/true"), ("--program", "/bin/cat"), ("--program", "."))
SCORE_OPTIONS = (("--unaudited",), ("--open",), ("--estimate", "mode"), ("--least", "2"), ("--least", "0"), ("--scale", "500", "100"), ("--scale", "0", "0"),
                 ("--scale", "nan", "1"), ("--cuts", "0"), ("--cuts", "1", "0"), ("--cuts", "-1e300"), ("--levels", "a"), ("--obtainable", "1", "0"),
                 ("--obtainable", "-1", "1"), ("--program", "/bin/true"), ("--program", "."), ("--answers", "."), ("--record", "no/x"))


class Cases(Folder):
    """One random change after the other of the texts of a tool."""

    def changed(self, rng, data):
        """The bytes with one to three changes."""
        for _ in range(rng.choice((1, 1, 1, 2, 3))):
            at, end = sorted((rng.randint(0, len(data)), rng.randint(0, len(data))))
            piece = rng.choice(TOKENS).encode()
            data = rng.choice((
                lambda: data[:at] + piece + data[at:],
                lambda: data[:at] + piece + data[at + rng.randint(1, 6):],
                lambda: data[:at] + data[end:],
                lambda: data[:at],
                lambda: data[:at] + bytes([rng.randint(0, 255)]) + data[at + 1:],
                lambda: data[:end] + data[at:end] + data[end:],
                lambda: data.replace(rng.choice((b",", b"\n", b" ", b"1")), piece, rng.choice((1, 2, 10))),
            ))()
        return data

    def ends(self, tool, words, seed):
        """Runs a tool, and requires that it ends with a status of its own and no traceback, numpy's warnings included."""
        said, errors, before = io.StringIO(), io.StringIO(), os.getcwd()
        os.chdir(self.folder)
        try:
            with contextlib.redirect_stdout(said), contextlib.redirect_stderr(errors), warnings.catch_warnings():
                warnings.simplefilter("error")
                status = importlib.import_module(tool).command(list(words))
        except SystemExit as end:
            status = end.code
        except Exception as fault:
            raise AssertionError(f"case {seed}: {tool} {' '.join(words)[:300]}: {fault!r}") from fault
        finally:
            os.chdir(before)
        self.assertIn(status, (0, 1, 2, 3, 6, 11, 12), f"case {seed}")
        self.assertTrue(said.getvalue() or errors.getvalue(), f"case {seed}")
        return status

    def put(self, name, data):
        with open(self.path(name), "wb") as file:
            file.write(data)


@needs_numpy
class Banks(Cases):
    def test_tables(self):
        texts, ends = {}, set()
        for example in ("knowledge", "aggression"):
            for name in ("items", "attributes", "constraints"):
                with open(os.path.join(ROOT, "examples", example, name + ".csv"), "rb") as file:
                    texts[example, name] = b"\n".join(file.read().split(b"\n")[:14]) + b"\n" if name != "constraints" else file.read()
        for case in range(CASES):
            rng = random.Random(SEED * 100_000 + case)
            example, damaged = rng.choice(("knowledge", "aggression")), rng.choice(("items", "attributes", "constraints", "none"))
            words = ["--out", "o", "--program", rng.choice(("/bin/true", "/bin/false"))]
            for name in ("items", "attributes", "constraints")[:rng.choice((1, 2, 3, 3))]:
                data = texts[example, name]
                self.put(name, self.changed(rng, data) if name == damaged else data)
                words += ["--" + name, name]
            for option in rng.sample(OPTIONS, rng.choice((0, 1, 1, 2))):
                words += option
            ends.add(self.ends("irt_bank", words, case))
        self.assertLessEqual({1, 2, 3}, ends)


class Results(Cases):
    def test_texts_of_an_examination(self):
        """Half of the changed texts have their own digest in the map, so that the readers behind it are reached."""
        journal, ends = a.journal(a.history() + [a.closed(1)]), set()
        for case in range(CASES):
            rng = random.Random(SEED * 200_000 + case)
            found, texts = a.scale_map(), {"bank": a.BANK.encode(), "plan": a.PLAN.encode(), "j": journal,
                                           "lines": a.LINES.encode(), "script": a.SCRIPT.encode()}
            damaged = rng.choice(("bank", "plan", "map", "j", "lines", "script"))
            if damaged != "map":
                texts[damaged] = self.changed(rng, texts[damaged])
            if damaged in ("bank", "plan") and rng.random() < 0.8:
                found["sha256"][damaged] = hashlib.sha256(texts[damaged]).hexdigest()
            told = json.dumps(found).encode()
            texts["map"] = self.changed(rng, told) if damaged == "map" else told
            for name, data in texts.items():
                self.put(name, data)
            by_lines = damaged in ("lines", "script") or rng.random() < 0.2
            words = ["bank", "plan", "map", "--unbound"] + (["--lines", "lines", "--script", "script", "--open"] if by_lines else ["--journal", "j"])
            for option in rng.sample(SCORE_OPTIONS, rng.choice((0, 0, 1, 2))):
                words += [word for word in option if word not in words]
            ends.add(self.ends("score", words, case))
        self.assertLessEqual({0, 1, 2}, ends)


class Others(Cases):
    """The other tools with changed texts, and with programs that are not shadowd."""

    def test_explain_audit_and_check_tree(self):
        journal, ends = a.journal(a.history()), set()
        for case in range(CASES):
            rng = random.Random(SEED * 300_000 + case)
            texts = {"bank": a.BANK.encode(), "plan": a.PLAN.encode(), "map": json.dumps(a.scale_map()).encode(), "j": journal,
                     "seal": b"seal records 0 bytes 8 sha256 " + hashlib.sha256(b"SHADOWJ2").hexdigest().encode()}
            damaged = rng.choice(tuple(texts))
            texts[damaged] = self.changed(rng, texts[damaged])
            for name, data in texts.items():
                self.put(name, data)
            tool, words = rng.choice((
                ("explain", ["bank", "plan", "--program", rng.choice(("/bin/true", "/bin/false", "/bin/cat", "nowhere")), "--map", "map", "--unbound"]),
                ("audit", ["bank", "plan", "j"]), ("audit", ["--seal", "j"]), ("audit", ["--against", "seal", "j"]),
                ("check_tree", ["bank", "plan", rng.choice(("0006", "01000200000005040003000000410300", "", "zz", "00")), *rng.choice((
                    (), ("--form", "1-3"), ("--form", "x"), ("--form", "1,99"), ("--given", "9-1"), ("--barred", "0"), ("--theta", "2"), ("--theta", "3"),
                    ("--spent", "x"), ("--spent", "11"), ("--start", "1,2,4"), ("--brute",)))])))
            ends.add(self.ends(tool, words, case))
        self.assertLessEqual({0, 1, 6}, ends)

    @needs_numpy
    def test_simulate(self):
        """A simulation that does not begin: the program is none, or the words or the texts are refused before."""
        options = (("--examinees", "0"), ("--examinees", "1_0"), ("--seed", "-1"), ("--seed", "99999999999999999999"), ("--true", "normal"),
                   ("--true", "normal", "nan", "1"), ("--true", "uniform", "1", "0"), ("--true", "points", "x"), ("--group", "0"), ("--clients", "17"),
                   ("--through", "mail"), ("--rules", "plan"), ("--rules", "nowhere"), ("--tails", "x"), ("--each", "-1"), ("--out", "no/run"))
        self.put("items", b"ID,a,b\n" + b"".join(b"I%d,1,%d\n" % (k, k - 3) for k in range(6)))
        self.assertEqual(self.tool("irt_bank", "--items", "items", "--length", "3", "--out", "made", "--grid", "-1", "1", "3")[0], 0)
        made = {name: self.read("made." + end).encode() for name, end in (("bank", "bank.csv"), ("plan", "plan.txt"), ("map", "map.json"))}
        for case in range(CASES // 4):
            rng = random.Random(SEED * 400_000 + case)
            texts, found = {name: made[name] for name in ("bank", "plan")}, json.loads(made["map"])
            damaged = rng.choice(("bank", "plan", "map", "none"))
            if damaged in texts:
                texts[damaged] = self.changed(rng, texts[damaged])
                found["sha256"][damaged] = hashlib.sha256(texts[damaged]).hexdigest()
            told = json.dumps(found).encode()
            for name, data in (("e.bank.csv", texts["bank"]), ("e.plan.txt", texts["plan"]), ("plan", texts["plan"]),
                               ("e.map.json", self.changed(rng, told) if damaged == "map" else told)):
                self.put(name, data)
            words = ["e", "--program", rng.choice(("/bin/true", "/bin/false", "nowhere"))]
            for option in [("--out", "run")] * rng.choice((0, 1, 1)) + rng.sample(options, rng.choice((0, 1, 2))):
                words += option
            self.assertIn(self.ends("simulate", words, case), (1, 2))


if __name__ == "__main__":
    unittest.main()
