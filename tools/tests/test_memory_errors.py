"""The rule on errors of memory: small sources that keep it, wrong ones, and wrong bodies in the text of the product."""
import unittest

import memory_errors

TOP = """
use std::alloc::{AllocError, AllocFailed, Global};

pub enum Fault {
    Refused(u8),
    Memory,
}

fn made(alloc: Global) -> Result<Vec<u8>, AllocError> {
    let mut bytes = Vec::new(alloc);
    bytes.push(1)?;
    Ok(bytes)
}

fn asked(alloc: Global, n: u8) -> Result<Option<u8>, Fault>
    ensures { IfErr result (λ e. e ≡ Fault.Memory) }
{
    let bytes = made(alloc)?;
    if n == 0 { Err(Fault::Refused(n)) } else { Ok(bytes.first()) }
}

"""


def function(body, result="Result<u8, Fault>"):
    return f"fn tried(alloc: Global, n: u8, fault: Fault) -> {result} {{\n{body}\n}}\n"


def read(*pieces, places=()):
    return memory_errors.verdicts({"small/src/lib.rt": TOP + "".join(pieces)}, places)


GOOD = {
    "an allocation's error": "match made(alloc) { Ok(_) => Ok(n), Err(_) => Err(Fault::Memory), }",
    "by its name": "match made(alloc) { Ok(_) => Ok(n), Err(AllocError) => { return Err(Fault::Memory); } }",
    "a name bound once": "let found = made(alloc); match found { Ok(_) => Ok(n), Err(_) => Err(Fault::Memory), }",
    "an else": "let Ok(_bytes) = made(alloc) else { return Err(Fault::Memory); }; Ok(n)",
    "the else of an if": "if let Ok(_) = made(alloc) { Ok(n) } else { Err(Fault::Memory) }",
    "an error that is named": "if let Err(AllocFailed { value }) = slots.push(n) { return Err(Fault::Memory); } Ok(n)",
    "is_err": "if bytes.extend_from_slice(&[n]).is_err() { return Err(Fault::Memory); } Ok(n)",
    "map_err": "made(alloc).map_err(|_| Fault::Memory)?; Ok(n)",
    "a library's call": "match Vec::with_capacity(alloc, 3) { Ok(_) => Ok(n), Err(_) => Err(Fault::Memory), }",
    "a lower error": "match asked(alloc, n) { Ok(_) => Ok(n), Err(Fault::Memory) => Err(Fault::Memory), Err(other) => Err(other), }",
    "both of memory": "match asked(alloc, n) { Err(Fault::Memory) | Err(Fault::Memory) => Err(Fault::Memory), _ => Ok(n), }",
    "a test of the error": "match read(n) { Err(e) if e.is_memory() => Err(Fault::Memory), _ => Ok(n), }",
    "another test": "match read(n) { Err(e) => { if e.kind() == ErrorKind::OutOfMemory { return Err(Fault::Memory); } Ok(n) } _ => Ok(n), }",
}

WRONG = {
    "a refused request": "match fault { Fault::Refused(_) => Err(Fault::Memory), other => Err(other), }",
    "at will": "if n == 7 { return Err(Fault::Memory); } Ok(n)",
    "a call with other errors": "match asked(alloc, n) { Ok(_) => Ok(n), Err(_) => Err(Fault::Memory), }",
    "map_err of one": "asked(alloc, n).map_err(|_| Fault::Memory)?; Ok(n)",
    "an else of one": "let Ok(found) = asked(alloc, n) else { return Err(Fault::Memory); }; Ok(n)",
    "an else that a value has, too": "let Ok(Some(_)) = made(alloc) else { return Err(Fault::Memory); }; Ok(n)",
    "is_err of one": "if asked(alloc, n).is_err() { return Err(Fault::Memory); } Ok(n)",
    "one of two": "if made(alloc).is_err() || n == 7 { return Err(Fault::Memory); } Ok(n)",
    "a value": "match made(alloc) { Ok(_) => Err(Fault::Memory), Err(_) => Ok(n), }",
    "a value in some cases": "match made(alloc) { Ok(_) if n == 7 => Err(Fault::Memory), _ => Ok(n), }",
    "any pattern": "match made(alloc) { Ok(_) if n == 7 => Ok(n), _ => Err(Fault::Memory), }",
    "a pattern of two": "match asked(alloc, n) { Err(Fault::Memory | Fault::Refused(_)) => Err(Fault::Memory), _ => Ok(n), }",
    "two patterns": "match asked(alloc, n) { Err(Fault::Refused(_)) | Err(Fault::Memory) => Err(Fault::Memory), _ => Ok(n), }",
    "a name that looks like an error": "match asked(alloc, n) { Err(Memory) => Err(Fault::Memory), _ => Ok(n), }",
    "a name bound twice": "let found = made(alloc); let found = asked(alloc, n); match found { Err(_) => Err(Fault::Memory), _ => Ok(n), }",
    "a name of an arm": "match asked(alloc, n) { Err(found) => match found { Err(_) => Err(Fault::Memory), _ => Ok(n), } _ => Ok(n), }",
    "a name written since": "let found = made(alloc); found = asked(alloc, n); match found { Err(_) => Err(Fault::Memory), _ => Ok(n), }",
    "a call of a call": "match made(alloc).and_then(|_| asked(alloc, n)) { Err(_) => Err(Fault::Memory), _ => Ok(n), }",
    "a call that nobody knows": "match unknown(alloc) { Err(_) => Err(Fault::Memory), _ => Ok(n), }",
    "an error that is raised": "Err(AllocError)?; Ok(n)",
    "after the arm": "match made(alloc) { Ok(_) => {} Err(_) => {} } Err(Fault::Memory)",
    "the else of a test": "match read(n) { Err(e) => { if e.is_memory() { Ok(n) } else { Err(Fault::Memory) } } _ => Ok(n), }",
    "the text": 'print(out, b"no memory\\n", 10); Ok(n)',
    "the status": "Ok(ExitCode::from(NO_MEMORY))",
}


class Small(unittest.TestCase):
    def test_what_keeps_the_rule(self):
        for name, body in GOOD.items():
            with self.subTest(name=name):
                found, wrong = read(function(body))
                self.assertEqual((wrong, len(found)), ([], 1))

    def test_what_breaks_it(self):
        for name, body in WRONG.items():
            with self.subTest(name=name):
                found, wrong = read(function(body))
                self.assertEqual((len(wrong), len(found)), (1, 1), wrong)
                self.assertRegex(wrong[0], r"^small/src/lib.rt:\d+: tried: no allocation's error is at hand: ")

    def test_the_line_is_that_of_the_text(self):
        _, wrong = read(function("let line = 1;\n\n    Err(Fault::Memory)"))
        number = (TOP + function("let line = 1;\n\n    Err(Fault::Memory)")).split("\n").index("    Err(Fault::Memory)") + 1
        self.assertEqual(wrong, [f"small/src/lib.rt:{number}: tried: no allocation's error is at hand: Err(Fault::Memory)"])

    def test_a_test_makes_no_error(self):
        for body in ("Ok(fault == Fault::Memory)", "Ok(Fault::Memory != fault)", "Ok(matches!(fault, Fault::Memory))",
                     "match fault { Fault::Memory => Ok(n), other => Err(other), }", 'Ok("memory")'):
            with self.subTest(body=body):
                self.assertEqual(read(function(body)), ([], []))

    def test_contracts_and_comments_make_none(self):
        text = "/// Fault::Memory\nfn held(n: u8) -> u8\n    ensures why { result ≡ Err Fault::Memory }\n{\n    // Err(Fault::Memory)\n    n\n}\n"
        self.assertEqual(read(text, "ghost use Rattle.small.{Memory as NoMemory};\n#[tactic(auto, using(Fault::Memory))]\n"), ([], []))

    def test_a_from_of_an_allocations_error(self):
        text = ("impl From<{}> for Fault {{\n    ghost from_gives = {{ λ _ e. e ≡ Memory }};\n\n"
                "    fn from(_: {}) -> Fault {{\n        Fault::Memory\n    }}\n}}\n")
        for error, is_wrong in (("AllocError", 0), ("AllocFailed<u8>", 0), ("Failed", 1)):
            with self.subTest(error=error):
                found, wrong = read(text.format(error, error))
                self.assertEqual((len(found), len(wrong)), (1, is_wrong))

    def test_a_method_has_the_errors_of_its_own_type(self):
        methods = ("impl Room {{\n    fn grow(&mut self) -> Result<(), AllocError> {{ Ok(()) }}\n"
                   "    fn tried(&mut self) -> Result<(), Fault> {{\n        match {} {{ Ok(()) => Ok(()), Err(_) => Err(Fault::Memory), }}\n    }}\n}}\n"
                   "impl Other {{\n    fn grow(&mut self) -> Result<(), Fault> {{ Ok(()) }}\n}}\n")
        for call, is_wrong in (("self.grow()", 0), ("Room::grow(self)", 0), ("Other::grow(self)", 1), ("self.other.grow()", 1)):
            with self.subTest(call=call):
                self.assertEqual(len(read(methods.format(call))[1]), is_wrong)

    def test_a_parameter(self):
        text = "fn given(n: u8, found: {}) -> Result<u8, Fault> {{\n    {}match found {{ Ok(_) => Ok(n), Err(_) => Err(Fault::Memory), }}\n}}\n"
        for kind, first, is_wrong in (("Result<u8, AllocError>", "", 0), ("Result<u8, Fault>", "", 1), ("Option<u8>", "", 1),
                                      ("Result<u8, AllocError>", "let found = unknown(n); ", 1)):
            with self.subTest(kind=kind, first=first):
                self.assertEqual(len(read(text.format(kind, first))[1]), is_wrong)

    def test_another_name_or_a_constant(self):
        for text in ("use crate::Fault::Memory as Wanting;\n", "use std::alloc::AllocError as Empty;\n", "const WANTING: Fault = Fault::Memory;\n",
                     "use crate::output::put_text as put_it;\n"):
            with self.subTest(text=text):
                self.assertEqual(len(read(text)[1]), 1)

    def test_a_text_that_is_none(self):
        put = "fn put_text(out: u8, text: Option<Vec<u8>>) -> Result<(), Fault> {\n    match text { Some(_) => Ok(()), None => Err(Fault::Memory), }\n}\n"
        joined = "fn joined(alloc: Global, n: u8) -> Option<Vec<u8>> {{\n    let first = made(alloc).ok()?;\n    {}\n}}\n"
        for last, call, is_wrong in (("Some(first)", "joined(alloc, n)", 0), ("made(alloc).ok()", "joined(alloc, n)", 0),
                                     ("Some(first)", "Some(bytes)", 0), ("Some(first)", "None", 1), ("Some(first)", "text", 1),
                                     ("asked(alloc, n).ok()", "joined(alloc, n)", 1), ("if n == 7 { return None; } Some(first)", "joined(alloc, n)", 1),
                                     ("let more = first.first()?; Some(first)", "joined(alloc, n)", 1)):
            with self.subTest(last=last, call=call):
                found, wrong = read(put, joined.format(last), function(f"put_text(n, {call})", "Result<(), Fault>"))
                self.assertEqual((len(found), len(wrong)), (2, is_wrong), wrong)

    def test_the_table(self):
        body = "match asked(alloc, n) { Ok(_) => Ok(n),\n        Err(_) => Err(Fault::Memory),\n    }"
        place = memory_errors.Place("small/src/lib.rt", "tried", ("Err(_) => Err(Fault::Memory),",), "a reason", ("Refused(u8),",))
        found, wrong = read(function(body), places=[place])
        self.assertEqual(([it.ground for it in found], wrong), (["the table: a reason"], []))
        for entry in (place._replace(lines=("Err(_) => return Err(Fault::Memory),",)), place._replace(function="other"),
                      place._replace(path="small/src/a.rt"), place._replace(lines=("other", *place.lines)), place._replace(also=("other",))):
            with self.subTest(entry=entry):
                self.assertEqual(len(read(function(body), places=[entry])[1]), 2)
        twice = body + "?;\n    " + body
        self.assertIn("2 places have its lines", read(function(twice), places=[place])[1][0])
        kept = "match made(alloc) { Ok(_) => Ok(n),\n        Err(_) => Err(Fault::Memory),\n    }"
        self.assertEqual(len(read(function(kept), places=[place])[1]), 1)


REPLAY, HALL, SERVE = "exam_program/src/replay.rt", "exam_hall/src/hall.rt", "exam_http/src/serve.rt"
BOOK, AUDIT = "exam_session/src/apply.rt", "journal_audit/src/auditing.rt"
COMPLETE = "Reply::At { place: Place::Complete, .. }"
LINE = "    let line = match reply_line(alloc, reply) {\n        Ok(line) => line,\n"
IN_HALT, IN_HALL = "        _ => None,\n", "        let Ok(assembled) = self.assembled(alloc, problem, warm) else {\n"
ENDED = "                if message.close {\n                    AfterMessage::Over(Ended::Done)"

# the name, the file, what is replaced and by what
BODIES = [
    ("a session that is complete ends a replay", REPLAY, IN_HALT, f"        {COMPLETE} => Some(Halt::Memory),\n" + IN_HALT),
    ("its line is not printed", REPLAY, LINE, f"    if matches!(reply, {COMPLETE}) {{\n        return Err(Halt::Memory);\n    }}\n" + LINE),
    ("a refused request ends a replay", REPLAY, IN_HALT, "        Reply::Refused(_) => Some(Halt::Memory),\n" + IN_HALT),
    ("its line is not printed, with the line at hand", REPLAY, LINE,
     LINE.replace("        Ok(line)", "        Ok(_) if matches!(reply, Reply::Refused(_)) => return Err(Halt::Memory),\n        Ok(line)")),
    ("another refusal is taken for it", REPLAY, "Reply::Refused(Refusal::Memory) =>", "Reply::Refused(Refusal::NotWaiting | Refusal::Memory) =>"),
    ("the disk is taken for it", REPLAY, "        OpenFault::Memory => Halt::Memory,", "        OpenFault::Version | OpenFault::Memory => Halt::Memory,"),
    ("the output is taken for it", REPLAY, "Err(_) => Err(Halt::Sink),", "Err(_) => Err(Halt::Memory),"),
    ("a look at a session that is not there", "exam_office/src/leading.rt", "Request::Look(session) => replied(*session, false, self.look(*session)),",
     "Request::Look(session) => match self.look(*session) {\n            Ok(place) => replied(*session, false, Ok(place)),\n"
     "            Err(_) => Reply::Refused(Refusal::Memory),\n        },"),
    ("a hall that refuses before it assembles", HALL, IN_HALL,
     "        if problem.session == 7 {\n            return Round::Failed(Refusal::Memory);\n        }\n" + IN_HALL),
    ("a connection that ends after its first message", SERVE, ENDED, ENDED.replace("Done", "Memory")),
    ("a book that takes no eighth entry", BOOK, "if self.entries.count() >= ENTRIES {", "if self.entries.count() >= 7 {"),
    ("the same by its constant", BOOK, "const ENTRIES: u64 = 1 << 47;", "const ENTRIES: u64 = 7;"),
    ("a drill that opens another disk", "exam_drill/src/drill.rt", "MemoryDisk::of(alloc, Vec::new(alloc), Vec::new(alloc))",
     "MemoryDisk::of(alloc, Vec::new(alloc), fails)"),
    ("an audit of an empty text", "exam_program/src/auditing.rt", "put_text(out, audit_text(alloc, spec, &total, exposure, &bands))", "put_text(out, None)"),
    ("an audit that leaves its first answer", AUDIT, "            *answer = Err(journal_fault(fault));\n", ""),
    ("a text that is none for few bands", "exam_program/src/auditing.rt", "        return Some(String::new(alloc));", "        return None;"),
]


class Product(unittest.TestCase):
    """The text of the product, whole and with wrong bodies."""

    @classmethod
    def setUpClass(cls):
        cls.crates = memory_errors.crates_read()
        cls.texts = memory_errors.texts_of(cls.crates)

    def test_it_keeps_the_rule(self):
        found, wrong = memory_errors.verdicts(self.texts, memory_errors.PLACES)
        self.assertEqual(wrong, [])
        self.assertGreaterEqual(len(found), memory_errors.LEAST)

    def test_each_crate_is_read(self):
        self.assertIn("shadowd", self.crates)
        self.assertNotIn("exam_trials", self.crates)
        self.assertEqual({path.split("/")[0] for path in self.texts}, set(self.crates))

    def test_wrong_bodies(self):
        """Each is refused at its place, and nothing else is but the entry of the table that has it."""
        for name, path, old, new in BODIES:
            with self.subTest(name=name):
                self.assertEqual(self.texts[path].count(old), 1)
                _, wrong = memory_errors.verdicts({**self.texts, path: self.texts[path].replace(old, new)}, memory_errors.PLACES)
                self.assertIn("no allocation's error is at hand", wrong[0])
                self.assertTrue(all(it.removeprefix("the table: ").startswith(path) for it in wrong), wrong)

    def test_a_tool_that_reads_nothing(self):
        found, wrong = memory_errors.verdicts({}, memory_errors.PLACES)
        self.assertEqual((found, len(wrong)), ([], len(memory_errors.PLACES)))


if __name__ == "__main__":
    unittest.main()
