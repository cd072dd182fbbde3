"""An error of memory is made only where an allocation's error is at hand.

    tools/memory_errors.py           reads the sources; the last line is 'N passed, M failed'
    tools/memory_errors.py --list    prints each place where such an error is made, and why it may be

"Out of memory" is free in each contract, so a body that gives it at will is proved. This reads the text of each crate of crates.txt, but those
of tests and benchmarks. An error of memory is made where a value is written: a variant `Memory` or `OutOfMemory`, `AllocError`, `AllocFailed`, the
text `no memory`, the status NO_MEMORY. What `?` makes is made in a `From`. It may be made

  - in a `From` of an allocation's error
  - in an arm whose patterns are all errors of memory, or where a test has just shown that the error is one
  - in an arm `Err(..)`, an `else`, a `map_err` or after `is_err()` of a call of which the only error is an allocation's, by its result type
  - in a place of the table below, which has file, function, lines and a reason.

Some functions give no error but `None`, or the value that they were given. Their bodies and their callers are held to the same rule.

It reads text and is no proof. It does not see an error that was kept and is given later, a call that asks for more memory than there is on
purpose, or a text that is put together from pieces.
"""
import argparse
import collections
import functools
import os
import re
import sys

from shadowtools.command import as_command
from shadowtools.gate.rattle_code import Source, Unread, arguments
from shadowtools.places import TOP

NO_PRODUCT = re.compile(r".*_trials|.*_bench|trial_cases|form_enumeration")
LEAST = 90  # there are so many places at least: a tool that reads nothing tests nothing

ERRORS = {"AllocError", "AllocFailed"}  # an allocation's errors, as types and as values
VARIANTS = {"Memory", "OutOfMemory"}
STATUS = "NO_MEMORY"

# Calls of the libraries of which the only error is an allocation's, as far as their error is dropped here. `?` needs no entry.
LIBRARY = {"extend_from_slice", "Vec::with_capacity", "Table::new", "vec!", "LruCache::sparse", "collect"}

# Calls that give the value back that they were given, and only where there is no memory.
HANDED_BACK = {"Turn::new", "Hall::new"}

# Of these functions an argument is none only where there is no memory; its place.
NONE_GIVEN = {"put_text": 1}

# `lines` are those to the place, whole and in order; the lines `also` are elsewhere in the file, once each
Place = collections.namedtuple("Place", "path function lines reason also", defaults=((),))
PLACES = [
    Place("bank_reader/src/records.rt", "memory_error", ("let _ = error;", "AllocError"),
          "its contract requires that the error is of memory, or of the reader below, which has its bytes in memory"),
    Place("exam_drill/src/asking.rt", "fault_of", ("Reply::Refused(Refusal::Disk) | Reply::Refused(Refusal::Memory) => Some(DrillFault::Memory),",),
          "the disk of a drill is in memory, and its calls fail for nothing else"),
    Place("exam_drill/src/drill.rt", "examine",
          ("let office = match Office::open(alloc, bank, spec, base, disk) {", "Ok(office) => office,", "Err(_) => return Err(DrillFault::Memory),"),
          "an empty disk in memory is opened", ("let disk = MemoryDisk::of(alloc, Vec::new(alloc), Vec::new(alloc));",)),
    Place("exam_drill/src/reading.rt", "fault_of", ("match fault {", "ReadFault::Source | ReadFault::Memory => DrillFault::Memory,"),
          "the source is in memory, and its calls do not fail"),
    Place("exam_drill/src/reading.rt", "fault_of_plan", ("match fault {", "PlanFault::Source | PlanFault::Memory => DrillFault::Memory,"),
          "the source is in memory, and its calls do not fail"),
    Place("exam_drill/src/reading.rt", "script_of",
          ("match read_script(alloc, &mut source) {", "Ok(requests) => Ok(requests),",
           "Err(ScriptFault::Source) | Err(ScriptFault::Memory) => Err(DrillFault::Memory),"),
          "the source is in memory, and its calls do not fail"),
    Place("exam_http/src/serve.rt", "serve_connection",
          ("let router = match router(alloc) {", "Ok(router) => router,", "Err(_) => return Ended::Memory,"),
          "the five routes are fixed, and no two conflict: the router fails for nothing else"),
    Place("wire_http/src/head.rt", "head_of",
          ("let method = match Method::from_bytes(alloc, name) {", "Ok(method) => method,", "Err(_) => return Err(AllocError),"),
          "the parser takes only a method that is a token: no other error of the method is left"),
    Place("exam_follower/src/delivering.rt", "mend",
          ("match self.office.settle() {", "Ok(()) => {}", "Err(Refusal::Disk) => return Err(DeliverFault::Disk),",
           "Err(_) => return Err(DeliverFault::Memory),"),
          "the office resolves a record in doubt, or answers that the disk failed or that there is no memory"),
    Place("exam_follower/src/office_log.rt", "log_fault", ("match refusal {", "Refusal::Disk => LogFault::Disk,", "_ => LogFault::Memory,"),
          "a record of the office is not read only where the disk failed or there is no memory"),
    Place("exam_office/src/mark.rt", "room_for_mark", ("if marks.count() == u64::MAX {", "return Err(Memory);"),
          "2^64 - 1 marks, more than are ever made; the list has no other limit"),
    Place("exam_session/src/apply.rt", "reserve", ("if self.entries.count() >= ENTRIES {", "return Err(Memory);"),
          "2^47 entries, more than the longest journal has; the list has no other limit", ("const ENTRIES: u64 = 1 << 47;",)),
    *[Place("journal_audit/src/auditing.rt", name, ("{", "let mut answer = Err(OpenFault::Memory);"), "the next call writes another answer over it",
            (call, "*answer = Err(journal_fault(fault));", "*answer = audit_walk(alloc, bank, spec, &mut walk);"))
      for name, call in (("audit", "let _ = audit_into(alloc, bank, spec, &mut *disk, &mut answer);"),
                         ("audit_disk", "let disk = audit_into(alloc, bank, spec, disk, &mut answer);"))],
    Place("shadowd/src/main.rt", "main", ("let Ok(words) = words_of(&rt) else {", "return end_before(&rt, &Lines::direct(rt), SettingsFault::Memory);"),
          "`words_of` fails for memory alone"),
    Place("shadowd/src/main.rt", "end_of_stack", ("end_before(rt, lines, SettingsFault::Memory)",), "a stack that is too small is a want of memory"),
]

Ground = collections.namedtuple("Ground", "kind start end pattern", defaults=((),))


class Made(collections.namedtuple("Made", "source function at what ground")):
    """A place where an error of memory is made, and why it may be; `ground` is empty where it may not."""

    def where(self):
        return f"{self.source.path}:{self.source.numbers[self.at]}"

    def line(self):
        return self.source.lines[self.source.numbers[self.at] - 1].strip()


def alternatives(pattern):
    """A pattern without `|`, once for each choice of its sides."""
    depth, start = 0, 0
    for at, word in enumerate(pattern):
        depth += {"(": 1, "[": 1, "{": 1, ")": -1, "]": -1, "}": -1}.get(word, 0)
        if word == "|" and depth == 0:
            return alternatives(pattern[:at]) + alternatives(pattern[at + 1:])
    for at, word in enumerate(pattern):
        if word in ("(", "[", "{", ","):
            start = at + 1
        if word == "|":
            end, depth = at, 0
            while depth >= 0 and not (depth == 0 and pattern[end] == ","):
                end += 1
                depth += {"(": 1, "[": 1, "{": 1, ")": -1, "]": -1, "}": -1}.get(pattern[end], 0)
            inner, first = alternatives(pattern[start:end]), pattern[:start]
            return [whole for it in inner for whole in alternatives(first + it + pattern[end:])]
    return [list(pattern)]


def takes_all(pattern):
    """Whether a pattern has but names and pairs of them, which fit any value."""
    return all(word in ("(", ")", ",", "mut", "_") or re.fullmatch(r"[a-z_]\w*", word) for word in pattern)


@functools.lru_cache(maxsize=None)
def source_of(path, text):
    return Source(path.split("/")[0], path, text)


@functools.lru_cache(maxsize=None)
def places_to_read(source):
    """The places of a file where a value may be an error of memory."""
    return [at for at, word in enumerate(source.words) if word in NONE_GIVEN or is_value(word)]


class Code:
    """All sources: what their calls can fail for."""

    def __init__(self, texts):
        self.sources = [source_of(path, text) for path, text in sorted(texts.items())]
        self.crates = {it.crate for it in self.sources}
        self.functions = [it for source in self.sources for it in source.functions]
        self.by_name = collections.defaultdict(list)
        for it in self.functions:
            self.by_name[it.name].append(it)
        self.of_path = {it.path: it for it in self.sources}
        enums = {name for it in self.sources for name in enums_with_memory(it)}
        self.with_memory = enums | {name for it in self.sources for name, (_, real) in it.imports.items() if real in enums}
        self.none_only = {}

    def is_error(self, words, source):
        """Whether a type is an allocation's error."""
        name = words[0] if words else ""
        return name in ERRORS or words == ["Memory"] and "Memory" in source.imports and "Memory" not in self.with_memory

    def fails_so(self, function):
        """Whether the only error of a function is an allocation's, by its result type."""
        types = arguments("Result", function.returns)
        return label_of(function) in HANDED_BACK or len(types) == 2 and self.is_error(types[1], self.of_path[function.path])

    def called(self, source, function, end):
        """The functions that the call before `end` may be, and its name as the table has it; None if there is no call."""
        if source.word(end - 1) not in (")", "]"):
            return None
        at = source.partner[end - 1] - 1
        if source.word(at) == "!":
            return [], source.word(at - 1) + "!"
        name, before = source.word(at), source.word(at - 1)
        known = self.by_name[name]
        if before == ".":
            methods = [it for it in known if it.owner]
            if source.word(at - 2) == "self" and source.word(at - 3) != ".":
                methods = [it for it in methods if (it.crate, it.owner) == (function.crate, function.owner)]
            return methods, name
        if before == "::":
            of = function.owner if source.word(at - 2) == "Self" else source.word(at - 2)
            if re.match(r"[A-Z]", of or ""):
                return [it for it in known if it.owner == of], f"{of}::{name}"
            crate = of if of in self.crates else source.crate
            return [it for it in known if not it.owner and it.crate == crate], name
        free = [it for it in known if not it.owner]
        here = [it for it in free if it.path == source.path]
        crate = source.imports.get(name, ("crate", name))[0]
        there = [it for it in free if it.crate == (crate if crate in self.crates else source.crate)]
        return here or there or free, name

    def fails_for_memory(self, source, function, start, end):
        """Whether the only error of an expression is an allocation's."""
        while source.word(start) in ("&", "mut", "*"):
            start += 1
        if end - start == 1:
            return self.name_fails(source, function, start)
        at = start
        while at < end:
            word = source.word(at)
            if not re.match(r"\w", word) and word not in ("(", "[", ".", "::", "?", "!") or word in ("if", "match", "move", "return", "let"):
                return False
            at = source.partner[at] + 1 if word in ("(", "[") else at + 1
        return self.call_fails(source, function, end)

    def call_fails(self, source, function, end):
        call = self.called(source, function, end)
        if call is None:
            return False
        known, name = call
        return all(map(self.fails_so, known)) if known else name in LIBRARY

    def name_fails(self, source, function, at):
        """The same of a name, which is a parameter or bound by a `let`, and was not written since."""
        name = source.word(at)
        before = [it for it in range(function.start, at) if source.word(it) == name]
        if not before:
            types = arguments("Result", parameter(source, function, name))
            return len(types) == 2 and self.is_error(types[1], source)
        if len(before) > 1 or source.word(before[0] - 1) != "let" or source.word(before[0] + 1) != "=":
            return False
        return self.fails_for_memory(source, function, before[0] + 2, source.until(before[0], function.end, ";"))

    def is_none_only(self, source, function, start, end):
        """Whether an expression is none only where there is no memory: `Some(..)`, `.ok()` of a call that fails so, or a function of such."""
        if source.word(start) == "Some" and source.word(start + 1) == "(" and source.partner[start + 1] == end - 1:
            return True
        if source.words[end - 4:end] == [".", "ok", "(", ")"]:
            return self.fails_for_memory(source, function, start, end - 4)
        if end - start == 1:
            is_given = function.name in NONE_GIVEN and source.word(start) == parameter_at(source, function, NONE_GIVEN[function.name])
            return is_given and source.word(start) not in source.words[function.start:start]
        call = self.called(source, function, end)
        if call is None or source.partner[end - 1] - 1 != start or not call[0]:
            return False
        return all(self.gives_none_for_memory(it) for it in call[0])

    def gives_none_for_memory(self, function):
        """The same of the values of a function."""
        key = (function.path, function.owner, function.name)
        if key not in self.none_only:
            self.none_only[key] = False  # of a function that calls itself
            self.none_only[key] = self.reads_so(function)
        return self.none_only[key]

    def reads_so(self, function):
        source = self.of_path[function.path]
        if not arguments("Option", function.returns):
            return False
        last = function.start
        for at in range(function.start, function.end):
            word = source.word(at)
            if word == "None":
                return False
            if word == "?":
                start = max(it for it in range(function.start, at) if source.word(it) in ("=", ";", "{", "}") or it == function.start)
                if not self.is_none_only(source, function, start if start == function.start else start + 1, at):
                    if not (start == function.start and self.is_none_only(source, function, start, at)):
                        return False
            if word == "return" and not self.is_none_only(source, function, at + 1, source.until(at, function.end, ";")):
                return False
        at = function.start
        while at < function.end:
            is_block = source.word(at) == "{"
            at = source.partner[at] + 1 if source.word(at) in ("(", "[", "{") else at + 1
            last = at if is_block or source.word(at - 1) == ";" else last
        return self.is_none_only(source, function, last, function.end)


@functools.lru_cache(maxsize=None)
def enums_with_memory(source):
    """The enums of a file that have a variant for want of memory."""
    found = []
    for at, word in enumerate(source.words):
        if word == "enum":
            brace = source.until(at, len(source.words), "{")
            if any(source.words[start] in VARIANTS for start, _ in source.parts(brace + 1, source.partner[brace], ",")):
                found.append(source.word(at + 1))
    return found


def parameter(source, function, name):
    """The type of a parameter, as words."""
    for start, end in parameters(source, function):
        if source.words[start:start + 2] == [name, ":"]:
            return source.words[start + 2:end]
    return []


def parameters(source, function):
    found, depth, start = [], 0, function.parameters[0]
    for at in range(*function.parameters):
        depth += {"<": 1, "(": 1, "[": 1, ">": -1, ")": -1, "]": -1}.get(source.word(at), 0)
        if source.word(at) == "," and depth == 0:
            found.append((start, at))
            start = at + 1
    return [*found, (start, function.parameters[1])]


def parameter_at(source, function, place):
    all_of = parameters(source, function)
    return source.word(all_of[place][0]) if place < len(all_of) else ""


class Reading:
    """One function read from its first word to its last, with what is known at each place."""

    def __init__(self, code, source, function):
        self.code, self.source, self.function, self.made = code, source, function, []

    def all_made(self):
        is_from = self.function.trait[:1] == ["From"] and self.function.trait[2] in ERRORS
        self.walk(self.function.start, self.function.end, [Ground("from", 0, 0)] if is_from else [])
        return self.made

    def walk(self, at, end, grounds):
        word = self.source.word
        while at < end:
            if word(at) == "match":
                at = self.walk_match(at, grounds)
            elif word(at) in ("if", "while"):
                at = self.walk_if(at, end, grounds)
            elif word(at) == "let":
                at = self.walk_let(at, end, grounds)
            elif word(at) == "matches" and word(at + 1) == "!":
                stop = self.source.until(at + 3, self.source.partner[at + 2], ",")
                self.walk(at + 3, stop, grounds)
                at = self.source.partner[at + 2] + 1
            elif word(at) == "->" and word(at - 1) in ("|", "||"):
                at = self.source.until(at, end, "{")
            elif word(at) == "use":
                at = self.source.until(at, end, ";")
            elif word(at) == "map_err" and word(at - 1) == "." and word(at + 1) == "(":
                self.walk(at + 2, self.source.partner[at + 1], [*grounds, Ground("call", 0, at - 1)])
                at = self.source.partner[at + 1] + 1
            else:
                self.look(at, grounds)
                at += 1

    def walk_match(self, at, grounds):
        """Reads a `match`, and gives the place after it."""
        source = self.source
        brace = source.until(at + 1, len(source.words), "{")
        self.walk(at + 1, brace, grounds)
        end, arm = source.partner[brace], brace + 1
        while arm < end:
            arrow = source.until(arm, end, "=>")
            test = source.until(arm, arrow, "if")
            known = [Ground("arm", at + 1, brace, tuple(source.words[arm:test]))]
            if test < arrow:
                self.walk(test + 1, arrow, grounds)
                known.append(Ground("test", test + 1, arrow))
            stop = source.partner[arrow + 1] + 1 if source.word(arrow + 1) == "{" else source.until(arrow + 1, end, ",")
            self.walk(arrow + 1, stop, grounds + known)
            arm = stop + 1 if source.word(stop) == "," else stop
        return end + 1

    def walk_if(self, at, end, grounds):
        """Reads an `if` or `while` to the end of its block; also its `else`, where a pattern is tested."""
        source = self.source
        brace = source.until(at + 1, end, "{")
        known = []
        for start, stop in source.parts(at + 1, brace, "&&"):
            sign = source.until(start, stop, "=")
            if source.word(start) == "let" and sign < stop:
                known.append(Ground("arm", sign + 1, stop, tuple(source.words[start + 1:sign])))
                self.walk(sign + 1, stop, grounds)
            else:
                known.append(Ground("test", start, stop))
                self.walk(start, stop, grounds)
        after = source.partner[brace] + 1
        self.walk(brace + 1, after - 1, grounds + known)
        if source.word(after) == "else" and source.word(after + 1) == "{" and len(known) == 1 and known[0].kind == "arm":
            stop = source.partner[after + 1]
            self.walk(after + 2, stop, [*grounds, known[0]._replace(kind="else")])
            return stop + 1
        return after

    def walk_let(self, at, end, grounds):
        """Reads a `let` to its semicolon; what an `else` has is known to be another pattern."""
        source = self.source
        sign = source.until(at, end, "=", ";")
        if source.word(sign) != "=":
            return sign
        stop = source.until(sign, end, ";", "else")
        if source.word(stop) != "else" or source.word(sign + 1) == "if":
            return sign + 1
        self.walk(sign + 1, stop, grounds)
        block = source.partner[stop + 1]
        self.walk(stop + 2, block, [*grounds, Ground("else", sign + 1, stop, tuple(source.words[at + 1:sign]))])
        return block + 1

    def look(self, at, grounds):
        """Notes what is made at a word."""
        word, before, after = (self.source.word(it) for it in (at, at - 1, at + 1))
        if word in NONE_GIVEN:
            given = self.source.parts(at + 2, self.source.partner[at + 1], ",")[NONE_GIVEN[word]] if after == "(" else None
            is_so = given and self.code.is_none_only(self.source, self.function, *given)
            self.note(at, "a text or none", "none only for memory" if is_so else "")
        elif is_value(word) and "==" not in self.around(at) and "!=" not in self.around(at):
            self.note(at, word, self.reason(grounds))
        elif word == "Err" and after == "(" and label_of(self.function) in HANDED_BACK:
            self.note(at, "a value given back", self.reason(grounds))

    def around(self, at):
        """The words before and after a path."""
        first = at
        while self.source.word(first - 1) == "::":
            first -= 2
        return self.source.word(first - 1), self.source.word(at + 1)

    def note(self, at, what, ground):
        self.made.append(Made(self.source, self.function, at, what, ground))

    def reason(self, grounds):
        for ground in grounds:
            reason = getattr(self, "by_" + ground.kind)(ground)
            if reason:
                return reason
        return ""

    def by_from(self, _):
        return "a From of an allocation's error"

    def by_arm(self, ground):
        """All patterns are errors of memory, or errors of a call that has no other."""
        if all(self.is_of_memory(it) for it in alternatives(list(ground.pattern))):
            return "an arm of an error of memory"
        if all(it[:2] == ["Err", "("] for it in alternatives(list(ground.pattern))):
            return self.by_call(ground) if self.fails(ground) else ""
        is_none = list(ground.pattern) == ["None"] and self.code.is_none_only(self.source, self.function, ground.start, ground.end)
        return "none only for memory" if is_none else ""

    def by_else(self, ground):
        """What is left after `Ok(..)` with names alone."""
        is_rest = ground.pattern[:2] == ("Ok", "(") and takes_all(ground.pattern[1:])
        return "the else of a call that allocates" if is_rest and self.fails(ground) else ""

    def by_test(self, ground):
        """A test that the error is one of memory, or that a call failed which fails for nothing else."""
        words = self.source.words[ground.start:ground.end]
        if re.fullmatch(r"\w+ \. (is_memory \( \)|kind \( \) == ErrorKind :: OutOfMemory)", " ".join(words)):
            return "a test of the error"
        is_call = words[-4:] == [".", "is_err", "(", ")"]
        is_so = is_call and self.code.fails_for_memory(self.source, self.function, ground.start, ground.end - 4)
        return "after is_err() of a call that allocates" if is_so else ""

    def by_call(self, ground):
        """The error of a call that has no other, as `map_err` has it."""
        if ground.kind == "call" and not self.code.call_fails(self.source, self.function, ground.end):
            return ""
        return "the error of a call that allocates"

    def fails(self, ground):
        return self.code.fails_for_memory(self.source, self.function, ground.start, ground.end)

    def is_of_memory(self, pattern):
        """Whether a pattern has an error of memory in it."""
        for at, word in enumerate(pattern):
            before = pattern[at - 1] if at else ""
            if before == "::" and word in VARIANTS:
                owner = pattern[at - 2]
                if word == "OutOfMemory" or owner in self.code.with_memory or owner == "Self":
                    return True
            elif before != "::" and (word in ERRORS or word == "Memory") and word in self.source.imports:
                return True
        return False


def is_value(word):
    return word in ERRORS or word in VARIANTS or word == STATUS or re.match(r'b?"no memory', word) is not None


def label_of(function):
    return f"{function.owner}::{function.name}"


@functools.lru_cache(maxsize=None)
def odd_names(source):
    """Errors of memory under other names, and those that are made outside of functions: what the tool would not see."""
    found = []
    for name, (_, real) in source.imports.items():
        if name != real and real in ERRORS | VARIANTS | {STATUS, *NONE_GIVEN} and name not in ERRORS | VARIANTS:
            found.append(f"{source.path}: {real} has another name here, {name}")
    for at, word in enumerate(source.words):
        if word in ("const", "static") and re.fullmatch(r"[A-Z_][A-Z_0-9]*", source.word(at + 1)):
            end = source.until(at, len(source.words), ";")
            if any(is_value(it) for it in source.words[at + 2:end]):
                found.append(f"{source.path}:{source.numbers[at]}: an error of memory that is a constant")
    return found


def is_named(place, made):
    """Whether an entry of the table is about a place: the lines to it are those of the entry, and the others are there."""
    if (place.path, place.function) != (made.source.path, made.function.name):
        return False
    lines, number = [it.strip() for it in made.source.lines], made.source.numbers[made.at]
    return tuple(lines[number - len(place.lines):number]) == place.lines and all(lines.count(it) == 1 for it in place.also)


def verdicts(texts, places=()):
    """Each place where an error of memory is made, with its ground; and what is wrong."""
    code, found, used = Code(texts), [], collections.Counter()
    for source in code.sources:
        for function in source.functions:
            is_any = any(function.start <= at < function.end for at in places_to_read(source))
            if is_any or label_of(function) in HANDED_BACK:
                found += Reading(code, source, function).all_made()
    wrong = [it for source in code.sources for it in odd_names(source)]
    whole = []
    for it in found:
        of = [place for place in places if not it.ground and is_named(place, it)]
        used.update(of)
        whole.append(it._replace(ground="the table: " + of[0].reason) if of else it)
    wrong += [f"{it.where()}: {it.function.name}: no allocation's error is at hand: {it.line()}" for it in whole if not it.ground]
    wrong += [f"the table: {it.path}: {it.function}: {used[it]} places have its lines, and not one: {it.lines[-1]}"
              for it in places if used[it] != 1]
    return whole, wrong


def crates_read():
    """The crates of the product, by crates.txt."""
    with open(os.path.join(TOP, "crates.txt"), encoding="utf-8") as file:
        names = [it.split("#")[0].split(":")[0].strip() for it in file]
    return [it for it in names if it and not NO_PRODUCT.fullmatch(it)]


def texts_of(crates):
    """The sources of these crates, by their paths below the folder of all crates."""
    found = {}
    for crate in crates:
        for folder, _, names in os.walk(os.path.join(TOP, "crates", crate, "src")):
            for name in (it for it in names if it.endswith(".rt")):
                path = os.path.join(folder, name)
                with open(path, encoding="utf-8") as file:
                    found[os.path.relpath(path, os.path.join(TOP, "crates"))] = file.read()
    return found


def main(words):
    asked = argparse.ArgumentParser(description=__doc__.splitlines()[0])
    asked.add_argument("--list", action="store_true", help="print each place and why it may be")
    is_list = asked.parse_args(words).list
    crates = crates_read()
    texts = texts_of(crates)
    try:
        found, wrong = verdicts(texts, PLACES)
    except Unread as unread:
        found, wrong = [], [str(unread)]
    wrong += [f"{it}: no source was read" for it in crates if not any(path.startswith(it + "/") for path in texts)]
    if len(found) < LEAST:
        wrong.append(f"{len(found)} places, and there are {LEAST} at least")
    for it in found if is_list else []:
        print(f"{it.where()}: {it.function.name}: {it.what}: {it.ground or 'REFUSED'}")
    for it in wrong:
        print(f"FAIL {it}")
    print(f"{sum(bool(it.ground) for it in found)} passed, {len(wrong)} failed")
    return 1 if wrong else 0


command = as_command(main)


if __name__ == "__main__":
    sys.exit(command())
