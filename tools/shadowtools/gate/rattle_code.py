"""The code of Rattle sources as words with their lines: without comments, attributes, contracts and ghost items. It knows functions,
with their owners and result types, but no types of values."""
import collections
import re

TOKEN = re.compile(r"""
    (?P<skip> \s+ | //[^\n]* | /\*.*?\*/ )
  | (?P<text> b?"(?:\\.|[^"\\])*" )
  | (?P<char> b?'(?:\\(?:x[0-9a-fA-F]{2}|u\{[^}]*\}|.)|[^'\\\n])' )
  | (?P<word> '?[^\W\d]\w* | \d\w* )
  | (?P<sign> :: | -> | => | == | != | <= | >= | && | \|\| | \.\.= | \.\. | . )
""", re.X | re.S)
OPEN, CLOSE = {"(": ")", "[": "]", "{": "}"}, {")", "]", "}"}

# `start` and `end` are places of words of the body, `returns` is the result type as words
Function = collections.namedtuple("Function", "crate path owner trait name parameters returns start end")


class Unread(Exception):
    """A text that this reader doesn't follow."""


def words_of(text):
    """The words of a text, each with its line."""
    found, line, at = [], 1, 0
    while at < len(text):
        match = TOKEN.match(text, at)
        if match.lastgroup != "skip":
            found.append((match.group(), line))
        line += match.group().count("\n")
        at = match.end()
    return found


def closers(words):
    """Each place of a bracket to that of its partner."""
    partner, stack = {}, []
    for at, word in enumerate(words):
        if word in OPEN:
            stack.append(at)
        elif word in CLOSE:
            if not stack or OPEN[words[stack[-1]]] != word:
                raise Unread(f"no partner of word {at}: {word}")
            partner[at] = stack.pop()
            partner[partner[at]] = at
    if stack:
        raise Unread(f"no partner of word {stack[-1]}")
    return partner


def without_proofs(found):
    """The words without attributes, clauses and ghost items."""
    words = [word for word, _ in found]
    partner, kept, at = closers(words), [], 0
    while at < len(words):
        word, after = words[at], words[at + 1] if at + 1 < len(words) else ""
        if word == "#" and after in ("[", "!"):
            at = partner[words.index("[", at)] + 1
        elif word in ("requires", "ensures"):
            at = partner[words.index("{", at)] + 1
        elif word == "ghost":
            while words[at] not in (";", ","):
                if words[at] in CLOSE:
                    at -= 1
                    break
                at = partner[at] + 1 if words[at] in OPEN else at + 1
            at += 1
        else:
            kept.append(found[at])
            at += 1
    return kept


class Source:
    """The code of one file."""

    def __init__(self, crate, path, text):
        self.crate, self.path, self.lines = crate, path, text.splitlines()
        found = without_proofs(words_of(text))
        self.words, self.numbers = [word for word, _ in found], [line for _, line in found]
        self.partner = closers(self.words)
        self.imports = dict(self.imported())
        self.functions = list(self.all_functions())

    def word(self, at):
        return self.words[at] if 0 <= at < len(self.words) else ""

    def until(self, at, end, *signs):
        """The first place from `at` on of one of these, outside of brackets; `end` if there is none."""
        while at < end:
            if self.words[at] in signs:
                return at
            at = self.partner[at] + 1 if self.words[at] in OPEN else at + 1
        return end

    def parts(self, start, end, sign):
        """The pieces of a range between these signs, outside of brackets."""
        found = []
        while start < end:
            stop = self.until(start, end, sign)
            found.append((start, stop))
            start = stop + 1
        return found

    def after_angles(self, at):
        """The place after `<..>`, or `at` if there is none."""
        depth = 0
        while self.word(at) == "<" or depth:
            depth += {"<": 1, ">": -1}.get(self.word(at), 0)
            at += 1
        return at

    def imported(self):
        """Each name that a `use` brings in, with the first word of its path, and its own name."""
        for at, word in enumerate(self.words):
            if word == "use":
                first = self.word(at + 1)
                end = self.until(at, len(self.words), ";")
                for place in range(at + 2, end if "{" not in self.words[at:end] else self.partner[self.words.index("{", at)]):
                    name, after = self.word(place), self.word(place + 1)
                    if re.fullmatch(r"\w+", name) and after in (",", ";", "}"):
                        real = self.word(place - 2) if self.word(place - 1) == "as" else name
                        yield name, (first, real)

    def blocks(self):
        """Each `impl` and `trait`: its range, the name of its type, and the trait as words."""
        for at, word in enumerate(self.words):
            if word in ("impl", "trait") and self.word(at - 1) in ("", "}", ";", "pub", "unsafe", ")"):
                head = self.after_angles(at + 1)
                brace = self.until(head, len(self.words), "{", ";")
                if self.word(brace) == "{":
                    is_for = self.until(head, brace, "for")
                    of = head if is_for == brace else is_for + 1
                    owner = next((it for it in self.words[of:brace] if re.match(r"[A-Z]", it)), None)
                    yield brace, self.partner[brace], owner, self.words[head:is_for] if is_for < brace else []

    def all_functions(self):
        blocks = list(self.blocks())
        for at, word in enumerate(self.words):
            if word == "fn" and re.fullmatch(r"[a-z_]\w*", self.word(at + 1)):
                first = self.after_angles(at + 2)
                last = self.partner[first]
                returns, brace = last + 1, self.until(last + 1, len(self.words), "{", ";")
                stop = self.until(returns, brace, "where")
                result = self.words[returns + 1:stop] if self.word(returns) == "->" else []
                body = (brace + 1, self.partner[brace]) if self.word(brace) == "{" else (brace, brace)
                owner, trait = next(((it[2], it[3]) for it in blocks if it[0] < at < it[1]), (None, []))
                yield Function(self.crate, self.path, owner, trait, self.words[at + 1], (first + 1, last), result, *body)


def arguments(kind, words):
    """The types between the angles of `kind<..>`, each as words, if these words are such a type."""
    if kind not in words[:words.index("<") if "<" in words else 0]:
        return []
    found, depth = [[]], 0
    for word in words[words.index("<") + 1:-1]:
        depth += {"<": 1, "(": 1, "[": 1, ">": -1, ")": -1, "]": -1}.get(word, 0)
        if word == "," and depth == 0:
            found.append([])
        else:
            found[-1].append(word)
    return [it for it in found if it]
