"""Conditions on the attributes of items, as the constraint tables of R's TestDesign have them.

    condition  := both { "|" both }          both := single { "&" single }
    single     := "!" single | "(" condition ")" | "is.na(" NAME ")" | NAME operator value
    operator   := == != < <= > >= %in%       value := a word, a number, "text", 'text', or c(value, ..) after %in%
    after %in% a value may be a sequence of whole numbers, as R has it: 1:4

A comparison with an absent value (empty or NA) does not hold. A word without quotes that is a number is
compared as a number. Nothing is evaluated but this grammar.
"""
import re
from typing import Dict, List, NamedTuple, Optional, Sequence, Tuple

from shadowtools.formats.tables import ABSENT, is_number

SEQUENCE, LONGEST_SEQUENCE = re.compile(r"(-?[0-9]{1,9}):(-?[0-9]{1,9})", re.ASCII), 1_000
TOKEN = re.compile(r"""\s*(?:("[^"]*"|'[^']*')|(==|!=|<=|>=|%in%|[<>!&|(),])|([^\s"'<>=!&|(),%]+))""")


class BadCondition(Exception):
    """The condition is not of the grammar, or names what is not there."""


def tokens(text):
    """Pairs of kind and text; the kinds are text, sign and word."""
    found, at = [], 0
    text = text.rstrip()
    while at < len(text):
        match = TOKEN.match(text, at)
        if not match:
            raise BadCondition(f"{text[at:]!r} is not understood")
        quoted, sign, word = match.groups()
        if quoted is not None:
            found.append(("text", quoted[1:-1]))
        else:
            found.append(("sign", sign) if sign else ("word", word))
        at = match.end()
    return found


def as_number(text: str) -> Optional[float]:
    return float(text) if is_number(text) else None


def equal(value, kind, wanted):
    """Whether an attribute has a value; a bare number compares as a number."""
    if kind == "word" and as_number(wanted) is not None and as_number(value) is not None:
        return as_number(value) == as_number(wanted)
    return value == wanted


class Compared(NamedTuple):
    """An attribute that a condition holds against values, each with its kind: `word` or `text`. A sequence is one comparison of
    several values, and every other value is one of its own."""
    name: str
    values: List[Tuple[str, str]]
    written: str


class Parser:
    """Reads one condition, and makes of it a function from the attributes of an item to a truth value. `compared` has then its
    comparisons with values by `==`, `!=` and `%in%`, and `used` the attributes that it names."""

    def __init__(self, text, names):
        self.left, self.names = tokens(text), names
        self.compared: List[Compared] = []
        self.used: List[str] = []

    def take(self, *signs):
        if self.left and self.left[0][0] == "sign" and self.left[0][1] in signs:
            return self.left.pop(0)[1]
        return None

    def need(self, sign):
        if not self.take(sign):
            raise BadCondition(f"{sign!r} is missing {self.place()}")

    def place(self):
        return f"before {self.left[0][1]!r}" if self.left else "at the end"

    def whole(self):
        found = self.condition()
        if self.left:
            raise BadCondition(f"{self.left[0][1]!r} is not understood")
        return found

    def condition(self):
        parts = [self.both()]
        while self.take("|"):
            parts.append(self.both())
        return lambda row: any(part(row) for part in parts)

    def both(self):
        parts = [self.single()]
        while self.take("&"):
            parts.append(self.single())
        return lambda row: all(part(row) for part in parts)

    def single(self):
        if self.take("!"):
            inner = self.single()
            return lambda row: not inner(row)
        if self.take("("):
            inner = self.condition()
            self.need(")")
            return inner
        if not self.left or self.left[0][0] != "word":
            raise BadCondition(f"a name of an attribute is missing {self.place()}")
        name = self.left.pop(0)[1]
        if name == "is.na":
            self.need("(")
            name = self.name(self.left.pop(0)[1] if self.left else "")
            self.need(")")
            return lambda row: row[name] in ABSENT
        return self.comparison(self.name(name))

    def name(self, name):
        if name not in self.names:
            raise BadCondition(f"no attribute {name!r}; there are {', '.join(self.names) or 'none (--attributes)'}")
        self.used.append(name)
        return name

    def value(self):
        if not self.left or self.left[0][0] == "sign":
            raise BadCondition(f"a value is missing {self.place()}")
        return self.left.pop(0)

    def values(self, name):
        """The values after %in%, those of sequences one by one."""
        if not (self.left and self.left[0] == ("word", "c")):
            return self.members(name)
        self.left.pop(0)
        self.need("(")
        found = list(self.members(name))
        while self.take(","):
            found += self.members(name)
        self.need(")")
        return found

    def members(self, name):
        """A value of a set, or the numbers of a sequence."""
        kind, text = self.value()
        found, sequence = [(kind, text)], SEQUENCE.fullmatch(text) if kind == "word" else None
        if sequence:
            first, last = map(int, sequence.groups())
            if abs(last - first) > LONGEST_SEQUENCE:
                raise BadCondition(f"the sequence {text} has more than {LONGEST_SEQUENCE} numbers")
            step = 1 if first <= last else -1
            found = [("word", str(number)) for number in range(first, last + step, step)]
        self.compared.append(Compared(name, found, text))
        return found

    def comparison(self, name):
        sign = self.take("==", "!=", "<", "<=", ">", ">=", "%in%")
        if not sign:
            raise BadCondition(f"after {name} one of == != < <= > >= %in% is missing")
        if sign == "%in%":
            wanted = self.values(name)
            return lambda row: present(row[name]) and any(equal(row[name], *one) for one in wanted)
        kind, text = self.value()
        if kind == "word" and SEQUENCE.fullmatch(text):
            raise BadCondition(f"{name} {sign} {text}: {text} is a sequence, which follows %in% alone; a text has quotation marks")
        if sign in ("==", "!="):
            self.compared.append(Compared(name, [(kind, text)], text))
            return lambda row: present(row[name]) and equal(row[name], kind, text) == (sign == "==")
        return self.order(name, sign, text)

    def order(self, name, sign, text):
        bound = as_number(text)
        if bound is None:
            raise BadCondition(f"{name} {sign} {text}: {text!r} is not a number")

        def holds(row):
            if not present(row[name]):
                return False
            value = as_number(row[name])
            if value is None:
                raise BadCondition(f"{name} {sign} {text}: the attribute {row[name]!r} is not a number")
            return {"<": value < bound, "<=": value <= bound, ">": value > bound, ">=": value >= bound}[sign]
        return holds


def present(value):
    return value not in ABSENT


def comparisons(text: str, rows: Sequence[Dict[str, str]]) -> List[Compared]:
    """The comparisons of a condition with values."""
    return parsed(text, rows).compared


def attributes_of(text: str, rows: Sequence[Dict[str, str]]) -> List[str]:
    """The attributes that a condition names."""
    return parsed(text, rows).used


def parsed(text: str, rows: Sequence[Dict[str, str]]) -> Parser:
    """The parser of a condition, after it read all of it."""
    parser = Parser(text, list(rows[0]))
    if text.strip():
        parser.whole()
    return parser


def has_value(one: Compared, value: str) -> bool:
    """Whether an attribute's value is one of those that it is compared with."""
    return present(value) and any(equal(value, *wanted) for wanted in one.values)


def spellings(one: Compared, rows: Sequence[Dict[str, str]]) -> List[str]:
    """How the items write the values that a bare number meets, in order."""
    if not any(kind == "word" and as_number(text) is not None for kind, text in one.values):
        return []
    return sorted({row[one.name] for row in rows if has_value(one, row[one.name])})


def chosen(text: str, rows: Sequence[Dict[str, str]]) -> List[int]:
    """The numbers of the rows that meet a condition; an empty condition is met by all."""
    if not text.strip():
        return list(range(len(rows)))
    try:
        meets = Parser(text, list(rows[0])).whole()
        return [number for number, row in enumerate(rows) if meets(row)]
    except RecursionError:
        raise BadCondition("more brackets in brackets than can be read")
