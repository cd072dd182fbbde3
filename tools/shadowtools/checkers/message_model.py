"""A reader of HTTP messages from the bytes of a connection, and the responses of docs/HTTP.md to
them.

It is written from that page and the grammar of RFC 9112 alone, and shares nothing with the product.
"""
import json
import re
from collections import namedtuple

from shadowtools.checkers.reply_model import compact
from shadowtools.checkers.text_readers import Request

TOKEN = rb"[0-9A-Za-z!#$%&'*+\-.^_`|~]+"
HEAD = re.compile(rb"(?:\r?\n)*(" + TOKEN + rb") ([!-~\x80-\xff]+) HTTP/1\.([01])\r?\n((?:" + TOKEN
                  + rb":[\t -~\x80-\xff]*\r?\n)*)\r?\n")
# What may make a head of the part of one: each place at which it may be cut off is completed by one
# of these.
ENDINGS = [b"", b"G / HTTP/1.1\n\n", b"\nG / HTTP/1.1\n\n", b" / HTTP/1.1\n\n", b"/ HTTP/1.1\n\n",
           b":\n\n", b"\n\n", b"\n"]
ENDINGS += [b" HTTP/1.1\n\n"[k:] for k in range(9)]
LONGEST_HEAD, LONGEST_BODY, FIELDS = 8192, 4096, 64
PHRASES = {200: "OK", 201: "Created", 400: "Bad Request", 401: "Unauthorized", 404: "Not Found",
           405: "Method Not Allowed", 409: "Conflict",
           411: "Length Required", 413: "Payload Too Large", 422: "Unprocessable Entity",
           500: "Internal Server Error",
           503: "Service Unavailable", 507: "Insufficient Storage"}

# `authorization` is the value of its only field of that name, empty if there is none or several.
Message = namedtuple("Message", "method path body close authorization")
# Why bytes begin with no message: the words of the errors that may be the response, where None is
# no response.
Fault = namedtuple("Fault", "words")
STATUS = {"bad-head": 400, "no-length": 411, "too-long": 413, "unauthorized": 401, "no-route": 404,
          "no-method": 405, "bad-json": 400, "bad-body": 422}


def response(status, body, close):
    text = compact(body)
    lines = [f"HTTP/1.1 {status} {PHRASES[status]}", *["WWW-Authenticate: Bearer"] * (status == 401),
             "Content-Type: application/json", f"Content-Length: {len(text)}"]
    lines += ["Connection: close"] * close
    return "".join(line + "\r\n" for line in [*lines, ""]).encode("ascii") + text


def error(word, close):
    return response(STATUS[word], {"error": word}, close)


# ---------------------------------------------------------------- heads

def is_text(data):
    try:
        data.decode("utf-8")
    except UnicodeDecodeError:
        return False
    return True


def is_part(data):
    """Whether bytes that have no head at their front may become one."""
    return any(found and found.end() == len(data) + len(ending)
               for ending in ENDINGS for found in [HEAD.match(data + ending)])


def front(data):
    """The match of the head that the bytes begin with, or the fault of the bytes if they are all
    that come."""
    found = HEAD.match(data[:LONGEST_HEAD])
    if found:
        fits = is_text(found.group(2)) and found.group(4).count(b"\n") <= FIELDS
        return found if fits else Fault(["bad-head"])
    first = data[:LONGEST_HEAD]
    if not is_part(first):
        return Fault(["bad-head"])
    words = ["too-long" if len(data) >= LONGEST_HEAD else None]
    target = re.match(rb"(?:\r?\n)*" + TOKEN + rb" ([!-~\x80-\xff]+)( ?)", first)
    crowded = first.lstrip(b"\r\n").count(b"\n") > FIELDS
    if target and target.group(2) and not is_text(target.group(1)):
        return Fault(["bad-head"])
    return Fault(words + ["bad-head"] if crowded or target and not is_text(target.group(1))
                 else words)


def fields_of(section):
    for line in section.split(b"\n")[:-1]:
        name, _, value = line.removesuffix(b"\r").partition(b":")
        yield name.lower(), value.strip(b" \t")


def authorization_of(fields):
    """The value of the only field Authorization, empty if there is none or several."""
    values = [value for name, value in fields if name == b"authorization"]
    return values[0] if len(values) == 1 else b""


def body_length(method, fields):
    """The length of the body that a head announces, or the word of its fault."""
    lengths = [value for name, value in fields if name == b"content-length"]
    if len(lengths) > 1 or lengths and not re.fullmatch(rb"[0-9]{1,9}", lengths[0]):
        return "bad-head"
    if any(name == b"transfer-encoding" for name, _ in fields) or method == b"POST" and not lengths:
        return "no-length"
    length = int(lengths[0]) if lengths else 0
    return length if length <= LONGEST_BODY else "too-long"


def messages(data):
    """The messages of all bytes of a connection, and last a `Fault` where bytes are left that begin
    with none."""
    while data:
        head = front(data)
        if isinstance(head, Fault):
            yield head
            return
        method, target, minor, section = head.groups()
        fields = list(fields_of(section))
        length = body_length(method, fields)
        if isinstance(length, str) or head.end() + length > len(data):
            yield Fault([length if isinstance(length, str) else None])
            return
        close = minor == b"0" or method == b"HEAD" or any(name == b"connection"
                                                          and value.lower() == b"close"
                                                          for name, value in fields)
        yield Message(method, target.split(b"?")[0], data[head.end():head.end() + length], close,
                      authorization_of(fields))
        if close:
            return
        data = data[head.end() + length:]


# ---------------------------------------------------------------- what a message asks

class Digits(str):
    """A number of a JSON text, as it is written."""


def finite(text):
    if abs(float(text)) == float("inf"):
        raise ValueError(text)
    return Digits(text)


def no_constant(text):
    raise ValueError(text)


def depth(value):
    parts = value.values() if isinstance(value, dict) else value if isinstance(value,
                                                                               list) else None
    return 0 if parts is None else 1 + max(map(depth, parts), default=0)


def value_of(body):
    """The value of a body; `ValueError` where it is no JSON."""
    try:
        value = json.loads(body.decode("utf-8"), parse_int=finite, parse_float=finite,
                           parse_constant=no_constant)
        if depth(value) > 127:
            raise ValueError("deep")
        return value
    except RecursionError as fault:
        raise ValueError("deep") from fault


MOST_ITEM, MOST_BOOKING = 511, 2**64 - 1


def number_of(found, most):
    fits = isinstance(found, Digits) and re.fullmatch("[0-9]+", found) and int(found) <= most
    return int(found) if fits else None


def member(value, name, most):
    return number_of(value.get(name) if isinstance(value, dict) else None, most)


def items_of(value):
    """The items of the member `without`: none where it is not there, and None where it is no list."""
    found = value.get("without", []) if isinstance(value, dict) else []
    items = [number_of(one, MOST_ITEM) for one in found] if isinstance(found, list) else [None]
    return None if None in items else frozenset(items)


def booking_of(value):
    """The booking that a value names: no number where it has no such member, and None where that is
    no booking."""
    named = isinstance(value, dict) and "booking" in value
    return [member(value, "booking", MOST_BOOKING)] if named else []


def booking_of_close(body):
    """The same of the body of a closing, which names none where it is no JSON."""
    try:
        return booking_of(value_of(body))
    except ValueError:
        return []


ROUTES = [(rb"/sessions", b"POST", "begin", {"booking": MOST_BOOKING}),
          (rb"/sessions/(0|[1-9][0-9]*)", b"GET", "look", {}),
          (rb"/sessions/(0|[1-9][0-9]*)/answers", b"POST", "answer",
           {"step": 65535, "response": 255}),
          (rb"/sessions/(0|[1-9][0-9]*)/close", b"POST", "close", {}),
          (rb"/exposure", b"GET", "exposure", {}), (rb"/health", b"GET", "health", {})]


def may_ask(message, token):
    """Whether a server with this token, which is empty where it has none, lets this message ask."""
    scheme, found = message.authorization[:7], message.authorization[7:]
    return (not token or scheme.lower() == b"bearer " and found == token
            or (message.method, message.path) == (b"GET", b"/health"))


def asked(message, token=b""):
    """The request of a message, or the word of its error."""
    if not may_ask(message, token):
        return "unauthorized"
    for path, method, kind, members in ROUTES:
        found = re.fullmatch(path, message.path)
        numbers = [int(one) for one in found.groups()] if found else []
        if not found or any(one > 2**32 - 1 for one in numbers):
            continue
        if message.method != method:
            return "no-method"
        if members:
            try:
                value = value_of(message.body)
            except ValueError:
                return "bad-json"
            numbers += [member(value, name, most) for name, most in members.items()]
            listed = items_of(value)
            numbers += [listed] if kind == "begin" and listed != frozenset() else []
            numbers += booking_of(value) if kind == "answer" else []
        if kind == "close":
            numbers += booking_of_close(message.body)
        return "bad-body" if None in numbers else Request(kind, numbers)
    return "no-route"
