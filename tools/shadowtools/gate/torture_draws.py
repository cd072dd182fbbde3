"""What the cases of torture.py are drawn from: examinations, requests, messages, and damage to
bytes.

Each function takes a `random.Random` and draws from it alone, so that a seed gives the same texts
at each run.
"""
import random
import re

from shadowtools.checkers import check_tree
from shadowtools.checkers import drill_texts
from shadowtools.checkers import mutate_bank
from shadowtools.checkers import text_readers
from shadowtools.formats.tables import runs

EDGES = [b"0", b"00", b"1", b"-1", b"-0", b"2", b"5", b"63", b"64", b"65", b"255", b"256", b"511",
         b"512", b"1000000", b"4095", b"4096",
         b"65535", b"65536", b"999999999", b"1000000000", b"4294967295", b"4294967296",
         b"18446744073709551615", b"18446744073709551616"]
ODD = [b"\n", b"\r", b"\r\n", b" ", b"  ", b"\t", b",", b'"', b'""', b"-", b"#", b"\0", b"\xff",
       b"\xef\xbb\xbf", b"", b":", b"{", b"}"]
EXAMPLE = mutate_bank.BANK, mutate_bank.PLAN


# ---------------------------------------------------------------- damage

def span(draw, size, longest):
    """A place and a length within so many bytes."""
    at = draw.randrange(size + 1)
    return at, min(size - at, draw.choice([1, 1, 2, 4, draw.randrange(1, longest + 1)]))


def damaged_once(draw, data):
    """Bytes with one change: bytes changed, put in, cut out, moved or doubled."""
    at, size = span(draw, len(data), 40)
    here, rest = data[at:at + size], data[:at] + data[at + size:]
    way = draw.randrange(6)
    if way == 0 and here:
        return data[:at] + bytes([here[0] ^ 1 << draw.randrange(8)]) + data[at + 1:]
    if way == 1:
        odd = draw.choice(ODD + [bytes([draw.randrange(256)])])
        return data[:at] + odd + data[at + (draw.random() < 0.5):]
    if way == 2:
        return rest
    if way in (3, 4):
        to = draw.randrange(len(rest) + 1)
        return rest[:to] + here + rest[to:] if way == 3 else data[:to] + here + data[to:]
    return data[:at]


def with_lines(draw, data):
    """A text with one of its lines doubled, left out, moved or exchanged for another."""
    lines = data.split(b"\n")
    first, second = draw.randrange(len(lines)), draw.randrange(len(lines))
    way = draw.randrange(4)
    if way == 0:
        lines.insert(second, lines[first])
    elif way == 1:
        del lines[first]
    elif way == 2:
        lines.insert(second, lines.pop(first))
    else:
        lines[first], lines[second] = lines[second], lines[first]
    return b"\n".join(lines)


def with_number(draw, data):
    """A text with one of its numbers replaced by one beside it, or by one that is near a limit."""
    places = [k for k in range(len(data))
              if data[k:k + 1].isdigit() and not data[k - 1:k].isalnum()]
    if not places:
        return data
    first = last = draw.choice(places)
    while data[last:last + 1].isdigit():
        last += 1
    near = max(0, int(data[first:last][:20]) + draw.choice([-1, 1, 1, 2]))
    return data[:first] + draw.choice(EDGES + [b"%d" % near] * 20) + data[last:]


def damaged(draw, data):
    """Bytes with one change, or with a few: half of them keep lines and numbers well-formed."""
    ways = draw.choice([[damaged_once], [with_number], [with_number, with_lines],
                        [damaged_once, with_number, with_lines]])
    for _ in range(draw.choice([1, 1, 1, 1, 2, 3, 8])):
        data = draw.choice(ways)(draw, data)
    return data


def damaged_journal(draw, data, gates):
    """A journal with damage that knows its records: one is doubled, left out or moved, a gate or a
    length is changed, or any."""
    way, ends = draw.randrange(8), gates[1:] + [len(data) - 1]
    if way > 4 or not gates:
        return damaged_once(draw, data)
    one, other = draw.randrange(len(gates)), draw.randrange(len(gates))
    record, to = data[gates[one]:ends[one]], gates[other]
    if way == 0:
        return data[:to] + record + data[to:]
    if way == 1:
        return data[:gates[one]] + data[ends[one]:]
    if way == 2:
        return data[:gates[one]] + bytes([draw.randrange(256)]) + data[gates[one] + 1:]
    if way == 3:
        length = draw.choice([0, 1, 5, 131072, 131073, 2**32 - 1, len(record) - 6, len(record) - 4])
        return data[:gates[one] + 1] + length.to_bytes(4, "big") + data[gates[one] + 5:]
    place = gates[one] + 5 + draw.randrange(min(10, len(record) - 5))
    return data[:place] + bytes([(data[place] + draw.choice([1, 255, 2])) % 256]) + data[place + 1:]


def with_tail(draw, old, moved):
    """A journal of version 1 with what may be behind its closed gate: nothing, a part of a move that was stopped, records, or any
    bytes; and with any value of that gate but 1."""
    gate = draw.choice([0, 0, 0, 2, 255])
    tail = draw.choice([b"", moved[len(old):draw.randrange(len(old), len(moved) + 1)], moved[8 + 1:],
                        old[8 + 1:], draw.randbytes(draw.randrange(1, 40))])
    return old[:-1] + bytes([gate]) + tail


# ---------------------------------------------------------------- examinations

def small_problem(draw):
    """A problem of three to nine items that has a form, or now and then one that may have none."""
    while True:
        drawn = check_tree.any_problem(draw)._replace(given=frozenset(), barred=frozenset())
        best = check_tree.best_of_all(drawn)
        if best is not None or draw.random() < 0.05:
            return drawn, best


def plan_lines(draw, problem, best):
    """The lines of a plan for a problem, in any order, with remarks between them."""
    plan = problem.plan
    lines = [f"length {plan.length}", "prior "
             + " ".join(str(-draw.randrange(20)) for _ in plan.prior)]
    for row in plan.rows:
        front = {"count": f"count {row.low} {row.high}",
                 "quantity": f"quantity {row.attribute} {row.low} {row.high}",
                 "enemies": "enemies", "stimuli": f"stimuli {row.low} {row.high}"}[row.kind]
        lines.append(front if row.members is None else f"{front} {runs(row.members)}")
    lines += [f"stimulus {s} {low} {high}" for s, (low, high) in enumerate(plan.bounds, 1)]
    if draw.random() < 0.6:
        above = draw.randrange(1, 4)
        lines += [f"rate {above} {draw.choice([above + draw.randrange(3), 65535])}",
                  f"key {draw.randbytes(32).hex()}"]
    if draw.random() < 0.5 and len(plan.prior) > 1:
        lines.append("bands " + band_points(draw, len(plan.prior)))
    if draw.random() < 0.4:
        lines.append(f"budget {draw.choice([1, 1, 3, 5, 9, 501])}")
    if best is not None and draw.random() < 0.3:
        lines.append(f"base {runs(best)}")
    if draw.random() < 0.3:
        lines.append(f"sessions {draw.choice([1, 2, 3, 5])}")
    if draw.random() < 0.2:
        lines.append(f"journal {draw.randrange(64, 3000)}")
    draw.shuffle(lines)
    return "".join(draw.choice(["", "", "", "\n", "# a remark\n"]) + line + "\n" for line in lines)


def band_points(draw, grid):
    """The points that begin new bands on a grid of two points at the least: one to seven."""
    points = draw.sample(range(1, grid), draw.randrange(1, min(7, grid - 1) + 1))
    return " ".join(map(str, sorted(points)))


def small_exam(draw):
    """Bank and plan of a small examination."""
    problem, best = small_problem(draw)
    grid, most, items = problem.bank.grid, draw.choice([2, 2, 3, 5]), []
    for item in problem.bank.items:
        categories = draw.randrange(2, most + 1)
        logs = [-draw.randrange(30) for _ in range(categories * grid)]
        items.append((item.stimulus, categories, item.quantities, item.info, logs))
    text = text_readers.bank_text(grid, items)
    if draw.random() < 0.2:
        text = text.replace("\n", "\r\n")
    return text.encode("ascii"), plan_lines(draw, problem, best).encode("ascii")


def drill_exam(draw, sessions):
    """Bank and plan of a drill."""
    number = draw.randrange(2**32)
    items = drill_texts.draw_items(drill_texts.draws(number))
    bank, plan = drill_texts.bank_text(items), drill_texts.plan_text(number, sessions, items)
    if draw.random() < 0.5:
        plan += f"bands {band_points(draw, len(drill_texts.POINTS))}\n"
    return bank.encode("ascii"), plan.encode("ascii")


def any_exam(draw, drills=0.05):
    """Bank and plan: the example's, those of a drill, or most often small ones."""
    chance = draw.random()
    if chance < 0.1:
        return EXAMPLE
    return drill_exam(draw, draw.choice([1, 3, 200])) if chance > 1 - drills else small_exam(draw)


def at_a_limit(draw, bank, plan, script):
    """The three texts with one that has the greatest size that is read, or one more."""
    more, way = draw.randrange(2), draw.randrange(4)
    if way == 0:
        items = [(0, 2, [], [draw.randrange(9)], [-1, -1]) for _ in range(512 + more)]
        return text_readers.bank_text(1, items).encode("ascii"), b"length 2\nprior 0\n", script
    if way == 1:
        rows = len(re.findall(rb"(?m)^(?:count|quantity|enemies|stimuli) ", plan))
        return bank, plan + b"enemies 0\n" * (128 - rows + more), script
    if way == 2:
        size = text_readers.LONGEST_PLAN - len(plan) - 1 + more
        return bank, b"#" + b"x" * (size - 1) + b"\n" + plan, script
    return bank, plan, b"exposure\n" * (text_readers.LONGEST_SCRIPT // 9 + 1)


# ---------------------------------------------------------------- requests

def requests(draw, number, length, begun=0, lists=True):
    """So many requests as the lines of a script: sessions that go on, and requests that are refused
    or say something again.

    `begun` sessions are there already. Responses of 0 and 1 are in each item's range. Sessions have lists of items that the
    examinee must not get, unless `lists` is false: version 1 of a journal has none. Some answers name a booking, most of these their own."""
    steps, owners = [0] * begun, list(range(1, begun + 1))
    for _ in range(number):
        chance, open_ones = draw.random(), [s for s, step in enumerate(steps) if step < length]
        if not steps or chance < 0.15:
            steps.append(0)
            count = len(steps)
            old, far = draw.randrange(1, count + 1), 2**64 - count
            owners.append(draw.choice([count, count, far, old]))
            yield f"begin {owners[-1]}{listed(draw) if lists else ''}"
        elif chance < 0.75 and open_ones:
            session = draw.choice(open_ones)
            yield f"answer {session} {steps[session]} {draw.randrange(2)}{named(draw, owners[session])}"
            steps[session] += 1
        else:
            yield odd_request(draw, len(steps), length, lists)


def odd_request(draw, sessions, length, lists):
    """A request that is often refused, or one that asks and adds nothing."""
    session = draw.choice([draw.randrange(sessions), draw.randrange(sessions), sessions, 2**32 - 1])
    step = draw.choice([draw.randrange(length + 1), draw.randrange(length + 1), 65535])
    booking = draw.choice([session + 1, session + 1, draw.randrange(1, sessions + 1)])
    return draw.choice([f"answer {session} {step} {draw.choice([0, 1, 2, 3, 255])}{named(draw, booking)}",
                        f"answer {session} {step} {draw.randrange(2)}{named(draw, booking)}",
                        f"look {session}", f"look {session}", f"close {session}{named(draw, booking)}", "exposure",
                        f"begin {draw.randrange(2**64)}",
                        f"begin {draw.randrange(1, sessions + 1)}{listed(draw) if lists else ''}"])


def named(draw, booking):
    """The words that name a booking, most often this one, or most often none."""
    return f" for {draw.choice([booking] * 5 + [booking - 1, 2**64 - 1])}" if draw.random() < 0.4 else ""


def listed(draw):
    """The words of a list of items that the examinee must not get, or most often none. Few items, so
    that two lists of a booking are often the same, and of small numbers, so that a bank has them."""
    if draw.random() < 0.6:
        return ""
    items = draw.sample(range(draw.choice([3, 6, 10])), draw.choice([1, 1, 1, 2, 3]))
    return f" without {runs(items + [511] * (draw.random() < 0.03))}"


# ---------------------------------------------------------------- messages

def json_of(draw, members):
    """A body with these members, and with others, spaces and a member that is there twice."""
    pairs = [f'"{name}":{value}' for name, value in members.items()]
    if draw.random() < 0.15:
        pairs.insert(draw.randrange(len(pairs) + 1), draw.choice(
            ['"note":[1,{"a":null}]', '"step":"7"', '"booking":1.5', '"booking":null', '"booking":"1"',
             '"booking":1', '"booking":18446744073709551616', '"Booking":1', '"response":-1', '"x":1e400',
             '"without":null', '"without":[]', '"without":[1,1.0]', '"without":[[1]]', '"without":"1"',
             '"without":[512]', '"without":[0,0]', '"Without":[1]', '"without":{"0":1}', '"without":1',
             '"x":"\\n"', '"deep":' + "[" * 126 + "]" * 126, '"deep":' + "[" * 127 + "]" * 127]))
    space = draw.choice(["", "", " ", "\n\t"])
    return (space + "{" + ("," + space).join(pairs) + space + "}").encode("ascii")


def token(draw):
    """A token of a server, or most often none."""
    size = draw.choice([0, 0, 0, 1, 8, 40, 40, 1024])
    return bytes(draw.randrange(33, 127) for _ in range(size))


def authorization(draw, right):
    """The fields Authorization of a message to a server with this token, which is empty where it has none: most often one with
    the token; or none, another token, a front or more of it, another scheme, or two fields."""
    good = b"Bearer " + right
    if not right:
        return [b"Bearer x"] if draw.random() < 0.1 else []
    if draw.random() < 0.8:
        return [draw.choice([good, good, good, b"bearer " + right, b"BEARER " + right])]
    at = 7 + draw.choice([0, len(right) - 1, draw.randrange(len(right))])
    other = good[:at] + bytes([33 + (good[at] - 33 + 1) % 94]) + good[at + 1:]
    return draw.choice([[], [b""], [other], [other], [good[:-1]], [good + b"x"], [good[:7]], [right], [good[:6] + right],
                        [b"Basic " + right], [b"Bearer  " + right], [b"Bearer\t" + right], [good, good], [other, good], [good, b""]])


def health(draw, right):
    """A message that asks for the health, sometimes by another method or with a body; the token is not needed."""
    method = draw.choice(["GET"] * 6 + ["POST", "HEAD", "PUT", "get"])
    body = draw.choice([b""] * 4 + [b"{}", b"not JSON"])
    path = draw.choice(["/health"] * 9 + ["/health/", "/health?full", "/healthy"])
    fields = authorization(draw, right) if draw.random() < 0.4 else []
    return head_of(draw, method, path, len(body), fields) + body


def message(draw, line, right=b""):
    """The message that asks for the request of a script's line, spelled in one of many ways, of a server with this token."""
    kind, *numbers = line.split(" ")
    method, path, body = "GET", "/exposure", b""
    if kind == "begin":
        method, path, body = "POST", "/sessions", json_of(draw, begin_members(draw, numbers))
    elif kind == "answer":
        method, path = "POST", f"/sessions/{numbers[0]}/answers"
        body = json_of(draw, {"step": numbers[1], "response": numbers[2], **booking_member(numbers[3:])})
    elif kind == "close":
        method, path = "POST", f"/sessions/{numbers[0]}/close"
        body = close_body(draw, booking_member(numbers[1:]))
    elif kind == "look":
        path = f"/sessions/{numbers[0]}"
    if draw.random() < 0.04:
        method = draw.choice(["GET", "POST", "PUT", "HEAD", "get", "OPTIONS"])
    if draw.random() < 0.04:
        path = draw.choice(["/", "/sessions/", path + "/", "/sessions/01", "/sessions/4294967296",
                            "/exposure?a=1?b", "*", "//exposure", path.upper()])
    return head_of(draw, method, path, len(body), authorization(draw, right)) + body


def booking_member(words):
    """The member that names the booking of these words, which are `for` and the booking, or none."""
    return {"booking": words[1]} if words else {}


def close_body(draw, members):
    """The body of a closing with these members: of one that names no booking most often none, or one that is no JSON or no object."""
    if members or draw.random() < 0.2:
        return json_of(draw, members)
    return draw.choice([b""] * 6 + [b"{", b"[7]", b'"7"', b'{"booking":7', b"\xff"])


def begin_members(draw, words):
    """The members of a beginning with these words: a list in any order, some items of it twice."""
    members = {"booking": words[0]}
    if words[1:]:
        items = sorted(text_readers.set_of([word.encode() for word in words[2:]]))
        items += draw.choice([[], [], items[:1], items])
        draw.shuffle(items)
        members["without"] = "[" + draw.choice([",", ", "]).join(map(str, items)) + "]"
    return members


def head_of(draw, method, path, size, bearers=()):
    """A head in one of many spellings, most of them well-formed, with these fields Authorization."""
    end = draw.choice(["\r\n"] * 5 + ["\n"])
    fields = [draw.choice(["Host: exam", "host:exam", "Accept: */*", "X-Empty:",
                           "X-Latin: \u00e9\u00ff"]) for _ in range(draw.choice([0, 1, 1, 3]))]
    if size or method == "POST" or draw.random() < 0.3:
        fields.append(draw.choice(["Content-Length: ", "content-length:", "CONTENT-LENGTH:\t "])
                      + draw.choice([str(size)] * 8 + [f"{size:04}"]))
    if draw.random() < 0.06:
        fields.append(draw.choice(["Connection: close", "connection: CLOSE ",
                                   "Connection: keep-alive", "Connection: close, te",
                                   "Transfer-Encoding: chunked",
                                   f"Content-Length: {size}", "Content-Length: 4097",
                                   "Content-Length: 1x", "No-Colon", "Bad Name: 1", ": none"]))
    if draw.random() < 0.02:
        fields += [f"X{k}: {'v' * draw.choice([0, 9, 140])}"
                   for k in range(draw.choice([60, 63, 64, 65, 90]))]
    fields += [draw.choice(["Authorization: ", "authorization:", "AUTHORIZATION: \t"]) + value.decode("latin-1")
               + draw.choice(["", "", " "]) for value in bearers]
    draw.shuffle(fields)
    version = draw.choice(["HTTP/1.1"] * 30 + ["HTTP/1.0", "HTTP/2.0", "http/1.1"])
    blank = draw.choice([""] * 10 + ["\r\n", "\n\r\n"])
    return (blank + f"{method} {path} {version}{end}" + "".join(field + end for field in fields)
            + end).encode("latin-1")


def pieces(draw, data):
    """The same bytes in pieces."""
    found, longest = [], draw.choice([1, 7, 60, 5000])
    while data:
        size = draw.randrange(1, longest + 1) if len(found) < 300 else len(data)
        found.append(data[:size])
        data = data[size:]
    return found


def of_case(seed, number):
    """The draws of a case: its seed is that of the run with the number of the case."""
    return random.Random(f"{seed} {number}")
