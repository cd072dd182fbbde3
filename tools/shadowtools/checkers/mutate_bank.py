"""Changes each byte of a small bank text to each of the 256 values, and runs the built program on every text that comes out.

usage: mutate_bank.py PROGRAM [--check] [--jobs N] [--places A-B] [--every N]

PROGRAM is the built `shadowd`. Each text is either refused with status 3 and the one line that names its first fault, or it
is read, and then the items that the program serves are those of the text's own numbers. Both are decided by the small
reader and the plain enumeration of forms in this file, which share nothing with the program. Printed are how many texts
were read, and how many were refused for which kind of fault; the last line is 'N passed, M failed'. Exit status 0 where each text had its
answer.

--check        the program has the command `check`: a text that is read also has its bank line there
--jobs N       so many runs at a time (default 4)
--places A-B   only these places of the text, from 0 on
--every N      of these only every Nth
"""
import functools
import itertools
import multiprocessing
import os
import subprocess
import sys
import tempfile
from typing import List, Optional, Sequence, Tuple

from shadowtools.command import Refused, as_command

BANK = b"""item,stimulus,categories,i0,i1,i2,l0_0,l0_1,l0_2,l1_0,l1_1,l1_2
0,0,2,9,5,1,-7,-7,-7,-7,-7,-7
1,0,2,7,8,2,-7,-7,-7,-7,-7,-7
2,0,2,4,9,3,-7,-7,-7,-30,-15,-1
3,0,2,2,6,8,-7,-7,-7,-7,-7,-7
4,0,2,1,4,9,0,-1,-20,-7,-7,-7
5,0,2,3,7,5,-7,-7,-7,-7,-7,-7
"""
LENGTH = 3
PRIOR = [-10, 0, -10]
# Of these items at least and at most so many are in a form.
COUNTS = [(1, 1, {0, 1}), (0, 1, {2, 5})]
PLAN = b"length 3\nprior -10 0 -10\ncount 1 1 0-1\ncount 0 1 2 5\n"
# The responses of the examinees: together their sums tell the likelihoods of the items that are served.
EXAMINEES = list(itertools.product((0, 1), repeat=LENGTH))


# ---- the records of a text


def records(text: bytes) -> List[List[bytes]]:
    """The records of a CSV text, as RFC 4180 and its usual readers have them.

    Fields are parted by commas. A field that begins with a quote goes on to the next quote that isn't doubled; what
    follows it belongs to the field too. A record ends at CR, LF or both; an empty line is no record.
    """
    if text.startswith(b"\xef\xbb\xbf"):
        text = text[3:]
    result, record, field = [], [], bytearray()
    state = "between"
    after_return = False
    for byte in text:
        if after_return and byte == 10:
            after_return = False
            continue
        after_return = False
        ends = byte in (10, 13)
        if state == "between":
            if ends:
                continue
            record, field, state = [], bytearray(), "start"
        if state == "quoted":
            if byte == 34:
                state = "quote"
            else:
                field.append(byte)
            continue
        if state == "quote" and byte == 34:
            field.append(byte)
            state = "quoted"
            continue
        if state == "start" and byte == 34:
            state = "quoted"
        elif byte == 44:
            record.append(bytes(field))
            field, state = bytearray(), "start"
        elif ends:
            record.append(bytes(field))
            result.append(record)
            state = "between"
            after_return = byte == 13
        else:
            field.append(byte)
            state = "plain"
    if state != "between":
        record.append(bytes(field))
        result.append(record)
    return result


# ---- the bank in the records


def number(text: bytes) -> Optional[int]:
    """The number of at most nine digits that a text writes, or None."""
    if not text or len(text) > 9 or any(byte not in b"0123456789" for byte in text):
        return None
    if len(text) > 1 and text[0] == 48:
        return None
    return int(text)


def signed(text: bytes) -> Optional[int]:
    if text.startswith(b"-"):
        found = number(text[1:])
        return -found if found else None
    return number(text)


def names(quantities: int, grid: int, responses: int) -> List[bytes]:
    """The header of so many quantities, grid points and responses."""
    result = ["item", "stimulus", "categories"]
    result += ["q%d" % k for k in range(quantities)]
    result += ["i%d" % g for g in range(grid)]
    result += ["l%d_%d" % (r, g) for r in range(responses) for g in range(grid)]
    return [name.encode() for name in result]


@functools.lru_cache(maxsize=None)
def shapes():
    """All headers with their shapes."""
    return {tuple(names(q, g, m)): (q, g, m) for q in range(9) for g in range(1, 62) for m in range(2, 6)}


def shape_of(columns: List[bytes]) -> Tuple[int, int, int]:
    """The shape of a header; a header that is none departs at the length of the longest front that some header has."""
    found = shapes().get(tuple(columns))
    if found:
        return found
    longest = 0
    for header in shapes():
        same = 0
        while same < len(columns) and same < len(header) and columns[same] == header[same]:
            same += 1
        longest = max(longest, same)
    raise Refused("bank: header column %d" % longest, "header")


def read(text: bytes) -> Tuple[int, list]:
    """The numbers of a bank text: grid points, and for each item stimulus, information, log-likelihoods by response."""
    if len(text) > 4194304:
        raise Refused("bank: too long", "too long")
    rows = records(text)
    quantities, grid, responses = shape_of(rows[0] if rows else [])
    width = 3 + quantities + grid + responses * grid
    items = []
    for place, fields in enumerate(rows[1:], 1):
        if len(fields) != width:
            raise Refused("bank: record %d" % place, "record")

        def need(column, value):
            if value is None:
                raise Refused("bank: record %d column %d" % (place, column), "field")
            return value

        if need(0, number(fields[0])) != place - 1:
            need(0, None)
        stimulus = need(1, number(fields[1]))
        categories = need(2, number(fields[2]))
        sizes = [need(c, number(fields[c])) for c in range(3, 3 + quantities)]
        first = 3 + quantities
        info = [need(c, number(fields[c])) for c in range(first, first + grid)]
        first += grid
        own = min(categories, responses) * grid
        loglik = [need(c, signed(fields[c])) for c in range(first, first + own)]
        for column in range(first + own, width):
            need(column, None if fields[column] else 0)
        items.append((stimulus, categories, sizes, info, loglik))
    if not items:
        raise Refused("bank: no items", "bounds")
    if len(items) > 512:
        raise Refused("bank: %d items" % len(items), "bounds")
    for item, (stimulus, categories, sizes, info, loglik) in enumerate(items):
        for word, bad in (
            ("stimulus", stimulus > 64),
            ("categories", not 2 <= categories <= 5),
            ("quantity", any(x > 65535 for x in sizes)),
            ("information", any(x > 1000000 for x in info)),
            ("likelihood", len(loglik) != categories * grid or any(not -10000000 <= x <= 0 for x in loglik)),
        ):
            if bad:
                raise Refused("bank: %s of item %d" % (word, item), "bounds")
    return grid, items


# ---- the items that may be served


def best_forms(items, point, given, barred):
    """The forms of greatest information at a grid point, of those that hold the given items and no barred one."""
    best, result = -1, []
    for form in itertools.combinations(range(len(items)), LENGTH):
        held = set(form)
        if not given <= held or held & barred:
            continue
        if any(not low <= len(held & members) <= high for low, high, members in COUNTS):
            continue
        value = sum(items[i][3][point] for i in form)
        if value > best:
            best, result = value, []
        if value == best:
            result.append(held)
    return result


def allowed_items(items, point, shown):
    """The items that may be served next: ties between forms leave a choice."""
    given = set(shown)
    left = {items[i][0] for i in shown} - {0} - ({items[shown[-1]][0]} if shown else set())
    barred = {i for i in range(len(items)) if i not in given and items[i][0] in left}
    result = set()
    for form in best_forms(items, point, given, barred):
        free = [i for i in form if i not in given]
        if shown and items[shown[-1]][0]:
            free = [i for i in free if items[i][0] == items[shown[-1]][0]] or free
        result.add(min(free, key=lambda i: (-items[i][3][point], i)))
    return result


def estimate(sums):
    return max(range(len(sums)), key=lambda g: (sums[g], -g))


def deviation(items, responses, output):
    """What is wrong with the lines of a run, or None."""
    lines = output.decode("utf-8", "replace").split("\n")
    if len(lines) != LENGTH + 2 or lines[-1] or lines[LENGTH] != "session 0 complete":
        return "printed %r" % output
    sums, shown = list(PRIOR), []
    for step in range(LENGTH):
        words = lines[step].split(" ")
        if words[:5] != ["session", "0", "step", str(step), "item"] or words[6:] != ["proved"]:
            return "line %r" % lines[step]
        item = int(words[5])
        allowed = allowed_items(items, estimate(sums), shown)
        if item not in allowed:
            return "step %d serves item %d, and not one of %s" % (step, item, sorted(allowed))
        grid = len(sums)
        loglik = items[item][4]
        sums = [sums[g] + loglik[responses[step] * grid + g] for g in range(grid)]
        shown.append(item)
    return None


# ---- the runs


def run(program, words, folder):
    journal = os.path.join(folder, "journal")
    if os.path.exists(journal):
        os.remove(journal)
    done = subprocess.run(
        [program] + words,
        cwd=folder,
        env=dict(os.environ, SHADOWD_JOURNAL=journal),
        stdin=subprocess.DEVNULL,
        stdout=subprocess.PIPE,
        stderr=subprocess.DEVNULL,
        timeout=120,
    )
    return done.returncode, done.stdout


def write(folder, name, content):
    path = os.path.join(folder, name)
    with open(path, "wb") as out:
        out.write(content)
    return path


def judge(settings, text, folder):
    """The kind of answer that a text had, and what was wrong with it or None."""
    program, has_check = settings
    bank = write(folder, "bank", text)
    plan = write(folder, "plan", PLAN)
    scripts = []
    for responses in EXAMINEES:
        lines = ["begin 70"] + ["answer 0 %d %d" % (k, r) for k, r in enumerate(responses)]
        scripts.append((responses, "".join(line + "\n" for line in lines).encode()))
    try:
        grid, items = read(text)
    except Refused as fault:
        script = write(folder, "script", scripts[0][1])
        got = run(program, ["replay", bank, plan, script], folder)
        want = (3, fault.line.encode() + b"\n")
        return "refused: " + fault.kind, None if got == want else "wanted %r, got %r" % (want, got)
    if grid != len(PRIOR) or len(items) != 6:
        return "read, of another shape", "no such text is known: grid %d, %d items" % (grid, len(items))
    if has_check:
        status, output = run(program, ["check", bank, plan], folder)
        want = b"bank items %d grid %d quantities %d stimuli %d" % (
            len(items), grid, len(items[0][2]), max(item[0] for item in items))
        if status != 0 or output.split(b"\n")[0] != want:
            return "read", "check: wanted %r, got %r" % (want, (status, output))
    for responses, content in scripts:
        script = write(folder, "script", content)
        status, output = run(program, ["replay", bank, plan, script], folder)
        wrong = "status %d, %r" % (status, output) if status else deviation(items, responses, output)
        if wrong:
            return "read", "responses %s: %s" % (responses, wrong)
    return "read", None


def place_answers(job):
    """All changes of one byte."""
    settings, place = job
    counts, wrong = {}, []
    with tempfile.TemporaryDirectory() as folder:
        for value in range(256):
            if value == BANK[place]:
                continue
            text = BANK[:place] + bytes([value]) + BANK[place + 1:]
            try:
                kind, fault = judge(settings, text, folder)
            except subprocess.TimeoutExpired:
                kind, fault = "no answer", "no answer in 120 s"
            counts[kind] = counts.get(kind, 0) + 1
            if fault:
                wrong.append((place, value, kind, fault))
    return counts, wrong


def main(words: Sequence[str]) -> int:
    rest, plain, has_check, jobs, places, every = list(words), [], False, 4, range(len(BANK)), 1
    while rest:
        word = rest.pop(0)
        if word == "--check":
            has_check = True
        elif word == "--jobs":
            jobs = int(rest.pop(0))
        elif word == "--places":
            low, high = rest.pop(0).split("-")
            places = range(int(low), int(high) + 1)
        elif word == "--every":
            every = int(rest.pop(0))
        else:
            plain.append(word)
    if len(plain) != 1:
        print(__doc__)
        return 2
    settings, places = (os.path.abspath(plain[0]), has_check), places[::every]
    with tempfile.TemporaryDirectory() as folder:
        kind, fault = judge(settings, BANK, folder)
    if fault or kind != "read":
        print("the bank as it is:", kind, fault)
        return 1
    total, faults = {}, []
    with multiprocessing.Pool(jobs) as pool:
        for counts, wrong in pool.imap_unordered(place_answers, [(settings, place) for place in places]):
            for kind, count in counts.items():
                total[kind] = total.get(kind, 0) + count
            for place, value, kind, fault in wrong:
                print("WRONG at byte %d, %02x: %s, %s" % (place, value, kind, fault))
            faults += wrong
    print("bytes %d changes %d" % (len(places), sum(total.values())))
    for kind in sorted(total):
        print("%7d %s" % (total[kind], kind))
    failed = len(faults) if total else 1
    print("%d passed, %d failed" % (sum(total.values()) - len(faults), failed))
    return 1 if failed else 0


command = as_command(main)


if __name__ == "__main__":
    sys.exit(command())
