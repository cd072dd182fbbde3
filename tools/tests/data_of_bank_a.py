"""The example of the README: bank A, its plan, script and replies, as the page has them."""
import hashlib

BANK = """item,stimulus,categories,i0,i1,i2,l0_0,l0_1,l0_2,l1_0,l1_1,l1_2
0,0,2,9,5,1,-7,-7,-7,-7,-7,-7
1,0,2,7,8,2,-7,-7,-7,-7,-7,-7
2,0,2,4,9,3,-7,-7,-7,-30,-15,-1
3,0,2,2,6,8,-7,-7,-7,-7,-7,-7
4,0,2,1,4,9,0,-1,-20,-7,-7,-7
5,0,2,3,7,5,-7,-7,-7,-7,-7,-7
"""
PLAN = """length 3
prior -10 0 -10
# row 0: exactly one of items 0 and 1
count 1 1 0-1
count 0 1 2 5
"""
SCRIPT = """begin 70
answer 0 0 1
answer 0 1 0
begin 71
answer 0 2 1
answer 1 0 2
exposure
"""
LINES = """session 0 step 0 item 2 proved
session 0 step 1 item 4 proved
session 0 step 2 item 1 proved
session 1 step 0 item 2 proved
session 0 complete
refused bad-response 2
exposure finished 1
item 0 shown 0 eligible 1
item 1 shown 1 eligible 1
item 2 shown 1 eligible 1
item 3 shown 0 eligible 1
item 4 shown 1 eligible 1
item 5 shown 0 eligible 1
"""


def scale_map(unit=1.0):
    """A map for bank A: points -1, 0 and 1. Its numbers are of no model of an item, and the README's plan doesn't name it: it is
    taken with --unbound alone."""
    return {"theta": [-1.0, 0.0, 1.0], "D": 1.0, "information_unit": 1.0, "log_unit": unit, "prior": ["flat"],
            "length": 3, "quantities": [], "passages": [],
            "sha256": {"bank": hashlib.sha256(BANK.encode()).hexdigest(), "plan": hashlib.sha256(PLAN.encode()).hexdigest()},
            "items": [{"number": k, "id": f"I{k}", "model": "TABLE", "parameters": [], "passage": 0,
                       "attributes": {}} for k in range(6)]}


def item_set(items):
    """A set of items as a journal has it."""
    return sum(1 << item for item in items).to_bytes(64, "little")


def started(session, booking, sets=(range(6),)):
    """A start, with the eligible items of each band."""
    head = b"\6" + session.to_bytes(4, "big") + booking.to_bytes(8, "big")
    return head + bytes([len(sets)]) + b"".join(map(item_set, sets))


def started_without(session, booking, without, form, sets=(range(6),)):
    """A start with a list of items that the examinee must not get, and a form."""
    return b"\x09" + started(session, booking, sets)[1:] + item_set(without) + item_set(form)


def set_aside(session, step, band, cause, nodes, tree):
    """Eligibility set aside."""
    head = b"\7" + session.to_bytes(4, "big") + step.to_bytes(2, "big")
    return head + bytes([band, cause]) + nodes.to_bytes(2, "big") + tree


def old_started(session, booking, eligible=range(6)):
    """A start as version 1 has it, with the eligible items of the first estimate's band."""
    return b"\1" + session.to_bytes(4, "big") + booking.to_bytes(8, "big") + item_set(eligible)


def old_set_aside(session, cause, nodes, tree):
    """The same of eligibility set aside."""
    return b"\2" + session.to_bytes(4, "big") + bytes([cause]) + nodes.to_bytes(2, "big") + tree


def served(session, step, item, form, proved=True, tree=bytes.fromhex("000600"), nodes=1):
    head = b"\3" + session.to_bytes(4, "big") + step.to_bytes(2, "big") + item.to_bytes(2, "big") + item_set(form)
    return head + bytes([proved]) + nodes.to_bytes(2, "big") + tree


def answered(session, step, response):
    return b"\4" + session.to_bytes(4, "big") + step.to_bytes(2, "big") + bytes([response])


def closed(session):
    return b"\5" + session.to_bytes(4, "big")


def history():
    """The records of the script. A tree shows that no other form is better; tools/check_tree.py checks it."""
    first, later = bytes.fromhex("0100010003000000410300"), bytes.fromhex("0100020000000005040003000000410300")
    return [started(0, 70), served(0, 0, 2, {1, 2, 3}, tree=first), answered(0, 0, 1),
            served(0, 1, 4, {1, 2, 4}, tree=later), answered(0, 1, 0), served(0, 2, 1, {1, 2, 4}, tree=later),
            started(1, 71), served(1, 0, 2, {1, 2, 3}, tree=first), answered(0, 2, 1)]


def journal(payloads):
    """A journal of these payloads."""
    return b"SHADOWJ2" + b"".join(b"\1" + len(p).to_bytes(4, "big") + p for p in payloads) + b"\0"
