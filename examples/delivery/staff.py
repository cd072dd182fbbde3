#!/usr/bin/env python3
"""The users of the control room, from a file of TOML: a name, a role and a password, which is kept as what scrypt makes of it.

usage: staff.py FILE USER look|act      adds a user, or changes one; the password is the first line of the input, or is asked for

    [users.anna]
    role = "act"                        look sees everything, act may change something, too
    password = "16384:8:5:SALT:HASH"    the cost of scrypt, and both in hexadecimal
"""
import collections
import getpass
import hashlib
import hmac
import json
import os
import re
import secrets
import sys
import time
from typing import NamedTuple

from settings import BadInput, read_table

ROLES = ("look", "act")
USER, PASSWORD = re.compile(r"[a-z][a-z0-9_-]{0,39}"), re.compile(r"(1024|16384|32768|65536):8:([1-9]):([0-9a-f]{32}):([0-9a-f]{64})")
WRONG, WAIT = 10, 60  # wrong passwords of a user from an address, and the seconds of the wait after them
LEAST = 12  # characters of a password


class User(NamedTuple):
    name: str
    role: str
    password: str


def kept(password, cost=16384, parallel=5, salt=None):
    """What a file has of a password."""
    salt = salt or secrets.token_bytes(16)
    found = hashlib.scrypt(password.encode(), salt=salt, n=cost, r=8, p=parallel, maxmem=2**27, dklen=32)
    return f"{cost}:8:{parallel}:{salt.hex()}:{found.hex()}"


NOBODY = User("", "look", kept(secrets.token_hex(16)))  # a name that is none takes as long as one that is


def is_password(user, password):
    cost, parallel, salt, _ = PASSWORD.fullmatch(user.password).groups()
    return hmac.compare_digest(kept(password, int(cost), int(parallel), bytes.fromhex(salt)), user.password)


def read_users(path):
    """The users of a file by name."""
    table = read_table(path)
    entries = table.get("users")
    if set(table) != {"users"} or not isinstance(entries, dict) or not entries:
        raise BadInput(f"{path}: it has users, as [users.anna], and nothing else")
    for name, entry in entries.items():
        if not USER.fullmatch(name) or not isinstance(entry, dict) or set(entry) != {"role", "password"}:
            raise BadInput(f"{path}: {name!r} is no user with a role and a password")
        if entry["role"] not in ROLES or not isinstance(entry["password"], str) or not PASSWORD.fullmatch(entry["password"]):
            raise BadInput(f"{path}: the user {name} has another role than look or act, or a password that staff.py did not write")
    return {name: User(name, **entry) for name, entry in entries.items()}


class Door:
    """Lets users in. After ten wrong passwords of a user from an address there is a minute's wait for both together."""

    def __init__(self, users, now=time.monotonic):
        self.users, self.now, self.wrong = users, now, collections.OrderedDict()

    def must_wait(self, name, address):
        times = self.wrong.get((name, address), ())
        return len(times) >= WRONG and self.now() - times[-1] < WAIT

    def user(self, name, password, address):
        """The user of a name and a password, or None."""
        found = self.users.get(name, NOBODY)
        if is_password(found, password) and found is not NOBODY:
            self.wrong.pop((name, address), None)
            return found
        times = self.wrong.setdefault((name, address), collections.deque(maxlen=WRONG))
        if times and self.now() - times[-1] >= WAIT:
            times.clear()
        times.append(self.now())
        while len(self.wrong) > 10_000:
            self.wrong.popitem(last=False)
        return None


def write_users(path, users):
    """Writes the file anew, beside the old one, which it takes the place of."""
    beside = path + ".new"
    with open(os.open(beside, os.O_CREAT | os.O_TRUNC | os.O_WRONLY, 0o600), "w", encoding="utf-8") as file:
        for user in users.values():
            file.write(f"[users.{user.name}]\nrole = {json.dumps(user.role)}\npassword = {json.dumps(user.password)}\n\n")
        file.flush()
        os.fsync(file.fileno())
    os.replace(beside, path)


def main(words):
    if len(words) != 3 or not USER.fullmatch(words[1]) or words[2] not in ROLES:
        print(__doc__.split("\n\n")[1], file=sys.stderr)
        return 2
    path, name, role = words
    try:
        users = read_users(path) if os.path.exists(path) else {}
        password = getpass.getpass(f"The password of {name}: ") if sys.stdin.isatty() else sys.stdin.readline().rstrip("\n")
        if len(password) < LEAST:
            raise BadInput(f"a password has {LEAST} characters or more; nothing was changed")
        write_users(path, users | {name: User(name, role, kept(password))})
    except (BadInput, OSError) as error:
        print(error, file=sys.stderr)
        return 1
    return 0


if __name__ == "__main__":
    sys.exit(main(sys.argv[1:]))
