"""The settings of one examination, from a file of TOML. Paths are relative to the folder of that file.

Each setting has a kind, which refuses every other value with the line of the file. All of it is read before a port is opened.
"""
import dataclasses
import math
import os
import re
import tomllib
from dataclasses import dataclass


class BadInput(Exception):
    """A file cannot be taken; the text names it and what is wrong in it."""


class WrongValue(Exception):
    """A value is not of the kind of its setting; the text has what it has to be."""


def is_number(value):
    return type(value) in (int, float) and math.isfinite(value)


def text(value):
    if not isinstance(value, str) or not value.strip():
        raise WrongValue("a text in quotes that is not empty")
    return value


def address(value):
    host, _, port = value.rpartition(":") if isinstance(value, str) else ("", "", "")
    if not host or not re.fullmatch(r"[1-9][0-9]{0,4}", port) or int(port) > 65535:
        raise WrongValue('an address and a port in quotes, as "127.0.0.1:8080"')
    return value


def truth(value):
    if not isinstance(value, bool):
        raise WrongValue("true or false, without quotes")
    return value


def scale(value):
    if not isinstance(value, list) or len(value) != 2 or not all(map(is_number, value)) or value[1] <= 0:
        raise WrongValue("two numbers, as [500, 100], of which the second is above 0")
    return tuple(map(float, value))


def whole(low, high):
    def kind(value):
        if type(value) is not int or not low <= value <= high:
            raise WrongValue(f"a whole number from {low} to {high}")
        return value
    return kind


def number(low, high):
    def kind(value):
        if not is_number(value) or not low <= value <= high:
            raise WrongValue(f"a number from {low:g} to {high:g}")
        return float(value)
    return kind


def one_of(*words):
    def kind(value):
        if value not in words or not isinstance(value, str):
            raise WrongValue("one of " + ", ".join(f'"{word}"' for word in words))
        return value
    return kind


def path(value):
    return text(value)


def setting(kind, default=dataclasses.MISSING):
    return dataclasses.field(default=default, metadata={"kind": kind})


@dataclass(frozen=True, kw_only=True)
class Settings:
    title: str = setting(text)
    listen: str = setting(address)  # of the application
    control_listen: str = setting(address)  # of the control room
    server: str = setting(address)  # of shadowd
    program: str = setting(path)  # shadowd itself, for the audit of a copy of the journal
    bank: str = setting(path)
    plan: str = setting(path)
    map: str = setting(path)
    texts: str = setting(path)  # folder with one file an item
    journal: str = setting(path)
    store: str = setting(path)  # the application's own file: codes, seats, answers on their way
    secret: str = setting(path)  # file with the key of cookies and codes
    staff: str = setting(path, "")  # file with the users of the control room, which staff.py writes
    staff_password: str = setting(path, "")  # file with the password of a user `staff`, who looks alone
    token: str = setting(path, "")  # file with the token of shadowd; else SHADOWD_TOKEN of the environment, if it is set
    connections: int = setting(whole(1, 250), 12)  # requests to shadowd at a time; with the control room's 2 fewer than its workers
    patience: float = setting(number(0.1, 600), 5.0)  # seconds for a reply of shadowd, three times
    minutes: float = setting(number(0, 10_000), 0.0)  # of a test, by the clock of this machine; 0 is no limit
    language: str = setting(one_of("en", "de"), "en")  # of the pages for examinees
    show_score: bool = setting(truth, False)
    estimate: str = setting(one_of("eap", "mode"), "eap")  # of the score that is shown; tools/score.py has two more
    scale: tuple = setting(scale, (0.0, 1.0))  # the reported score is A + B * ability
    secure_cookies: bool = setting(truth, True)  # false only without TLS, on the loopback address
    proxy: str = setting(text, "")  # address of a proxy whose X-Forwarded fields are believed

    def secret_of(self, name):
        """The secret that a file has."""
        with open(getattr(self, name), encoding="utf-8") as file:
            found = file.read().strip()
        if len(found) < 16:
            raise BadInput(f"{getattr(self, name)}: fewer than 16 characters")
        return found

    def server_token(self):
        """The token that requests to shadowd have, empty if they have none."""
        found = self.secret_of("token") if self.token else os.environ.get("SHADOWD_TOKEN", "")
        if not all(33 <= ord(one) <= 126 for one in found) or len(found) > 1024:
            raise BadInput(f"{self.token or 'SHADOWD_TOKEN'}: a token has at most 1,024 characters of ASCII, and no space")
        return found


def read_text(path_of_file):
    try:
        with open(path_of_file, encoding="utf-8") as file:
            return file.read()
    except (OSError, ValueError) as error:
        raise BadInput(f"{path_of_file}: {error}") from error


def read_table(path_of_file):
    """The table of a file of TOML."""
    try:
        return tomllib.loads(read_text(path_of_file))
    except tomllib.TOMLDecodeError as error:
        raise BadInput(f"{path_of_file}: {error}") from error


def line_of(source, name):
    """Where a text of TOML gives a name its value, as ` line N`; empty if no line begins with it."""
    begins = re.compile(rf"\s*\[*\s*[\"']?{re.escape(name)}[\"']?\s*[=.\]]")
    lines = (number for number, line in enumerate(source.split("\n"), 1) if begins.match(line))
    return next((f" line {number}" for number in lines), "")


def fields_of(kinds, found, source, path_of_file, folder):
    """The entries of a table as a dataclass whose fields have kinds. The source has the lines that a refusal names."""
    fields, values = {field.name: field for field in dataclasses.fields(kinds)}, {}
    for name, value in found.items():
        where = f"{path_of_file}{line_of(source, name)}: {name}"
        if name not in fields:
            raise BadInput(f"{where} is no setting")
        kind = fields[name].metadata["kind"]
        if value == fields[name].default == "":  # as if it was left out
            continue
        try:
            values[name] = kind(value)
        except WrongValue as wrong:
            raise BadInput(f"{where} has to be {wrong}") from wrong
        if kind is path:
            values[name] = os.path.join(folder, value)
    missing = [name for name, field in fields.items() if field.default is dataclasses.MISSING and name not in values]
    if missing:
        raise BadInput(f"{path_of_file}: missing {', '.join(missing)}")
    return kinds(**values)


def read_settings(path_of_file):
    folder = os.path.dirname(os.path.abspath(path_of_file))
    return fields_of(Settings, read_table(path_of_file), read_text(path_of_file), path_of_file, folder)
