"""The settings of the adapter, and of each examination that it leads to."""
import dataclasses
import os
from dataclasses import dataclass

from settings import BadInput, WrongValue, address, fields_of, number, path, read_table, read_text, setting, text, whole


def names(value):
    if not isinstance(value, list) or not all(isinstance(one, str) and one for one in value):
        raise WrongValue("a list of names in quotes")
    return frozenset(value)


def tables(value):
    if not isinstance(value, dict) or not value or not all(isinstance(one, dict) for one in value.values()):
        raise WrongValue("a table for each examination, as [examinations.NAME]")
    return value


@dataclass(frozen=True, kw_only=True)
class ExaminationSettings:
    """An examination that a server serves, with bookings that are the adapter's own from `first_booking` on."""
    server: str = setting(address)  # of shadowd
    bank: str = setting(path)
    plan: str = setting(path)
    map: str = setting(path)
    program: str = setting(path, "")  # shadowd itself; with it bank and plan are checked by it at the start
    texts: str = setting(path, "")  # folder with one file an item; without it results need a score
    server_token: str = setting(path, "")  # file with the token of shadowd
    first_booking: int = setting(whole(0, 2**62), 1)
    connections: int = setting(whole(1, 250), 12)
    patience: float = setting(number(0.1, 600), 5.0)


@dataclass(frozen=True, kw_only=True)
class AdapterSettings:
    listen: str = setting(address)
    store: str = setting(path)  # the adapter's own file: sections, sessions, and what was answered
    key: str = setting(path)  # file with the key of session states
    token: str = setting(path)  # file with the token that players send
    examinations: dict = setting(tables)
    ignored: frozenset = setting(names, frozenset())  # members that are passed over, in place of being refused
    proxy: str = setting(text, "")


def read_adapter_settings(path_of_file):
    found, source = read_table(path_of_file), read_text(path_of_file)
    folder = os.path.dirname(os.path.abspath(path_of_file))
    settings = fields_of(AdapterSettings, found, source, path_of_file, folder)
    examinations = {name: fields_of(ExaminationSettings, table, from_table(source, name), path_of_file, folder)
                    for name, table in settings.examinations.items()}
    return dataclasses.replace(settings, examinations=examinations)


def from_table(source, name):
    """The text of a file from the table of an examination on, with empty lines in place of those before it."""
    lines = source.split("\n")
    begins = next((at for at, line in enumerate(lines) if line.replace('"', "").strip() == f"[examinations.{name}]"), 0)
    return "\n" * begins + "\n".join(lines[begins:])


def secret_of(path_of_file):
    """The secret that a file has, as bytes of ASCII."""
    found = read_text(path_of_file).strip()
    if not 16 <= len(found) <= 1024 or not all(33 <= ord(one) <= 126 for one in found):
        raise BadInput(f"{path_of_file}: a secret has 16 to 1,024 characters of ASCII, and no space")
    return found
