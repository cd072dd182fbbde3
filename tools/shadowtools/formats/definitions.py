"""The definitions of the crates and what each of them cites, read from `specs/*.antt` and from the declarations in `src/*.rt`.

Names are followed by the imports of the file in which they occur, and not by types. A name that a parameter hides is followed too, so
what is reached may be a little more than what a contract needs, and is never less.
"""
import dataclasses
import functools
import os
import re
from typing import Dict, Iterable, List, Mapping, Optional, Tuple

from shadowtools.command import Refused
from shadowtools.places import TOP

CRATES = os.path.join(TOP, "crates")
HEAD = re.compile(r"^( *)(?:abbrev pub|unfoldable pub|pub record|pub data|record|data|abbrev|unfoldable) ([^\s:({]+)")
IMPORT = re.compile(r"^(?:ghost )?use Rattle\.([\w.+]+)(?:\.\{([^}]*)\}| as (\w+))", re.M)
NAME = re.compile(r"[A-Za-z_][A-Za-z0-9_']*|◌[^\s◌]+◌")

Key = Tuple[str, str, str]  # crate, module, name


@dataclasses.dataclass
class Definition:
    """One definition: where it is, its comment (one line), its text, the parameters of the section that it is in, and the keys of what
    it cites, in the order of the text."""
    key: Key
    comment: str
    text: str
    path: str
    section: str = ""
    cites: List[Key] = dataclasses.field(default_factory=list)

    @property
    def is_declared(self) -> bool:
        return self.key[1].startswith("declared.")


def text_of(path: str) -> str:
    with open(path, encoding="utf-8") as file:
        return file.read()


def crates() -> List[str]:
    """The crates of crates.txt, the lowest first."""
    lines = [line.split("#")[0].split(":")[0].split() for line in text_of(os.path.join(TOP, "crates.txt")).splitlines()]
    return [words[0] for words in lines if words]


@functools.lru_cache(maxsize=None)
def imports_of(text: str) -> Mapping[str, Key]:
    """The names that a file brings in: each with the crate, the module and the name there."""
    found: Dict[str, Key] = {}
    for path, names, alias in IMPORT.findall(text):
        crate, _, rest = path.partition(".")
        if alias:
            found[alias + "."] = (crate, rest.replace("specs.", "", 1), "")
            continue
        for name in filter(None, (it.strip() for it in names.split(","))):
            there, _, here = name.partition(" as ")
            found[here.strip() or there.strip()] = (crate, rest.replace("specs.", "", 1), there.strip())
    return found


def block_from(lines: List[str], at: int) -> int:
    """The line after the definition that begins at a line: the next one that is no deeper and begins something else."""
    indent = len(lines[at]) - len(lines[at].lstrip())
    end = at + 1
    while end < len(lines):
        deep = len(lines[end]) - len(lines[end].lstrip())
        if lines[end].strip() and deep <= indent and (HEAD.match(lines[end]) or lines[end].lstrip().startswith(("--", "infix", "module _"))):
            break
        end += 1
    return end


def blocks_of(text: str) -> Iterable[Tuple[str, str, str, str]]:
    """The name, the comment, the text and the section's parameters of each definition of a specs file."""
    comment: List[str] = []
    lines, at, section = text.splitlines(), 0, ""
    while at < len(lines):
        line, found = lines[at], HEAD.match(lines[at])
        end = at + 1
        if line.lstrip().startswith("--"):
            comment.append(line.strip().lstrip("-").strip())
        elif line.startswith("module _"):
            while not lines[end - 1].rstrip().endswith("where"):
                end += 1
            section = "\n".join(lines[at:end])
        elif found:
            end = block_from(lines, at)
            yield found.group(2), " ".join(filter(None, comment)), "\n".join(lines[at:end]).rstrip(), section if found.group(1) else ""
        if not line.lstrip().startswith(("--", "infix")):
            comment = []
        at = end


def depth(line: str) -> int:
    return len(line) - len(line.lstrip())


def parts_of(definition: Definition) -> Tuple[str, List[Tuple[str, str]]]:
    """The head of a definition, and its parts: the fields of a record, the cases of a `data`, or the equations of a function. Each part has
    what it begins with, without `pub`, and its text. Comments are left out."""
    lines = [line for line in (re.sub(r"--.*", "", it) for it in definition.text.splitlines()) if line.strip()]
    if re.match(r" *(?:pub )?(?:record|data) ", lines[0]):
        first = next(at for at, line in enumerate(lines) if line.rstrip().endswith("where")) + 1
        deep = min((depth(line) for line in lines[first:]), default=0)
        starts = [at for at in range(first, len(lines)) if depth(lines[at]) == deep]
    else:
        deep, name = depth(lines[0]), definition.key[2]
        starts = [at for at in range(1, len(lines)) if depth(lines[at]) == deep and lines[at].split()[:1] == [name]]
    ends = starts[1:] + [len(lines)]
    texts = ["\n".join(lines[at:end]) for at, end in zip(starts, ends)]
    return "\n".join(lines[:starts[0]] if starts else lines), [(text.strip().removeprefix("pub "), text) for text in texts]


def constructors_of(text: str) -> List[str]:
    """The constructors of a `data` block."""
    return re.findall(r"^ +(?:pub )?([A-Z]\w*) :", text, re.M) if "data " in text.split("\n", 1)[0] else []


def declarations_of(path: str) -> Iterable[Tuple[str, str, str]]:
    """The name, the comment and the text of each struct and enum of a source file."""
    lines = text_of(path).splitlines()
    for at, line in enumerate(lines):
        found = re.match(r"pub (?:struct|enum|trait) (\w+)", line)
        if not found:
            continue
        end = at
        while end < len(lines) and not lines[end].startswith("}") and not lines[at].rstrip().endswith(";"):
            end += 1
        before = at - 1
        while before >= 0 and lines[before].startswith(("///", "#[")):
            before -= 1
        said = " ".join(it[3:].strip() for it in lines[before + 1:at] if it.startswith("///"))
        yield found.group(1), said, "\n".join(lines[at:end + 1])


class Library:
    """All definitions of the repository, by key."""

    def __init__(self) -> None:
        self.definitions: Dict[Key, Definition] = {}
        self.order: List[Key] = []
        self._homes: Dict[Key, Key] = {}
        for crate in crates():
            self._read_specs(crate)
            self._read_declarations(crate)
        for definition in self.definitions.values():
            definition.cites = self.cited(definition)

    def _add(self, definition: Definition, names: Iterable[str]) -> None:
        self.definitions[definition.key] = definition
        self.order.append(definition.key)
        for name in names:
            self._homes[(definition.key[0], definition.key[1], name)] = definition.key

    def _read_specs(self, crate: str) -> None:
        folder = os.path.join(CRATES, crate, "specs")
        if not os.path.isfile(os.path.join(folder, "Lib.antt")):
            return
        for module in re.findall(r"^pub mod (\w+)", text_of(os.path.join(folder, "Lib.antt")), re.M):
            path = os.path.join(folder, f"{module}.antt")
            for name, comment, text, section in blocks_of(text_of(path)):
                made = Definition((crate, module, name), comment, text, path, section)
                self._add(made, [name, *constructors_of(text)])

    def _read_declarations(self, crate: str) -> None:
        folder = os.path.join(CRATES, crate, "src")
        for at, _, files in sorted(os.walk(folder)):
            for file in sorted(it for it in files if it.endswith(".rt")):
                path = os.path.join(at, file)
                module = os.path.relpath(path, folder)[:-3].replace(os.sep, ".")
                for name, comment, text in declarations_of(path):
                    made = Definition((crate, f"declared.{name}", name), comment, text, path)
                    self._add(made, [name, *re.findall(r"^    ([A-Z]\w*)", text, re.M)])
                    self._homes.setdefault((crate, f"declared.{module}", name), made.key)

    def home(self, key: Key) -> Optional[Key]:
        """The definition that a name means: itself, the data of a constructor, or the type of a declared name."""
        crate, module, name = key
        if key in self._homes:
            return self._homes[key]
        if module.startswith("declared."):
            parts = [it for it in module.split(".")[1:] if it != "TheVariants"]
            for owner in reversed(parts + [name]):
                found = self._homes.get((crate, f"declared.{owner}", owner))
                if found:
                    return found
        return None

    def names_in(self, text: str, imports: Mapping[str, Key], crate: str, module: str) -> List[Key]:
        """The keys of the definitions that a text names, in its order and each once."""
        found: List[Key] = []
        for match in NAME.finditer(text):
            name, start = match.group(), match.start()
            if start and text[start - 1] == "." and not text[start - 2:start - 1].isspace():
                prefix = re.search(r"(\w+)\.$", text[max(start - 100, 0):start])
                key = imports.get(prefix.group(1) + ".") if prefix else None
                meant = self.home((key[0], key[1], name)) if key else None
            else:
                meant = self.home(imports[name]) if name in imports else self.home((crate, module, name))
            if meant and meant not in found:
                found.append(meant)
        for name, key in imports.items():
            operator = name.strip("◌")
            meant = self.home(key) if name.startswith("◌") else None
            if meant and meant not in found and f" {operator} " in text:
                found.append(meant)
        return found

    def cited(self, definition: Definition) -> List[Key]:
        """What a definition cites. A declared type cites the declared types of its fields."""
        crate, module, _ = definition.key
        if definition.is_declared:
            whole = text_of(definition.path)
            local = {name: key for name, key in imports_of(whole).items()}
            for path, names in re.findall(r"^use (\w+)::(?:\w+::)*\{?([\w, ]+)\}?;", whole, re.M):
                home = crate if path == "crate" else path
                local.update({it.strip(): (home, f"declared.{it.strip()}", it.strip()) for it in names.split(",") if it.strip()})
            body = re.sub(r"//[^\n]*", "", definition.text)
            cites = self.names_in(body, local, crate, "declared")
            words = set(re.findall(r"\b[A-Z]\w+\b", body))
            beside = [(crate, f"declared.{it}", it) for it in sorted(words)]
            cites += [key for key in map(self.home, beside) if key and key not in cites]
        else:
            body = re.sub(r"--[^\n]*", "", definition.section + "\n" + definition.text)
            cites = self.names_in(body, imports_of(text_of(definition.path)), crate, module)
        return [key for key in cites if key != definition.key]

    def cited_in_part(self, key: Key, begins: Iterable[str]) -> List[Key]:
        """What the head of a definition cites, and those of its parts that begin with one of these texts."""
        definition = self.definitions[key]
        head, parts = parts_of(definition)
        chosen = [definition.section, head]
        for text in begins:
            found = [part for label, part in parts if re.match(re.escape(text) + r"(?!\w)", label)]
            if not found:
                raise Refused(f"{key[0]}/{key[1]}: {key[2]} has no part that begins with '{text}'")
            chosen += found
        cites = self.names_in("\n".join(chosen), imports_of(text_of(definition.path)), key[0], key[1])
        return [it for it in cites if it != key]

    def named(self, words: str) -> Key:
        """The definition of a crate's name, `crate Name` or, where the crate has two of that name, `crate Module.Name`."""
        found = self.matching(words)
        if len(found) != 1:
            raise Refused(f"{words}: {len(found)} definitions have this name, and one is needed")
        return found[0]

    def matching(self, words: str) -> List[Key]:
        """The definitions of a name; its module, and its crate, may be left out."""
        crate, _, name = words.rpartition(" ")
        module, _, last = name.rpartition(".")
        return [key for key in self.definitions if crate in ("", key[0]) and key[2] == last and module in ("", key[1])]

    def contract(self, crate: str, file: str, function: str) -> Tuple[str, List[Key]]:
        """The text of a public function up to its body without the promises of docs/PROMISES.md, and what its contract cites."""
        path = os.path.join(CRATES, crate, "src", file)
        text = re.sub(r"^ *// Promise: .*\n(?: *//(?!/).*\n)*", "", text_of(path), flags=re.M)
        found = re.search(rf"^((?:    )?)pub fn {function}\b.*?^\1\{{", text, re.M | re.S)
        if not found:
            raise LookupError(f"{crate}/src/{file} has no public function {function}")
        contract = found.group()[:-1].rstrip()
        return contract, self.cited_by_code(contract, text, crate)

    def cited_by_code(self, part: str, whole: str, crate: str) -> List[Key]:
        """What a part of a source file cites, by the imports of the file and the types declared in it."""
        local = dict(imports_of(whole))
        for home, names in re.findall(r"^use (\w+)::(?:\w+::)*\{?([\w, ]+)\}?;", whole, re.M):
            for name in filter(None, (it.strip() for it in names.split(","))):
                local.setdefault(name, (crate if home == "crate" else home, f"declared.{name}", name))
        for name in re.findall(r"^pub (?:struct|enum|trait) (\w+)", whole, re.M):
            local.setdefault(name, (crate, f"declared.{name}", name))
        return self.names_in(re.sub(r"//[^\n]*", "", part), local, crate, "")

    def closure(self, keys: Iterable[Key], in_part: Optional[Dict[Key, List[Key]]] = None) -> List[Key]:
        """The keys and all that is reached from them, in the order in which each is first reached. A definition that is read in part
        leads only to what it is given here."""
        found, waiting = [], list(keys)
        seen = set(waiting)
        while waiting:
            key = waiting.pop(0)
            found.append(key)
            cites = self.definitions[key].cites
            for next_one in in_part.get(key, cites) if in_part else cites:
                if next_one not in seen:
                    seen.add(next_one)
                    waiting.append(next_one)
        return found
