"""What a release is made of: commit, version, program and kit; and the archive that is made of them."""
import dataclasses
import functools
import os
import re
import subprocess
import sys
import tempfile
from typing import List

from shadowtools.command import Refused
from shadowtools.formats.tables import text_of
from shadowtools.gate import release_parties
from shadowtools.gate.gate_record import output_of
from shadowtools.gate.release_files import Entry, digest, gzip_of, laid_out, moved, of_commit, sums_of, tar_of

HERE = os.path.dirname(os.path.abspath(__file__))
DEBIAN_PYTHON = "/usr/bin/python3"
VERSION = re.compile(r'^pub const VERSION: &str = "(\d+\.\d+\.\d+)";$', re.M)
PAGES = ("README.md", "CHANGELOG.md", "docs")
APPEAL = "tools/shadowtools/page/appeal.js"
UNITS = "examples/service/"
# Files of examples/ that only a copy of the repository can run, and the units, which have a folder of their own.
NO_EXAMPLE = re.compile(r"examples/(?:make\.sh|service/.*|.*/tests/.*|.*/run_tests\.py)")


@dataclasses.dataclass(frozen=True)
class Build:
    """What a release is made of. `moment` is the time of the commit, and that of each file; `key` is that of the signature."""
    top: str
    commit: str
    moment: int
    program: bytes
    kit: str
    kit_folder: str
    key: str = ""

    @functools.cached_property
    def files(self) -> List[Entry]:
        return of_commit(self.top, self.commit)

    def file(self, path: str) -> bytes:
        found = [entry.data for entry in self.files if entry.path == path]
        if not found:
            raise Refused(f"{path}: commit {self.commit[:12]} has no such file", "no-file")
        return found[0]

    def text(self, path: str) -> str:
        return self.file(path).decode()

    @property
    def version(self) -> str:
        path = "crates/command_line/src/lib.rt"
        found = VERSION.search(self.text(path))
        if not found:
            raise Refused(f"{path}: it has no line that begins with pub const VERSION", "no-version")
        return found[1]

    @property
    def library(self) -> str:
        """The least version of the C library of GNU that has all that the program calls; empty if it calls none."""
        found = re.findall(rb"\0GLIBC_(\d+)\.(\d+)(?=[\0.])", self.program)
        return "{}.{}".format(*max((int(one), int(two)) for one, two in found)) if found else ""


def build_of(top: str, program: str, kit_folder: str, key: str = "") -> Build:
    """What a release of the commit of a copy and of a program is made of."""
    commit = output_of(top, "git", "rev-parse", "HEAD").strip()
    moment = int(output_of(top, "git", "show", "--no-patch", "--format=%ct", commit))
    with open(program, "rb") as file:
        data = file.read()
    return Build(top, commit, moment, data, text_of(os.path.join(kit_folder, "KIT-ID")).strip(), kit_folder, key)


def own_text(name: str) -> str:
    """A text beside this module."""
    return text_of(os.path.join(HERE, name))


@functools.lru_cache(maxsize=None)
def wheel_maker() -> str:
    """An interpreter that has setuptools and wheel."""
    for interpreter in (sys.executable, DEBIAN_PYTHON):
        if os.path.exists(interpreter) and not subprocess.run([interpreter, "-c", "import setuptools, wheel"], capture_output=True).returncode:
            return interpreter
    raise Refused("the package of the tools needs setuptools and wheel: apt-get install python3-setuptools python3-wheel", "no-setuptools")


def wheel(build: Build) -> Entry:
    """The package of the tools, made by setuptools from the files of the commit."""
    sources = [dataclasses.replace(entry, path=entry.path[len("tools/"):]) for entry in build.files
               if entry.path == "tools/pyproject.toml" or entry.path.startswith("tools/shadowtools/")]
    with tempfile.TemporaryDirectory() as place:
        laid_out(moved(sources, "sources"), place, build.moment)
        environment = dict(os.environ, SOURCE_DATE_EPOCH=str(max(build.moment, 315532800)), PYTHONHASHSEED="0")
        make = "import os, sys; os.umask(0o022); from setuptools import build_meta; print(build_meta.build_wheel(sys.argv[1]))"
        done = subprocess.run([wheel_maker(), "-c", make, place], cwd=os.path.join(place, "sources"), env=environment,
                              stdin=subprocess.DEVNULL, capture_output=True, text=True)
        if done.returncode:
            raise Refused(f"setuptools: {done.stderr.strip().splitlines()[-1]}", "no-wheel")
        name = done.stdout.split()[-1]
        with open(os.path.join(place, name), "rb") as file:
            return Entry(name, file.read())


def release_text(build: Build) -> bytes:
    """The text that says what a release is, and what it is not."""
    signed = (f"Beside the archive, SHA256SUMS is signed by the key {build.key} (SHA256SUMS.asc)." if build.key else
              "Nothing is signed: compare the SHA-256 of the archive with one that you got on another way.")
    library = f"the C library of GNU, version {build.library} or later" if build.library else "no library"
    return own_text("release_text.txt").format(
        version=build.version, commit=build.commit, kit=build.kit, signed=signed, library=library,
        program=digest(build.program), sources=digest(sums_of(build.files).encode())).encode()


def third_party(build: Build) -> bytes:
    crates = release_parties.linked(build.text("crates.txt"), build.kit_folder)
    return release_parties.third_party(build.version, build.kit, [release_parties.party_of(crate, build.kit_folder) for crate in crates]).encode()


def examples(build: Build) -> List[Entry]:
    """The examples, with the small one that README begins with as `examples/first`."""
    data = "crates/shadowd/data/"
    first = [dataclasses.replace(entry, path="examples/first/" + entry.path[len(data):]) for entry in build.files if entry.path.startswith(data)]
    return first + [entry for entry in build.files if entry.path.startswith("examples/") and not NO_EXAMPLE.fullmatch(entry.path)]


def units(build: Build) -> List[Entry]:
    """The units of systemd, by their names."""
    return [dataclasses.replace(entry, path=entry.path[len(UNITS):]) for entry in build.files
            if entry.path.startswith(UNITS) and entry.path.endswith(".service")]


def archive_files(build: Build) -> List[Entry]:
    """The files of the archive, below its one folder."""
    found = [Entry("RELEASE.txt", release_text(build)), Entry("THIRD-PARTY", third_party(build)), Entry("bin/shadowd", build.program, 0o755),
             Entry("man/shadowd.1", build.file("docs/shadowd.1")),
             *moved(units(build), "service"), *moved([wheel(build)], "tools")]
    found += [Entry("tools/appeal.js", entry.data) for entry in build.files if entry.path == APPEAL]
    found += [entry for entry in build.files if entry.path.split("/")[0] in PAGES and entry.path != "docs/shadowd.1"]
    found += examples(build)
    return [*found, Entry("SHA256SUMS", sums_of(found).encode())]


def archive(build: Build) -> Entry:
    name = f"shadowd-{build.version}-linux-x86_64"
    return Entry(name + ".tar.gz", gzip_of(tar_of(moved(archive_files(build), name), build.moment)))
