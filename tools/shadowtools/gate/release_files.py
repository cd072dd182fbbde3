"""The files of a release: entries of an archive, archives whose bytes depend on nothing else, and the files of a commit."""
import dataclasses
import gzip
import hashlib
import io
import os
import subprocess
import tarfile
from typing import Dict, Iterable, List, Sequence

from shadowtools.command import Refused


@dataclasses.dataclass(frozen=True)
class Entry:
    """A file of an archive; a folder where `is_folder`; a symbolic link where `link` has its target. `owner` is user and group."""
    path: str
    data: bytes = b""
    mode: int = 0o644
    link: str = ""
    is_folder: bool = False
    owner: int = 0


def folder(path: str, mode: int = 0o755, owner: int = 0) -> Entry:
    return Entry(path, mode=mode, is_folder=True, owner=owner)


def moved(entries: Iterable[Entry], place: str) -> List[Entry]:
    """The entries below another folder."""
    return [dataclasses.replace(entry, path=f"{place}/{entry.path}") for entry in entries]


def with_folders(entries: Sequence[Entry]) -> List[Entry]:
    """The entries and each folder that they are in, in the order of their paths."""
    found: Dict[str, Entry] = {}
    for entry in entries:
        parts = entry.path.split("/")
        for count in range(1, len(parts)):
            above = "/".join(parts[:count])
            found.setdefault(above, folder(above))
        found[entry.path] = entry
    return [found[path] for path in sorted(found, key=lambda it: it.split("/"))]


def tar_of(entries: Sequence[Entry], moment: int) -> bytes:
    """A tar archive of the entries and their folders; `moment` is the time of each."""
    made = io.BytesIO()
    with tarfile.open(fileobj=made, mode="w", format=tarfile.GNU_FORMAT) as archive:
        for entry in with_folders(entries):
            info = tarfile.TarInfo(entry.path)
            info.mtime, info.mode, info.uid, info.gid, info.size = moment, entry.mode, entry.owner, entry.owner, len(entry.data)
            if entry.is_folder:
                info.type = tarfile.DIRTYPE
            elif entry.link:
                info.type, info.linkname, info.mode = tarfile.SYMTYPE, entry.link, 0o777
            archive.addfile(info, io.BytesIO(entry.data))
    return made.getvalue()


def gzip_of(data: bytes) -> bytes:
    """The data by gzip, without a name and a time."""
    made = io.BytesIO()
    with gzip.GzipFile(filename="", mode="wb", compresslevel=6, fileobj=made, mtime=0) as file:
        file.write(data)
    return made.getvalue()


def laid_out(entries: Sequence[Entry], place: str, moment: int) -> None:
    """Writes the entries, which have no links, below a folder that is there, each with its mode and one time."""
    all_of_them = with_folders(entries)
    for entry in all_of_them:
        path = os.path.join(place, entry.path)
        if entry.is_folder:
            os.mkdir(path)
        else:
            with open(path, "wb") as file:
                file.write(entry.data)
    for entry in reversed(all_of_them):
        path = os.path.join(place, entry.path)
        os.chmod(path, entry.mode)
        os.utime(path, (moment, moment))


def of_commit(top: str, commit: str, *paths: str) -> List[Entry]:
    """The files of a commit, or those below some paths of it."""
    done = subprocess.run(["git", "-C", top, "archive", "--format=tar", commit, "--", *paths], stdin=subprocess.DEVNULL, capture_output=True)
    if done.returncode:
        raise Refused(f"git archive {commit}: {done.stderr.decode(errors='replace').strip()}", "no-commit")
    found = []
    with tarfile.open(fileobj=io.BytesIO(done.stdout)) as archive:
        for info in archive:
            file = archive.extractfile(info) if info.isfile() else None
            if file:
                found.append(Entry(info.name, file.read(), 0o755 if info.mode & 0o100 else 0o644))
    return found


def digest(data: bytes) -> str:
    return hashlib.sha256(data).hexdigest()


def sums_of(entries: Iterable[Entry]) -> str:
    """A line `SHA-256  PATH` for each file, in the order of the bytes of the paths, as `sha256sum` has them."""
    files = sorted((entry for entry in entries if not entry.is_folder and not entry.link), key=lambda it: it.path.encode())
    return "".join(f"{digest(entry.data)}  {entry.path}\n" for entry in files)
