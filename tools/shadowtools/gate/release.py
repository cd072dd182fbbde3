"""Makes a release of this copy's commit from a full check that has passed: an archive, a Debian package and an image.

usage: release.py FOLDER [--key KEY]

FOLDER must not be there yet. It gets shadowd-VERSION-linux-x86_64.tar.gz, shadowd_VERSION_amd64.deb, shadowd-VERSION-image.tar and
SHA256SUMS. The package and the image are skipped by name where what makes them is not here. With --key, gpg signs SHA256SUMS by the
key of that name (SHA256SUMS.asc).

The full check (.ci/run) leaves a record in .ci/out/gate.json. It has to have passed, for the commit that this copy has and for the
program that is in crates/shadowd/out; a copy with other files than the commit's is refused. Two runs give the same bytes, but for
SHA256SUMS.asc, which has the time of the signature.

Exit status: 0; 1 where the release is refused, and nothing is written then; 2 for other words.
"""
import argparse
import os
import shutil
import subprocess
import sys
import tempfile
from typing import List, Sequence, Tuple

from shadowtools.command import Refused, as_command
from shadowtools.gate import gate_record, release_debian, release_image
from shadowtools.gate.release_build import Build, archive, build_of
from shadowtools.gate.release_files import Entry, sums_of
from shadowtools.options import Options, require_folder
from shadowtools.places import TOP

PROGRAM = os.path.join(TOP, "crates", "shadowd", "out", "shadowd")


def made_of(build: Build) -> Tuple[List[Entry], List[str]]:
    """The files of a release with their sums, and what was skipped, with the reason."""
    found, skipped = [archive(build)], []
    for title, missing, make in (("the Debian package", release_debian.missing(), release_debian.package),
                                 ("the image", release_image.missing(), release_image.image)):
        if missing:
            skipped.append(f"{title}: {', '.join(missing)} is not here")
        else:
            found.append(make(build))
    return [*found, Entry("SHA256SUMS", sums_of(found).encode())], skipped


def sign(place: str, key: str) -> None:
    words = ["gpg", "--batch", "--local-user", key, "--armor", "--output", "SHA256SUMS.asc", "--detach-sign", "SHA256SUMS"]
    try:
        done = subprocess.run(words, cwd=place, stdin=subprocess.DEVNULL, capture_output=True, text=True)
    except OSError as fault:
        raise Refused(f"--key {key}: gpg: {fault.strerror}", "no-gpg") from fault
    if done.returncode:
        raise Refused(f"--key {key}: {(done.stderr.strip().splitlines() or ['gpg ended with a fault'])[-1]}", "not-signed")


def write(files: Sequence[Entry], place: str, key: str) -> None:
    """Writes the files into a folder that is not there yet: all of them, or none."""
    part = tempfile.mkdtemp(prefix=".release-", dir=os.path.dirname(os.path.abspath(place)))
    try:
        for entry in files:
            with open(os.path.join(part, entry.path), "wb") as file:
                file.write(entry.data)
        if key:
            sign(part, key)
        os.chmod(part, 0o755)
        os.rename(part, place)
    except BaseException:
        shutil.rmtree(part)
        raise


def kit_folder() -> str:
    return os.path.dirname(gate_record.output_of(TOP, "rt", "doc").strip())


def options_of(words: Sequence[str]) -> argparse.Namespace:
    options = Options(__doc__)
    options.add_argument("folder", nargs="?")
    options.add_argument("--key", default="")
    return options.read(words, lambda found: bool(found.folder))


def main(words: Sequence[str]) -> int:
    found = options_of(words)
    record = gate_record.green(TOP, PROGRAM)
    if os.path.exists(found.folder):
        raise Refused(f"{found.folder}: it is there already", "is-there")
    require_folder("FOLDER", found.folder)
    build = build_of(TOP, PROGRAM, kit_folder(), found.key)
    if build.kit != record.kit:
        raise Refused(f"the full check is of {record.kit}, and the kit here is {build.kit}", "other-kit")
    files, skipped = made_of(build)
    write(files, found.folder, found.key)
    print(f"shadowd {build.version}, commit {build.commit[:12]}: {record.passed} passed, {record.failed} failed at {record.ended}")
    print("".join(f"skipped: {reason}\n" for reason in skipped) + files[-1].data.decode(), end="")
    print(f"signed by {found.key}" if found.key else "not signed: no --key")
    return 0


command = as_command(main)


if __name__ == "__main__":
    sys.exit(command())
