"""The Debian package of a release, made by dpkg-deb."""
import dataclasses
import os
import shutil
import subprocess
import tempfile
from typing import List

from shadowtools.command import Refused
from shadowtools.gate.release_build import Build, examples, own_text, release_text, third_party, units
from shadowtools.gate.release_files import Entry, folder, gzip_of, laid_out, moved

NEEDS = ("dpkg-deb", "dpkg-shlibdeps")
MAINTAINER = "Lumdarvo maintainers <maintainers@users.noreply.lumdarvo.example>"
SETTINGS = "etc/default/shadowd"
SCRIPTS = ("postinst", "prerm", "postrm")
CONTROL = """Package: shadowd
Version: {version}
Architecture: amd64
Maintainer: {maintainer}
Installed-Size: {size}
Depends: {depends}
Section: misc
Priority: optional
Description: server for computerized adaptive tests
 Each examinee gets a test that keeps every rule of a blueprint. Each item comes from
 a form that is proved best, or is marked unproved. The package has the program, its
 manual page, units of systemd and examples.
"""


def missing() -> List[str]:
    return [name for name in NEEDS if not shutil.which(name)]


def files(build: Build) -> List[Entry]:
    """The files that the package installs."""
    own = [dataclasses.replace(unit, data=unit.data.replace(b"/usr/local/bin/", b"/usr/bin/")) for unit in units(build)]
    pages = "usr/share/doc/shadowd"
    return [Entry("usr/bin/shadowd", build.program, 0o755), *moved(own, "lib/systemd/system"),
            Entry("usr/share/man/man1/shadowd.1.gz", gzip_of(build.file("docs/shadowd.1"))), Entry(SETTINGS, own_text("release_settings.txt").encode()),
            folder("etc/shadowd", 0o750), folder("var/lib/shadowd", 0o700),
            Entry(f"{pages}/copyright", own_text("release_copyright.txt").format(version=build.version).encode()),
            Entry(f"{pages}/changelog.gz", gzip_of(build.file("CHANGELOG.md"))),
            Entry(f"{pages}/RELEASE.txt", release_text(build)), Entry(f"{pages}/THIRD-PARTY", third_party(build)), *moved(examples(build), pages)]


def libraries(program: str) -> str:
    """The packages of the libraries that a program is linked with, as dpkg-shlibdeps finds them; empty if it is linked with none."""
    with tempfile.TemporaryDirectory() as place:
        os.mkdir(os.path.join(place, "debian"))
        with open(os.path.join(place, "debian", "control"), "w", encoding="utf-8") as file:
            file.write("Source: shadowd\n\nPackage: shadowd\nArchitecture: any\nDescription: program\n")
        done = subprocess.run(["dpkg-shlibdeps", "-O", "-e" + program], cwd=place, stdin=subprocess.DEVNULL, capture_output=True, text=True)
    if done.returncode:
        raise Refused(f"dpkg-shlibdeps: {done.stderr.strip().splitlines()[-1]}", "no-libraries")
    return done.stdout.strip().partition("shlibs:Depends=")[2]


def control(build: Build, program: str, size: int) -> bytes:
    depends = ", ".join(it for it in (libraries(program) if build.library else "", "passwd") if it)
    return CONTROL.format(version=build.version, maintainer=MAINTAINER, size=-(-size // 1024), depends=depends).encode()


def package(build: Build) -> Entry:
    installed = files(build)
    with tempfile.TemporaryDirectory() as place:
        root = os.path.join(place, "root")
        os.mkdir(root)
        laid_out(installed, root, build.moment)
        scripts = [Entry(name, own_text(f"release_{name}.sh").encode(), 0o755) for name in SCRIPTS]
        fields = control(build, os.path.join(root, "usr/bin/shadowd"), sum(len(entry.data) for entry in installed))
        laid_out(moved([Entry("control", fields), Entry("conffiles", f"/{SETTINGS}\n".encode()), *scripts], "DEBIAN"), root, build.moment)
        for path in (os.path.join(root, "DEBIAN"), root):
            os.chmod(path, 0o755)
            os.utime(path, (build.moment, build.moment))
        name = f"shadowd_{build.version}_amd64.deb"
        done = subprocess.run(["dpkg-deb", "--root-owner-group", "-Zgzip", "--build", root, os.path.join(place, name)],
                              env=dict(os.environ, SOURCE_DATE_EPOCH=str(build.moment)), stdin=subprocess.DEVNULL, capture_output=True, text=True)
        if done.returncode:
            raise Refused(f"dpkg-deb: {done.stderr.strip().splitlines()[-1]}", "no-package")
        with open(os.path.join(place, name), "rb") as file:
            return Entry(name, file.read())
