"""A release: the record of the full check, the archive and its tools, the Debian package and the image, installed and run, and signatures."""
import contextlib
import functools
import glob
import gzip
import hashlib
import io
import json
import os
import re
import shutil
import signal
import socket
import stat
import subprocess
import sys
import tarfile
import tempfile
import time
import unittest
from unittest import mock

import gate_record
import release
from common import PROGRAM, ROOT, TOOLS, Folder, needs_program
from exam_client import children_of
from shadowtools.command import Refused
from shadowtools.gate import release_build, release_debian, release_files, release_image, release_parties

DEBIAN = "/usr/bin/python3"
LIMIT = 300  # seconds for each wait
FLIGHT = 160
KIT = "a kit logic 0"
UNITS = {"shadowd@.service": "serve", "shadowd-follow@.service": "follow", "shadowd-stream@.service": "stream"}
# Crates of the kit beside which it has no licence: those that its makers wrote as its ground.
WITHOUT_LICENCE = {"atomic_table", "core", "io", "json", "libc", "os", "std", "std_alloc", "std_collections", "std_heap", "std_io"}
is_clone = os.path.exists(os.path.join(ROOT, ".git")) and shutil.which("git")
is_root = os.geteuid() == 0 and shutil.which("unshare")
needs_root = unittest.skipUnless(is_root, "needs root and unshare")


def said_by(*words, **options):
    return subprocess.run(words, stdin=subprocess.DEVNULL, capture_output=True, text=True, timeout=LIMIT, **options)


def sha256(data):
    return hashlib.sha256(data).hexdigest()


class Record(Folder):
    """A small repository with a program, and a stand-in for the kit's `rt`."""

    def setUp(self):
        super().setUp()
        os.mkdir(self.path("bin"))
        with open(self.path("bin/rt"), "w", encoding="utf-8") as file:
            file.write(f"#!/bin/sh\necho '{KIT}'\n")
        os.chmod(self.path("bin/rt"), 0o755)
        patch = mock.patch.dict(os.environ, PATH=self.path("bin") + os.pathsep + os.environ["PATH"])
        patch.start()
        self.addCleanup(patch.stop)
        self.top = self.path("copy")
        os.mkdir(self.top)
        self.program = self.write("copy/program", "the program")
        self.write("copy/.gitignore", "out/\nprogram\n")
        self.git("init", "-q")
        self.commit("first")

    def git(self, *words):
        done = said_by("git", "-C", self.top, "-c", "user.name=a", "-c", "user.email=a@example.org", *words)
        self.assertEqual(done.returncode, 0, done.stderr)
        return done.stdout.strip()

    def commit(self, text):
        self.write("copy/file", text)
        self.git("add", "-A")
        self.git("commit", "-q", "-m", text)

    def end(self, passed=7, failed=0):
        gate_record.end(self.top, self.program, sha256(b"the program"), passed, failed)

    def refusal(self):
        with self.assertRaises(Refused) as caught:
            gate_record.green(self.top, self.program)
        return caught.exception.kind

    def test_a_check_that_passed(self):
        gate_record.begin(self.top)
        self.end()
        found = gate_record.green(self.top, self.program)
        self.assertEqual((found.commit, found.changed, found.kit, found.program, found.passed, found.failed),
                         (self.git("rev-parse", "HEAD"), [], KIT, sha256(b"the program"), 7, 0))
        self.assertRegex(found.ended, r"^\d{4}-\d\d-\d\dT\d\d:\d\d:\d\dZ$")

    def test_what_is_no_record_of_a_check_that_passed(self):
        self.assertEqual(self.refusal(), "no-record")
        gate_record.begin(self.top)
        self.assertEqual(self.refusal(), "not-ended")
        self.end(passed=6, failed=1)
        self.assertEqual(self.refusal(), "not-passed")
        self.end(passed=0)
        self.assertEqual(self.refusal(), "not-passed")
        for text in ("", "[]", "{}", '{"commit": 1}', json.dumps({**json.loads(self.read("copy/.ci/out/gate.json")), "passed": "7"})):
            self.write("copy/.ci/out/gate.json", text)
            self.assertEqual(self.refusal(), "bad-record", text)

    def test_another_program(self):
        gate_record.begin(self.top)
        self.end()
        self.write("copy/program", "another program")
        self.assertEqual(self.refusal(), "other-program")
        os.remove(self.program)
        self.assertEqual(self.refusal(), "no-program")
        # Its digest before the tests is not that after them.
        self.write("copy/program", "another program")
        gate_record.begin(self.top)
        self.end()
        self.assertEqual(self.refusal(), "other-files")

    def test_other_files_and_another_commit(self):
        gate_record.begin(self.top)
        self.end()
        self.write("copy/new", "")
        self.assertEqual(self.refusal(), "changed")
        os.remove(self.path("copy/new"))
        self.commit("second")
        self.assertEqual(self.refusal(), "other-commit")
        # A file that is there at the begin alone, one that is there at the end alone, and a commit in between.
        for name, change, undo in (("begin", lambda: os.remove(self.path("copy/new")), lambda: None),
                                   ("end", lambda: self.write("copy/new", ""), lambda: os.remove(self.path("copy/new"))),
                                   ("commit", lambda: self.commit("third"), lambda: None)):
            if name == "begin":
                self.write("copy/new", "")
            gate_record.begin(self.top)
            change()
            self.end()
            undo()
            self.assertEqual(self.refusal(), "other-files", name)

    def test_a_begin_that_fails_leaves_no_record(self):
        gate_record.begin(self.top)
        self.end()
        shutil.rmtree(self.path("copy/.git"))
        with self.assertRaises(Refused) as caught:
            gate_record.begin(self.top)
        self.assertEqual(caught.exception.kind, "command-failed")
        self.assertEqual(self.refusal(), "no-record")

    def test_without_a_record_nothing_is_written(self):
        for name, value in (("TOP", self.top), ("PROGRAM", self.program)):
            patch = mock.patch.object(release, name, value)
            patch.start()
            self.addCleanup(patch.stop)
        before = sorted(os.listdir(self.folder))
        status, out, errors = self.tool("release", self.path("made"))
        self.assertEqual((status, out), (1, ""))
        self.assertIn("there is no record of the full check: run .ci/run in this copy", errors)
        self.assertEqual(sorted(os.listdir(self.folder)), before)
        self.assertEqual(self.tool("release")[0], 2)


class Version(unittest.TestCase):
    def test_the_package_of_the_tools_has_the_version_of_the_program(self):
        with open(os.path.join(ROOT, "crates/command_line/src/lib.rt"), encoding="utf-8") as file:
            program = re.findall(r'VERSION: &str = "([^"]+)"', file.read())
        with open(os.path.join(TOOLS, "pyproject.toml"), encoding="utf-8") as file:
            package = re.findall(r'^version = "([^"]+)"$', file.read(), re.M)
        self.assertEqual(len(program), 1)
        self.assertEqual(package, program)


@functools.lru_cache(maxsize=None)
def kit_folder():
    return os.path.dirname(said_by("rt", "doc").stdout.strip()) if shutil.which("rt") else ""


def lacks():
    """Why no release can be made here; empty where it can."""
    if not is_clone:
        return "needs git, and a clone of the repository"
    if not kit_folder():
        return "needs Rattle's kit"
    if all(said_by(it, "-c", "import setuptools, wheel").returncode for it in {sys.executable, DEBIAN} if os.path.exists(it)):
        return "needs python3-setuptools and python3-wheel"
    return ""


@functools.lru_cache(maxsize=None)
def build(key=""):
    """A release of the commit of this copy, with the built program, or with a stand-in where there is none."""
    with tempfile.NamedTemporaryFile() as stand_in:
        stand_in.write(b"#!/bin/sh\necho stand-in\n")
        stand_in.flush()
        program = PROGRAM if os.path.exists(PROGRAM) else stand_in.name
        return release_build.build_of(ROOT, program, kit_folder(), key)


@functools.lru_cache(maxsize=None)
def made():
    """The files of the release by their kind, and the reasons of those that were skipped."""
    files, skipped = release.made_of(build())
    return {re.sub(r".*(tar\.gz|deb|image\.tar|SHA256SUMS)$", r"\1", it.path): it for it in files}, skipped


class Made(Folder):
    """A test of the files of a release, which are made once."""

    @classmethod
    def setUpClass(cls):
        if lacks():
            raise unittest.SkipTest(lacks())

    def file(self, kind):
        files, skipped = made()
        if kind not in files:
            self.skipTest("; ".join(skipped))
        return files[kind]

    def unpacked(self):
        """The folder of the archive, unpacked."""
        with tarfile.open(fileobj=io.BytesIO(self.file("tar.gz").data)) as archive:
            archive.extractall(self.folder)
        return self.path(f"shadowd-{build().version}-linux-x86_64")


class Archive(Made):
    def test_two_runs_give_the_same_bytes(self):
        before, place = os.umask(0o077), os.getcwd()
        try:
            os.chdir(self.folder)
            with mock.patch.dict(os.environ, TZ="Asia/Tokyo", LC_ALL="C", TMPDIR=self.folder):
                time.tzset()
                again, _ = release.made_of(build.__wrapped__())
        finally:
            os.umask(before)
            os.chdir(place)
            time.tzset()
        self.assertEqual({it.path: sha256(it.data) for it in again}, {it.path: sha256(it.data) for it in made()[0].values()})

    def test_sums_and_text(self):
        top = self.unpacked()
        listed = dict(reversed(line.split("  ", 1)) for line in self.read(os.path.join(top, "SHA256SUMS")).splitlines())
        found = {}
        for here, _, names in os.walk(top):
            for name in names:
                with open(os.path.join(here, name), "rb") as file:
                    found[os.path.relpath(os.path.join(here, name), top)] = sha256(file.read())
        found.pop("SHA256SUMS")
        self.assertEqual(listed, found)
        for name in ("README.md", "docs/OPERATING.md", "man/shadowd.1", *(f"service/{name}" for name in UNITS), "examples/first/bank.csv", "THIRD-PARTY",
                     "examples/knowledge/knowledge.plan.txt", f"tools/shadowtools-{build().version}-py3-none-any.whl"):
            self.assertIn(name, found)
        self.assertEqual([name for name in found if "/tests/" in name], [])
        text = self.read(os.path.join(top, "RELEASE.txt"))
        for words in (f"shadowd {build().version},", said_by("git", "-C", ROOT, "rev-parse", "HEAD").stdout.strip(), found["bin/shadowd"],
                      said_by("rt", "version").stdout.strip(), "Nothing is signed", "It has no licence yet"):
            self.assertIn(words, text)
        self.assertNotIn("{", text)

    def test_the_digest_of_the_sources(self):
        """It is that of the words in RELEASE.txt, in a copy that has two files."""
        said_by("git", "init", "-q", self.folder)
        os.mkdir(self.path("b"))
        for name in ("b-c", "b/a"):
            self.write(name, name)
        said_by("git", "-C", self.folder, "add", "-A")
        said_by("git", "-C", self.folder, "-c", "user.name=a", "-c", "user.email=a@example.org", "commit", "-q", "-m", "first")
        words = "git ls-files -z | LC_ALL=C sort -z | xargs -0 sha256sum | sha256sum"
        self.assertIn(words, release_build.own_text("release_text.txt"))
        wanted = said_by("sh", "-c", words, cwd=self.folder).stdout.split()[0]
        self.assertEqual(sha256(release_files.sums_of(release_files.of_commit(self.folder, "HEAD")).encode()), wanted)

    @needs_program
    def test_the_program_in_an_empty_folder(self):
        top, empty = self.unpacked(), self.path("empty")
        os.mkdir(empty)
        run = functools.partial(said_by, cwd=empty, env={"PATH": "/usr/bin:/bin"})
        program, first = os.path.join(top, "bin/shadowd"), os.path.join(top, "examples/first")
        files = [os.path.join(first, name) for name in ("bank.csv", "plan.txt")]
        self.assertEqual(run(program, "version").stdout, f"shadowd {build().version}\n")
        # The page TOUR has this form's information as a sum: 8 + 9 + 6.
        form, objective, tree = run(program, "assemble", *files).stdout.splitlines()
        self.assertEqual((form, objective.split()[:3]), ("form 1 2 3", ["objective", "23", "proved"]))
        self.assertEqual(os.listdir(empty), [])
        self.assertEqual(self.tool("check_tree", *files, tree.split()[1], "--form", "1-3")[:2], (0, "Optimal\n"))


class Parties(Made):
    def test_each_crate_of_the_kit_has_its_row(self):
        text = release_build.third_party(build()).decode()
        rows = dict(re.findall(r"^([a-z0-9_]+) {2,}(\S.*)$", text.partition("-" * 100)[0], re.M))
        self.assertEqual({crate for crate, licence in rows.items() if licence == "none"}, WITHOUT_LICENCE & set(rows))
        # The crates of the kit that TRUST names as those that the program stands on.
        for crate, licence in (("csv", "MIT"), ("serde_json", "Apache-2.0, MIT"), ("matchit", "BSD-3-Clause, MIT"), ("sha2", "Apache-2.0, MIT")):
            self.assertEqual(rows[crate], licence)
        for crate in set(rows) - WITHOUT_LICENCE:
            self.assertIn(f"\n{crate}/LICENSE", text)

    @needs_program
    def test_each_crate_whose_functions_are_in_the_program_has_its_row(self):
        symbols = said_by("nm", PROGRAM).stdout if shutil.which("nm") else ""
        kit = {name.partition(".")[0] for name in os.listdir(os.path.join(kit_folder(), "rlibs"))}
        found = set(re.findall(r" [tT] (\w+)::", symbols)) & kit
        if not found:
            self.skipTest("needs nm, and a program with symbols")
        self.assertLessEqual(found, set(release_parties.linked(build().text("crates.txt"), kit_folder())))

    def test_crates_below_crates(self):
        for name, uses in (("left", "right std"), ("right", ""), ("std", "")):
            os.makedirs(self.path(f"rlibs/{name}.rlib"))
            self.write(f"rlibs/{name}.rlib/format", f"rattle rlib\ncrate {name}\n" + "".join(f"dep {use}\n" for use in uses.split()))
        text = "# a block\nlow: left\nhigh: low  # a comment\nshadowd status=2: high std\nother: elsewhere\n"
        self.assertEqual(release_parties.linked(text, self.folder), ["left", "right", "std"])
        with self.assertRaises(Refused):
            release_parties.linked(text, self.folder, "other")

    def test_texts_of_licences(self):
        os.makedirs(self.path("rattle/left"))
        self.write("rattle/left/LICENSE-A", "Permission is hereby granted, free of\n  charge, to any person obtaining a copy")
        self.write("rattle/left/README.md", "Apache License Version 2.0")
        self.assertEqual(release_parties.party_of("left", self.folder).licences, ["MIT"])
        self.assertEqual(release_parties.party_of("right", self.folder).licences, [])
        self.write("rattle/left/LICENSE", "Do what you like")
        with self.assertRaises(Refused) as caught:
            release_parties.party_of("left", self.folder)
        self.assertIn("rattle/left/LICENSE: it is no licence that is known here", caught.exception.line)


class Package(Made):
    """The package of the tools, installed into a folder of its own."""

    def setUp(self):
        super().setUp()
        self.interpreter = next((it for it in (sys.executable, DEBIAN) if os.path.exists(it) and not said_by(it, "-m", "pip", "--version").returncode), "")
        if not self.interpreter:
            self.skipTest("needs python3-pip")

    def test_the_tools_from_the_archive(self):
        top, place = self.unpacked(), self.path("installed")
        wheel = glob.glob(os.path.join(top, "tools", "*.whl"))[0]
        done = said_by(self.interpreter, "-m", "pip", "install", "--quiet", "--no-index", "--no-deps", "--no-compile", "--target", place, wheel)
        self.assertEqual(done.returncode, 0, done.stderr)
        run = functools.partial(said_by, cwd=self.folder, env={"PATH": "/usr/bin:/bin", "PYTHONPATH": place, "PYTHONDONTWRITEBYTECODE": "1"})
        shadow = [self.interpreter, os.path.join(place, "bin", "shadow")]
        for words, begins in ((["--help"], "The one front door"), (["report", "--help"], "")):
            done = run(*shadow, *words)
            self.assertEqual((done.returncode, done.stderr), (0, ""))
            self.assertIn(begins or "usage: shadow report", done.stdout)
        # The tree and the form of TOUR, and the same tree for a form that is worse.
        files = [os.path.join(top, "examples/first", name) for name in ("bank.csv", "plan.txt")]
        tree = [*shadow, "tree", *files, "0100010003000001800300", "--form"]
        self.assertEqual(run(*tree, "1-3").stdout, "Optimal\n")
        self.assertNotIn("Optimal", run(*tree, "1-2,4").stdout)
        # The program is that of the path. The version is the package's, also where the folder is in another repository.
        said_by("git", "init", "-q", self.folder)
        said_by("git", "-C", self.folder, "-c", "user.name=a", "-c", "user.email=a@example.org", "commit", "-q", "--allow-empty", "-m", "other")
        done = said_by(self.interpreter, "-c", "from shadowtools.places import BUILT, revision; print(BUILT, revision(), sep='\\n')", cwd="/",
                       env={"PATH": os.path.join(top, "bin") + ":/usr/bin:/bin", "PYTHONPATH": place})
        self.assertEqual(done.stdout.splitlines(), [os.path.join(top, "bin/shadowd"), f"shadowtools {build().version}"], done.stderr)
        kept = {os.path.basename(it) for it in glob.glob(os.path.join(place, "shadowtools", "*", "*")) if not it.endswith(".py")}
        self.assertLessEqual({"report.html", "headline_page.md", "headline_sentences.txt", "refused_memory.c", "release_start.sh"}, kept)


class DebianPackage(Made):
    def setUp(self):
        super().setUp()
        self.package = self.path("shadowd.deb")
        with open(self.package, "wb") as file:
            file.write(self.file("deb").data)

    def test_fields_and_files(self):
        field = {name: said_by("dpkg-deb", "--field", self.package, name).stdout.strip() for name in ("Package", "Version", "Architecture", "Depends")}
        self.assertEqual((field["Package"], field["Version"], field["Architecture"]), ("shadowd", build().version, "amd64"))
        self.assertIn("passwd", field["Depends"].split(", "))
        if build().library:
            self.assertIn(f"libc6 (>= {build().library})", field["Depends"])
        listed = {line.split()[-1]: line.split()[:2] for line in said_by("dpkg-deb", "--contents", self.package).stdout.splitlines()}
        self.assertEqual(listed["./var/lib/shadowd/"], ["drwx------", "root/root"])
        self.assertEqual(listed["./etc/shadowd/"], ["drwxr-x---", "root/root"])
        self.assertEqual(listed["./usr/bin/shadowd"], ["-rwxr-xr-x", "root/root"])
        self.assertIn("./usr/share/doc/shadowd/copyright", listed)
        said_by("dpkg-deb", "--raw-extract", self.package, self.path("raw"))
        self.assertEqual(self.read("raw/DEBIAN/conffiles"), "/etc/default/shadowd\n")
        for name, command in UNITS.items():
            unit = self.read(f"raw/lib/systemd/system/{name}")
            self.assertIn(f"\nExecStart=/usr/bin/shadowd {command} ", unit)
            self.assertNotIn("/usr/local", unit)
            self.assertIn("\nEnvironmentFile=-/etc/default/shadowd\n", unit)
        for name in ("postinst", "prerm", "postrm"):
            self.assertEqual(said_by("sh", "-n", self.path(f"raw/DEBIAN/{name}")).returncode, 0)
        with gzip.open(self.path("raw/usr/share/man/man1/shadowd.1.gz"), "rt", encoding="utf-8") as file:
            self.assertIn(".B shadowd", file.read())

    @needs_root
    @needs_program
    def test_it_is_installed_and_removed(self):
        """In a copy of this machine that is thrown away: an overlay of its files, whose changes are in memory. What the scripts of the
        package ask of systemd is written down by a stand-in of `systemctl`."""
        script = f"""set -e
mount -t tmpfs tmpfs {self.folder}
mkdir {self.folder}/upper {self.folder}/work {self.folder}/root
mount -t overlay overlay -o lowerdir=/,upperdir={self.folder}/upper,workdir={self.folder}/work {self.folder}/root || exit 77
mount --bind /dev {self.folder}/root/dev
cat > {self.folder}/root/shadowd.deb
exec chroot {self.folder}/root /bin/sh -e -c '{INSTALL}'
"""
        done = subprocess.run(["unshare", "--mount", "sh", "-c", script], input=self.file("deb").data, capture_output=True, timeout=LIMIT)
        if done.returncode == 77:
            self.skipTest("needs overlay mounts")
        said = [line[2:] for line in done.stdout.decode().splitlines() if line.startswith("> ")]
        self.assertEqual(done.returncode, 0, done.stderr.decode())
        version = build().version
        self.assertEqual(said, [
            "asked daemon-reload, ", "shadowd:shadowd 700", "root:shadowd 750", "/usr/sbin/nologin", f"shadowd {version}",
            "shadowd:shadowd 600 9", "the same user",
            "asked daemon-reload, daemon-reload, ", "# mine",  # an upgrade stops no server
            "asked stop shadowd@*.service shadowd-stream@*.service shadowd-follow@*.service, daemon-reload, ", "removed", "# mine", "shadowd:shadowd 600 9",
            "purged", "shadowd:shadowd 600 9", "the same user"])


INSTALL = r"""
set -e
owner() { stat -c "%U:%G %a" "$1"; }
journal() { stat -c "> %U:%G %a %s" /var/lib/shadowd/spring/journal; }
quiet() { "$@" > /dev/null; }
asked() { echo "> asked $(tr "\n" " " < /asked)"; : > /asked; }
mkdir -p /run/systemd/system
printf "#!/bin/sh\necho \"\$*,\" >> /asked\n" > /usr/local/bin/systemctl
chmod 755 /usr/local/bin/systemctl
export PATH=/usr/local/bin:$PATH
quiet dpkg --no-triggers --install /shadowd.deb
asked
echo "> $(owner /var/lib/shadowd)"; echo "> $(owner /etc/shadowd)"; echo "> $(getent passwd shadowd | cut -d : -f 7)"
echo "> $(shadowd version)"
install -d -o shadowd -m 700 /var/lib/shadowd/spring
cd /usr/share/doc/shadowd/examples/first
quiet setpriv --reuid=shadowd --regid=shadowd --clear-groups env SHADOWD_CONNECTIONS=0 SHADOWD_LISTEN=127.0.0.1:0 \
    SHADOWD_JOURNAL=/var/lib/shadowd/spring/journal shadowd serve bank.csv plan.txt
journal
before=$(getent passwd shadowd)
sh /var/lib/dpkg/info/shadowd.postinst configure
[ "$before" = "$(getent passwd shadowd)" ] && echo "> the same user"
echo "# mine" > /etc/default/shadowd
: > /asked
quiet dpkg --no-triggers --force-confold --install /shadowd.deb
asked
echo "> $(cat /etc/default/shadowd)"
quiet dpkg --no-triggers --remove shadowd
asked
[ -e /usr/bin/shadowd ] || echo "> removed"
echo "> $(cat /etc/default/shadowd)"
journal
quiet dpkg --no-triggers --purge shadowd
[ -e /etc/default/shadowd ] || echo "> purged"
journal
[ "$before" = "$(getent passwd shadowd)" ] && echo "> the same user"
"""


class Image(Made):
    def blob(self, archive, described):
        data = archive.extractfile("blobs/sha256/" + described["digest"].partition(":")[2]).read()
        self.assertEqual(("sha256:" + sha256(data), len(data)), (described["digest"], described["size"]))
        return data

    def read_image(self):
        """The settings of the image, and its one layer as a tar archive."""
        with tarfile.open(fileobj=io.BytesIO(self.file("image.tar").data)) as archive:
            self.assertEqual(json.load(archive.extractfile("oci-layout")), {"imageLayoutVersion": "1.0.0"})
            index = json.load(archive.extractfile("index.json"))
            manifest = json.loads(self.blob(archive, index["manifests"][0]))
            described = json.loads(self.blob(archive, manifest["config"]))
            plain = gzip.decompress(self.blob(archive, manifest["layers"][0]))
        self.assertEqual(len(manifest["layers"]), 1)
        self.assertEqual(described["rootfs"], {"type": "layers", "diff_ids": ["sha256:" + sha256(plain)]})
        return described["config"], plain

    def test_digests_and_rights(self):
        config, plain = self.read_image()
        self.assertEqual((config["User"], config["StopSignal"]), ("4710:4710", "SIGTERM"))
        with tarfile.open(fileobj=io.BytesIO(plain)) as layer:
            for name in ("var/lib/shadowd", "run/shadowd"):
                self.assertEqual((layer.getmember(name).mode, layer.getmember(name).uid), (0o700, 4710))
            self.assertEqual(layer.extractfile("usr/local/bin/shadowd").read(), build().program)
            self.assertEqual(layer.getmember("bin/sh").linkname, "busybox")
            self.assertEqual([it.name for it in layer if it.isfile() and it.mode & 0o6022], [])

    def test_process_1_is_the_script_of_the_page(self):
        with open(os.path.join(ROOT, "docs", "OPERATING.md"), encoding="utf-8") as file:
            self.assertIn(f"```\n{release_build.own_text('release_start.sh')}```\n", file.read())

    def start(self, root, config, **settings):
        """The container as a chroot with a process 1 of its own: the process that has made it, and its environment's settings."""
        environment = dict(word.split("=", 1) for word in config["Env"])
        mounts = f"mount --bind /dev {root}/dev && mount -t proc proc {root}/proc && mount --bind {self.volume} {root}/var/lib/shadowd"
        enter = f"{mounts} && exec chroot --userspec={config['User']} {root} \"$@\""
        made_by = subprocess.Popen(["unshare", "--mount", "--pid", "--fork", "--kill-child", "sh", "-c", enter, "sh", *config["Entrypoint"]],
                                   env={**environment, "PATH": environment["PATH"] + ":/usr/sbin:/usr/bin", "SHADOWD_LISTEN": "127.0.0.1:0", **settings},
                                   stdin=subprocess.DEVNULL, stdout=subprocess.PIPE, stderr=subprocess.PIPE, text=True)
        self.addCleanup(lambda: (made_by.kill(), made_by.communicate()))
        return made_by

    @needs_root
    @needs_program
    def test_it_is_run_and_stopped_under_160_requests(self):
        config, plain = self.read_image()
        root = self.path("root")
        with tarfile.open(fileobj=io.BytesIO(plain)) as layer:
            layer.extractall(root, numeric_owner=True)
        for name in ("bank.csv", "plan.txt"):
            shutil.copy(os.path.join(ROOT, "crates/shadowd/data", name), os.path.join(root, "etc/shadowd", name))
        os.chmod(self.folder, 0o755)
        # In memory where there is such a place: the server serves for four seconds after it was asked to end, and a disk may be slower.
        self.volume = tempfile.mkdtemp(dir="/dev/shm" if os.path.isdir("/dev/shm") else None)
        self.addCleanup(shutil.rmtree, self.volume)
        os.chown(self.volume, 4710, 4710)
        refused = self.start(root, config)
        lines = refused.communicate(timeout=LIMIT)[1]
        self.assertEqual(refused.returncode, 9, lines)
        self.assertIn("there is none, and SHADOWD_MAKE=no makes none", lines)
        first = self.start(root, config, SHADOWD_MAKE="yes", SHADOWD_CONNECTIONS="0")
        lines = first.communicate(timeout=LIMIT)[1]
        self.assertEqual(first.returncode, 0, lines)
        journal = os.stat(os.path.join(self.volume, "journal"))
        self.assertEqual((journal.st_uid, stat.S_IMODE(journal.st_mode), journal.st_size), (4710, 0o600, 9))
        self.stop_under_requests(self.start(root, config))

    def stop_under_requests(self, container):
        port = None
        while port is None and (line := container.stderr.readline()):
            found = re.match(r"shadowd: listening on 127\.0\.0\.1:(\d+), ", line)
            port = int(found[1]) if found else None
        self.assertIsNotNone(port)
        process_1, = children_of(container.pid)
        server, = children_of(process_1)
        clients = [socket.create_connection(("127.0.0.1", port), LIMIT) for _ in range(FLIGHT)]
        for client in clients:  # each is asked once, so that the server has its connection
            self.addCleanup(client.close)
            client.sendall(b"GET /health HTTP/1.1\r\n\r\n")
            self.assertEqual(client.recv(4096)[9:12], b"200")
        os.kill(server, signal.SIGSTOP)
        for booking, client in enumerate(clients):
            body = b'{"booking":%d}' % booking
            client.sendall(b"POST /sessions HTTP/1.1\r\nContent-Length: %d\r\n\r\n%s" % (len(body), body))
        os.kill(process_1, signal.SIGTERM)
        until = time.monotonic() + LIMIT
        while len(children_of(process_1)) < 2 and time.monotonic() < until:  # the server, and `shadowd end`
            time.sleep(0.01)
        os.kill(server, signal.SIGCONT)
        with contextlib.ExitStack() as files:
            statuses = [files.enter_context(client.makefile("rb")).readline().split()[1] for client in clients]
        self.assertEqual(statuses, [b"201"] * FLIGHT)
        said, lines = container.communicate(timeout=LIMIT)
        self.assertEqual(container.returncode, 0, lines)
        self.assertIn("shadowd: asked to end\n", lines)
        self.assertRegex(said, rf"(?m)^entries \d+ sessions {FLIGHT} ")


class Writing(Folder):
    FILES = [release_files.Entry("SHA256SUMS", b"0  a\n"), release_files.Entry("a", b"one")]

    def test_all_files_or_none(self):
        release.write(self.FILES, self.path("made"), "")
        self.assertEqual((self.read("made/a"), self.read("made/SHA256SUMS")), ("one", "0  a\n"))
        with self.assertRaises(Refused):
            release.write(self.FILES, self.path("again"), "a key that nobody has")
        self.assertEqual(os.listdir(self.folder), ["made"])

    def test_what_cannot_be_made_here_is_skipped_by_name(self):
        with mock.patch.object(release, "archive", lambda build_: self.FILES[1]), mock.patch.object(release_debian, "NEEDS", ("no-such-tool", "sh")), \
                mock.patch.object(release_image, "NEEDS", ()), mock.patch.object(release_image, "CACHE", self.path("*.deb")):
            files, skipped = release.made_of(mock.sentinel.build)
        self.assertEqual([(it.path, it.data) for it in files], [("a", b"one"), ("SHA256SUMS", f"{sha256(b'one')}  a\n".encode())])
        self.assertEqual(skipped, ["the Debian package: no-such-tool is not here", "the image: busybox-static in apt's cache is not here"])

    def test_a_signature(self):
        if not shutil.which("gpg"):
            self.skipTest("needs gpg")
        home = tempfile.mkdtemp()
        self.addCleanup(shutil.rmtree, home, ignore_errors=True)
        with mock.patch.dict(os.environ, GNUPGHOME=home):
            self.addCleanup(said_by, "gpgconf", "--kill", "all", env=dict(os.environ))
            made_key = said_by("gpg", "--batch", "--passphrase", "", "--quick-generate-key", "releases@example.org", "ed25519")
            self.assertEqual(made_key.returncode, 0, made_key.stderr)
            release.write(self.FILES, self.path("made"), "releases@example.org")
            verify = ["gpg", "--verify", self.path("made/SHA256SUMS.asc"), self.path("made/SHA256SUMS")]
            self.assertEqual(said_by(*verify).returncode, 0)
            self.write("made/SHA256SUMS", "1  a\n")
            self.assertEqual(said_by(*verify).returncode, 1)


if __name__ == "__main__":
    unittest.main()
