"""The image of a release for containers: one layer made from nothing, in the layout of the Open Container Initiative, as one tar archive.

The layer has the program, the libraries that it is linked with, a user, and busybox. Process 1 is a shell of busybox, which asks the
server for its end where the container is stopped.
"""
import datetime
import glob
import json
import os
import re
import shutil
import subprocess
import tempfile
from typing import Dict, List, Optional, Tuple

from shadowtools.command import Refused
from shadowtools.gate.gate_record import output_of
from shadowtools.gate.release_build import Build, own_text, release_text, third_party
from shadowtools.gate.release_files import Entry, digest, folder, gzip_of, tar_of

NEEDS = ("ldd", "dpkg-query", "dpkg-deb")
USER = 4710
PORT = "4710/tcp"
START = "usr/local/bin/serve"
CACHE = "/var/cache/apt/archives/busybox-static_*_amd64.deb"
BUSYBOX = "bin/busybox"
MEDIA = "application/vnd.oci.image."
SETTINGS = ["PATH=/usr/local/bin:/bin", "SHADOWD_JOURNAL=/var/lib/shadowd/journal", "SHADOWD_LISTEN=0.0.0.0:4710", "SHADOWD_MAKE=no"]


def contents(path: str) -> bytes:
    try:
        with open(path, "rb") as file:
            return file.read()
    except OSError as fault:
        raise Refused(f"{path}: {fault.strerror}", "no-file") from fault


def busybox_package() -> Optional[str]:
    """The newest package of busybox-static that apt has kept."""
    found = sorted(glob.glob(CACHE), key=lambda path: (os.path.getmtime(path), path))
    return found[-1] if found else None


def missing() -> List[str]:
    """What the image needs and this machine has not."""
    return [name for name in NEEDS if not shutil.which(name)] + ([] if busybox_package() else ["busybox-static in apt's cache"])


def busybox() -> Tuple[str, List[Entry]]:
    """The version of busybox-static, and its files: the program, and what its package writes on rights to copy it."""
    package = busybox_package()
    if package is None:
        raise Refused(f"{CACHE}: there is none: apt-get install --download-only busybox-static", "no-busybox")
    with tempfile.TemporaryDirectory() as place:
        version = output_of(place, "dpkg-deb", "--field", package, "Version").strip()
        output_of(place, "dpkg-deb", "--extract", package, place)
        return version, [Entry(BUSYBOX, contents(os.path.join(place, BUSYBOX)), 0o755), Entry("bin/sh", link="busybox"),
                         Entry("usr/share/doc/busybox-static/copyright", contents(os.path.join(place, "usr/share/doc/busybox-static/copyright")))]


def libraries(program: str) -> Dict[str, str]:
    """The path of each library that a program is linked with, as the loader asks for it, and the file that is there."""
    done = subprocess.run(["ldd", program], stdin=subprocess.DEVNULL, capture_output=True, text=True)
    paths = re.findall(r"(?:=> |^\t)(/\S+) \(0x", done.stdout, re.M)
    return {path: os.path.realpath(path) for path in paths}


def package_of(path: str) -> str:
    """The Debian package that a library is of."""
    for name in (path, path.replace("/usr/lib/", "/lib/", 1), "/usr" + path):
        done = subprocess.run(["dpkg-query", "--search", name], capture_output=True, text=True)
        if not done.returncode:
            return done.stdout.split(":")[0]
    raise Refused(f"{path}: no Debian package has it, so its licence is not known", "no-package")


def library_entries(program: bytes) -> Tuple[List[str], List[Entry]]:
    """The packages of the program's libraries with their versions, and the files: each library, and its package's copyright."""
    with tempfile.NamedTemporaryFile() as file:
        file.write(program)
        file.flush()
        os.chmod(file.name, 0o755)
        found = libraries(file.name)
    packages = sorted({package_of(path) for path in found})
    entries = [Entry(path.lstrip("/"), contents(real), 0o755) for path, real in found.items()]
    entries += [Entry(f"usr/share/doc/{name}/copyright", contents(f"/usr/share/doc/{name}/copyright")) for name in packages]
    if not packages:
        return [], entries
    return output_of("/", "dpkg-query", "--show", "--showformat", "${Package} ${Version}\n", *packages).splitlines(), entries


def layer(build: Build) -> Tuple[List[str], List[Entry]]:
    """What is in the image that is not of this project, and all files of the image."""
    version, files = busybox()
    packages, libraries_ = library_entries(build.program)
    own = [Entry("usr/local/bin/shadowd", build.program, 0o755), Entry(START, own_text("release_start.sh").encode(), 0o755),
           Entry("etc/passwd", f"root:x:0:0:root:/:/bin/sh\nshadowd:x:{USER}:{USER}:shadowd:/var/lib/shadowd:/bin/sh\n".encode()),
           Entry("etc/group", f"root:x:0:\nshadowd:x:{USER}:\n".encode()),
           folder("etc/shadowd"), folder("dev"), folder("proc"), folder("sys"), folder("tmp", 0o1777),
           folder("run/shadowd", 0o700, USER), folder("var/lib/shadowd", 0o700, USER),
           Entry("usr/share/doc/shadowd/RELEASE.txt", release_text(build)), Entry("usr/share/doc/shadowd/THIRD-PARTY", third_party(build))]
    return [f"busybox-static {version}", *packages], [*own, *files, *libraries_]


def json_of(value: object) -> bytes:
    return json.dumps(value, sort_keys=True, separators=(",", ":")).encode()


def blob(data: bytes, kind: str, blobs: List[Entry]) -> Dict[str, object]:
    """Adds a blob, and gives its descriptor."""
    blobs.append(Entry("blobs/sha256/" + digest(data), data))
    return {"mediaType": MEDIA + kind, "digest": "sha256:" + digest(data), "size": len(data)}


def image(build: Build) -> Entry:
    foreign, files = layer(build)
    plain = tar_of(files, build.moment)
    blobs: List[Entry] = []
    packed = blob(gzip_of(plain), "layer.v1.tar+gzip", blobs)
    settings = {"User": f"{USER}:{USER}", "Env": SETTINGS, "Entrypoint": ["/bin/sh", "/" + START], "WorkingDir": "/var/lib/shadowd",
                "ExposedPorts": {PORT: {}}, "Volumes": {"/var/lib/shadowd": {}}, "StopSignal": "SIGTERM",
                "Labels": {"org.opencontainers.image.version": build.version, "org.opencontainers.image.revision": build.commit,
                           "packages": ", ".join(foreign)}}
    created = datetime.datetime.fromtimestamp(build.moment, datetime.timezone.utc).strftime("%Y-%m-%dT%H:%M:%SZ")
    described = blob(json_of({"architecture": "amd64", "os": "linux", "created": created, "config": settings,
                              "rootfs": {"type": "layers", "diff_ids": ["sha256:" + digest(plain)]}}), "config.v1+json", blobs)
    manifest = blob(json_of({"schemaVersion": 2, "mediaType": MEDIA + "manifest.v1+json", "config": described, "layers": [packed]}),
                    "manifest.v1+json", blobs)
    manifest["annotations"] = {"org.opencontainers.image.ref.name": f"shadowd:{build.version}"}
    index = {"schemaVersion": 2, "mediaType": MEDIA + "index.v1+json", "manifests": [manifest]}
    whole = [Entry("oci-layout", json_of({"imageLayoutVersion": "1.0.0"})), Entry("index.json", json_of(index)), *blobs]
    return Entry(f"shadowd-{build.version}-image.tar", tar_of(whole, build.moment))
