"""Debian packages of a guest: apt-get has them into a folder, where they are read. None is installed.

A folder is a system: its kernel, `cxl`, Python and busybox, with the libraries that these need."""

import lzma
import os
import re
import shutil
import subprocess
import tarfile
from typing import Callable, Iterator, Optional
from urllib.parse import unquote

HOME = os.environ.get("LINUX_PACKAGES", os.path.join(
    os.environ.get("XDG_CACHE_HOME", os.path.expanduser("~/.cache")), "cxlplan", "linux"))
RELEASE = "release"  # the folder of what apt-get has without the name of a suite
USED = ["busybox-static", "python3", "linux-image-amd64"]  # and the package of `cxl`
CXL = ["cxl", "ndctl"]  # its package, and the one that held it up to Debian 12
KERNEL, TREE = "vmlinuz", "tree.cpio"  # what is made of the packages, beside them
PARTIAL = "partial"
XZ = b"\xfd7zXZ"
MODULES = ["cxl_acpi", "cxl_pci", "cxl_mem", "cxl_port", "cxl_pmem"]

# What of a package stands in the guest; Debian's folders below / are links into /usr there.
KEPT = re.compile(r"usr/bin/(busybox|cxl|python3[.0-9]*)|usr/lib64/.*|usr/lib/x86_64-linux-gnu/[^/]*\.so[^/]*"
                  r"|usr/lib/python3[.0-9]*/.*")
LEFT = re.compile(r"/(test|tests|idlelib|ensurepip|lib2to3|pydoc_data|distutils|config-[^/]*|__pycache__|dist-packages)/"
                  r"|usr/lib/x86_64-linux-gnu/lib(perl|db-|apt|icu|sqlite|systemd)")


class Lacks(Exception):
    """What is not there, and how it is had."""


class System:
    """The packages in a folder."""

    def __init__(self, folder: str):
        self.folder, self.name = folder, os.path.basename(folder.rstrip("/"))
        found = [re.fullmatch(r"([^_]+)_([^_]+)_[^_]+\.deb", file) for file in packages_in(folder)]
        self.versions = {match[1]: unquote(match[2]) for match in found if match}
        self.files = {match[1]: os.path.join(folder, match[0]) for match in found if match}
        release = next((match[1] for name in self.versions if (match := re.fullmatch("linux-image-([0-9].*)", name))), None)
        if release is None or not any(name in self.versions for name in CXL):
            raise Lacks(f"{folder} has no packages of a kernel and of cxl")
        self.release: str = release

    def version(self, *names: str) -> str:
        """The version of the first of these packages that is there, without Debian's part."""
        named = next((self.versions[name] for name in names if name in self.versions), "none")
        return re.sub("^[0-9]+:", "", named).partition("-")[0]

    def title(self) -> str:
        return f"Linux {self.version(f'linux-image-{self.release}')}, cxl {self.version(*CXL)}"

    # ---- What a guest is made of, once for all runs.

    def kernel(self) -> str:
        """The kernel as a file."""
        self.make()
        return os.path.join(self.folder, KERNEL)

    def tree(self) -> bytes:
        """All that the packages give the guest, as an archive of cpio."""
        self.make()
        with open(os.path.join(self.folder, TREE), "rb") as opened:
            return opened.read()

    def make(self) -> None:
        tree = os.path.join(self.folder, TREE)
        if os.path.exists(tree):
            return
        archive, modules, image = Archive(), {}, b""
        for name in self.files:
            if name.startswith("linux-"):
                for path, member, read in self.members(name):
                    if member.isfile() and os.path.basename(path).startswith("vmlinuz"):
                        image = read()
                    elif match := re.search(r"/([^/]+)\.ko(\.xz)?$", path):
                        modules[match[1].replace("-", "_")] = read()
                continue
            for path, member, read in self.members(name):
                if KEPT.fullmatch(path) and not LEFT.search(path):
                    kind = "link" if member.issym() else "file" if member.isfile() else "folder"
                    data = {"link": member.linkname.encode, "file": read, "folder": bytes}[kind]()
                    archive.put(path, member.mode, data, kind)
        for name in ("bin", "sbin", "lib", "lib64"):
            archive.put(f"usr/{name}", 0o755, b"", "folder")
            archive.put(name, 0o777, f"usr/{name}".encode(), "link")
        for place, (name, data) in enumerate(order_of(MODULES, modules).items()):
            archive.put(f"modules/{place:02}-{name}.ko", 0o644, data, "file")
        for path, data in ((os.path.join(self.folder, KERNEL), image), (tree, archive.whole())):
            with open(path + ".part", "wb") as opened:
                opened.write(data)
            os.rename(path + ".part", path)

    def members(self, name: str) -> Iterator[tuple]:
        """Each member of a package: its path, what the archive says of it, and its bytes by a call."""
        with subprocess.Popen(["dpkg-deb", "--fsys-tarfile", self.files[name]], stdout=subprocess.PIPE) as unpacked:
            with tarfile.open(fileobj=unpacked.stdout, mode="r|") as archive:
                for member in archive:
                    path = re.sub("^(bin|sbin|lib|lib64)/", r"usr/\1/", re.sub("^[.]?/", "", member.name))
                    yield path, member, reader(archive, member)


def reader(archive: tarfile.TarFile, member: tarfile.TarInfo) -> Callable[[], bytes]:
    return lambda: archive.extractfile(member).read()  # type: ignore[union-attr]


def order_of(wanted: list, modules: dict) -> dict:
    """These modules and those that they need, each behind what it needs. What is no module is part of the kernel."""
    order: dict = {}

    def take(name: str) -> None:
        if name in modules and name not in order:
            data = lzma.decompress(modules[name]) if modules[name].startswith(XZ) else modules[name]
            needed = re.search(rb"\0depends=([^\0]*)\0", data)
            for other in needed[1].decode().split(",") if needed else []:
                take(other.replace("-", "_"))
            order[name] = data

    for name in wanted:
        take(name)
    return order


# ---- The guest's files.

class Archive:
    """An archive of cpio in the form that kernels unpack."""

    KINDS = {"file": 0o100000, "folder": 0o040000, "link": 0o120000, "characters": 0o020000}

    def __init__(self) -> None:
        self.parts: list = []
        self.folders: set = {""}

    def put(self, path: str, mode: int, data: bytes, kind: str, device: tuple = (0, 0)) -> None:
        """A member, with the folders above it."""
        path = path.rstrip("/")
        above = os.path.dirname(path)
        if kind == "folder" and path in self.folders:
            return
        if above not in self.folders:
            self.put(above, 0o755, b"", "folder")
        if kind == "folder":
            self.folders.add(path)
        self.member(path, self.KINDS[kind] | mode & 0o7777, data, device)

    def member(self, path: str, mode: int, data: bytes, device: tuple = (0, 0)) -> None:
        name = path.encode() + b"\0"
        numbers = [len(self.parts) + 1, mode, 0, 0, 1, 0, len(data), 0, 0, *device, len(name), 0]
        head = b"070701" + b"".join(b"%08X" % number for number in numbers) + name
        self.parts.append(head + bytes(-len(head) % 4) + data + bytes(-len(data) % 4))

    def whole(self) -> bytes:
        self.member("TRAILER!!!", 0, b"")
        return b"".join(self.parts)


# ---- What is there, and how it is had.

def systems(named: list) -> list:
    """The systems of these folders, or else all that were had; the newest kernel comes last."""
    if not shutil.which("dpkg-deb"):
        raise Lacks("there is no dpkg-deb, which reads packages; the package is dpkg")
    folders = named or [os.path.join(HOME, name) for name in packages_in(HOME) if packages_in(os.path.join(HOME, name))]
    if not folders:
        raise Lacks(f"no packages of a guest are in {HOME}; peers/linux/run --fetch has apt-get download them, some 150 MB, and "
                    "installs nothing")
    return sorted(map(System, folders), key=lambda it: [int(number) for number in re.findall("[0-9]+", it.release)])


def packages_in(folder: str) -> list:
    """The packages in a folder, and the folders."""
    entries = sorted(os.listdir(folder)) if os.path.isdir(folder) else []
    return [name for name in entries if name.endswith(".deb") or os.path.isdir(os.path.join(folder, name)) and name != PARTIAL]


def fetch(suite: Optional[str]) -> str:
    """Has apt-get download the packages, as for a machine that has none, so that all that they need comes along."""
    folder = os.path.join(HOME, suite or RELEASE)
    if not shutil.which("apt-get"):
        raise Lacks("there is no apt-get, which downloads packages")
    for name in os.listdir(folder) if os.path.isdir(folder) else []:
        if name.endswith(".deb") or name in (KERNEL, TREE):  # of an earlier time
            os.unlink(os.path.join(folder, name))
    os.makedirs(os.path.join(folder, PARTIAL), exist_ok=True)
    words = ["apt-get", "--download-only", "--yes", "--no-install-recommends", "-o", "Dir::State::status=/dev/null",
             "-o", f"Dir::Cache::archives={folder}", "-o", "Debug::NoLocking=true", "-o", "APT::Sandbox::User=root",
             *(["-t", suite] if suite else []), "install", *USED]
    for cxl in CXL:
        if subprocess.run([*words, cxl], check=False).returncode == 0:
            return folder
    raise Lacks("apt-get does not have the packages; what it says stands above")
