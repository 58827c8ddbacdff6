#!/usr/bin/env python3
"""Makes the packages of the program twice, and looks into them.

Usage: .ci/packages.py PROGRAM

Both times the bytes have to be the same, from another folder, with other rights for new files and in another time zone.
What cannot be packed has to be named, and leaves no package. `make try-packages` installs them; this does not. Prints each
difference, and ends with 1 if there is one.
"""

import glob
import hashlib
import io
import os
import subprocess
import sys
import tarfile
import tempfile
import zipfile

BUILD = os.path.abspath("packages/build.py")
LIBRARY = os.path.abspath("dist/lib")
# How a program for another machine begins, and one for a newer C library.
OTHER = b"\x7fELF\x02" + bytes(13) + b"\xb7\x00"
NEWER = b"\x7fELF\x02" + bytes(13) + b"\x3e\x00GLIBC_2.99\x00"


class Tries:
    """How many tries there were, and how many went wrong."""

    def __init__(self):
        self.tries = 0
        self.wrong = 0

    def is_same(self, name, found, wanted):
        self.tries += 1
        if found != wanted:
            self.wrong += 1
            print(f"{name}: it is {found!r:.300}, and is to be {wanted!r:.300}")


def build(target, program, words=(), mask=0o022, zone="UTC"):
    """A run of the script in another folder: its status, and what it says."""
    ran = subprocess.run(
        [sys.executable, BUILD, *words, program, target], cwd=tempfile.gettempdir(), env={**os.environ, "TZ": zone},
        preexec_fn=lambda: os.umask(mask), stdout=subprocess.DEVNULL, stderr=subprocess.PIPE, timeout=120,
    )
    return ran.returncode, ran.stderr.decode()


def files_in(folder):
    """Each file of a folder, and its bytes."""
    found = {}
    for name in sorted(os.listdir(folder)):
        with open(os.path.join(folder, name), "rb") as file:
            found[name] = file.read()
    return found


def members(archive):
    """What an archive has, by path."""
    with tarfile.open(fileobj=io.BytesIO(archive), mode="r:*") as opened:
        return {member.name: (member, opened.extractfile(member).read() if member.isfile() else b"") for member in opened}


def parts_of(package):
    """The parts of a package for Debian, by name."""
    found, at = {}, len(b"!<arch>\n")
    while at < len(package):
        name, size = package[at : at + 16].decode().strip(), int(package[at + 48 : at + 58])
        found[name] = package[at + 60 : at + 60 + size]
        at += 60 + size + size % 2
    return found


def look_into(tries, packages, program):
    """The program is in each package as it is, and runs; what belongs to somebody belongs to root; the sums are right."""
    kinds = {name.rsplit(".", 1)[-1]: data for name, data in packages.items()}
    tries.is_same("the kinds of packages", sorted(kinds), ["SHA256SUMS", "deb", "gz", "tgz", "whl"])
    sums = [f"{hashlib.sha256(packages[name]).hexdigest()}  {name}\n" for name in sorted(packages) if name != "SHA256SUMS"]
    tries.is_same("the sums", kinds["SHA256SUMS"].decode(), "".join(sums))
    for name, archive, end in [
        ("the archive", kinds["gz"], "/bin/cssmin"),
        ("the package for Debian", parts_of(kinds["deb"])["data.tar.xz"], "usr/bin/cssmin"),
        ("the package for npm", kinds["tgz"], "/linux-x64/cssmin"),
    ]:
        found = members(archive)
        (entry, data), = (found[path] for path in found if path.endswith(end))
        tries.is_same(f"the program of {name}", (oct(entry.mode), data == program), ("0o755", True))
        tries.is_same(f"the owners of {name}", {(entry.uid, entry.uname) for entry, _ in found.values()}, {(0, "root")})
        tries.is_same(f"who may write to what is in {name}", [p for p, (e, _) in found.items() if e.mode & 0o022 and not e.issym()], [])
    with zipfile.ZipFile(io.BytesIO(kinds["whl"])) as wheel:
        (entry,) = (entry for entry in wheel.infolist() if entry.filename.endswith("/bin/cssmin"))
        tries.is_same("the program of the wheel", (oct(entry.external_attr >> 16), wheel.read(entry) == program), ("0o100755", True))
        tries.is_same("what the wheel has damaged", wheel.testzip(), None)
        (record,) = (name for name in wheel.namelist() if name.endswith("/RECORD"))
        listed = [line.split(",")[0] for line in wheel.read(record).decode().splitlines()]
        tries.is_same("what the wheel lists", sorted(listed), sorted(wheel.namelist()))


def try_wrong_inputs(tries, folder, program):
    """What is not there, is no program, or is for another machine."""
    os.mkdir(folder)
    for name, data, said in [
        ("none", None, "No such file"),
        ("empty", b"", "Exec format error"),
        ("other", b"#!/bin/sh\necho cssmin 1.0.0\n", "is not for Linux on x86-64"),
        ("unnamed", b"#!/bin/sh\necho hello\n", "does not tell its version"),
    ]:
        path, target = os.path.join(folder, name), os.path.join(folder, f"{name}-packages")
        if data is not None:
            with open(path, "wb") as file:
                file.write(data)
            os.chmod(path, 0o755)
        status, text = build(target, path)
        tries.is_same(f"a program that is {name}", (status, path in text and said in text, os.path.exists(target)), (1, True, False))
    for name, data, said in [("another", OTHER, "is not for Linux on x86-64"), ("newer", NEWER, "needs glibc 2.99")]:
        addon, target = os.path.join(folder, name), os.path.join(folder, f"{name}-packages")
        with open(addon, "wb") as file:
            file.write(data)
        status, text = build(target, program, ["--addon", addon])
        tries.is_same(f"an addon that is {name}", (status, addon in text and said in text, os.path.exists(target)), (1, True, False))
    status, text = build(os.path.join(folder, "library"), program, ["--library", folder])
    tries.is_same("a library that is not there", (status, "/libcssmin." in text and "No such file" in text), (1, True))
    status, text = build(os.path.join(folder, "empty", "target"), program)
    tries.is_same("a target that cannot be made", (status, text.startswith("build.py: ")), (1, True))


def main():
    if len(sys.argv) != 2:
        sys.exit(__doc__)
    program = os.path.abspath(sys.argv[1])
    words = ["--library", LIBRARY] if glob.glob(os.path.join(LIBRARY, "libcssmin.so.*.*.*")) else []
    tries = Tries()
    with tempfile.TemporaryDirectory() as folder:
        one, other = (os.path.join(folder, name, "packages") for name in ["one", "other"])
        for target in [one, other]:
            os.mkdir(os.path.dirname(target))
        tries.is_same("the first time", build(one, program, words), (0, ""))
        tries.is_same("the second time", build(other, program, words, mask=0o077, zone="Asia/Tokyo"), (0, ""))
        tries.is_same("whether both times give the same", files_in(one) == files_in(other), True)
        with open(program, "rb") as file:
            look_into(tries, files_in(one), file.read())
        try_wrong_inputs(tries, os.path.join(folder, "wrong"), program)
    print(f"{tries.tries} tries of the packages, {tries.wrong} differences")
    sys.exit(tries.wrong > 0)


main()
