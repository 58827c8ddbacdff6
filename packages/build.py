#!/usr/bin/env python3
"""Makes the packages of a built program.

Usage: packages/build.py [--library FOLDER] [--addon FILE] PROGRAM TARGET

Writes into the folder TARGET, for Linux on x86-64, an archive, a package for Debian, one for npm and one for Python, and
their SHA-256 sums. With `--library` they have the library for C of this folder, which Python calls too; with `--addon` node
calls the addon FILE. The same inputs give the same bytes, whenever and by whomever it is run. It needs no tool but Python.
"""

import argparse
import base64
import gzip
import hashlib
import io
import json
import lzma
import os
import re
import struct
import subprocess
import sys
import zipfile

TOP = os.path.dirname(os.path.dirname(os.path.abspath(__file__)))
NAME = "cssmin-proved"  # Debian has another program `cssmin`
SUMMARY = "CSS minifier that is proved to keep every winner of the cascade"
DATE = 499162500  # of all files, as npm has it: 1985-10-26
GLIBC = (2, 34)  # which all that is packed may need
DEB_FOLDER = "usr/lib/x86_64-linux-gnu"
PLATFORM = "linux-x64"


class Failure(Exception):
    """Why there are no packages."""


class File:
    """What a package has at a path: its bytes and its mode, or where a link leads."""

    def __init__(self, data=b"", mode=0o644, link=None):
        self.data, self.mode, self.link = data, mode, link


def read(path):
    try:
        with open(path, "rb") as file:
            return file.read()
    except OSError as error:
        raise Failure(f"{path}: {error.strerror}") from None


def text_of(path):
    """A file of the repository, to be packed."""
    return File(read(os.path.join(TOP, path)))


def binary(path, mode=0o755):
    """What the machine runs: for this kind of machine, and no newer C library than the packages say."""
    data = read(path)
    if data[:5] != b"\x7fELF\x02" or data[18:20] != b"\x3e\x00":
        raise Failure(f"{path} is not for Linux on x86-64")
    needs = max([tuple(map(int, found)) for found in re.findall(rb"GLIBC_(\d+)\.(\d+)", data)], default=(0, 0))
    if needs > GLIBC:
        raise Failure(f"{path} needs glibc {needs[0]}.{needs[1]}, and the packages say {GLIBC[0]}.{GLIBC[1]}")
    return File(data, mode)


def version_of(program):
    try:
        said = subprocess.run([program, "--version"], stdout=subprocess.PIPE, timeout=60).stdout.decode()
    except OSError as error:
        raise Failure(f"{program}: {error.strerror}") from None
    found = re.fullmatch(r"cssmin (\d+\.\d+\.\d+)\n", said)
    if found is None:
        raise Failure(f"{program} does not tell its version")
    return found[1]


def zipped(data):
    """As gzip compresses, without a name or a date."""
    out = io.BytesIO()
    with gzip.GzipFile("", "wb", 9, out, mtime=0) as file:
        file.write(data)
    return out.getvalue()


def tar_entry(path, file):
    """A file, a link or, where there is no file, a folder, in the format ustar of POSIX. Versions of Python's tarfile differ."""
    if file is None:
        path, mode, data, kind, link = f"{path}/", 0o755, b"", b"5", ""
    elif file.link is not None:
        mode, data, kind, link = 0o777, b"", b"2", file.link
    else:
        mode, data, kind, link = file.mode, file.data, b"0", ""
    if len(path) > 100:
        raise Failure(f"{path} is too long for an archive")
    numbers = [b"%07o" % mode, b"%07o" % 0, b"%07o" % 0, b"%011o" % len(data), b"%011o" % DATE]
    fields = [path.encode(), *numbers, b" " * 8, kind, link.encode(), b"ustar", b"00", b"root", b"root", b"%07o" % 0, b"%07o" % 0, b""]
    header = bytearray(struct.pack("100s8s8s8s12s12s8s1s100s6s2s32s32s8s8s155s12x", *fields))
    header[148:156] = b"%06o\0 " % sum(header)
    return bytes(header) + data + bytes(-len(data) % 512)


def tar(files):
    """An archive of these files and of their folders, all of which belong to root."""
    folders = {os.path.dirname(path) for path in files}
    for path in list(folders):
        while os.path.dirname(path):
            path = os.path.dirname(path)
            folders.add(path)
    paths = sorted({*files, *folders} - {""})
    return b"".join(tar_entry(path, files.get(path)) for path in paths) + bytes(1024)


def below(folder, files):
    return {f"{folder}/{path}": file for path, file in files.items()}


def library_files(folder, version, prefix):
    """The library for C below `lib`, with its header, and a file for pkg-config where the prefix is this one."""
    shared = f"libcssmin.so.{version}"
    major = f"libcssmin.so.{version.split('.')[0]}"
    config = text_of("library/cssmin.pc.in").data.decode().replace("@PREFIX@", prefix).replace("@VERSION@", version)
    return {
        "include/cssmin.h": text_of("library/cssmin.h"),
        "lib/libcssmin.a": File(read(os.path.join(folder, "libcssmin.a"))),
        f"lib/{shared}": binary(os.path.join(folder, shared), 0o644),
        f"lib/{major}": File(link=shared),
        "lib/libcssmin.so": File(link=major),
        "lib/pkgconfig/cssmin.pc": File(config.encode()),
    }


def archive(program, version, library):
    """An archive that can be unpacked anywhere."""
    files = {
        "bin/cssmin": program,
        "share/man/man1/cssmin.1": text_of("docs/cssmin.1"),
        "share/bash-completion/completions/cssmin": text_of("completions/cssmin.bash"),
        "share/zsh/site-functions/_cssmin": text_of("completions/_cssmin"),
        "share/fish/vendor_completions.d/cssmin.fish": text_of("completions/cssmin.fish"),
        **{path: text_of(path) for path in ["LICENSE", "README.md", "CHANGELOG.md", "docs/USING.md", "docs/TRUST.md"]},
        **(library_files(library, version, "${pcfiledir}/../..") if library else {}),
    }
    name = f"cssmin-{version}-{PLATFORM}"
    return f"{name}.tar.gz", zipped(tar(below(name, files)))


def deb(program, version, library):
    """A package for Debian, in the format of deb(5)."""
    doc = f"usr/share/doc/{NAME}"
    files = {
        "usr/bin/cssmin": program,
        "usr/share/man/man1/cssmin.1.gz": File(zipped(text_of("docs/cssmin.1").data)),
        "usr/share/bash-completion/completions/cssmin": text_of("completions/cssmin.bash"),
        "usr/share/zsh/vendor-completions/_cssmin": text_of("completions/_cssmin"),
        "usr/share/fish/vendor_completions.d/cssmin.fish": text_of("completions/cssmin.fish"),
        f"{doc}/copyright": text_of("LICENSE"),
        f"{doc}/changelog.gz": File(zipped(text_of("CHANGELOG.md").data)),
        f"{doc}/README.md": text_of("README.md"),
        f"{doc}/docs/USING.md": text_of("docs/USING.md"),
        f"{doc}/docs/TRUST.md": text_of("docs/TRUST.md"),
    }
    control = {}
    if library:
        for path, file in library_files(library, version, "/usr").items():
            files[re.sub("^usr/lib", DEB_FOLDER, f"usr/{path}")] = file
        config = files[f"{DEB_FOLDER}/pkgconfig/cssmin.pc"]
        config.data = config.data.replace(b"${prefix}/lib", f"/{DEB_FOLDER}".encode())
        control["triggers"] = File(b"activate-noawait ldconfig\n")
    size = sum(-(-len(file.data) // 1024) for file in files.values())
    control["control"] = File(
        text_of("packages/control.in").data.decode()
        .replace("@NAME@", NAME).replace("@VERSION@", version).replace("@SIZE@", str(size))
        .replace("@GLIBC@", "%d.%d" % GLIBC).replace("@SUMMARY@", SUMMARY).encode()
    )
    sums = [f"{hashlib.md5(file.data).hexdigest()}  {path}\n" for path, file in sorted(files.items()) if file.link is None]
    control["md5sums"] = File("".join(sums).encode())
    members = [
        ("debian-binary", b"2.0\n"),
        ("control.tar.xz", lzma.compress(tar(control))),
        ("data.tar.xz", lzma.compress(tar(files))),
    ]
    out = b"!<arch>\n"
    for name, data in members:
        out += f"{name:<16}{DATE:<12}{0:<6}{0:<6}{'100644':<8}{len(data):<10}`\n".encode() + data + b"\n" * (len(data) % 2)
    return f"{NAME}_{version}_amd64.deb", out


def npm(program, version, addon):
    """A package for npm, as `npm pack` writes it."""
    folder = os.path.join(TOP, "bindings", "node")
    names = [name for name in sorted(os.listdir(folder)) if name.endswith((".mjs", ".d.mts"))]
    about = json.loads(text_of("bindings/node/package.json.in").data)
    about["version"] = version
    files = {
        "package.json": File((json.dumps(about, indent=2) + "\n").encode()),
        "README.md": text_of("bindings/node/README.md"),
        "LICENSE": text_of("LICENSE"),
        **{name: text_of(f"bindings/node/{name}") for name in names},
        f"bin/{PLATFORM}/cssmin": program,
        **({f"bin/{PLATFORM}/cssmin.node": binary(addon)} if addon else {}),
    }
    files["cli.mjs"].mode = 0o755
    return f"{NAME}-{version}.tgz", zipped(tar(below("package", files)))


def wheel(program, version, library):
    """A package for Python: a wheel, in the format of PEP 427."""
    package = NAME.replace("-", "_")
    tag = "py3-none-manylinux_%d_%d_x86_64" % GLIBC
    info = f"{package}-{version}.dist-info"
    about = f"""Metadata-Version: 2.1
Name: {NAME}
Version: {version}
Summary: {SUMMARY}
License: MIT
Requires-Python: >=3.8
Description-Content-Type: text/markdown

"""
    files = {
        **{f"{package}/{name}": text_of(f"bindings/python/{package}/{name}") for name in ["__init__.py", "__main__.py"]},
        f"{package}/bin/cssmin": program,
        **({f"{package}/libcssmin.so": binary(os.path.join(library, f"libcssmin.so.{version}"))} if library else {}),
        f"{info}/LICENSE": text_of("LICENSE"),
        f"{info}/METADATA": File(about.encode() + text_of("bindings/python/README.md").data),
        f"{info}/WHEEL": File(f"Wheel-Version: 1.0\nGenerator: {NAME}\nRoot-Is-Purelib: false\nTag: {tag}\n".encode()),
        f"{info}/entry_points.txt": File(f"[console_scripts]\ncssmin = {package}:main\n".encode()),
    }
    record = ""
    for path, file in files.items():
        digest = base64.urlsafe_b64encode(hashlib.sha256(file.data).digest()).rstrip(b"=").decode()
        record += f"{path},sha256={digest},{len(file.data)}\n"
    files[f"{info}/RECORD"] = File(f"{record}{info}/RECORD,,\n".encode())
    out = io.BytesIO()
    with zipfile.ZipFile(out, "w", zipfile.ZIP_DEFLATED) as packed:
        for path, file in files.items():
            entry = zipfile.ZipInfo(path)  # its date is the first one that the format has
            entry.compress_type = zipfile.ZIP_DEFLATED
            entry.create_system = 3
            entry.external_attr = (0o100000 | file.mode) << 16
            packed.writestr(entry, file.data)
    return f"{package}-{version}-{tag}.whl", out.getvalue()


def packages(program, library=None, addon=None):
    """The name and the bytes of each package, and of the file with their sums."""
    version = version_of(program)
    packed = binary(program)
    made = [npm(packed, version, addon), wheel(packed, version, library), archive(packed, version, library), deb(packed, version, library)]
    sums = [f"{hashlib.sha256(data).hexdigest()}  {name}\n" for name, data in sorted(made)]
    return [*made, ("SHA256SUMS", "".join(sums).encode())]


def main():
    parser = argparse.ArgumentParser(description="Makes the packages of a built program.")
    parser.add_argument("--library", metavar="FOLDER", help="where libcssmin.a and libcssmin.so.VERSION are")
    parser.add_argument("--addon", metavar="FILE", help="the addon for node")
    parser.add_argument("program", metavar="PROGRAM")
    parser.add_argument("target", metavar="TARGET")
    words = parser.parse_args()
    try:
        made = packages(os.path.abspath(words.program), words.library, words.addon)
        os.makedirs(words.target, exist_ok=True)
        for name, data in made:
            with open(os.path.join(words.target, name), "wb") as file:
                file.write(data)
            print(f"{len(data):>9} {os.path.join(words.target, name)}")
    except (Failure, OSError) as error:
        sys.exit(f"build.py: {error}")


if __name__ == "__main__":
    main()
