#!/usr/bin/env python3
"""Tries packages: installs each in a temporary folder, runs it and removes it.

Usage: packages/try.py FOLDER

FOLDER is what packages/build.py wrote. What the machine has no tool for is named. Nothing outside of temporary folders
changes, and no network is used. Prints each command that went wrong, and ends with 1 if one did.
"""

import glob
import hashlib
import os
import shutil
import subprocess
import sys
import tempfile

TOP = os.path.dirname(os.path.dirname(os.path.abspath(__file__)))
SHEET = os.path.join(TOP, "examples", "handbook.css")
SMALLER = os.path.join(TOP, "examples", "handbook.min.css")


class Failure(Exception):
    """What went wrong."""


class Missing(Exception):
    """What the machine has not."""


def read(path):
    with open(path, "rb") as file:
        return file.read()


def need(*tools):
    for tool in tools:
        if shutil.which(tool) is None:
            raise Missing(f"no {tool}")


def run(*words, status=0, **more):
    """Runs a command to this end. Gives what it writes."""
    streams = {"stdin": subprocess.DEVNULL} if "input" not in more else {}
    try:
        ran = subprocess.run(words, stdout=subprocess.PIPE, stderr=subprocess.STDOUT, timeout=300, **streams, **more)
    except subprocess.TimeoutExpired as error:
        raise Failure(str(error)) from None
    if ran.returncode != status:
        raise Failure(f"{' '.join(words)} ended with {ran.returncode}:\n{ran.stdout.decode(errors='replace')}")
    return ran.stdout


def expect(what, found, wanted):
    if found != wanted:
        raise Failure(f"{what}: {found!r:.200}, and is to be {wanted!r:.200}")


def expect_program(*words):
    """A command is the program."""
    expect(words[0], run(*words, "min", input=read(SHEET)), read(SMALLER))
    expect(words[0], run(*words, "cmp", "a:link", "a:visited"), b"disjoint\n")


def files_in(folder):
    return sorted(os.path.join(path, name) for path, _, names in os.walk(folder) for name in names)


# What calls the library, by the header alone.
CALLER = r"""
#include <cssmin.h>
#include <stdio.h>
int main(void) {
    static uint8_t sheet[1 << 20], text[1 << 20];
    struct cssmin_told told;
    size_t length = fread(sheet, 1, sizeof sheet, stdin);
    if (cssmin_min(sheet, length, CSSMIN_NO_LIMIT, text, length, &told) != CSSMIN_DONE) return 1;
    return fwrite(text, 1, told.length, stdout) != told.length;
}
"""


def try_library(folder, config, *flags):
    """A program in C that pkg-config finds the library for: shared and static."""
    need("cc", "pkg-config")
    source = os.path.join(folder, "caller.c")
    with open(source, "w", encoding="ascii") as file:
        file.write(CALLER)
    env = {**os.environ, "PKG_CONFIG_PATH": config, "PKG_CONFIG_SYSROOT_DIR": ""}
    found = run("pkg-config", *flags, "--cflags", "--libs", "cssmin", env=env).decode().split()
    places = [word[2:] for word in found if word.startswith("-L")]
    caller = os.path.join(folder, "caller")
    run("cc", "-o", caller, source, *found)
    env = {**os.environ, "LD_LIBRARY_PATH": os.pathsep.join(places)}
    expect("a caller of the shared object", run(caller, input=read(SHEET), env=env), read(SMALLER))
    run("cc", "-o", caller, source, *(word for word in found if word != "-lcssmin"), "-l:libcssmin.a")
    expect("a caller of the archive", run(caller, input=read(SHEET)), read(SMALLER))


def try_archive(package, folder):
    need("tar")
    run("tar", "-xzf", package, "-C", folder)
    root = package_root(folder)
    expect_program(os.path.join(root, "bin", "cssmin"))
    for path in ["share/man/man1/cssmin.1", "LICENSE", "README.md"]:
        expect(path, os.path.exists(os.path.join(root, path)), True)
    if os.path.exists(os.path.join(root, "include")):
        try_library(folder, os.path.join(root, "lib", "pkgconfig"))


def package_root(folder):
    (name,) = os.listdir(folder)
    return os.path.join(folder, name)


def try_deb(package, folder):
    """As dpkg installs it into another root, with its own list of packages."""
    need("dpkg", "dpkg-deb")
    root, admin = os.path.join(folder, "root"), os.path.join(folder, "admin")
    for name in ["info", "updates", "triggers"]:
        os.makedirs(os.path.join(admin, name))
    for name in ["status", "available"]:
        open(os.path.join(admin, name), "w", encoding="ascii").close()
    os.mkdir(root)
    # there is no libc6 in the root, and nobody has to be root
    dpkg = ["dpkg", f"--instdir={root}", f"--admindir={admin}", f"--log={folder}/log", "--force-not-root",
            "--force-depends", "--force-bad-path", "--force-script-chrootless"]
    run(*dpkg, "--install", package)
    expect_program(os.path.join(root, "usr", "bin", "cssmin"))
    listed = run(*dpkg, "--verify", "cssmin-proved")
    expect("what dpkg finds changed", listed, b"")
    if os.path.exists(os.path.join(root, "usr", "include")):
        config = glob.glob(os.path.join(root, "usr", "lib", "*", "pkgconfig"))[0]
        try_library(folder, config, f"--define-variable=prefix={root}/usr", f"--define-variable=libdir={os.path.dirname(config)}")
    other = debian_cssmin(folder)
    run(*dpkg, "--install", other, status=1)
    run(*dpkg, "--remove", "cssmin-proved")
    expect("what is left", files_in(root), [])
    run(*dpkg, "--install", other)
    run(*dpkg, "--install", package, status=1)


def debian_cssmin(folder):
    """An empty package with the name of Debian's."""
    source = os.path.join(folder, "other")
    os.makedirs(os.path.join(source, "DEBIAN"))
    with open(os.path.join(source, "DEBIAN", "control"), "w", encoding="ascii") as file:
        file.write("Package: cssmin\nVersion: 1\nArchitecture: all\nMaintainer: nobody\nDescription: empty\n")
    os.chmod(os.path.join(source, "DEBIAN"), 0o755)
    run("dpkg-deb", "--root-owner-group", "--build", source, f"{source}.deb")
    return f"{source}.deb"


CALL = """
import assert from 'node:assert/strict'
import { readFileSync } from 'node:fs'
import { compare, minify, minifySync, postcss, vite, esbuild } from 'cssmin-proved'
const [sheet, wanted] = process.argv.slice(2).map(name => readFileSync(name))
assert.equal(minifySync(sheet, { licences: false }).css, wanted.toString())
assert.equal((await minify(sheet, { licences: false })).css, wanted.toString())
assert.equal(compare('a:link', 'a:visited'), 'disjoint\\n')
for (const plugin of [postcss, vite, esbuild]) assert.ok(plugin())
"""


def try_npm(package, folder):
    need("node", "npm", "npx")
    # no settings, no cache and no program of the machine
    env = {name: value for name, value in os.environ.items() if not name.startswith(("CSSMIN", "npm_"))}
    env.update(HOME=folder, npm_config_cache=os.path.join(folder, "cache"), npm_config_update_notifier="false", npm_config_offline="true")
    with open(os.path.join(folder, "package.json"), "w", encoding="ascii") as file:
        file.write('{ "private": true, "type": "module" }\n')
    for name, text in [("try.mjs", CALL), ("broken.css", 'p{top:0}\na{color:"red\n}\n')]:
        with open(os.path.join(folder, name), "w", encoding="ascii") as file:
            file.write(text)
    run("npm", "install", "--offline", "--no-audit", "--no-fund", package, cwd=folder, env=env)
    for more in [{}, {"CSSMIN_PROCESS": "1"}]:
        run("node", "try.mjs", SHEET, SMALLER, cwd=folder, env={**env, **more})
        run("npx", "--no-install", "cssmin", "--no-licences", SHEET, "-o", "small.css", cwd=folder, env={**env, **more})
        expect("small.css", read(os.path.join(folder, "small.css")), read(SMALLER))
    said = run("npx", "--no-install", "cssmin", "broken.css", status=1, cwd=folder, env=env)
    expect("what is said of broken.css", said.split(b":")[:4], [b"broken.css", b"2", b"9", b" BadString"])
    run("npm", "uninstall", "--offline", "--no-audit", "--no-fund", "cssmin-proved", cwd=folder, env=env)
    left = [path for path in files_in(os.path.join(folder, "node_modules")) if not path.endswith(".package-lock.json")]
    expect("what is left", left, [])


def try_wheel(package, folder):
    if subprocess.run([sys.executable, "-c", "import venv, ensurepip"], stderr=subprocess.DEVNULL).returncode != 0:
        raise Missing("no venv of Python")
    env = {name: value for name, value in os.environ.items() if not name.startswith(("CSSMIN", "PYTHON", "PIP"))}
    place = os.path.join(folder, "venv")
    run(sys.executable, "-m", "venv", place, env=env)
    before = files_in(place)
    python = os.path.join(place, "bin", "python")
    pip = [python, "-m", "pip", "--disable-pip-version-check", "--no-cache-dir"]
    run(*pip, "install", "--no-index", package, env=env)
    call = "import sys, cssmin_proved as c; s, w = (open(n, 'rb').read() for n in sys.argv[1:]); assert c.minify(s) == w"
    for more in [{}, {"CSSMIN_PROCESS": "1"}]:
        run(python, "-c", f"{call}; assert c.compare('a:link', 'a:visited') == 'disjoint\\n'", SHEET, SMALLER, env={**env, **more})
    expect_program(os.path.join(place, "bin", "cssmin"))
    run(*pip, "uninstall", "--yes", "cssmin-proved", env=env)
    expect("what is left", [path for path in files_in(place) if path not in before and "__pycache__" not in path], [])


def check_sums(folder):
    """The sums are those of the packages, and there is one of each."""
    for line in read(os.path.join(folder, "SHA256SUMS")).decode().splitlines():
        digest, name = line.split("  ")
        expect(f"the sum of {name}", hashlib.sha256(read(os.path.join(folder, name))).hexdigest(), digest)


KINDS = [("*.tar.gz", try_archive), ("*.deb", try_deb), ("*.tgz", try_npm), ("*.whl", try_wheel)]


def main():
    if len(sys.argv) != 2 or not os.path.exists(os.path.join(sys.argv[1], "SHA256SUMS")):
        sys.exit(__doc__)
    packages = os.path.abspath(sys.argv[1])
    check_sums(packages)
    failed = False
    for pattern, attempt in KINDS:
        for package in glob.glob(os.path.join(packages, pattern)):
            with tempfile.TemporaryDirectory() as folder:
                try:
                    attempt(package, folder)
                    result = "installed, run and removed"
                except Missing as missing:
                    result = f"not tried: {missing}"
                except Failure as failure:
                    failed, result = True, f"failed: {failure}"
            print(f"{os.path.basename(package)}: {result}", flush=True)
    sys.exit(failed)


main()
