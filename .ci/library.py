#!/usr/bin/env python3
"""Tries the built library for C from C: what no clause can say of its calls.

Usage: .ci/library.py

It installs the library that `make library` built into a temporary folder, and compares what it gives out with the calls
of the header. Then it runs the programs of library/tests, with the archive and with the shared object, and the one of
docs/USING.md; where the compiler can, also with its sanitizers. Without a built library, a C compiler or `make` it
tries nothing, and says so: to build the library proves all that it uses once more. Prints each difference, and ends
with 1 where there is one.
"""

import glob
import os
import re
import shutil
import subprocess
import sys
import tempfile

# what `make library` builds
ARCHIVE = "crates/cssmin_c/out/libcssmin_c.a"
# what the shared object may have at most
MOST_BYTES = 1_000_000
# what a call may need at most
STACK_KIB = "256"
WARNINGS = ["-std=c11", "-D_POSIX_C_SOURCE=200809L", "-O1", "-Wall", "-Wextra", "-Wpedantic", "-Werror"]
SANITIZERS = ["-g", "-fsanitize=address,undefined", "-fno-sanitize-recover=all"]
WRAPPED = ["-Wl,--wrap=malloc,--wrap=realloc,--wrap=free"]
CALL = re.compile(r"^uint32_t (\w+)\(", re.M)
# the program of docs/USING.md: lines with an indent of four, from its first include to the end of `main`
EXAMPLE = re.compile(r"^    #include <cssmin\.h>\n(?:    .*\n|\n)*?    }\n", re.M)


def text_of(path):
    with open(path, encoding="utf-8") as file:
        return file.read()


def version():
    """The version of the program, which is that of the library: its text, and the number that the call gives."""
    text = re.search(r'^pub const VERSION: &str = "([\d.]+)";$', text_of("crates/command_texts/src/texts.rt"), re.M)[1]
    first, second, third = map(int, text.split("."))
    return text, 10_000 * first + 100 * second + third


class Tries:
    """The installed library, how often it was tried, and how often that went wrong."""

    def __init__(self, folder):
        self.folder = folder
        self.prefix = os.path.join(folder, "usr")
        self.compiler = os.environ.get("CC", "cc")
        self.tries = 0
        self.wrong = 0

    def path(self, name):
        return os.path.join(self.prefix, name)

    def is_same(self, name, found, wanted):
        self.tries += 1
        if found != wanted:
            self.wrong += 1
            print(f"{name}: it is {found!r:.400}, and is to be {wanted!r:.400}")

    def run(self, name, words, **how):
        """A command that is to end with 0. Answers whether it did."""
        ran = subprocess.run(words, stdout=subprocess.PIPE, stderr=subprocess.STDOUT, timeout=600, **how)
        self.is_same(name, (ran.returncode, ran.stdout.decode(errors="replace") if ran.returncode else ""), (0, ""))
        return ran.returncode == 0

    def build(self, source, flags, links):
        """A program in C, built as a caller of the installed library. None where it cannot be built."""
        program = os.path.join(self.folder, os.path.splitext(os.path.basename(source))[0])
        words = [self.compiler, *WARNINGS, *flags, "-I", self.path("include"), "-o", program, source, *links]
        return program if self.run(f"compiling {source}", words) else None

    def try_program(self, name, arguments, flags=(), links=None):
        """A program of library/tests, which is to end with 0."""
        flags = [f"-DWANTED_VERSION={version()[1]}", *flags]
        program = self.build(f"library/tests/{name}.c", flags, links or [self.path("lib/libcssmin.a"), "-pthread"])
        if program is not None:
            self.run(" ".join([name, *flags]), [program, *arguments], env=self.environment())

    def environment(self):
        return {**os.environ, "LD_LIBRARY_PATH": self.path("lib")}

    def names_in(self, words, path):
        ran = subprocess.run(["nm", *words, "--defined-only", self.path(path)], stdout=subprocess.PIPE, check=True, text=True)
        return sorted({line.split()[2].split("@")[0] for line in ran.stdout.splitlines() if re.match(r"[0-9a-f]+ T ", line)})


def try_install(tries):
    words = ["make", "-s", "-o", ARCHIVE, "install-library", f"DESTDIR={tries.folder}", "PREFIX=/usr"]
    if not tries.run("make install-library", words):
        sys.exit(1)


def try_names(tries):
    """What is given out is what the header has, under the version."""
    calls = sorted(CALL.findall(text_of("library/cssmin.h")))
    tries.is_same("the names of the archive", tries.names_in(["-g"], "lib/libcssmin.a"), calls)
    tries.is_same("the names of the shared object", tries.names_in(["-D"], "lib/libcssmin.so"), calls)
    size = os.path.getsize(tries.path("lib/libcssmin.so"))
    tries.is_same("whether the shared object is small", size < MOST_BYTES, True)
    kept = re.search(r"^Version: (.*)$", text_of(tries.path("lib/pkgconfig/cssmin.pc")), re.M)
    tries.is_same("the version for pkg-config", kept[1], version()[0])


def try_header(tries):
    """The header is read as C++ too."""
    compiler = os.environ.get("CXX", "c++")
    if shutil.which(compiler):
        words = [compiler, "-Wall", "-Wextra", "-Werror", "-fsyntax-only", "-x", "c++", tries.path("include/cssmin.h")]
        tries.run("the header as C++", words)


def can_sanitize(tries):
    """Whether the compiler has its sanitizers here."""
    words = [tries.compiler, *SANITIZERS, "-x", "c", "-", "-o", os.path.join(tries.folder, "empty")]
    return subprocess.run(words, input=b"int main(void) { return 0; }", stderr=subprocess.DEVNULL).returncode == 0


def try_programs(tries):
    texts = sorted(glob.glob("examples/*.min.css"))
    sheets = [text.replace(".min.css", ".css") for text in texts]
    pairs = [name for pair in zip(sheets, texts) for name in pair]
    tries.try_program("calls", pairs)
    tries.try_program("calls", pairs, links=["-L", tries.path("lib"), "-lcssmin"])
    tries.try_program("threads", [STACK_KIB, *sheets])
    tries.try_program("memory", [], links=[*WRAPPED, tries.path("lib/libcssmin.a")])
    if can_sanitize(tries):
        tries.try_program("calls", pairs, flags=SANITIZERS)
        tries.try_program("threads", ["1024", *sheets], flags=SANITIZERS)
    else:
        print(f"{tries.compiler} has no sanitizers here: the library was tried without")


def pkg_config(tries):
    """How a caller links the installed library, by its file for pkg-config where that is there."""
    if shutil.which("pkg-config") is None:
        return ["-L", tries.path("lib"), "-lcssmin"]
    env = {**os.environ, "PKG_CONFIG_PATH": tries.path("lib/pkgconfig"), "PKG_CONFIG_SYSROOT_DIR": tries.folder}
    ran = subprocess.run(["pkg-config", "--cflags", "--libs", "cssmin"], env=env, stdout=subprocess.PIPE, text=True)
    return ran.stdout.split()


def try_example(tries):
    """The program of docs/USING.md merges a sheet."""
    source = os.path.join(tries.folder, "minify.c")
    with open(source, "w", encoding="utf-8") as file:
        file.write(re.sub(r"^    ", "", EXAMPLE.search(text_of("docs/USING.md"))[0], flags=re.M))
    program = tries.build(source, [], pkg_config(tries))
    if program is not None:
        with open("examples/atomic.css", "rb") as sheet:
            ran = subprocess.run([program], stdin=sheet, stdout=subprocess.PIPE, env=tries.environment(), timeout=60)
        tries.is_same("what the program of docs/USING.md makes", ran.stdout.decode(), text_of("examples/atomic.min.css"))


def main():
    if len(sys.argv) != 1:
        sys.exit(__doc__)
    os.chdir(os.path.join(os.path.dirname(os.path.abspath(__file__)), ".."))
    if not os.path.exists(ARCHIVE):
        print("the library for C was not tried: `make library` has not built it")
        return
    for tool in ("make", os.environ.get("CC", "cc")):
        if shutil.which(tool) is None:
            print(f"{tool} is not here: the library for C was not tried")
            return
    with tempfile.TemporaryDirectory() as folder:
        tries = Tries(folder)
        try_install(tries)
        try_names(tries)
        try_header(tries)
        try_programs(tries)
        try_example(tries)
    print(f"{tries.tries} tries of the library, {tries.wrong} differences")
    sys.exit(1 if tries.wrong else 0)


main()
