"""The calls, by processes (CSSMIN) or by the library (CSSMIN_LIBRARY), against the program that CSSMIN_PROGRAM names."""

import glob
import os
import re
import subprocess
import sys
import threading
import unittest

import cssmin_proved
from cssmin_proved import Refused, compare, minify

TOP = os.path.join(os.path.dirname(os.path.abspath(__file__)), "..", "..", "..")
PROGRAM = os.environ["CSSMIN_PROGRAM"]


def read(path):
    with open(path, "rb") as file:
        return file.read()


def examples():
    """Each sheet of the examples, and what it becomes."""
    for path in sorted(glob.glob(os.path.join(TOP, "examples", "*.min.css"))):
        yield read(path.replace(".min.css", ".css")), read(path)


class Minify(unittest.TestCase):
    def test_examples_have_the_bytes_of_the_program(self):
        self.assertTrue(list(examples()))
        for sheet, wanted in examples():
            self.assertEqual(minify(sheet), wanted)
            self.assertEqual(minify(sheet.decode()), wanted.decode())

    def test_a_sheet_is_text_or_bytes(self):
        for empty in ["", b"", bytearray()]:
            self.assertEqual(len(minify(empty)), 0)
        self.assertEqual(minify("é { top : 0 }"), "é{top:0}")
        self.assertEqual(minify(bytearray(b"a { top : 0 }")), b"a{top:0}")
        self.assertEqual(minify(memoryview(b"xa { top : 0 }x")[1:-1]), b"a{top:0}")
        self.assertEqual(minify("a{top:0}\0"), minify(b"a{top:0}\0").decode())

    def test_what_is_no_sheet_is_refused_by_its_type(self):
        for what in [None, 5, [97], object(), open]:
            self.assertRaises(TypeError, minify, what)
        self.assertRaises(UnicodeEncodeError, minify, "\ud800")

    def test_a_budget_is_a_number_from_0_to_20000(self):
        for budget in [-1, 20_001, 1.0, "7", True]:
            self.assertRaises(ValueError, minify, "a{}", budget=budget)
            self.assertRaises(ValueError, compare, "a", "b", budget=budget)
        self.assertEqual(minify("a { top : 0 }", budget=0), "a{top:0}")

    def test_a_refused_sheet_has_the_place_of_the_program(self):
        for sheet in [
            'a{}\né{b:"x\n',
            "\ufeffa{top:0}\r\n\r\U0001f600{b:url(a b",
            "\ufeff{",
            "p{}\r{",
            "/* \n\r\n\r",
            "@namespace a;",
            "(" * 257,
            b"a{}\n\xe9\xff",
        ]:
            source = sheet if isinstance(sheet, bytes) else sheet.encode()
            said = subprocess.run([PROGRAM, "list"], input=source, stderr=subprocess.PIPE).stderr.decode()
            kind, *place = re.fullmatch(r"refused: (\w+) at (\d+) \((\d+):(\d+)\)\n", said).groups()
            with self.assertRaises(Refused) as caught:
                minify(sheet, name="site.css")
            error = caught.exception
            self.assertEqual([error.kind, error.offset, error.line, error.column], [kind, *map(int, place)])
            self.assertTrue(str(error).startswith(f"site.css:{error.line}:{error.column}: {kind}: "))

    def test_a_sheet_that_is_too_long_is_refused(self):
        with self.assertRaises(Refused) as caught:
            minify(b" " * (3 << 20))
        self.assertEqual((caught.exception.kind, caught.exception.offset), ("TooLong", 1_048_576))

    def test_threads_do_not_mix(self):
        sheets = list(examples())
        found = [None] * 8

        def work(k):
            found[k] = minify(sheets[k % len(sheets)][0])

        threads = [threading.Thread(target=work, args=(k,)) for k in range(len(found))]
        for thread in threads:
            thread.start()
        for thread in threads:
            thread.join()
        self.assertEqual(found, [sheets[k % len(sheets)][1] for k in range(len(found))])


class Compare(unittest.TestCase):
    def test_two_selectors_are_compared(self):
        self.assertEqual(compare("a:link", "a:visited"), "disjoint\n")
        self.assertEqual(compare("a:link", "a:visited", budget=0), "disjoint\n")
        self.assertEqual(compare("", "a"), "outside 10\n")
        self.assertEqual(compare("-a", "a"), "disjoint\n")
        self.assertRegex(compare("." + "x" * 3000, "a"), r"^overlap\n(.+\n)+$")
        self.assertRaises(TypeError, compare, "a", b"b")
        self.assertRaises(TypeError, compare, None, "b")


class Process(unittest.TestCase):
    def test_the_library_is_called_if_it_is_asked_for(self):
        self.assertEqual(cssmin_proved._library is not None, "CSSMIN_LIBRARY" in os.environ)

    def test_the_program_runs_with_its_own_words(self):
        run = [sys.executable, "-m", "cssmin_proved"]
        env = {**os.environ, "CSSMIN": PROGRAM}
        self.assertEqual(subprocess.check_output([*run, "cmp", "a:link", "a:visited"], env=env), b"disjoint\n")
        self.assertEqual(subprocess.run([*run, "min"], input=b"{", env=env, stderr=subprocess.DEVNULL).returncode, 3)

    def test_what_is_not_there_is_named(self):
        run = [sys.executable, "-m", "cssmin_proved", "--version"]
        ran = subprocess.run(run, env={**os.environ, "CSSMIN": "/none/cssmin"}, stderr=subprocess.PIPE)
        self.assertEqual(ran.stderr, b"cssmin: the program /none/cssmin does not start: No such file or directory\n")
        ran = subprocess.run(run, env={**os.environ, "CSSMIN_LIBRARY": "/none/lib.so"}, stderr=subprocess.PIPE)
        self.assertIn(b"/none/lib.so", ran.stderr)
        self.assertEqual(ran.returncode, 1)


if __name__ == "__main__":
    unittest.main()
