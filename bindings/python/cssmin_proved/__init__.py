"""cssmin from Python: `minify(sheet)` makes a style sheet smaller, and `compare(left, right)` compares two selectors.

The program is proved; what calls it here is tested. If the library is in this package, the calls are made in this process;
else each starts a process. The variable CSSMIN names another program, CSSMIN_LIBRARY another library, and with
CSSMIN_PROCESS=1 each call starts a process.
"""

import ctypes
import os
import re
import subprocess

__all__ = ["PROGRAM", "Refused", "compare", "minify"]

_HERE = os.path.dirname(os.path.abspath(__file__))
_OWN_PROGRAM = os.path.join(_HERE, "bin", "cssmin")
_OWN_LIBRARY = os.path.join(_HERE, "libcssmin.so")

#: The path of the program that processes run.
PROGRAM = os.environ.get("CSSMIN") or (_OWN_PROGRAM if os.path.exists(_OWN_PROGRAM) else "cssmin")

_MOST_BUDGET = 20_000
_NO_LIMIT = 0xFFFFFFFF
_DONE, _REFUSED, _NO_MEMORY, _NO_ROOM = 0, 3, 6, 12
_MARK = b"\xef\xbb\xbf"
# The kinds of faults, in the order of their numbers, and what is wrong.
_FAULTS = {
    "TooLong": "the sheet has more than 1,048,576 bytes",
    "NotUtf8": "the sheet is not UTF-8 from here on",
    "BadString": "the string that begins here has a newline without a backslash before it",
    "BadUrl": "the url that begins here has a character that has to be quoted or escaped",
    "EndInside": "the sheet ends inside what begins here: a comment, a string, a url, an escape or an open bracket",
    "TooDeep": "more than 256 brackets are open at once",
    "Namespace": "@namespace changes what every type selector means",
    "TooManyItems": "the sheet has more than 16,384 rules and at-rules",
    "TooManyPairs": "the style rules have more than 262,144 pairs of a selector and a declaration",
}


class Refused(ValueError):
    """A sheet is refused: `kind`, `offset` in bytes from 0, `line` and `column` from 1, in characters."""

    def __init__(self, name, sheet, kind, offset):
        self.kind, self.offset = kind, offset
        self.line, self.column = _place(sheet, offset)
        super().__init__(f"{name}:{self.line}:{self.column}: {kind}: {_FAULTS.get(kind, 'refused')}")


def _place(sheet, offset):
    """A place as `cssmin list` has it: a line ends with LF, CR LF or CR, and a mark at the start is no character."""
    begin = len(_MARK) if sheet.startswith(_MARK) else 0
    starts = [begin, *(end.end() for end in re.finditer(rb"\r\n|\r|\n", sheet) if end.end() <= offset)]
    column = sum(1 for byte in sheet[starts[-1] : offset] if byte & 0xC0 != 0x80)
    return len(starts), column + 1


class _Told(ctypes.Structure):
    _fields_ = [
        ("length", ctypes.c_size_t),
        ("report_length", ctypes.c_size_t),
        ("fault_kind", ctypes.c_uint32),
        ("fault_at", ctypes.c_uint32),
    ]


def _load():
    """The library, or None if processes are to be run."""
    named = os.environ.get("CSSMIN_LIBRARY")
    if not named and (os.environ.get("CSSMIN") or os.environ.get("CSSMIN_PROCESS")):
        return None
    try:
        library = ctypes.CDLL(named or _OWN_LIBRARY)
    except OSError:
        if named:
            raise
        return None
    text, size, number, told = ctypes.c_char_p, ctypes.c_size_t, ctypes.c_uint32, ctypes.POINTER(_Told)
    library.cssmin_min.argtypes = [text, size, number, ctypes.c_void_p, size, told]
    library.cssmin_cmp.argtypes = [text, size, text, size, number, ctypes.c_void_p, size, told]
    library.cssmin_min.restype = library.cssmin_cmp.restype = number
    return library


_library = _load()


def _run(words, budget, sheet=b""):
    """What a process writes. Its status has to be that of success, or of a sheet that is refused."""
    more = [] if budget is None else ["--budget", str(budget)]
    ran = subprocess.run([PROGRAM, *words, *more], input=sheet, stdout=subprocess.PIPE, stderr=subprocess.PIPE)
    if ran.returncode == _NO_MEMORY:
        raise MemoryError
    if ran.returncode != _REFUSED:
        ran.check_returncode()
    return ran


def _check(budget):
    if budget is not None and (type(budget) is not int or not 0 <= budget <= _MOST_BUDGET):
        raise ValueError(f"the budget has to be a whole number from 0 to {_MOST_BUDGET}")
    return _NO_LIMIT if budget is None else budget


def minify(sheet, *, name="style sheet", budget=None):
    """The minified text of a sheet: a str for a str, else bytes. No comment stays.

    `name` is that of the sheet in errors. With a `budget`, two selectors are given up on after so many learned clauses,
    0 to 20000. Raises Refused if the sheet has a fault, and MemoryError.
    """
    if isinstance(sheet, str):
        return minify(sheet.encode(), name=name, budget=budget).decode()
    if not isinstance(sheet, (bytes, bytearray, memoryview)):
        raise TypeError(f"a sheet has to be a str or bytes, and not {type(sheet).__name__}")
    sheet = bytes(sheet)
    limit = _check(budget)
    if _library is None:
        ran = _run(["min"], budget, sheet)
        if ran.returncode == _DONE:
            return ran.stdout
        kind, at = re.fullmatch(r"refused: (\w+) at (\d+)\n", ran.stderr.decode()).groups()
        raise Refused(name, sheet, kind, int(at))
    told = _Told()
    out = ctypes.create_string_buffer(len(sheet) + 1)
    status = _library.cssmin_min(sheet, len(sheet), limit, out, len(sheet), told)
    if status == _DONE:
        return ctypes.string_at(out, told.length)
    if status == _REFUSED:
        raise Refused(name, sheet, list(_FAULTS)[told.fault_kind - 1], told.fault_at)
    raise MemoryError


def compare(left, right, *, budget=None):
    """The text that `cssmin cmp LEFT RIGHT` writes: whether one element of a legal page can match two selectors."""
    limit = _check(budget)
    if not isinstance(left, str) or not isinstance(right, str):
        raise TypeError("a selector has to be a str")
    if _library is None:
        # No selector of the command begins with `-`. White space before it is not part of it.
        return _run(["cmp", *(re.sub("^-", " -", selector) for selector in (left, right))], budget).stdout.decode()
    room, told = 1024, _Told()
    one, other = left.encode(), right.encode()
    while True:
        out = ctypes.create_string_buffer(room)
        status = _library.cssmin_cmp(one, len(one), other, len(other), limit, out, room, told)
        if status == _DONE:
            return ctypes.string_at(out, told.length).decode()
        if status != _NO_ROOM:
            raise MemoryError
        room = told.length


def main():
    """The program itself, with its own words."""
    import sys

    try:
        os.execvp(PROGRAM, [PROGRAM, *sys.argv[1:]])
    except OSError as error:
        sys.exit(f"cssmin: the program {PROGRAM} does not start: {error.strerror}")
