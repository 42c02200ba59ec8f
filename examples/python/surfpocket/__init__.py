"""include/surfpocket.h for Python, through ctypes."""
import csv
import ctypes
import pathlib
import re
import subprocess
import tempfile

HOME = pathlib.Path(__file__).resolve().parents[3]
HEADER = HOME / "include/surfpocket.h"
ARCHIVE = HOME / "crates/surfpocket/out/libsurfpocket.a"

# the header's constants by their names without SURFPOCKET_, as SIZE_FIELDS
CONSTANT = {name: int(value) for name, value in re.findall(r"#define SURFPOCKET_(\w+) (\d+)", HEADER.read_text())}
FIELDS = CONSTANT["SIZE_FIELDS"]
COLUMNS = CONSTANT["SIZE_COLUMNS"]
DONE = CONSTANT["DONE"]


def members(names):
    return [(name, ctypes.c_uint64) for name in names.split()]


class Answer(ctypes.Structure):
    _fields_ = members("number place field")


class Replacement(ctypes.Structure):
    _fields_ = members("number place field rows")


class Study(ctypes.Structure):
    _fields_ = members("number place greatest least greatest_lower greatest_upper least_lower least_upper")


class Differential(ctypes.Structure):
    _fields_ = members("number place start bend slope blocking cutoff verdict")


def load():
    """The library, loaded from a shared object that is made of the archive."""
    with tempfile.TemporaryDirectory() as folder:
        shared = pathlib.Path(folder) / "libsurfpocket.so"
        words = ["cc", "-shared", "-o", shared, "-Wl,--whole-archive", ARCHIVE, "-Wl,--no-whole-archive"]
        subprocess.run(words, check=True)
        library = ctypes.CDLL(str(shared))
    pointer, size, number = ctypes.POINTER(ctypes.c_uint64), ctypes.c_size_t, ctypes.c_uint64
    library.surfpocket_version.restype = number
    library.surfpocket_whole.argtypes = [pointer, size, pointer, size]
    library.surfpocket_whole.restype = Answer
    library.surfpocket_replace.argtypes = [pointer, size, pointer, size, number, pointer, size]
    library.surfpocket_replace.restype = Replacement
    library.surfpocket_study.argtypes = [number, ctypes.c_float, number] * 2
    library.surfpocket_study.restype = Study
    library.surfpocket_differential.argtypes = [number] * 8
    library.surfpocket_differential.restype = Differential
    library.surfpocket_time.argtypes = [number] * 3
    library.surfpocket_time.restype = number
    if library.surfpocket_version() != CONSTANT["VERSION"]:
        raise RuntimeError("the library is of another version than the header")
    return library


def read_list(path):
    """The names of a list's rows, and their numbers."""
    with open(path, newline="") as text:
        lines = list(csv.reader(text))[1:]
    return [line[1] for line in lines], [[int(cell) for cell in line[:1] + line[2:]] for line in lines]


def numbers(rows):
    """Rows as the numbers that the library is lent."""
    flat = [field for row in rows for field in row]
    return (ctypes.c_uint64 * len(flat))(*flat)


def empty_card(rows):
    return numbers([[0] * COLUMNS for _ in rows])


def print_card(card):
    print("row,pickup,delay,cutoff,law,multiplier")
    for start in range(0, len(card), COLUMNS):
        print(start // COLUMNS + 1, *card[start : start + COLUMNS], sep=",")


def name_of(kind, number):
    """The header's name of a number: of a refusal, or of a verdict."""
    return next(name.removeprefix(kind) for name, value in CONSTANT.items() if name.startswith(kind) and value == number)


def print_refusal(answer):
    name = "REFUSED_" + name_of("REFUSED_", answer.number)
    third = "fed row" if answer.number == CONSTANT["REFUSED_BACKUP"] else "field"
    print(f"{name}, place {answer.place}, {third} {answer.field}")
