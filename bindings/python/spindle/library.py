"""The proved library, libspindle.so.1, by ctypes: searches, and traces replayed. include/spindle.h describes the calls."""
import ctypes
import os
from pathlib import Path
from typing import NamedTuple, Tuple

from .traces import Settings, Trace

SONAME = "libspindle.so.1"
# the first number of the versions that this module knows the structs of
FIRST_NUMBER = 1

# spindle_meaning of include/spindle.h, of the numbers that a search and a replay give
MEANINGS = {
    1: "bad cone: its kind, its rule, an exponent, a dim or the exponent sum is not allowed; or a plan of no cones or above 1,024",
    2: "an array has another length than needed",
    3: "an input number is NaN or infinite",
    4: "the search start, step, smallest step or the strategy is not allowed",
    8: "no room for what the trace, the sheet or its text would become or for the offsets; or 4,096 records or 1,000 files already",
    9: "no trace, a record that breaks a trace's layout, an edition that is not known, or a sheet that no files can have",
}


class LibraryNotFound(OSError):
    """There is no libspindle.so.1 to load; the message names the places that were tried."""


class Refused(ValueError):
    """The library refused the call; `code` is its number."""

    def __init__(self, code):
        super().__init__("refused with %d: %s" % (code, MEANINGS.get(code, "see include/spindle.h")))
        self.code = code


class SearchResult(NamedTuple):
    """The step, 0 exactly if no trial passed; how many points were tested; and the point that was tested, or the start where the step is 0."""

    step: float
    count: int
    point: Tuple[float, ...]


class Replayed(NamedTuple):
    """How many records a trace has, how many hold what their search answers now, how many do not, and the offsets of these."""

    records: int
    same: int
    differ: int
    at: Tuple[int, ...]


class _Cone(ctypes.Structure):
    _fields_ = [(name, ctypes.c_uint32) for name in ("kind", "dim1", "dim2", "rule")] + [("exps", ctypes.c_double * 32)]


class _Settings(ctypes.Structure):
    _fields_ = [(name, ctypes.c_double) for name in ("start", "step", "smallest")]


class _Found(ctypes.Structure):
    _fields_ = [("code", ctypes.c_uint32), ("count", ctypes.c_uint32), ("step", ctypes.c_double)]


class _Replayed(ctypes.Structure):
    _fields_ = [(name, ctypes.c_uint32) for name in ("code", "records", "same", "differ")]


_DOUBLES = ctypes.POINTER(ctypes.c_double)


def _places(path):
    """Where the library may be, in order: the one named, SPINDLE_LIBRARY, the loader's own folders, the repository that this file stands in."""
    if path is not None:
        return [os.fspath(path)]
    if os.environ.get("SPINDLE_LIBRARY"):
        return [os.environ["SPINDLE_LIBRARY"]]
    above = Path(__file__).resolve().parents
    return [SONAME] + [str(folder / "target" / "native" / SONAME) for folder in above[3:4]]


class Library:
    """libspindle.so.1, loaded. Without a path it is the file that SPINDLE_LIBRARY names, else the installed one, else the repository's."""

    def __init__(self, path=None):
        tried = []
        for place in _places(path):
            try:
                self._library = ctypes.CDLL(place)
                break
            except OSError as why:
                tried.append("%s (%s)" % (place, why))
        else:
            raise LibraryNotFound("no %s was found: %s. Name it by SPINDLE_LIBRARY" % (SONAME, "; ".join(tried)))
        version = getattr(self._library, "spindle_version", None)
        if version is None:
            raise LibraryNotFound("%s has no spindle_version: it is not libspindle, or is older than 1.0" % place)
        version.argtypes, version.restype = [], ctypes.c_uint32
        self.version = version()
        if self.version // 10000 != FIRST_NUMBER:
            raise LibraryNotFound("%s is of version %d, and this module knows versions %d.x" % (place, self.version, FIRST_NUMBER))
        self._search = self._library.spindle_backtrack_search
        self._search.argtypes = [_Cone, ctypes.c_bool, _DOUBLES, ctypes.c_size_t, _DOUBLES, ctypes.c_size_t, _DOUBLES, ctypes.c_size_t, _Settings]
        self._search.restype = _Found
        self._replay = self._library.spindle_replay
        self._replay.argtypes = [ctypes.c_char_p, ctypes.c_size_t, ctypes.POINTER(ctypes.c_uint64), ctypes.c_size_t]
        self._replay.restype = _Replayed

    def search(self, cone, primal, dq, q, settings=Settings()):
        """The first allowed step at which q + step*dq passes the test of the primal cone (`primal` true) or of the dual cone. Raises Refused."""
        if len(cone.exponents) > 32:
            raise Refused(1)
        passed = _Cone(cone.kind, cone.dim1, cone.dim2, cone.rule, (ctypes.c_double * 32)(*cone.exponents))
        # no cone is longer than 64; the library refuses one that says so
        n = max(0, min(cone.length, 64))
        point = (ctypes.c_double * max(1, n))()
        dq, q = (ctypes.c_double * len(dq))(*dq), (ctypes.c_double * len(q))(*q)
        found = self._search(passed, bool(primal), dq, len(dq), q, len(q), point, n, _Settings(*settings))
        if found.code:
            raise Refused(found.code)
        return SearchResult(found.step, found.count, tuple(point[:n]))

    def replay(self, trace):
        """Runs every search of a trace, a Trace, a path or bytes, again. Raises Refused where the library takes the bytes for no trace."""
        if isinstance(trace, Trace):
            data = trace.data
        else:
            data = bytes(trace) if isinstance(trace, (bytes, bytearray, memoryview)) else Path(trace).read_bytes()
        at = (ctypes.c_uint64 * 4096)()
        out = self._replay(data, len(data), at, len(at))
        if out.code:
            raise Refused(out.code)
        return Replayed(out.records, out.same, out.differ, tuple(at[: out.differ]))
