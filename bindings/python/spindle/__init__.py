"""Traces of step searches, read in Python; and, over libspindle.so.1, searches made and replayed.

    import spindle

    for record in spindle.Trace("night.trace"):
        print(record.offset, record.dual.step, record.primal.step)

    print(spindle.sheet(["monday.trace", "tuesday.trace"]), end="")
    spindle.write_csv("night.trace", "night.csv")

    library = spindle.Library()
    print(library.replay(spindle.Trace("night.trace")))

Reading a trace needs no library: `Trace`, `sheet` and `write_csv` are Python alone. `Library` loads the proved one.
"""
from .library import Library, LibraryNotFound, Refused, Replayed, SearchResult
from .traces import Cone, NotATrace, Record, Settings, Side, Trace, sheet, write_csv

__all__ = [
    "Cone", "Library", "LibraryNotFound", "NotATrace", "Record", "Refused", "Replayed", "SearchResult", "Settings", "Side", "Trace", "sheet", "write_csv",
]
__version__ = "1.0.0"
