"""Writes the steps in which case_faults lets every call of a device fail: scripts, and each command over a store, from the other writers."""

from .stores import runs, scripts, stores
from .undo import behind_records, imports, refused_imports, splits

PARTS = (runs, scripts, stores, behind_records, splits, imports, refused_imports)


def files():
    """The file of cases."""
    yield "case_faults/data/faults.cases", b"".join(row for part in PARTS for row in part())
