"""Lines: what is between line feeds, as the program writes and reads them.

`str.splitlines` cuts at more characters, as U+0085, U+2028 and U+2029, which stand in JSON as they are: it is for no output of the program.
"""

from __future__ import annotations


def lines_of(text: str | bytes | bytearray) -> list[str]:
    """The lines of a text, or of bytes in UTF-8, without their line feeds. The last one may have none."""
    lines = (text.decode() if isinstance(text, (bytes, bytearray)) else text).split("\n")
    return lines if lines[-1] else lines[:-1]
