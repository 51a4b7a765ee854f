"""The writers of the case files. Each module has a function `files`, which yields the path of a file below crates/ and its bytes.

Rows are the same in every run: what is random has a seed. reference/CASES.md has the forms of the files.
"""

import json


def lines_of(rows):
    """The bytes of rows of JSON, one a line."""
    return "".join(json.dumps(row, ensure_ascii=False, separators=(",", ":")) + "\n" for row in rows).encode()
