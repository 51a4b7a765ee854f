"""The version of editlens. It stands in one place, the file VERSION above the folder of the tools, or of an installed editlens."""

import os

from .program import INSTALLED


def version() -> str:
    """The version, as 1.0.0."""
    path = next(it for it in (os.path.join(folder, "VERSION") for folder in INSTALLED) if os.path.exists(it))
    with open(path, encoding="utf-8") as file:
        return file.read().strip()
