"""Modules of Debian's packages, which a Python that is not Debian's can load too where they are written in Python alone."""

import importlib
import sys
from typing import Any

from ..json_text import NotJson

PLACE = "/usr/lib/python3/dist-packages"


def module(name: str, package: str, what: str) -> Any:
    """A module by its name. Raises NotJson, which says what to install, where it is not there."""
    try:
        return importlib.import_module(name)
    except ImportError:
        pass
    sys.path.append(PLACE)
    try:
        return importlib.import_module(name)
    except ImportError:
        raise NotJson(f"to read and write {what}, install {package} (apt-get install {package})") from None
    finally:
        sys.path.remove(PLACE)
