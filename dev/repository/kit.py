"""Rattle's kit, which has the tools and the libraries that the repository is built with."""

import functools
import os
import subprocess


@functools.cache
def kit() -> str:
    """The folder of the kit."""
    return os.path.dirname(subprocess.run(["rt", "doc"], stdout=subprocess.PIPE, text=True, check=True).stdout.split()[0])
