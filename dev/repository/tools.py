"""The tools, which are the executable files of tools/, and the programs of the service, which are called as tools are."""

import ast
import glob
import os
import re

from . import TOP

NOT_TOOLS = ("check",)
"""What is there for those who change the project."""
OF_SERVICE = ("manage", "serve")
"""The programs of the service, in service/."""


def tools(top: str = TOP) -> list:
    """The names of the tools of users."""
    paths = glob.glob(os.path.join(top, "tools", "*"))
    names = (os.path.basename(it) for it in paths if os.path.isfile(it) and os.access(it, os.X_OK))
    return sorted(it for it in names if it not in NOT_TOOLS)


def named(top: str = TOP) -> list:
    """The names that a first word of `editlens` may have besides its commands: the tools, and the programs of the service."""
    return sorted([*tools(top), *OF_SERVICE])


def path_of(name: str, top: str = TOP) -> str:
    """Where a tool or a program of the service is."""
    return os.path.join(top, "service" if name in OF_SERVICE else "tools", name)


def title(name: str, top: str = TOP) -> str:
    """What a tool says first of itself."""
    with open(path_of(name, top), encoding="utf-8") as file:
        found = re.match(r'#!.*\n"""(.*?)(?:"""|\n)', file.read())
    if not found:
        raise ValueError(f"{path_of(name, '')} does not begin with a line that says what it does")
    return found[1]


def verbs(top: str = TOP) -> dict:
    """The verbs of tools/store, each with what it does."""
    with open(path_of("store", top), encoding="utf-8") as file:
        body = ast.parse(file.read()).body
    table = next(it.value for it in body if isinstance(it, ast.Assign) and ast.unparse(it.targets[0]) == "VERBS")
    assert isinstance(table, ast.Dict)
    return {ast.literal_eval(verb): ast.literal_eval(said.elts[0]) for verb, said in zip(table.keys, table.values)}  # type: ignore
