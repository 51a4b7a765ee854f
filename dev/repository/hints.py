"""The public functions of the Python package that lack hints of types. mypy says whether the hints that are there are right.

The tools themselves are programs, which nobody imports, so they are not looked at.
"""

import ast
import glob
import os
from typing import Iterator, List, Union

from . import TOP

Function = Union[ast.FunctionDef, ast.AsyncFunctionDef]


def modules(top: str = TOP) -> List[str]:
    """The paths of the modules of the package."""
    inside = glob.glob(os.path.join(top, "tools", "editlens", "**", "*.py"), recursive=True)
    beside = glob.glob(os.path.join(top, "bindings", "python", "*.py"))
    return sorted(inside) + sorted(beside)


def _is_private(name: str) -> bool:
    return name.startswith("_") and not name.endswith("__")


def _public(body: List[ast.stmt], owner: str = "") -> Iterator["tuple[str, Function]"]:
    """The functions of a module and the methods of its classes, each with its name. Those inside functions are nobody else's."""
    for each in body:
        if isinstance(each, (ast.FunctionDef, ast.AsyncFunctionDef)) and not _is_private(each.name):
            yield owner + each.name, each
        elif isinstance(each, ast.ClassDef) and not _is_private(each.name):
            yield from _public(each.body, f"{owner}{each.name}.")


def _is_typed(function: Function, is_method: bool) -> bool:
    """Whether a result has a hint, and each argument has one but for the object or the class of a method."""
    said = function.args
    given = [*said.posonlyargs, *said.args, *said.kwonlyargs, *(it for it in (said.vararg, said.kwarg) if it)]
    wanted = [it for number, it in enumerate(given) if not (is_method and number == 0 and it.arg in ("self", "cls"))]
    return function.returns is not None and all(it.annotation is not None for it in wanted)


def untyped(text: str) -> List[str]:
    """The names of the public functions of a module that lack a hint."""
    return [name for name, function in _public(ast.parse(text).body) if not _is_typed(function, "." in name)]


def lacking(top: str = TOP) -> List[str]:
    """A line for each public function of the package that lacks a hint."""
    found = []
    for path in modules(top):
        with open(path, encoding="utf-8") as file:
            found += [f"{os.path.relpath(path, top)}: {name} lacks a hint of a type" for name in untyped(file.read())]
    return found
