"""Users' files that are written again beside a store, with their comments and their order."""

from __future__ import annotations

import os
import tempfile
from typing import Any

from .json_text import NotJson
from .natural import DoesNotFit, syntax_of, text_and_tree_at, to_document, write_text_of


class KeptFiles:
    """The files of the sides of an open store, by their paths. Raises NotJson where one is not what its side shows."""

    def __init__(self, store: Any, paths: dict[str, str | None]) -> None:
        self.store, self.paths = store, {side: path for side, path in paths.items() if path}
        for side, path in self.paths.items():
            self._need_same(side, path)

    def _need_same(self, side, path):
        advice = f"natural from .. --like {path} writes it anew"
        try:
            document = to_document(self.store.files.shapes[side], text_and_tree_at(path)[1])
        except DoesNotFit as why:
            raise NotJson("\n".join(f"{path}: {line}" for line in str(why).split("\n"))) from None
        if document != self.store.documents[side]:
            raise NotJson(f"{path} is not what the {side} side of this store shows; {advice}")

    def write(self) -> None:
        """Writes each file whose side has changed. Raises NotJson where one cannot be written; it is as it was then."""
        for side, path in self.paths.items():
            before, tree = text_and_tree_at(path)
            if to_document(self.store.files.shapes[side], tree) != self.store.documents[side]:
                try:
                    text = write_text_of(self.store.files[side], syntax_of(path), before)
                except NotJson as why:
                    raise NotJson(f"{path}: {why}") from None
                _put(os.path.realpath(path), text)


def _put(path, text):
    """Puts a text in the place of a file, whole or not at all, with the rights of the file."""
    made, name = tempfile.mkstemp(dir=os.path.dirname(path), prefix=f".{os.path.basename(path)}.")
    try:
        with os.fdopen(made, "w", encoding="utf-8", newline="") as file:
            file.write(text)
            file.flush()
            os.fsync(made)
        os.chmod(name, os.stat(path).st_mode & 0o7777)
        os.replace(name, path)
    except BaseException:
        os.unlink(name)
        raise
