"""Users' files as they are: form files, documents and edits both ways. docs/TOOLS.md has the rules."""

from .documents import DoesNotFit, lost_orders, to_document
from .forms import FormFault, Shape, plain, read_form, read_form_at
from .places import NotWritable, to_file
from .syntaxes import SYNTAXES, read_file_at, read_text_of, syntax_of, text_and_tree_at, write_text_of
from .text import Number, read_file, write_file
from .to_edit import NoCounterpart, Translated, to_edit
from .to_patch import to_patch

__all__ = [
    "DoesNotFit",
    "FormFault",
    "NoCounterpart",
    "NotWritable",
    "Number",
    "SYNTAXES",
    "Shape",
    "Translated",
    "lost_orders",
    "plain",
    "read_file",
    "read_file_at",
    "read_form",
    "read_form_at",
    "read_text_of",
    "syntax_of",
    "text_and_tree_at",
    "to_document",
    "to_edit",
    "to_file",
    "to_patch",
    "write_file",
    "write_text_of",
]
