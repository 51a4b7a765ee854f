"""A Pygments lexer for lens programs: pygmentize -x -l editors/pygments_editlens.py:EditlensLexer FILE

A `keyed` or a `tree` begins a type or a lens; it has the color of a lens.
"""

from pygments.lexer import RegexLexer, words
from pygments.token import Comment, Keyword, Name, Number, Operator, Punctuation, String, Whitespace

__all__ = ["EditlensLexer"]

DEFINITIONS = ("type", "lens", "main")
LENSES = ("id", "bij", "disc", "then", "each", "part", "inv", "keyed", "tree")
TYPES = ("unit", "bool", "int", "text", "enum", "list")
SIDES = ("left", "right")


class EditlensLexer(RegexLexer):
    """The tokens of a lens program, as docs/LANGUAGE.md has them."""

    name = "editlens"
    aliases = ["editlens"]
    filenames = ["*.lens"]
    tokens = {
        "root": [
            (r"[ \t\r\n]+", Whitespace),
            (r"#[^\n]*", Comment.Single),
            (r'"[^"\\\x00-\x1f]*"', String),
            (words(DEFINITIONS, prefix=r"\b", suffix=r"\b"), Keyword.Declaration),
            (words(LENSES, prefix=r"\b", suffix=r"\b"), Keyword),
            (words(TYPES, prefix=r"\b", suffix=r"\b"), Keyword.Type),
            (words(SIDES, prefix=r"\b", suffix=r"\b"), Keyword.Pseudo),
            (r"[A-Za-z_][A-Za-z0-9_]*", Name),
            (r"-?[0-9]+", Number.Integer),
            (r"[~=]", Operator),
            (r"[;{}<>\[\]():,]", Punctuation),
        ]
    }
