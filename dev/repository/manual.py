"""The manual page editlens.1, made from the tables of docs/FORMATS.md and from what the tools say of themselves."""

import os
import re

from . import TOP
from .pages import read_page, roff, section, table_with
from .tools import named, title, verbs

PAGE = os.path.join("docs", "editlens.1")
SOURCE = "docs/FORMATS.md"
HUBS = "A hub that is kept"
ABOUT = """\
.B editlens
keeps two JSON documents of different shape in step. A lens program says how the two belong together. An edit of either document is
checked, and translated into the edit that the other one needs. An edit that does not apply is rejected with a named cause, and nothing
changes.
.PP
A script is a lens program, a line
.B \\-\\-\\-
and a journal of edits, one a line. It comes on the standard input, and the answers go to the standard output.
.PP
.B edithub
keeps one document in step with up to 64 views, in a store.
.B editlens hub\\-store
is the same program. A first word that is no command names a tool."""
EXAMPLE = """\
A value that two documents have under different names:
.PP
.nf
.RS
$ cat > level.script
main {level ~ priority: id int}
\\-\\-\\-
{"side":"left","edit":[{"at":["level",[{"set":3}]]}]}
$ editlens run < level.script
ok 1 right [{"at":["priority",[{"set":3}]]}]
left {"level":3}
right {"priority":3}
complement {"rec":[null]}
.RE
.fi"""


def version(top=TOP):
    """The version of the repository."""
    with open(os.path.join(top, "VERSION"), encoding="utf-8") as file:
        return file.read().strip()


def listed(rows):
    """Tagged paragraphs, each of a tag and a text."""
    return "\n".join(f".TP\n{roff(tag)}\n{roff(text)}" for tag, text in rows)


def commands(page, heading="Commands"):
    """What each command of a section reads and writes."""
    table = table_with(section(page, heading), "Words")
    return listed((words, f"Reads {reads}. Result: {writes}.") for words, reads, writes in table.rows if words.startswith("`"))


def synopsis(page):
    """A line for each command."""
    table = table_with(section(page, "Commands"), "Words")
    words = [it[0].strip("`") for it in table.rows if it[0].startswith("`")]
    of_hubs = [it[0].strip("`") for it in table_with(section(page, HUBS), "Words").rows if it[0].startswith("`")]
    lines = [*(f"editlens {it}" for it in words), *(f"edithub {it}" for it in of_hubs), "editlens TOOL ..", "editlens --help", "editlens --version"]
    return "\n.br\n".join(f".B {roff(it)}" for it in lines)


def tool_list(top):
    """What each tool does, and each program of the service."""
    return listed((f"`{name}`", title(name, top)) for name in named(top))


def verb_list(top):
    """What each verb of the tool `store` does."""
    said = "All but \\fBcheck\\fR and \\fBimport\\fR may be the first word too, as in \\fBeditlens compact\\fR."
    return f"{said}\n{listed((f'`store {verb}`', about[0].upper() + about[1:] + '.') for verb, about in verbs(top).items())}"


def written(page):
    """The lines that commands write."""
    text = section(page, "What is written")
    answers, refusals = table_with(text, "Line"), table_with(text[text.index("one line is written instead") :], "Line")
    return f".SS Answers\n{listed(answers.rows)}\n.SS Refusals\nOne line is written instead:\n{listed(refusals.rows)}"


def statuses(page):
    """What each exit code means."""
    rows = table_with(section(page, "What is written"), "Code").rows
    return listed([*((code, f"{when} (`{name}`)") for code, name, when in rows), ("20", "The script `editlens` could not run the program.")])


def manual(top=TOP):
    """The manual page."""
    page = read_page(SOURCE, top)
    parts = [
        f'.\\" Written by dev/manual from {SOURCE}.\n.TH EDITLENS 1 "" "editlens {version(top)}" "User Commands"',
        ".SH NAME\neditlens, edithub \\- keep JSON documents of different shape in step",
        f".SH SYNOPSIS\n{synopsis(page)}",
        f".SH DESCRIPTION\n{ABOUT}",
        f".SH COMMANDS\n{commands(page)}",
        f".SH COMMANDS OF EDITHUB\n{commands(page, HUBS)}",
        f".SH TOOLS\nEach says more by \\-\\-help. Installed, it is editlens\\-TOOL too.\n{tool_list(top)}",
        f".SS Verbs of store\n{verb_list(top)}",
        f".SH OUTPUT\n{written(page)}",
        f".SH EXIT STATUS\n{statuses(page)}",
        ".SH FILES\n.TP\n.B editlens.store\nThe store, in the current folder.\n.TP\n.B edithub.store\nThe store of a hub.",
        f".SH EXAMPLES\n{EXAMPLE}",
        ".SH SEE ALSO\nThe pages of the project have more: docs/GUIDE.md, and docs/FORMATS.md with every form.",
    ]
    return re.sub(r"\n{2,}", "\n", "\n".join(parts)) + "\n"
