"""The rules of docs/ worked out a second time, in Python and apart from the program. The case files that the crates read come from here.

documents    documents and their shapes: those of docs/FORMATS.md and docs/EDITS.md
edits        edits, entries, and what an edit does to a shape
programs     tokens, the grammar, the canonical text and the check of docs/LANGUAGE.md
lenses       types of lenses, complements and translation, as docs/EDITS.md has them
consistency  patterns and images, as docs/MEANING.md has them
inverses     constructions and inverses, by the tables of docs/EDITS.md
hubs, links  a hub with its views, and two sites that take turns
kept_hubs    a hub that is kept in a store, and what the commands of `edithub` write
stores       the bytes of a store
logs         what a file opens to as a log, and what a crash leaves of it
generated    what `editlens gen` writes
steps        the form of the files of whole commands
write        the writers of the case files; write_all runs them

Types, initial values, tokens, the action and constructions are those of the tools in tools/editlens, which run without this folder.
Nothing here runs the program.
"""

import os
import sys

TOP = os.path.dirname(os.path.dirname(os.path.abspath(__file__)))
TOOLS = os.path.join(TOP, "tools")

if TOOLS not in sys.path:
    sys.path.insert(0, TOOLS)
