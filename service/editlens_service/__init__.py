"""A service that keeps many pairs of documents in step: HTTP workers over one PostgreSQL, with libeditlens in each worker.

engine      a session or a hub of the library, with what a record needs
drafts      what a request makes of a state: records to store, and a reply
database    the connections, and what is done when the server is away
tables      the statements
migrations  the schema, brought up to date
keeper      states of pairs, and how a change is stored exactly once
feeds       what streams are told, and by whom
tokens      who may do what
web         the handlers
"""

import os
import sys

TOP = os.path.dirname(os.path.dirname(os.path.dirname(os.path.abspath(__file__))))
"""The top of the repository, or of what was installed."""

for _folder in (os.path.join(TOP, "bindings", "python"), os.path.join(TOP, "tools")):
    if _folder not in sys.path:
        sys.path.insert(0, _folder)
