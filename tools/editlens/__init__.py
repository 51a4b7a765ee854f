"""Tools around editlens, in Python's standard library alone, but for YAML and TOML. They are tested (tools/check) and not proved.

Session     a client: the program as a co-process, one edit in and one answer out
Hub, Link   the same for a hub and its views, and for two sites that take turns
Store       a client over the commands of a store, each a run of the program; `Store.open` keeps one open, as an OpenStore
HubStore    the same for a hub that `edithub` keeps; `HubStore.open` keeps one open, as an OpenHub
StoreLock   the locks on a folder and its stores, for tools that change their files; UnsafeFile is raised of a file with several names
types       the types that `check` prints, and what a token of a lens program is
documents   a JSON document held against a type
plans       what an edit does to the shape of a list, a map or a tree
edits       what an edit does to a document, and why it is refused
construct   the edits that build a document
patches     JSON Patch (RFC 6902) to edits, and back
infer       a program and form files from samples; `natural_schemas`: what a type means, as a JSON Schema
natural     users' files as they are: form files, documents and patches both ways; `kept_files`: files that follow a store
private     what the other side would lose by a patch; `trial`: edits that are tried out before they are sent
patch_lines lines of patches for a store, and their answers
named       edits that name an item or a node by what it has
load        the journal that builds two documents that exist
log         the records in the file of a store
upkeep      what one does with a store from day to day; also kinds, checkup, relens, replacement, copies
explain     what a refusal means, with the place in the text or in the document
lenses      the lens of a program, `sharing`: which places of both documents it ties, and `written`: its fields in their order
changes     the places that an edit changed, and `sentences`: an edit in words
rebase      edits that were made for older documents, carried to newer ones; `pending` shows a person's edits while they are on their way
older       edits that were made for older states of a session, carried to its newest one
desk        both documents on a page in the browser; `browser` drives one for its tests and pictures

No tool computes an edit from two versions of a document.
"""

from .answers import Accepted, NoAnswer, NotAnAnswer, ProgramRefused, Refused, RunEnded, read_answer
from .checked import check
from .hub import Hub, HubAccepted
from .hub_store import HubGroupAccepted, HubState, HubStore, OpenHub
from .link import Link, LinkAccepted
from .lock import StoreBusy, StoreLock
from .named import NotFound
from .natural import DoesNotFit, FormFault, NoCounterpart, NotWritable
from .open_store import OpenStore
from .private import PrivateLoss
from .program import NoProgram, find_program
from .session import DocumentsDiffer, Session
from .store import ImportRefused, Store, StoreRefused
from .store_file import UnsafeFile

__all__ = [
    "Accepted",
    "DocumentsDiffer",
    "DoesNotFit",
    "FormFault",
    "Hub",
    "HubAccepted",
    "HubGroupAccepted",
    "HubState",
    "HubStore",
    "ImportRefused",
    "Link",
    "LinkAccepted",
    "NoAnswer",
    "NoCounterpart",
    "NoProgram",
    "NotAnAnswer",
    "NotFound",
    "NotWritable",
    "OpenHub",
    "OpenStore",
    "PrivateLoss",
    "ProgramRefused",
    "Refused",
    "RunEnded",
    "Session",
    "Store",
    "StoreBusy",
    "StoreLock",
    "StoreRefused",
    "UnsafeFile",
    "check",
    "find_program",
    "read_answer",
]
