"""Writes cases of the command `gen`: the summary of a journal that the program makes itself, by the rule of docs/FORMATS.md."""

from ..generated import lines_of_summary
from ..steps import write_step

# How many entries, and the seed: the smallest counts, the ends of both ranges, and counts between.
RUNS = [(1, 0), (2, 1), (17, 3), (100, 2**33), (2000, 7), (2500, 2**64 - 1), (10000, 0), (10000, 2**64 - 1)]


def files():
    """The file of cases."""
    runs = ((["gen", str(count), str(seed)], lines_of_summary(count, seed)) for count, seed in RUNS)
    yield "case_commands/data/generated.cases", b"".join(write_step(words, 0, b"", wanted.encode()) for words, wanted in runs)
