"""Scripts made at random: those of one kind and seed are always the same."""
import functools
import random

from . import mixed_rows, networks, texts, version_3, words

# Of each kind what makes it.
KINDS = {"network": networks.script, "text": texts.script, "words": words.script, "rows": mixed_rows.script,
         "vendors": version_3.vendors, "types": version_3.types, "version3": version_3.script,
         "text3": functools.partial(texts.script, version=3), "rows3": functools.partial(mixed_rows.script, version=3)}


def script(kind, seed):
    """The bytes of one script."""
    return KINDS[kind](random.Random(f"{kind} {seed}"))
