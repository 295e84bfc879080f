"""The table of the diagnostic decks, in the order in which they are run: each trusts those before it."""

from .addresses import addresses
from .branches import branches
from .cards import cards
from .changes import changes
from .console import console
from .core import core
from .disk import disk
from .drives import drives
from .dump import dump
from .edges import edges
from .features import features
from .long import long
from .moves import moves
from .own import own
from .sums import sums
from .tables import tables
from .typewriter import typewriter

DECKS = (tables, moves, sums, branches, addresses, long, cards, changes, edges, typewriter, dump, console, disk, drives, features, core, own)
