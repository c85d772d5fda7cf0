"""What the scripts of bench share: the program, its services and peers, hills by their rules, pMARS, and one form of
report."""

from . import pmars
from .checks import Checks, Given, say, script
from .crates import crates
from .hills import BOMBER, NAMES, Hill, create, warriors
from .peer import Peer
from .processes import PATIENCE, Result, children_seconds, kib_of, limit_memory, output_of, run, seconds_of, timed
from .program import NOT_TRIED, ROOT, SCRIPT, arguments, contents, data, filled, text_of, write
from .service import Service

__all__ = [
    "BOMBER", "Checks", "Given", "Hill", "NAMES", "NOT_TRIED", "PATIENCE", "Peer", "ROOT", "Result", "SCRIPT",
    "Service", "arguments", "children_seconds", "contents", "crates", "create", "data", "filled", "kib_of",
    "limit_memory", "output_of", "pmars", "run", "say", "script", "seconds_of", "text_of", "timed", "warriors", "write",
]
