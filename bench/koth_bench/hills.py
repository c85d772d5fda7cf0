"""Hills for trials, and the rules of a hill written down once more."""

import os
import typing

from .processes import output_of
from .program import ROOT

NAMES = ("imp", "dwarf", "clear", "scanner", "paper", "ring")  # warriors of the repository that fight each other evenly
# a warrior of which an author tries the step
BOMBER = """;redcode-94
;name Step {step}
;assert CORESIZE == 8000
bomb  DAT #0, #0
start ADD #{step}, bomb
      MOV bomb, @bomb
      JMP start
      END start
"""
# the settings of a small hill of two, whose matches have one round, two warriors that live on there, and its tables
# with the first one and with both
OF_TWO = ("--capacity", "2", "--rounds", "1", "--cycles", "100")
FIRST, SECOND = (f";name {name}\nJMP 0\n" for name in ("First", "Second"))
ONE, BOTH = "1 1 0 0 First by Anonymous\n.\n", "1 1 1 1 First by Anonymous\n2 2 1 0 Second by Anonymous\n.\n"
Counts = tuple[int, int]  # rounds that a warrior won, and ties


def warriors() -> list[str]:
    return [f"{ROOT}/warriors/{name}" for name in sorted(os.listdir(f"{ROOT}/warriors")) if name.endswith(".red")]


def create(koth: str, hill: str, *settings: str, sources: typing.Iterable[str] = (), folder: str | None = None) -> str:
    """Makes a hill under these settings, submits these sources to it, and returns its path."""
    output_of(koth, "create", hill, *settings, folder=folder)
    for source in sources:
        output_of(koth, "submit", hill, source, folder=folder)
    return hill


class Hill:
    """A hill by its rules. Its warriors are numbered from 1 on as they are submitted, and `match` gives the rounds that
    the older of two won, those that the younger won, and their ties."""

    def __init__(self, capacity: int, match: typing.Callable[[int, int], typing.Sequence[int]]) -> None:
        self.capacity, self.match = capacity, match
        self.entries = 0
        self.ages: dict[int, int] = {}

    def counts(self, one: int, other: int) -> Counts:
        found = self.match(min(one, other), max(one, other))
        return found[one > other], found[2]

    def points(self, entry: int, entries: typing.Iterable[int]) -> int:
        """The points of an entry among these: three for a round won, and one for a tie."""
        counts = [self.counts(entry, other) for other in entries if other != entry]
        return sum(3 * won + tied for won, tied in counts)

    def ranked(self) -> list[tuple[int, int]]:
        """The points and the entries on the hill, the best first; of equal ones the older is first."""
        return sorted(((self.points(entry, self.ages), entry) for entry in self.ages), key=lambda it: (-it[0], it[1]))

    def submit(self) -> str:
        """Judges the next warrior, and returns the reply. If the hill is full, the one with the fewest points falls, of
        equal ones the youngest."""
        self.entries += 1
        entry, together = self.entries, [*self.ages, self.entries]
        points = [(self.points(it, together), -it) for it in together]
        least, falls = min(points) if len(together) > self.capacity else (0, 0)
        if -falls == entry:
            return f"FELL {entry} {least}\n"
        self.ages = {**{it: age + 1 for it, age in self.ages.items() if it != -falls}, entry: 0}
        ranked = self.ranked()
        rank = next(at for at, (_, it) in enumerate(ranked) if it == entry)
        return f"PLACED {entry} {rank + 1} {ranked[rank][0]}\n"
