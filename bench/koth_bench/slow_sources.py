"""Sources that an assembly takes long for: those of bench/data/slow_sources."""

import re

from .program import data
from .rows import name_of, read

LIMIT = 65536  # bytes of a source
PLACE = re.compile(r"\{([^{}]*)\}")


def sources_of(kind: str, most: int = 4095) -> dict[str, str]:
    """The sources under this heading, by name, with at most so many copies of what costs."""
    parts, found, heading = dict[str, str](), dict[str, str](), ""

    def part(place: re.Match[str]) -> str:
        return str(min(most, int(place[1]))) if place[1].isdigit() else parts[place[1]]

    for line in data("slow_sources").splitlines():
        name, _, text = line.partition(" => ")
        if line.startswith("@ "):
            heading = line.removeprefix("@ ")
        elif name.startswith("= "):
            parts[name.removeprefix("= ")] = read(PLACE.sub(part, text).encode()).decode()
        elif text and heading == kind:
            found[name] = read(PLACE.sub(part, text).encode()).decode()
    return found


def slow_sources(copies: int = 4095) -> dict[str, str]:
    return {**sources_of("slow", copies), **sources_of("refused", min(copies, 929))}


def refused_source(copies: int) -> str:
    """At most 1,296 bytes that are refused once all of these copies are written out."""
    (text,) = sources_of("refused", copies).values()
    return text


def numbered(head: str, unit: str, tail: str) -> str:
    """As many units as fit between a head and a tail. A unit has a name of its own in place of `@`, and its number in
    place of `~`."""
    parts, left = [head], LIMIT - len(head) - len(tail)
    for number in range(1, LIMIT + 1):
        part = unit.replace("@", name_of(number)).replace("~", str(number))
        left -= len(part)
        if left < 0:
            break
        parts.append(part)
    return "".join(parts) + tail
