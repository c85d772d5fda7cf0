"""Makes texts at random by the rules of a file of bench/data.

A rule begins with `@ NAME`, and each line below it, `WEIGHT => TEXT` in the form of `rows`, is a way to make it. Of
`each => WORDS` each word is a way. In a text `{NAME}` is what that rule makes, `{NAME*3}` three times the same, and
`{NAME*0..9}` up to nine of them, each made anew. `{1..9}` is a number, and `{bytes 40}` up to 40 bytes.
"""

import random
import re

from .rows import read, unread

PLACE = re.compile(rb"\{(?:(-?\d+)\.\.(-?\d+)|bytes (\d+)|([a-z][a-z ]*)(?:\*(\d+)(?:\.\.(\d+))?)?)\}")
DEEPEST = 12  # rules within each other, below which a rule is made in its first way
Ways = tuple[list[bytes], list[float]]


class Grammar:
    def __init__(self, name: str) -> None:
        self.rules = {rule: ways_of(found) for rule, found in unread(name).items()}

    def make(self, chance: random.Random, rule: str, depth: int = 0) -> bytes:
        ways, weights = self.rules[rule]
        text = chance.choices(ways, weights)[0] if depth < DEEPEST else ways[0]

        def made(place: re.Match[bytes]) -> bytes:
            first, last, length, name, least, most = place.groups()
            if first:
                return b"%d" % chance.randint(int(first), int(last))
            if length:
                return chance.randbytes(chance.randrange(int(length)))
            inner = name.decode()
            if most is None:
                return self.make(chance, inner, depth + 1) * int(least or 1)
            return b"".join(self.make(chance, inner, depth + 1) for _ in range(chance.randint(int(least), int(most))))

        return PLACE.sub(made, text)


def ways_of(found: list[list[str]]) -> Ways:
    ways, weights = list[bytes](), list[float]()
    for weight, text in found:
        words = text.split() if weight == "each" else [text]
        ways += [read(it.encode()) for it in words]
        weights += [1.0 if weight == "each" else float(weight)] * len(words)
    return ways, weights
