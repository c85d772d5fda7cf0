"""Makes sources, sessions and images of devices that mean harm, by the rules of bench/data/harmful."""

import random

from .grammar import Grammar

SECTOR = 512
HEADERS, SLOT = 2, 4  # sectors of the headers, and of a slot, whose last one has the fields
RULES = Grammar("harmful")


class Maker:
    """Makes inputs, the same from the same numbers."""

    def __init__(self, seed: int, number: int) -> None:
        self.random = random.Random(f"{seed} {number}")

    def source(self) -> bytes:
        text = RULES.make(self.random, "source")
        return self.turned(text) if self.random.random() < 0.5 else text

    def session(self) -> bytes:
        text = RULES.make(self.random, "session")
        return text[: self.random.randrange(len(text) + 1)] if self.random.random() < 0.3 else text

    def turned(self, given: bytes) -> bytes:
        """The text with some parts turned: bytes changed, cut out, doubled, exchanged."""
        text = bytearray(given)
        for _ in range(self.random.randrange(4)):
            if not text:
                break
            at, end = sorted(self.random.randrange(len(text) + 1) for _ in range(2))
            end = min(end, at + 60)
            pick = self.random.randrange(4)
            if pick == 0 and at < len(text):
                text[at] = self.random.choice([0, 10, 13, 32, 38, 46, 59, 127, 255, self.random.randrange(256)])
            elif pick == 1:
                del text[at:end]
            elif pick == 2:
                text[at:at] = text[at:end]
            else:
                text += text[at:end]
        return bytes(text)

    def image(self, good: bytes) -> bytes:
        image = bytearray(good)
        sectors = len(good) // SECTOR
        for _ in range(self.random.choice([1, 1, 1, 2, 3, 8])):
            pick = self.random.random()
            if pick < 0.35:
                # the fields of the headers, which lie in the first 390 bytes
                at = self.random.randrange(2) * SECTOR + self.random.randrange(390)
            elif pick < 0.7:
                # those of the slots, the results among them
                last = HEADERS + SLOT - 1 + SLOT * self.random.randrange((sectors - HEADERS) // SLOT)
                at = last * SECTOR + self.random.randrange(280, SECTOR)
            else:
                at = self.random.randrange(len(image)) if image else 0
            if pick < 0.9 and at < len(image):
                turned = image[at] ^ 1 << self.random.randrange(8)
                image[at] = self.random.choice([0, 1, 2, 255, turned, self.random.randrange(256)])
            elif pick < 0.96:
                one, two = (self.random.randrange(sectors) * SECTOR for _ in range(2))
                image[one:one + SECTOR], image[two:two + SECTOR] = image[two:two + SECTOR], image[one:one + SECTOR]
            elif pick < 0.98:
                del image[self.random.randrange(len(image) + 1):]
            else:
                one = self.random.randrange(sectors) * SECTOR
                image[one:one + SECTOR] = bytes(self.random.randrange(256) for _ in range(SECTOR))
        return bytes(image)
