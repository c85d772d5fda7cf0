"""Judgements of what `check` says of a source: where, of which kind, and words that a true sentence has or lacks.

bench/FORMATS.md has their lines.
"""

import re
import typing

BEGIN = re.compile(r"(\d[\d:+ |]*) (\w+)")
SENTENCE = re.compile(r"(\d+)(:\d+\+\d+) (warning: )?(\w+): (.*)")
WARNING = "warning"


class Judgement(typing.NamedTuple):
    places: list[str]
    kind: str
    has: list[list[str]]
    lacks: list[str]


def judgements(text: str) -> list[Judgement]:
    """Raises `ValueError` for a line that is none of these."""
    found: list[Judgement] = []
    for line in text.splitlines():
        begin = BEGIN.fullmatch(line)
        word, _, rest = line.partition(" ")
        if begin:
            found.append(Judgement(begin[1].split(" | "), begin[2], [], []))
        elif word == "has" and found:
            found[-1].has.append(rest.split(" | "))
        elif word == "lacks" and found:
            found[-1].lacks.append(rest)
        else:
            raise ValueError(f"no line of a judgement: {line!r}")
    return found


def fault_of(judged: Judgement, sentence: str) -> str:
    parts = SENTENCE.fullmatch(sentence)
    if parts is None:
        return f"{sentence!r} is no sentence with a place"
    kind = WARNING if parts[3] and judged.kind == WARNING else parts[4]
    if kind != judged.kind or not {parts[1], parts[1] + parts[2]} & set(judged.places):
        return f"{sentence!r}, and not {judged.kind} at {' or '.join(judged.places)}"
    lacking = [" or ".join(it) for it in judged.has if not any(text in parts[5] for text in it)]
    false = [text for text in judged.lacks if text in parts[5]]
    faults = [f"has not {it!r}" for it in lacking] + [f"has {it!r}" for it in false]
    return f"{sentence!r} {' and '.join(faults)}" if faults else ""


def fault(judged: list[Judgement], sentences: list[str]) -> str:
    """What is wrong with the sentences that the program says of a source, or nothing. There has to be one for each
    judgement, in their order."""
    faults = [fault_of(*it) for it in zip(judged, sentences)]
    faults += [f"no sentence for {it.kind} at {it.places[0]}" for it in judged[len(sentences):]]
    faults += [f"{it!r}, which nothing was judged of" for it in sentences[len(judged):]]
    return "; ".join(it for it in faults if it)


def refusal(judged: list[Judgement]) -> str | None:
    """The line of a refusal that `asm` has to print, or nothing if the source has to assemble."""
    refused = [f"REFUSED {it.places[0].partition(':')[0]} {it.kind}\n" for it in judged if it.kind != WARNING]
    return refused[0] if refused else None
