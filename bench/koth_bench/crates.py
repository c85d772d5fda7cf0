"""The crates of the repository, as crates.txt names them."""

from .program import ROOT, contents


def crates() -> dict[str, list[str]]:
    """The crates in the order of crates.txt, each with what it uses."""
    with open(f"{ROOT}/crates.txt", encoding="utf-8") as file:
        lines = [line.partition("#")[0].partition(":") for line in file]
    return {name.split()[0]: uses.split() for name, _, uses in lines if name.split()}


def wings() -> dict[str, list[str]]:
    found: dict[str, list[str]] = {}
    for line in contents(f"{ROOT}/crates.txt").decode().splitlines()[1:]:
        if line.startswith("# "):
            wing = found.setdefault(line.removeprefix("# "), [])
        elif ":" in line:
            wing.append(line.partition(":")[0])
    return found


def all_below(uses: dict[str, list[str]]) -> dict[str, list[str]]:
    """For each crate the repository's crates below it, each after those that it stands on."""
    below: dict[str, list[str]] = {}

    def visit(name: str) -> list[str]:
        if name not in below:
            used = [it for it in uses[name] if it in uses]
            below[name] = list(dict.fromkeys(it for one in used for it in [*visit(one), one]))
        return below[name]

    return {name: visit(name) for name in uses}
