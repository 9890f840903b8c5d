"""Where a crate is proved later than it has to be: tools/house tells of these places, and of the last two kinds those that tools/waits lacks.

- A crate's line in crates.txt names a library that no text of the crate names. It has to go from there: the prover finds the libraries of
  libraries by itself.
- A crate waits for another of which its sources call nothing, and neither do those of any crate that it waits for because it calls it. Its
  contracts, specs/ and proofs/ cite definitions and lemmas there, which could stand in a crate that has no bodies to be proved.
- A crate stands on one of the two longest chains (`Crates.chains`), and its proof takes longer than `MOST_SECONDS` of one processor.

Names alone are compared, comments apart: a name before `::` is a call, or a type, and one after `Rattle.` is cited."""
import re

from crates import Crates, below

MOST_SECONDS = 300
JUDGED = re.compile(r"(\w+ waits for \w+|\w+ is long): (.*)")
LONGEST_REASON = 160


def names_in(text):
    """The names of a text."""
    return set(re.findall(r"\w+", text))


def calls_in(text):
    """The crates, modules and types whose items sources name."""
    return set(re.findall(r"(?<![\w.])(\w+)::", text))


def texts_of(folder):
    """The sources of a crate, and then all its texts, without comments."""
    found = {".rt": "", ".antt": ""}
    for part in ("src", "specs", "proofs"):
        for path in sorted((folder / part).rglob("*")):
            if path.suffix in found:
                found[path.suffix] += re.sub("//.*" if path.suffix == ".rt" else "--.*", "", path.read_text())
    return found[".rt"], "\n".join(found.values())


def unnamed(deps, named):
    """The lines of crates.txt with what none of the crate's texts names. `named` has the names in these."""
    return [(crate, it) for crate, stands_on in deps.items() for it in stands_on if it not in named[crate]]


def idle(uses, called):
    """The crates that wait for one of which they call nothing, if nothing that they call has to be waited for as long. Of those that stand
    on each other the highest is named."""
    for crate, stands_on in uses.items():
        needed = {it for it in stands_on if it in called[crate]}
        needed |= set().union(*(below(uses, it) for it in needed))
        rest = [it for it in stands_on if it not in needed]
        yield from ((crate, it) for it in rest if not any(it in below(uses, other) for other in rest))


def long(chains, seconds):
    """The crates on these chains whose proofs take long."""
    return sorted({crate for chain, _ in chains for crate in chain if seconds[crate] > MOST_SECONDS})


def told(top):
    """What of this is so and isn't judged, and the lines of tools/waits that are about nothing, out of order or without a reason."""
    crates = Crates(top)
    texts = {crate: texts_of(top / "crates" / crate) for crate in crates.uses}
    for crate, it in unnamed(crates.deps, {crate: names_in(text) for crate, (_, text) in texts.items()}):
        yield f"crates.txt: {crate} stands on {it}, which none of its texts names"
    places = {f"{crate} waits for {it}" for crate, it in idle(crates.uses, {crate: calls_in(text) for crate, (text, _) in texts.items()})}
    places |= {f"{crate} is long" for crate in long(crates.chains(), crates.seconds)}
    lines = (top / "tools/waits").read_text().splitlines()
    judged = {it[1]: it[2] for it in map(JUDGED.fullmatch, lines) if it}
    yield from (f"{place}, and tools/waits doesn't say why" for place in sorted(places - judged.keys()))
    yield from (f"tools/waits: {place}: it is not so" for place in sorted(judged.keys() - places))
    yield from (f"tools/waits: no place and reason: {line}" for line in lines if not JUDGED.fullmatch(line))
    yield from (f"tools/waits: {place}: a long reason" for place, reason in judged.items() if len(reason) > LONGEST_REASON)
    if lines != sorted(set(lines)):
        yield "tools/waits: not sorted"


USES = {"words": [], "low": ["words"], "side": [], "high": ["low", "words", "side"]}
SOURCES = """use low::{Thing};
ghost use Rattle.side.specs.Side.{IsSide};
fn f(x: low::Thing, y: Thing) -> bool ensures { IsSide x }
"""


def mistaken():
    """What is found in crates and sources of which it is known, if it is something else."""
    called = {"words": set(), "low": {"words"}, "side": set(), "high": {"low"}}
    found = [
        (sorted(calls_in(SOURCES)), ["low"]),
        (unnamed(USES, {**called, "high": names_in(SOURCES)}), [("high", "words")]),
        ([*idle(USES, called)], [("high", "side")]),
        ([*idle(USES, {**called, "high": {"side"}})], [("high", "low")]),
        (long([(["low", "high"], 0)], {"low": MOST_SECONDS, "high": MOST_SECONDS + 1, "side": MOST_SECONDS + 1}), ["high"]),
    ]
    for one, other in found:
        if one != other:
            yield f"tools/waiting.py: finds {one}, not {other}"
