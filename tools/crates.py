"""What crates.txt and tools/costs say: which crates a crate waits for, how high it stands, what its proof costs, and the chains of crates
that are proved one after another. The pages show it between two lines of comment: tools/pages writes these parts, and tools/house
compares them."""
import pathlib
import re

TOP = pathlib.Path(__file__).resolve().parent.parent
PROGRAM = "vcs"
# The processor seconds that each run of the prover takes before it looks at the crate's own text.
START = 12
# A row that says what a crate holds: in the README of the repository, and for the rows in CONTRIBUTING.
ROW = re.compile(r"\| (?:\[(\w+)\]\([^)]*\)|`?(\w+)`?) \| (.*) \|")
HELD_BY = ("README.md", "docs/CONTRIBUTING.md")
BEGIN, END = "<!-- by tools/pages: {} -->", "<!-- end -->"


def deps_of(text):
    """The crates of a crates.txt, and of each what it stands on, libraries of the toolchain too."""
    lines = (line.partition("#")[0].partition(":") for line in text.splitlines())
    return {name.split()[0]: deps.split() for name, _, deps in lines if name.strip()}


def own(deps):
    """The same without the toolchain's libraries."""
    return {crate: [it for it in below if it in deps] for crate, below in deps.items()}


def costs_of(text):
    """Of each crate the processor seconds of its proof and the peak of its memory in MiB, or nothing where one isn't known."""
    number = lambda word: None if word == "-" else int(word)
    rows = (line.split() for line in text.splitlines() if line.strip() and line[0] != "#")
    return {crate: (number(seconds), number(peak)) for crate, seconds, peak in rows}


def line_of(crate, seconds, peak):
    """A line of tools/costs."""
    return " ".join([crate, *("-" if it is None else str(it) for it in (seconds, peak))])


def below(uses, crate):
    """All crates that are proved before this one."""
    found, left = set(), [*uses[crate]]
    while left:
        it = left.pop()
        if it not in found:
            found.add(it)
            left += uses[it]
    return found


def levels(uses):
    """How many crates stand below each, one on another."""
    found = {}

    def level(crate):
        if crate not in found:
            found[crate] = 1 + max(map(level, uses[crate]), default=-1)
        return found[crate]

    return {crate: level(crate) for crate in uses}


def directly_on(uses, crate):
    """What a crate stands on that nothing else it stands on does."""
    return [it for it in uses[crate] if not any(it in below(uses, other) for other in uses[crate])]


def chains_of(uses, seconds):
    """For each crate those that take longest up to it, one on another, the lowest first, and how long they take."""
    found = {}

    def chain(crate):
        if crate not in found:
            before, took = max(map(chain, uses[crate]), key=lambda it: it[1], default=([], 0))
            found[crate] = [*before, crate], took + seconds[crate]
        return found[crate]

    return {crate: chain(crate) for crate in uses}


def joined(uses, seconds, groups):
    """The same crates with those of each group in one, which is named by its first: it waits for what each of them does, and has
    one start instead of theirs."""
    name = {crate: group[0] for group in groups for crate in group}
    of = lambda crate: name.get(crate, crate)
    apart = {}
    for crate, below in uses.items():
        apart.setdefault(of(crate), set()).update(it for it in map(of, below) if it != of(crate))
    took = {crate: 0 for crate in apart}
    for crate in uses:
        took[of(crate)] += seconds[crate]
    for group in groups:
        took[group[0]] -= START * (len(group) - 1)
    return {crate: sorted(below) for crate, below in apart.items()}, took


class Crates:
    """The crates of the repository: what each waits for, and what its proof costs, which is 0 where it isn't known."""

    def __init__(self, top=TOP):
        self.top = top
        self.deps = deps_of((top / "crates.txt").read_text())
        self.uses = own(self.deps)
        self.costs = costs_of((top / "tools/costs").read_text())
        self.seconds = {crate: self.costs.get(crate, (None, None))[0] or 0 for crate in self.uses}

    def chains(self):
        """The longest chain up to the program, and the longest of all."""
        found = chains_of(self.uses, self.seconds)
        return [found[PROGRAM], max(found.values(), key=lambda it: it[1])]


def held(top):
    """What each crate holds, by its row on the page that says so."""
    rows = (ROW.match(line) for page in HELD_BY for line in (top / page).read_text().splitlines())
    return {row[1] or row[2]: row[3] for row in reversed([it for it in rows if it])}


def picture(crates):
    """The crates as a table: the lowest first, each with its level, what it holds and what it stands on."""
    height, holds = levels(crates.uses), held(crates.top)
    yield "| Level | Crate | What it holds | Stands on |"
    yield "|--:|---|---|---|"
    for crate in sorted(crates.uses, key=lambda it: (height[it], list(crates.uses).index(it))):
        on = ", ".join(directly_on(crates.uses, crate))
        yield f"| {height[crate]} | `{crate}` | {holds.get(crate, '?')} | {on} |"


def table(crates):
    """What each crate's proof costs."""
    shown = lambda number: "" if number is None else f"{number:,}"
    yield "| Crate | Processor seconds | Peak, MiB |"
    yield "|---|--:|--:|"
    for crate in crates.uses:
        yield f"| {crate} | {' | '.join(map(shown, crates.costs.get(crate, (None, None))))} |"
    yield f"| all | {sum(crates.seconds.values()):,} | |"


def chains(crates):
    """The longest chains, with the seconds of each crate."""
    for (chain, took), what in zip(crates.chains(), ("To the program", "To the end of the gate")):
        yield f"- {what}, {took:,} seconds: {', '.join(f'{it} {crates.seconds[it]:,}' for it in chain)}."


def cuts(crates):
    """What the chains would take if crates that were cut from one another were one again: by the lines of tools/cuts."""
    lines = [line for line in (crates.top / "tools/cuts").read_text().splitlines() if line and line[0] != "#"]
    groups = [line.partition(":")[0].split() for line in lines]
    program = lambda uses, took: chains_of(uses, took)[PROGRAM][1]
    gate = lambda uses, took: max(it[1] for it in chains_of(uses, took).values())
    row = lambda what, uses, took: f"| {what} | {program(uses, took):,} | {gate(uses, took):,} |"
    yield "| In one crate again | Chain to the program | To the end of the gate |"
    yield "|---|--:|--:|"
    yield row("none: as it is", crates.uses, crates.seconds)
    for group, line in zip(groups, lines):
        what = line.partition(":")[2].strip()
        yield row(f"{', '.join(group)} ({what})", *joined(crates.uses, crates.seconds, [group]))
    yield row("all of these", *joined(crates.uses, crates.seconds, groups))


PARTS = {("docs/GATE.md", "cuts"): cuts, ("docs/ARCHITECTURE.md", "crates"): picture, ("docs/GATE.md", "costs"): table, ("docs/GATE.md", "chains"): chains}


def written(text, name, lines):
    """A page with this part as it has to be, or nothing where it has no such part."""
    begin = BEGIN.format(name)
    if text.count(f"{begin}\n") != 1 or END not in text.partition(begin)[2]:
        return None
    head, _, rest = text.partition(begin)
    return "\n".join([head + begin, *lines, END]) + rest.partition(END)[2]


def stale_pages(crates):
    """The pages that don't say what crates.txt and tools/costs do, and what these lack."""
    for (page, name), part in PARTS.items():
        text = (crates.top / page).read_text()
        if written(text, name, part(crates)) != text:
            yield f"{page}: the part {name} is not what crates.txt and tools/costs say: run tools/pages"
    for crate in crates.uses:
        if crate not in held(crates.top):
            yield f"{' and '.join(HELD_BY)}: no row says what {crate} holds"
    if list(crates.costs) != list(crates.uses):
        yield "tools/costs: not a line for each crate, in the order of crates.txt"


SELF_TEST = """low: sha1
side: low
high: side low  # the toolchain's hex is not here
top: high low
"""
SECONDS = {"low": 5, "side": 1, "high": 7, "top": 2}


def mistaken():
    """What is computed of four crates of which it is known, if it is something else."""
    uses = own(deps_of(SELF_TEST))
    found = [
        (uses, {"low": [], "side": ["low"], "high": ["side", "low"], "top": ["high", "low"]}),
        (below(uses, "high"), {"low", "side"}),
        (levels(uses), {"low": 0, "side": 1, "high": 2, "top": 3}),
        (directly_on(uses, "top"), ["high"]),
        (chains_of(uses, SECONDS)["side"], (["low", "side"], 6)),
        (chains_of(uses, SECONDS)["top"], (["low", "side", "high", "top"], 15)),
        (joined(uses, SECONDS | {"side": 20}, [["side", "high"]]), ({"low": [], "side": ["low"], "top": ["low", "side"]}, {"low": 5, "side": 15, "top": 2})),
        (costs_of("# what\nlow 5 -\nside - 70\n"), {"low": (5, None), "side": (None, 70)}),
        (line_of("side", None, 70), "side - 70"),
        (written(f"a\n{BEGIN.format('x')}\nold\n{END}\nb\n", "x", ["new"]), f"a\n{BEGIN.format('x')}\nnew\n{END}\nb\n"),
        (written("a\n", "x", ["new"]), None),
    ]
    for one, other in found:
        if one != other:
            yield f"tools/crates.py: finds {one}, not {other}"
