"""Where definitions say that something exists and have a premise on it: tools/house compares these places with those of tools/judged.

Whoever proves that something exists chooses it. Where the choice can make a premise on it fail, nothing of what stands behind the premise
is left to show. A place is found by its form, which is one of three:

- `(x : T) × ..`, where x is named on the left of an arrow in what follows, up to the end of the brackets around it;
- a field of a record, if its type names another field of the record on the left of an arrow;
- a case of a data type that takes a value, and behind it something whose type names that value on the left of an arrow.

Names alone are compared: `.x` is a field of something else, and a name that a λ or brackets bind again is another one. No name is
unfolded, so a premise within the definition of another word is not seen."""
import re

NAME = r"[^\s(){}\[\],;.:@\"]+"
TOKEN = re.compile(rf'"(?:[^"\\]|\\.)*"|(?<=\S)\.{NAME}|{NAME}|[(){{}}\[\],;:.]')
CLOSING = {"(": ")", "{": "}", "[": "]"}
DEFINED = re.compile(rf"(?:(?:abbrev|unfoldable|pub) )*(record |data )?({NAME})")
# (what defines nothing)
APART = re.compile(r"(?:pub )?(?:use|mod|infix\w*) ")
JUDGED = re.compile(r"(\S+ \S+ on \S+(?:, \S+)*): (.*)")
LONGEST_REASON = 160


def tree(text):
    """The words and signs of a text; what stands in brackets is a list of its own, the opening one first."""
    levels = [[]]
    for token in TOKEN.findall(text):
        if token in CLOSING:
            levels.append([token])
        elif token in CLOSING.values():
            inner = levels.pop()
            levels[-1].append(inner)
        else:
            levels[-1].append(token)
    return levels[0]


def bound(item):
    """The names that brackets bind, as in `(x y : T)`."""
    names = item[1 : item.index(":")] if isinstance(item, list) and item[0] in "({" and ":" in item else []
    return names if all(isinstance(it, str) for it in names) else []


def scoped(items):
    """Each item of a level, with the names that a λ or brackets before it bind again."""
    hidden, in_lambda = set(), False
    for item in items:
        in_lambda = item == "λ" or in_lambda and item != "."
        if in_lambda and isinstance(item, str):
            hidden.add(item)
        yield item, frozenset(hidden)
        hidden.update(bound(item))


def names(items):
    """The names that a text says and doesn't bind itself."""
    for item, hidden in scoped(items):
        said = {item} if isinstance(item, str) else set(names(item[1 + len(bound(item)) :]))
        yield from said - hidden


def premises(items):
    """The names on the left of any arrow of a text. A comma or a semicolon begins anew."""
    left = set()
    for item, hidden in scoped(items):
        if item == "→":
            yield from left
        left = set() if item in (",", ";") else left | set(names([item])) - hidden
        if isinstance(item, list):
            yield from set(premises(item[1:])) - hidden


def of_pairs(items):
    """The names that `(x : T) ×` binds and a premise behind it names."""
    for at, item in enumerate(items):
        if items[at + 1 : at + 2] == ["×"]:
            yield from set(bound(item)) & set(premises(items[at + 2 :]))
        if isinstance(item, list):
            yield from of_pairs(item[1:])


def of_case(items):
    """The names that a case of a data type takes and a premise within something behind them names."""
    taken = set()
    for item in items:
        if isinstance(item, list):
            yield from taken & set(premises(item[1:]))
            taken.update(bound(item))


def blocks(lines):
    """Each line with those below it that stand deeper or close its brackets."""
    found = []
    for line in lines:
        depth = len(line) - len(line.lstrip())
        if found and (depth > found[-1][0] or line.strip()[0] in CLOSING.values()):
            found[-1][1].append(line)
        else:
            found.append((depth, [line]))
    return [block for _, block in found]


def of_fields(kind, name, lines):
    """The fields of a record or the cases of a data type."""
    parts = [" ".join(block).split(" : ", 1) for block in blocks(lines)]
    fields = {head.split()[-1]: tree(text) for head, text in parts}
    for field, items in fields.items():
        chosen = set(of_case(items)) if kind == "data" else set(premises(items)) & fields.keys() - {field}
        yield f"{name}.{field}", chosen | set(of_pairs(items))


def definitions(lines):
    """Each definition, field and case, also within a module, and the names in it that are chosen and stand in a premise."""
    for block in blocks(lines):
        head = block[0].strip()
        if head.startswith("module "):
            yield from definitions(block[1:])
        elif not APART.match(head):
            kind, name = DEFINED.search(head).groups()
            end = next((at for at, line in enumerate(block) if line.endswith(" where")), None)
            if kind and end is not None:
                yield from of_fields(kind.strip(), name, block[end + 1 :])
            else:
                yield name, set(of_pairs(tree(" ".join(block))))


def places(text):
    """The places of a text, each once, as "`Name` or `Name.field` on what is chosen"."""
    found = {}
    for name, chosen in definitions([line for line in text.splitlines() if line.strip() and not line.lstrip().startswith("--")]):
        found.setdefault(name, set()).update(chosen)
    return [f"{name} on {', '.join(sorted(chosen))}" for name, chosen in found.items() if chosen]


def unjudged(top):
    """The places of the crates that tools/judged doesn't have, and the lines there that are no place, out of order or without a reason."""
    found = {
        f"{'/'.join(path.parts[-3:])} {place}" for path in (top / "crates").glob("vc_*/specs/*.antt") for place in places(path.read_text())
    }
    lines = (top / "tools/judged").read_text().splitlines()
    judged = {it[1]: it[2] for it in map(JUDGED.fullmatch, lines) if it}
    for place in sorted(found - judged.keys()):
        yield f"{place}: it is said to exist and stands in a premise, and tools/judged doesn't have it"
    yield from (f"tools/judged: {place}: no definition has this form" for place in sorted(judged.keys() - found))
    yield from (f"tools/judged: no place and reason: {line}" for line in lines if not JUDGED.fullmatch(line))
    yield from (f"tools/judged: {place}: a long reason" for place, reason in judged.items() if len(reason) > LONGEST_REASON)
    if lines != sorted(set(lines)):
        yield "tools/judged: not sorted"


SELF_TEST = """-- A longer list exists, and a premise stands on it; or on what was there before, or on another value of its name.
abbrev pub Chosen : List ℕ → Type 0
Chosen old = (new : List ℕ) × IsLonger old new
    × (IsApart old → IsApart new.front → IsGood new)

abbrev pub Given : List ℕ → Type 0
Given old = ((new : List ℕ) × IsLonger old new × (IsApart old.new → (λ new. IsGood new → IsGood old) new)) → IsGood old

module _ (old : List ℕ) where
  pub record Keeps
    (more : List ℕ) : Type 0 where
    pub new : List ℕ
    -- so it is said
    pub longer : IsLonger old new
    pub chosen : (x : ℕ) → IsApart (x ∷ new) →
        IsGood new
    pub given : IsApart more → ((new : List ℕ) → IsApart new → IsGood new) → IsLonger old new
    pub pair : (x : ℕ) × ((y : ℕ) → y < x → Contains new y)

pub data Ends : List ℕ → Type 0 where
  chosen : (new : List ℕ) → IsLonger old new → (IsApart new → IsGood new) → Ends old
  given : (new : List ℕ) → IsApart new → (IsApart old → IsGood new) → Ends old
"""
FOUND = ["Chosen on new", "Keeps.chosen on new", "Keeps.pair on x", "Ends.chosen on new"]


def mistaken():
    """Whether the places of a text of which they are known are others."""
    if (found := places(SELF_TEST)) != FOUND:
        yield f"tools/hollow.py: finds {found}, not {FOUND}"
