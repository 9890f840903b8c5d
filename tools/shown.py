"""What a wrong body leads to in its crate and in those below it, and a hash of all that decides what is proved of it: tools/rounds tells
of both."""
import functools
import hashlib
import os
import re
from dataclasses import dataclass

# What of a crate's folder a check depends on.
PARTS = ("src", "specs", "proofs")
# The files in which a function's own proof stands.
OWN_PROOFS = ("Answers.antt", "Proof.antt")
# What a text cites of the specs and proofs of a crate, as they and as sources name it: modules, and behind them perhaps a name.
CITED = re.compile(r"\b(\w+)(?:\.|::)(specs|proofs)\b((?:(?:\.|::)\w+)*)")
# A word, or a sign that is part of none.
TOKEN = re.compile(r"\w+|[^\w\s]")
# A path of a source.
PATH = re.compile(r"\w+(?:::\w+)+")
# A number that specs give a name, and an import of definitions.
NUMBER = re.compile(r"^abbrev pub (\w+) : ℕ\n\1 = (\d+)$", re.M)
DEFINITIONS = re.compile(r"^( *(?:ghost )?use )(Rattle\.\w+\.specs\.[\w.]+)\.\{(.*)\}(;?)$", re.M)
# How a definition or a lemma begins, by its name, perhaps in a module with parameters; and a line that is of none.
DEFINED = re.compile(r" *(?:(?:pub|abbrev|unfoldable|opaque) )*(\S+) :(?: |$)|(?:pub )?(?:record|data) (\S+)")
NOT_DEFINED = re.compile(r"(?:pub )?(?:use|mod|module|infix\w*) ")
# How an item begins: one that has a name, an import, a module in a file of its own, and an `impl` with its parameters.
PUB = r"(?:pub(?:\([^)]*\))? )?"
FN = r'(?:const |unsafe |async |extern "\w*" )*fn'
ITEM = re.compile(
    rf"{PUB}(?:{FN}|struct|enum|union|const|static(?: mut)?|type|(?:unsafe )?trait|macro_rules!) (?!_\b)(\w+)"
)
IMPORT = re.compile(rf"({PUB})(?:ghost )?use (.*);")
MODULE = re.compile(rf"{PUB}mod (\w+);")
ANGLES = r"<(?:->|[^<>])*>"
for _ in range(4):
    ANGLES = rf"<(?:->|[^<>]|{ANGLES})*>"
IMPL = re.compile(rf"(?:unsafe )?impl({ANGLES})? (.*?)(?: where\b.*)?\{{?\}}?")
TYPE = re.compile(rf"^{PUB}(?:struct|enum|union) (\w+)", re.M)
# What is said where a text is made of a value, and how a type says what its text is.
FORMATS = re.compile(r"\b(?:Debug|Display|to_string)\b|\b(?:format|format_args|write|writeln|e?print|e?println)!")
FORMATTED = re.compile(r"(?:fmt::)?(?:Debug|Display) for .*")


def text_of(crate, path):
    with open(f"{crate.folder}/{path}", encoding="utf-8") as it:
        return it.read()


@dataclass(frozen=True)
class Function:
    """A function of a crate: its file, its path below the crate as the prover names it, and its lines, of which `head` has its name and
    `body` begins its body."""

    file: str
    path: str
    first: int
    head: int
    body: int
    last: int

    def holds(self, file, line):
        return file == self.file and self.first <= line <= self.last

    def owns(self, proof):
        """Whether a file of proofs/ is this function's own, or one of its closures'."""
        module, _, name = self.path.rpartition("::")
        folders = ["/".join(["proofs", *self.path.split("::")])]
        folders.append("/".join(["proofs", *filter(None, module.split("::")), "fn", name]))
        return any(proof.startswith(f"{it}/") for it in folders)


def named_by(header):
    """How the prover names what an `impl` or `trait` is for: the type and then the trait, with their arguments, but for parameters. Where
    there is no trait the arguments are told apart, and parameters are among them, if any is none."""
    head = re.match(r"(?:pub(?:\([^)]*\))? )?(?:impl(<(?:[^<>]|<[^<>]*>)*>)?|trait) (.*?)(?: where .*)?\{?$", header)
    parameters = re.findall(r"[<,] *(\w+)", head[1] or "")
    trait, _, of = head[2].partition(" for ")
    text = re.sub(r"'\w+", "", f"{of} {trait}" if of else trait.partition(":")[0])
    words = re.findall(r"(?:\w+::)*(\w+)", text.replace("&", " Ref ").replace("[", " Slice "))
    # (what a type has only with certain arguments)
    if not of and any(it not in parameters for it in words[1:]):
        return "+".join(words)
    return "".join(it[0].upper() + it[1:] for it in words if it not in parameters)


def lines_of(lines, first):
    """The first line of a function's body and its last line, both counted from 1, or none where it has no body."""
    head = lines[first - 1]
    if re.search(r"\{.*\}$|;$", head):
        return (first, first) if head.endswith("}") else None
    indent = re.match(" *", head)[0]
    for at in range(first, len(lines) + 1):
        line = lines[at - 1]
        if line == indent + "{}":
            return at, at
        if line == indent + "{" or line.endswith("{") and (at == first or line.startswith(indent + ")")):
            return at, next(end for end in range(at + 1, len(lines) + 1) if lines[end - 1] == indent + "}")
        if line.endswith(";"):
            return None
    return None


def is_of_type_above(header, text):
    """Whether an `impl` has methods of a type that stands in the module above: these are named by the type's module."""
    found = IMPL.fullmatch(header)
    above = {word for path in re.findall(r"^use super::(.*);$", text, re.M) for word in TOKEN.findall(path)}
    return bool(found) and " for " not in found[2] and above.issuperset(TOKEN.findall(found[2])[:1])


def functions_of(file, text):
    """The functions of a source file, which lies as `rt fmt` lays it out: a brace that closes one stands in its column."""
    module = [it for it in file[len("src/") : -len(".rt")].split("/") if it not in ("lib", "main", "mod")]
    found, around, lines = [], module, text.split("\n")
    for number, line in enumerate(lines, 1):
        if re.match(r"(?:pub(?:\([^)]*\))? )?(?:impl|trait)\b", line) and not line.rstrip().endswith("}"):
            around = [*(module[:-1] if is_of_type_above(line, text) else module), named_by(line)]
        elif line == "}":
            around = module
        head = re.match(r"( *)(?:pub(?:\([^)]*\))? )?(?:const )?(?:unsafe )?fn (\w+)", line)
        if not head:
            continue
        body = lines_of(lines, number)
        if not body:
            continue
        # (the prover may name the place of an attribute)
        first = number
        while lines[first - 2].startswith((f"{head[1]}#[", f"{head[1]}///")):
            first -= 1
        found.append(Function(file, "::".join([*(around if head[1] else module), head[2]]), first, number, *body))
    return found


def files_below(folder):
    """All files in a folder and the folders in it, by path."""
    return sorted(f"{at}/{name}" for at, _, names in os.walk(folder) for name in names)


def without_comments(text):
    """A text but for the lines that are comments, or empty."""
    return "\n".join(it for it in text.split("\n") if not re.match(r"\s*(?://|--|$)", it))


def without_bodies(path, text):
    """A source file but for the bodies of its functions."""
    lines = text.split("\n")
    for function in functions_of(path, text):
        # (the length of an array may be what a constant function gives)
        if function.last > function.body and not re.match(r" *(?:pub(?:\([^)]*\))? )?const fn", lines[function.head - 1]):
            lines[function.body : function.last - 1] = [""] * (function.last - 1 - function.body)
    return "\n".join(lines)


@functools.cache
def numbers_of(folder):
    """The numbers that a crate's specs give names, by module and name."""
    found = {}
    for file in files_below(f"{folder}/specs"):
        with open(file, encoding="utf-8") as it:
            module = ".".join(os.path.relpath(file, f"{folder}/specs")[: -len(".antt")].split("/"))
            found.update({(module, name): number for name, number in NUMBER.findall(without_comments(it.read()))})
    return found


def numbers_brought(crate, text):
    """The numbers for which a text imports names of specs, by name, and the text without these imports."""
    folders = {it.name: it.folder for it in [*crate.below(), crate]}
    brought = {}

    def without_numbers(it):
        _, name, _, module = it[2].split(".", 3)
        numbers = numbers_of(folders[name]) if name in folders else {}
        words = it[3].split(", ")
        brought.update({word: numbers[module, word] for word in words if (module, word) in numbers})
        left = [word for word in words if (module, word) not in numbers]
        return f"{it[1]}{it[2]}.{{{', '.join(left)}}}{it[4]}" if left else ""

    return brought, DEFINITIONS.sub(without_numbers, text)


def with_numbers(crate, path, text, whole=""):
    """A text in which each name that it imports of specs, or defines there, for a number is that number: the name is an abbreviation, and
    the prover sees none of it. The text may be a part of the whole, which has its imports."""
    around, _ = numbers_brought(crate, whole)
    brought, text = numbers_brought(crate, text)
    brought = {**around, **brought, **(dict(NUMBER.findall(text)) if path.startswith("specs/") else {})}
    if brought:
        # (a definition stays, for who names it behind its module)
        names = rf"{NUMBER.pattern}|\b({'|'.join(brought)})\b"
        text = re.sub(names, lambda it: brought[it[3]] if it[3] else it[0], text, flags=re.M)
    return "\n".join(it for it in text.split("\n") if it)


def module_of(crate, path):
    """How proofs name a file of a crate's specs/ or proofs/."""
    return ".".join(["Rattle", crate.name, *path[: -len(".antt")].split("/")])


def cited_in(text, own):
    """The modules of specs and proofs that a text of a crate may cite, and `M.*` for all in M where it may cite M itself."""
    for crate, part, path in CITED.findall(text):
        # (what `crate::proofs` leads to proves a function of that crate, and no other)
        crate = own if (crate, part) == ("crate", "specs") else crate
        parts = ["Rattle", crate, part, *re.split(r"\.|::", path)[1:]]
        yield ".".join([*parts, "*"])
        yield from (".".join(parts[:end]) for end in range(4, len(parts) + 1))


def ways_to(module):
    """What a text that cites a module cites, as `cited_in` tells it."""
    parts = module.split(".")
    return {module, *(".".join([*parts[:end], "*"]) for end in range(3, len(parts)))}


def modules_around(crate, path):
    """The modules in which a source file stands, the crate first, as the words of a text can't spell them."""
    parts = [it for it in path[len("src/") : -len(".rt")].split("/") if it not in ("lib", "main", "mod")]
    return ["::".join(["", crate.name, *parts[:end]]) for end in range(len(parts) + 1)]


@dataclass(frozen=True, eq=False)
class Piece:
    """A piece of what a crate shows: it counts where one of the words `any_of` is said, if it has such, and all of `all_of`. Then
    what it leads to is said, too."""

    key: tuple
    any_of: frozenset
    all_of: frozenset
    leads: frozenset

    def counts(self, said):
        return self.all_of <= said and not (self.any_of and self.any_of.isdisjoint(said))


@dataclass(frozen=True)
class Shown:
    """What a crate shows, in pieces; the types of it and of those below; and whether one of them has a macro."""

    pieces: tuple
    types: frozenset
    has_macros: bool


def steps_of(text):
    """Each step of the paths in a text of a source, as `a::b`."""
    for path in PATH.findall(text):
        parts = path.split("::")
        yield from map("::".join, zip(parts, parts[1:]))


def leads_of(crate, path, text, said_here=None):
    """What a text of a file says, and so leads to; `said_here` are the words that may be names of the file's own imports, where not all
    are."""
    tokens = TOKEN.findall(text)
    leads = {*tokens, *cited_in(text, crate.name)}
    if path.startswith("src/"):
        said_here = tokens if said_here is None else said_here
        leads |= {*modules_around(crate, path), *((crate.name, it) for it in tokens), *((crate.name, path, it) for it in said_here)}
        leads |= {*steps_of(text), *((crate.name, "type", it) for it in TYPE.findall(text))}
        # (an attribute that derives one of these makes no text)
        if FORMATS.search(re.sub(r"#\[derive\(.*?\)\]", "", text, flags=re.S)):
            leads.add(("", "formats"))
    return leads


def piece(crate, path, text, any_of=(), all_of=(), said_here=None):
    """A piece of a file, with what it leads to."""
    return Piece((crate.name, path, text), frozenset(any_of), frozenset(all_of), frozenset(leads_of(crate, path, text, said_here)))


def is_head(line):
    """Whether a line, from its own column 0, begins an item or an attribute of one; others go on with the item before."""
    return re.match(r"#|(?!where\b)\w", line)


def items_of(lines):
    """The items of a source file without comments, or of an `impl`, each with the attributes before it."""
    items, is_headed = [[]], False
    for line in lines:
        if is_head(line) and is_headed:
            items.append([])
            is_headed = False
        items[-1].append(line)
        is_headed = is_headed or is_head(line) and not line.startswith("#[")
    return items


def head_of(item):
    """An item but for the attributes before it, in one line."""
    first = next((at for at, it in enumerate(item) if is_head(it) and not it.startswith("#[")), 0)
    return " ".join(it.strip() for it in item[first:])


def imported(path):
    """The full path of each name that an import brings."""
    front, brace, inner = path.partition("{")
    if not brace:
        yield path.strip()
        return
    depth, part = 0, ""
    for sign in inner.rstrip()[:-1] + ",":
        depth += (sign == "{") - (sign == "}")
        if sign != "," or depth:
            part += sign
        elif part.strip():
            yield from imported(front + part.strip())
            part = ""


def brought_by(path):
    """The words and signs that a text has to say to use an import: those of the name that it brings; none for any."""
    whole, _, alias = path.partition(" as ")
    parts = re.split(r"\.|::", whole)
    name = alias or (parts[-2] if parts[-1] == "self" and len(parts) > 1 else parts[-1])
    return set() if name.strip() in ("*", "_") else {*TOKEN.findall(name)} - {"◌"}


def taken_in(crate, text):
    """The words by which a source file may take what a module around its own has imported for itself."""
    paths = re.findall(rf"\b(?:crate|super|self|{crate.name})::((?:\w+|::|[{{}},*\s])*)", text)
    return {word for path in paths for word in TOKEN.findall(path)}


def imports_of(crate, path, head, is_local):
    """An import's pieces, one for each name. What it brings is for its own file, but where another may take it from there."""
    pub, paths = IMPORT.fullmatch(head).groups()
    for full in imported(paths):
        tokens = brought_by(full)
        text = f"{head[: head.index('use ')]}use {full};"
        # (an import may begin at what another brings, and says no more of what the file imports)
        said_here = TOKEN.findall(full)[:1]
        if not pub and is_local(tokens):
            yield piece(crate, path, text, all_of={(crate.name, path, it) for it in tokens}, said_here=said_here)
        elif pub.strip() == "pub" and len(tokens) == 1:
            yield piece(crate, path, text, paths_to(crate, path, tokens), said_here=said_here)
        else:
            yield piece(crate, path, text, all_of=tokens, said_here=said_here)


def paths_to(crate, path, names):
    """How a source says a public name of one: plainly in its own crate, elsewhere behind the crate's name or that of a module."""
    modules = modules_around(crate, path)[-1].split("::")[1:]
    return {*((crate.name, it) for it in names), *(f"{module}::{it}" for module in modules for it in names)}


def names_of(crate, path, item, types, is_member=False):
    """The names by which an item is reached, any of them; none where they are not known. What isn't `pub` is reached from its own
    crate alone, a member of a type by its name, and anything else by a path or as specs cite it."""
    head = head_of(item)
    if found := IMPL.fullmatch(header_of(item)):
        parameters = re.findall(r"[<,] *(?:const )?(\w+)", found[1] or "")
        words = {*re.findall(r"\w+", found[2].partition(" for ")[2])} - {*parameters}
        return {it for it in types if it[2] in words} or hidden_trait(crate, path, found[2])
    name = ITEM.match(head)
    if not name:
        return set()
    # (who says a variant of an enum says the enum, there or where it is imported)
    names = {name[1]}
    if head.startswith("macro_rules!") or is_member and head.startswith("pub "):
        return names
    if not head.startswith("pub "):
        return {(crate.name, it) for it in names}
    module = modules_around(crate, path)[-1].split("::")[2:]
    return paths_to(crate, path, names) | ways_to(".".join(["Rattle", crate.name, "specs.declared", *module, name[1]]))


def hidden_trait(crate, path, header):
    """The trait of an `impl` for a type that isn't known here, if it is its file's own and isn't `pub`: nothing has to do with the `impl` that
    doesn't say the trait."""
    trait = re.match(r"\w+", header)
    if trait and re.search(rf"^trait {trait[0]}\b", text_of(crate, path), re.M):
        return {(crate.name, trait[0])}
    return set()


def end_of_header(item):
    """How many lines there are before the body of an `impl`."""
    return next((at for at, it in enumerate(item, 1) if not it.startswith(" ") and it.endswith("{")), len(item))


def header_of(item):
    return head_of(item[: end_of_header(item)])


def is_inherent(item):
    found = IMPL.fullmatch(header_of(item))
    return found and " for " not in found[2] and end_of_header(item) < len(item) and item[-1] == "}"


def owner_of(crate, item, types):
    """The type whose members an `impl` of no trait has; nothing where it isn't known. Nobody has a value of it unless something that
    counts leads to it."""
    words = re.findall(r"\w+", IMPL.fullmatch(header_of(item))[2])
    return {(crate.name, "type", it) for it in words[:1]} & types


def is_import(item):
    """Whether an item is an import, and no attribute says when."""
    return IMPORT.fullmatch(head_of(item)) and not item[0].startswith("#[")


def pieces_of_item(crate, path, item, types, is_local):
    """The pieces of an item: each name of an import, each member of an `impl` of no trait, and anything else whole."""
    head, text = head_of(item), "\n".join(item)
    modules = modules_around(crate, path)
    if is_import(item):
        yield from imports_of(crate, path, head, is_local)
    elif found := MODULE.fullmatch(text):
        yield piece(crate, path, text, {(crate.name, path, found[1]), f"{modules[-1]}::{found[1]}"})
    elif head.startswith("#!"):
        yield piece(crate, path, text, {modules[-1]})
    elif is_inherent(item):
        start = end_of_header(item)
        for member in items_of([it.removeprefix("    ") for it in item[start:-1]]):
            if is_import(member):
                yield from imports_of(crate, path, head_of(member), is_local)
            else:
                text = "\n".join([*item[:start], *member])
                names = names_of(crate, path, member, types, is_member=True)
                yield with_contracts(crate, piece(crate, path, text, names, owner_of(crate, item, types)))
    else:
        names = names_of(crate, path, item, types)
        found = IMPL.fullmatch(header_of(item))
        # (how the text of a type is made is nothing to a text that makes none)
        needed = {("", "formats")} if names and found and FORMATTED.fullmatch(found[2]) else ()
        yield with_contracts(crate, piece(crate, path, text, names, needed))


def with_contracts(crate, it):
    """A piece that counts also where the contracts of its file are cited, as Rattle.CRATE.specs.contracts."""
    module = ".".join(["Rattle", crate.name, "specs.contracts", *modules_around(crate, it.key[1])[-1].split("::")[2:]])
    return Piece(it.key, it.any_of | ways_to(module), it.all_of, it.leads) if it.any_of else it


def said_for(name):
    """The word of a definition's name that a text has to say, if it says the name: the longest, or a sign where it has none."""
    return max(TOKEN.findall(name.replace("◌", "")), key=len, default=name)


def definitions_in(text):
    """The parts of a file of specs/ or proofs/, each with the names by which it is reached: a definition or a lemma by its own, a module
    with parameters by those of all in it, and what is neither by none."""
    parts = []
    for line in text.split("\n"):
        begins = NOT_DEFINED.match(line)
        defined = None if begins else DEFINED.match(line)
        is_inside = line.startswith("  ") and parts and parts[-1][1][0].startswith("module ")
        if begins or not parts or defined and not line.startswith(" ") or not line.startswith(" ") and NOT_DEFINED.match(parts[-1][1][0]):
            parts.append((set(), []))
        names, lines = parts[-1]
        if defined and (is_inside or not lines):
            names.add(defined[1] or defined[2])
        lines.append(line)
    return [(names, "\n".join(lines)) for names, lines in parts]


def pieces_of_definitions(crate, path, text):
    """The pieces of a file of specs/ or proofs/: each counts where a text cites the file and says one of its names."""
    module = module_of(crate, path)
    cited = (crate.name, "cited", module)
    yield Piece((crate.name, path, ""), frozenset(ways_to(module)), frozenset(), frozenset({cited}))
    for names, part in definitions_in(text):
        if found := re.fullmatch(r"((?:pub )?use )(.*)", " ".join(it.strip() for it in part.split("\n"))):
            for full in imported(found[2]):
                yield piece(crate, path, f"{found[1]}{full}", all_of={cited, *brought_by(full)})
        else:
            yield piece(crate, path, part, {said_for(it) for it in names}, {cited})


def pieces_of_specs(crate, path, text):
    """The pieces of a file of specs/ or proofs/; of the list of the modules each line counts with its module."""
    folder, name = os.path.split(path)
    if name != "Lib.antt":
        return [*pieces_of_definitions(crate, path, text)]
    found = [(line, re.fullmatch(r"(?:pub )?mod (\w+)", line)) for line in text.split("\n")]
    return [piece(crate, path, line, ways_to(module_of(crate, f"{folder}/{it[1]}.antt")) if it else ()) for line, it in found]


def parts_of(crate, part):
    """The files of a part of a crate, and their texts without comments and bodies."""
    for file in files_below(f"{crate.folder}/{part}"):
        path = os.path.relpath(file, crate.folder)
        text = text_of(crate, path)
        text = with_numbers(crate, path, without_comments(without_bodies(path, text) if path.endswith(".rt") else text))
        if text:
            yield path, text


def shown_by(crate, shown):
    """What a crate shows, which `shown` keeps by its name."""
    if crate.name in shown:
        return shown[crate.name]
    below = [shown_by(it, shown) for it in crate.below()]
    sources = [it for it in parts_of(crate, "src") if it[0].endswith(".rt")]
    types = frozenset((crate.name, "type", name) for _, text in sources for name in TYPE.findall(text)).union(*(it.types for it in below))
    has_macros = any(it.has_macros for it in below) or any("macro_rules!" in text for _, text in sources)
    taken = {path: taken_in(crate, text) for path, text in sources}
    # (any other file counts always: a table, say)
    files = [*parts_of(crate, "src"), *parts_of(crate, "specs")]
    pieces = [piece(crate, *it) for it in files if not it[0].endswith((".rt", ".antt"))]
    for path, text in sources:
        module = modules_around(crate, path)[-1]
        inside = set().union(*(taken[it] for it in taken if it != path and module in modules_around(crate, it)))
        is_local = lambda tokens, inside=inside: not has_macros and inside.isdisjoint(tokens)
        for item in items_of(text.split("\n")):
            pieces += pieces_of_item(crate, path, item, types, is_local)
    for path, text in parts_of(crate, "specs"):
        pieces += pieces_of_specs(crate, path, text) if path.endswith(".antt") else []
    for path, text in parts_of(crate, "proofs"):
        if os.path.basename(path) not in OWN_PROOFS:
            pieces += pieces_of_specs(crate, path, text)
    shown[crate.name] = Shown(tuple(pieces), types, has_macros)
    return shown[crate.name]


class Reach:
    """What texts of some crates lead to in them. Each piece waits behind a word that it needs, until that is said."""

    def __init__(self, crates):
        # (the files may be others than at the last time)
        numbers_of.cache_clear()
        self.shown = {}
        self.behind, self.always = {}, {}
        for crate in crates:
            for it in shown_by(crate, self.shown).pieces:
                if not it.any_of and not it.all_of:
                    self.always.setdefault(crate.name, []).append(it)
                for word in awaited(it, it.all_of):
                    self.behind.setdefault(word, []).append(it)

    def texts(self, crate, said):
        """The texts that count in the crate and those below it where this is said, each behind the name of a crate and a path."""
        names = {crate.name, *(it.name for it in crate.below())}
        said, new, found, behind = set(), {*said}, set(), {}
        ready = [it for name in names for it in self.always.get(name, ())]
        while new or ready:
            for it in ready:
                found.add(it)
                new |= it.leads
            new -= said
            said |= new
            waiting = [it for word in new for there in (self.behind, behind) for it in there.get(word, ())]
            new, ready = set(), []
            for it in waiting:
                if it.key[0] not in names:
                    continue
                if it.counts(said):
                    ready.append(it)
                else:
                    for word in awaited(it, it.all_of - said):
                        behind.setdefault(word, []).append(it)
            ready = [it for it in ready if it not in found]
        return {it.key for it in found if it.key[2]}


def awaited(it, lacking):
    """The words of which a piece that does not count yet has to hear one: one that it lacks of all that it needs, or else any."""
    # (a name that only one file may say is said last)
    return [max(lacking, key=lambda word: isinstance(word, tuple))] if lacking else it.any_of


def parts_for(crate, edit, function):
    """The texts of a crate, by path, that stand for themselves in what is proved of a wrong body: the edit, and its function with what
    proves it. An edit that is not of one function has all of the crate."""
    own = {f"wrong/{edit}": text_of(crate, f"wrong/{edit}")}
    if not function:
        return {**own, **{path: text_of(crate, path) for path in paths_in(crate, PARTS)}}
    lines = text_of(crate, function.file).split("\n")
    texts = [*header_above(lines, function), *lines[function.first - 1 : function.last]]
    proofs = {path: text_of(crate, path) for path in paths_in(crate, ["proofs"]) if function.owns(path)}
    return {**own, function.file: "\n".join(texts), **proofs}


def header_above(lines, function):
    """The first line of the `impl` or `trait` in which a function stands, if it stands in one."""
    if lines[function.head - 1].startswith(" "):
        yield from [it for it in lines[: function.first - 1] if re.match(r"(?:pub(?:\([^)]*\))? )?(?:unsafe )?(?:impl|trait)\b", it)][-1:]


def paths_in(crate, parts):
    return [os.path.relpath(file, crate.folder) for part in parts for file in files_below(f"{crate.folder}/{part}")]


def texts_for(crate, edit, function, reach):
    """The texts that decide what is proved of a wrong body, each behind the name of a crate and a path."""
    parts = {path: without_comments(text) for path, text in parts_for(crate, edit, function).items()}
    # (what an edit writes is said in the file that it edits)
    places = {path: path if path.startswith(("src/", "proofs/")) or not function else function.file for path in parts}
    wholes = {path: text_of(crate, places[path]) if places[path].startswith("src/") else "" for path in parts}
    parts = {path: with_numbers(crate, path, text, wholes[path]) for path, text in parts.items()}
    led = set().union(*(leads_of(crate, places[path], text) for path, text in parts.items()))
    return {*reach.texts(crate, led), *((crate.name, path, text) for path, text in parts.items())}


def hash_of(logic, crate, edit, function, reach):
    """A hash of all that decides what is proved of a wrong body: the logic, the texts, and the lines of crates.txt of the crates that have
    these, but for crates there of which nothing counts."""
    texts = texts_for(crate, edit, function, reach)
    names = {crate.name, *(name for name, _, _ in texts)}
    said = hashlib.sha256(logic.encode())
    for it in sorted([*crate.below(), crate], key=lambda it: it.name):
        if it.name in names:
            said.update(f"\0{it.name}: {' '.join(sorted([*it.of_kit, *(dep.name for dep in it.deps if dep.name in names)]))}".encode())
    said.update(b"".join(sorted(map(digest_of, texts))))
    return said.hexdigest()[:32]


@functools.cache
def digest_of(text):
    """A digest of a text and of where it stands."""
    return hashlib.sha256("\0".join(text).encode()).digest()


# The name of a crate in a text, and what says who may see an item.
CRATE = re.compile(r"\b(?:crate|(?:vc|rows)_\w+)\b")
SEEN_BY = re.compile(r"^((?:old: |new: )? *)pub(?:\([^)]*\))? ", re.M)
# A line that only says where something stands: an import, a module in a file of its own, and the file that an edit changes.
PLACED = re.compile(rf" *{PUB}(?:ghost )?(?:use|mod) .*|#!\[.*|file: .*")


@functools.cache
def unplaced(text):
    """A text wherever it stands: without the names of crates, imports, and who may see an item."""
    lines = SEEN_BY.sub(r"\1", CRATE.sub("crate", text)).split("\n")
    return "\n".join(it for it in lines if not PLACED.fullmatch(it))


def shape_of(crate, edit, function, reach):
    """Digests of the texts that decide what is proved of a wrong body, wherever they stand."""
    texts = {unplaced(text) for _, _, text in texts_for(crate, edit, function, reach)}
    return frozenset(digest_of((text,)) for text in texts)
