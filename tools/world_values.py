"""Objects, names of refs and expressions, as the pages of docs/ tell them, in a small way: what `world_model.py` stands on.

Nothing here is taken from the sources or specs of the crates. An id is forty hex digits, an object a kind and a body, and what a
node stores a dict of objects by their names. A value that is refused raises `Refused` with its number.
"""
import functools
import hashlib
import re

LONGEST_BODY = 16_777_216
LONGEST_PATH = 4096
LONGEST_NAME = 255
LONGEST_BRANCH = 246  # of what a clone can follow
KINDS = ("blob", "tree", "commit", "tag")
FOLDER, FILE, OTHER_REPOSITORY = b"40000", b"100644", b"160000"
MODES = {FOLDER, FILE, b"100755", b"100664", b"120000", OTHER_REPOSITORY}
COMMIT = re.compile(rb"tree ([0-9a-f]{40})\n((?:parent [0-9a-f]{40}\n)*)author [^\n]*\ncommitter [^\n]*\n")
TAG = re.compile(rb"object ([0-9a-f]{40})\ntype (?:blob|tree|commit|tag)\ntag [^\n]+\n")


class Refused(Exception):
    def __init__(self, number):
        self.number = number


def name_of(kind, body):
    return hashlib.sha1(b"%s %d\0" % (kind.encode(), len(body)) + body).hexdigest()


def may_stand(name):
    """Whether a part of a path may stand in a tree."""
    return name not in (b"", b".", b"..") and name.lower() != b".git" and not set(name) & set(b"/\0")


def entry_key(mode, name):
    """An entry's place in the order of a tree."""
    return name + b"/" if mode == FOLDER else name


def entries_of(body):
    """The entries of a tree: mode, name and id. The first one at fault decides."""
    entries, at = [], 0
    while at < len(body):
        space = body.find(b" ", at)
        if space < 0:
            raise Refused(10)
        mode = body[at:space]
        if mode not in MODES:
            raise Refused(4)
        end = body.find(b"\0", space + 1)
        if end < 0:
            raise Refused(10)
        name = body[space + 1 : end]
        if not may_stand(name):
            raise Refused(5)
        if any(name == other for _, other, _ in entries):
            raise Refused(7)
        if entries and entry_key(mode, name) <= entry_key(*entries[-1][:2]):
            raise Refused(6)
        at = end + 21
        if at > len(body):
            raise Refused(10)
        entries.append((mode, name, body[end + 1 : at].hex()))
    return entries


def check(kind, body):
    """Refuses a body that is too large or out of its kind's grammar."""
    if len(body) > LONGEST_BODY:
        raise Refused(3)
    if kind == "tree":
        entries_of(body)
    if kind == "commit" and not COMMIT.match(body):
        raise Refused(8)
    if kind == "tag" and not TAG.match(body):
        raise Refused(9)


def tree_of(body):
    return COMMIT.match(body)[1].decode()


def parents_of(body):
    return re.findall(r"parent (.*)\n", COMMIT.match(body)[2].decode())


def tagged_by(body):
    return TAG.match(body)[1].decode()


@functools.lru_cache(None)
def links_of(kind, body):
    if kind == "tree":
        return [it for mode, _, it in entries_of(body) if mode != OTHER_REPOSITORY]
    return {"blob": lambda _: [], "tag": lambda it: [tagged_by(it)], "commit": lambda it: [tree_of(it), *parents_of(it)]}[kind](body)


def reached(objects, roots):
    """What is reached from roots: the names that are there, and those that are not."""
    ahead, seen, absent = list(roots), set(), set()
    while ahead:
        it = ahead.pop()
        if it not in objects:
            absent.add(it)
        elif it not in seen:
            seen.add(it)
            ahead += links_of(*objects[it])
    return seen, absent


def is_complete(objects, root):
    return not reached(objects, [root])[1]


def history(objects, root):
    """The commits from a root along parent links, and whether nothing else is among them, nor absent."""
    ahead, seen, holds = [root], set(), True
    while ahead:
        it = ahead.pop()
        if it not in objects or objects[it][0] != "commit":
            holds = False
        elif it not in seen:
            seen.add(it)
            ahead += parents_of(objects[it][1])
    return seen, holds


def trees_of(index):
    """The trees of an index, by their names, and the name of its root."""
    entries, below, objects = [], {}, {}
    for path, (mode, it) in index.items():
        first, slash, rest = path.partition(b"/")
        if slash:
            below.setdefault(first, {})[rest] = (mode, it)
        else:
            entries.append((mode, first, it))
    for name, files in below.items():
        root, trees = trees_of(files)
        objects |= trees
        entries.append((FOLDER, name, root))
    entries.sort(key=lambda it: entry_key(*it[:2]))
    body = b"".join(b"%s %s\0" % (mode, name) + bytes.fromhex(it) for mode, name, it in entries)
    root = name_of("tree", body)
    return root, {**objects, root: ("tree", body)}


def files_of(objects, root, above=b""):
    """The files of a tree by their paths. What is met first at fault refuses it."""
    if root not in objects:
        raise Refused(40)
    if objects[root][0] != "tree":
        raise Refused(63)
    files = {}
    for mode, name, it in entries_of(objects[root][1]):
        path = above + name
        if len(path) > LONGEST_PATH:
            raise Refused(60)
        if mode == FOLDER:
            files |= files_of(objects, it, path + b"/")
            continue
        if mode != OTHER_REPOSITORY and it not in objects:
            raise Refused(40)
        if mode != OTHER_REPOSITORY and objects[it][0] != "blob":
            raise Refused(63)
        files[path] = (mode, it)
    return files


def is_text(word):
    try:
        return bool(word.decode()) or True
    except UnicodeDecodeError:
        return False


def is_legal(name):
    """Whether a ref may have this name."""
    parts = name.split(b"/")
    is_bad = name == b"@" or len(parts) < 2 or len(name) > LONGEST_NAME or not is_text(name)
    is_bad |= any(part == b"" or part.startswith(b".") or part.endswith(b".lock") for part in parts)
    return not is_bad and not re.search(rb"\.\.|[\0- \x7f~^:?*\[\\]|@\{|\.$", name)


def in_the_way(refs, name):
    """Whether another ref is in the way of the name, as `a` is of `a/b`."""
    return any(it.startswith(name + b"/") or name.startswith(it + b"/") for it in refs)


STEP = re.compile(rb"\^\{(commit|tree|blob|tag|)\}|\^(\d*)|~(\d*)")


def read_expression(text):
    """A name, or none for the index; its steps; a path, or none."""
    if text.startswith(b":"):
        if text == b":" or re.match(rb":(?:/|[123]:)", text):
            raise Refused(50)
        return None, [], text[3:] if text.startswith(b":0:") else text[1:]
    name = re.split(rb"[ ^~:]|\.\.", text)[0]
    rest, steps = text[len(name) :], []
    if name != b"@" and not is_legal(b"refs/" + name):
        raise Refused(50)
    while step := STEP.match(rest):
        if len(step[2] or step[3] or b"") > 9:
            raise Refused(50)
        steps.append(step)
        rest = rest[step.end() :]
    if rest and not rest.startswith(b":"):
        raise Refused(50)
    return name, steps, rest[1:] if rest else None


class Repository:
    """Objects, refs, HEAD (the name of a branch, or an id) and an index, and what expressions are worth there."""

    def __init__(self):
        self.objects, self.refs, self.head, self.index = {}, {}, b"refs/heads/main", {}

    def head_value(self):
        return self.refs.get(self.head) if isinstance(self.head, bytes) else self.head

    def value(self, text):
        name, steps, path = read_expression(text)
        if name is None:
            if path not in self.index:
                raise Refused(56)
            return self.index[path][1]
        it = self.named(name)
        for step in steps:
            it = self.stepped(it, step)
        return it if path is None else self.entry(self.peeled(it, "tree"), path)

    def named(self, name):
        if re.fullmatch(rb"[0-9a-fA-F]{40}", name):
            return name.decode().lower()
        if name in (b"@", b"HEAD"):
            it = self.head_value()
            if it is None:
                raise Refused(51)
            return it
        for form in (b"%s", b"refs/%s", b"refs/tags/%s", b"refs/heads/%s", b"refs/remotes/%s", b"refs/remotes/%s/HEAD"):
            if form % name in self.refs:
                return self.refs[form % name]
        if re.fullmatch(rb"[0-9a-fA-F]{1,3}", name):
            raise Refused(53)
        is_prefix = re.fullmatch(rb"[0-9a-fA-F]{4,39}", name)
        found = [it for it in self.objects if is_prefix and it.startswith(name.decode().lower())]
        if len(found) != 1:
            raise Refused(52 if found else 51)
        return found[0]

    def object(self, it):
        if it not in self.objects:
            raise Refused(51)
        return self.objects[it]

    def stepped(self, it, step):
        if step[1] is not None:
            return self.peeled(it, step[1].decode())
        if step[2] is not None:
            return self.parent(it, int(step[2] or 1))
        count = int(step[3] or 1)
        if count == 0:
            return self.parent(it, 0)
        for _ in range(count):
            it = self.parent(it, 1)
        return it

    def parent(self, it, number):
        """A parent by its number from 1, or for 0 the commit itself."""
        commit = self.peeled(it, "commit")
        parents = [commit, *parents_of(self.objects[commit][1])]
        if number >= len(parents):
            raise Refused(54)
        return parents[number]

    def peeled(self, it, kind):
        """The object of a kind that tags lead to, of any other kind than a tag where none is given; of a commit its tree."""
        found, body = self.object(it)
        while found == "tag" and kind != "tag":
            it = tagged_by(body)
            found, body = self.object(it)
        if kind == "tree" and found == "commit":
            return tree_of(body)
        if kind and found != kind:
            raise Refused(55)
        return it

    def entry(self, it, path):
        """The entry of a tree at a path."""
        mode = FOLDER
        for part in path.split(b"/") if path else []:
            if mode != FOLDER:
                raise Refused(56)
            kind, body = self.object(it)
            # (an entry may say that it is a folder and name another kind of object: that has no entries)
            found = [(mode, it) for mode, name, it in entries_of(body) if name == part] if kind == "tree" else []
            if not found:
                raise Refused(56)
            mode, it = found[0]
        return it
