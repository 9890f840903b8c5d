"""Random scripts of worlds, for tools/worlds. Each line is chosen with an eye on the world of `world_model.py` as it is then, so
that most of what is asked can be done, and much of the rest is refused for one reason or another.

A world has habits of its own: how often each thing happens there. Messages are delivered late, more than once or never; pushes are
left open, and steps of different ones mixed; now and then a node is restarted. Bytes come that nobody sent: messages that were sent
before, whole, cut or with a byte changed, and pushes that carry only some of what they need. A prune may come between any two lines,
also between the steps of open pushes, and what nothing reaches is stored before: objects that a clone writes, and those of a push that is
lost in its middle. Clones also let their branches go while a message is on its way that leans on them. Now and then a stop is set, mostly
one of which the model knows what comes of it; where it doesn't, the script ends soon. One script in twenty-five is none."""
import world_model
import world_wire
from world_model import HEADS, PUSHES, TO_SHARED, TRACKING, World, event_of
from world_values import FILE, FOLDER, KINDS, OTHER_REPOSITORY, entry_key, reached
from world_wire import ZERO

NAMES = [b"main"] * 8 + [b"side", b"side", b"a", b"a/b", b"a/b/c", b"v1", b"abc", b"dead", b"HEAD", b"origin/main", b"\xc3\xa9"]
REFS = [b"refs/heads/main"] * 4 + [
    b"refs/heads/side", b"refs/heads/a", b"refs/heads/a/b", b"refs/tags/v1", b"refs/tags/v1", b"refs/tags/v1/x", b"refs/tags/main",
    b"refs/notes/n", b"refs/remotes/origin/main", b"any/name",
]
LONG = [b"x" * 235, b"x" * 236, b"x" * 240, b"x" * 244]
BAD_NAMES = [b"a..b", b".a", b"a.lock", b"a~", b"a/", b"@{a", b"a.", b"\xff", b"x" * 245]
PATHS = [b"a", b"b", b"a.b", b"a0", b"d/x", b"d/y", b"d/e/z", b"d.x", b"\xff", b"a/b", b"d"]
BAD_PATHS = [b".git", b"d/.GIT/x", b"./a", b"d/..", b"a/", b"/a", b"d//x", b"p/" * 2048 + b"q"]
STEPS = [b"^", b"^", b"~", b"^0", b"^1", b"^2", b"^3", b"~0", b"~2", b"~5", b"~999999999", b"^{}", b"^{commit}", b"^{tree}", b"^{tree}", b"^{blob}", b"^{tag}"]
BAD_STEPS = [b"^{foo}", b"^0123456789", b"^@", b"^!", b"..a", b"~-1"]
ODD_TEXTS = [b"zzz", b"a..b", b":", b":/a", b":1:a", b":0:", b":0", b"@", b"@^", b"HEAD", b"refs/heads", b"ab", b"4b82", b"0" * 40, b"1" * 40, b"x" * 251]
WORDS = [b"A", b"B", b"C", b"one", b"two", b"\xf0\x9f\x8c\x8d"]
# How often what happens, against all else.
WEIGHTS = {
    "deliver": 26, "step": 20, "commit": 9, "add": 8, "unstage": 2, "branch": 6, "delete": 2, "head": 3, "load": 3, "detach": 1,
    "write": 5, "fetch": 5, "push": 9, "pack": 2, "restart": 1, "same": 4, "whole_fetch": 4, "whole_push": 4, "forge": 4, "stop": 1,
    "prune": 4, "held": 3, "strand": 3, "lean": 3, "late": 2,
}
PRUNING = [0, 0, 0, 0.03, 0.1, 0.3]  # how often a prune comes after a line, whatever it is
FORGETS = 0.05  # how often a clone lets its branches go while a message is on its way
LONGEST_FORGED = 4000
# What may stand after the name in the first line of a push that nobody sent, and how many items one of very many has.
SAID = [b"", b"atomic", b"atomic ", b" atomic", b"a atomic b", b"report-status-v2  atomic", b"atomics", b"an-atomic", b"atomic=1", b"ATOMIC", b"atomic\0", b"atomic\n"]
MANY = [256, 257]


class Script:
    """A script as far as it is written, and the world that it leaves."""

    def __init__(self, chance):
        self.chance = chance
        count = chance.choice([1, 2, 2, 2, 3, 3, 4, 16])
        self.world, self.count = World(count), count
        self.lines = [b"world %d" % count]
        self.waiting = []  # messages that are to be delivered once more
        self.pruning = chance.choice(PRUNING)
        habits = {it: often * chance.choice([0, 0.3, 1, 1, 1, 3]) for it, often in WEIGHTS.items()}
        self.kinds, self.weights = [*habits], [*habits.values()]

    def odds(self, share):
        return self.chance.random() < share

    def say(self, *words):
        """Writes a line, and gives its answer, or no words if it isn't known. A prune may come after it."""
        answer = self.put(*words)
        if self.odds(self.pruning):
            self.put(self.chance.choice(self.nodes(self.clone())), b"prune")
        return answer

    def put(self, *words):
        line = b" ".join(words)
        self.lines.append(line)
        before = len(self.world.messages)
        answer = self.world.play(event_of(line.split(b" "), self.count))
        # (a message that doesn't wait is lost, but for a delivery that picks any)
        if len(self.world.messages) > before and self.odds(0.9):
            self.waiting.append(before)
        return answer or b""

    def clone(self):
        return self.chance.randrange(min(self.count, 4))

    def nodes(self, number):
        return [b"shared", b"c%d" % number]

    def name(self):
        return self.chance.choice(LONG if self.odds(0.03) else NAMES)

    def object_id(self, node):
        """The name of an object, mostly of one that is there."""
        node = self.chance.choice([self.world.shared, *self.world.clones]) if self.odds(0.1) else node
        return self.chance.choice([*node.objects]) if node.objects else "1" * 40

    def text(self, node):
        """An expression, as a node may read it."""
        pick = self.chance.choice
        if self.odds(0.06):
            return pick(ODD_TEXTS)
        if self.odds(0.06):
            return pick([b":", b":0:"]) + pick([*node.index, *PATHS])
        text = pick([b"main", b"main", b"HEAD", b"@", b"origin/main", b"origin/main", *NAMES])
        if node.refs and self.odds(0.75):
            text = pick(sorted(node.refs))
            text = pick([text, text.removeprefix(b"refs/"), text.removeprefix(b"refs/").split(b"/", 1)[1]])
        elif self.odds(0.25):
            text = self.object_id(node).encode()
            text = pick([text, text, text.upper(), text[: self.chance.randrange(1, 40)]])
        if self.odds(0.3):
            text += b"".join(pick(STEPS) for _ in range(pick([1, 1, 2, 3])))
        if self.odds(0.02):
            text += pick(BAD_STEPS)
        if self.odds(0.06):
            text += b":" + pick([b"", b"d", b"d/e", b"d//x", b"d/", *node.index, *PATHS])
        return text

    def one(self):
        """Something happens. A clone that has nothing mostly makes or fetches something first, and what can't be done is mostly let be."""
        kind, number = self.chance.choices(self.kinds, self.weights)[0], self.clone()
        down = [name for name in self.nodes(number) if self.world.node(world_model.node_of(name, self.count)).is_down]
        if down and self.odds(0.4):
            self.say(b"restart", down[0])
        is_new = not self.world.clones[number].refs
        if self.odds(0.9):
            if kind == "deliver" and not self.waiting or kind == "step" and not any(self.world.shared.slots):
                return
            if is_new and kind not in ("deliver", "step", "add", "head", "fetch"):
                kind = "whole_fetch" if self.world.shared.refs and self.odds(0.7) else "commit"
        getattr(self, f"one_{kind}")(number)

    def one_deliver(self, _):
        sent = len(self.world.messages)
        if self.waiting and self.odds(0.8):
            number = self.waiting.pop(0 if self.odds(0.6) else self.chance.randrange(len(self.waiting)))
        else:
            number = self.chance.randrange(sent + 1 if self.odds(0.1) else max(sent, 1))
        self.say(b"deliver", b"%d" % number)

    def one_step(self, _):
        slots = [slot for slot, push in enumerate(self.world.shared.slots) if push]
        slot = self.chance.choice(slots) if slots and self.odds(0.95) else self.chance.randrange(10)
        self.say(b"step", b"%d" % slot)

    def order(self, number, verb, *words):
        return self.say(b"c%d" % number, verb, *words)

    def one_commit(self, number):
        node = self.world.clones[number]
        others = [self.text(node) for _ in range(self.chance.choice([0, 0, 0, 0, 1, 1, 2]) if node.refs else 0)]
        self.order(number, b"commit", self.chance.choice(WORDS), *others)

    def one_add(self, number):
        self.order(number, b"add", self.chance.choice(BAD_PATHS if self.odds(0.05) else PATHS), self.chance.choice(WORDS))

    def one_unstage(self, number):
        self.order(number, b"unstage", self.chance.choice(PATHS))

    def one_branch(self, number):
        self.order(number, b"branch", self.name(), self.text(self.world.clones[number]))

    def one_delete(self, number):
        self.order(number, b"delete", self.name())

    def one_head(self, number):
        self.order(number, b"head", self.name())

    def one_load(self, number):
        text = self.text(self.world.clones[number])
        self.order(number, b"load", text + b"^{tree}" if self.odds(0.8) and b":" not in text else text)

    def one_detach(self, number):
        self.order(number, b"detach", self.text(self.world.clones[number]))

    def one_fetch(self, number):
        self.order(number, b"fetch")

    def item(self, node):
        pick = self.chance.choice
        branches = [name.removeprefix(HEADS) for name in node.refs if name.startswith(HEADS)]
        if branches and self.odds(0.6):
            return pick(branches)
        if self.odds(0.1):
            return self.name()
        name = HEADS + pick(LONG) if self.odds(0.05) else pick(REFS)
        return b":" + name if self.odds(0.08) else self.text(node) + b":" + name

    def push_verb(self):
        return PUSHES[self.odds(0.3)]

    def one_push(self, number):
        node = self.world.clones[number]
        count = self.chance.choice(MANY) if self.odds(0.005) else self.chance.choice([1, 1, 1, 2, 3])
        self.order(number, self.push_verb(), *[self.item(node) for _ in range(count)])

    def one_pack(self, number):
        self.say(self.chance.choice(self.nodes(number)), b"pack")

    def one_restart(self, number):
        self.say(b"restart", self.chance.choice(self.nodes(number)))

    def one_stop(self, number):
        writes = self.chance.choice([b"0", b"0", b"999999999", b"%d" % self.chance.randrange(1, 30)])
        self.say(b"stop", self.chance.choice(self.nodes(number)), writes)

    def one_forge(self, number):
        """A message comes once more, but as one that nobody sent: whole, cut, or with a byte that is another, more or less; a push with other
        words after its first name."""
        messages = [*self.world.messages, (number, "list", ())]
        clone, kind, content = self.chance.choice(messages[-3:] if self.odds(0.5) else messages)
        if kind == "push" and self.odds(0.4):
            content = *content, self.chance.choice(SAID)
        text = world_wire.written(kind, content)
        at = self.chance.randrange(len(text))
        byte = self.chance.choice([b"", b"\0", b"\n", b" ", b"0", b"f", bytes([self.chance.randrange(256)])])
        changed = text[:at] + byte + text[at + self.chance.randrange(2) :]
        text = self.chance.choice([text, text, text[:at] or text, changed, changed, changed])
        if len(text) <= LONGEST_FORGED:
            ends = [b"shared", b"c%d" % (clone if self.odds(0.8) else number)]
            self.say(b"forge", *(ends if (kind in TO_SHARED) == self.odds(0.95) else ends[::-1]), text.hex().encode())

    def one_same(self, number):
        node = self.chance.choice([None, number])
        texts = [self.text(self.world.node(node)) for _ in range(2)]
        self.say(b"shared" if node is None else b"c%d" % node, b"same", *texts)

    def one_prune(self, number):
        self.say(self.chance.choice(self.nodes(number)), b"prune")

    def forget(self, number):
        """A clone lets its branches go, and all that they alone reach."""
        for name in [it for it in self.world.clones[number].refs if it.startswith(HEADS)]:
            self.order(number, b"delete", name.removeprefix(HEADS))
        self.order(number, b"head", self.name())
        self.order(number, b"prune")

    def one_whole_fetch(self, number):
        """A fetch from its start to its end, and the branch follows."""
        answer = self.order(number, b"fetch")
        while answer.startswith(b"sent "):
            if self.odds(FORGETS):
                self.forget(number)
            answer = self.say(b"deliver", answer.split()[1])
        if self.odds(0.5):
            self.order(number, b"branch", b"main", b"origin/main")

    def items(self, number):
        return [self.item(self.world.clones[number]) for _ in range(self.chance.choice([1, 1, 2, 3]))]

    def one_whole_push(self, number):
        self.push_whole(number, self.push_verb(), *self.items(number))

    def push_whole(self, number, verb, *items):
        """A push from its start to its end, or to a fault."""
        slot = self.open_push(number, verb, *items)
        if slot is not None:
            self.end_push(number, slot)

    def open_push(self, number, verb, *items):
        """A push is sent and opened: its slot, or none."""
        answer = self.order(number, verb, *items)
        opened = self.say(b"deliver", answer.split()[1]) if answer.startswith(b"sent ") else b""
        return opened.split()[1] if opened.startswith(b"slot ") else None

    def end_push(self, number, slot):
        """The steps of an open push to its end, or to a fault."""
        answer = self.say(b"step", slot)
        while answer and not answer.startswith((b"sent ", b"refused ", b"fault ")):
            answer = self.say(b"step", slot)
        if answer.startswith(b"sent "):
            if self.odds(FORGETS):
                self.forget(number)
            self.say(b"deliver", answer.split()[1])

    def one_held(self, number):
        """A push with prunes between its steps."""
        slot = self.open_push(number, self.push_verb(), *self.items(number))
        if slot is not None:
            for _ in range(self.chance.randrange(4)):
                self.say(b"step", slot)
                self.prune_held()
            self.end_push(number, slot)

    def prune_held(self):
        """The shared node is pruned while pushes are open."""
        self.say(b"shared", b"prune")

    def one_strand(self, number):
        """A push is lost when all that it brought is stored: nothing reaches it then."""
        slot = self.open_push(number, self.push_verb(), *self.items(number))
        if slot is not None:
            self.say(b"step", slot)
            if self.say(b"step", slot) == b"migrated":
                self.say(b"restart", b"shared")

    def go_on(self, number, name):
        """A commit over what the clone knows of a branch, once it has fetched."""
        self.one_whole_fetch(number)
        self.order(number, b"head", name)
        if TRACKING + name in self.world.clones[number].refs:
            self.order(number, b"branch", name, TRACKING + name)
        self.order(number, b"commit", self.chance.choice(WORDS))

    def one_late(self, number):
        """A clone lets go what a pack leans on: its branch, of whose push it had no report, and on which another clone went on."""
        self.go_on(number, b"main")
        slot = self.open_push(number, PUSHES[0], b"main")
        for _ in range(4 if slot else 0):
            self.say(b"step", slot)
        other = self.clone()
        self.go_on(other, b"main")
        self.push_whole(other, PUSHES[0], b"main")
        answer = self.order(number, b"fetch")
        while answer.startswith(b"sent ") and b"objects" not in answer:
            answer = self.say(b"deliver", answer.split()[1])
        if answer.startswith(b"sent "):
            self.forget(number)
            self.say(b"deliver", answer.split()[1])

    def one_lean(self, number):
        """A push that nobody sent carries only some of what its value reaches, so that it leans on what is stored, if that is."""
        node = self.chance.choice([self.world.shared, self.world.clones[number]])
        it, share, name = self.kind_id(node, "commit"), self.chance.choice([0, 0.3, 0.7]), self.chance.choice(REFS)
        carried = {other: node.objects[other] for other in sorted(reached(node.objects, [it])[0]) if self.odds(share)}
        old = self.world.shared.refs.get(name, ZERO) if self.odds(0.8) else self.object_id(node)
        text = world_wire.written("push", ([(old, it, name)], carried, self.odds(0.3)))
        if len(text) <= LONGEST_FORGED:
            self.say(b"forge", b"shared", b"c%d" % number, text.hex().encode())

    def one_write(self, number):
        kind = self.chance.choice(KINDS)
        body = getattr(self, f"{kind}_body")(self.world.clones[number])
        if self.odds(0.15):
            # One byte more, less or another.
            at = self.chance.randrange(len(body) or 1)
            body = body[:at] + self.chance.choice([b"", b"\0", b"a"]) + body[at + self.chance.randrange(2) :]
        if body:
            self.order(number, b"write", kind.encode(), body.hex().encode())

    def blob_body(self, _):
        return self.chance.choice(WORDS) + b"\n"

    def tree_body(self, node):
        entries = {}
        for _ in range(self.chance.randrange(1, 4)):
            it = self.object_id(node)
            mode = {"tree": FOLDER, "blob": FILE}.get(node.objects.get(it, ("",))[0], OTHER_REPOSITORY)
            if self.odds(0.1):
                mode = self.chance.choice([FOLDER, FILE, b"120000", b"100664", b"100644x"])
            entries[self.chance.choice([b"a", b"a.b", b"d", b"z", b".git"] if self.odds(0.1) else [b"a", b"a.b", b"d", b"z"])] = mode, it
        names = sorted(entries, key=lambda name: entry_key(entries[name][0], name))
        if self.odds(0.1):
            names = names[::-1] + names[:1]
        return b"".join(b"%s %s\0" % (entries[name][0], name) + bytes.fromhex(entries[name][1]) for name in names)

    def kind_id(self, node, *kinds):
        """The name of an object of a kind, where there is one."""
        found = [it for it, (kind, _) in node.objects.items() if kind in kinds]
        return self.chance.choice(found) if found and self.odds(0.9) else self.object_id(node)

    def commit_body(self, node):
        parents = "".join(f"parent {self.kind_id(node, 'commit')}\n" for _ in range(self.chance.choice([0, 1, 1, 2])))
        return f"tree {self.kind_id(node, 'tree')}\n{parents}author x\ncommitter y\n\nz\n".encode()

    def tag_body(self, node):
        return f"object {self.kind_id(node, 'commit', 'tag')}\ntype {self.chance.choice(KINDS)}\ntag v\n\nz\n".encode()


def damaged(line, chance):
    """A line that is off, mostly."""
    words = line.split(b" ")
    return chance.choice([
        line + b" ", b" " + line, line + b" x", line + b"\r", b" ".join(words[:-1]), line.replace(b" ", b"  ", 1), b"", line.upper(),
        b"c%d fetch" % chance.choice([16, 99]), b"c01 fetch", b"deliver 1234567890", b"step x", b"restart", b"c0 write blob 4",
        b"c0 write file 41", b"c0 branch %s main" % chance.choice(BAD_NAMES), b"c0 push-atomic", b"c0 push main:%s" % chance.choice([b"HEAD", b"a", b"", b"refs/heads/a..b"]),
        b"shared fetch", b"world 1", b"c0 same main", b"prune c0", b"prune", b"c0 prune x", b"shared prune c0", b"c99 prune", b"stop c0", b"stop shared 1234567890", b"stop c99 0",
        b"forge shared shared 30", b"forge c0 c0 30", b"forge shared c0 3", b"forge c0 shared 0g", b"forge shared c99 30",
    ])


def script(chance):
    it = Script(chance)
    for _ in range(chance.randrange(10, 80)):
        if not it.world.is_lost:
            it.one()
    lines = it.lines
    if chance.random() < 0.04:
        at = chance.randrange(len(lines))
        lines[at] = damaged(lines[at], chance)
    return b"\n".join(lines) + (b"" if chance.random() < 0.1 else b"\n")
