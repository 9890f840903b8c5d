"""A small model of a world, its nodes and the language of its scripts, as docs/FORMATS.md tells them ("Scripts of a world").

`answers(text)` gives what `vcs world` has to print for a script, a line for each event, or none where the text is no script. Nothing
here is taken from the sources or specs of the crates.

Of a stop it knows what the rules fix: an event fails if it changes more places than writes are left (the refs of an atomic push are one),
and does not if it only looks, or if so many are left that they never run out. What an event that failed leaves is known if no write was left. An answer that isn't known,
and each one after it, is none.
"""
import copy
import re

import world_values
import world_wire
from world_values import FILE, LONGEST_BRANCH, LONGEST_PATH, OTHER_REPOSITORY, Refused, Repository, history, in_the_way, is_complete, is_legal, may_stand, name_of, reached
from world_wire import MOST, TEXTS, ZERO

SLOTS = 8
MOST_CLONES = 16
MANY = 100_000  # more writes than an event of any script here makes
HEADS, TAGS, TRACKING = b"refs/heads/", b"refs/tags/", b"refs/remotes/origin/"
PUSHES = b"push", b"push-atomic"
TO_SHARED, TO_CLONES = ("list", "want", "push"), ("advert", "pack", "report")


class BadScript(Exception):
    pass


class Unknown(Exception):
    """The rules leave open what is answered."""


def followed(name):
    """The tracking ref of a branch, if clones can follow it."""
    return TRACKING + name[len(HEADS) :] if name.startswith(HEADS) and len(name) <= LONGEST_BRANCH else None


class Node(Repository):
    """A node. The writes left, once a stop set them, are the least and the most that there may be."""

    def __init__(self):
        super().__init__()
        self.start()

    def start(self):
        self.is_down, self.is_unsure, self.left = False, False, None

    def stop(self, writes):
        if not self.is_down:
            self.left = writes, writes

    def fail(self, before):
        """The node is down, as it was before the event; what it stores isn't known if some writes passed."""
        is_unsure = self.left[1] > 0
        vars(self).update(vars(before), is_down=True, is_unsure=is_unsure)

    def needed(self):
        """The stored objects that refs, HEAD and the index reach through stored ones."""
        files = [it for mode, it in self.index.values() if mode != OTHER_REPOSITORY]
        return reached(self.objects, [it for it in [*self.refs.values(), self.head_value(), *files] if it])[0]

    def prune(self):
        """The objects that nothing needs go: how many."""
        needed, before = self.needed(), len(self.objects)
        self.objects = {it: held for it, held in self.objects.items() if it in needed}
        return b"pruned %d" % (before - len(self.objects))

    def changes(self, before):
        """At how many places the node isn't as it was before."""
        maps = [(self.objects, before.objects), (self.refs, before.refs)]
        count = sum(new.get(key) != old.get(key) for new, old in maps for key in {*new, *old})
        return count + (self.head != before.head) + (self.index != before.index)


class Clone(Node):
    """A clone. What is awaited is none, a kind of message, or the wants of a pack and the refs that were advertised with them."""

    def start(self):
        super().start()
        self.awaited = None

    def write(self, kind, body):
        world_values.check(kind, body)
        self.put(kind, body)

    def put(self, kind, body):
        it = name_of(kind, body)
        self.objects.setdefault(it, (kind, body))
        return it

    def add(self, path, word):
        if len(path) > LONGEST_PATH or not all(map(may_stand, path.split(b"/"))):
            raise Refused(60)
        if in_the_way(self.index, path):
            raise Refused(61)
        self.index[path] = (FILE, self.put("blob", word + b"\n"))

    def unstage(self, path):
        self.index.pop(path, None)

    def refuse_value(self, it):
        """Refuses what isn't all there, or is no commit with commits alone before it."""
        if not is_complete(self.objects, it):
            raise Refused(40)
        if not history(self.objects, it)[1]:
            raise Refused(41)

    def commit(self, word, *others):
        if isinstance(self.head, bytes) and in_the_way(self.refs, self.head):
            raise Refused(32)
        for it in others:
            self.refuse_value(it)
        root, trees = world_values.trees_of(self.index)
        value = self.head_value()
        parents = "".join(f"parent {it}\n" for it in [*([value] if value else []), *others])
        who = "author a <a> 0 +0000\ncommitter a <a> 0 +0000\n\n"
        self.objects = {**trees, **self.objects}
        it = self.put("commit", f"tree {root}\n{parents}{who}".encode() + word + b"\n")
        if isinstance(self.head, bytes):
            self.refs[self.head] = it
        else:
            self.head = it

    def branch(self, name, it):
        if in_the_way(self.refs, name):
            raise Refused(32)
        self.refuse_value(it)
        self.refs[name] = it

    def delete(self, name):
        self.refs.pop(name, None)

    def set_head(self, name):
        self.head = name

    def load(self, it):
        self.index = world_values.files_of(self.objects, it)

    def detach(self, it):
        self.refuse_value(it)
        self.head = it

    def fetch(self):
        self.awaited = "advert"
        return "list", ()

    def push(self, items, is_atomic):
        if len(items) > MOST:
            raise Refused(84)
        for _, new in items:
            if new and not is_complete(self.objects, new):
                raise Refused(40)
        commands = [(self.refs.get(followed(name), ZERO), new or ZERO, name) for name, new in items]
        tracked = [value for name, value in self.refs.items() if name.startswith(TRACKING)]
        carried = reached(self.objects, [new for _, new in items if new])[0] - reached(self.objects, tracked)[0]
        return "push", (commands, {it: self.objects[it] for it in sorted(carried)}, is_atomic)

    def take_advert(self, refs):
        if self.awaited != "advert":
            raise Refused(91)
        wants = list(dict.fromkeys(it for _, it in sorted(refs.items()) if not is_complete(self.objects, it)))[:MOST]
        if not wants:
            self.awaited = None
            return self.move(refs)
        haves = [it for _, it in sorted(self.refs.items())] + [self.head_value()]
        self.awaited = wants, refs
        return "want", (wants, [it for it in dict.fromkeys(haves) if it][:MOST])

    def take_pack(self, objects):
        if self.awaited in (None, "advert"):
            raise Refused(91)
        wants, refs = self.awaited
        if reached({**objects, **self.objects}, wants)[1]:
            raise Refused(92)
        self.objects = {**objects, **self.objects}
        self.awaited = None
        return self.move(refs)

    def take_report(self, results):
        branches = {name: new for name, new, reason in results if reason is None and name.startswith(HEADS)}
        return self.move(branches) + b"".join(b" ng %d" % reason for _, _, reason in results if reason is not None)

    def move(self, refs):
        """Moves tracking branches forward and sets tags that aren't there, where all is there that they reach."""
        moved = 0
        for name, new in sorted(refs.items()):
            to = name if name.startswith(TAGS) else followed(name)
            if to is None or not is_legal(to) or not is_complete(self.objects, new) or in_the_way(self.refs, to):
                continue
            commits, holds = history(self.objects, new)
            old = self.refs.get(to)
            if name.startswith(TAGS) and old is None or name.startswith(HEADS) and holds and old != new and old in {None, *commits}:
                self.refs[to] = new
                moved += 1
        return b"moved %d" % moved


class Push:
    """An open push: its commands and the reasons that refuse them, and what it carries, or none where a body is at fault."""

    def __init__(self, clone, commands, carried, is_atomic):
        self.clone, self.commands, self.carried, self.is_atomic = clone, commands, carried or {}, is_atomic
        self.reasons, self.stage, self.next = [109 if carried is None else 0] * len(commands), "opened", 0


class Shared(Node):
    """The shared node, with its slots."""

    def start(self):
        super().start()
        self.slots = [None] * SLOTS

    def advert(self):
        return "advert", (dict(self.refs),)

    def pack(self, wants, haves):
        ours = reached(self.objects, self.refs.values())[0]
        if not ours.issuperset(wants):
            raise Refused(90)
        names = reached(self.objects, wants)[0] - reached(self.objects, ours.intersection(haves))[0]
        return "pack", ({it: self.objects[it] for it in sorted(names)},)

    def open(self, clone, commands, carried, is_atomic):
        if None not in self.slots:
            raise Refused(110)
        slot = self.slots.index(None)
        self.slots[slot] = Push(clone, commands, carried, is_atomic)
        return b"slot %d" % slot

    def needed(self):
        """Beside what refs reach, what an open push's commands that nothing refuses yet reach through what is stored and what it carries."""
        needed = super().needed()
        for push in filter(None, self.slots):
            values = [new for (_, new, _), reason in zip(push.commands, push.reasons) if not reason]
            needed |= reached({**push.carried, **self.objects}, values)[0]
        return needed

    def judge(self, push, old, new, name):
        """What the check refuses a command with, over what is stored and what the push carries."""
        objects = {**push.carried, **self.objects}
        is_branch = name.startswith(HEADS)
        if not is_legal(name) or is_branch and len(name) > LONGEST_BRANCH:
            return 100
        if not is_branch and not name.startswith(TAGS):
            return 101
        if new == ZERO:
            return 102
        if not is_complete(objects, new):
            return 103
        commits, holds = history(objects, new)
        if is_branch and not holds:
            return 104
        if is_branch and old not in {ZERO, *commits}:
            return 105
        return 0

    def update(self, refs, old, new, name):
        """What refuses a command over these refs, or none, and then its ref is set there."""
        if name.startswith(TAGS) and name in refs:
            return 106
        if in_the_way(refs, name):
            return 107
        if refs.get(name, ZERO) != old:
            return 108
        refs[name] = new
        return 0

    def update_all(self, push):
        """The commands of an atomic push are judged in their order, each over the refs as those before it that passed would leave them, and a
        branch that one before it names is stale. All refs are set, or none."""
        refs, named = dict(self.refs), set()
        for number, (old, new, name) in enumerate(push.commands):
            is_again = name.startswith(HEADS) and name in named
            push.reasons[number] = self.update(refs, None if is_again else old, new, name)
            named.add(name)
        push.next = len(push.commands)
        refused = next((number for number, reason in enumerate(push.reasons) if reason), None)
        if refused is None:
            self.refs = refs
            return b"atomic ok %d" % len(push.commands)
        said = b"atomic ng %s %s" % (push.commands[refused][2], TEXTS[push.reasons[refused]])
        push.reasons = [reason or 117 for reason in push.reasons]
        return said

    def step(self, slot):
        """A step of the push in a slot: the answer, or the report and whom it goes to."""
        push = self.slots[slot] if slot < SLOTS else None
        if push is None:
            raise Refused(111)
        if push.stage == "opened":
            push.reasons = [reason or self.judge(push, *command) for reason, command in zip(push.reasons, push.commands)]
            if push.is_atomic and any(push.reasons):
                push.reasons = [reason or 117 for reason in push.reasons]
            push.stage = "checked"
            return b"checked %d" % push.reasons.count(0)
        passed = [number for number, reason in enumerate(push.reasons) if not reason and number >= push.next]
        if passed and push.stage == "checked":
            self.objects = {**push.carried, **self.objects}
            push.stage = "migrated"
            return b"migrated"
        if passed and push.is_atomic:
            return self.update_all(push)
        if passed:
            number = passed[0]
            push.reasons[number] = reason = self.update(self.refs, *push.commands[number])
            push.next = number + 1
            name = push.commands[number][2]
            return b"ng %s %s" % (name, TEXTS[reason]) if reason else b"ok " + name
        self.slots[slot] = None
        results = [(name, new, reason or None) for (_, new, name), reason in zip(push.commands, push.reasons)]
        return push.clone, ("report", (results,))


class World:
    """One shared node, clones, and all messages that were sent: the clone that each is to or from, its kind and what it says."""

    def __init__(self, count):
        self.shared, self.clones, self.messages = Shared(), [Clone() for _ in range(count)], []
        self.is_lost = False

    def node(self, number):
        return self.shared if number is None else self.clones[number]

    def addressee(self, event):
        """The node that an event comes to."""
        kind, first = event[:2]
        if kind == "deliver":
            if first >= len(self.messages):
                raise Refused(113)
            clone, kind, _ = self.messages[first]
            return self.node(None if kind in TO_SHARED else clone)
        if kind == "forge":
            return self.node(None if event[2] else first)
        return self.node(None if kind == "step" else first)

    def sent(self, clone, message):
        kind, content = message
        self.messages.append((clone, kind, content))
        place = {"push": 1, "pack": 0}.get(kind)
        objects = b"" if place is None else b" objects %d" % len(content[place])
        return b"sent %d" % (len(self.messages) - 1) + objects

    def play(self, event):
        """The answer to an event, or none where it isn't known."""
        try:
            return None if self.is_lost else self.answer(event)
        except Refused as refused:
            return b"refused %d" % refused.number
        except Unknown:
            self.is_lost = True
            return None

    def answer(self, event):
        node = self.addressee(event)
        if event[0] not in ("stop", "restart"):
            if node.is_down:
                raise Refused(112)
            if node.left is not None:
                return self.play_stopping(node, event)
        return self.play_at(event)

    def play_at(self, event):
        return getattr(self, f"play_{event[0]}")(*event[1:])

    def play_stopping(self, node, event):
        """An event at a node where a stop was set."""
        before, sent = copy.deepcopy(node), len(self.messages)
        try:
            said = self.play_at(event)
        except Refused as refused:
            said = b"refused %d" % refused.number
        (least, most), changes = node.left, node.changes(before)
        if said.startswith(b"atomic ok "):
            changes = min(changes, 1)
        if changes > most:
            del self.messages[sent:]
            node.fail(before)
            return b"fault device"
        if changes or not self.only_looks(event, said):
            if least < MANY:
                raise Unknown
            node.left = least - MANY, most - changes
        return said

    def only_looks(self, event, said):
        """Whether an event that changed nothing surely made no write."""
        if event[0] in ("deliver", "forge"):
            return self.kind_that_comes(event) in ("list", "want", "advert", "report") or said == b"refused 91"
        if event[0] == "step":
            return said.startswith((b"checked ", b"ng ", b"atomic ng ", b"refused "))
        return event[0] in ("same", "push") or event[2:3] == ("fetch",) or said.startswith(b"refused ")

    def kind_that_comes(self, event):
        """Which message an event brings, or none where it brings bytes that are no message."""
        if event[0] == "deliver":
            return self.messages[event[1]][1]
        try:
            return world_wire.read(event[3])[0]
        except Refused:
            return None

    def play_deliver(self, number):
        return self.come(*self.messages[number])

    def play_forge(self, clone, is_to_shared, text):
        kind, content = world_wire.read(text)
        if kind not in (TO_SHARED if is_to_shared else TO_CLONES):
            raise Refused(91)
        return self.come(clone, kind, content)

    def come(self, clone, kind, content):
        """A message comes to its addressee."""
        shared, node = self.shared, self.clones[clone]
        if kind == "push":
            return shared.open(clone, *content)
        take = {"list": shared.advert, "want": shared.pack, "advert": node.take_advert, "pack": node.take_pack, "report": node.take_report}
        said = take[kind](*content)
        return said if isinstance(said, bytes) else self.sent(clone, said)

    def play_step(self, slot):
        said = self.shared.step(slot)
        return said if isinstance(said, bytes) else self.sent(*said)

    def play_stop(self, node, writes):
        self.node(node).stop(writes)
        return b"done"

    def play_restart(self, node):
        self.is_lost = self.node(node).is_unsure
        self.node(node).start()
        return b"done"

    def play_pack(self, node):
        return b"done"

    def play_prune(self, node):
        return self.node(node).prune()

    def play_same(self, node, *texts):
        one, other = map(self.node(node).value, texts)
        return b"same" if one == other else b"differ"

    def play_order(self, number, order, words, texts):
        """A clone's own order, behind whose words the values of expressions come."""
        clone = self.clones[number]
        said = getattr(clone, order)(*words, *[clone.value(text) for text in texts])
        return self.sent(number, said) if said else b"done"

    def play_push(self, number, items, is_atomic):
        clone = self.clones[number]
        values = [(name, None if text is None else clone.value(text)) for text, name in items]
        return self.sent(number, clone.push(values, is_atomic))


def insist(holds):
    if not holds:
        raise BadScript


def number_of(word):
    insist(re.fullmatch(rb"[0-9]{1,9}", word))
    return int(word)


def node_of(word, count):
    """The number of a clone, or none for the shared node."""
    if word == b"shared":
        return None
    insist(re.fullmatch(rb"c(?:0|[1-9][0-9]*)", word) and int(word[1:]) < count)
    return int(word[1:])


def ref_of(name):
    insist(is_legal(name))
    return name


def item_of(word):
    """What a push is to send, or none, and the ref that it is for."""
    text, colon, name = word.rpartition(b":")
    return (text or None, ref_of(name)) if colon else (HEADS + word, ref_of(HEADS + word))


def order_of(number, verb, words):
    """The event of a line of a clone, by its verb and the words behind it."""
    count = len(words)
    forms = {
        b"write": count == 2, b"add": count == 2, b"unstage": count == 1, b"commit": count >= 1, b"branch": count == 2,
        b"delete": count == 1, b"head": count == 1, b"load": count == 1, b"detach": count == 1, b"fetch": count == 0,
    }
    insist(forms.get(verb))
    verb = verb.decode()
    if verb == "write":
        insist(words[0].decode("latin-1") in world_values.KINDS)
        return "order", number, verb, [words[0].decode(), bytes_of(words[1])], []
    if verb in ("branch", "delete", "head"):
        return "order", number, "set_head" if verb == "head" else verb, [ref_of(HEADS + words[0])], words[1:]
    texts = {"commit": 1, "load": 0, "detach": 0}.get(verb, count)
    return "order", number, verb, words[:texts], words[texts:]


def bytes_of(digits):
    insist(re.fullmatch(rb"(?:[0-9a-fA-F]{2})+", digits))
    return bytes.fromhex(digits.decode())


def forged(to, other, text):
    """The event of bytes that come to a node from the other end."""
    insist((to is None) != (other is None))
    return "forge", other if to is None else to, to is None, text


def event_of(words, count):
    """The event of a line, in a world of so many clones."""
    if words[0] in (b"deliver", b"step") and len(words) == 2:
        return words[0].decode(), number_of(words[1])
    if words[0] == b"restart" and len(words) == 2:
        return "restart", node_of(words[1], count)
    if words[0] == b"stop" and len(words) == 3:
        return "stop", node_of(words[1], count), number_of(words[2])
    if words[0] == b"forge" and len(words) == 4:
        return forged(node_of(words[1], count), node_of(words[2], count), bytes_of(words[3]))
    node, verb, rest = node_of(words[0], count), *words[1:2], words[2:]
    if verb in (b"pack", b"prune") and not rest:
        return verb.decode(), node
    if verb == b"same" and len(rest) == 2:
        return "same", node, *rest
    insist(node is not None)
    if verb in PUSHES and rest:
        return "push", node, [item_of(word) for word in rest], verb == PUSHES[1]
    return order_of(node, verb, rest)


def read_script(text):
    """The clones of a script, and its events."""
    first, *lines = [line.split(b" ") for line in text.removesuffix(b"\n").split(b"\n")]
    insist(len(first) == 2 and first[0] == b"world" and 1 <= number_of(first[1]) <= MOST_CLONES)
    count = int(first[1])
    insist(all(len(line) > 1 and all(line) for line in lines))
    return count, [event_of(line, count) for line in lines]


def answers(text):
    """What a script's events are answered with, as far as it is known, or none where the text is no script."""
    try:
        count, events = read_script(text)
    except BadScript:
        return None
    world = World(count)
    told = map(world.play, events)
    return [answer if answer is None else answer.decode("utf-8", "surrogateescape") for answer in told]
