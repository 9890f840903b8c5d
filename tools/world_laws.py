"""What the answers of a world tell of it, and laws that each of them keeps, for tools/stopped and tools/refused.

A world is followed line by line: which messages were sent and to whom, which pushes are open and how far they are, which nodes are down.
No object and no ref is known here, so of most answers it is judged whether they may come at all, and not whether they are right."""
from collections import Counter

import world_wire
from world_model import HEADS, PUSHES, SLOTS, TRACKING

DEVICE, MEMORY = b"fault device", b"fault memory"
DONE, DOWN, NO_MESSAGE, NO_SLOT, NOTHING = b"done", b"refused 112", b"refused 113", b"refused 111", b"refused 51"


class Wrong(Exception):
    """A law that an answer breaks."""


def insist(holds, text):
    if not holds:
        raise Wrong(text)


def number_in(answer, word):
    """The number after the word that an answer begins with."""
    words = answer.split(b" ")
    insist(words[0] == word and len(words) > 1 and words[1].isdigit(), f"`{word.decode()}` is wanted, and not {answer!r}")
    return int(words[1])


class Push:
    """An open push: the clone that it is from, the names of its commands if they are known, with whether the value is another one, how many
    commands it has if it is atomic, and how far it is."""

    def __init__(self, clone, items, commands):
        self.clone, self.items, self.commands, self.stage, self.left = clone, items, commands, "opened", 0

    def step(self, answer):
        """What the next step is answered with. The refs that it sets."""
        if self.stage == "opened":
            self.left, self.stage = number_in(answer, b"checked"), "checked"
            insist(not self.commands or self.left in (0, self.commands), f"some of an atomic push pass: {answer!r}")
            return []
        insist(self.left > 0, f"the push is at its end, and not {answer!r}")
        if self.stage == "checked":
            insist(answer == b"migrated", f"`migrated` is wanted, and not {answer!r}")
            self.stage = "migrated"
            return []
        if self.commands:
            return self.update_all(answer)
        self.left -= 1
        words = answer.split(b" ")
        insist(words[0] in (b"ok", b"ng") and (self.items is None or words[1] in self.items), f"an update is wanted, and not {answer!r}")
        return [words[1]] if words[0] == b"ok" else []

    def update_all(self, answer):
        """The refs of an atomic push are all set, or none."""
        words = answer.split(b" ")
        is_set, is_refused = answer == b"atomic ok %d" % self.left, words[:2] == [b"atomic", b"ng"] and words[2] in self.items
        insist(is_set or is_refused, f"the update of an atomic push is wanted, and not {answer!r}")
        self.left = 0
        return [*self.items] if is_set else []


def forged_items(digits):
    """The names of an atomic push that nobody sent, of which a tag's value is another one than none, and how many commands it has. Of a
    push that isn't atomic its answers tell the names."""
    commands, _, is_atomic = world_wire.read(bytes.fromhex(digits.decode()))[1]
    if not is_atomic:
        return None, 0
    return {name: None if name.startswith(HEADS) else True for _, _, name in commands}, len(commands)


class World:
    """What the answers so far tell of a world in which this fault may come."""

    def __init__(self, fault):
        self.fault = fault
        # Of each message whom it goes to, the clone at its other end, its items, and how many commands an atomic push has, or that of which
        # it is the report.
        self.sent = []
        self.slots, self.down, self.stopped, self.deceived = {}, set(), set(), set()
        self.asked = {}  # what was answered, by clone and tracking ref
        self.together = None  # refs that the last line may have changed, all of them or none
        self.pruned = set()  # nodes to which nothing came since they were pruned
        self.met = Counter()

    def addressee(self, words):
        if words[0] == b"deliver":
            number = int(words[1])
            return self.sent[number][0] if number < len(self.sent) else None
        return {b"step": b"shared", b"forge": words[1]}.get(words[0], words[0])

    def tell(self, line, answer):
        """Judges the answer to a line. The refs that are set, each with whether its value is another one: yes, no, or none."""
        words, self.together = line.split(b" "), None
        if words[0] == b"restart" and answer == self.fault == MEMORY:
            return self.fail(words[1], words, answer)
        if words[0] in (b"stop", b"restart"):
            insist(answer == DONE, f"it is not done: {answer!r}")
            self.restart(words[1]) if words[0] == b"restart" else self.stopped.add(words[1])
            return {}
        node = self.addressee(words)
        if node is None or node in self.down:
            wanted = DOWN if node else NO_MESSAGE
            insist(answer == wanted, f"{wanted!r} is wanted, and not {answer!r}")
            return {}
        insist(answer not in (DOWN, NO_MESSAGE), f"{answer!r} has no cause")
        if words[1:] == [b"prune"] and not answer.startswith(b"fault "):
            self.prune(node, answer)
            return {}
        self.pruned.discard(node)
        if words[0] == b"forge" and not answer.startswith(b"refused "):
            self.met["forged messages taken"] += 1
            self.deceived.add(node)  # also if a fault ended it: some of it may be kept
        if answer.startswith(b"fault "):
            return self.fail(node, words, answer)
        return self.step(int(words[1]), answer) if words[0] == b"step" else self.take(node, words, answer)

    def prune(self, node, answer):
        """Objects go, and none if there came nothing since the last prune."""
        count = number_in(answer, b"pruned")
        insist(answer == b"pruned %d" % count and not (count and node in self.pruned), f"a prune is answered {answer!r}")
        self.pruned.add(node)
        self.met["prunes"] += 1
        self.met["prunes with open pushes"] += node == b"shared" and bool(self.slots)
        self.met["objects removed"] += count

    def restart(self, node):
        self.pruned.discard(node)
        self.stopped.discard(node)
        self.down.discard(node)
        if node == b"shared":
            self.slots = {}

    def fail(self, node, words, answer):
        """A fault, which a stop explains, or the one allocation that was refused. Which refs may have been set."""
        may_come = node in self.stopped if self.fault == DEVICE else not self.met["faults"]
        insist(answer == self.fault and may_come, f"{answer!r} has no cause")
        self.met["faults"] += 1
        self.down.add(node)
        push = self.slots.get(int(words[1])) if words[0] == b"step" else None
        if node == b"shared":
            self.slots = {}
        if push is None or push.stage != "migrated" or not push.left:
            return {}
        if push.commands and None not in push.items.values():
            self.together = {name for name, is_other in push.items.items() if is_other}
        return dict.fromkeys(push.items, None) if push.items is not None else {None: None}

    def send(self, answer, to, clone, items=None, commands=0):
        number = number_in(answer, b"sent")
        insist(number == len(self.sent), f"message {len(self.sent)} is wanted, and not {answer!r}")
        self.sent.append((to, clone, items, commands))

    def step(self, slot, answer):
        push = self.slots.get(slot)
        if push is None:
            insist(answer == NO_SLOT, f"{NO_SLOT!r} is wanted, and not {answer!r}")
            return {}
        if push.stage != "opened" and not push.left:
            self.send(answer, push.clone, push.clone, None, push.commands)
            del self.slots[slot]
            return {}
        names = push.step(answer)
        return {name: True if push.items is None and not name.startswith(HEADS) else (push.items or {}).get(name) for name in names}

    def take(self, node, words, answer):
        """Another line, which a node took."""
        if node != b"shared":
            if words[1:2] == [b"same"]:
                self.asked[node, words[3]] = answer
            if words[0] == b"deliver" and answer.startswith(b"moved "):
                commands = self.sent[int(words[1])][3]
                insist(not commands or answer.count(b" ng ") in (0, commands), f"some of an atomic push are refused: {answer!r}")
            if answer.startswith(b"sent "):
                items = self.items(node, words[2:]) if words[1:2] and words[1] in PUSHES else None
                self.send(answer, b"shared", node, items, len(words[2:]) if words[1:2] == [PUSHES[1]] else 0)
            return {}
        clone = words[2] if words[0] == b"forge" else self.sent[int(words[1])][1] if words[0] == b"deliver" else None
        if answer.startswith(b"sent "):
            self.send(answer, clone, clone)
        if answer.startswith(b"slot "):
            free = min({*range(SLOTS)} - {*self.slots}, default=None)
            insist(answer == b"slot %s" % str(free).encode(), f"slot {free} is free, and not {answer!r}")
            self.slots[free] = Push(clone, *(self.sent[int(words[1])][2:] if words[0] == b"deliver" else forged_items(words[3])))
        return {}

    def items(self, node, words):
        """The names of a push, each with whether its value is another one than that which its clone knows."""
        items = {}
        for word in words:
            value, colon, name = word.rpartition(b":")
            name = name if colon else HEADS + word
            known = self.asked.get((node, TRACKING + name[len(HEADS) :]))
            is_other = {b"same": False, b"differ": True, NOTHING: True}.get(known) if name.startswith(HEADS) else True
            items[name] = None if name in items else is_other
        self.asked = {}
        return items
