"""Random scripts of worlds with stops, restarts, prunes and forged bytes, for tools/stopped.

A script is one of `world_scripts.py`, with stops and forged bytes among its lines, and a restart some lines after a stop. The model that
chooses the lines takes each change for one write, so that it mostly knows which messages were sent, and no answer of it is ever
compared. Before each push its clone is asked which of the values are those that it knows already, so that a branch that was set can be
told from one that was set to what it was. Prunes come with pushes open, with a stop before them or none, and where one is stopped its node
is restarted and pruned again."""
import world_model
import world_scripts
from world_model import HEADS, PUSHES, TRACKING
from world_values import Refused
from world_wire import ZERO, written

WRITES = [0, 0, 0, 1, 1, 1, 2, 2, 3, 3, 4, 5, 6, 8, 12, 20]  # that pass before a stop
WEIGHTS = {"stop": 12, "forge": 6, "advance": 8, "together": 4, "held": 6, "strand": 6, "cut_prune": 6}  # beside those of other scripts
MOST_WRITES = 6  # that pass in the update of an atomic push which is stopped
FEW = 4  # items of a push that are asked for


class World(world_model.World):
    """A world in which an event fails, and changes nothing, if it changes more than there are writes left."""

    def play_stopping(self, node, event):
        before, sent = {name: dict(it) if isinstance(it, dict) else it for name, it in vars(node).items()}, len(self.messages)
        try:
            said = self.play_at(event)
        except Refused as refused:
            said = b"refused %d" % refused.number
        maps = [(vars(node)[name], before[name]) for name in ("objects", "refs")]
        changes = sum(new.get(key) != old.get(key) for new, old in maps for key in {*new, *old})
        changes += sum(vars(node)[name] != before[name] for name in ("head", "index"))
        if said.startswith(b"atomic ok "):
            changes = min(changes, 1)
        if changes > node.left[0]:
            del self.messages[sent:]
            vars(node).update(before, is_down=True)
            return b"fault device"
        node.left = (node.left[0] - changes,) * 2
        return said


class Script(world_scripts.Script):
    """A script as far as it is written, with stops and forged bytes."""

    def __init__(self, chance):
        super().__init__(chance)
        self.count = min(self.count, 4)
        self.world, self.lines = World(self.count), []
        self.stopped = {}  # nodes, and after how many more happenings they are restarted
        for kind, often in WEIGHTS.items():
            self.kinds.append(kind)
            self.weights.append(often * chance.choice([0.3, 1, 1, 2]))

    def node_name(self, number):
        return b"shared" if self.odds(0.5) else b"c%d" % number

    def one(self):
        for node in [*self.stopped]:
            self.stopped[node] -= 1
            if self.stopped[node] < 0:
                del self.stopped[node]
                self.say(b"restart", node)
        super().one()

    def order(self, number, verb, *words):
        if verb in PUSHES and len(words) <= FEW:
            for item in words:
                value, colon, name = item.rpartition(b":")
                value, name = (value, name) if colon else (HEADS + item, HEADS + item)
                if value and name.startswith(HEADS):
                    self.say(b"c%d" % number, b"same", value, TRACKING + name[len(HEADS) :])
        return super().order(number, verb, *words)

    def one_stop(self, number):
        node = self.node_name(number)
        self.say(b"stop", node, b"%d" % self.chance.choice(WRITES))
        self.stopped.setdefault(node, self.chance.randrange(2, 14))
        if self.odds(0.7):
            kinds = ["advance"] if node == b"shared" else ["advance", "commit", "whole_fetch", "add", "branch", "pack"]
            getattr(self, f"one_{self.chance.choice(kinds)}")(number)

    def one_advance(self, number):
        """A commit over what the clone knows of a branch, and a push of it."""
        clone, name = self.world.clones[number], self.chance.choice([b"main", b"main", b"main", b"side", b"a"])
        if self.odds(0.7):
            self.one_whole_fetch(number)
        self.order(number, b"head", name)
        if TRACKING + name in clone.refs and self.odds(0.8):
            self.order(number, b"branch", name, TRACKING + name)
        self.order(number, b"commit", self.chance.choice(world_scripts.WORDS))
        self.push_whole(number, self.push_verb(), name)

    def one_together(self, number):
        """An atomic push of a branch that goes on, of a new one and of a new tag, and a stop somewhere in its update."""
        new = b"new-%d" % len(self.lines)
        self.go_on(number, b"main")
        slot = self.open_push(number, PUSHES[1], b"main", b"main:refs/heads/" + new, b"main:refs/tags/" + new)
        if slot is not None:
            self.say(b"step", slot)
            self.say(b"step", slot)
            self.say(b"stop", b"shared", b"%d" % self.chance.randrange(MOST_WRITES))
            self.stopped.setdefault(b"shared", self.chance.randrange(1, 6))
            self.end_push(number, slot)

    def prune_held(self):
        if self.odds(0.2):
            self.say(b"stop", b"shared", b"%d" % self.chance.choice(WRITES))
            self.stopped.setdefault(b"shared", self.chance.randrange(1, 6))
        self.say(b"shared", b"prune")

    def one_cut_prune(self, number):
        """A prune with a stop somewhere in it, of a node that has something to lose; then a restart and a prune again."""
        node = self.node_name(number)
        if node == b"shared":
            self.one_strand(number)
        for _ in range(self.chance.randrange(4) if node != b"shared" else 0):
            self.one_write(number)
        self.put(b"stop", node, b"%d" % self.chance.randrange(MOST_WRITES))
        for words in ((node, b"prune"), (b"restart", node), (node, b"prune")):
            self.put(*words)
        self.stopped.pop(node, None)

    def one_forge(self, number):
        is_to_shared = self.odds(0.5)
        said = self.forged(self.world.clones[number], is_to_shared)
        if said:
            ends = (b"shared", b"c%d" % number) if is_to_shared else (b"c%d" % number, b"shared")
            self.say(b"forge", *ends, said.hex().encode())

    def forged(self, clone, is_to_shared):
        """Bytes that nobody sent: a message of ids and names that there are, an old one, or something like one."""
        pick, kinds = self.chance.choice, ("list", "want", "push") if is_to_shared else ("advert", "pack", "report")
        old = [(kind, content) for _, kind, content in self.world.messages]
        said = written(*pick(old)) if old and self.odds(0.5) else self.made(clone, pick(kinds))
        if self.odds(0.3):
            at = self.chance.randrange(len(said))
            said = pick([said[:at], said[:at] + bytes([self.chance.randrange(256)]) + said[at + 1 :], said + b"0000"])
        return said

    def made(self, clone, kind):
        """A message that was made up."""
        pick = self.chance.choice
        it = lambda: self.object_id(pick([clone, self.world.shared]))
        name = lambda: pick(world_scripts.REFS)
        if kind == "list":
            return written(kind, ())
        if kind == "want":
            return written(kind, ([it() for _ in range(pick([1, 1, 2]))], [it() for _ in range(pick([0, 1, 2]))]))
        if kind == "advert":
            return written(kind, ({name(): it() for _ in range(pick([1, 2, 3]))},))
        if kind == "report":
            return written(kind, ([(name(), it(), pick([None, None, None, 108])) for _ in range(pick([1, 1, 2]))],))
        objects = {other: held for other, held in clone.objects.items() if self.odds(0.7)}
        if kind == "pack":
            return written(kind, (objects,))
        old = lambda to: self.world.shared.refs.get(to, ZERO) if self.odds(0.7) else pick([ZERO, it()])
        return written(kind, ([(old(to), it(), to) for to in dict.fromkeys(name() for _ in range(pick([1, 1, 2])))], objects, self.odds(0.3)))


def script(chance):
    """The clones of a script, and its lines behind the first."""
    it = Script(chance)
    for _ in range(chance.randrange(10, 50)):
        it.one()
    return it.count, it.lines
