"""Prunes in the middle of pushes and fetches, and the other way round, for tools/kills.

One end of an exchange is held at one of its calls that change something, and a prune comes to its store. A prune that asked only which
refs there are would take here what a push has stored and no ref names yet, and the push would then set its ref to a commit that is gone.
And a prune is held at one of its calls, and an exchange comes to its store.

What is held goes on once the other one has ended, or waits for it. Whatever came first, the exchange has to end as ever; the prune tells
what went, or that the objects are in use (110); and all that refs reach is there. A prune then takes all else.
"""
import itertools
import re
import shutil
import tempfile
import threading
import time
from pathlib import Path

import tracing
from kill_exchanges import DONE, ENDS, EXCHANGES, PATIENCE, REFUSED, Off, begin, ended, exchange, faults_of_told, kept, make
from leftovers import faults_of_looks, hardships, path_of, reached, run, whole_faults
from tracing import Hindrance, some_of

PRUNE = ("prune",)
FLOCK = "73"  # the number of the call that waits for a lock
UNSEEN = 2  # seconds that one is held for the other if the system doesn't tell what that waits for
MANY = 1000  # more than there are
# The exchanges that are held, and at how many calls. The first is that in which a push has stored what no ref names yet.
HELD = {"push, the server": MANY, "atomic push, the server": 25, "push, the clone": 12, "fetch, the server": 12, "fetch, the clone": 40}
# The exchanges that come to a store where a prune is held.
COMING = ("push, the server", "push, the clone", "fetch, the clone")
PRUNED, BUSY = rb"pruned \d+\n", rb"vcs: 110 .*\n"


def waits_for_lock(process):
    """Whether a process waits for a lock; none if the system doesn't tell."""
    try:
        return Path(f"/proc/{process.pid}/syscall").read_text().split()[0] == FLOCK
    except OSError:
        return None if process.poll() is None else False


def settle(begun, is_over):
    """Waits until it is over, or one of the processes that were begun waits for a lock."""
    start = time.time()
    while not is_over() and time.time() - start < PATIENCE:
        seen = [waits_for_lock(it) for it in begun]
        if True in seen or None in seen and time.time() - start > UNSEEN:
            return
        time.sleep(0.002)


class Held:
    """Holds a process at one of its calls that change something until what is begun there is over, or waits."""

    def __init__(self, number, begin):
        self.number, self.begin, self.calls = number, begin, []

    def __call__(self, call):
        if call.changes():
            self.calls.append(call.name())
            if len(self.calls) - 1 == self.number:
                settle(*self.begin())
        return 0


def make_unreached(top, words):
    """Both ends, each with an object that nothing reaches."""
    make(top, words)
    hardships.Site(top / "clone").must("hash-object", "--write", text=hardships.UNREACHED)


def tasks_of(top, name, chance, is_exchange_held):
    """What is tried of an exchange: at each of some calls, of one end of it or of the prune, the other one comes."""
    words, end = EXCHANGES[name]
    make_unreached(top / "old", words)
    shutil.copytree(top / "old", top / "new", symlinks=True)
    whole = Hindrance("kill", None, only_changing=True)
    told = exchange(top / "new", words, end, whole)
    if [told[it][0] for it in ENDS] != [DONE, DONE]:
        raise Off(told)
    calls, most = whole.calls, HELD.get(name)
    if not is_exchange_held:
        shutil.copytree(top / "old", top / "pruned", symlinks=True)
        held, most = Held(None, None), MANY
        told = prune_held(top / "pruned" / end, held)
        calls = held.calls
        if told != (DONE, b"pruned 1\n"):
            raise Off(told)
    return [(top, words, end, number, is_exchange_held) for number in some_of([*range(len(calls))], most, chance)]


def prune_held(folder, held):
    """A prune that is held: its status, and what it printed."""
    process = begin(PRUNE, folder, True)
    tracing.follow(process, held)
    return ended(process)


def beside_exchange(folder, words, end, number):
    """An exchange, and a prune at one end while that is held: what each of them told, and at which call."""
    prunes = []

    def prune():
        prunes.append(begin(PRUNE, folder / end, False))
        return prunes, lambda: prunes[0].poll() is not None

    held = Held(number, prune)
    told = exchange(folder, words, end, held)
    return told, ended(prunes[0]) if prunes else None, held.calls[number : number + 1]


def beside_prune(folder, words, end, number):
    """A prune at one end, and an exchange while that is held."""
    told, begun, users = {}, [], []

    def use():
        users.append(threading.Thread(target=lambda: told.update(exchange(folder, words, begun=begun))))
        users[0].start()
        return begun, lambda: not users[0].is_alive()

    held = Held(number, use)
    pruned = prune_held(folder / end, held)
    for it in users:
        it.join()
    return told, pruned, held.calls[number : number + 1]


def faults_of_store(folder):
    """What is wrong with a store: what it lacks, and what its looks say."""
    yield from whole_faults(kept(folder / ".git"))
    yield from faults_of_looks(folder)


def faults_of_prune(folder):
    """What is wrong with prunes at the end: all that nothing reaches goes at once."""
    printed = [run(folder, *PRUNE) for _ in range(2)]
    files = kept(folder / ".git")
    left = {path for path in files if path.startswith("objects/")} - {path_of(it) for it in reached(files)}
    if not re.fullmatch(PRUNED, printed[0][1]) or printed[1] != (DONE, b"pruned 0\n") or left:
        yield f"at the end prune printed {printed}, and left {sorted(left)}"
    yield from faults_of_store(folder)


def try_once(task):
    """One exchange with a prune in its middle, or the other way round."""
    top, words, end, number, is_exchange_held = task
    old, new = ({it: kept(top / when / it / ".git") for it in ENDS} for when in ("old", "new"))
    with tempfile.TemporaryDirectory() as folder:
        folder = Path(folder) / "it"
        shutil.copytree(top / "old", folder, symlinks=True)
        told, pruned, call = (beside_exchange if is_exchange_held else beside_prune)(folder, words, end, number)
        now = {it: kept(folder / it / ".git") for it in ENDS}
        faults = [] if call else [f"its call never came: {told}"]
        if not told or [told[it][0] for it in ENDS] != [DONE, DONE]:
            faults.append(f"the exchange: {told}")
        else:
            faults += faults_of_told(told, old, new, now)
        wanted = {DONE: PRUNED, REFUSED: BUSY if is_exchange_held else rb"(?!)"}
        if pruned is None or not re.fullmatch(wanted.get(pruned[0], rb"(?!)"), pruned[1]):
            faults.append(f"the prune: {pruned}")
        faults += itertools.chain.from_iterable(faults_of_store(folder / it) for it in ENDS)
        faults += itertools.chain.from_iterable(faults_of_prune(folder / it) for it in ENDS)
        return "hold", number, *(call or [None]), faults
