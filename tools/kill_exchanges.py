"""Pushes and fetches of which one end is killed, or has a call that fails, for tools/kills.

A clone pushes to a served store, or fetches from it, and one of the two processes is hindered at one of its calls that change something
(files, locks, what is sent or printed). The other one has to end by itself. Then both stores have to hold what they held or what the
exchange was to leave there, whole and complete, and of an atomic push all refs or none; what the clone was told must be so; no branch may
be tracked at a value that it never had; and a fetch and a push that nobody hinders must end as ever, with nothing removed by hand and
nothing left in a quarantine.
"""
import itertools
import os
import re
import shutil
import socket
import subprocess
import tempfile
import threading
from pathlib import Path

import tracing
from leftovers import DONE, PROGRAM, faults_after, faults_of_looks, files_of, hardships, run, whole_faults
from tracing import Hindrance, hindrances

MOST = 40  # calls of one end that are hindered in one way, but of an atomic push each is
EVERY = 1000  # more than there are
PATIENCE = 300  # seconds after which the other end is taken to hang
REFUSED, FAULT = hardships.REFUSED, hardships.FAULT
TAG = "refs/tags/v1"
PUSH = ("push", "main", "topic", f"main:{TAG}")
ATOMIC = "--atomic"
# Of its refs one has a file of its own over a packed value, one is packed alone, and two are new.
ATOMIC_PUSH = ("push", ATOMIC, "main", "topic", "main:refs/heads/old", f"main:{TAG}")
# What the clone does, and which end is hindered.
EXCHANGES = {
    "push, the clone": (PUSH, "clone"),
    "push, the server": (PUSH, "shared"),
    "atomic push, the clone": (ATOMIC_PUSH, "clone"),
    "atomic push, the server": (ATOMIC_PUSH, "shared"),
    "fetch, the clone": (("fetch",), "clone"),
    "fetch, the server": (("fetch",), "shared"),
}
ENDS = ("shared", "clone")
PORTS, STRETCH, USED = range(10000, 30000), 997, itertools.count()


class Off(Exception):
    """An exchange that isn't done though nobody hinders it."""


def free_port():
    """A port below those that the system gives to connections, from a stretch that no other process takes ports from here."""
    while True:
        port = PORTS.start + (os.getpid() * STRETCH + next(USED)) % len(PORTS)
        with socket.socket() as held:
            try:
                held.bind(("127.0.0.1", port))
                return str(port)
            except OSError:
                pass


def connect(port):
    """A server that waits for a message gets one, and is heard to its end."""
    try:
        with socket.create_connection(("127.0.0.1", int(port)), 1) as line:
            line.sendall(b"0009list\n0000")
            line.shutdown(socket.SHUT_WR)
            while line.recv(65536):
                pass
    except OSError:
        pass


def begin(words, folder, is_followed):
    start = tracing.begin if is_followed else subprocess.Popen
    return start([PROGRAM, *words], cwd=folder, stdin=subprocess.DEVNULL, stdout=subprocess.PIPE, stderr=subprocess.STDOUT)


def ended(process):
    """The status of a process, none where it doesn't end, and what it printed."""
    try:
        printed = process.communicate(timeout=PATIENCE)[0]
    except subprocess.TimeoutExpired:
        process.kill()
        process.communicate()
        return None, b"it hangs"
    return process.returncode, printed


def exchange(top, words, end=None, hindrance=None, begun=None):
    """A command of the clone to the served store, with one end hindered, if any: the status of each end, and what it printed. The processes
    are added to those that were begun."""
    port = free_port()
    words = (words[0], "--port", port, *words[1:])
    serve = ("serve", "--port", port, "--count", "1")
    server, begun = begin(serve, top / "shared", end == "shared"), [] if begun is None else begun
    begun.append(server)
    told = {}

    def use():
        """The clone's end begins once the server listens, or has ended before. A server that nobody came to gets a connection."""
        line = server.stdout.readline()
        clone = begin(words, top / "clone", end == "clone")
        begun.append(clone)
        if end == "clone":
            tracing.follow(clone, hindrance)
        told["clone"] = ended(clone)
        connect(port)
        told["line"] = line

    user = threading.Thread(target=use)
    user.start()
    if end == "shared":
        tracing.follow(server, hindrance)
    user.join()
    status, printed = ended(server)
    return {"clone": told["clone"], "shared": (status, told["line"] + printed)}


def kept(store):
    """The files of a store but those of an exchange that goes on."""
    return {path: held for path, held in files_of(store).items() if not path.startswith(("quarantine/", "incoming.", "serving."))}


def refs_of(files):
    return {path: held for path, held in files.items() if path.startswith("refs/")}


def pack(shared, is_main_over):
    """Packs the refs of a store, with main, or with an earlier value of it under its own file."""
    value = (shared.store / "refs/heads/main").read_text().strip()
    if is_main_over:
        shared.must("branch", "main", "old")
    shared.must("pack-refs")
    if is_main_over:
        shared.must("branch", "main", value)


def make(top, words):
    """A served store with packed refs, and a clone that has fetched from it; then one of them has more: what a push or a fetch brings."""
    command = words[0]
    for end in ENDS:
        (top / end).mkdir(parents=True)
    shared, clone = hardships.Ground(top / "shared"), hardships.Site(top / "clone")
    pack(shared, ATOMIC in words)
    clone.must("init")
    exchange(top, ("fetch",))
    clone.must("branch", "main", "origin/main")
    ahead = clone if command == "push" else shared
    ahead.change({"f": b"3\n", "deep/er/h": b"below\n"})
    for one in (("add", "f"), ("add", "deep/er/h"), (*hardships.COMMIT, "two"), ("branch", "topic", "main~1")):
        ahead.must(*one)
    if command == "fetch":
        shared.change({f".git/{TAG}": (shared.store / "refs/heads/main").read_bytes()})
        shared.must("pack-refs")


def tasks_of(top, name, chance):
    """What is to be tried of an exchange, each with the stores before it and after it."""
    words, end = EXCHANGES[name]
    make(top / "old", words)
    shutil.copytree(top / "old", top / "new", symlinks=True)
    whole = Hindrance("kill", None, only_changing=True)
    told = exchange(top / "new", words, end, whole)
    if [told[it][0] for it in ENDS] != [DONE, DONE]:
        raise Off(told)
    return [(top, words, end, it) for it in hindrances(whole.calls, chance, EVERY if ATOMIC in words else MOST)]


def faults_of_ends(told, end, hindrance):
    """What is wrong with how the two ends ended. To the one that nobody hinders it is a connection that failed."""
    if hindrance.call is None:
        yield f"its call never came: {told}"
    for it in ENDS:
        status, printed = told[it]
        wanted = (DONE, REFUSED, FAULT) if it == end else {"shared": (DONE,), "clone": (DONE, REFUSED)}[it]
        if status not in wanted and not (it == end and hindrance.way == "kill"):
            yield f"the {it} end has status {status}, {printed!r}"


def faults_of_told(told, old, new, now):
    """What the clone was told as done and isn't so, and branches that it tracks at values that they hadn't."""
    status, printed = told["clone"]
    for name in re.findall(r"^ok (\S+)$", printed.decode("latin-1"), re.MULTILINE):
        if now["shared"].get(name) != new["shared"][name]:
            yield f"{name} was told as ok, and isn't set"
    if status == DONE:
        for end in ENDS:
            if refs_of(now[end]) != refs_of(new[end]):
                yield f"it was told as done, and the {end} end has {refs_of(now[end])}"
    for name, held in refs_of(now["clone"]).items():
        branch = name.replace("refs/remotes/origin/", "refs/heads/")
        if branch != name and held not in (old["clone"].get(name), old["shared"].get(branch), now["shared"].get(branch)):
            yield f"{name} is {held!r}, which {branch} never was"


def faults_of_parts(words, old, new, now):
    """An atomic push of which some refs are set and others aren't."""
    refs = refs_of(now["shared"])
    if ATOMIC in words and refs not in (refs_of(old["shared"]), refs_of(new["shared"])):
        yield f"some refs of an atomic push are set: {refs}"


def may_be_refused(words):
    """What may be told of a push that comes again, since its tag is there."""
    others = [f"ng refs/heads/{name} atomic push failure" for name in ("main", "topic", "old")]
    return {f"ng {TAG} already exists", *(others if ATOMIC in words else [])}


def faults_afterwards(top, words, new):
    """What is wrong with what nobody hinders then: a fetch, what is left of the push, and both stores."""
    said = []
    for again in (("fetch",), words, ("fetch",)):
        said.append(exchange(top, again))
        if said[-1]["shared"][0] != DONE or said[-1]["clone"][0] not in (DONE, REFUSED):
            yield f"again {again}: {said[-1]}"
    refused = {line for it in said for line in it["clone"][1].decode("latin-1").splitlines() if line.startswith("ng ")}
    if said[0]["clone"][0] != DONE or said[-1]["clone"][0] != DONE or refused - may_be_refused(words):
        yield f"again: {[it['clone'] for it in said]}"
    for end in ENDS:
        store = top / end / ".git"
        left = [path for path, held in files_of(store).items() if path.startswith(("quarantine/", "serving.")) or path.startswith("incoming.") and held]
        if left:
            yield f"again, and {left} are left at the {end} end"
        files = kept(store)
        yield from whole_faults(files)
        yield from faults_of_looks(top / end)
        # (of a clone that pushed, a fetch brings the tag as well)
        if not refs_of(new[end]).items() <= refs_of(files).items():
            yield f"again, and the {end} end has {refs_of(files)}, and not {refs_of(new[end])}"


def try_once(task):
    """One kill or fault of one end: its way, the number of the call and its name, and what is wrong then."""
    top, words, end, (way, number) = task
    old, new = ({it: kept(top / when / it / ".git") for it in ENDS} for when in ("old", "new"))
    with tempfile.TemporaryDirectory() as folder:
        folder = Path(folder) / "it"
        shutil.copytree(top / "old", folder, symlinks=True)
        hindrance = Hindrance(way, number, only_changing=True)
        told = exchange(folder, words, end, hindrance)
        now = {it: kept(folder / it / ".git") for it in ENDS}
        faults = [*faults_of_ends(told, end, hindrance), *faults_of_told(told, old, new, now), *faults_of_parts(words, old, new, now)]
        for it in ENDS:
            faults += [f"at the {it} end {fault}" for fault in faults_after(old[it], new[it], b"", now[it])]
        faults += itertools.chain.from_iterable(faults_of_looks(folder / it) for it in ENDS)
        faults += faults_afterwards(folder, words, new)
        return way, number, hindrance.call, faults
