"""Prunes of a store that is served, and of one with many objects, for tools/exchanges."""
import os
import re
import subprocess
import threading
import time

from leftovers import files_of, hardships, whole_faults

DONE, REFUSED, PATIENCE = hardships.DONE, hardships.REFUSED, hardships.PATIENCE
PUSHES = 12  # in a row, while the store and a clone are pruned
PAUSE = 0.05  # seconds between two prunes
MAIN = "refs/heads/main"


def prune_until(repository, done, seen):
    """Prunes a repository again and again: what that ended with."""
    while not done.is_set():
        repository.run("hash-object", "--write", text=b"%d\n" % len(seen))
        seen.append(repository.run("prune"))
        time.sleep(PAUSE)


def is_busy(got):
    """Whether a prune was refused, since objects are in use."""
    return got[:2] == (REFUSED, "") and got[2].startswith("vcs: 110 ")


def is_done(got):
    """Whether a prune told how many objects went."""
    return got[0] == DONE and re.fullmatch(r"pruned \d+\n", got[1]) is not None and not got[2]


def prune_at_last(repository):
    """A prune once the server is at no answer any more: what it ended with."""
    start = time.time()
    while is_busy(got := repository.run("prune")) and time.time() - start < PATIENCE:
        time.sleep(PAUSE)
    return got


def among_prunes(trials, server, clones, shared):
    """The store and a clone are pruned again and again while all push, and each push ends as ever: what was told as done is there, whole.
    At the end a prune takes what nothing reaches, and not a thing more."""
    done, seen, commits = threading.Event(), {shared: [], clones[0]: []}, []
    pruners = [threading.Thread(target=prune_until, args=(it, done, told)) for it, told in seen.items()]
    for it in pruners:
        it.start()
    for number in range(PUSHES):
        clone = clones[number % len(clones)]
        clone.follow(server)
        commits.append(clone.commit(f"push {number} among prunes\n"))
        status, output, errors = clone.push(server, *([] if number % 2 else ["--atomic"]), "main", f"main:refs/tags/among{number}")
        wanted = DONE, f"ok {MAIN}\nok refs/tags/among{number}\n", ""
        trials.see((status, output, errors) == wanted, f"push {number} among prunes: status {status}, {output!r}, {errors!r}")
    done.set()
    for it in pruners:
        it.join()
    for repository, told in seen.items():
        off = [it for it in told if not is_busy(it) and not is_done(it)]
        trials.see(told and not off, f"{repository.name}: {len(told)} prunes, of which {off[:3]}")
        repository.must("hash-object", "--write", text=b"nothing reaches this\n")
        for count in (None, 0):
            got = prune_at_last(repository)
            trials.see(is_done(got) and (count is None or got[1] == f"pruned {count}\n"), f"{repository.name}: a prune at the end: {got}")
        off = [*whole_faults(files_of(repository.store))]
        trials.see(not off, f"{repository.name}: after prunes {off[:5]}")
    lost = {*commits} - {*shared.must("rev-list", "main").split()}
    trials.see(not lost, f"commits that were told as done among prunes are gone: {lost}")


def on_terminal(repository, *words):
    """Runs a command whose faults a person reads: its status, what it printed, and what it told."""
    ours, theirs = os.openpty()
    process = subprocess.Popen(
        repository.words(*words), cwd=repository.folder, stdin=subprocess.DEVNULL, stdout=subprocess.PIPE, stderr=theirs
    )
    os.close(theirs)
    told = b""
    try:
        while part := os.read(ours, 65536):
            told += part
    except OSError:
        pass  # nobody holds the other end any more
    os.close(ours)
    output, _ = process.communicate(timeout=PATIENCE)
    return process.returncode, output, told.replace(b"\r\n", b"\n")


def prunes_aloud(trials, shared, many):
    """Prunes of a store with many objects, which stay, and then go: on a terminal it is told how far they are."""
    read, removed = rb"(\rvcs: read \d+0000 files)+", rb"(\rvcs: read \d+0000 files)*(\rvcs: removed \d+0000 objects)+"
    for least, wanted in ((0, read), (many, removed)):
        status, output, told = on_terminal(shared, "prune")
        count = re.fullmatch(rb"pruned (\d+)\n", output)
        holds = status == DONE and count and int(count[1]) >= least and re.fullmatch(wanted + rb"\n", told)
        trials.see(holds, f"a prune of many objects: status {status}, {output!r}, {told!r}")
        trials.see(not [*whole_faults(files_of(shared.store))], "a prune of many objects took what is reached")
        if not least:
            for number in range(2):
                shared.must("branch-delete", f"many{number}")
    shared.must("rev-list", "main")
