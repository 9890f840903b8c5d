"""What a prune takes away: what `git prune` would, and nothing if something of the store can't be read or is in use. For
tools/hardships."""
import fcntl
import os
import re
import subprocess
import tempfile
from contextlib import contextmanager
from pathlib import Path

from leftovers import hardships

DONE, REFUSED, FAULT, PROGRAM, WHO = hardships.DONE, hardships.REFUSED, hardships.FAULT, hardships.PROGRAM, hardships.WHO
BLOB = hardships.BLOB.hex()  # of a file that main and the index reach
BUSY = b"vcs: 110 "


def run(ground, *words):
    done = subprocess.run([PROGRAM, *words], cwd=ground.folder, stdin=subprocess.DEVNULL, capture_output=True, timeout=hardships.PATIENCE)
    return done.returncode, done.stdout, done.stderr


def objects_of(ground):
    """The names of what is stored."""
    found = (re.fullmatch("objects/(..)/(.{38})", path) for path in ground.files())
    return {it[1] + it[2] for it in found if it}


def store(ground, kind, body):
    ground.must("hash-object", "--write", "--kind", kind, text=body)
    return hardships.named(kind, body)[2]


def commit(ground, tree, *parents):
    lines = "".join(f"parent {it}\n" for it in parents)
    return store(ground, "commit", f"tree {tree}\n{lines}author {WHO}\ncommitter {WHO}\n\nx\n".encode())


def tag(ground, it, name):
    return store(ground, "tag", f"object {it}\ntype commit\ntag {name}\ntagger {WHO}\n\nx\n".encode())


def tree(ground, mode, it):
    return store(ground, "tree", mode.encode() + b" d\0" + bytes.fromhex(it))


def scene(ground):
    """Much that nothing reaches, and something that only a packed ref, only a tag, only a detached HEAD, or only the index does."""
    lost = commit(ground, tree(ground, "40000", tree(ground, "100644", store(ground, "blob", b"lost\n"))))
    tag(ground, commit(ground, tree(ground, "160000", lost), lost), "lost")
    kept = commit(ground, tree(ground, "100644", store(ground, "blob", b"tagged\n")))
    # (what a tree names as a commit of another repository is not reached by it)
    apart = commit(ground, tree(ground, "160000", lost), kept)
    ground.must("branch", "packed", apart)
    ground.must("pack-refs")
    head = commit(ground, tree(ground, "120000", store(ground, "blob", b"detached")))
    ground.change({".git/refs/tags/v": f"{tag(ground, kept, 'v')}\n".encode(), ".git/HEAD": f"{head}\n".encode(), "staged": b"staged\n"})
    ground.must("add", "staged")


def git(folder, *words, text=None):
    surroundings = {**os.environ, "GIT_CONFIG_GLOBAL": os.devnull, "GIT_CONFIG_NOSYSTEM": "1"}
    return subprocess.run(["git", *words], cwd=folder, input=text, capture_output=True, check=True, env=surroundings).stdout


def by_git(ground, folder):
    """What git would prune of the same objects, refs, HEAD and index: each with its kind."""
    git(folder, "init", "-q")
    git(folder, "config", "core.logAllRefUpdates", "false")
    for it in objects_of(ground):
        header, body = ground.files()[f"objects/{it[:2]}/{it[2:]}"].split(b"\0", 1)
        git(folder, "hash-object", "-w", "--literally", "-t", header.split()[0].decode(), "--stdin", text=body)
    for line in run(ground, "show-ref")[1].decode().splitlines():
        git(folder, "update-ref", *reversed(line.split(" ", 1)))
    git(folder, "update-ref", "--no-deref", "HEAD", run(ground, "rev-parse", "HEAD")[1].decode().strip())
    for path in ("f", "g", "staged"):
        it = run(ground, "rev-parse", f":{path}")[1].decode().strip()
        git(folder, "update-index", "--add", "--cacheinfo", f"100644,{it},{path}")
    return {*git(folder, "prune", "-n", "--expire=now").decode().splitlines()}


def as_git(trials):
    """What would go is told, and then it goes: what git would prune, and nothing else."""
    with tempfile.TemporaryDirectory() as folder, tempfile.TemporaryDirectory() as theirs:
        ground = hardships.Ground(Path(folder))
        scene(ground)
        old, stored, wanted = ground.files(), objects_of(ground), by_git(ground, theirs)
        status, told, errors = run(ground, "prune", "--dry-run")
        lines = told.decode().splitlines()
        trials.judge("prune --dry-run", (status, errors, lines) == (DONE, b"", sorted(wanted)), f"{status}, {errors!r}, {lines}, and not {sorted(wanted)}")
        trials.judge("prune --dry-run", ground.files() == old and len(wanted) > 5, "something has changed")
        for count in (len(wanted), 0):
            got = run(ground, "prune")
            trials.judge("prune", got == (DONE, b"pruned %d\n" % count, b""), f"{got}, and not {count}")
        gone = stored - objects_of(ground)
        trials.judge("prune", gone == {it.split(" ")[0] for it in wanted}, f"{gone} went")
        kept = {path: held for path, held in old.items() if path[8:].replace("/", "") not in gone}
        trials.judge("prune", ground.files() == kept, "something else has changed")


@contextmanager
def spoilt(ground, place, way):
    """A pipe, a link or other bytes in a file's place, and the file aside."""
    path, aside = ground.store / place, ground.folder / "aside"
    path.rename(aside)
    if way == "pipe":
        os.mkfifo(path)
    elif way == "link":
        path.symlink_to(aside)
    else:
        path.write_bytes(b"x")
    yield
    path.unlink()
    aside.rename(path)


def bad_files(trials):
    """If a root can't be read, or an object that one reaches, nothing goes."""
    for place in ("HEAD", "index", "refs/heads/main", "packed-refs", f"objects/{BLOB[:2]}/{BLOB[2:]}"):
        with tempfile.TemporaryDirectory() as folder:
            ground = hardships.Ground(Path(folder))
            if place == "packed-refs":
                ground.must("pack-refs")
            old = ground.files()
            for way in ("pipe", "link", "bytes"):
                name = f"prune, a {way} as {place}"
                with spoilt(ground, place, way):
                    for words in (("prune",), ("prune", "--dry-run")):
                        status, told, errors = run(ground, *words)
                        trials.judge(f"{name}, {words}", status in (REFUSED, FAULT) and not told, f"status {status}, {told!r}, {errors!r}")
                trials.judge(name, ground.files() == old, "something has changed")
            status, told, _ = run(ground, "prune")
            trials.judge(f"prune, {place} as it was", (status, told) == (DONE, b"pruned 1\n"), f"status {status}, {told!r}")


def odd_files(trials):
    """A file among the objects that has no object's name stays, and isn't counted. An object that is reached and not there stops nothing; one
    that nothing reaches and is damaged is told, and stays."""
    with tempfile.TemporaryDirectory() as folder:
        ground = hardships.Ground(Path(folder))
        odd = {f".git/objects/{it}": b"x" for it in ("README", "info/packs", f"{BLOB[:2]}/short", f"{BLOB[:2]}/{BLOB[2:]}0", f"ZZ/{BLOB[2:]}", "ab/cd/ef")}
        ground.change({**odd, f".git/objects/{BLOB[:2]}/{BLOB[2:]}": None})
        old = ground.files()
        got = run(ground, "prune")
        gone = {*old} - {*ground.files()}
        trials.judge("prune, odd files and an absent object", got == (DONE, b"pruned 1\n", b"") and len(gone) == 1, f"{got}, and {gone} went")
        damaged = hardships.named("blob", b"damaged\n")[2]
        ground.change({f".git/objects/{damaged[:2]}/{damaged[2:]}": b"x"})
        old = ground.files()
        status, told, errors = run(ground, "prune")
        trials.judge("prune, a damaged object", (status, told) == (REFUSED, b"") and errors.startswith(b"vcs: 12 "), f"status {status}, {told!r}, {errors!r}")
        trials.judge("prune, a damaged object", ground.files() == old, "something has changed")


def kept_objects(trials):
    """While someone keeps the objects a prune doesn't wait, and nothing goes. What would go can be told, whoever has the store."""
    with tempfile.TemporaryDirectory() as folder:
        ground = hardships.Ground(Path(folder))
        held = os.open(ground.store / "objects", os.O_RDONLY)
        fcntl.flock(held, fcntl.LOCK_SH)
        old = ground.files()
        status, told, errors = run(ground, "prune")
        trials.judge("prune, kept objects", (status, told) == (REFUSED, b"") and errors.startswith(BUSY), f"status {status}, {told!r}, {errors!r}")
        trials.judge("prune, kept objects", ground.files() == old, "something has changed")
        alone = os.open(ground.store, os.O_RDONLY)
        fcntl.flock(alone, fcntl.LOCK_EX)
        status, told, errors = run(ground, "prune", "--dry-run")
        trials.judge("prune --dry-run, a held store", (status, errors) == (DONE, b"") and told.endswith(b" blob\n"), f"{status}, {told!r}, {errors!r}")
        os.close(alone)
        os.close(held)
        got = run(ground, "prune")
        trials.judge("prune, objects that were kept", got == (DONE, b"pruned 1\n", b""), f"{got}")


TRIALS = (as_git, bad_files, odd_files, kept_objects)
