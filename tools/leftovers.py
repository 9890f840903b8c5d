"""What is left of a store, and what is wrong with it, where a command was killed or one of its calls failed. For tools/kills."""
import hashlib
import re
import subprocess
import sys
from importlib.machinery import SourceFileLoader
from pathlib import Path

sys.dont_write_bytecode = True
hardships = SourceFileLoader("hardships", str(Path(__file__).resolve().parent / "hardships")).load_module()

BEGUN, DONE, PROGRAM = hardships.BEGUN, hardships.DONE, hardships.PROGRAM


def run(folder, *words, text=None):
    done = subprocess.run([PROGRAM, *words], cwd=folder, input=text, capture_output=True, timeout=300)
    return done.returncode, done.stdout + done.stderr


def names_in(path, held):
    """The objects that a file of the store names: a ref, HEAD, the index, or an object."""
    if not path.startswith("objects/"):
        return re.findall(r"\b[0-9a-f]{40}\b", held.decode("latin-1"))
    header, body = held.split(b"\0", 1)
    kind = header.split(b" ")[0]
    if kind == b"tree":
        return [name.hex() for name in re.findall(rb"[0-7]+ [^\0]+\0(.{20})", body, re.DOTALL)]
    if kind == b"commit":
        return re.findall(r"^(?:tree|parent) ([0-9a-f]{40})$", body.split(b"\n\n")[0].decode("latin-1"), re.MULTILINE)
    return []


def path_of(name):
    return f"objects/{name[:2]}/{name[2:]}"


def files_of(store):
    """The files of a store by their paths, with each packed ref as a file of its own, but for those that wait under a lock name,
    which stand for nothing, and but for the note of a checkout that was cut short."""
    paths = (path for path in store.rglob("*") if path.is_file() and path.suffix != ".lock" and path != store / BEGUN)
    return hardships.unpacked({str(path.relative_to(store)): path.read_bytes() for path in paths})


def reached(files):
    """The objects that all else of the store reaches."""
    ahead = [name for path, held in files.items() if not path.startswith("objects/") for name in names_in(path, held)]
    seen = set()
    while ahead:
        name = ahead.pop()
        if name not in seen:
            seen.add(name)
            path = path_of(name)
            ahead += names_in(path, files[path]) if path in files else []
    return seen


def told_faults(printed, files):
    """What a command printed as done, and is not there."""
    names = re.findall(r"^[0-9a-f]{40}$", printed.decode("latin-1"), re.MULTILINE)
    return [f"it printed {name}, which isn't there" for name in names if path_of(name) not in files]


def whole_faults(files):
    """Objects that are not what their names say, and names that are reached and not there."""
    for path, held in files.items():
        if path.startswith("objects/") and hashlib.sha1(held).hexdigest() != path[8:].replace("/", ""):
            yield f"{path} is not whole"
    yield from (f"{name} is reached, and not there" for name in reached(files) if path_of(name) not in files)


def faults_after(old, new, printed, files):
    """What is wrong with the files that a killed command left, which held `old`, and was to leave `new`."""
    for path in {*old, *new, *files}:
        before, after, now = old.get(path), new.get(path), files.get(path)
        if path.startswith("objects/"):
            # (what a prune was to take may be gone)
            if before is not None and now not in (before, after):
                yield f"{path} was there, and isn't what it was"
        elif now not in (before, after):
            yield f"{path} is {now!r}, and was {before!r}, and was to be {after!r}"
    yield from told_faults(printed, files)
    yield from whole_faults(files)


def faults_of_looks(folder):
    """What is wrong with what those see then who look: each ref is listed, and its history is there."""
    status, printed = run(folder, "show-ref")
    names = re.findall(r" (.*)\n", printed.decode())
    for look in [("status",), ("rev-list", *names)] if names else []:
        if status == DONE:
            status, printed = run(folder, *look)
    if status != DONE:
        yield f"show-ref, status or rev-list has status {status}, {printed!r}"
