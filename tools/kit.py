"""The toolchain's own `rt`, which knows what this machine has proved: what stands built in this checkout (`rt run`, `rt check`), and what a
gate, or a proof of some crates (`rt ci`), has kept of the same text, in whatever checkout. Whatever it can't be asked, by another `rt`
than the one that this was written for, counts as not proved."""
import contextlib
import functools
import hashlib
import importlib.machinery
import importlib.util
import json
import os
import shutil

from crates import PROGRAM, TOP, Crates, below


def load():
    """`rt` as a module: it knows how a crate is checked and how an edit is read."""
    path = os.path.realpath(shutil.which("rt"))
    loader = importlib.machinery.SourceFileLoader("rt_of_kit", path)
    module = importlib.util.module_from_spec(importlib.util.spec_from_loader("rt_of_kit", loader))
    loader.exec_module(module)
    # (some kits go down each way through the crates anew, of which there are a hundred thousand)
    for name in ("below", "stamp"):
        setattr(module.rtlib.Crate, name, functools.cache(getattr(module.rtlib.Crate, name)))
    return module


def wanted():
    """The program and all crates below it."""
    return {PROGRAM, *below(Crates().uses, PROGRAM)}


def unbuilt():
    """Those of them that don't stand built in this checkout."""
    with contextlib.suppress(Exception, SystemExit):
        rtlib = load().rtlib
        program = rtlib.Crate(str(TOP / "crates" / PROGRAM), str(TOP), {})
        found = {it.name for it in program.below() if not it.is_built()}
        built = program.stamp() + rtlib.sum_of(f"{program.folder}/out/{PROGRAM}")
        return found if rtlib.text_of(f"{program.folder}/out/{PROGRAM}.stamp") == built else {*found, PROGRAM}
    return wanted()


def places():
    """Of each crate whose proof is kept on this machine, the folder where it is, and its files with their sums."""
    found = {}
    with contextlib.suppress(Exception, SystemExit):
        rt, names = load(), wanted()
        rt.Crate.allowed = rt.handles_of(str(TOP))
        crates = [it for it in rt.crates_of(str(TOP)) if it.name in names]
        kept = rt.Kept(crates)
        for crate in crates if kept.at else []:
            if any(it.name not in found for it in crate.below()):
                continue
            key = kept.key(crate)
            place = kept.place(crate, False, key)
            with contextlib.suppress(OSError, ValueError, KeyError):
                with open(f"{place}/made.json", encoding="utf-8") as it:
                    made = json.load(it)
                files = [(path, sum) for path, sum in made["files"]]
                if made["key"] == key:
                    found[crate.name] = place, files
                    kept.rlibs[crate.name] = hashlib.sha256(repr(files).encode()).hexdigest()
    return found


def keeps():
    """Whether this user may write where proofs are kept."""
    with contextlib.suppress(Exception, SystemExit):
        store = load().STORE
        return os.access(store if os.path.isdir(store) else os.path.dirname(store), os.W_OK)
    return False


def give_program():
    """Puts the program into this checkout as it was proved and kept, and returns whether it could."""
    with contextlib.suppress(Exception, SystemExit):
        place, files = places()[PROGRAM]
        number, sum = next((number, sum) for number, (path, sum) in enumerate(files) if path == PROGRAM)
        out = TOP / "crates" / PROGRAM / "out"
        out.mkdir(exist_ok=True)
        new = out / f"{PROGRAM}.{os.getpid()}"
        shutil.copyfile(f"{place}/{number}", new)
        os.chmod(new, 0o755)
        if load().rtlib.sum_of(str(new)) == sum:
            os.replace(new, out / PROGRAM)
            return True
        os.remove(new)
    return False
