"""The crates as they were at an earlier commit, and which of their wrong bodies were known to be refused: for tools/renamed and
tools/moved."""
import importlib.machinery
import importlib.util
import pathlib
import subprocess
import sys

TOP = pathlib.Path(__file__).resolve().parent.parent


def rounds_of():
    """tools/rounds as a module."""
    loader = importlib.machinery.SourceFileLoader("rounds", str(TOP / "tools" / "rounds"))
    module = importlib.util.module_from_spec(importlib.util.spec_from_loader("rounds", loader))
    sys.modules["rounds"] = module
    loader.exec_module(module)
    return module


def tree_at(base, folder):
    """The crates as they were at a commit."""
    folder.mkdir()
    packed = subprocess.run(["git", "archive", base, "crates", "crates.txt", "tools/tried"], check=True, capture_output=True).stdout
    subprocess.run(["tar", "xf", "-", "-C", folder], input=packed, check=True)


def known_in(folder):
    """The hash at which each wrong body was refused last, and by which kit, as a tree says it."""
    return {name: (hash, kit) for name, hash, kit in map(str.split, pathlib.Path(folder, "tools/tried").read_text().splitlines())}
