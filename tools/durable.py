"""What of a store is sure to outlive a loss of power, by the calls of the process that writes to it. For tools/told.

A `Trace` has the calls of a process that is followed (`tracing.py`), each at its beginning and at its end, for those of several threads lie
over one another. A `Disk` goes through them. A file's content is durable after a sync that began after the last write to it, and a name
after a sync of its folder that began after the name was there. What a sync failed at never is: the system may have dropped it.
"""
import os
import re
import stat
import struct
from pathlib import Path

# Calls by their numbers: openat, those that write, sync, rename, make a folder or remove something.
OPENAT, WRITEV, SENDMSG = 257, 20, 46
WRITES, SYNCS = {1, 18, WRITEV, 44, SENDMSG}, {74, 75}
RENAME, RENAMES, FOLDERS, REMOVALS = 82, {82, 264, 316}, {83, 258}, {84, 87, 263}
FROM_HERE = {RENAME, 83, 84, 87}  # of these, whose paths are from no folder but the one at work
AT_WORK = 0xFFFFFF9C  # instead of a folder: the one at work
LONGEST_PATH = 4096
BELOW, PACKED = ("objects/", "refs/"), "packed-refs"
DRAFT = ".lock"
# What a client is told: that a ref is set, or that it has a value.
SAID = re.compile(rb"ok (refs/[^\s\0]+)\n|([0-9a-f]{40}) (refs/[^\s\0]+)[\n\0]")


class Call:
    """A call that makes, writes, syncs, renames or removes something, or tells a client something."""

    def __init__(self, kind, file, path, old=None, text=b""):
        self.kind, self.file, self.path, self.old, self.text = kind, file, path, old, text
        self.result = None


class Trace:
    """The calls of a process, as they began and ended."""

    def __init__(self, process, store):
        self.pid, self.store = process.pid, str(store)
        self.points, self.open = [], {}

    def begin(self, thread, call):
        """The call that begins, if it is one of these."""
        it = self.call_of(call.number, call.words)
        if it is not None:
            self.open[thread] = it
            self.points.append((it, False))
        return it

    def end(self, thread, result):
        it = self.open.pop(thread, None)
        if it is not None:
            it.result = result
            if it.kind == "make" and result >= 0:
                it.file = self.file_of(result)
            self.points.append((it, True))

    def call_of(self, number, words):
        if number == OPENAT and words[2] & os.O_CREAT:
            return Call("make", None, self.path_at(words[0], words[1]))
        if number in WRITES:
            return self.write_of(number, words)
        if number in SYNCS:
            kind = "sync_folder" if os.path.isdir(f"/proc/{self.pid}/fd/{words[0]}") else "sync_file"
            return Call(kind, self.file_of(words[0]), self.path_of(words[0]))
        if number in RENAMES:
            old, new = ((AT_WORK, words[0]), (AT_WORK, words[1])) if number == RENAME else (words[0:2], words[2:4])
            old = self.path_at(*old)
            return Call("rename", file_at(old), self.path_at(*new), old)
        if number in FOLDERS | REMOVALS:
            path = self.path_at(AT_WORK, words[0]) if number in FROM_HERE else self.path_at(words[0], words[1])
            return Call("folder" if number in FOLDERS else "remove", None, path)
        return None

    def write_of(self, number, words):
        path = self.path_of(words[0])
        if path.startswith("socket:"):
            return Call("tell", None, path, text=self.bytes_of(number, words))
        if path.startswith(self.store):
            return Call("write", self.file_of(words[0]), path, text=self.bytes_of(number, words))
        return Call("print", None, path)

    def file_of(self, number):
        return file_at(f"/proc/{self.pid}/fd/{number}")

    def path_of(self, number):
        return os.readlink(f"/proc/{self.pid}/fd/{number}")

    def path_at(self, folder, address):
        """The path that a call names, from this folder."""
        text = self.read(address, LONGEST_PATH).split(b"\0")[0].decode()
        above = os.readlink(f"/proc/{self.pid}/cwd") if folder & 0xFFFFFFFF == AT_WORK else self.path_of(folder)
        return os.path.normpath(os.path.join(above, text))

    def bytes_of(self, number, words):
        if number not in (WRITEV, SENDMSG):
            return self.read(words[1], words[2])
        first, count = words[1:3] if number == WRITEV else struct.unpack("QQ", self.read(words[1] + 16, 16))
        pieces = struct.iter_unpack("QQ", self.read(first, 16 * count))
        return b"".join(self.read(*piece) for piece in pieces)

    def read(self, address, length):
        """Bytes of the process, fewer at the end of its memory."""
        with open(f"/proc/{self.pid}/mem", "rb", buffering=0) as memory:
            memory.seek(address)
            return memory.read(length)


def file_at(path):
    """What tells this file from each other one that is there."""
    try:
        found = os.stat(path)
    except OSError:
        return None
    return found.st_dev, found.st_ino


def without(points, kind):
    """A trace in which calls of this kind did nothing."""
    return [(call, has_ended) for call, has_ended in points if call.kind != kind]


class Known:
    """What the server doesn't write: the refs and the paths of the objects that its store had, the commits that clients push by their refs,
    and the paths of the objects that each commit reaches."""

    def __init__(self, refs, objects, pushed, reached):
        self.refs, self.objects, self.pushed, self.reached = refs, objects, pushed, reached


class Disk:
    """What was written to a store so far, and what of it is durable."""

    def __init__(self, store, known):
        self.store, self.known = str(store), known
        # Of each file its bytes, how many writes to it began and ended, and whether it isn't durable.
        self.bytes, self.begun, self.ended, self.unsynced = {}, {}, {}, set()
        # The file of each path, and the names that aren't durable, each with the call that made it.
        self.files, self.names = {}, {}
        # The files and names that never will be durable, and what each sync that goes on may make so.
        self.lost, self.covered = set(), {}
        self.faults, self.told = [], []

    def go(self, points, is_alone):
        """Goes through a trace, and gives what was told too soon. If nobody writes while a client is told something, all that was put below
        objects/ and refs/ has to be durable then."""
        for call, has_ended in points:
            step = getattr(self, f"{'end' if has_ended else 'begin'}_{call.kind}", None)
            if step is not None:
                step(call)
            if call.kind == "tell" and not has_ended:
                self.tell(call)
                self.faults += self.left(call) if is_alone else []
        return self.faults

    def end_make(self, call):
        if call.result < 0:
            return
        if call.path not in self.files:
            self.lost -= {call.file, call.path}
        self.bytes[call.file] = b""
        self.begun[call.file] = self.ended[call.file] = 0
        self.unsynced.add(call.file)
        self.files[call.path] = call.file

    def begin_write(self, call):
        self.bytes[call.file] = self.bytes.get(call.file, b"") + call.text
        self.begun[call.file] = self.begun.get(call.file, 0) + 1
        self.unsynced.add(call.file)

    def end_write(self, call):
        self.ended[call.file] = self.ended.get(call.file, 0) + 1

    def begin_sync_file(self, call):
        self.covered[call] = self.ended.get(call.file)

    def end_sync_file(self, call):
        covered = self.covered.pop(call)
        if call.result != 0:
            self.lost.add(call.file)
        elif covered == self.begun.get(call.file) and call.file not in self.lost:
            self.unsynced.discard(call.file)

    def begin_sync_folder(self, call):
        self.covered[call] = [(name, made) for name, made in self.names.items() if made.result is not None and os.path.dirname(name) == call.path]

    def end_sync_folder(self, call):
        for name, made in self.covered.pop(call):
            if call.result != 0:
                self.lost.add(name)
            elif name not in self.lost and self.names.get(name) is made:
                del self.names[name]

    def begin_rename(self, call):
        if call.file in self.unsynced and self.is_kept(call.path):
            self.faults.append(f"{self.short(call.path)} got its place before its content was durable")
        self.names[call.path] = call

    def end_rename(self, call):
        if call.result == 0:
            self.names.pop(call.old, None)
            self.files[call.path] = self.files.pop(call.old, call.file)

    def begin_folder(self, call):
        self.names.setdefault(call.path, call)

    def end_folder(self, call):
        if call.result != 0 and self.names.get(call.path) is call:
            del self.names[call.path]

    def end_remove(self, call):
        if call.result != 0:
            return
        self.files.pop(call.path, None)
        # (names in a folder that goes are gone with its own)
        self.names = {name: made for name, made in self.names.items() if not Path(name).is_relative_to(call.path)}
        if self.is_kept(call.path):
            self.names[call.path] = call

    def short(self, path):
        return os.path.relpath(path, self.store)

    def is_kept(self, path):
        return self.short(path).startswith(BELOW) and not path.endswith(DRAFT)

    def left(self, call):
        """What isn't durable while this goes out."""
        names = {name for name in self.names if self.is_kept(name)}
        names |= {path for path, file in self.files.items() if file in self.unsynced and self.is_kept(path)}
        if names:
            yield f"{call.text[:40]!r} went out, and not durable was {sorted(map(self.short, names))}"

    def wanting(self, path, had):
        """Why a file with this path, which the store had or not, may be gone after a loss of power."""
        whole, parts = os.path.join(self.store, path), Path(path).parts
        if whole not in self.files:
            if not had:
                yield f"{path} was never put there"
            return
        above = [os.path.join(*parts[:count]) for count in range(1, len(parts) + 1)]
        yield from (f"the name {name} isn't durable" for name in above if os.path.join(self.store, name) in self.names)
        if self.files[whole] in self.unsynced:
            yield f"what {path} holds isn't durable"

    def held(self, path):
        """What a file with this path in the store holds, if it was put there."""
        file = self.files.get(os.path.join(self.store, path))
        return None if file is None else self.bytes[file]

    def wanting_ref(self, ref, value):
        """Why a ref may not have this value after a loss of power. It has a file of its own, or is packed."""
        own = self.held(ref)
        if own is None and f"{value} {ref}\n".encode() in (self.held(PACKED) or b""):
            yield from self.wanting(PACKED, False)
            if os.path.join(self.store, ref) in self.names:
                yield f"that {ref} has no file of its own isn't durable"
            return
        if own is not None and own.decode().strip() != value:
            yield f"it is {own!r}"
        yield from self.wanting(ref, self.known.refs.get(ref) == value)

    def tell(self, call):
        """A client is told of refs: they have these values, and all that these reach is there, whatever happens."""
        for done, value, name in SAID.findall(call.text):
            ref = (done or name).decode()
            value = self.known.pushed[ref] if done else value.decode()
            self.told.append((ref, bool(done)))
            whys = [*self.wanting_ref(ref, value)]
            for path in self.known.reached[value]:
                whys += self.wanting(path, path in self.known.objects)
            self.faults += [f"{ref} was told{' as set' if done else ''}, and {why}" for why in whys]
