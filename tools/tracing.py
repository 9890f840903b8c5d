"""Follows a process from one system call to the next, by ptrace, on x86-64 Linux: what kills it before a call, or has the call fail.

A `Hindrance` counts the calls of a process and hinders one of them; `follow` asks it, or any other function, at each call. It follows
the first thread of a process alone; `follow_threads` follows each, and tells also what a call returned.
"""
import ctypes
import errno
import os
import platform
import signal
import subprocess
import sys
import threading
import time

# Calls that change what is stored or sent, or who may write, by their numbers. `openat` counts where it may make a file.
CHANGING = {
    1: "write", 18: "pwrite64", 20: "writev", 44: "sendto", 46: "sendmsg", 73: "flock", 74: "fsync", 75: "fdatasync", 77: "ftruncate",
    82: "rename", 83: "mkdir", 84: "rmdir", 85: "creat", 86: "link", 87: "unlink", 88: "symlink", 90: "chmod", 91: "fchmod",
    258: "mkdirat", 263: "unlinkat", 264: "renameat", 265: "linkat", 266: "symlinkat", 268: "fchmodat", 316: "renameat2",
}
OPENAT, EXIT_GROUP = 257, 231
# Those that open a file or list a folder: open, getdents64, openat.
LOOKS = (2, 217, OPENAT)
# Those that take no room on a disk.
ROOMLESS = {"sendto", "sendmsg", "flock", "rmdir", "unlink", "unlinkat", "chmod", "fchmod", "fchmodat"}
WAYS = ("kill", "EIO", "ENOSPC")
MOST = 60  # calls of one command that are hindered in one way
MOST_OTHERS = 10  # of those that change nothing
PATIENCE = 300  # seconds after which a process that is followed is taken to hang


class SystemCall(ctypes.Structure):
    """What the kernel tells of a call at its beginning: struct ptrace_syscall_info."""

    _fields_ = [
        ("stage", ctypes.c_uint8),
        ("machine", ctypes.c_uint32),
        ("instruction", ctypes.c_uint64),
        ("stack", ctypes.c_uint64),
        ("number", ctypes.c_uint64),
        ("words", ctypes.c_uint64 * 6),
    ]

    def changes(self):
        makes_a_file = self.number == OPENAT and self.words[2] & os.O_CREAT
        return bool(makes_a_file) or self.number in CHANGING

    def takes_room(self):
        """Whether a full disk may refuse it: not what goes to standard output or error."""
        is_printed = self.name() in ("write", "writev") and self.words[0] in (1, 2)
        return self.changes() and self.name() not in ROOMLESS and not is_printed

    def name(self):
        return {OPENAT: "openat", EXIT_GROUP: "exit_group"}.get(self.number) or CHANGING.get(
            self.number, f"call {self.number}"
        )


LIBC = ctypes.CDLL(None, use_errno=True)
LIBC.ptrace.argtypes = [ctypes.c_long, ctypes.c_long, ctypes.c_void_p, ctypes.c_void_p]
TRACE_ME, POKE, RUN_TO_CALL, SET_OPTIONS, TELL_CALL = 0, 6, 24, 0x4200, 0x420E
MARK_CALLS, FOLLOW_THREADS, KILL_WITH_TRACER = 1, 1 << 3, 1 << 20
AT_ENTRY, AT_END = 1, 2
ANY_THREAD = 0x40000000  # of waitpid: threads too
BLINK = 0.001  # seconds between two looks while a call is held up
NUMBER_PLACE, RESULT_PLACE = 120, 80  # of the call's number and of its result, among the registers
KILL = -1


def ptrace(request, pid, first=None, second=None):
    if LIBC.ptrace(request, pid, first, second) < 0:
        raise OSError(ctypes.get_errno(), "ptrace")


class Hindrance:
    """Kills a process before its call with a number, has that call fail by EIO, or it and all later ones that take room by ENOSPC.

    Calls are counted from 0 at the first that changes something; where `only_changing` is set no others are, so that what it reads
    doesn't matter. Without a number nothing is hindered. `call` is the name of the one that was; `calls` has
    for each its name and whether it changes something."""

    def __init__(self, way, number, only_changing=False):
        self.way, self.number, self.only_changing = way, number, only_changing
        self.call, self.calls = None, []

    def __call__(self, call):
        if (not self.calls or self.only_changing) and not call.changes():
            return 0
        self.calls.append((call.name(), call.changes()))
        at = len(self.calls) - 1
        if at == self.number:
            self.call = call.name()
            return {"kill": KILL, "EIO": errno.EIO, "ENOSPC": errno.ENOSPC}[self.way]
        is_later = self.call is not None and self.way == "ENOSPC"
        return errno.ENOSPC if is_later and call.takes_room() else 0


def some_of(numbers, most, chance):
    """The first, the last, and so many others of these numbers that there are at most so many."""
    if len(numbers) <= most:
        return numbers
    return sorted([numbers[0], numbers[-1], *chance.sample(numbers[1:-1], most - 2)])


def hindrances(calls, chance, most=MOST, most_others=MOST_OTHERS):
    """Which of a command's calls are hindered in which way."""
    changing = [number for number, (_, changes) in enumerate(calls) if changes]
    others = [number for number in range(len(calls) - 1) if number not in changing]
    killed = some_of(changing, most, chance) + some_of(others, most_others, chance) + [len(calls) - 1]
    yield from (("kill", number) for number in dict.fromkeys(killed))
    yield from ((way, number) for way in WAYS[1:] for number in some_of(changing, most, chance))


def begin(words, **how):
    """Starts a process that waits to be followed, by the thread that starts it."""
    return subprocess.Popen(words, preexec_fn=lambda: ptrace(TRACE_ME, 0), **how)


def follow(process, at_call):
    """Follows a process that has just begun, from call to call, and asks at each what is to become of it: KILL, the number of the error
    by which it is to fail, or none. Sets and gives its status; a process that doesn't end is killed."""
    timer = threading.Timer(PATIENCE, process.kill)
    timer.start()
    process.returncode = follow_to_end(process.pid, at_call)
    timer.cancel()
    return process.returncode


def follow_to_end(pid, at_call):
    os.waitpid(pid, 0)
    ptrace(SET_OPTIONS, pid, None, MARK_CALLS | KILL_WITH_TRACER)
    told, sent, failing = SystemCall(), 0, 0
    while True:
        try:
            ptrace(RUN_TO_CALL, pid, None, sent)
        except ProcessLookupError:
            # (it was killed while it stood still)
            pass
        _, state = os.waitpid(pid, 0)
        if os.WIFEXITED(state) or os.WIFSIGNALED(state):
            return os.waitstatus_to_exitcode(state)
        sent = os.WSTOPSIG(state)
        if sent != signal.SIGTRAP | 0x80:
            # (it has become another program: no signal that it is to get)
            sent = 0 if sent == signal.SIGTRAP else sent
            continue
        sent = 0
        if failing:
            ptrace(POKE, pid, RESULT_PLACE, -failing)
            failing = 0
            continue
        ptrace(TELL_CALL, pid, ctypes.sizeof(told), ctypes.addressof(told))
        if told.stage != AT_ENTRY:
            continue
        failing = at_call(told)
        if failing == KILL:
            # A process that is to die does not begin the call.
            os.kill(pid, signal.SIGKILL)
            _, state = os.waitpid(pid, 0)
            return os.waitstatus_to_exitcode(state)
        if failing:
            # No call has this number, so nothing is done.
            ptrace(POKE, pid, NUMBER_PLACE, -1)


class Slow:
    """What becomes of a call that begins so many seconds later than it would. The other threads go on."""

    def __init__(self, seconds):
        self.seconds = seconds


def follow_threads(process, at_call, at_end):
    """Follows all threads of a process that has just begun, in a session of its own. Asks at the beginning of each call of each thread
    what is to become of it: the number of the error by which it is to fail, `Slow`, or none; and tells at its end what it returned.
    Sets and gives the status of the process; one that doesn't end is killed."""
    timer = threading.Timer(PATIENCE, process.kill)
    timer.start()
    process.returncode = Followed(process.pid, at_call, at_end).to_end()
    timer.cancel()
    return process.returncode


class Followed:
    """The threads of a process, each of which runs, or stands at a call that is held up."""

    def __init__(self, pid, at_call, at_end):
        self.pid, self.at_call, self.at_end = pid, at_call, at_end
        self.failing, self.held = {}, {}

    def to_end(self):
        os.waitpid(self.pid, 0)
        ptrace(SET_OPTIONS, self.pid, None, MARK_CALLS | FOLLOW_THREADS | KILL_WITH_TRACER)
        self.go_on(self.pid)
        while True:
            thread, state = os.waitpid(-self.pid, ANY_THREAD | (os.WNOHANG if self.held else 0))
            if thread == 0:
                time.sleep(BLINK)
            elif not os.WIFSTOPPED(state):
                if thread == self.pid:
                    return os.waitstatus_to_exitcode(state)
            else:
                self.stopped(thread, state)
            for it in [it for it, until in self.held.items() if until <= time.monotonic()]:
                del self.held[it]
                self.go_on(it)

    def go_on(self, thread, sent=0):
        try:
            ptrace(RUN_TO_CALL, thread, None, sent)
        except ProcessLookupError:
            pass  # the process was killed while it stood still

    def stopped(self, thread, state):
        """A thread stands at the beginning or the end of a call, is to get a signal, or is new."""
        sent = os.WSTOPSIG(state)
        if sent != signal.SIGTRAP | 0x80:
            self.go_on(thread, 0 if sent in (signal.SIGTRAP, signal.SIGSTOP) else sent)
            return
        try:
            becomes = self.told(thread)
        except ProcessLookupError:
            becomes = None
        if isinstance(becomes, Slow):
            self.held[thread] = time.monotonic() + becomes.seconds
        else:
            self.go_on(thread)

    def told(self, thread):
        """Tells of a call, and has it fail if it is to."""
        call = SystemCall()
        ptrace(TELL_CALL, thread, ctypes.sizeof(call), ctypes.addressof(call))
        if call.stage == AT_END:
            failed = self.failing.pop(thread, 0)
            if failed:
                ptrace(POKE, thread, RESULT_PLACE, -failed)
            self.at_end(thread, -failed if failed else ctypes.c_int64(call.number).value)
            return None
        if call.stage != AT_ENTRY:
            return None
        becomes = self.at_call(thread, call)
        if isinstance(becomes, int) and becomes:
            # No call has this number, so nothing is done.
            ptrace(POKE, thread, NUMBER_PLACE, -1)
            self.failing[thread] = becomes
        return becomes


def may_trace():
    """Whether a process here may be traced by the one that starts it, and its calls are known."""
    if platform.machine() != "x86_64" or sys.platform != "linux":
        return False
    pid = os.fork()
    if pid == 0:
        os._exit(0 if LIBC.ptrace(TRACE_ME, 0, None, None) == 0 else 1)
    return os.waitpid(pid, 0)[1] == 0
