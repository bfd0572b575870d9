"""Programs that unpack hostile bytes: each runs in an empty temporary folder, without a network, an environment or a standard input, in a
session of its own that ends with it, and within limits of time, memory and what it writes."""

from __future__ import annotations

import ctypes
import os
import resource
import shutil
import signal
import stat
import subprocess
import tempfile
import time
from typing import Dict, NamedTuple, Optional, Sequence

ERRORS, MOST_LINE = "errors", 200  # the file of what it says, and how much of that is read
NEW_USER, NEW_NETWORK = 0x10000000, 0x40000000  # of Linux: in a name space of its own a program has no network
NOTHING: Dict[str, str] = {}  # the environment
STEP = 0.01  # seconds between two looks at whether it has ended
FILE = os.O_RDONLY | os.O_NOFOLLOW | os.O_NONBLOCK | os.O_CLOEXEC
_unshare = getattr(ctypes.CDLL(None), "unshare", None)


class Limits(NamedTuple):
    """What a program may use: bytes of a file that it writes, bytes of memory, and seconds, of a processor and of the clock."""

    written: int
    memory: int
    seconds: int


class Ran(NamedTuple):
    """How a program ended: its status, negative for a signal, None if it was stopped since it took too long; the begin of its errors; the
    file that was wanted of it, if it wrote one."""

    status: Optional[int]
    errors: bytes
    written: Optional[bytes]


def path_of(program: str) -> Optional[str]:
    """The file of a program; None if it is not there."""
    found = shutil.which(program)
    return found and os.path.abspath(found)


def confine(limits: Limits) -> None:
    """Confines the process that a program is to run in. Where the system gives no name space, the limits hold all the same."""
    pairs = (resource.RLIMIT_FSIZE, limits.written), (resource.RLIMIT_AS, limits.memory), (resource.RLIMIT_CPU, limits.seconds), (resource.RLIMIT_CORE, 0)
    for what, most in pairs:
        _, own = resource.getrlimit(what)
        least = most if own == resource.RLIM_INFINITY else min(most, own)
        resource.setrlimit(what, (least, least))
    if _unshare is not None and _unshare(NEW_USER | NEW_NETWORK) != 0:
        _unshare(NEW_NETWORK)


def has_ended(pid: int, seconds: int) -> bool:
    """Whether a process ends in so many seconds. It stays known to the system, so that its group is no other one."""
    end = time.monotonic() + seconds
    while os.waitid(os.P_PID, pid, os.WEXITED | os.WNOHANG | os.WNOWAIT) is None:
        if time.monotonic() > end:
            return False
        time.sleep(STEP)
    return True


def run_in(folder: str, line: Sequence[str], limits: Limits) -> Optional[int]:
    """Runs a program in a folder, and ends all that it started: its status, or None if it took too long."""
    with open(os.path.join(folder, ERRORS), "xb") as errors:
        ran = subprocess.Popen(
            line, cwd=folder, env=NOTHING, stdin=subprocess.DEVNULL, stdout=subprocess.DEVNULL, stderr=errors, start_new_session=True,
            preexec_fn=lambda: confine(limits),
        )  # fmt: skip
    is_in_time = False
    try:
        is_in_time = has_ended(ran.pid, limits.seconds)
    finally:
        os.killpg(ran.pid, signal.SIGKILL)
        status = ran.wait()
    return status if is_in_time else None


def begin_of(folder: str, name: str, most: int) -> Optional[bytes]:
    """At most so many bytes of a file in a folder; None if there is none, or it is no file."""
    try:
        with open(os.open(os.path.join(folder, name), FILE), "rb") as file:
            return file.read(most) if stat.S_ISREG(os.fstat(file.fileno()).st_mode) else None
    except OSError:
        return None


def run(line: Sequence[str], name: str, given: bytes, wanted: str, limits: Limits) -> Ran:
    """Runs a program with a file of this name and these bytes, of which it writes the one that is wanted: at most so many bytes of that."""
    with tempfile.TemporaryDirectory() as folder:
        with open(os.path.join(folder, name), "xb") as file:
            file.write(given)
        status = run_in(folder, line, limits)
        return Ran(status, begin_of(folder, ERRORS, MOST_LINE) or b"", begin_of(folder, wanted, limits.written))
