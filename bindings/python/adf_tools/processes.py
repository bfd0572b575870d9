"""Work on as many processors as memory allows, with its answers in order."""

from __future__ import annotations

import collections
import concurrent.futures.process
import contextlib
import multiprocessing
import os
import pickle
import resource
import secrets
import signal
import sys
import threading
from typing import Any, Callable, Deque, Generator, Generic, Iterable, Iterator, List, Optional, Sequence, TypeVar, Union

from adf_tools.program import FAILED, INTERRUPTS, stop, uninterrupted

LARGE = 1 << 20  # bytes of an answer that waits in a file
AHEAD, TOGETHER = 16, 8  # so many pieces for each process are given out before the first of them is done, and at most so many at once
FILE = os.O_RDONLY | os.O_NOFOLLOW | os.O_CLOEXEC
NEW_FILE = os.O_WRONLY | os.O_CREAT | os.O_EXCL | os.O_NOFOLLOW | os.O_CLOEXEC
MEMORY, GROUP, OWN_GROUP, OWN_MEMORY = "/proc/meminfo", "/sys/fs/cgroup", "/proc/self/cgroup", "/proc/self/status"
Piece = TypeVar("Piece")
Answer = TypeVar("Answer")
_work: Optional[Packed[Any, Any]] = None  # what a process beside the program does


def begin_process(work: Packed[Any, Any]) -> None:
    """A process beside the program, which does this work: the program alone hears what interrupts both, and when it ends, the process
    does."""
    global _work
    _work = work
    signal.signal(signal.SIGINT, signal.SIG_IGN)
    signal.signal(signal.SIGTERM, signal.SIG_DFL)
    signal.pthread_sigmask(signal.SIG_UNBLOCK, INTERRUPTS)
    threading.Thread(target=end_with_program, daemon=True).start()


def answers_of_process(pieces: Sequence[Any]) -> List[Union[bytes, str]]:
    """What the work of a process answers of pieces. A process that is forked has the work, which is never packed."""
    assert _work is not None
    return list(map(_work, pieces))


def end_with_program() -> None:
    program = multiprocessing.parent_process()
    if program:
        program.join()
        os._exit(FAILED)


def number_in(path: str, name: str | None = None) -> int | None:
    """The number in a file of the system, or the one behind this name there; None if it has none."""
    try:
        with open(path, encoding="ascii") as file:
            for words in map(str.split, file):
                if name in (None, words[0]):
                    return int(words[0 if name is None else 1])
    except (OSError, ValueError, IndexError):
        pass
    return None


def groups() -> list[str]:
    """The folders of the group that the program is in, as a batch system makes one for a job, and of those that it is in."""
    try:
        with open(OWN_GROUP, encoding="utf-8") as file:
            own = next((line[len("0::") :].strip() for line in file if line.startswith("0::/")), "/")
    except (OSError, ValueError):
        own = "/"
    names = [name for name in own.split("/") if name not in ("", "..")]
    return [os.path.join(GROUP, *names[:count]) for count in range(len(names) + 1)]


def free_memory() -> int | None:
    """How many bytes can be had, of the system and of the groups that the program is in; None if nothing tells it."""
    system = number_in(MEMORY, "MemAvailable:")
    known = [1024 * system] if system is not None else []
    for group in groups():
        most, used = number_in(f"{group}/memory.max"), number_in(f"{group}/memory.current")
        if most is not None and used is not None:
            known.append(most - used)
    return min(known, default=None)


def accept_memory(need: int) -> None:
    """MemoryError if so many bytes cannot be had."""
    free = free_memory()
    if free is not None and free < need:
        raise MemoryError(f"no memory: {need} bytes are needed, and {free} are free")


@contextlib.contextmanager
def memory_at_most(more: int) -> Iterator[None]:
    """In here this process gets at most so many bytes more than it has, if the system tells how many these are."""
    taken, (soft, hard) = number_in(OWN_MEMORY, "VmSize:"), resource.getrlimit(resource.RLIMIT_AS)
    limits = [limit for limit in (soft, hard) if limit != resource.RLIM_INFINITY]
    if taken is not None:
        resource.setrlimit(resource.RLIMIT_AS, (min([1024 * taken + more, *limits]), hard))
    try:
        yield
    finally:
        resource.setrlimit(resource.RLIMIT_AS, (soft, hard))


def workers(pieces: int, need: int) -> int:
    """As many processes as there are processors and pieces, and memory if each takes so many bytes; at least one."""
    free = free_memory()
    return max(1, min(len(os.sched_getaffinity(0)), pieces, pieces if free is None else free // need))


class Turns:
    """Has one process at a time do what takes much memory, if there is enough beside what the others may take."""

    def __init__(self, count: int, need: int) -> None:
        self.others = (count - 1) * need
        self.lock: Any = multiprocessing.get_context("fork").Lock() if count > 1 else threading.Lock()

    @contextlib.contextmanager
    def take(self, need: int) -> Iterator[None]:
        """The turn of this process, which takes so many bytes; MemoryError if they cannot be had."""
        with self.lock:
            accept_memory(need + self.others)
            yield


class Packed(Generic[Piece, Answer]):
    """Work whose answers are packed. A large one waits in a file of a folder, whose descriptor the processes have too, so that memory does
    not depend on how many wait."""

    def __init__(self, work: Callable[[Piece], Answer], folder: Optional[int]) -> None:
        self.work, self.folder = work, folder

    def __call__(self, piece: Piece) -> Union[bytes, str]:
        packed = pickle.dumps(self.work(piece))
        if self.folder is None or len(packed) < LARGE:
            return packed
        name = secrets.token_hex(16)
        with open(os.open(name, NEW_FILE, 0o600, dir_fd=self.folder), "wb") as file:
            file.write(packed)
        return name

    def answer(self, packed: Union[bytes, str]) -> Answer:
        if isinstance(packed, bytes):
            return pickle.loads(packed)  # type: ignore[no-any-return]
        with open(os.open(packed, FILE, dir_fd=self.folder), "rb") as file:
            os.unlink(packed, dir_fd=self.folder)
            return pickle.load(file)  # type: ignore[no-any-return]


def give_up(pool: concurrent.futures.ProcessPoolExecutor, waiting: Iterable[concurrent.futures.Future[Any]]) -> None:
    """Ends the processes without the work that waits."""
    if sys.version_info >= (3, 9):
        pool.shutdown(wait=True, cancel_futures=True)
    else:
        for future in waiting:
            future.cancel()


def in_order(work: Callable[[Piece], Answer], pieces: Sequence[Piece], need: int, folder: Optional[int] = None) -> Generator[Answer, None, None]:
    """What the work answers of each piece, in their order. A process takes so many bytes of memory; large answers wait in the folder."""
    count = workers(len(pieces), need)
    if count < 2:
        yield from map(work, pieces)
        return
    waiting: Deque[concurrent.futures.Future[List[Union[bytes, str]]]] = collections.deque()
    packed: Packed[Piece, Answer] = Packed(work, folder)
    together = max(1, min(TOGETHER, len(pieces) // (AHEAD * count)))
    with concurrent.futures.ProcessPoolExecutor(count, multiprocessing.get_context("fork"), begin_process, (packed,)) as pool:
        try:
            for at in range(0, len(pieces), together):
                with uninterrupted():  # what interrupts while processes begin would be lost
                    waiting.append(pool.submit(answers_of_process, pieces[at : at + together]))
                if len(waiting) * together > AHEAD * count:
                    yield from map(packed.answer, waiting.popleft().result())
            while waiting:
                yield from map(packed.answer, waiting.popleft().result())
        except concurrent.futures.process.BrokenProcessPool:
            stop(FAILED, "a process was ended from outside, perhaps for lack of memory")
        finally:
            give_up(pool, waiting)
