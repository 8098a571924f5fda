"""Work that several processes do side by side, of which none can end the others."""

from __future__ import annotations

import contextlib
import os
import signal
import subprocess
import sys
import threading
import time
from dataclasses import dataclass
from multiprocessing import Pipe
from multiprocessing.connection import Connection, wait
from typing import Callable, Generator, Generic, Iterator, List, Optional, Sequence, Tuple, TypeVar

__all__ = ["Ended", "Team", "serve"]

Task = TypeVar("Task")
Done = TypeVar("Done")
# How long the work waits for an answer before it looks at the clock, in seconds.
LOOKS_AFTER = 0.2
# How long a process may take to start, in seconds.
STARTS_WITHIN = 60.0
# How a process of Python's starts: isolated, so that it imports nothing from the present folder, whose files may be a stranger's.
ISOLATED = ("-I", "-B") if sys.dont_write_bytecode else ("-I",)
# Its program: the number of its pipe is its only word, and what comes first through it is where modules are found.
BEGIN = """import sys
from multiprocessing.connection import Connection
pipe = Connection(int(sys.argv[1]))
sys.path[:] = pipe.recv()
from btx.workers import serve
serve(pipe)"""


@dataclass(frozen=True)
class Ended:
    """Why a task has no answer. Work may answer so by itself: then its process is ended, with all that it started."""

    why: str


@dataclass(frozen=True)
class Ready:
    """What a process sends when it has started: the time of its first task begins then."""


def module_folders() -> List[str]:
    """Where a process finds modules: the folders of this process that have absolute names, and the one of this package. A relative name, such as the
    empty one of the present folder, would mean the folder of each job."""
    package = os.path.dirname(os.path.dirname(os.path.abspath(__file__)))
    return [folder for folder in [*sys.path, package] if os.path.isabs(folder)]


class Worker(Generic[Task, Done]):
    """A process, and the task that it is at.

    An interrupt waits until the process leads its own session, where it is meant for the others alone."""

    def __init__(self, work: Callable[[Task], Done]) -> None:
        self.pipe, theirs = Pipe()
        self.task: Optional[Task] = None
        self.began = 0.0
        self.is_ready = False
        words = [sys.executable, *ISOLATED, "-c", BEGIN, str(theirs.fileno())]
        blocked = signal.pthread_sigmask(signal.SIG_BLOCK, {signal.SIGINT})
        try:
            self.process = subprocess.Popen(words, stdin=subprocess.DEVNULL, pass_fds=[theirs.fileno()], start_new_session=True)
        finally:
            signal.pthread_sigmask(signal.SIG_SETMASK, blocked)
            theirs.close()
        self.send(module_folders())
        self.send(work)

    def send(self, value: object) -> None:
        """Sends a value. A process that has ended is found out when its answer is waited for."""
        with contextlib.suppress(OSError):
            self.pipe.send(value)

    def take(self, left: List[Task]) -> None:
        """Takes the next task, if there is one."""
        self.task, self.began = (left.pop(), time.monotonic()) if left else (None, 0.0)
        if self.task is not None:
            self.send(self.task)

    def is_late(self, seconds: float) -> bool:
        """Whether its task takes longer than `seconds`, or the process as long as none needs to start."""
        return time.monotonic() - self.began > (seconds if self.is_ready else STARTS_WITHIN)

    def has_ended(self) -> bool:
        return self.pipe.closed or self.process.poll() is not None

    def answer(self) -> object:
        """What the process sent, or that it ended."""
        try:
            answer: object = self.pipe.recv()
            return answer
        except (EOFError, OSError):
            with contextlib.suppress(subprocess.TimeoutExpired):
                self.process.wait(1.0)
            return Ended(f"the process ended by itself (status {self.process.returncode})")

    def end(self) -> None:
        """Ends the process and what it started."""
        with contextlib.suppress(ProcessLookupError, PermissionError):
            os.killpg(self.process.pid, signal.SIGKILL)
        self.process.kill()
        with contextlib.suppress(subprocess.TimeoutExpired):
            self.process.wait(1.0)
        self.pipe.close()


def serve(pipe: Connection) -> None:
    """What a process does: it takes its work and then tasks, and sends what comes of them, until nobody hands on tasks any more.

    It leads a group of processes of its own, so that an interrupt at the terminal reaches neither it nor the programs that it runs."""
    signal.signal(signal.SIGINT, signal.SIG_IGN)
    signal.pthread_sigmask(signal.SIG_UNBLOCK, {signal.SIGINT})
    signal.signal(signal.SIGINT, signal.SIG_DFL)
    threading.Thread(target=end_with, args=(os.getppid(),), daemon=True).start()
    answer: object = Ready()
    try:
        work = pipe.recv()
        while True:
            pipe.send(answer)
            answer = work(pipe.recv())
    except (BrokenPipeError, ConnectionResetError, EOFError):
        return


def end_with(parent: int) -> None:
    """Ends this process and what it started as soon as the one that started it is gone, also in the middle of a task."""
    while os.getppid() == parent:
        time.sleep(LOOKS_AFTER)
    os.killpg(0, signal.SIGKILL)


class Team(Generic[Task, Done]):
    """Processes that work side by side: at most `processes`, each of which is started when there is a task for it and kept for the next ones.

    work: what is done with each task; it and the tasks are sent by pickle. seconds: how long a task may take."""

    def __init__(self, work: Callable[[Task], Done], processes: int, seconds: float) -> None:
        self.work = work
        self.processes = processes
        self.seconds = seconds
        self.workers: List[Worker[Task, Done]] = []
        # Whether a process has started: from then on one that ends is a task's trouble.
        self.has_begun = False

    def answers(self, tasks: Sequence[Task]) -> Generator[Tuple[Task, object], None, None]:
        """What `work` answers for each task, as it comes. A task that takes too long, or whose process ends, has an Ended. Where this is closed before
        its end, all processes are ended. Raises OSError where the first process ends before it takes a task."""
        left = list(reversed(tasks))
        self.workers = [worker for worker in self.workers if not worker.has_ended()]
        try:
            while len(self.workers) < min(self.processes, len(left)):
                self.workers.append(Worker(self.work))
            for worker in self.workers:
                worker.take(left)
            while any(worker.task is not None for worker in self.workers):
                yield from self.one_look(left)
        except BaseException:
            self.end()
            raise

    def one_look(self, left: List[Task]) -> Iterator[Tuple[Task, object]]:
        """What came while the workers were waited for once."""
        ready = wait([worker.pipe for worker in self.workers if worker.task is not None], LOOKS_AFTER)
        for place, worker in enumerate(self.workers):
            if worker.task is None:
                continue
            if worker.pipe in ready:
                answer = worker.answer()
                if isinstance(answer, Ready):
                    self.has_begun = worker.is_ready = True
                    worker.began = time.monotonic()
                    continue
                if not self.has_begun:
                    raise OSError("a process of Python's doesn't start")
            elif worker.is_late(self.seconds):
                answer = Ended(f"took longer than {self.seconds:g} seconds" if worker.is_ready else "its process didn't start")
            else:
                continue
            task, worker.task = worker.task, None
            if isinstance(answer, Ended):
                worker.end()
                if left:
                    worker = self.workers[place] = Worker(self.work)
            if not worker.has_ended():
                worker.take(left)
            yield task, answer

    def end(self) -> None:
        """Ends all processes, with what they started."""
        for worker in self.workers:
            worker.end()
        self.workers = []
