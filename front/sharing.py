"""How memory is shared out among programs that run at once."""
import contextlib
import os
import threading

from front import errors, forms, program, sources

TYPE_CHECKING = False                                # a checker of types takes it for true; typing itself is slow to load
if TYPE_CHECKING:
    from typing import Callable, Iterator

    from front.verdict import Verdict

BESIDE = 64 << 20                                    # what a program takes beside a guest's pages
# What mig_check may take: 16 bytes for each of 2^24 frames, a 256th of their pages for page tables, and what stands beside.
MOST_OF_CHECK = (16 << 24) + (1 << 36 >> 8) + BESIDE
MOST_OF_COMPARISON = MOST_OF_CHECK + (16 << 24)      # and mig_tool that compares in a file, which notes where each page stands


def need_of(name: str) -> int:
    """How much memory a program that keeps a guest's pages may take for a file, told by its size."""
    if not os.path.isfile(name):
        return 0
    try:
        with open(name, 'rb') as file:
            size, front = os.fstat(file.fileno()).st_size, file.read(8)
    except OSError:
        return 0
    need = size * sources.Packed.TIMES if forms.packer_of(front) else size
    return need + need // 50 + BESIDE


class Memory:
    """Shares the memory out: a program waits until what it may take is free."""

    def __init__(self, at_once: int) -> None:
        self.all = self.free = program.RUNNING.memory
        self.share, self.running, self.changed = self.all // at_once, 0, threading.Condition()

    def take(self, most: int) -> None:
        with self.changed:
            self.changed.wait_for(lambda: most <= self.free)
            self.free, self.running = self.free - most, self.running + 1

    def give_back(self, most: int) -> None:
        with self.changed:
            self.free, self.running = self.free + most, self.running - 1
            self.changed.notify_all()

    @contextlib.contextmanager
    def taken(self, most: int) -> 'Iterator[None]':
        """So much of it, or all, is for what this thread starts."""
        most = min(most, self.all)
        self.take(most)
        try:
            program.RUNNING.of_thread.most = most
            yield
        finally:
            self.give_back(most)

    def given(self, name: str, judge: 'Callable[[], Verdict]', can_be_again: bool = True) -> 'Verdict':
        """The verdict that a function answers of a file by a program that keeps a guest's pages: it may take what it seems to need,
        and its share at least. Where that was short, it is called once more with all, when nothing else runs."""
        most = min(max(need_of(name), self.share), self.all)
        with self.taken(most):
            found = judge()
        if found.status != errors.NO_MEMORY or not can_be_again or most == self.all:
            return found
        with self.changed:
            self.changed.wait_for(lambda: self.running == 0)
            program.RUNNING.of_thread.most = self.all
            return judge()
