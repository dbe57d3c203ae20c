"""Which pages of a file are all zeros. Forks of this process look for them, since threads of python3 would wait for one another longer
than they read. What they find stands in memory that they share with it; no byte of a page is kept."""
import contextlib
import errno
import mmap
import os
import re
import signal
import struct
from itertools import repeat

from front import errors, program, sources

TYPE_CHECKING = False                                # a checker of types takes it for true; typing itself is slow to load
if TYPE_CHECKING:
    from typing import Any, List, Tuple

PAGE = 4096                                          # bytes
PAGES_AT_ONCE = 64                                   # so many are read at once, which a core has in its own cache
OF_JOB = 1024                                        # pages that a fork is asked for at once
MOST_FORKS, WORTH_A_FORK = 4, 4 << 20                # forks, and bytes of a file that make one worth while
MOST_PAGES = 1 << 25                                 # that are told of
DATA, ZERO, UNREAD = range(3)                        # what is told of a page
ZEROS = [bytes(PAGE * count) for count in range(PAGES_AT_ONCE + 1)]  # by how many pages they are
RUN_OF_ZEROS = re.compile(b'\\0+')
JOB = struct.Struct('<QII')                          # a run of pages: where it begins in the file and in what is told, and how many they are


def zeros_in(data: bytes) -> bytes:
    """A byte for each of these pages: ZERO where it is all zeros, else DATA."""
    first_bytes = data[::PAGE]
    found = bytearray(len(first_bytes))
    for run in RUN_OF_ZEROS.finditer(first_bytes):
        begins, ends = run.span()
        if data.startswith(ZEROS[ends - begins], PAGE * begins):
            found[begins:ends] = b'\1' * (ends - begins)
        else:
            found[begins:ends] = map(data.startswith, repeat(ZEROS[1]), range(PAGE * begins, PAGE * ends, PAGE))
    return bytes(found)


class Readers:
    """Forks that look for pages of zeros in a file while its records are walked. Where none can be had, or the file is small, this
    process does it itself. They have to be made before programs are started, of which they would hold pipes open."""

    def __init__(self, fd: int, base: int, size: int) -> None:
        self.fd, self.base, self.pages, self.parent = fd, base, 0, os.getpid()
        self.told = mmap.mmap(-1, max(min(size // PAGE, MOST_PAGES), 1))
        self.told.write(bytes([UNREAD]) * len(self.told))
        self.forks, self.jobs = [], None  # type: List[int], Any
        wanted = min(len(os.sched_getaffinity(0)), MOST_FORKS, size // WORTH_A_FORK)
        if wanted > 1:
            try:
                self.begin(wanted)
            except BaseException:                    # a signal came
                self.kill()
                raise

    def __enter__(self) -> 'Readers':
        return self

    def __exit__(self, *_: object) -> None:
        self.kill()

    def begin(self, wanted: int) -> None:
        """Makes so many forks, or as many as there can be."""
        jobs, self.jobs = os.pipe()
        before = signal.pthread_sigmask(signal.SIG_BLOCK, program.SIGNALS)  # a handler of this process is none of a fork
        try:
            while len(self.forks) < wanted:
                fork = os.fork()
                if not fork:
                    self.serve(jobs, before)
                self.forks.append(fork)
        except OSError:                              # fewer do it, too
            pass
        finally:
            signal.pthread_sigmask(signal.SIG_SETMASK, before)
            os.close(jobs)

    def serve(self, jobs: int, before: 'Any') -> None:
        """What a fork does, up to the end of its parent's words, or of its parent. Its status is the number of an error."""
        status = errno.EFAULT
        try:
            program.catch_signals(signal.SIG_DFL)
            signal.pthread_sigmask(signal.SIG_SETMASK, before)
            os.close(self.jobs)
            for job in iter(lambda: os.read(jobs, JOB.size), b''):
                if os.getppid() != self.parent:
                    break
                self.look(*JOB.unpack(job))
            status = 0
        except OSError as fault:
            status = fault.errno
        except MemoryError:
            status = errno.ENOMEM
        finally:
            os._exit(status)

    def look(self, place: int, at: int, count: int) -> None:
        """Tells which pages of a run are zeros, as far as the file has them."""
        for done in range(0, count, PAGES_AT_ONCE):
            wanted = PAGE * min(count - done, PAGES_AT_ONCE)
            data = os.pread(self.fd, wanted, self.base + place + PAGE * done)
            zeros = zeros_in(data[:len(data) // PAGE * PAGE] if len(data) < wanted else data)
            self.told[at + done:at + done + len(zeros)] = zeros

    def ask(self, place: int, count: int) -> 'Tuple[int, int]':
        """Has a run of pages looked at; where it is told of them."""
        begins, self.pages = self.pages, self.pages + count
        if self.pages > len(self.told):              # the file ends before
            raise errors.Lost
        for done in range(0, count, OF_JOB):
            job = place + PAGE * done, begins + done, min(count - done, OF_JOB)
            if self.forks:
                self.tell(JOB.pack(*job))
            else:
                self.look_here(*job)
        return begins, self.pages

    def look_here(self, place: int, at: int, count: int) -> None:
        try:
            self.look(place, at, count)
        except OSError as fault:
            raise errors.Unreadable(sources.why(fault)) from None

    def found(self, begins: int, ends: int) -> bytes:
        """What is told of pages, up to those that the file has not."""
        return self.told[begins:ends].rstrip(bytes([UNREAD]))

    def tell(self, job: bytes) -> None:
        """Gives the forks a job; where all have ended, `end` tells why."""
        try:
            os.write(self.jobs, job)
        except BrokenPipeError:
            raise errors.Lost from None

    def end(self) -> None:
        """Waits until all is looked at. What came between is raised."""
        if self.jobs is not None:
            os.close(self.jobs)
            self.jobs = None
        faults = {self.waited() for _ in list(self.forks)} - {0}
        if errno.ENOMEM in faults:
            raise MemoryError
        if faults:
            raise errors.Unreadable(os.strerror(max(faults)))

    def waited(self) -> int:
        """The status of a fork, once it has ended; one that was ended had no memory, most often."""
        status = os.waitpid(self.forks[-1], 0)[1]
        self.forks.pop()
        return os.WEXITSTATUS(status) if os.WIFEXITED(status) else errno.ENOMEM

    def kill(self) -> None:
        """Ends the forks, as nobody wants to know any more."""
        for fork in self.forks:
            with contextlib.suppress(ProcessLookupError):
                os.kill(fork, signal.SIGKILL)
        with contextlib.suppress(MemoryError, errors.Unreadable):
            self.end()
