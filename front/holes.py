"""OUT with holes where it would have blocks of zeros: they take no room on a disk and read as zeros. A file system that has no holes
writes zeros there itself."""
import errno
import fcntl
import os
import re

from front import errors, sources
from front.text import shown
from front.zeros import DATA, PAGE, PAGES_AT_ONCE, zeros_in

SIZE = PAGE * PAGES_AT_ONCE                          # bytes that are looked at together; PAGE is a block of most file systems, too
SET_PIPE_SIZE, OF_PIPE = 1031, 1 << 20               # of fcntl, and the bytes that a pipe may hold where nobody said otherwise
MODE = 0o600                                         # of a file that has a guest's memory
NO_SUCH_FILES = errno.EOPNOTSUPP, errno.EISDIR, errno.EINVAL  # a file system, or a kernel, that has no files without a name
RUN_OF_DATA = re.compile(b'%c+' % DATA)


def not_written(where: str, fault: OSError) -> errors.Refused:
    return errors.Refused(errors.WRITE_FAULT, '%s: %s' % (where, sources.why(fault)))


def unnamed(folder: str) -> int:
    """A new file of a folder that has no name, so that nothing is left of it behind us, and that its owner alone may read."""
    try:
        try:
            return os.open(folder, os.O_TMPFILE | os.O_RDWR | os.O_CLOEXEC, MODE)
        except OSError as fault:
            if fault.errno not in NO_SUCH_FILES:
                raise
        import tempfile
        fd, name = tempfile.mkstemp(prefix='.mig.', dir=folder)
        os.unlink(name)
        return fd
    except OSError as fault:
        raise not_written(shown(folder), fault) from None


class Sparse:
    """A new file that is written from its begin to its end, but for blocks that are all zeros."""

    def __init__(self, fd: int, told: str = 'fault: write') -> None:
        self.fd, self.told, self.begins, self.there = fd, told, 0, 0  # the place of what is kept, and how much that is
        self.kept = bytearray(SIZE)
        self.view = memoryview(self.kept)

    def put(self, data: bytes) -> None:
        left = memoryview(data)
        while left:
            count = min(len(left), SIZE - self.there)
            self.view[self.there:self.there + count] = left[:count]
            left = left[count:]
            self.add(count)

    def copy(self, pipe: int) -> None:
        """Passes on all that comes."""
        try:
            fcntl.fcntl(pipe, SET_PIPE_SIZE, OF_PIPE)
        except OSError:                              # many pipes have much already
            pass
        while True:
            try:
                count = os.readv(pipe, [self.view[self.there:]])
            except OSError as fault:
                raise errors.Unreadable(sources.why(fault)) from None
            if not count:
                return
            self.add(count)

    def add(self, count: int) -> None:
        """So many bytes more are kept; what is looked at together is written."""
        self.there += count
        if self.there == SIZE:
            self.write()

    def write(self) -> None:
        """Writes what is kept. A hole at its end belongs to the file, too, so that its size tells how much there is."""
        self.kept[self.there:] = bytes(SIZE - self.there)
        ends = 0
        try:
            for run in RUN_OF_DATA.finditer(zeros_in(self.kept)):
                ends = min(PAGE * run.end(), self.there)
                self.write_all(PAGE * run.start(), ends)
            if ends < self.there:
                os.ftruncate(self.fd, self.begins + self.there)
        except OSError as fault:
            raise not_written(self.told, fault) from None
        self.begins, self.there = self.begins + self.there, 0

    def write_all(self, begins: int, ends: int) -> None:
        while begins < ends:
            begins += os.pwrite(self.fd, self.view[begins:ends], self.begins + begins)

    def end(self) -> None:
        """Writes the rest."""
        self.write()
