"""Where the bytes of a save come from: a plain file, a packed one, or a pipe. Each gives its first bytes to be looked at,
and is then handed to the program as its standard input, from a place on. Of a plain file no byte is copied here."""
import contextlib
import os
import signal
import stat
import threading

from front import errors, forms, privileges, program
from front.progress import LINE
from front.text import shown

TYPE_CHECKING = False                                # a checker of types takes it for true; typing itself is slow to load
if TYPE_CHECKING:
    from typing import Any, Callable, Iterator, Optional, Type, Union

    Source = Union['Plain', 'Packed', 'Piped']

BLOCK = 1 << 20
MOST_KEPT = 64 << 20                                 # so much of a pipe is kept, to be looked at
WRITTEN_TO = 'it was written to while it was read'
TOUCHED = ('its inode was changed while it was read (a link, its name, owner or mode; or it was written to, and its time of modification '
           'set back); read it again')
MOST_BEHIND = 1 << 30                                # so much of what follows a stream is read, which needn't ever end


class Found(str):
    """The name of a file that was found in a folder, and not given by who calls; and of the folder that was."""
    top = None  # type: Optional[str]


class Folder(Found):
    """The name of a folder that was found and stands for itself, as it can't be read, or is a link."""


class EmptyFolder(str):
    """The name of a folder in which no file is, or of a list that names none."""
    why = 'no file is in it'

    @classmethod
    def of(cls, name: str, why: str) -> 'EmptyFolder':
        made = cls(name)
        made.why = why
        return made


def why(fault: OSError) -> str:
    return fault.strerror or str(fault)


def go_to(fd: int, place: int) -> None:
    """Has what is read next begin at a place of a file."""
    try:
        os.lseek(fd, place, os.SEEK_SET)
    except OSError as fault:
        raise errors.Unreadable(why(fault)) from None


def read_some(fd: int, count: int) -> bytes:
    try:
        return os.read(fd, count)
    except OSError as fault:
        raise errors.Unreadable(why(fault)) from None


def read_upto(fd: int, count: int) -> bytes:
    """So many bytes of a file or pipe, or all that are left where there are fewer."""
    data = bytearray()
    while len(data) < count:
        more = read_some(fd, count - len(data))
        if not more:
            break
        data += more
    return bytes(data)


def pass_over(fd: int, count: int) -> int:
    """Reads so many bytes, or all that are left, and answers how many there were."""
    left = count
    while left:
        more = len(read_some(fd, min(left, BLOCK)))
        if not more:
            break
        left -= more
    return count - left


def write_all(fd: int, data: bytes) -> None:
    left = memoryview(data)
    while left:
        left = left[os.write(fd, left):]


def drain(fd: int) -> bool:
    """Reads what follows a stream; answers whether that came to an end."""
    return pass_over(fd, MOST_BEHIND) < MOST_BEHIND


class Cursor:
    """A place in the bytes of a source that goes forward, to walk its records."""

    def __init__(self, read: 'Callable[[int, int], bytes]', skip: 'Callable[[int], object]', place: int) -> None:
        self.read_bytes, self.skip_bytes, self.place = read, skip, place

    def read(self, count: int) -> bytes:
        data = self.read_bytes(self.place, count)
        self.place += len(data)
        return data

    def skip(self, count: int) -> None:
        self.skip_bytes(count)
        self.place += count


class Regular:
    """A regular file, from the place on where it is open."""
    is_walkable, is_by_place = True, False

    def __init__(self, fd: int, status: os.stat_result) -> None:
        self.fd, self.base, self.status = fd, os.lseek(fd, 0, os.SEEK_CUR), status

    def read_so_far(self) -> int:
        """How much of the file was read; the program reads on with the same place."""
        return max(os.lseek(self.fd, 0, os.SEEK_CUR) - self.base, 0)

    def change(self) -> 'Optional[str]':
        """What was changed since it was opened, or None. Who writes to a file can set its time of modification back, and not that of its
        inode's change, which a link or another mode moves too."""
        now, before = os.fstat(self.fd), self.status
        if (now.st_size, now.st_mtime_ns) != (before.st_size, before.st_mtime_ns):
            return WRITTEN_TO
        return TOUCHED if now.st_ctime_ns != before.st_ctime_ns else None

    def ended(self, accepted: bool) -> 'Optional[str]':
        """To be called when the program has ended. Answers what is wrong with the source itself, or None. A program may read a file
        twice, so one that was changed meanwhile is no input."""
        try:
            return self.change()
        except OSError as fault:
            return why(fault)

    def close(self) -> None:
        os.close(self.fd)


class Plain(Regular):
    """One that isn't packed. The program gets the file itself, and reads it by place."""
    packed, is_by_place = None, True

    def __init__(self, fd: int, status: os.stat_result) -> None:
        super().__init__(fd, status)
        self.size = max(status.st_size - self.base, 0)

    def at(self, offset: int, count: int) -> bytes:
        data = self.some_at(offset, count)
        while data and len(data) < count:
            more = self.some_at(offset + len(data), count - len(data))
            if not more:
                break
            data += more
        return data

    def some_at(self, offset: int, count: int) -> bytes:
        try:
            return os.pread(self.fd, count, self.base + offset)
        except OSError as fault:
            raise errors.Unreadable(why(fault)) from None

    def length_to(self, offset: int) -> int:
        return min(self.size, offset)

    def opened_again(self) -> 'Optional[Plain]':
        """The same file with a place of its own, so that another program may read it meanwhile; None where that can't be had."""
        fd = -1
        try:
            fd = os.open('/proc/self/fd/%d' % self.fd, os.O_RDONLY | os.O_CLOEXEC)
            os.lseek(fd, self.base, os.SEEK_SET)
            return type(self)(fd, self.status)
        except OSError:
            if fd >= 0:
                os.close(fd)
            return None

    def cursor(self, offset: int) -> Cursor:
        return Cursor(self.at, lambda count: None, offset)

    def input_from(self, offset: int) -> int:
        """The file descriptor that the program gets as its standard input."""
        go_to(self.fd, self.base + offset)
        return self.fd


class Whole(Plain):
    """The same, of which the program gets every byte: what the disk can't give any more is noticed."""
    is_by_place = False

    def input_from(self, offset: int) -> int:
        go_to(self.fd, self.base + offset)
        self.through = Piped(self.fd)
        return self.through.input_from(0)

    def ended(self, accepted: bool) -> 'Optional[str]':
        return self.through.ended(accepted) or super().ended(accepted)


class Packed(Regular):
    """One that another program packed. It is unpacked anew for each look, and once for the program."""
    size = None
    TIMES = 16                                       # what is taken for the unpacked size, to share memory out
    MORE = {'zstd': ['--long=31']}                   # else zstd refuses what was packed with `--long=28` and more
    WARNING = {'gzip': 2, 'xz': 2}                   # all is unpacked, though something follows it

    def __init__(self, fd: int, status: os.stat_result, packer: str) -> None:
        super().__init__(fd, status)
        self.packed = packer
        self.whole = None  # type: Optional[int]   # a file that has all of it unpacked, where that was asked for
        self.running = None  # type: Any           # the unpacker, where one is at work
        self.front = self.look(0, forms.LOOK)

    def unpack(self) -> 'Any':
        go_to(self.fd, self.base)
        try:
            return program.RUNNING.start(self.packed, ['-dc', *self.MORE.get(self.packed, ())], program.RUNNING.memory, stdin=self.fd,
                                         stdout=program.PIPE, env=privileges.environment())
        except FileNotFoundError:
            raise errors.Unreadable('it is packed, and the program %s is not installed' % self.packed) from None
        except OSError as fault:
            raise errors.Unreadable('it is packed, and the program %s does not start: %s' % (self.packed, why(fault))) from None

    def look(self, offset: int, count: int) -> bytes:
        """Some bytes of what is packed; fewer where it ends before."""
        self.running = self.unpack()
        out = self.running.stdout.fileno()
        data = read_upto(out, count) if pass_over(out, offset) == offset else b''
        said = self.stop() if len(data) < count else self.kill()  # type: ignore[func-returns-value]
        if said:
            raise errors.Unreadable(said)
        return data

    def at(self, offset: int, count: int) -> bytes:
        if offset + count <= len(self.front):
            return self.front[offset:offset + count]
        return self.look(offset, count)

    def length_to(self, offset: int) -> int:
        self.running = self.unpack()
        length = pass_over(self.running.stdout.fileno(), offset)
        self.kill()
        return length

    def cursor(self, offset: int) -> Cursor:
        self.kill()
        self.running = self.unpack()
        fd = self.running.stdout.fileno()
        pass_over(fd, offset)
        return Cursor(lambda _, count: read_upto(fd, count), lambda count: pass_over(fd, count), offset)

    def input_from(self, offset: int) -> int:
        if self.whole is not None:
            go_to(self.whole, offset)
            return self.whole
        self.running = self.unpack()
        pass_over(self.running.stdout.fileno(), offset)
        return int(self.running.stdout.fileno())

    def unpack_into(self, folder: str) -> None:
        """Unpacks all into a file of a folder that has no name, which a program reads by place then."""
        from front import holes                      # which stands on this
        self.whole = holes.unnamed(folder)
        out, self.running = holes.Sparse(self.whole, shown(folder)), self.unpack()
        out.copy(self.running.stdout.fileno())
        out.end()
        said = self.stop()
        if said:
            raise errors.Unreadable(said)

    def ended(self, accepted: bool) -> 'Optional[str]':
        """Where the program accepted the stream, all is unpacked, so that the packer's own checksum is looked at."""
        if self.whole is not None:
            return super().ended(accepted)
        if accepted and not drain(self.running.stdout.fileno()):
            self.kill()
            return 'more than %d MiB follow the stream, and what packed it has its checksum behind them' % (MOST_BEHIND >> 20)
        failed = self.stop()
        return super().ended(accepted) or failed

    def stop(self) -> 'Optional[str]':
        """Ends the unpacker, and answers why it failed, where it did so by itself or was ended by others."""
        unpacker, self.running = self.running, None
        unpacker.stdout.close()
        status, said = program.RUNNING.said_by(unpacker)
        if status in (0, -signal.SIGPIPE) or status == self.WARNING.get(self.packed):  # the program had all that it wanted
            return None
        if status > 0:
            return 'it could not be unpacked: ' + shown((said.strip().splitlines() or ['%s failed' % self.packed])[-1])
        return '%s was ended by signal %d; most often no memory was left' % (self.packed, -status)

    def kill(self) -> None:
        if self.running:
            program.RUNNING.kill(self.running)
            self.stop()

    def close(self) -> None:
        self.kill()
        if self.whole is not None:
            os.close(self.whole)
        super().close()


class Piped:
    """A pipe, a device or a socket: what was looked at is kept, and goes to the program first."""
    packed, size, is_walkable, is_by_place = None, None, False, False

    def __init__(self, fd: int) -> None:
        self.fd, self.kept, self.fed = fd, b'', 0
        self.feeder = None  # type: Any            # the thread that feeds the program
        self.fault, self.unforeseen = None, None  # type: Optional[str], Optional[Exception]

    def at(self, offset: int, count: int) -> bytes:
        if offset + count > MOST_KEPT:
            raise errors.Unreadable('what stands before the stream is more than is taken from a pipe: give the file by its name')
        self.kept += read_upto(self.fd, max(offset + count - len(self.kept), 0))
        return self.kept[offset:offset + count]

    def length_to(self, offset: int) -> int:
        return min(len(self.kept), offset)

    def read_so_far(self) -> int:
        return self.fed

    def input_from(self, offset: int) -> int:
        out, into = os.pipe()
        self.feeder = threading.Thread(target=self.feed, args=(into, self.kept[offset:]), daemon=True)
        self.feeder.start()
        self.out = out
        return out

    def feed(self, into: int, front: bytes) -> None:
        """Writes all to the program; that it ended before is no fault."""
        try:
            write_all(into, front)
            self.fed = len(front)
            for block in iter(lambda: os.read(self.fd, BLOCK), b''):
                write_all(into, block)
                self.fed += len(block)
        except BrokenPipeError:
            pass
        except OSError as fault:
            self.fault = why(fault)
        except Exception as unforeseen:              # kept before the program sees an end
            self.unforeseen = unforeseen
        finally:
            os.close(into)

    def ended(self, accepted: bool) -> 'Optional[str]':
        """Where the program accepted the stream, what follows it is read too, so that who writes it isn't stopped by a little."""
        os.close(self.out)
        if accepted:
            self.feeder.join()
            if not self.fault and not self.unforeseen:
                drain(self.fd)
        if self.unforeseen:
            raise self.unforeseen
        return self.fault

    def close(self) -> None:
        if self.fd:
            os.close(self.fd)


def unpack_to(source: 'Any', folder: 'Optional[str]') -> None:
    """Unpacks a source that is packed whole into a file of a folder, where one is named."""
    if source.packed and folder is not None:
        source.unpack_into(folder)


def unpacked(fd: int, status: os.stat_result, kind: 'Type[Plain]') -> 'Union[Plain, Packed]':
    """The source of a regular file, of this kind where it isn't packed."""
    plain = kind(fd, status)
    packer = forms.packer_of(plain.at(0, 8))
    return Packed(fd, status, packer) if packer else plain


def source_of_open(fd: int, name: str, kind: 'Type[Plain]') -> 'Source':
    status = os.fstat(fd)
    if stat.S_ISREG(status.st_mode):
        return unpacked(fd, status, kind)
    if stat.S_ISDIR(status.st_mode):
        raise errors.Unreadable("Is a link to a folder, and isn't followed; name the folder" if os.path.islink(name) else 'Is a directory')
    return Piped(fd)


def opened(name: str) -> int:
    """A file that was found in a folder is opened only where it's regular. A device may do something then, and a pipe wait for
    ever, also one that took the file's place meanwhile."""
    if not isinstance(name, Found):
        return os.open(name, os.O_RDONLY | os.O_CLOEXEC)
    if is_special(os.stat(name)):
        raise errors.Special
    fd = os.open(name, os.O_RDONLY | os.O_CLOEXEC | os.O_NONBLOCK | os.O_NOCTTY)
    if is_special(os.fstat(fd)):
        os.close(fd)
        raise errors.Special
    return fd


def is_special(status: os.stat_result) -> bool:
    return not stat.S_ISREG(status.st_mode) and not stat.S_ISDIR(status.st_mode)


def source_of(name: str, kind: 'Type[Plain]' = Plain) -> 'Source':
    """The source of a file with this name; `-` is standard input. A file that gives none is closed again."""
    if isinstance(name, EmptyFolder):
        raise errors.Unreadable(name.why)
    fd = None  # type: Optional[int]
    source = None  # type: Optional[Source]
    try:
        fd = 0 if name == '-' else opened(name)
        source = source_of_open(fd, name, kind)
        return source
    except OSError as fault:
        raise errors.Unreadable(why(fault)) from None
    finally:
        if fd and not source:
            os.close(fd)


def unread(name: str, why: object) -> errors.Refused:
    """What ends a verb that has one file, where that can't be read."""
    return errors.Refused(errors.READ_FAULT, '%s: fault: read: %s' % (shown(name), why))


@contextlib.contextmanager
def one_source(name: str) -> 'Iterator[Source]':
    """The source of the one file of a verb."""
    source = source_of(name)
    try:
        LINE.begin('reading', [name])
        yield source
    finally:
        source.close()


@contextlib.contextmanager
def source_for(name: str) -> 'Iterator[Source]':
    """The same of a verb that ends where the file can't be read."""
    try:
        with one_source(name) as source:
            yield source
    except errors.Unreadable as why:
        raise unread(name, why) from None
