"""What a verb is at, in one line on a terminal. It has which file of how many, how many bytes of how many are read, how many in a
second, and how long it will take. It comes once a verb has taken a second, and goes before anything else is printed. Nowhere else
is it printed."""
import os
import sys
import threading
import time

from front import text
from front.text import shown

TYPE_CHECKING = False                                # a checker of types takes it for true; typing itself is slow to load
if TYPE_CHECKING:
    from typing import Any, Iterable, Optional, Set, Tuple

FIRST, EACH = 1.0, 0.5                               # seconds until the line comes, and until it is told anew
UNITS = 'bytes', 'KiB', 'MiB', 'GiB', 'TiB'
WIDTH = 80                                           # of a terminal that tells none
CLEAR = '\r\x1b[K'


def in_units(count: int, unit: 'Optional[int]' = None) -> 'Tuple[str, int]':
    """A number of bytes and its unit, or the number in a given unit."""
    number = min(max(count.bit_length() - 1, 0) // 10, len(UNITS) - 1) if unit is None else unit
    return ('%d' if number == 0 else '%.1f') % (count / (1 << 10 * number)), number


def amount(count: int) -> str:
    """A number of bytes, for people."""
    number, unit = in_units(count)
    return '%s %s' % (number, UNITS[unit])


def of_all(done: int, total: int) -> str:
    """A number of bytes of a greater one, in the unit of that."""
    number, unit = in_units(total)
    return '%s of %s %s' % (in_units(done, unit)[0], number, UNITS[unit])


def duration(seconds: float) -> str:
    """Hours, minutes and seconds."""
    minutes, seconds = divmod(int(seconds + 0.5), 60)
    hours, minutes = divmod(minutes, 60)
    return '%d:%02d:%02d' % (hours, minutes, seconds) if hours else '%d:%02d' % (minutes, seconds)


def size_of(name: str) -> int:
    """How many bytes a file has; 0 where nobody can know."""
    try:
        return os.path.getsize(name) if os.path.isfile(name) else 0
    except OSError:
        return 0


def read_of(source: 'Any') -> int:
    """How much of a source was read; nothing where it was closed meanwhile."""
    try:
        return int(source.read_so_far())
    except OSError:
        return 0


def written_to(fd: 'Optional[int]') -> int:
    """How much of a file was written; nothing where there is none."""
    try:
        return 0 if fd is None else os.fstat(fd).st_size
    except OSError:
        return 0


class Line:
    """The line, and what it tells of. Sources at work tell how far they are, in the order of the files."""

    def __init__(self) -> None:
        self.is_terminal = sys.stderr is not None and sys.stderr.isatty()  # it may be closed
        self.is_there, self.ended = False, threading.Event()
        self.sources = set()  # type: Set[Any]
        self.ticker = None  # type: Optional[threading.Thread]
        self.out = None  # type: Optional[int]     # the file that is written, where one is
        self.doing, self.name, self.number, self.files, self.total, self.before, self.begun = '', '', 0, 0, 0, 0, 0.0

    def begin(self, doing: str, names: 'Iterable[str]') -> 'Iterable[str]':
        """A verb begins on these files, which are counted and measured where that is told. Answers them."""
        if not self.is_terminal:
            return names
        names = list(names)
        self.doing, self.files, self.total, self.begun = doing, len(names), sum(map(size_of, names)), time.monotonic()
        self.number, self.name, self.before = 0, names[0] if names else '', 0
        if not self.ticker:
            text.BEFORE_LINES.append(self.clear)
            self.ticker = threading.Thread(target=self.tick, daemon=True)
            self.ticker.start()
        return names

    def at(self, number: int, name: str) -> None:
        """The files in front of this one are done."""
        if self.is_terminal:
            self.before += size_of(self.name) if number != self.number else 0
            self.number, self.name = number, name

    def tick(self) -> None:
        """Tells the line until the verb ends. One that can't be told is none, and keeps no verb from what it does."""
        try:
            self.tell()
        except Exception:
            self.ended.set()

    def tell(self) -> None:
        wait = FIRST
        while not self.ended.wait(wait):
            wait = EACH
            with text.LOCK:
                if self.ended.is_set():
                    return
                sys.stderr.write(CLEAR + self.told()[:(os.get_terminal_size(2).columns or WIDTH) - 1])
                sys.stderr.flush()
                self.is_there = True

    def told(self) -> str:
        """The line."""
        now = sum(map(read_of, list(self.sources)))
        seconds, done, written = time.monotonic() - self.begun, self.before + now, 0 if now else written_to(self.out)
        parts = ['file %d of %d' % (self.number + 1, self.files)] * (self.files > 1)
        if self.total and (done or not written):
            parts.append(of_all(min(done, self.total), self.total))
        elif done:
            parts.append(amount(done))
        if written:                                  # of a file that a program reads by place none is told as read
            parts.append('%s written' % amount(written))
        moved = done + written
        parts.append('%s/s' % amount(int(moved / seconds)) if moved else duration(seconds))
        if done and self.total:
            parts.append(duration(max(self.total - done, 0) * seconds / done) + ' left')
        return ', '.join([*parts, ' '.join(filter(None, (self.doing, shown(self.name))))])

    def clear(self) -> None:
        """Takes the line away before others are printed."""
        if self.is_there:
            sys.stderr.write(CLEAR)
            sys.stderr.flush()
            self.is_there = False

    def end(self) -> None:
        """No line is told any more."""
        self.ended.set()
        if text.LOCK.acquire(timeout=1):             # a terminal that is stopped keeps nobody from an end
            self.clear()
            text.LOCK.release()


LINE = Line()
