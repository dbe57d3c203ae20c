"""How names and lines are printed, and where."""
import io
import sys
import threading

from front import errors

TYPE_CHECKING = False                                # a checker of types takes it for true; typing itself is slow to load
if TYPE_CHECKING:
    from typing import Callable, Iterable, List, TextIO

LOCK = threading.RLock()                             # of who prints
BEFORE_LINES = []  # type: List[Callable[[], None]]    # what is called before lines are printed


def escape_output() -> None:
    """Standard output escapes what it can't encode."""
    sys.stdout = io.TextIOWrapper(sys.stdout.detach(), sys.stdout.encoding, 'backslashreplace')  # type: ignore[attr-defined]


def shown(name: str) -> str:
    """A file's name as one printable line: control characters, backslashes and bytes that aren't UTF-8 are escaped."""
    letters = []
    for letter in name:
        if '\udc80' <= letter <= '\udcff':
            letters.append('\\x%02x' % (ord(letter) - 0xdc00))
        elif letter == '\\':
            letters.append('\\\\')
        elif not letter.isprintable():
            letters.append(letter.encode('unicode_escape').decode())
        else:
            letters.append(letter)
    return ''.join(letters)


def put_lines(lines: 'Iterable[str]', to: 'TextIO') -> None:
    """Writes lines at once, so that those of several processes don't mix in a pipe that they share."""
    text = ''.join(line + '\n' for line in lines)
    if not text:
        return
    try:
        with LOCK:
            for call in BEFORE_LINES:
                call()
            to.write(text)
            to.flush()
    except BrokenPipeError:
        raise
    except OSError as fault:
        raise errors.Untold('%s: %s' % ('standard output' if to is sys.stdout else 'standard error', fault.strerror)) from None


def tell(line: str) -> None:
    put_lines(['mig: ' + line], sys.stderr)
