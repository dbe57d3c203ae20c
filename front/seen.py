"""The objects that `mig check --json` printed before, here or on other hosts: which files they tell of, and what."""
import base64
import json
import os
import sys

from front import errors
from front.sources import why
from front.text import shown

TYPE_CHECKING = False                                # a checker of types takes it for true; typing itself is slow to load
if TYPE_CHECKING:
    from typing import Any, Dict, Iterable, Iterator, Optional, Set, Tuple

LONGEST = 1 << 20                                    # bytes of a line
MICROSECOND = 1000                                   # nanoseconds: other programs read no whole number above 2^53


def stamp_of(name: str) -> 'Dict[str, Any]':
    """By what a file is known again: its size and its time of modification; nothing of what is no regular file."""
    try:
        if name == '-' or not os.path.isfile(name):
            return {}
        found = os.stat(name)
    except OSError:
        return {}
    return {'file_size': found.st_size, 'file_time': found.st_mtime_ns // MICROSECOND}


def name_of(facts: 'Dict[str, Any]') -> str:
    """The name of the file that an object tells of, as the system has it."""
    return os.fsdecode(base64.b64decode(facts['file_bytes'])) if 'file_bytes' in facts else str(facts['file'])


def host_of(facts: 'Dict[str, Any]') -> str:
    return str(facts.get('host', ''))


def is_whole(facts: 'Any') -> bool:
    """Whether an object has what each verdict has."""
    kinds = {'schema': int, 'file': str, 'result': str, 'status': int, 'line': str}
    return isinstance(facts, dict) and all(isinstance(facts.get(name), kind) for name, kind in kinds.items()) and all(
        isinstance(facts.get(name, ''), str) for name in ('host', 'form', 'means', 'do', 'place', 'packed', 'file_bytes'))


def object_in(line: bytes) -> 'Optional[Dict[str, Any]]':
    """The object in a line; None where it has no whole one, as where a host died while it wrote."""
    if len(line) >= LONGEST or not line.endswith(b'\n'):
        return None
    try:
        facts = json.loads(line.decode())  # type: Dict[str, Any]
        return facts if is_whole(facts) and name_of(facts) else None
    except ValueError:
        return None


def objects(name: str) -> 'Iterator[Tuple[int, Optional[Dict[str, Any]]]]':
    """Of each line of a file, or of standard input, its number and its object, or None; empty lines are passed over."""
    try:
        with sys.stdin.buffer if name == '-' else open(name, 'rb') as file:
            for number, line in enumerate(iter(lambda: file.readline(LONGEST), b''), 1):
                if line.strip():
                    yield number, object_in(line)
    except OSError as fault:
        raise errors.Refused(errors.READ_FAULT, '%s: fault: read: %s' % (shown(name), why(fault))) from None


class Seen:
    """What the objects of a file tell of files, which are passed over where they are as they were then. A file that is given for it
    and isn't there tells of none; what couldn't be read or judged is looked at again."""

    def __init__(self, name: str, host: str) -> None:
        self.told = {}  # type: Dict[str, Dict[str, Any]]
        if os.path.lexists(name):
            self.told = {name_of(facts): facts for _, facts in objects(name) if facts and host_of(facts) == host
                         and 'file_time' in facts and facts['result'] != 'fault'}

    def status(self, name: str) -> 'Optional[int]':
        """The status of a file that is as it was when it was seen; None of any other one."""
        facts = self.told.get(name)
        if not facts or any(facts.get(key) != value for key, value in (stamp_of(name) or {'file_time': None}).items()):
            return None
        return int(facts['status'])

    def left(self, names: 'Iterable[str]', statuses: 'Set[int]') -> 'Iterator[str]':
        """Those of these files that weren't seen; the statuses of the others are added."""
        for name in names:
            status = self.status(name)
            if status is None:
                yield name
            else:
                statuses.add(status)


def ends_in_a_line(name: str) -> bool:
    """Whether the last line of a file is whole, so that another one may be written behind it."""
    with open(name, 'rb') as file:
        if not os.fstat(file.fileno()).st_size:
            return True
        file.seek(-1, os.SEEK_END)
        return file.read(1) == b'\n'


def is_standard_output(name: str) -> bool:
    try:
        return os.path.samestat(os.stat(name), os.fstat(1))
    except OSError:
        return False
