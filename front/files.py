"""Which files a verb takes that takes many: those that are named, also in a list, and all files below folders, or those of them
whose names fit."""
import fnmatch
import os

from front import errors, sources
from front.text import shown

TYPE_CHECKING = False                                # a checker of types takes it for true; typing itself is slow to load
if TYPE_CHECKING:
    from typing import Any, Iterable, Iterator, List, Optional, Sequence

MOST_LIST = 64 << 20                                 # bytes of a list
NONE_FITS = 'none of its files is taken by --include and --exclude'
OF_CHOICE = 'include', 'exclude', 'files_from', 'ends_with_nul'


def entries_of(folder: str) -> 'List[str]':
    """What is in a folder, in the order of names."""
    with os.scandir(folder) as entries:
        return sorted((entry.path for entry in entries), key=os.path.basename)


def files_below(folder: str, left_out: 'Optional[os.stat_result]' = None) -> 'Iterator[sources.Found]':
    """All files below a folder, in the order of their names, but those in a folder that is left out. A folder that can't be read
    is answered as itself, and so is a link to a folder, which isn't followed."""
    unreadable, left = [], [folder]  # type: List[sources.Folder], List[str]
    while left:
        place = left.pop()
        try:
            if place != folder and left_out and os.path.samestat(os.stat(place), left_out):
                continue
            paths = entries_of(place)
        except OSError:
            unreadable.append(sources.Folder(place))
            continue
        folders = [path for path in paths if os.path.isdir(path)]
        yield from (sources.Folder(path) for path in folders if os.path.islink(path))
        yield from (sources.Found(path) for path in paths if not os.path.isdir(path))
        left += reversed([path for path in folders if not os.path.islink(path)])
    yield from unreadable


class Choice:
    """Which of the files below a folder are taken, by patterns of their names, and the status of a folder that is left out."""

    def __init__(self, include: 'Optional[Sequence[str]]' = (), exclude: 'Optional[Sequence[str]]' = (),
                 left_out: 'Optional[os.stat_result]' = None) -> None:
        self.include, self.exclude, self.left_out = include or (), exclude or (), left_out

    def takes(self, path: str) -> bool:
        """A folder that can't be read, or isn't followed, is told of, unless it is excluded."""
        base = os.path.basename(path)
        if any(fnmatch.fnmatchcase(base, pattern) for pattern in self.exclude):
            return False
        return not self.include or isinstance(path, sources.Folder) or any(
            fnmatch.fnmatchcase(base, pattern) for pattern in self.include)


ALL = Choice()


def files_of(paths: 'Iterable[str]', choice: Choice = ALL) -> 'Iterator[str]':
    """Each path that is no folder, and for a folder all files below that are taken."""
    for path in paths:
        if path == '-' or not os.path.isdir(path):
            yield path
            continue
        empty, is_empty = sources.EmptyFolder(path), True  # a folder that isn't mounted isn't well
        for found in files_below(path, choice.left_out):
            if found == path or choice.takes(found):
                is_empty = False
                found.top = path
                yield found
            else:
                empty.why = NONE_FITS
        if is_empty:
            yield empty


def text_of(name: str) -> bytes:
    """The bytes of a list."""
    source = sources.source_of(name)
    try:
        text = sources.read_upto(source.input_from(0), MOST_LIST + 1)
        fault = source.ended(len(text) <= MOST_LIST)
    finally:
        source.close()
    if fault or len(text) > MOST_LIST:
        raise errors.Unreadable(fault or 'it has more than %d MiB' % (MOST_LIST >> 20))
    return text


def listed(name: str, ends_with_nul: bool) -> 'Sequence[str]':
    """The paths that a list names, a line each, or each with a NUL behind it. `-` is a file of that name there."""
    try:
        text = text_of(name)
    except errors.Unreadable as why:
        raise errors.Refused(errors.READ_FAULT, '%s: fault: read: %s' % (shown(name), why)) from None
    if not ends_with_nul and b'\0' in text:
        raise errors.Refused(errors.USAGE, '%s has NUL bytes; -0 takes such a list' % shown(name))
    paths = [os.fsdecode(path) for path in text.split(b'\0' if ends_with_nul else b'\n') if path]
    if not paths:
        return [sources.EmptyFolder.of(name, 'it names no file')]
    return ['./-' if path == '-' else path for path in paths]


def refuse_choice(words: 'Any', why: str) -> None:
    """Refuses the words that choose files where these do not go with others."""
    if any(getattr(words, name) for name in OF_CHOICE):
        raise errors.Refused(errors.USAGE, '--include, --exclude, --files-from and -0 ' + why)


def chosen(words: 'Any', left_out: 'Optional[os.stat_result]' = None) -> 'Iterator[str]':
    """The files that the words of a verb choose, without those in a folder of this status. All lists are read before."""
    lists = words.files_from or []
    if not words.paths and not lists:
        words.usage_fault('the following arguments are required: PATH')
    if words.ends_with_nul and not lists:
        raise errors.Refused(errors.USAGE, '-0 goes with --files-from')
    if [*words.paths, *lists].count('-') > 1 and '-' in lists:
        raise errors.Refused(errors.USAGE, 'a list and another one, or a PATH, are both standard input')
    paths = [*words.paths, *(path for name in lists for path in listed(name, words.ends_with_nul))]
    return files_of(paths, Choice(words.include, words.exclude, left_out))
