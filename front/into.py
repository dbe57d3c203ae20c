"""`mig normalise`, `mig convert`, `mig restore` with -t DIR: many files in, one result for each in DIR. A file that was named
gets its base name there, one that was found below a folder its path below that folder. A name that ends in .gz, .zst or .xz loses
that, since no result is packed. A file that fails stops no other."""
import os
import stat
import sys

from front import errors, files, many, program, sources, verdict, write
from front.text import put_lines, shown

TYPE_CHECKING = False                                # a checker of types takes it for true; typing itself is slow to load
if TYPE_CHECKING:
    from typing import Any, Dict, List, Optional, Set, Tuple

PACKED = '.gz', '.zst', '.xz'                        # ends of names
WRITTEN, THERE, PASSED_OVER = 'written', 'there already', 'passed over'
COUNTED = WRITTEN, THERE, PASSED_OVER, verdict.REFUSED, verdict.NO_SAVE, verdict.NOT_JUDGED, verdict.FAULT
MODE = 0o700                                         # of folders that are made: a guest's memory is below


def status_of_folder(name: str) -> os.stat_result:
    """The status of DIR, which has to be there: where it isn't mounted nothing is written in its place."""
    try:
        found = os.stat(name)
    except OSError as fault:
        raise errors.Refused(errors.WRITE_FAULT, '%s: %s' % (shown(name), sources.why(fault))) from None
    if not stat.S_ISDIR(found.st_mode):
        raise errors.Refused(errors.WRITE_FAULT, '%s: Not a directory' % shown(name))
    return found


def below(name: str) -> str:
    """The path of a file below the folder in which it was found; its base name where it was named."""
    top = getattr(name, 'top', None)
    if top is None:
        return os.path.basename(name.rstrip(os.sep))
    return name[len(top):].lstrip(os.sep)


def unpacked_name(path: str) -> str:
    """A path without the end that tells how the file is packed, where the name has more than that."""
    front, end = os.path.splitext(path)
    return front if end in PACKED else path


def make_folders(top: str, path: str, made: 'List[str]') -> None:
    """Makes the folders of a path below a folder that aren't there, and appends each that it made."""
    place = top
    for name in path.split(os.sep)[:-1]:
        place = os.path.join(place, name)
        if not os.path.isdir(place):
            os.mkdir(place, MODE)
            made.append(place)


def remove_folders(made: 'List[str]') -> None:
    """Takes away folders that were made for a file that failed; what isn't empty stays."""
    for folder in reversed(made):
        try:
            os.rmdir(folder)
        except OSError:
            return


def is_result(place: str, name: str) -> bool:
    """Whether the result of a file is at this place: neither an empty file, which held the place where there are no hard links, nor
    the file itself."""
    try:
        return os.path.isfile(place) and os.path.getsize(place) > 0 and not os.path.samefile(place, name)
    except OSError:
        return False


class Into:
    """Writes the results of files into a folder. No two of them have one place."""

    def __init__(self, words: 'Any') -> None:
        self.words, self.path = words, program.find()
        self.taken = {}  # type: Dict[str, str]

    def place_of(self, name: str) -> 'Tuple[str, str]':
        """Where below DIR the result of a file goes, and the other file whose result goes there, or None."""
        path = unpacked_name(below(name))
        return path, self.taken.setdefault(path, name)

    def to(self, found: verdict.Verdict) -> 'Dict[str, str]':
        """The place of a file's result, for JSON, where it is there now."""
        is_there = found.result in (WRITTEN, PASSED_OVER)
        return verdict.of_name(os.path.join(self.words.directory, self.place_of(found.name)[0]), 'to') if is_there else {}

    def made(self, name: str) -> verdict.Verdict:
        """The verdict of a file whose result is written."""
        if name == '-':
            return verdict.Verdict.of(name, verdict.FAULT, errors.USAGE, 'standard input has no name that its result could have')
        if isinstance(name, (sources.Folder, sources.EmptyFolder)):
            return verdict.of_file(name, None)  # type: ignore[arg-type]  # which can't be read
        path, other = self.place_of(name)
        place = os.path.join(self.words.directory, path)
        if other is not name:
            return verdict.Verdict.of(name, THERE, errors.USAGE, '%s is the place of what is made of %s' % (shown(place), shown(other)))
        if not self.words.force and os.path.lexists(place):
            return self.there(name, place)
        return verdict.of_file(name, lambda name, source: self.written(name, source, path, place))

    def there(self, name: str, place: str) -> verdict.Verdict:
        """The verdict of a file at whose place something is there."""
        if self.words.skip_existing and is_result(place, name):
            return verdict.Verdict.of(name, PASSED_OVER, errors.OK, '')
        line = '%s is there already; --force writes over a file, --skip-existing passes it over' % shown(place)
        return verdict.Verdict.of(name, THERE, errors.USAGE, line)

    def written(self, name: str, source: 'Any', path: str, place: str) -> verdict.Verdict:
        """The verdict of a source whose result is written at this place. Where it fails no folder that was made for it
        stays."""
        made, found = [], None  # type: List[str], Optional[verdict.Verdict]
        try:
            make_folders(self.words.directory, path, made)
            found = write.result_of(self.words, self.path, name, source, place)
            for folder in made:
                write.settle(os.path.dirname(folder))
        except OSError as fault:
            return self.fault(name, errors.WRITE_FAULT, '%s: %s' % (shown(fault.filename or place), sources.why(fault)))
        except errors.BadWords:
            raise
        except errors.Refused as refused:
            return self.fault(name, refused.status, str(refused))
        finally:
            if not found or found.status:
                remove_folders(made)
        return found._replace(result=WRITTEN) if found.status == errors.OK else found

    @staticmethod
    def fault(name: str, status: int, line: str) -> verdict.Verdict:
        return verdict.Verdict.of(name, verdict.FAULT, status, line)


def into(words: 'Any') -> int:
    """Writes the result of each file that is chosen into DIR; tells what fails, and counts all at the end. The greatest status."""
    if words.force and words.skip_existing:
        raise errors.Refused(errors.USAGE, "--force and --skip-existing don't go together")
    counts, statuses = dict.fromkeys(COUNTED, 0), set()  # type: Dict[str, int], Set[int]
    names = list(files.chosen(words, status_of_folder(words.directory)))  # before any result stands among them
    results = Into(words)
    for found in many.verdicts(names, 1, results.made, words.verb):
        counts[found.result] += 1
        statuses.add(found.status)
        if words.json:
            verdict.put_object(words.verb, found, results.to(found))
        elif found.result != PASSED_OVER:
            verdict.tell_of(found)
    if not words.json:
        put_lines([many.count_of(counts)], sys.stdout)
    return many.status_of(statuses)
