"""Which program runs: the one that was proved on this machine, or the shipped one, and only where its checksums fit.

The programs stand in a folder with a MANIFEST, which tells by checksums what each is and what they were made from. There are
three such folders: out/built, where bin/build-mig_tool puts what it proved; dist, which is shipped with the sources; and the
folder that bin/install made. Times of files decide nothing, since git keeps none."""
import hashlib
import os
import sys
from collections import namedtuple

from front import errors

TYPE_CHECKING = False                                # a checker of types takes it for true; typing itself is slow to load
if TYPE_CHECKING:
    from typing import Callable, Dict, List, Sequence, Tuple

TOP = os.path.dirname(os.path.dirname(os.path.realpath(__file__)))
IS_REPOSITORY = os.path.isdir(os.path.join(TOP, 'crates'))  # else a release that was unpacked, or PREFIX/lib/mig
NAMES = TOOL, CHECK = 'mig_tool', 'mig_check'         # the programs, each of the crate of its name
MACHINE = '%s-%s' % (os.uname().machine, sys.platform)
OWN, SHIPPED = os.path.join(TOP, 'out', 'built'), os.path.join(TOP, 'dist')
PARTS = 'src', 'specs', 'proofs'
NEEDED = ('version', 'machine', *NAMES, 'sources', 'kit', 'origin')
SETTLED = 2                                          # seconds; a file that was changed later could change again unseen
SEEN, MOST_SEEN = os.path.join(TOP, 'out', 'seen'), 8


# A program that may be run, and what its manifest tells.
Program = namedtuple('Program', 'path told')


def number() -> str:
    """The number of the release that these sources are, or come after."""
    try:
        with open(os.path.join(TOP, 'VERSION'), encoding='ascii') as file:
            return file.read().strip()
    except (OSError, ValueError):
        return 'unknown'


# ---- what the programs are made from

class Sources:
    """The crates that the programs stand on, in a checkout."""

    def __init__(self, top: str = TOP) -> None:
        self.top, self.lines, self.below = top, {}, {}  # type: str, Dict[str, str], Dict[str, List[str]]
        with open(os.path.join(top, 'crates.txt'), encoding='utf-8') as listed:
            for line in listed:
                line = line.partition('#')[0].strip()
                name, colon, words = line.partition(':')
                if colon:
                    self.lines[name.strip()], self.below[name.strip()] = line, words.split()
        self.needed = self.stands_on(NAMES)

    def libraries(self, crate: str) -> 'Tuple[List[str], List[str]]':
        """The libraries of the checkout that a crate names in its line, and those of the kit."""
        named = self.below[crate]
        return [it for it in named if it in self.below], [it for it in named if it not in self.below]

    def stands_on(self, names: 'Sequence[str]') -> 'List[str]':
        """These crates and all that they stand on, each behind those that it stands on itself."""
        found = {}  # type: Dict[str, None]

        def visit(crate: str) -> None:
            if crate not in found:
                for below in self.libraries(crate)[0]:
                    visit(below)
                found[crate] = None

        for name in names:
            visit(name)
        return list(found)

    def files(self, crate: str) -> 'List[str]':
        """The paths from the top on of all files that a crate is made from, in their order."""
        found, folders = [], ['crates/%s/%s' % (crate, part) for part in PARTS]  # type: List[str], List[str]
        while folders:
            folder = folders.pop()
            try:
                entries = list(os.scandir(os.path.join(self.top, folder)))
            except FileNotFoundError:                # a crate may have no specs or proofs
                continue
            for entry in entries:
                (folders if entry.is_dir() else found).append('%s/%s' % (folder, entry.name))
        return sorted(found)

    def checksum(self) -> str:
        """The checksum of all that the programs are made from. It is of the lines of crates.txt of the crates that they stand on,
        by their names. Then follows a line as sha256sum writes it for each file of src, specs and proofs of these crates, by
        their paths."""
        files = sorted(path for crate in self.needed for path in self.files(crate))

        def made() -> str:
            lines = [self.lines[crate] for crate in sorted(self.needed)]
            lines += ['%s  %s' % (sum_of_file(os.path.join(self.top, path)), path) for path in files]
            return hashlib.sha256(''.join(line + '\n' for line in lines).encode()).hexdigest()

        return kept_sum([os.path.join(self.top, path) for path in ['crates.txt'] + files], made)


def sum_of_file(path: str) -> str:
    with open(path, 'rb') as file:
        return hashlib.sha256(file.read()).hexdigest()


# ---- what was seen

def kept_sum(paths: 'Sequence[str]', make: 'Callable[[], str]') -> str:
    """The checksum that `make` gives of these files; in a checkout where none of them was changed since it was made here before,
    the one that was kept then."""
    if not IS_REPOSITORY:
        return make()
    marks, newest = hashlib.sha256(), 0.0
    for path in paths:
        found = os.stat(path)
        newest = max(newest, found.st_mtime, found.st_ctime)
        marks.update(repr((path, found.st_size, found.st_ino, found.st_mtime_ns, found.st_ctime_ns)).encode())
    mark, seen = marks.hexdigest(), read_seen()
    if mark not in seen:
        began = now()
        seen[mark] = make()
        if newest + SETTLED < began:
            keep_seen(seen)
    return seen[mark]


def now() -> float:
    """The time, as file systems here tell it."""
    import time
    return time.time()


def read_seen() -> 'Dict[str, str]':
    """The checksum of each mark that was kept."""
    try:
        with open(SEEN, encoding='ascii') as kept:
            return dict(line.split() for line in kept)
    except (OSError, ValueError):                    # nothing was kept, or something else stands there
        return {}


def keep_seen(seen: 'Dict[str, str]') -> None:
    """Keeps the newest checksums, where the folder can be written."""
    part = '%s.%d.part' % (SEEN, os.getpid())
    try:
        os.makedirs(os.path.dirname(SEEN), exist_ok=True)
        with open(part, 'w', encoding='ascii') as kept:
            kept.writelines('%s %s\n' % it for it in list(seen.items())[-MOST_SEEN:])
        os.replace(part, SEEN)
    except OSError:
        if os.path.exists(part):
            os.unlink(part)


# ---- which program

def manifest(folder: str) -> 'Dict[str, str]':
    """What the manifest of a folder tells, by its names."""
    path = os.path.join(folder, 'MANIFEST')
    try:
        with open(path, encoding='utf-8') as lines:
            told = dict(line.rstrip('\n').split(': ', 1) for line in lines if line.strip() and not line.startswith('#'))
    except FileNotFoundError:
        raise errors.Absent('%s is not there' % below_top(path)) from None
    except OSError as fault:
        raise errors.Unfit("%s can't be read: %s" % (below_top(path), fault.strerror)) from None
    except ValueError:
        told = {}
    missing = [name for name in NEEDED if not told.get(name)]
    if missing:
        raise errors.Unfit('%s is damaged, or of another release: it has no %s' % (below_top(path), missing[0]))
    return told


def below_top(path: str) -> str:
    """A path as it is told: from the top of a checkout on."""
    return os.path.relpath(path, TOP) if IS_REPOSITORY else path


def program_in(folder: str, path: str) -> Program:
    """The program at a path, where it is as a folder's manifest tells: made from these sources, for this machine, and as it was made."""
    told = manifest(folder)
    if told['machine'] != MACHINE:
        raise errors.Unfit('%s is for %s, and this machine is %s' % (below_top(path), told['machine'], MACHINE))
    try:
        if kept_sum([path], lambda: sum_of_file(path)) != told[os.path.basename(path)]:
            raise errors.Unfit('%s is cut or changed: it has not the checksum that its MANIFEST names' % below_top(path))
    except FileNotFoundError:
        raise errors.Unfit('%s is not there' % below_top(path)) from None
    except OSError as fault:
        raise errors.Unfit("%s can't be read: %s" % (below_top(path), fault.strerror)) from None
    if not os.access(path, os.X_OK):
        raise errors.Unfit('%s may not be run' % below_top(path))
    if IS_REPOSITORY and told['sources'] != sum_here():
        raise errors.Unfit('%s is of other sources (%s)' % (below_top(path), told['origin']))
    return Program(path, told)


def sum_here() -> str:
    """The checksum of these sources."""
    try:
        return Sources().checksum()
    except (OSError, KeyError) as fault:
        raise errors.Unfit("these sources can't be read: %s" % fault) from None


def own(name: str) -> Program:
    """The program of this name that was proved on this machine."""
    return program_in(OWN, os.path.join(OWN, name))


def shipped(name: str) -> Program:
    """The one that is shipped with these sources."""
    if not os.path.isdir(SHIPPED):
        raise errors.Absent('no program is shipped with these sources')
    if not os.path.isdir(os.path.join(SHIPPED, MACHINE)):
        raise errors.Absent('no program is shipped for this machine, %s: use one with a 64-bit processor of Intel or AMD' % MACHINE)
    return program_in(SHIPPED, os.path.join(SHIPPED, MACHINE, name))


def installed(name: str) -> Program:
    """The one that bin/install put beside bin/mig."""
    try:
        return program_in(TOP, os.path.join(TOP, 'bin', name))
    except errors.Unfit as unfit:
        raise errors.Unfit('%s: install it again' % unfit) from None


def present(name: str) -> Program:
    """The program of this name that runs, where none is built first."""
    is_installed = os.path.exists(os.path.join(TOP, 'MANIFEST'))
    whys = []
    for find in [installed] if is_installed else [own, shipped] if IS_REPOSITORY else [shipped]:
        try:
            return find(name)
        except errors.Unfit as unfit:
            whys.append(unfit)
    there = [why for why in whys if not isinstance(why, errors.Absent)]
    raise errors.NoProgram(str((there or whys)[-1]))
