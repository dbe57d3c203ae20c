"""Proves the crates that the programs stand on, and builds the programs, by the commands of the Rattle kit.

Each crate is proved when those below it are, as many side by side as there are cores, those first above which most is left.
`rattle build` is called as `rattle build --help` documents it, and not `rt lib`. Some kits' `rt` reads all files below a crate
again on each way through crates.txt, which took 16 of 40 minutes. And a library gets its statements alone, as under `rt ci`, so
that those above it load no proofs: of 28 minutes that took five (docs/performance.md).

A library stands in out/proof when it is proved, with the checksum of what it was made from, so that a later run proves what
changed and what is above it."""
import hashlib
import os
import shutil
import signal
import subprocess
import time
from concurrent.futures import FIRST_COMPLETED, ThreadPoolExecutor, wait

from front import program, resolve

TYPE_CHECKING = False                                # a checker of types takes it for true; typing itself is slow to load
if TYPE_CHECKING:
    from typing import Callable, Dict, List, Optional, Sequence, Set, Tuple

    from concurrent.futures import Future
    Tell = Callable[[str], None]

TOP = resolve.TOP
ROOM = os.path.join(TOP, 'out', 'proof')
RLIBS, COPIES = os.path.join(ROOM, 'rlibs'), os.path.join(ROOM, 'sources')
TARGET = 'x86_64-unknown-linux-gnu'
DISK = 2 << 30
LITTLE_DISK = 64 << 20
MOST_AT_ONCE = 4                                     # each takes up to 2.5 GB of memory


def object_of(program: str) -> str:
    """Where the object file of a program stands: beside it."""
    return program + '.o'


PROGRAMS = {name: os.path.join(ROOM, name) for name in resolve.NAMES}
OBJECTS = {name: object_of(path) for name, path in PROGRAMS.items()}


class NotBuilt(Exception):
    """What wasn't proved or built, in one line; and what was said of it."""

    def __init__(self, line: str, said: str = '') -> None:
        super().__init__(line)
        self.said = said


class Kit:
    """The Rattle kit: its folder and its line."""

    def __init__(self) -> None:
        if shutil.which('rt') is None:
            raise NotBuilt("the command rt of the Rattle kit, which proves and builds the program, isn't on this machine")
        self.line = self.answer('version')
        self.folder = os.path.dirname(self.answer('doc'))
        self.rattle = os.path.join(self.folder, 'bin', 'rattle')

    @staticmethod
    def answer(word: str) -> str:
        return output_of('rt', word).strip()


def output_of(*words: str) -> str:
    try:
        return subprocess.run(words, stdin=subprocess.DEVNULL, stdout=subprocess.PIPE, check=True).stdout.decode()
    except (OSError, subprocess.CalledProcessError) as fault:
        raise NotBuilt('it is not built: %s %s does not answer: %s' % (words[0], words[1], fault)) from None


# ---- at work

# Each prover, with a process group of its own.
AT_WORK = set()  # type: Set[subprocess.Popen[bytes]]


def stopped(number: int, _: object) -> None:
    """A signal ends what is at work."""
    for other in program.SIGNALS:
        signal.signal(other, signal.SIG_IGN)
    for prover in list(AT_WORK):
        os.killpg(prover.pid, signal.SIGTERM)
    os._exit(128 + number)                           # at once, though a thread waits for what was at work


def call(what: str, folder: str, *words: str) -> None:
    """Runs a command of the kit in a folder."""
    ended = subprocess.Popen(words, cwd=folder, stdin=subprocess.DEVNULL, stdout=subprocess.PIPE, stderr=subprocess.STDOUT,
                             start_new_session=True)
    AT_WORK.add(ended)
    said = ended.communicate()[0].decode(errors='replace').rstrip()
    AT_WORK.discard(ended)
    if ended.returncode:
        full = shutil.disk_usage(TOP).free < LITTLE_DISK
        raise NotBuilt('it is not built: ' + ('no room is left on the disk of %s' % TOP if full else '%s is not proved' % what), said)


# ---- one crate

class Crates:
    """Copies of the crates that the programs stand on, so that no edit meanwhile changes what is proved; and what each is made
    from."""

    def __init__(self, kit: Kit) -> None:
        shutil.rmtree(COPIES, ignore_errors=True)
        for crate in resolve.Sources().needed:
            for part in resolve.PARTS:
                path = os.path.join('crates', crate, part)
                if os.path.isdir(os.path.join(TOP, path)):
                    shutil.copytree(os.path.join(TOP, path), os.path.join(COPIES, path))
        shutil.copy(os.path.join(TOP, 'crates.txt'), COPIES)
        self.kit, self.sources = kit, resolve.Sources(COPIES)
        self.marks = {}  # type: Dict[str, str]
        for crate in self.sources.needed:
            below, files = self.sources.libraries(crate)[0], self.sources.files(crate)
            made_from = (kit.line, self.sources.lines[crate], [self.marks[it] for it in below],
                         [(path, resolve.sum_of_file(os.path.join(COPIES, path))) for path in files])
            self.marks[crate] = hashlib.sha256(repr(made_from).encode()).hexdigest()

    def size(self, crate: str) -> int:
        return sum(os.path.getsize(os.path.join(COPIES, path)) for path in self.sources.files(crate))

    def words(self, crate: str, jobs: int, rooms: 'Sequence[str]' = (RLIBS,)) -> 'List[str]':
        """The words of `rattle build` for a crate whose libraries stand in these folders, but where what is made goes."""
        folder, (below, of_kit) = self.kit.folder, self.sources.libraries(crate)
        words = ['--crate-name', crate, 'src/main.rt' if crate in resolve.NAMES else 'src/lib.rt']
        for name in ['std'] + of_kit:
            words += ['--extern', '%s=%s/rlibs/%s.rlib' % (name, folder, name)]
        for name in below:
            words += ['--extern', '%s=%s' % (name, library(name, rooms))]
        for room in (folder + '/rlibs', *rooms):
            words += ['-L', 'dependency=' + room]
        words += ['--antt-project', folder + '/rattle/logic/antt-project.json', '--logic-built', folder + '/logic_built']
        words += ['--links', crate + '=', '--jobs', str(jobs)]
        if crate in resolve.NAMES:
            return words + ['--toolchain', folder + '/toolchain', '--backend', 'llvm']
        return words + ['--statements']

    def prove(self, crate: str, jobs: int) -> 'Optional[float]':
        """Proves and builds a crate whose lower ones are built; the seconds that it took, or None where nothing was left to do."""
        made = OBJECTS.get(crate, '%s/%s.rlib' % (RLIBS, crate))
        kept = os.path.join(ROOM, crate + '.mark')
        if text_of(kept) == self.marks[crate] and os.path.exists(made):
            return None
        began = time.monotonic()
        call(crate, os.path.join(COPIES, 'crates', crate), self.kit.rattle, 'build', *self.words(crate, jobs), '-o', made)
        with open(kept, 'w', encoding='ascii') as mark:
            mark.write(self.marks[crate])
        return time.monotonic() - began


def library(name: str, rooms: 'Sequence[str]') -> str:
    """The library of this name in the first of the folders that has it."""
    paths = ['%s/%s.rlib' % (room, name) for room in rooms]
    return next(filter(os.path.exists, paths), paths[0])


def text_of(path: str) -> str:
    try:
        with open(path, encoding='ascii') as file:
            return file.read()
    except OSError:
        return ''


# ---- all

def above(crates: Crates) -> 'Dict[str, int]':
    """How long the way from each crate up to a program is, in bytes of source."""
    long = {}  # type: Dict[str, int]
    for crate in reversed(crates.sources.needed):
        long[crate] = crates.size(crate) + max((long[it] for it in long if crate in crates.sources.below[it]), default=0)
    return long


def prove_all(crates: Crates, cores: int, tell: 'Tell') -> None:
    """Proves each crate when those below it are; the jobs of all that run are as many as the cores."""
    left, done, long = list(crates.sources.needed), set(), above(crates)  # type: List[str], Set[str], Dict[str, int]
    running = {}  # type: Dict[Future[Optional[float]], Tuple[str, int]]
    all_of_them = len(left)
    with ThreadPoolExecutor(cores) as pool:
        while left or running:
            ready = [it for it in left if done.issuperset(crates.sources.libraries(it)[0])]
            ready.sort(key=long.get, reverse=True)  # type: ignore[arg-type]
            free = cores - sum(jobs for _, jobs in running.values())
            for crate in ready[:free]:
                jobs = max(1, free // len(ready))
                running[pool.submit(crates.prove, crate, jobs)] = crate, jobs
                left.remove(crate)
            for ended in wait(running, return_when=FIRST_COMPLETED).done:
                crate, _ = running.pop(ended)
                done.add(crate)
                if ended.result() is not None:
                    tell('%s is proved, %.0f s; %d of %d left' % (
                        crate, ended.result(), all_of_them - len(done), all_of_them))  # type: ignore[str-format]


def build(kit: Kit, anew: bool, tell: 'Tell') -> str:
    """Proves all that the programs stand on, and links them: PROGRAMS and OBJECTS are there then. Answers the checksum of what they
    were made from. With `anew` nothing is taken from earlier runs."""
    free = shutil.disk_usage(TOP).free
    if free < DISK:
        raise NotBuilt('it is not built: building takes %.0f GB of disk, and %.1f are free at %s' % (DISK / 2 ** 30, free / 2 ** 30, TOP))
    if anew:
        shutil.rmtree(ROOM, ignore_errors=True)
    os.makedirs(RLIBS, exist_ok=True)
    crates = Crates(kit)
    tell('proving and building its %d crates (only after a change; the first time takes minutes)' % len(crates.marks))
    prove_all(crates, min(len(os.sched_getaffinity(0)), MOST_AT_ONCE), tell)
    for name, path in PROGRAMS.items():
        words = '--target', TARGET, '--toolchain', kit.folder + '/toolchain', '-o', path, OBJECTS[name]
        call(name, ROOM, kit.folder + '/bin/rattle-link', *words, kit.folder + '/c/libos_c.a', kit.folder + '/c/liblibc_c.a')
    return crates.sources.checksum()


def build_object(kit: Kit, name: str, rooms: 'Sequence[str]', made: str) -> None:
    """Proves the own crate of the program of this name alone, over libraries that stand proved in these folders, and makes its
    object file."""
    os.makedirs(ROOM, exist_ok=True)
    crates = Crates(kit)
    words = crates.words(name, min(len(os.sched_getaffinity(0)), MOST_AT_ONCE), [os.path.abspath(it) for it in rooms])
    call(name, os.path.join(COPIES, 'crates', name), kit.rattle, 'build', *words, '-o', os.path.abspath(made))
