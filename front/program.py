"""The proved programs: where each is, and what it answers of an input."""
import os
import signal
import subprocess
import threading
from collections import namedtuple

from front import errors, privileges, resolve
from front.guarding import is_killed_first, limit, memory_to_take
from front.progress import LINE
from front.text import shown

TYPE_CHECKING = False                                # a checker of types takes it for true; typing itself is slow to load
if TYPE_CHECKING:
    from typing import Any, Callable, List, Mapping, Optional, Protocol, Sequence, Set, Tuple, Union

    class Input(Protocol):
        """What a program's standard input is made from: front/sources.py has several."""

        def input_from(self, offset: int) -> int:
            ...

        def ended(self, accepted: bool) -> Optional[str]:
            ...

BUILDER = os.path.join(resolve.TOP, 'bin', 'build-mig_tool')
PIPE = subprocess.PIPE
HUGE_PAGES = 'glibc.malloc.hugetlb'                  # of glibc 2.35 and newer; others pass it over
# Words of mig_tool, and of mig_check all.
KEEPS_NO_PAGES = ['relay'], ['show'], [], ['legacy']  # type: Tuple[List[str], ...]
SIGNALS = signal.SIGINT, signal.SIGTERM, signal.SIGHUP


def catch_signals(handler: 'Union[Callable[[int, Any], None], signal.Handlers]') -> None:
    """Has a function called where a signal asks for an end, or the system do what it does then; a signal that was ignored from the start,
    as under nohup, stays so."""
    for number in SIGNALS:
        if signal.getsignal(number) != signal.SIG_IGN:
            signal.signal(number, handler)


def surroundings(words: 'List[str]', given: 'Mapping[str, str]') -> 'Mapping[str, str]':
    """A program's environment for these words. Its pages come in two thirds of the time where the C library asks for huge ones,
    which it does where GLIBC_TUNABLES says so. What is said there of huge pages already stays."""
    told = given.get('GLIBC_TUNABLES', '')
    if words in KEEPS_NO_PAGES or HUGE_PAGES in told:
        return given
    return {**given, 'GLIBC_TUNABLES': ':'.join(filter(None, (told, HUGE_PAGES + '=1')))}


class Running:
    """The programs at work, which are ended where a signal ends the front."""

    def __init__(self) -> None:
        self.processes = set()  # type: Set[subprocess.Popen[bytes]]
        self.stopped = None  # type: Optional[BaseException]
        self.memory, self.of_thread = memory_to_take(), threading.local()  # all of it, and what a thread's program may take of it
        self.user = None  # type: Optional[str]    # the name of the user as whom programs run, where one was named
        self.starters, self.lock = None, threading.Lock()  # type: Optional[privileges.Lowered], threading.Lock

    def run_as(self, name: 'Optional[str]') -> None:
        """What is started runs as the user of this name, where one is named."""
        if name is not None:
            privileges.user_of(name)                 # that it can't be is told before anything is read
        self.user = name

    def most(self) -> int:
        """How much memory the next program may take."""
        return int(getattr(self.of_thread, 'most', self.memory))

    def end(self, stopped: BaseException) -> None:
        """Ends all programs; none is started any more."""
        self.stopped = stopped
        for process in list(self.processes):
            self.kill(process)

    def kill(self, process: 'subprocess.Popen[bytes]') -> None:
        try:
            process.kill()
        except PermissionError:                      # root may lack the capability to end others' processes
            self.starters.call(lambda _: process.kill())  # type: ignore[union-attr]

    def stop(self, number: int, _: object) -> None:
        for other in SIGNALS:                        # what was begun is taken away meanwhile
            signal.signal(other, signal.SIG_IGN)
        why = errors.Stopped(number)
        self.end(why)
        raise why

    def lowered(self) -> privileges.Lowered:
        """What starts all programs."""
        with self.lock:
            if not self.starters:
                self.starters = privileges.Lowered(privileges.user_of(self.user))
        return self.starters

    def start(self, name: str, words: 'Sequence[str]', most: 'Optional[int]' = None, reopens: bool = False,
              **more: 'Any') -> 'subprocess.Popen[bytes]':
        """Starts a program, ours or an unpacker, which may take so much memory, or what this thread's may. It gets its name as it is
        shown, since it answers no words behind a path that isn't UTF-8. Its standard error is a pipe. An OSError says that it didn't
        start. Where signals aren't restored a limit of file sizes is a write fault, too."""
        if self.stopped:
            raise self.stopped
        lowered, at_most = self.lowered(), self.most() if most is None else most
        path, files = lowered.runnable(name)

        def started(starter: privileges.Starter) -> 'subprocess.Popen[bytes]':
            starter.give(reopens and starter.is_closed(more['stdin']))
            process = subprocess.Popen([shown(os.path.basename(name)), *words], executable=path, stderr=PIPE, pass_fds=files,
                                       start_new_session=bool(lowered.user), **more)  # no terminal of root's, in which it could type
            limit(process, at_most)
            self.processes.add(process)
            if self.stopped:                         # meanwhile, in another thread
                process.kill()
            return process

        process = lowered.call(started)  # type: subprocess.Popen[bytes]
        if not is_killed_first(process):             # its file is root's until it has wholly begun, and then its user's
            lowered.call(lambda _: is_killed_first(process))
        return process

    def said_by(self, process: 'subprocess.Popen[bytes]') -> 'Tuple[int, str]':
        """What a program that was started wrote on standard error up to its end, and its status."""
        said = process.stderr.read().decode('utf-8', 'replace')  # type: ignore[union-attr]
        process.stderr.close()  # type: ignore[union-attr]
        status = process.wait()
        self.processes.discard(process)
        return status, said


RUNNING = Running()


# A status of the program, or NO_MEMORY where it was killed, and its line.
Answer = namedtuple('Answer', 'status line')


def find(name: str = resolve.TOOL) -> str:
    """The path of the program of this name: that which MIG_TOOL, or of mig_check MIG_CHECK, names, or the one that fits these
    sources."""
    named = os.environ.get(name.upper())
    if not named:
        return str(resolved(name).path)
    if not os.path.isfile(named) or not os.access(named, os.X_OK):
        raise errors.NoProgram('%s names %s, which is no program' % (name.upper(), shown(named)))
    return named


def resolved(name: str) -> resolve.Program:
    """The program that fits these sources, which is built first where none does."""
    try:
        return resolve.present(name)
    except errors.NoProgram as none:
        if not can_build():
            raise errors.NoProgram('no program runs: %s' % none) from None
    build()
    try:
        return resolve.present(name)
    except errors.NoProgram as none:
        raise errors.NoProgram('no program runs: %s; where a source was changed meanwhile, run it again' % none) from None


def can_build() -> bool:
    """Whether this is a checkout; not what was installed, nor a release without its sources."""
    return resolve.IS_REPOSITORY and os.access(BUILDER, os.X_OK)


def build() -> None:
    """Has the programs proved and built; what is said of it stands on standard error."""
    building = subprocess.Popen([BUILDER], stdin=subprocess.DEVNULL, stdout=subprocess.DEVNULL)
    try:
        built = building.wait()
    except errors.Stopped:                                  # it puts back what it has begun
        building.terminate()
        building.wait()
        raise
    if built:
        raise errors.NoProgram('')


def answer_of(status: int, said: str) -> Answer:
    """What a program of ours answered, with its line."""
    if status < 0:
        return Answer(errors.NO_MEMORY, 'the program was ended by signal %d; most often no memory was left' % -status)
    if status in errors.BY_OTHERS or status == errors.REFUSED and not said.startswith('refused: '):
        return Answer(errors.NO_MEMORY, 'the program could not begin: ' + said.strip())
    return Answer(status, said[:-1] if said.endswith('\n') else said)


class Work:
    """A program of ours at work on a source from a place on, or on nothing. Behind a `with` that lasts while its output is read,
    `said` is its answer; READ_FAULT where the source itself failed. It is ended where an exception ends that."""

    def __init__(self, path: str, words: 'List[str]', source: 'Optional[Input]' = None, begins: int = 0,
                 out: int = subprocess.DEVNULL) -> None:
        self.source = source
        self.said = None  # type: Answer  # type: ignore[assignment]
        if source:
            LINE.sources.add(source)
        try:
            fed_by = subprocess.DEVNULL if source is None else source.input_from(begins)
            self.process = RUNNING.start(path, words, stdin=fed_by, stdout=out, restore_signals=False, reopens=bool(source),
                                         env=surroundings(words, privileges.environment()))
        except OSError as fault:
            raise errors.NoProgram('%s does not start: %s' % (shown(path), fault.strerror)) from None

    @property
    def out(self) -> int:
        """Where what it writes is read."""
        return self.process.stdout.fileno()  # type: ignore[union-attr]

    def kill(self) -> None:
        RUNNING.kill(self.process)

    def __enter__(self) -> 'Work':
        return self

    def __exit__(self, kind: object, *_: object) -> None:
        if kind:
            self.kill()
        self.end()

    def end(self, is_wanted: bool = True) -> Answer:
        """Waits for its end; what it answered. Where that isn't wanted any more, what follows its input isn't read either."""
        if self.process.stdout:
            self.process.stdout.close()
        self.said = answer_of(*RUNNING.said_by(self.process))
        LINE.sources.discard(self.source)
        fault = self.source and self.source.ended(is_wanted and self.said.status == errors.OK)
        if fault:
            self.said = Answer(errors.READ_FAULT, 'fault: read: ' + fault)
        return self.said


def run(path: str, words: 'List[str]', source: 'Input', begins: int, out: int = subprocess.DEVNULL) -> Answer:
    """What the program answers of a source from a place on."""
    return Work(path, words, source, begins, out).end()
