"""What keeps the machine, and a guest's memory, safe from what is started here."""
import os
import resource
import sys

from front.text import shown

TYPE_CHECKING = False                                # a checker of types takes it for true
if TYPE_CHECKING:
    import subprocess

TRACED = 'MIG_TRACEBACK'                             # in the environment: a fault that nobody foresaw is told by a traceback
FIRST_KILLED = 1000                                  # where memory ends, before what the machine itself needs
TENTHS = 8                                           # of what is available, so many are for what is started here


def no_core_files() -> None:
    """Neither this process nor one that it starts leaves a core file: a guest's memory would stand in it."""
    try:
        resource.setrlimit(resource.RLIMIT_CORE, (0, 0))
    except (OSError, ValueError):                    # there are none here
        pass


def memory_there() -> int:
    """How much memory is available, in bytes; all of it is taken for available where the system doesn't tell."""
    try:
        with open('/proc/meminfo', encoding='ascii') as told:
            lines = dict(line.split(':', 1) for line in told)
        return int(lines['MemAvailable'].split()[0]) << 10
    except (OSError, KeyError, ValueError):
        return sys.maxsize


def memory_to_take() -> int:
    """How much the programs that hold guests may take together, where nothing else was said."""
    return memory_there() // 10 * TENTHS


def limit(process: 'subprocess.Popen[bytes]', most: int) -> None:
    """Has a process that was just started take so much memory at most."""
    try:
        _, greatest = resource.prlimit(process.pid, resource.RLIMIT_AS)
        if greatest == resource.RLIM_INFINITY or most < greatest:
            resource.prlimit(process.pid, resource.RLIMIT_AS, (most, most))
    except (OSError, ValueError, OverflowError):     # it has ended
        pass


def is_killed_first(process: 'subprocess.Popen[bytes]') -> bool:
    """Has the system end a process first where memory ends, and not what the machine needs; whether this thread may say so."""
    try:
        with open('/proc/%d/oom_score_adj' % process.pid, 'w', encoding='ascii') as score:
            score.write(str(FIRST_KILLED))
    except PermissionError:
        return False
    except OSError:                                  # it has ended, or the system has no such file
        pass
    return True


def told_of(fault: BaseException) -> str:
    """A fault that nobody foresaw, in one line; with TRACED it is raised again."""
    if os.environ.get(TRACED):
        raise fault
    where, last = 'an unknown place', fault.__traceback__
    while last:
        where = '%s:%d' % (os.path.basename(last.tb_frame.f_code.co_filename), last.tb_lineno)
        last = last.tb_next
    return 'a fault of mig itself: %s at %s: %s; with %s=1 it tells more' % (type(fault).__name__, where, shown(str(fault)), TRACED)
