"""`mig`: which verb is called, and what ends it. Each verb is a module front/verb_NAME.py."""
import argparse
import importlib
import os
import sys

from front import errors, guarding, program
from front.progress import LINE
from front.text import escape_output, put_lines, tell
from front.words import Words, statuses_of

TYPE_CHECKING = False                                # a checker of types takes it for true; typing itself is slow to load
if TYPE_CHECKING:
    from typing import Any, List, Optional

HERE, BEGIN, END = os.path.dirname(os.path.abspath(__file__)), 'verb_', '.py'
SAYS = """Checks, normalises, converts, restores and compares saves of Xen guests, passes streams on and lists their records, by the
proved programs mig_tool and mig_check."""


class Version(argparse.Action):
    """Says which release this is, and which programs run."""

    def __call__(self, parser: argparse.ArgumentParser, *_: object) -> None:
        from front import version
        put_lines(version.lines(), sys.stdout)
        parser.exit()


def verbs() -> 'List[str]':
    """The names of all verbs."""
    return sorted(name[len(BEGIN):-len(END)] for name in os.listdir(HERE) if name.startswith(BEGIN) and name.endswith(END))


def parser(names: 'List[str]') -> Words:
    """What reads the words of these verbs."""
    words = Words(prog='mig', description=SAYS, formatter_class=argparse.RawDescriptionHelpFormatter,
                  epilog='`mig help VERB` tells more of each.\n\n' + statuses_of())
    words.add_argument('--version', action=Version, nargs=0, help='print the release, and which programs run and why')
    offered = words.add_subparsers(dest='verb', metavar='VERB')
    offered.required = True                          # python3.6 takes no such word above
    for name in names:
        importlib.import_module('front.' + BEGIN + name).offer(offered)
    return words


def parsed(arguments: 'List[str]') -> 'Any':
    """What the words say. Where a verb stands in front, no other one is loaded."""
    known = verbs()
    if arguments[:1] == ['help']:
        arguments = [*arguments[1:], '--help']
    return parser(arguments[:1] if arguments[:1] and arguments[0] in known else known).parse_args(arguments)


def untold(why: 'Optional[str]' = None) -> int:
    """The status where lines couldn't be written; what still waits to be is dropped."""
    nowhere = os.open(os.devnull, os.O_WRONLY)
    os.dup2(nowhere, 1)
    try:
        if why:
            tell(why)
    except errors.Untold:                                   # standard error takes nothing either
        os.dup2(nowhere, 2)
    return errors.WRITE_FAULT


def open_closed() -> None:
    """Gives a standard stream that is closed its number again, so that no other file gets it; reads and writes fail there."""
    for fd, flags in (0, os.O_WRONLY), (1, os.O_RDONLY), (2, os.O_RDONLY):
        try:
            os.fstat(fd)
        except OSError:
            os.open(os.devnull, flags)
    sys.stdout = sys.stdout or open(1, 'w', closefd=False)
    sys.stderr = sys.stderr or open(2, 'w', closefd=False, errors='backslashreplace')


def ended(arguments: 'List[str]') -> int:
    """Calls the verb; the status that it ends with, and what ends it is told."""
    try:
        words = parsed(arguments)
        program.catch_signals(program.RUNNING.stop)
        program.RUNNING.memory = words.memory or program.RUNNING.memory
        program.RUNNING.run_as(words.user)
        status = words.run(words)  # type: int
        return status
    except (errors.Untold, BrokenPipeError):
        raise
    except errors.Failed as failed:
        if str(failed):
            tell(str(failed))
        return failed.status
    except MemoryError:
        program.RUNNING.end(errors.Stopped(0))
        tell('no memory was found')
        return errors.NO_MEMORY
    except Exception as fault:
        program.RUNNING.end(fault)
        tell(guarding.told_of(fault))
        return errors.FAULTY


def main(arguments: 'List[str]') -> int:
    guarding.no_core_files()
    open_closed()
    escape_output()
    try:
        try:
            return ended(arguments)
        finally:
            LINE.end()
    except errors.Untold as fault:
        return untold(str(fault))
    except BrokenPipeError:                          # who reads the lines is gone
        return untold()
    except errors.Stopped as stopped:
        os._exit(stopped.status)                     # at once, though a thread may wait for a pipe's other end
