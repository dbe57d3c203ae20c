"""Runs the sources of a program without any proof, by `rt try`: checks at run time stop what a proof would rule out. It is a first look, at
a file of at most 64 MiB and an answer of at most 1 MiB, and says so each time. It builds nothing."""
import os
import re
import shutil
import stat
import subprocess
import sys

from front import resolve

TYPE_CHECKING = False                                # a checker of types takes it for true; typing itself is slow to load
if TYPE_CHECKING:
    from typing import Callable, List

MOST_INPUT, SECONDS = 64 << 20, 600


class NoAnswer(Exception):
    """Why nothing is answered."""


def run(name: str, words: 'List[str]', tell: 'Callable[[str], None]') -> int:
    """Runs the sources of the program of this name on standard input; the program's status."""
    if shutil.which('rt') is None:
        raise NoAnswer("--unproved takes the command rt of the Rattle kit, which isn't on this machine")
    found = os.fstat(0)
    if not stat.S_ISREG(found.st_mode) or found.st_size - os.lseek(0, 0, os.SEEK_CUR) > MOST_INPUT:
        raise NoAnswer('--unproved reads standard input from a file of at most 64 MiB')
    tell('--unproved: this run is checked as it goes, and nothing is proved')
    ended = subprocess.run(['rt', 'try', '--steps', '1', '--seconds', str(SECONDS), '--', *words],
                           cwd=os.path.join(resolve.TOP, 'crates', name), stdout=subprocess.PIPE, stderr=subprocess.PIPE)
    said = ended.stderr.decode(errors='replace').splitlines()
    ran = [re.fullmatch(r'run=ended status=(\d+)( .*)?', line) for line in said]
    if not any(ran):
        why = [line for line in said if line.startswith('checked: ')] or said or ['rt said nothing']
        raise NoAnswer('--unproved: no answer: ' + why[-1])
    sys.stdout.buffer.write(ended.stdout)
    sys.stdout.flush()
    own = [line for line in said if not re.match(r'(interpreter|checked|rt): |run=', line)]
    print(*own, sep='\n', end='\n' * bool(own), file=sys.stderr)
    return int(next(it for it in ran if it)[1])
