"""`mig exercise`: the program saves a guest of its own live, in memory, reads it back and restores it, and says what it came to."""
import re
import sys

from front import program, verdict
from front.progress import LINE
from front.text import put_lines
from front.words import in_json, number, verb

TYPE_CHECKING = False                                # a checker of types takes it for true; typing itself is slow to load
if TYPE_CHECKING:
    from typing import Any, Dict, Iterator

EXERCISE = """\
A PV guest with so many frames is made in memory, what it holds and what it writes follow from the seed. It is saved live,
the stream is read again, and its guest is restored. No file is read or written; it takes more than six times the guest's
memory."""
SILENT = 'the program said nothing'
NUMBERS = re.compile(r'ok frames (\d+) rounds (\d+) entries (\d+) canon (\d+)')


def facts(answer: program.Answer) -> 'Dict[str, Any]':
    """An answer as one object, for JSON."""
    found = {'schema': verdict.SCHEMA, 'verb': 'exercise', 'result': verdict.FAULT if answer.status else verdict.OK, 'status': answer.status,
             'line': answer.line or SILENT}  # type: Dict[str, Any]
    said = NUMBERS.fullmatch(answer.line)
    if said:
        found.update(zip(('frames', 'rounds', 'entries', 'bytes'), map(int, said.groups())))
    return found


def told(answer: program.Answer) -> 'Iterator[str]':
    """What is printed of an answer."""
    yield answer.line or SILENT
    said = NUMBERS.fullmatch(answer.line)
    if said:
        frames, rounds, entries, canon = map(int, said.groups())
        yield '    %d round%s while the guest ran, then the pause; %d frame numbers sent, of %d frames' % (
            rounds, 's' * (rounds > 1), entries, frames)
        yield '    its canonical stream has %d bytes' % canon


def exercise(words: 'Any') -> int:
    path = program.find()
    LINE.begin('saving a guest of its own', [])
    answer = program.Work(path, ['exercise', str(words.seed), str(words.frames)]).end()
    if words.json:
        verdict.put_facts(facts(answer))
    else:
        put_lines(told(answer), sys.stdout)
    return int(answer.status)


def offer(verbs: 'Any') -> None:
    words = verb(verbs, 'exercise', 'try the program on a guest of its own, without any file', exercise, EXERCISE)
    words.add_argument('seed', metavar='SEED', nargs='?', type=number(0, (1 << 64) - 1), default=1, help='a number of 64 bits (1)')
    words.add_argument('frames', metavar='FRAMES', nargs='?', type=number(8, 65536), default=600, help='from 8 to 65536 (600)')
    in_json(words)
