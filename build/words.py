"""The commands of the programs: their words, for where there is no program to ask yet, what each writes, and which functions do it,
which docs/design.md has from here (tests/documents/commands.py). The usage line and the tests' lines are made of them too."""
import re
from collections import namedtuple

from front import resolve

TYPE_CHECKING = False                                # a checker of types takes it for true; typing itself is slow to load
if TYPE_CHECKING:
    from typing import List

# Its words, what standard output and standard error get with status 0, and which functions of the crates do it.
Command = namedtuple('Command', 'words output report done_by')
NOTHING = 'nothing'
COMMANDS = (
    Command('restore [BASE]', "the image of the guest's host, with machine frames counted up from BASE, or from 1048576", NOTHING,
            '`read_any`, and the guest goes to a host'),
    Command('verify', NOTHING, 'one line: version, kind, frames, records, and behind a VERIFY how many entries differ',
            '`read_any`'),
    Command('normalise', 'the canonical stream of the guest', NOTHING,
            '`read_any`'),
    Command('convert', 'the canonical stream of the guest of a legacy stream', NOTHING,
            '`read_legacy`'),
    Command('save', 'a stream of the guest that a host is seen as at the pause, saved while a script changes the host',
            'one line: rounds, entries',
            '`read_host`, and behind the image `Script::read`: a machine of both is saved'),
    Command('exercise SEED FRAMES', NOTHING, 'one line: frames, rounds, entries, length of the canonical stream',
            'a host and a script of its own, saved into a sink in memory; reader, writer, restorer and view go over that stream'),
    Command('walk VCPU ADDRESS', NOTHING, "one line: the frame that the address means in a stream's guest, and its type",
            "`read_any`; `walk_guest` of mig_walk says where the address leads"),
    Command('walkimage VCPU ADDRESS', NOTHING, 'the same of the host of an image, with the machine frame',
            '`read_host`; then whether the host is sound, and `walk_host`'),
    Command('relay', 'the stream that was read, up to its END; with status 1, 3, 4 or 5 a front of it', 'one line: records, bytes',
            '`relay` of mig_relay, which reads no guest'),
    Command('show', 'one line of JSON: kind, records, version, whether it is a libxl stream; with status 1 of what stands in front of '
            'the refused part, and the refusal', NOTHING,
            '`show_text` of mig_show: a `Relay` passes the stream on to a sink that keeps nothing, and the records are listed as they go by'),
)
USAGE = 'usage: ' + ' | '.join(command.words for command in COMMANDS)
CHECK_USAGE = 'usage: mig_check [legacy]'
USAGES = {resolve.TOOL: USAGE, resolve.CHECK: CHECK_USAGE}

# The numbers that stand for words in capitals: the least and the greatest, in decimal digits without leading zeros.
NUMBERS = {'BASE': (1, 2 ** 40 - 2 ** 24), 'SEED': (0, 2 ** 64 - 1), 'FRAMES': (8, 65536), 'VCPU': (0, 4095)}
DECIMAL, ADDRESS = re.compile('0|[1-9][0-9]{0,19}'), re.compile('0|[1-9a-f][0-9a-f]{0,15}')


def fits(word: str, name: str) -> bool:
    """Whether a word is one that the usage line names so."""
    if name == 'ADDRESS':
        return ADDRESS.fullmatch(word) is not None
    if name not in NUMBERS:
        return word == name
    least, most = NUMBERS[name]
    return DECIMAL.fullmatch(word) is not None and least <= int(word) <= most


def names_a_command(name: str, words: 'List[str]') -> bool:
    """Whether the words name a command of the program of this name."""
    if name == resolve.CHECK:
        return words in ([], ['legacy'])
    for command in COMMANDS:
        wanted = command.words.replace('[', '').replace(']', '').split()
        least = len(command.words.partition(' [')[0].split())
        if least <= len(words) <= len(wanted) and all(map(fits, words, wanted)):
            return True
    return False
