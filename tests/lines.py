"""The lines that the programs write on standard error, spelled once for the tests.

Cases and runners name a line by what it says, as `refused record 3 BadLength 7`, and `line_of` spells it. So the wording of
a line is here, in docs/refusals.md and in the program with its definition, and no case repeats it. The texts were worked
out from docs/refusals.md, never copied from the program; names and numbers of causes are those of the table that it is made of.

The names are those of the tests: a place in small letters, then a cause. A text that is changed here keeps its name.
"""
import os
import re
import sys

TOP = os.path.dirname(os.path.dirname(os.path.abspath(__file__)))
if TOP not in sys.path:
    sys.path.insert(0, TOP)
from build.words import CHECK_USAGE, USAGE  # noqa: E402  what the programs say of words that name no command
from front import causes  # noqa: E402  of which docs/refusals.md is made

READ_FAULT, WRITE_FAULT, MEMORY = 'fault: read', 'fault: write', 'fault: memory'

# ---- what was done

DONE = {
    'verified': 'ok version {} kind {} frames {} records {}',
    'differing': 'ok version {} kind {} frames {} records {} differs {}',
    'saved': 'ok rounds {} entries {}',
    'exercised': 'ok frames {} rounds {} entries {} canon {}',
    'walked': 'ok frame {} type {}',
    'relayed': 'ok records {} bytes {}',
    # of mig_check
    'uncompared': 'ok version {} kind {} frames {} records {} differs unknown',
    'checked_legacy': 'ok legacy frames {}',
}

# ---- refusals

REFUSED = 'refused: {}: {}'

# The causes of each kind of input, by their names, with their numbers. Behind a cause stand its arguments.
STREAM, LEGACY, IMAGE, SCRIPT, HOST, WALK = (
    {cause.name: '%d %s' % (cause.number, cause.name) for cause in table.values()}
    for table in (causes.STREAM, causes.LEGACY, causes.IMAGE, causes.SCRIPT, causes.HOST, causes.WALK))
# what is wrong with a context, which stands behind BadContext
CONTEXT = {'NoHeader': 'NoHeader', 'HeaderSize': 'HeaderSize', 'ShortEntry': 'ShortEntry', 'NoEnd': 'NoEnd'}

# The places, by their names: how a place reads, and whose causes it has. A place with {} has a number.
PLACES = {
    'image_header': ('ImageHeader', STREAM), 'domain_header': ('DomainHeader', STREAM), 'record': ('Record {}', STREAM),
    'libxl_header': ('LibxlHeader', STREAM), 'libxl_record': ('LibxlRecord {}', STREAM),
    'start': ('Start', LEGACY), 'chunk': ('Chunk {}', LEGACY), 'tail': ('Tail', LEGACY), 'device': ('Device', LEGACY),
    'head': ('Head', IMAGE), 'frame': ('Frame {}', IMAGE), 'parts': ('Parts', IMAGE), 'part': ('Part {}', IMAGE),
    'script': ('Script', SCRIPT), 'script_line': ('Script {}', SCRIPT), 'host': ('Host', HOST), 'pause': ('Pause', HOST),
    'walk': ('Walk', WALK),
}


def refusal(place: str, *words: object) -> str:
    """The line of a refusal: a place with its number, if it has one, a cause and the cause's arguments."""
    text, causes = PLACES[place]
    if '{}' in text:
        text, words = text.format(words[0]), words[1:]
    cause, arguments = causes[str(words[0])], [CONTEXT.get(str(word), str(word)) for word in words[1:]]
    return REFUSED.format(text, ' '.join([cause, *arguments]))


def line_of(name: str, *words: object) -> str:
    """The line of this name with these words, which are its numbers, or a refusal's place and cause."""
    plain = {'usage': USAGE, 'check_usage': CHECK_USAGE, 'read_fault': READ_FAULT, 'write_fault': WRITE_FAULT, 'memory': MEMORY}
    if name in plain:
        return plain[name]
    if name == 'refused':
        return refusal(str(words[0]), *words[1:])
    text = DONE[name]
    if text.count('{}') != len(words):
        raise ValueError('%s has %d words' % (name, text.count('{}')))
    return text.format(*words)


def of_check(line: str) -> str:
    """The line that mig_check writes of a stream of which `verify` writes this one: it compares nothing."""
    numbers = re.fullmatch(DONE['differing'].replace('{}', r'(\w+)'), line)
    return line_of('uncompared', *numbers.groups()[:4]) if numbers else line
