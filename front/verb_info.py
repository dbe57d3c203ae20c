"""`mig info`: what is in each file, for people, and with --json or --table for others. It judges nothing: what it tells of a stream
it takes from the program's `show`, and of an old save from `mig_check legacy`."""
import json
import os
import sys
from collections import namedtuple

from front import domain, errors, forms, many, parts, program, resolve, sources, verdict
from front.files import chosen
from front.progress import LINE
from front.sharing import MOST_OF_CHECK, Memory
from front.text import put_lines, shown
from front.words import CHOICE, in_json, takes_files, verb

TYPE_CHECKING = False                                # a checker of types takes it for true; typing itself is slow to load
if TYPE_CHECKING:
    from typing import Any, Callable, Dict, Iterator, Optional, Set, Tuple

INFO = """\
Files and folders, with all files below, and `-` for standard input; each is what `mig check` takes.

It judges no file: `mig check` does that, and what is told here may be damaged. Told are the file's form; of the configuration in xl's
or libvirt's header the domain's name, uuid and type, its vCPUs and its memory; and of the stream its version and kind, which Xen wrote
it, how many records it has, how many frame numbers were sent and how many pages with them, and which parts it has. That of the stream
comes from the program's `show`, so of a stream that is refused what stands in front of the refused part is told; of an old save its
frames alone. A name is told as it stands in the file: nobody vouches for it.

The status is 0 where all of each file could be told, 1 where one is no save or is refused in a part, and 3 where one couldn't be read.

With --json there is an object in a line for each file, with --table a line. No page is kept in memory, but a list of the records is,
up to some 2^20 of them; of a stream with more than that nothing is told but its form and its domain, with status 5."""
TOLD, NOT_TOLD = 'told', 'not told'                  # the results of a file of which all is told, and of one that isn't looked at
COUNTED = TOLD, verdict.REFUSED, verdict.NO_SAVE, NOT_TOLD, verdict.FAULT
AHEAD = 4096                                         # so much of a stream's front is kept, for what no record tells
MOST_TEXT = 128 << 20                                # bytes of a list of records, which is some 2^20 of them
MOST_TAKEN = 512 << 20                               # what the program may take for such a list
MOST_SHOWN, MOST_IN_COLUMN = 200, 40                 # letters of a name that are printed
TOO_MANY = 'too many records to list'
NOT_KEPT = 'not told of a pipe'
ROW = '%-8s %-4s %5s %14s %-6s %9s %9s  %-20s %s'
NOTHING = domain.Domain(*[None] * len(domain.Domain._fields))
HEADINGS = 'RESULT', 'KIND', 'VCPUS', 'MEMORY', 'XEN', 'RECORDS', 'PAGES', 'NAME', 'FILE'

# Of one file: a verdict, the bytes that it has, its domain, why that isn't told, and what its stream holds; None where nothing is
# said of it.
Fields = namedtuple('Fields', 'found size domain unread stream')


def cut(text: str, most: int = MOST_SHOWN) -> str:
    """What a file says of itself, as one line that isn't too long."""
    return shown(text[:most]) + ' ..' * (len(text) > most)


def with_most(now: 'Optional[int]', most: 'Optional[int]', unit: str = '') -> str:
    """A number, and what it may become at most."""
    if now is None or most is None or now == most:
        return '%d%s' % (most if now is None else now, unit)  # type: ignore[str-format]
    return '%d of %d%s' % (now, most, unit)


def memory(now: 'Optional[int]', most: 'Optional[int]') -> str:
    """Amounts of KiB, in MiB where they are whole."""
    if any(one is not None and one % 1024 for one in (now, most)):
        return with_most(now, most, ' KiB')
    now, most = (one if one is None else one >> 10 for one in (now, most))
    return with_most(now, most, ' MiB')


def word_of(text: 'Optional[str]') -> str:
    """A text of a file in a column."""
    return '-' if text is None else cut(text, MOST_IN_COLUMN)


def amount(now: 'Optional[int]', most: 'Optional[int]', show: 'Callable[..., str]') -> str:
    """A number, and what it may become, in a column."""
    return '-' if now is None and most is None else show(now, most).replace(' of ', '/')


class Info(Fields):
    """What is told of one file."""

    @classmethod
    def of(cls, found: verdict.Verdict, size: 'Optional[int]' = None, domain: 'Optional[domain.Domain]' = None, unread: 'Optional[str]' = None,
           stream: 'Optional[Dict[str, Any]]' = None) -> 'Info':
        return cls(found, size, domain, unread, stream)

    @property
    def result(self) -> str:
        """What is counted: a stream that the program lists whole is told, and nobody judged it."""
        return TOLD if self.found.status == errors.OK else str(self.found.result)

    @property
    def line(self) -> str:
        """The line of the verdict."""
        return str(self.found.line)

    def lines(self) -> 'Iterator[str]':
        """What is printed of it."""
        found = self.found
        yield 'file: ' + shown(found.name)
        if found.form:
            yield 'form: ' + found.form
        if self.size is not None:
            yield 'size: %d bytes' % self.size
        if self.unread:
            yield 'configuration: not told: ' + self.unread
        if self.domain:
            told = ['    ' + line for line in of_domain(self.domain)]
            yield 'configuration:' + ' it says nothing of the domain' * (not told)
            yield from told
        if self.stream:
            yield 'stream:'
            yield from ('    ' + line for line in of_stream(self.stream))
        yield from self.of_verdict()

    def of_verdict(self) -> 'Iterator[str]':
        """What the program answered, where it isn't that all was listed."""
        found = self.found
        if found.status:
            yield found.line
        elif found.line != 'ok':
            yield 'stream:'
            yield '    frames: ' + verdict.LEGACY_FACTS.fullmatch(found.line)[1]  # type: ignore[index]
        if found.means:
            yield '    %s%s; %s' % (found.where(), found.means, found.do)
        if found.status and self.stream:
            yield '    what is told of the stream stands in front of that'
        if found.follows:
            yield 'behind the end: %d bytes' % found.follows

    def facts(self) -> 'Dict[str, Any]':
        """It as one object, for JSON: what isn't there is left out."""
        facts = {**self.found.facts(), 'result': self.result}  # type: Dict[str, Any]
        if self.found.status == errors.OK:
            del facts['line']
        facts.pop('size', None)
        if self.size is not None:
            facts['size'] = self.size
        if self.unread:
            facts['configuration'] = self.unread
        if self.domain:
            facts['domain'] = {name: value for name, value in self.domain._asdict().items() if value is not None}
        if self.stream:
            facts['stream'] = self.stream
        return facts

    def row(self) -> 'Tuple[Any, ...]':
        """It as the columns of a table."""
        told, stream = self.domain or NOTHING, self.stream or {}
        vcpus = stream.get('vcpus') if told.vcpus is None else told.vcpus
        return (self.result, stream.get('kind') or word_of(told.type), amount(vcpus, told.max_vcpus, with_most),
                amount(told.memory, told.max_memory, memory), stream.get('xen', '-'), stream.get('records', '-'),
                stream.get('pages', '-'), word_of(told.name), shown(self.found.name))


def of_domain(told: domain.Domain) -> 'Iterator[str]':
    """What is printed of a domain."""
    for name in 'name', 'uuid', 'type':
        if getattr(told, name) is not None:
            yield '%s: %s' % (name, cut(getattr(told, name)))
    if (told.vcpus, told.max_vcpus) != (None, None):
        yield 'vCPUs: ' + with_most(told.vcpus, told.max_vcpus)
    if (told.memory, told.max_memory) != (None, None):
        yield 'memory: ' + memory(told.memory, told.max_memory)


def of_stream(stream: 'Dict[str, Any]') -> 'Iterator[str]':
    """What is printed of a stream."""
    if 'version' in stream:
        yield 'version: %d' % stream['version']
    if 'kind' in stream:
        yield 'kind: ' + stream['kind']
    if 'xen' in stream:
        yield 'Xen: %s%s' % (stream['xen'], ', which a canonical or a converted stream names' * (stream['xen'] == '0.1'))
    yield 'records: %d' % stream['records']
    yield 'frames sent: %d, %d with a page' % (stream['frames_sent'], stream['pages'])
    if 'X86_PV_VCPU_BASIC' in stream['counts']:
        yield 'vCPUs: %s' % stream.get('vcpus', NOT_KEPT)
    yield 'parts: ' + (', '.join(parts_of(stream)) or 'none')
    if {parts.STORE, parts.CONTEXT} & set(stream['counts']):
        yield from emulators(stream)
    if stream['verify']:
        yield 'VERIFY: frames were sent again, to be compared'


def parts_of(stream: 'Dict[str, Any]') -> 'Iterator[str]':
    """The types of records, in the order in which they come first, with what is known of each."""
    known = {'HVM_PARAMS': ('parameters', stream.get('parameters')),
             'X86_PV_P2M_FRAMES': ('P2M frames', stream.get('p2m_frames'))}  # type: Dict[str, Tuple[str, Any]]
    for name, count in stream['counts'].items():
        more = ['records: %d' % count] * (count > 1) + (['%s: %d' % known[name]] if name in known else [])
        if name != 'END':
            yield name + (' (%s)' % ', '.join(more) if more else '')


def emulators(stream: 'Dict[str, Any]') -> 'Iterator[str]':
    if 'emulators' not in stream:
        yield 'emulators: ' + NOT_KEPT
    for one in stream.get('emulators', ()):
        state = ['%s %d bytes' % (name, one[name]) for name in ('xenstore', 'context') if name in one]
        yield 'emulator: %s, id %d, index %d: %s' % (one['name'], one['id'], one['index'], ', '.join(state))


# ---- what is asked of the programs

def size_of(source: 'Any') -> 'Any':
    """How many bytes a file has; None of a pipe, or where the system doesn't tell."""
    if not source.packed:
        return source.size
    try:
        return os.fstat(source.fd).st_size
    except OSError:
        return None


def text_of(out: int) -> bytearray:
    """What a program writes, or a little more of it than is kept."""
    text = bytearray()
    while len(text) <= MOST_TEXT:
        block = sources.read_some(out, sources.BLOCK)
        if not block:
            break
        text += block
    return text


def listed(path: str, source: 'Any', begins: int) -> 'Tuple[program.Answer, bytes]':
    """The program's answer to `show`, and the text that it wrote."""
    with program.Work(path, ['show'], source, begins, program.PIPE) as work:
        text = text_of(work.out)
        if len(text) > MOST_TEXT:
            work.kill()
    if len(text) > MOST_TEXT:
        return program.Answer(errors.NO_MEMORY, TOO_MANY), b''
    if work.said.line == 'fault: memory':
        return work.said._replace(line=TOO_MANY), text
    return work.said, text


def domain_of(source: 'Any', form: forms.Form) -> 'Dict[str, Any]':
    """The domain of a form's header, or why it isn't told; nothing where there is no header."""
    if not form.header:
        return {}
    try:
        return {'domain': domain.of_header(source, form.header)}
    except errors.Unread as unread:
        return {'unread': str(unread)}


def without_judging(told: Info) -> Info:
    """What `check` doesn't judge isn't told here."""
    if told.found.result != verdict.NOT_JUDGED:
        return told
    return told._replace(found=told.found._replace(result=NOT_TOLD, line=told.found.line.replace(verdict.NOT_JUDGED, NOT_TOLD, 1)))


class Files:
    """What is told of each file, one after another."""

    def __init__(self) -> None:
        self.memory, self.tool, self.check = Memory(1), program.find(), program.find(resolve.CHECK)

    def told(self, name: str) -> Info:
        told = verdict.of_file(name, self.of_source)
        return without_judging(told if isinstance(told, Info) else Info.of(told))

    def of_source(self, name: str, source: 'Any') -> 'Any':
        form = forms.form_of(source)
        early = verdict.without_program(name, form)
        if early:
            words = early.form and ', '.join(filter(None, (source.packed, early.form)))
            return Info.of(early._replace(form=words, packed=source.packed), size_of(source))
        told = domain_of(source, form)
        if form.kind == forms.LEGACY:
            with self.memory.taken(MOST_OF_CHECK):
                return Info.of(verdict.judged(name, self.check, source), size_of(source), **told)
        ahead = source.at(form.begins, AHEAD)
        with self.memory.taken(MOST_TAKEN):
            said, text = listed(self.tool, source, form.begins)
        found = verdict.of_answer(name, source, form, 'show', said)
        return Info.of(found, size_of(source), stream=parts.stream_of(text, source, form.begins, ahead), **told)


def info(words: 'Any') -> int:
    files, statuses, counts = Files(), set(), dict.fromkeys(COUNTED, 0)  # type: Files, Set[int], Dict[str, int]
    if words.table:
        put_lines([ROW % HEADINGS], sys.stdout)
    for done, name in enumerate(LINE.begin('looking at', chosen(words))):
        LINE.at(done, name)
        told, before = files.told(name), any(counts.values())
        if words.json:
            put_lines([json.dumps(told.facts())], sys.stdout)
        elif words.table:
            put_lines([(ROW % told.row()).rstrip()], sys.stdout)
        else:
            put_lines([''] * before + list(told.lines()), sys.stdout)
        statuses.add(told.found.status)
        counts[told.result] += 1
    if not words.json and sum(counts.values()) > 1:
        put_lines([many.count_of(counts)], sys.stderr)
    return many.status_of(statuses)


def offer(verbs: 'Any') -> None:
    words = verb(verbs, 'info', 'tell what is in each file: its form, its domain and its parts; it judges nothing', info,
                 INFO + '\n\n' + CHOICE, {errors.REFUSED: 'what stands in front of the refused part is told'})
    takes_files(words)
    ways = words.add_mutually_exclusive_group()
    in_json(ways, 'print one JSON object for each file')
    ways.add_argument('--table', action='store_true', help='print a line for each file, in columns')
