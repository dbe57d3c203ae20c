"""`mig view`: a save as one HTML file that one can look at, or with --json what that is drawn from. It judges nothing: records come from
the program's `show`, and what `mig info` tells stands at the top."""
import json
import sys
import threading
from itertools import islice

from front import errors, forms, page, places, program, resolve, sent, sources, verb_info, verdict, write
from front.frames import Frames
from front.parts import RECORD, stream_of, tree_of
from front.progress import LINE
from front.sharing import MOST_OF_CHECK, Memory
from front.text import put_lines, shown
from front.words import INPUT, in_json, verb, writes_over
from front.zeros import Readers

TYPE_CHECKING = False                                # a checker of types takes it for true; typing itself is slow to load
if TYPE_CHECKING:
    from typing import Any, Dict, Iterator, List, Optional, Tuple

    Records = List[Dict[str, Any]]                   # as `show` lists them

VIEW = """\
PAGE is one HTML file, which any browser opens without a network: what `mig info` tells, the records as a strip and as a table, the
frame numbers as a map, and of a live save its rounds. It says of each page of the guest whether it is all zeros, and nothing else of
the guest's memory. PAGE is standard output where it is left out, and else written beside its place and renamed when all is well.

The verdict at its top is that of `mig check`; of a packed file, and of a pipe, which are read once, it is that of `mig show`, which
doesn't look at what needs the whole guest. Of a stream that is refused the page has what stands in front of the refused part, or all
where the guest isn't whole, and the status is 1. Of what is no save, and of an old save, no page is written. No page of the guest is
kept in memory.

With --json PAGE is the JSON object from which the page is drawn; docs/view.schema.json in the sources tells what stands in it."""
SCHEMA = 1
SEVERAL = 'several types'                            # the name of neighbouring records of more types than one
FEW_RECORDS, MOST_LINES = 4096, 60                   # records that are never taken together, and lines at the top of a page
OLD = 'not told: an old save has no such records; what `mig convert` makes of it has'


class Page(write.Output):
    """Where the page goes."""

    @staticmethod
    def standard() -> int:
        if sys.stdout.isatty():
            raise errors.Refused(errors.USAGE, 'a page is no text for a terminal: give it a name with -o')
        return 1


def records_of(text: bytes) -> 'Records':
    """The records that `show` lists."""
    _, listed = tree_of(text)
    return [json.loads(record[0].decode()) for record in RECORD.finditer(listed)] if listed else []


def placed(records: 'Records', begins: int, is_wrapped: bool) -> int:
    """Gives each record its number in its layer, as a refusal names it, and its place in the file."""
    numbers = {'libxl': 0, 'libxc': 0}
    place = begins + (places.LIBXL_HEADER if is_wrapped else places.IMAGE_HEADERS)
    for record in records:
        record.update(number=numbers[record['layer']], offset=place)
        numbers[record['layer']] += 1
        place += places.HEAD + record['length'] + -record['length'] % 8
        if is_wrapped and record['name'] == 'LIBXC_CONTEXT':
            place += places.IMAGE_HEADERS
    return place


def frames_of(records: 'Records', read: sent.Sent) -> Frames:
    """What was sent of each frame number in these records, each of which is told how many of its pages are zeros."""
    frames = Frames()
    for index, record in enumerate(records):
        if index in read.words:
            zeros = read.zeros[index]
            record['zeros'] = sum(zeros)
            frames.add(record['number'], record['offset'], read.words[index], zeros)
        elif record['name'] == 'VERIFY':
            frames.verify(record['number'], record['offset'])
    return frames


def live(frames: Frames, length: int, of_pages: int) -> 'Dict[str, Any]':
    """What the rounds came to; no rounds where the numbers were sent in no order."""
    pause = frames.at_the_pause()
    pause['bytes'] += length - of_pages
    return {'rounds': frames.rounds.told, 'times': frames.sent_times(), 'pause': pause}


def map_of(frames: Frames, per: int) -> 'Dict[str, Any]':
    """The map of the frames."""
    return {'per': per, 'is_whole': frames.is_whole, 'counts': frames.counts(), 'spans': frames.spans(per)}


class View:
    """What the page of one save is drawn from: what `info` tells, what `check` says where it was asked, records and frames."""

    def __init__(self, told: verb_info.Info, judged: 'Optional[verdict.Verdict]', records: 'Records', frames: 'Optional[Frames]',
                 length: int) -> None:
        self.told, self.judged, self.records, self.frames, self.length = told, judged, records, frames, length

    def facts(self, per: int = 1) -> 'Dict[str, Any]':
        """It as one object, with so many frame numbers in a cell, or more."""
        of_pages = sum(places.HEAD + record['length'] for record in self.records if record['name'] == 'PAGE_DATA')
        found = {'schema': SCHEMA, 'info': self.told.facts(), 'verdict': self.judged and self.judged.facts(), 'length': self.length,
                 'records': self.records, 'frames': None}
        if self.frames:
            found['frames'] = map_of(self.frames, max(per, self.frames.per_cell()))
            found['live'] = live(self.frames, self.length, of_pages)
        return found

    def lines(self) -> 'Iterator[str]':
        """What is at the top of the page: what `info` tells, without what is told elsewhere on it."""
        section = ''
        for line in self.told.lines():
            if line == self.told.found.line:
                return
            name, _, value = line.partition(': ')
            section = section if line.startswith(' ') else name.rstrip(':')
            if value and name.strip() not in ('file', 'parts'):
                yield line + ', says the configuration' * (section == 'configuration' and name.strip() == 'vCPUs')

    def verdict(self) -> 'Tuple[str, bool]':
        """The verdict at its top, and whether it is one of a whole guest or stream."""
        found = self.judged or self.told.found  # type: Any
        if found.status:
            return '%s. %s' % (found.line, '%s%s; %s.' % (found.where(), found.means, found.do) if found.means else ''), False
        behind = ' %d bytes follow the end of the stream.' % found.follows if found.follows else ''
        if self.judged:
            return 'A well formed stream of a whole guest, says mig check: %s.%s' % (found.line, behind), True
        return 'Each part of the stream is well formed.%s Whether the guest is whole mig check tells.' % behind, True


class Checked(threading.Thread):
    """What mig_check says of a file, which it reads by place, while `show` lists its records. It gets an opening of the file of
    its own, since programs move the place of the one that they get. Where that can't be had, it is asked after `show`."""

    def __init__(self, name: str, source: 'Any', memory: Memory) -> None:
        super().__init__(daemon=True)
        self.name_of_file, self.source, self.memory = name, source, memory
        self.found, self.fault = None, None  # type: Optional[verdict.Verdict], Optional[BaseException]
        self.again = source.opened_again()

    def __enter__(self) -> 'Checked':
        if self.again:
            self.start()
        return self

    def __exit__(self, *_: object) -> None:
        if self.again:
            self.join()
            self.again.close()

    def run(self) -> None:
        try:
            self.found = self.judged(self.again)
        except BaseException as fault:               # it is raised where the verdict is asked for
            self.fault = fault

    def judged(self, source: 'Any') -> verdict.Verdict:
        with self.memory.taken(MOST_OF_CHECK):
            return verdict.judged(self.name_of_file, program.find(resolve.CHECK), source)

    def verdict(self) -> verdict.Verdict:
        if not self.again:
            return self.judged(self.source)
        self.join()
        if self.fault:
            raise self.fault
        return self.found  # type: ignore[return-value]


def read(name: str, source: 'Any') -> 'Tuple[verb_info.Info, Optional[View]]':
    """What is told of a source, and what its page is drawn from; nothing where it has none."""
    form = forms.form_of(source)
    if form.kind == forms.LEGACY:
        return verb_info.Info.of(verdict.Verdict.of(name, verb_info.NOT_TOLD, errors.REFUSED, OLD, form.words)), None
    early = verdict.without_program(name, form)
    if early:
        return verb_info.without_judging(verb_info.Info.of(early)), None
    memory = Memory(1)
    if source.packed or not source.is_walkable:
        return of_form(name, source, form, memory, None, None)
    with Readers(source.fd, source.base, source.size) as readers, Checked(name, source, memory) as checked:
        return of_form(name, source, form, memory, readers, checked)


def of_form(name: str, source: 'Any', form: forms.Form, memory: Memory, readers: 'Optional[Readers]',
            checked: 'Optional[Checked]') -> 'Tuple[verb_info.Info, Optional[View]]':
    """The same of a source in which a stream was found. What can be read by place has readers, and is checked."""
    told, ahead = verb_info.domain_of(source, form), source.at(form.begins, verb_info.AHEAD)  # type: Any, bytes
    is_wrapped = ahead.startswith(forms.LIBXL_MAGIC)
    with memory.taken(verb_info.MOST_TAKEN):
        said, text, read = sent.beside(source, form.begins, is_wrapped, verb_info.MOST_TEXT, readers)
    if len(text) > verb_info.MOST_TEXT or text.count(b'{') > sent.MOST_RECORDS + 1 or said.line == 'fault: memory':
        said, text = program.Answer(errors.NO_MEMORY, verb_info.TOO_MANY), b''
    found = verdict.of_answer(name, source, form, 'show', said)
    told = verb_info.Info.of(found, verb_info.size_of(source), stream=stream_of(text, source, form.begins, ahead), **told)
    if found.status not in (errors.OK, errors.REFUSED):
        return told, None
    judged = None
    if found.status == errors.OK and checked:        # a check of a file by place reads little of it
        judged = checked.verdict()
        if judged.status not in (errors.OK, errors.REFUSED):
            return told._replace(found=judged), None
    return told, drawn(told, judged, text, read, form.begins, is_wrapped)


def drawn(told: verb_info.Info, judged: 'Optional[verdict.Verdict]', text: bytes, read: sent.Sent, begins: int,
          is_wrapped: bool) -> 'Optional[View]':
    """What the page is drawn from, of a stream that was listed and read."""
    if not told.stream:
        return None
    records = records_of(text)
    if not read.fits(records):
        raise RuntimeError('the places of the records are not those that `show` tells')
    length = placed(records, begins, is_wrapped) - begins
    return View(told, judged, records, frames_of(records, read) if read.is_whole else None, length)


def together(records: 'Records', count: int) -> 'Iterator[Dict[str, Any]]':
    """The records, so many neighbours as one."""
    for at in range(0, len(records), count):
        some = records[at:at + count]
        names = {record['name'] for record in some}
        last = some[-1]
        one = {**some[0], 'together': len(some), 'length': last['offset'] + places.HEAD + last['length'] + -last['length'] % 8 - some[0]['offset']}
        if len(names) > 1:
            one['name'] = SEVERAL
        for name in 'words', 'pages', 'zeros':
            if any(name in record for record in some):
                one[name] = sum(record.get(name, 0) for record in some)
        yield one


def page_of(view: View) -> bytes:
    """The page, in which records and frames are taken together as far as its length asks for it."""
    per = count = 1
    said, is_whole = view.verdict()
    while True:
        drawn = view.facts(per)
        if count > 1:
            drawn['records'] = list(together(view.records, count))
        text = page.page_of(shown(view.told.found.name), said, is_whole, islice(view.lines(), MOST_LINES), drawn)
        if len(text) <= page.MOST_BYTES:
            return text
        per = 2 * drawn['frames']['per'] if drawn['frames'] else per
        count *= 2 if len(drawn['records']) > FEW_RECORDS else 1


def text_of(words: 'Any', view: View) -> bytes:
    """What is written."""
    return json.dumps(view.facts()).encode() + b'\n' if words.json else page_of(view)


def seen(words: 'Any') -> 'Any':
    """What is said of the save, of which PAGE has got its name where it has a page."""
    with sources.source_for(words.input) as source:
        output = Page(words.output, words.force)
        try:
            told, view = read(words.input, source)
            if view:
                write.put(output.fd, text_of(words, view))
                output.place()
        finally:
            output.close()
    return view.judged if view and view.judged else told


def view(words: 'Any') -> int:
    LINE.is_terminal = LINE.is_terminal and words.output != '-'
    said = seen(words)
    found = said.found if isinstance(said, verb_info.Info) else said
    if found.status or found.follows:
        put_lines(list(found.lines())[found.status == errors.OK:], sys.stderr)
    return int(found.status)


def offer(verbs: 'Any') -> None:
    words = verb(verbs, 'view', 'write a page that shows the records, the frames and the rounds of a save', view, VIEW + '\n\n' + INPUT,
                 {errors.REFUSED: 'PAGE has what stands in front of the refused part'})
    words.add_argument('input', metavar='SAVE')
    words.add_argument('-o', '--output', dest='output', metavar='PAGE', default='-', help='write PAGE, and not to standard output')
    writes_over(words)
    in_json(words, 'write the object from which the page is drawn')
