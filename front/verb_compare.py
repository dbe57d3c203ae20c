"""`mig compare`: whether two saves are of the same guest state, told by their canonical streams as they come. Nothing is
written to a disk."""
import os.path
import struct
import sys

from front import errors, forms, places, program, sources, verdict
from front.progress import LINE
from front.text import put_lines, tell
from front.words import INPUT, in_json, unpacks, verb

TYPE_CHECKING = False                                # a checker of types takes it for true; typing itself is slow to load
if TYPE_CHECKING:
    from typing import Any, Dict, List, Optional, Sequence, Tuple

PAGE_DATA = 1
SAME_STATE, ANOTHER_STATE = 'same state', 'another state'  # results
RECORDS = {0: 'END', PAGE_DATA: 'PAGE_DATA', 2: 'X86_PV_INFO', 3: 'X86_PV_P2M_FRAMES', 4: 'X86_PV_VCPU_BASIC',
           5: 'X86_PV_VCPU_EXTENDED', 6: 'X86_PV_VCPU_XSAVE', 7: 'SHARED_INFO', 8: 'X86_TSC_INFO', 9: 'HVM_CONTEXT',
           10: 'HVM_PARAMS', 12: 'X86_PV_VCPU_MSRS', 16: 'STATIC_DATA_END', 17: 'X86_CPUID_POLICY',
           18: 'X86_MSR_POLICY'}
LIBXL_RECORDS = {0: 'END', places.LIBXC_CONTEXT: 'LIBXC_CONTEXT', 2: 'EMULATOR_XENSTORE_DATA', 3: 'EMULATOR_CONTEXT'}


class Side:
    """One of the two saves: the program at work on it, and what it has written so far."""

    def __init__(self, name: str, path: str, folder: 'Optional[str]') -> None:
        self.name, self.place = name, 0
        self.work = None  # type: Any              # the program, where it takes this form
        self.source = sources.source_of(name)
        self.form = forms.form_of(self.source)
        self.found = verdict.without_program(name, self.form)
        if not self.found:
            sources.unpack_to(self.source, folder)
            self.command = 'convert' if self.form.kind == forms.LEGACY else 'normalise'
            self.work = program.Work(path, [self.command], self.source, self.form.begins, program.PIPE)

    def read(self, count: int) -> bytes:
        data = sources.read_upto(self.work.out, count)
        if len(data) < count:
            raise errors.Ended(self)
        self.place += count
        return data

    def end(self, by_itself: bool) -> 'Optional[verdict.Verdict]':
        """Its verdict where the program ends by itself; where it is stopped, None."""
        if not self.work:
            self.source.close()
            return self.found
        if not by_itself:
            self.work.kill()
        said = self.work.end(by_itself)
        if by_itself:
            try:
                self.found = verdict.of_answer(self.name, self.source, self.form, self.command, said)
            except errors.Unreadable as unreadable:
                self.found = verdict.fault(self.name, str(unreadable))
        self.source.close()
        return self.found


def both(one: Side, two: Side, count: int, what: str) -> bytes:
    """The next bytes of both, which have to be the same."""
    begins = one.place
    a, b = one.read(count), two.read(count)
    if a != b:
        raise errors.Difference('they differ first at byte %d of the canonical streams, in %s'
                         % (begins + len(os.path.commonprefix([a, b])), what))
    return a


def next_record(one: Side, two: Side, names: 'Dict[int, str]', what: str) -> 'Tuple[int, int, str]':
    """The type and the length of the next record of both, which have to be the same."""
    (a, length), (b, other) = (struct.unpack('<II', side.read(places.HEAD)) for side in (one, two))
    if a != b:
        raise errors.Difference('they differ first in %s, which is %s in one and %s in the other'
                         % (what, *(names.get(kind, 'type %d' % kind) for kind in (a, b))))
    what += ', ' + names.get(a, 'type %d' % a)
    if length != other:
        raise errors.Difference('they differ first in %s, which has %d bytes in one and %d in the other' % (what, length, other))
    return a, length, what


def page_data(one: Side, two: Side, length: int, what: str) -> None:
    """A PAGE_DATA record, so that a page can be named by its frame."""
    count, = struct.unpack('<I4x', both(one, two, 8, what))
    words = struct.unpack('<%dQ' % count, both(one, two, 8 * count, what + ', with other frames, or of other types'))
    left = length - 8 - 8 * count
    for word in words:
        if word >> 60 in places.WITH_A_PAGE:
            left -= len(both(one, two, 4096, 'the page of frame %d' % (word & (1 << 52) - 1)))
    both(one, two, left + -length % 8, what)


def body(one: Side, two: Side, length: int, what: str) -> None:
    left = length + -length % 8
    while left:
        left -= len(both(one, two, min(left, sources.BLOCK), what))


def records(one: Side, two: Side, names: 'Dict[int, str]', layer: str) -> None:
    """The records of both streams from here on, up to END. The image behind LIBXC_CONTEXT is one of them."""
    index, kind = 0, None  # type: int, Optional[int]
    while kind != places.END:
        kind, length, what = next_record(one, two, names, 'record %d of the %s' % (index, layer))
        if kind == places.LIBXC_CONTEXT and names is LIBXL_RECORDS:
            both(one, two, places.IMAGE_HEADERS, 'the headers')
            records(one, two, RECORDS, 'image')
        elif kind == PAGE_DATA:
            page_data(one, two, length, what)
        else:
            body(one, two, length, what)
        index += 1


def walk(one: Side, two: Side) -> None:
    """Compares two canonical streams."""
    a, b = one.read(places.HEAD), two.read(places.HEAD)
    if a != b:
        raise errors.Difference('one has a device model, the other none')
    if a == forms.LIBXL_MAGIC:
        both(one, two, places.LIBXL_HEADER - places.HEAD, 'the headers')
        records(one, two, LIBXL_RECORDS, 'libxl stream')
    else:
        both(one, two, places.IMAGE_HEADERS - places.HEAD, 'the headers')
        records(one, two, RECORDS, 'image')


def tell_refused(refused: verdict.Verdict, in_json: bool) -> None:
    """Says of a save why it wasn't compared."""
    if in_json:
        verdict.put_object('compare', refused)
    else:
        put_lines(refused.lines(), sys.stderr)


def tell_ends(sides: 'Sequence[Side]', in_json: bool, by_themselves: 'Sequence[Side]' = ()) -> int:
    """Ends all sides, and says what the program said of one that wasn't accepted. Answers the greatest status."""
    found = [side.end(side in by_themselves) for side in sides]
    refused = [one for one in found if one and one.status != errors.OK]
    for one in refused:
        tell_refused(one, in_json)
    return max((one.status for one in refused), default=errors.OK)


def tell_result(words: 'Any', result: str, status: int, line: str) -> int:
    """Says what two saves came to, and answers the status."""
    if words.json:
        found = verdict.Verdict.of(words.one, result, status, line)
        verdict.put_object('compare', found, verdict.of_name(words.two, 'with'))
    else:
        put_lines([line], sys.stdout)
    return status


def not_compared(status: int) -> int:
    """What is answered where one of the saves has no canonical stream."""
    return errors.NOT_COMPARED if status in (errors.OK, errors.REFUSED) else status


def compare(words: 'Any') -> int:
    if words.one == words.two == '-':
        tell('A and B are both standard input')
        return errors.USAGE
    path = program.find()
    program.RUNNING.of_thread.most = program.RUNNING.memory // 2  # both guests are in memory at once
    sides = []  # type: List[Side]
    LINE.begin('comparing', [words.one, words.two])
    LINE.files = 1                                   # both are read at once
    try:
        for name in words.one, words.two:
            sides.append(Side(name, path, words.unpack_to))
    except errors.Unreadable as unreadable:
        tell_ends(sides, words.json)
        tell_refused(verdict.fault(name, str(unreadable)), words.json)
        return errors.READ_FAULT
    if any(side.work is None for side in sides):
        return not_compared(tell_ends(sides, words.json))
    try:
        walk(*sides)
    except errors.Difference as difference:
        tell_ends(sides, words.json)
        return tell_result(words, ANOTHER_STATE, errors.REFUSED, 'another guest state: %s' % difference)
    except errors.Ended as ended:
        return not_compared(tell_ends(sides, words.json, ended.args))
    status = tell_ends(sides, words.json, sides)
    return status or tell_result(words, SAME_STATE, errors.OK, 'the same guest state')


def offer(verbs: 'Any') -> None:
    words = verb(verbs, 'compare', 'say whether two saves are of the same guest state', compare, INPUT,
                 {errors.OK: 'the same guest state', errors.REFUSED: 'another guest state',
                  errors.NOT_COMPARED: 'a file was refused, so nothing was compared'})
    words.add_argument('one', metavar='A')
    words.add_argument('two', metavar='B')
    unpacks(words)
    in_json(words, 'print one JSON object, or one for each save that was refused')
