"""`mig walk`: which frame an address means to a vCPU, in a save by its PFN and in a guest image by its machine frame."""
import re
import sys

from front import errors, forms, program, verdict
from front.text import put_lines
from front.words import address, in_json, number, verb

TYPE_CHECKING = False                                # a checker of types takes it for true; typing itself is slow to load
if TYPE_CHECKING:
    from typing import Any, Dict, Iterator

WALK = """\
IN is a save, as `mig check` takes it, or a guest image, as `mig restore` writes it. Of a save the frame is named by its number
(PFN), of an image by its machine frame. VCPU is a number from 0 to 4095, ADDRESS one to base 16, with or without 0x. HVM guests
have no vCPU whose page tables a save tells."""
FOUND = re.compile(r'ok frame (\d+) type (\d+)')
TYPES = {0: 'NOTAB', 13: 'BROKEN', 14: 'XALLOC', **{level: 'L%dTAB' % level for level in (1, 2, 3, 4)},
         **{8 + level: 'L%dTAB, pinned' % level for level in (1, 2, 3, 4)}}
PAGE = 4096                                          # bytes of a page
OLD = 'not judged: an old save is of an HVM guest, whose vCPUs no save tells'


def frame_of(found: verdict.Verdict, address: int) -> 'Dict[str, Any]':
    """What the numbers of a verdict say, where the address means a frame: the byte of its page, which frame it is, and its type."""
    said = FOUND.fullmatch(found.line)
    if not said:
        return {}
    is_image = found.form is not None and found.form.endswith(forms.IMAGE_WORDS)
    return {'byte': address % PAGE, 'machine_frame' if is_image else 'pfn': int(said[1]), 'type': TYPES.get(int(said[2]), said[2])}


def told(found: verdict.Verdict, address: int) -> 'Iterator[str]':
    """What is printed of a verdict: its lines and what its numbers say."""
    yield from found.lines()
    frame = frame_of(found, address)
    if frame:
        which = 'PFN %d' % frame['pfn'] if 'pfn' in frame else 'machine frame %d' % frame['machine_frame']
        yield '    byte %d of the page of %s (%s)' % (frame['byte'], which, frame['type'])


def walked(words: 'Any', path: str, source: 'Any') -> verdict.Verdict:
    """The verdict of a file in which an address is looked up."""
    form = forms.form_of(source)
    if form.kind == forms.LEGACY:
        return verdict.Verdict.of(words.input, verdict.NOT_JUDGED, errors.REFUSED, OLD, form.words)
    early = None if form.kind == forms.IMAGE else verdict.without_program(words.input, form)
    command = 'walkimage' if form.kind == forms.IMAGE else 'walk'
    return early or verdict.of_answer(words.input, source, form, command,
                                      program.run(path, [command, '%d' % words.vcpu, '%x' % words.address], source, form.begins))


def walk(words: 'Any') -> int:
    found = verdict.of_one(words.input, lambda source: walked(words, program.find(), source), words.json)
    if words.json:
        verdict.put_object(words.verb, found, {'vcpu': words.vcpu, 'address': '%x' % words.address, **frame_of(found, words.address)})
    else:
        put_lines(told(found, words.address), sys.stdout)
    return int(found.status)


def offer(verbs: 'Any') -> None:
    words = verb(verbs, 'walk', 'say which frame an address means to a vCPU', walk, WALK, {errors.REFUSED: 'the address means no frame'})
    words.add_argument('input', metavar='IN')
    words.add_argument('vcpu', metavar='VCPU', type=number(0, 4095))
    words.add_argument('address', metavar='ADDRESS', type=address)
    in_json(words)
