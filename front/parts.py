"""What the list of a stream's records comes to, as the program's `show` writes it. Where a record lies follows from the lengths
in that list. So only a few numbers of 4 bytes are read of the stream itself: which Xen wrote it, and whose state some records
have."""
import json
import re
import struct

from front import places

TYPE_CHECKING = False                                # a checker of types takes it for true; typing itself is slow to load
if TYPE_CHECKING:
    from typing import Any, Dict, List, Optional, Tuple, Union

    Numbers = List[Tuple[str, int, Tuple[int, ...]]]  # of records: name, length of the body, the first two numbers in it

RECORD = re.compile(rb'\{[^{}]*\}')
MOST_LOOKED = 1 << 13                                # records of vCPUs and emulators whose numbers are read
XEN_PLACE = 32                                       # of the two numbers of Xen's version in the headers of an image
NUMBERS = struct.Struct('<II')
EMULATORS = {0: 'unknown emulator', 1: 'qemu traditional', 2: 'qemu upstream'}
STORE, CONTEXT, VCPU = 'EMULATOR_XENSTORE_DATA', 'EMULATOR_CONTEXT', 'X86_PV_VCPU_BASIC'


class Parts:
    """What is counted in the records of a stream that begins at a place of its file."""

    def __init__(self, begins: int, is_wrapped: bool) -> None:
        self.records = self.sent = self.pages = self.parameters = 0
        self.counts, self.looked = {}, []  # type: Dict[str, int], List[Tuple[str, int, int]]
        self.p2m_frames = None  # type: Optional[int]
        self.image = None if is_wrapped else begins
        self.place = begins + (places.LIBXL_HEADER if is_wrapped else places.IMAGE_HEADERS)

    def add(self, record: 'Dict[str, Any]') -> None:
        name, length = record['name'], record['length']
        self.records += 1
        self.counts[name] = self.counts.get(name, 0) + 1
        self.sent += record.get('words', 0)
        self.pages += record.get('pages', 0)
        if name == 'HVM_PARAMS':
            self.parameters += max(length - 8, 0) // 16
        if name == 'X86_PV_P2M_FRAMES':
            self.p2m_frames = max(length - 8, 0) // 8
        if name in (STORE, CONTEXT, VCPU) and len(self.looked) <= MOST_LOOKED:
            self.looked.append((name, length, self.place + places.HEAD))
        self.place += places.HEAD + length + -length % 8
        if name == 'LIBXC_CONTEXT':
            self.image = self.place
            self.place += places.IMAGE_HEADERS

    def numbers(self, source: 'Any') -> 'Optional[Numbers]':
        """Of each record of a vCPU or an emulator its name, its length and its first two numbers; None where they can't be read."""
        if not source.is_walkable or len(self.looked) > MOST_LOOKED:
            return None
        if not self.looked:
            return []
        found, cursor = [], source.cursor(0)  # type: Numbers, Any
        for name, length, place in self.looked:
            cursor.skip(place - cursor.place)
            data = cursor.read(NUMBERS.size)
            if len(data) < NUMBERS.size:             # the file was changed meanwhile
                return None
            found.append((name, length, NUMBERS.unpack(data)))
        return found


def tree_of(text: bytes) -> 'Tuple[Any, Union[bytes, memoryview]]':
    """What `show` writes, without its records, and the text of these; None where it wrote no whole line."""
    if not text.endswith(b'\n'):
        return None, b''
    begins, ends = text.index(b'[') + 1, text.rindex(b']')
    return json.loads((text[:begins] + text[ends:]).decode()), memoryview(text)[begins:ends]


def xen_of(ahead: bytes, place: int) -> 'Optional[str]':
    """Which Xen wrote an image at this place of a stream whose first bytes these are."""
    numbers = ahead[place + XEN_PLACE:place + XEN_PLACE + NUMBERS.size]
    return '%d.%d' % NUMBERS.unpack(numbers) if len(numbers) == NUMBERS.size else None


def emulators_of(numbers: 'Numbers') -> 'List[Dict[str, Any]]':
    """Each emulator, by its id and its index, with the bytes of its state."""
    found = {}  # type: Dict[Tuple[int, ...], Dict[str, Any]]
    for name, length, key in numbers:
        if name != VCPU:
            one = found.setdefault(key, {'id': key[0], 'index': key[1], 'name': EMULATORS.get(key[0], EMULATORS[0])})
            field = 'context' if name == CONTEXT else 'xenstore'
            one[field] = length - NUMBERS.size + (one.get(field, 0) if name == STORE else 0)
    return list(found.values())


def stream_of(text: bytes, source: 'Any', begins: int, ahead: bytes) -> 'Optional[Dict[str, Any]]':
    """What `show` wrote of a stream that begins at a place of its source with these bytes, as an object; None where it lists nothing."""
    tree, records = tree_of(text)
    if not tree:
        return None
    parts = Parts(begins, tree['wrapper'])
    for record in RECORD.finditer(records):
        parts.add(json.loads(record[0].decode()))
    if tree['version'] is None and not parts.records:
        return None
    stream = {'version': tree['version'], 'kind': tree['kind'], 'wrapper': tree['wrapper'], 'records': parts.records,
              'frames_sent': parts.sent, 'pages': parts.pages, 'counts': parts.counts, 'verify': 'VERIFY' in parts.counts}
    if tree['kind'] and parts.image is not None:
        stream['xen'] = xen_of(ahead, parts.image - begins)
    if 'HVM_PARAMS' in parts.counts:
        stream['parameters'] = parts.parameters
    stream['p2m_frames'] = parts.p2m_frames
    numbers = parts.numbers(source)
    if VCPU in parts.counts:
        stream['vcpus'] = None if numbers is None else len({key[0] for name, _, key in numbers if name == VCPU})
    if {STORE, CONTEXT} & set(parts.counts):
        stream['emulators'] = None if numbers is None else emulators_of(numbers)
    return {name: value for name, value in stream.items() if value is not None}
