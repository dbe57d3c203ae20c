"""What the configuration in a toolstack's header says of a domain. It comes with the file, so it is read up to a limit, and what
can't be read is told in words.

xl writes the length of the configuration, 4 bytes, and then JSON, or with Xen 4.4 and older the lines of its configuration
file; libvirt writes XML."""
import json
import re
from collections import namedtuple
from xml.parsers import expat

from front import errors, headers

TYPE_CHECKING = False                                # a checker of types takes it for true; typing itself is slow to load
if TYPE_CHECKING:
    from typing import Any, Dict, List, Optional, Set, Tuple

    from front.forms import Header, Source

MOST_BYTES = 1 << 20                                 # of a configuration
MOST_DIGITS, MOST_DEPTH = 15, 64                     # of a number, and of elements in one another
NAME, UUID, MEMORY, MOST_MEMORY, VCPUS, TYPE = (
    'domain/' + path for path in ('name', 'uuid', 'currentMemory', 'memory', 'vcpu', 'os/type'))
WANTED = NAME, UUID, MEMORY, MOST_MEMORY, VCPUS, TYPE
RUNNING = 'domstatus/'                               # of an XML text of libvirt in which the domain stands below
UNITS = {'bytes': 1, 'b': 1, 'KiB': 1 << 10, 'k': 1 << 10, 'MiB': 1 << 20, 'M': 1 << 20, 'GiB': 1 << 30, 'G': 1 << 30}
TYPES = {'linux': 'pv', 'xen': 'pv', 'xenpvh': 'pvh', 'generic': 'pv'}  # as libvirt, and xl's older `builder`, name them
SETTING = re.compile(r'''^[ \t]*([a-z_]+)[ \t]*=[ \t]*(?:"([^"\n]*)"|'([^'\n]*)'|([^\s#;"']+))''', re.MULTILINE)


# What is told of a domain, memory in KiB; None where the configuration doesn't say it.
Domain = namedtuple('Domain', 'name uuid type vcpus max_vcpus memory max_memory')


def of_header(source: 'Source', header: 'Header') -> Domain:
    """The domain of a source's header."""
    if not isinstance(header, headers.XlHeader):
        return of_xml(trimmed(configuration(source, header, headers.LIBVIRT_LENGTH)))
    text = trimmed(behind_length(configuration(source, header, headers.XL_LENGTH))).decode('utf-8', 'surrogateescape')
    return of_json(text) if header.mandatory & headers.JSON else of_settings(text)


def trimmed(data: bytes) -> bytes:
    """A configuration, which has to be there, without the zeros behind it."""
    data = data.rstrip(b'\0')
    if not data:
        raise errors.Unread('there is none')
    return data


def configuration(source: 'Source', header: 'Header', begins: int) -> bytes:
    """The bytes between a header's numbers and the stream."""
    if header.length > MOST_BYTES:
        raise errors.Unread('it has %d bytes, and no more than %d are looked at' % (header.length, MOST_BYTES))
    return source.at(begins, header.length)


def behind_length(data: bytes) -> bytes:
    """What is behind the length that xl writes; all where these 4 bytes are no such length."""
    length = int.from_bytes(data[:4], 'little')
    return data[4:4 + length] if length <= len(data) - 4 else data


def number_of(digits: 'Optional[str]') -> 'Optional[int]':
    """A number of a configuration; None where it is none, or too large for one."""
    return int(digits) if digits and re.fullmatch('[0-9]{1,%d}' % MOST_DIGITS, digits) else None


# ---- JSON, as xl writes it

def of_json(text: str) -> Domain:
    try:
        told = json.loads(text, parse_int=number_of)
    except (ValueError, RecursionError):
        raise errors.Unread("its JSON can't be read") from None
    creation, build = object_in(told, 'c_info'), object_in(told, 'b_info')
    name, uuid, kind = (one if isinstance(one, str) else None for one in map(creation.get, ('name', 'uuid', 'type')))
    most_vcpus, memory, most_memory = (
        one if type(one) is int else None for one in map(build.get, ('max_vcpus', 'target_memkb', 'max_memkb')))
    available = build.get('avail_vcpus')
    return Domain(name, uuid, kind, len(available) if isinstance(available, list) else None, most_vcpus, memory, most_memory)


def object_in(told: 'Any', name: str) -> 'Dict[str, Any]':
    """The object of this name in another; an empty one where there is none."""
    found = told.get(name) if isinstance(told, dict) else None
    return found if isinstance(found, dict) else {}


# ---- settings, as they stand in xl's configuration file

def of_settings(text: str) -> Domain:
    settings = {}  # type: Dict[str, str]
    for name, *values in SETTING.findall(text):
        settings[name] = ''.join(values)
    told = settings.get
    memory, most = number_of(told('memory')), number_of(told('maxmem'))
    return Domain(told('name'), told('uuid'), type_in(settings), number_of(told('vcpus')), number_of(told('maxvcpus')),
                  memory and memory << 10, most and most << 10)


def type_in(settings: 'Dict[str, str]') -> 'Optional[str]':
    if settings.get('pvh') == '1':
        return 'pvh'
    named = settings.get('type', settings.get('builder'))
    return TYPES.get(named or '', named)


# ---- XML, as libvirt writes it

class Elements:
    """The first element of each wanted path, with its attributes and its text. An XML text that declares anything isn't read: what
    it declares could make it larger than any memory."""

    def __init__(self) -> None:
        self.path = []  # type: List[str]
        self.found = {}  # type: Dict[str, Tuple[Dict[str, str], List[str]]]
        self.ended = set()  # type: Set[str]
        self.parser = expat.ParserCreate('UTF-8')
        self.parser.StartElementHandler, self.parser.EndElementHandler = self.begin, self.end
        self.parser.CharacterDataHandler = self.text
        self.parser.StartDoctypeDeclHandler = self.parser.EntityDeclHandler = self.declared

    def declared(self, *_: object) -> None:
        raise errors.Unread("its XML has a document type, which libvirt doesn't write")

    def begin(self, name: str, attributes: 'Dict[str, str]') -> None:
        if len(self.path) == MOST_DEPTH:
            raise errors.Unread('its XML has more than %d elements in one another' % MOST_DEPTH)
        self.path.append(name)
        path = self.here()
        if path in WANTED and path not in self.found:
            self.found[path] = attributes, []

    def here(self) -> str:
        path = '/'.join(self.path)
        return path[len(RUNNING):] if path.startswith(RUNNING) else path

    def text(self, text: str) -> None:
        path = self.here()
        if path in self.found and path not in self.ended:
            self.found[path][1].append(text)

    def end(self, _: str) -> None:
        self.ended.add(self.here())
        self.path.pop()

    def of(self, path: str) -> 'Tuple[Dict[str, str], Optional[str]]':
        """The attributes and the text of an element; none where it isn't there."""
        attributes, texts = self.found.get(path, ({}, []))
        return attributes, ''.join(texts).strip() or None


def of_xml(data: bytes) -> Domain:
    elements = Elements()
    try:
        elements.parser.Parse(data, True)
    except expat.ExpatError:
        raise errors.Unread("its XML can't be read") from None
    (_, name), (_, uuid), (_, kind), (attributes, vcpus) = map(elements.of, (NAME, UUID, TYPE, VCPUS))
    most = number_of(vcpus)
    current = number_of(attributes.get('current'))
    return Domain(name, uuid, TYPES.get(kind or '', kind), most if current is None else current, most,
                  memory_of(*elements.of(MEMORY)), memory_of(*elements.of(MOST_MEMORY)))


def memory_of(attributes: 'Dict[str, str]', text: 'Optional[str]') -> 'Optional[int]':
    """An amount of memory in KiB."""
    number, unit = number_of(text), UNITS.get(attributes.get('unit', 'KiB'))
    return number * unit >> 10 if number is not None and unit else None
