"""Which form a file has, told by its first bytes."""
import struct
from collections import namedtuple

from front import errors, headers

TYPE_CHECKING = False                                # a checker of types takes it for true; typing itself is slow to load
if TYPE_CHECKING:
    from typing import Callable, Optional, Protocol, Tuple, Union

    Header = Union[headers.XlHeader, headers.LibvirtHeader]

    class Source(Protocol):
        """What the bytes of a file are looked at by: front/sources.py has several."""

        def at(self, offset: int, count: int) -> bytes:
            ...

        def length_to(self, offset: int) -> int:
            ...

STREAM, LEGACY, IMAGE, BROKEN, NONE = 'stream', 'legacy', 'image', 'broken', 'none'
LIBXL_MAGIC, LIBXC_MAGIC = b'LibxlFmt', b'\xff' * 8
IMAGE_WORDS = 'guest image'
IMAGE_MAGICS = b'XGIMAGE1', b'XGIMAGE2'               # of guest images of version 1 and 2
LOOK = 512                                           # so many first bytes are looked at

# What packs a file, by its first bytes, and the program that unpacks it to standard output.
PACKERS = {b'\x1f\x8b': 'gzip', b'\x28\xb5\x2f\xfd': 'zstd', b'\xfd7zXZ\0': 'xz',
           b'\x50\x2a\x4d\x18': 'zstd'}             # a frame that is skipped, which pzstd writes first

# Other files, by their first bytes.
OTHERS = (
    *((magic, name + ', which is to be unpacked first') for magic, name in PACKERS.items()),
    (b'\x7fELF', 'ELF, a program or a library'),
    (b'QFI\xfb', 'qcow2, a disk image'),
    (b'PK\3\4', 'zip, an archive'),
    (b'BZh', 'bzip2, which is to be unpacked first'),
    (b'\x04\x22\x4d\x18', 'lz4, which is to be unpacked first'),
    (b'XenSavedDom', "XAPI's header: the stream is to be cut out by hand"),
    (b'LinuxGuestRecord', 'a save of Xen 2 or 3.0, which is not read'),
)


# What a file is: its kind, that in words, where the stream in it begins, the header of a toolstack before it, and of a file
# that no command takes why.
Form = namedtuple('Form', 'kind words begins header why')


def found(kind: str, words: 'Optional[str]', begins: int = 0, header: 'Optional[Header]' = None, why: str = '') -> Form:
    """The form of a file. (python3.6 knows no defaults of a namedtuple.)"""
    return Form(kind, words, begins, header, why)


def packer_of(front: bytes) -> 'Optional[str]':
    """The program that packed a file with these first bytes, or None."""
    return next((name for magic, name in PACKERS.items() if front.startswith(magic)), None)


def starts_like(front: bytes, magic: bytes) -> bool:
    """Whether these are the first bytes of something that begins so; at least half of the magic has to be there."""
    return front.startswith(magic) or len(front) >= len(magic) // 2 and magic.startswith(front)


def is_like_legacy(front: bytes) -> bool:
    """Whether a file may be a legacy stream, whose form has no magic: a number of frame numbers of 8 bytes that is below 2^32,
    and a chunk's type. Where the number is 0, which is ignored too, another chunk than the last one has to follow."""
    if len(front) < 12:
        return False
    count, chunk = struct.unpack('<Qi', front[:12])
    return bool(count < 1 << 32 and -20 <= chunk <= 1024 and (count or chunk) != 0)


def is_text(front: bytes) -> bool:
    try:
        text = front.decode('utf-8', 'strict' if len(front) < LOOK else 'ignore')
    except UnicodeDecodeError:
        return False
    return all(letter.isprintable() or letter in '\t\n\r\f' for letter in text)


def looks_like(front: bytes) -> str:
    """In words, what a file is that is no save."""
    if not front:
        return 'empty'
    for magic, words in OTHERS:
        if front.startswith(magic):
            return 'begins with ' + words
    if front[257:262] == b'ustar':
        return 'begins with tar, an archive'
    if not any(front):
        return 'begins with %d zero bytes' % len(front)
    if is_text(front):
        return 'begins with text: %s' % ascii(front.decode('utf-8', 'ignore').strip().partition('\n')[0].rstrip()[:24])
    return 'begins with the bytes %s' % ' '.join('%02x' % byte for byte in front[:8])


def bare_form(front: bytes, begins: int, before: str = '') -> 'Optional[Form]':
    """The form of what begins with these bytes, behind a header or by itself."""
    if starts_like(front, LIBXL_MAGIC):
        return found(STREAM, before + 'libxl stream', begins)
    if starts_like(front, LIBXC_MAGIC):
        return found(STREAM, before + 'libxc image', begins)
    return None


def headed_form(name: str, header: 'Header', source: 'Source') -> Form:
    """The form of a file with a toolstack's header: what is behind the header is that which it says."""
    there = source.at(header.stream_begins, 8)
    if not there and source.length_to(header.stream_begins) < header.stream_begins:
        length = source.length_to(header.stream_begins) - (header.stream_begins - header.length)
        raise headers.configuration_cut(length, header.length)
    if header.is_legacy:
        return found(LEGACY, name + ' of Xen 4.5 or older, legacy stream', header.stream_begins, header)
    bare = bare_form(there, header.stream_begins, name + ', ') or found(STREAM, name + ', unknown stream', header.stream_begins)
    return bare._replace(header=header)


HEADERS = (
    (headers.XL_MAGIC, 'xl save', headers.xl_header),
    (headers.LIBVIRT_MAGIC, 'libvirt save', headers.libvirt_header),
)  # type: Tuple[Tuple[bytes, str, Callable[[bytes], Header]], ...]


def form_of(source: 'Source') -> Form:
    """Which form a source has. It gives its bytes by `at(offset, count)`, fewer where it ends before."""
    front = source.at(0, LOOK)
    for magic, words, read in HEADERS:
        if starts_like(front, magic):
            try:
                return headed_form(words, read(front), source)
            except errors.BadHeader as bad:
                return found(BROKEN, words, why=str(bad))
    if any(starts_like(front, magic) for magic in IMAGE_MAGICS):
        return found(IMAGE, IMAGE_WORDS)
    if is_like_legacy(front):
        return found(LEGACY, 'legacy stream')
    return bare_form(front, 0) or found(NONE, 'no save', why=looks_like(front))
