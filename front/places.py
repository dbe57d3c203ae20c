"""Where a part of an input lies in its bytes: the heads of records, or of chunks, are walked, and nothing is judged."""
import struct

from front import errors, forms

TYPE_CHECKING = False                                # a checker of types takes it for true; typing itself is slow to load
if TYPE_CHECKING:
    from typing import Any, Iterator, List, Optional, Tuple

    from front.sources import Cursor, Source
    Places = Iterator[Tuple[int, Optional[int]]]     # of parts, with their types where they have some

LIBXC_CONTEXT, END = 1, 0
MOST_PARTS, MOST_FRAMES = 1 << 22, 1 << 24           # no place is told behind so many
IMAGE_HEADERS, LIBXL_HEADER, HEAD = 40, 16, 8
SIGNATURE = b'DeviceModelRecord0002'
PARAMETERS = -3, -4, -8, -10, -11, -14, -15, -16, -17, -19, -20
WITH_A_PAGE = 0, 1, 2, 3, 4, 9, 10, 11, 12
FILE_HEAD, PART_HEAD, PAGE = 32, 16, 4096            # of a guest image: its head, that of a frame or a part, a page


def number_at(cursor: 'Cursor', kind: str) -> int:
    data = cursor.read(struct.calcsize(kind))
    if len(data) < struct.calcsize(kind):
        raise errors.Lost
    return int(struct.unpack(kind, data)[0])


# ---- records of an image and of a libxl stream

def records(cursor: 'Cursor') -> 'Places':
    """Of each record from here on: where its head begins, and its type. It ends behind END's."""
    for _ in range(MOST_PARTS):
        begins = cursor.place
        head = cursor.read(HEAD)
        if len(head) < HEAD:
            yield begins, None
            return
        kind, length = struct.unpack('<II', head)
        yield begins, kind
        if kind == END:
            return
        if cursor.place == begins + HEAD:            # no image was walked meanwhile
            cursor.skip(length + -length % 8)


def nth(parts: 'Places', number: int) -> 'Optional[int]':
    """Where part n begins, or None."""
    for index, (begins, _) in enumerate(parts):
        if index == number:
            return begins
    return None


def is_libxl(source: 'Source', begins: int) -> bool:
    return source.at(begins, len(forms.LIBXL_MAGIC)) == forms.LIBXL_MAGIC


def image_begins(source: 'Any', begins: int) -> int:
    """Where the image of a stream of either form begins."""
    if not is_libxl(source, begins):
        return begins
    cursor = source.cursor(begins)
    cursor.skip(LIBXL_HEADER)
    for _, kind in records(cursor):
        if kind == LIBXC_CONTEXT:
            return int(cursor.place)
    raise errors.Lost


def libxl_records(cursor: 'Cursor') -> 'Places':
    """Of each record of a libxl stream, its place; the image behind LIBXC_CONTEXT is walked over."""
    cursor.skip(LIBXL_HEADER)
    for begins, kind in records(cursor):
        yield begins, kind
        if kind == LIBXC_CONTEXT:
            cursor.skip(IMAGE_HEADERS)
            for _, inner in records(cursor):
                if inner is None:
                    return


def stream_place(source: 'Any', begins: int, words: 'List[str]') -> 'Optional[int]':
    if words[0] == 'LibxlHeader':
        return begins
    if words[0] == 'LibxlRecord':
        return nth(libxl_records(source.cursor(begins)), int(words[1]))
    image = image_begins(source, begins)
    if words[0] == 'ImageHeader':
        return image
    if words[0] == 'DomainHeader':
        return image + 24
    cursor = source.cursor(image)
    cursor.skip(IMAGE_HEADERS)
    return nth(records(cursor), int(words[1]))


# ---- the chunks and the tail of a legacy stream

def skip_chunk(cursor: 'Cursor', kind: int) -> None:
    """Goes to the next chunk, behind the type of one."""
    if 1 <= kind <= 1024:
        words = struct.unpack('<%dQ' % kind, cursor.read(8 * kind).ljust(8 * kind, b'\0'))
        cursor.skip(4096 * sum((word >> 28 & 15) in WITH_A_PAGE for word in words))
    elif kind in PARAMETERS:
        cursor.skip(12)
    elif kind == -2:
        cursor.skip(8 * (number_at(cursor, '<I') // 64 + 1))
    elif kind == -7:
        cursor.skip(20)
    elif kind == -18:
        cursor.skip(number_at(cursor, '<I'))
    elif kind != -9:
        raise errors.Lost


def chunks(cursor: 'Cursor') -> 'Places':
    """Of each chunk from here on: where it begins, and its type. It ends behind the type 0."""
    for _ in range(MOST_PARTS):
        begins = cursor.place
        data = cursor.read(4)
        if len(data) < 4:
            yield begins, None
            return
        kind = int.from_bytes(data, 'little', signed=True)
        yield begins, kind
        if not kind:
            return
        skip_chunk(cursor, kind)


def tail_begins(cursor: 'Cursor') -> int:
    """Goes on from the first chunk to the tail."""
    kind = None
    for _, kind in chunks(cursor):
        pass
    if kind != END:
        raise errors.Lost
    return cursor.place


def context_end(cursor: 'Cursor') -> int:
    """Goes on from the tail to the end of its context."""
    cursor.skip(24)
    cursor.skip(number_at(cursor, '<I'))
    return cursor.place


def legacy_place(source: 'Any', begins: int, words: 'List[str]') -> 'Optional[int]':
    if words[0] == 'Start':
        return begins
    cursor = source.cursor(begins)
    cursor.skip(8)
    if words[0] == 'Chunk':
        return nth(chunks(cursor), int(words[1]))
    tail = tail_begins(cursor)
    return tail if words[0] == 'Tail' else context_end(cursor)


# ---- the frames and the parts of a guest image

def is_page_sent(word: int, is_newer: bool) -> bool:
    """Whether a page is behind a frame with this word. In version 2 bit 52 says that the page is left out."""
    return word >> 60 in WITH_A_PAGE and not word >> 52 & 1 if is_newer else word >> 28 & 15 in WITH_A_PAGE


def file_frames(cursor: 'Cursor') -> 'Places':
    """Of each frame of a guest image, where it begins. It ends where the parts begin."""
    is_newer = cursor.read(8) == forms.IMAGE_MAGICS[1]
    cursor.skip(FILE_HEAD - 16)
    for _ in range(min(number_at(cursor, '<Q'), MOST_FRAMES)):
        yield cursor.place, None
        word = number_at(cursor, '<Q')
        cursor.skip(PART_HEAD - 8 + PAGE * is_page_sent(word, is_newer))


def file_parts(cursor: 'Cursor') -> 'Places':
    """Of each part behind the frames, where it begins."""
    for _ in range(min(number_at(cursor, '<Q'), MOST_PARTS)):
        yield cursor.place, None
        cursor.skip(PART_HEAD - 4)
        length = number_at(cursor, '<I')
        cursor.skip(length + -length % 8)


def image_file_place(source: 'Any', begins: int, words: 'List[str]') -> 'Optional[int]':
    if words[0] == 'Head':
        return begins
    cursor = source.cursor(begins)
    if words[0] == 'Frame':
        return nth(file_frames(cursor), int(words[1]))
    for _ in file_frames(cursor):
        pass
    return cursor.place if words[0] == 'Parts' else nth(file_parts(cursor), int(words[1]))


# ---- what others ask

OF_COMMAND = {'convert': legacy_place, 'save': image_file_place, 'walkimage': image_file_place}
NO_PLACES = 'Script', 'Pause', 'Host', 'Walk'        # what refuses a save or a walk and is no place in its input


def place_of(source: 'Any', begins: int, command: str, place: str) -> 'Optional[int]':
    """The byte where a place of a refusal begins, counted from the begin of the file; None where it can't be told."""
    if not source.is_walkable or place.split()[0] in NO_PLACES:
        return None
    try:
        return OF_COMMAND.get(command, stream_place)(source, begins, place.split())
    except (errors.Lost, IndexError):                # a part without the number that it has to have is no place
        return None


def end_of(source: 'Any', form: forms.Form) -> 'Optional[int]':
    """Where the accepted stream of a plain file ends; None where it can't be told without unpacking it once more."""
    if source.packed or not source.is_walkable:
        return None
    try:
        return legacy_end(source.cursor(form.begins)) if form.kind == forms.LEGACY else stream_end(source, form.begins)
    except errors.Lost:
        return None


def stream_end(source: 'Any', begins: int) -> 'Optional[int]':
    cursor = source.cursor(begins)
    if is_libxl(source, begins):
        parts = libxl_records(cursor)
    else:
        cursor.skip(IMAGE_HEADERS)
        parts = records(cursor)
    kind = None
    for _, kind in parts:
        pass
    return cursor.place if kind == END else None


def legacy_end(cursor: 'Cursor') -> int:
    cursor.skip(8)
    tail_begins(cursor)
    context = context_end(cursor)
    if cursor.read(len(SIGNATURE)) != SIGNATURE:
        return context
    cursor.skip(number_at(cursor, '<I'))
    return cursor.place
