"""What a stream sent: of each PAGE_DATA its words, and which of its pages are zeros. It is read once, while the program's `show`
judges it, so heads of records are followed here before `show` has listed them. Whether each lies where the lengths of `show` put
it is looked at afterwards (`Sent.fits`). No byte of a page is kept."""
import os
import struct
import threading
from array import array

from front import errors, places, program, sources
from front.zeros import MOST_PAGES, PAGE, PAGES_AT_ONCE, Readers, zeros_in

TYPE_CHECKING = False                                # a checker of types takes it for true; typing itself is slow to load
if TYPE_CHECKING:
    from typing import Any, Callable, Dict, List, Optional, Tuple

PAGE_DATA = 1                                        # a type of record in an image
WORD, COUNT = 8, 8                                   # bytes of a word, and of the number of words with what is reserved
MOST_BODY = 1 << 27                                  # bytes of a body; `show` refuses a longer one
MOST_ENTRIES = MOST_PAGES                            # frame numbers that are kept, 9 bytes each
MOST_RECORDS = 1 << 17                               # that are listed


class Sent:
    """The records of a stream as their heads say, with the words and the pages of zeros of those that have some. Pages that can be read at
    any place are read by `readers`, up to `end`."""

    def __init__(self, cursor: 'sources.Cursor', is_wrapped: bool, readers: 'Optional[Readers]') -> None:
        self.cursor, self.readers = cursor, readers
        self.asked = {}  # type: Dict[int, Tuple[int, int]]
        self.lengths, self.words, self.zeros = array('I'), {}, {}  # type: array[int], Dict[int, bytes], Dict[int, bytes]
        self.entries, self.is_whole = 0, True        # of the words that are kept, and whether all are
        try:
            self.wrapper() if is_wrapped else self.image()
        except errors.Lost:                          # `show` tells why
            pass

    def end(self) -> None:
        """Waits until all pages are read."""
        if self.readers:
            self.readers.end()
            self.zeros = {number: self.readers.found(*run) for number, run in self.asked.items()}

    def wrapper(self) -> None:
        """Goes over a libxl stream."""
        self.cursor.skip(places.LIBXL_HEADER)
        while True:
            kind, length = self.head()
            self.cursor.skip(length + -length % 8)
            if kind == places.END:
                return
            if kind == places.LIBXC_CONTEXT:
                self.image()

    def image(self) -> None:
        """Goes over an image."""
        self.cursor.skip(places.IMAGE_HEADERS)
        while True:
            kind, length = self.head()
            if kind == PAGE_DATA and length >= COUNT:
                self.page_data(length)
            else:
                self.cursor.skip(length + -length % 8)
            if kind == places.END:
                return

    def head(self) -> 'List[int]':
        """The type of the next record, and the length of its body."""
        data = self.cursor.read(places.HEAD)
        if len(data) < places.HEAD or len(self.lengths) >= MOST_RECORDS:
            raise errors.Lost
        kind, length = struct.unpack('<II', data)
        if length > MOST_BODY:
            raise errors.Lost
        self.lengths.append(length)
        return [kind, length]

    def page_data(self, length: int) -> None:
        """Reads the body of a PAGE_DATA: its length tells how many pages stand behind the words."""
        count = struct.unpack('<I4x', self.read(COUNT))[0]
        pages, left = divmod(length - COUNT - WORD * count, PAGE)
        if left or not 0 <= pages <= count:
            raise errors.Lost
        number, words = len(self.lengths) - 1, self.read(WORD * count)
        self.is_whole = self.is_whole and self.entries + count <= MOST_ENTRIES
        if self.readers:
            if self.is_whole:
                self.asked[number] = self.readers.ask(self.cursor.place, pages)
            self.cursor.skip(PAGE * pages)
        else:
            zeros = b''.join(zeros_in(self.read(PAGE * min(left, PAGES_AT_ONCE))) for left in range(pages, 0, -PAGES_AT_ONCE))
            if self.is_whole:
                self.zeros[number] = zeros
        if self.is_whole:
            self.words[number] = words
            self.entries += count

    def read(self, count: int) -> bytes:
        data = self.cursor.read(count)  # type: bytes
        if len(data) < count:
            raise errors.Lost
        return data

    def fits(self, records: 'List[Dict[str, Any]]') -> bool:
        """Whether the records that `show` lists are those that were read here, each with so many words and pages."""
        if len(records) > len(self.lengths):
            return False
        for number, record in enumerate(records):
            if record['length'] != self.lengths[number]:
                return False
            if self.is_whole and WORD * record.get('words', 0) != len(self.words.get(number, b'')):
                return False
            if self.is_whole and record.get('pages', 0) != len(self.zeros.get(number, b'')):
                return False
        return True


# ---- beside the program

class Collected(threading.Thread):
    """Reads what a program writes, up to a limit, while its input is read elsewhere."""

    def __init__(self, out: int, most: int) -> None:
        super().__init__(daemon=True)
        self.out, self.most, self.text = out, most, bytearray()
        self.fault = None  # type: Optional[Exception]
        self.start()

    def run(self) -> None:
        try:
            while len(self.text) <= self.most:
                block = sources.read_some(self.out, sources.BLOCK)
                if not block:
                    break
                self.text += block
        except Exception as fault:                   # it is raised where the text is taken
            self.fault = fault


class Shared:
    """A pipe, or what an unpacker writes: it can be read once, so that the program gets each byte when it was read here."""
    is_walkable = False

    def __init__(self, source: 'Any') -> None:
        self.source, self.fd, self.into, self.for_program = source, -1, -1, -1
        self.is_wanted = True

    def input_from(self, offset: int) -> int:
        self.fd = self.source.input_from(offset)
        self.for_program, self.into = os.pipe()
        return self.for_program

    def began(self) -> None:
        """The program has its end of the pipe; when it closes that, it wants no more."""
        os.close(self.for_program)

    def cursor(self, offset: int) -> 'sources.Cursor':
        return sources.Cursor(lambda _, count: self.passed(count), self.pass_over, offset)

    def passed(self, count: int) -> bytes:
        """Reads so many bytes, or all that are left, and hands them on."""
        data = sources.read_upto(self.fd, count)
        if self.is_wanted:
            try:
                sources.write_all(self.into, data)
            except BrokenPipeError:
                self.is_wanted = False
            except OSError as fault:
                raise errors.Unreadable(sources.why(fault)) from None
        return data

    def pass_over(self, count: int) -> None:
        while count:
            more = len(self.passed(min(count, sources.BLOCK)))
            if not more:
                raise errors.Lost
            count -= more

    def pass_all(self, reads_on: 'Callable[[], bool]') -> None:
        """Hands on what is left, as far as the program wants it."""
        while self.is_wanted and reads_on() and self.passed(sources.BLOCK):
            pass
        os.close(self.into)

    def read_so_far(self) -> int:
        return int(self.source.read_so_far())

    def ended(self, accepted: bool) -> 'Optional[str]':
        return self.source.ended(accepted)  # type: ignore[no-any-return]


def of_file(source: 'Any', begins: int, is_wrapped: bool, most: int, readers: Readers) -> 'Any':
    """The same as `beside`, of a file that can be read at any place."""
    sent = Sent(source.cursor(begins), is_wrapped, readers)
    with program.Work(program.find(), ['show'], source, begins, program.PIPE) as work:
        text = sources.read_upto(work.out, most + 1)
        if len(text) > most:
            work.kill()
        sent.end()
    return work.said, text, sent


def beside(source: 'Any', begins: int, is_wrapped: bool, most: int, readers: 'Optional[Readers]') -> 'Any':
    """What the program answers to `show`, the text that it wrote, or a little more of it than is kept, and what was sent. Readers are at
    hand where the source can be read at any place."""
    if readers:
        return of_file(source, begins, is_wrapped, most, readers)
    shared = Shared(source)
    with program.Work(program.find(), ['show'], shared, begins, program.PIPE) as work:
        shared.began()
        collected = Collected(work.out, most)
        sent = Sent(shared.cursor(begins), is_wrapped, None)
        shared.pass_all(collected.is_alive)
        collected.join()
        if len(collected.text) > most:
            work.kill()
    if collected.fault:
        raise collected.fault
    return work.said, bytes(collected.text), sent
