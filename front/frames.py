"""What became of each frame number of a stream: how it was sent last, how often, and in which rounds. For a picture the frames
are in spans, one cell for each number, or for a block of them where they are too many. Where thousands in a row have no frame,
there is no span."""
import functools
import struct

TYPE_CHECKING = False                                # a checker of types takes it for true; typing itself is slow to load
if TYPE_CHECKING:
    from typing import Any, Dict, Iterable, Iterator, List, Optional, Sequence, Tuple

# The states of a frame number, each by its letter: those below a page's type, and the two of a page without one.
NEVER, ABSENT, ZEROS, DATA, XALLOC, BROKEN = b'.-0dxb'
STATES = {
    '.': 'never sent', '-': 'absent', '0': 'zeros', 'd': 'data',
    '1': 'page table 1', '2': 'page table 2', '3': 'page table 3', '4': 'page table 4',
    '5': 'pinned page table 1', '6': 'pinned page table 2', '7': 'pinned page table 3', '8': 'pinned page table 4',
    'x': 'XALLOC', 'b': 'BROKEN'}
HAS_NO_FRAME = '.-'
HAS_A_PAGE = '0d12345678'
PAGES = HAS_A_PAGE.encode()
OF_TYPE = {1: b'1'[0], 2: b'2'[0], 3: b'3'[0], 4: b'4'[0], 9: b'5'[0], 10: b'6'[0], 11: b'7'[0], 12: b'8'[0],
           13: BROKEN, 14: XALLOC, 15: ABSENT}
WITHOUT_A_PAGE = BROKEN, XALLOC, ABSENT
OF_ZEROS = bytes([DATA, ZEROS])                       # by whether a page of no type is all zeros
TYPE, NUMBER = 60, (1 << 52) - 1                     # of a word: where its type begins, and the bits of its frame number
OF_CHUNK, MOST_CHUNKS = 16, 1 << 10                  # bits of the frame numbers that are kept together, and how often
CHUNK = 1 << OF_CHUNK
PIECE = 1 << 12                                      # cells that are left out where none of them has a frame
AT_ONCE = 1 << 16                                    # words that are looked at
MOST_CELLS, MOST_BLOCKS = (1 << 20) + (1 << 17), 1 << 16
MOST_ROUNDS = 256
MOST_TIMES = 35                                      # that are told apart, in one letter
TIMES = b'.123456789abcdefghijklmnopqrstuvwxyz'
ONE_MORE = bytes(min(times + 1, MOST_TIMES) for times in range(256))
OF_BATCH, OF_HEAD, OF_WORD, OF_PAGE = 1024, 16, 8, 4096  # entries of a record as it is written, bytes of what stands in front of them


@functools.lru_cache(maxsize=2)
def counted_up(count: int) -> 'Tuple[int, int]':
    """So many words that are counted up from 0, and as many ones, each as one number."""
    spelled = struct.pack('<%dQ' % count, *range(count)), struct.pack('<Q', 1) * count
    return int.from_bytes(spelled[0], 'little'), int.from_bytes(spelled[1], 'little')


def words_of(spelled: memoryview) -> 'Sequence[int]':
    """These words; a range where they follow one another, which is told of all at once."""
    first, count = spelled[0], len(spelled)
    if spelled[count - 1] - first == count - 1:
        up, ones = counted_up(count)
        if (up + first * ones).to_bytes(OF_WORD * count, 'little') == spelled.tobytes():
            return range(first, first + count)
    return spelled.tolist()


def states_of(words: 'Sequence[int]', zeros: bytes) -> 'Tuple[bytes, int]':
    """The states of the frames that these words name, of whose pages those are zeros; and how many of the pages are theirs."""
    if (words[-1] if isinstance(words, range) else max(words)) <= NUMBER:  # pages of no type, as of an HVM guest
        return zeros[:len(words)].translate(OF_ZEROS + bytes(254)), len(words)
    states, page = bytearray(), 0
    for word in words:
        state = OF_TYPE.get(word >> TYPE)
        states.append(state or OF_ZEROS[zeros[page]])
        page += state not in WITHOUT_A_PAGE
    return bytes(states), page


def tally(chunks: 'Iterable[bytearray]', values: 'Iterable[int]') -> 'Dict[int, int]':
    """How often each of these values stands in chunks of bytes that have no others."""
    found = dict.fromkeys(values, 0)
    for chunk in chunks:
        left = len(chunk)
        for value in found:
            if left:
                count = chunk.count(value)
                found[value], left = found[value] + count, left - count
    return found


def numbers_of(words: 'Sequence[int]') -> 'Sequence[int]':
    """The frame numbers in these words; a range where they follow one another."""
    first = words[0] & NUMBER
    behind = first + len(words)
    if isinstance(words, range) and behind <= NUMBER:
        return range(first, behind)
    return [word & NUMBER for word in words]


class Rounds:
    """The rounds in which frame numbers were sent: one begins where a number isn't greater than that before it."""

    def __init__(self) -> None:
        self.told = []  # type: Optional[List[Dict[str, Any]]]
        self.before = -1                             # the number that was sent last

    def begin(self, record: int, offset: int, is_verify: bool) -> None:
        self.before = -1
        if self.told is not None and len(self.told) < MOST_ROUNDS:
            self.told.append({'record': record, 'offset': offset, 'entries': 0, 'pages': 0, 'bytes': 0, 'verify': is_verify})
        else:
            self.told = None                         # sent in no order

    def add(self, entries: int, pages: int, length: int) -> None:
        if self.told:
            last = self.told[-1]
            last['entries'] += entries
            last['pages'] += pages
            last['bytes'] += length


class Frames:
    """What was sent of each frame number."""

    def __init__(self) -> None:
        self.states, self.times = {}, {}  # type: Dict[int, bytearray], Dict[int, bytearray]
        self.rounds, self.is_whole, self.verified = Rounds(), True, False

    def chunk(self, number: int) -> 'Tuple[bytearray, bytearray]':
        if number not in self.states:
            if len(self.states) == MOST_CHUNKS:      # numbers that lie so far apart are looked at and not kept
                self.is_whole = False
                return bytearray(CHUNK), bytearray(CHUNK)
            self.states[number], self.times[number] = bytearray(b'.') * CHUNK, bytearray(CHUNK)
        return self.states[number], self.times[number]

    def add(self, record: int, offset: int, words: bytes, zeros: bytes) -> None:
        """Adds a PAGE_DATA by its words, and a byte for each of its pages."""
        if not words:
            return
        whole, page = memoryview(words).cast('Q'), 0
        for at in range(0, len(whole), AT_ONCE):
            part = words_of(whole[at:at + AT_ONCE])
            states, pages = states_of(part, zeros[page:page + len(part)])
            numbers = numbers_of(part)
            self.count(record, offset, numbers, states, OF_HEAD * (at == 0))
            page += pages
            if not self.verified:
                self.set(numbers, states)

    def count(self, record: int, offset: int, numbers: 'Sequence[int]', states: bytes, head: int) -> None:
        """Counts frames in their rounds, with the bytes of the head that is before them."""
        rounds = self.rounds
        if rounds.told is None:
            return
        starts = [] if isinstance(numbers, range) else [at for at in range(1, len(numbers)) if numbers[at] <= numbers[at - 1]]
        is_new = not rounds.told or numbers[0] <= rounds.before
        for at, behind in zip([0, *starts], [*starts, len(numbers)]):
            if at or is_new:
                rounds.begin(record, offset, self.verified)
            entries, pages = behind - at, behind - at - len(states[at:behind].translate(None, PAGES))
            rounds.add(entries, pages, head + OF_WORD * entries + OF_PAGE * pages)
            head = 0
        rounds.before = numbers[-1]

    def set(self, numbers: 'Sequence[int]', states: bytes) -> None:
        """Sets frames."""
        if isinstance(numbers, range):
            self.set_run(numbers[0], states)
            return
        held, now, times = -1, bytearray(), bytearray()
        for number, state in zip(numbers, states):
            if number >> OF_CHUNK != held:
                held = number >> OF_CHUNK
                now, times = self.chunk(held)
            at = number & CHUNK - 1
            now[at], times[at] = state, ONE_MORE[times[at]]

    def set_run(self, first: int, states: bytes) -> None:
        """Sets frames whose numbers follow one another."""
        while states:
            number, at = divmod(first, CHUNK)
            now, times = self.chunk(number)
            count = min(CHUNK - at, len(states))
            now[at:at + count] = states[:count]
            times[at:at + count] = times[at:at + count].translate(ONE_MORE)
            first, states = first + count, states[count:]

    def verify(self, record: int, offset: int) -> None:
        """What follows is sent to be compared, and changes no frame."""
        if not self.verified:
            self.verified = True
            self.rounds.begin(record, offset, True)

    # ---- what is told

    def counts(self) -> 'Dict[str, int]':
        """How many numbers have each state, but for those that were never sent."""
        found = tally(self.states.values(), ''.join(STATES).encode())
        return {letter: found[ord(letter)] for letter in STATES if letter != '.' and found[ord(letter)]}

    def sent_times(self) -> 'Dict[int, int]':
        """How many numbers were sent so often."""
        found = tally(self.times.values(), range(MOST_TIMES + 1))
        return {times: found[times] for times in range(1, MOST_TIMES + 1) if found[times]}

    def at_the_pause(self) -> 'Dict[str, int]':
        """What each of these frames takes when it is sent once, as it was sent last."""
        counts = self.counts()
        entries, pages = sum(counts.values()), sum(counts.get(letter, 0) for letter in HAS_A_PAGE)
        records = -(-entries // OF_BATCH)
        return {'entries': entries, 'pages': pages, 'bytes': OF_HEAD * records + OF_WORD * entries + OF_PAGE * pages}

    def pieces(self, size: int) -> 'Iterator[Tuple[int, bytes, bytes]]':
        """The first number, the states and the times of each piece of so many numbers, any of which has a frame."""
        for number in sorted(self.states):
            states, times = bytes(self.states[number]), bytes(self.times[number])
            for at in range(0, CHUNK, size):
                piece = states[at:at + size]
                if piece.translate(None, HAS_NO_FRAME.encode()):
                    yield number * CHUNK + at, piece, times[at:at + size]

    def per_cell(self) -> int:
        """How many numbers a cell stands for."""
        if sum(PIECE for _ in self.pieces(PIECE)) <= MOST_CELLS:
            return 1
        per = 2
        while sum(min(per * PIECE, CHUNK) // per for _ in self.pieces(min(per * PIECE, CHUNK))) > MOST_BLOCKS:
            per *= 2
        return per

    def spans(self, per: int) -> 'List[Dict[str, Any]]':
        """Pieces that follow one another, together."""
        found, behind, size = [], None, min(per * PIECE, CHUNK)  # type: List[List[Tuple[int, bytes, bytes]]], Optional[int], int
        for piece in self.pieces(size):
            if piece[0] != behind:
                found.append([])
            found[-1].append(piece)
            behind = piece[0] + size
        return [span_of(pieces, per) for pieces in found]


def span_of(pieces: 'List[Tuple[int, bytes, bytes]]', per: int) -> 'Dict[str, Any]':
    """What a span's cells show: of each number its state and how often it was sent, or of each block how many have a state, and how
    often they were sent together."""
    states, times = b''.join(piece[1] for piece in pieces), b''.join(piece[2] for piece in pieces)
    states = states.rstrip(b'.')
    if per == 1:
        return {'first': pieces[0][0], 'cells': states.decode(), 'times': times[:len(states)].translate(TIMES + bytes(220)).decode()}
    blocks = range(0, len(states), per)
    shares = {letter: [states.count(letter.encode(), at, at + per) for at in blocks] for letter in STATES if letter.encode() in states}
    return {'first': pieces[0][0], 'frames': len(states), 'shares': shares, 'times': [sum(times[at:at + per]) for at in blocks]}
