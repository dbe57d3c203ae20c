"""The part of the second reader that tells what `relay` passes on of a stream, and what it says.

Headers, heads, words and pages are on the output once they are judged, bodies that are judged as a whole in pieces before
they are. A piece has 4096 bytes at most; where the program lets it end sooner is told in `pieces`.
"""
import struct

import libxl
import reader
from form import *

PIECE, FRONT, PARAM, ENTRY_HEAD = 4096, 8, 16, 8
# the causes that need the whole guest or all pairs of an emulator, which a relay doesn't keep
UNTOLD = 27, 28, 29, 30, 32, 38


def ends_of_entries(body, length):
    """Where the pieces of an HVM_CONTEXT of this length end as far as its entries are followed; `body` has what is there.
    The head of an entry is a piece, and what stands between two heads begins one."""
    offset = 0
    while offset + ENTRY_HEAD <= min(len(body), length):
        yield offset + ENTRY_HEAD
        typecode, _, size = struct.unpack_from('<HHI', body, offset)
        is_header = (typecode, size) == (1, 24)
        behind = offset + ENTRY_HEAD + size
        if typecode == 0 or behind > length or offset == 0 and not is_header:
            return
        yield from range(offset + ENTRY_HEAD + PIECE, behind, PIECE)
        yield behind
        offset = behind
    if offset < length:
        yield min(offset + ENTRY_HEAD, length)


def pieces(kind, body, length, is_wrapped):
    """Where the pieces of a body of this length end; `body` has what is there of it."""
    ends = [0]
    if not is_wrapped and kind == CONTEXT:
        ends += ends_of_entries(body, length)
    elif not is_wrapped and kind == PARAMS:
        ends.append(min(length, PIECE - PARAM + FRONT))
    elif is_wrapped and kind == libxl.XENSTORE_DATA:
        ends.append(FRONT)
    return sorted({*ends, *range(ends[-1], length, PIECE), length})


class Relayed(Input):
    """An input that is passed on. What was taken is judged before the next part is taken, and then it is written; the head
    of a record without a body isn't before the record is judged."""

    keeps_guest = False

    def __init__(self, data):
        super().__init__(data)
        self.written = 0

    def take(self, length):
        if length:
            self.written = self.at
        return super().take(length)

    def take_body(self, kind, length, is_wrapped=False):
        if length:
            there = self.data[self.at:self.at + length]
            self.written = self.at + max(end for end in pieces(kind, there, length, is_wrapped) if end <= len(there))
        return super().take(length)


def relay(data):
    """Status, standard output and report of `relay`."""
    source = Relayed(data)
    try:
        stream = reader.read_either(source)
    except Refused as cause:
        return 1, data[:source.written], ('refused: %s: %s\n' % (source.place, cause)).encode()
    return 0, data[:source.at], b'ok records %d bytes %d\n' % (stream.records, source.at)


def number_of(line):
    """The number of the cause in the line of a refusal, or 0 in another line."""
    return int(line.split(b': ')[2].split()[0]) if line.startswith(b'refused: ') else 0


def records_in(line):
    """How many records the line of an accepted stream counts, of `verify` or of `relay`."""
    words = line.split()
    return int(words[words.index(b'records') + 1])


def disagreements(data, verified, relayed):
    """What isn't as it has to be where `verify` and `relay` answer this: status, standard output and report."""
    status, out, report = relayed
    if not data.startswith(out):
        yield 'relay wrote what is no front of the input'
    if verified[0] == 0:
        if (status, report) != (0, b'ok records %d bytes %d\n' % (records_in(verified[2]), len(out))):
            yield 'relay says %r of what verify accepts' % report
    elif number_of(verified[2]) not in UNTOLD:
        if (status, report) != (verified[0], verified[2]):
            yield 'relay says %r where verify says %r' % (report, verified[2])
    elif number_of(report) in UNTOLD:
        yield 'relay says %r' % report
    elif status not in (0, 1):
        yield 'relay ends with status %d' % status
