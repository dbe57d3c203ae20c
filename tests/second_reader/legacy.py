"""The part of the second reader that has the legacy stream of an HVM guest, which the 64-bit tools of Xen 4.5 and older write.

`read(bytes)` answers the guest and no line, or none and the line of its refusal (without the end of the line). Of a guest
that was read, `reader.canonical` is what `convert` has to write.
"""
import struct

import libxl
from form import *
from reader import MARKER, empty_guest, end_of_chain

MOST_BATCH, LEGACY_FRAMES = 1024, 1 << 28
TAIL, VCPU_MAP, TSC, LAST_CHECKPOINT, TOOLSTACK = 0, -2, -7, -9, -18
VERIFY, TMEM, COMPRESSED = (-1,), (-5, -6), (-12, -13)
IOREQ_SERVER = {-19, -20}
PARAM_OF = {-3: 12, -4: 15, -8: 17, -10: 19, -11: 9, -14: 34, -15: 27, -16: 28, -17: 29, -19: 32, -20: 33}
KNOWN = TAIL, VCPU_MAP, TSC, LAST_CHECKPOINT, TOOLSTACK, *PARAM_OF
TAIL_PARAMS = 5, 6, 1                                # the ioreq, the buffered ioreq and the store page
PLACEHOLDER = 0xF0000000
TOOLSTACK_VERSION = struct.pack('<I', 1)
SIGNATURE = b'DeviceModelRecord0002'
EMULATOR_PAIRS, DEVICE = (0, 0, libxl.XENSTORE_DATA), (0, 0, libxl.EMULATOR_CONTEXT)
MOST_DEVICE = MOST_BODY - 8                          # the record of a context has the emulator's id and index besides


def take_sized(source, most):
    """Data behind their length."""
    length, = struct.unpack('<I', source.take(4))
    refuse_if(length > most, '18 BodyTooLong %d' % length)
    return source.take(length)


# ---- the chunks

def judge_type(number, kind, before, frames):
    """A chunk's type behind chunks of these types."""
    if kind == TAIL:
        refuse_if(len(IOREQ_SERVER & before) == 1, '13 UnpairedIoreq')
    else:
        refuse_if(kind in VERIFY, '4 VerifyOrPv')
        refuse_if(kind in TMEM, '5 Tmem')
        refuse_if(kind in COMPRESSED, '6 Compressed')
        refuse_if(kind < 0 and kind not in KNOWN, '7 UnknownChunk %d' % -kind)
        refuse_if(kind > MOST_BATCH, '8 BatchTooLarge %d' % kind)
    refuse_if(number >= MOST_CHUNKS, '16 TooManyChunks')
    refuse_if(kind == TAIL and len(frames) > MOST_FRAMES, '17 TooManyFrames')


def read_batch(source, count, frames):
    words = struct.unpack('<%dQ' % count, source.take(8 * count))
    types = [word >> 28 & 15 for word in words]
    for entry, kind in enumerate(types):
        refuse_if(5 <= kind <= 8, '9 BadPageType %d %d' % (entry, kind))
    for entry, word in enumerate(words):
        refuse_if(word >> 32, '10 WordHigh %d' % entry)
    for kind, word in zip(types, words):
        page = source.take(PAGE) if has_page(kind) else b''
        if kind == XTAB and word != PLACEHOLDER:
            frames.pop(word % LEGACY_FRAMES, None)
        elif word != PLACEHOLDER:
            frames[word % LEGACY_FRAMES] = NOTAB if has_page(kind) else kind, page


def skip_vcpu_map(source):
    most, = struct.unpack('<I', source.take(4))
    refuse_if(most >= VCPU_LIMIT, '11 BadVcpuMax %d' % most)
    source.take(8 * (most // 64 + 1))


def read_tsc(source):
    mode, nsec, khz, incarnation = struct.unpack('<IQII', source.take(20))
    return struct.pack('<IIQI', mode, khz, nsec, incarnation)


def read_chunk(source, kind, guest):
    """What follows a chunk's type."""
    if kind > 0:
        read_batch(source, kind, guest['frames'])
    elif kind == VCPU_MAP:
        skip_vcpu_map(source)
    elif kind == TSC:
        guest['tsc'] = read_tsc(source)
    elif kind == TOOLSTACK:
        read_toolstack(take_sized(source, MOST_BODY), guest['emulators'])
    elif kind in PARAM_OF:
        _, guest['params'][PARAM_OF[kind]] = struct.unpack('<IQ', source.take(12))


# ---- the data of a toolstack

class Fields:
    """Fields that are taken one after another; one that isn't whole or isn't good is refused at its offset."""

    def __init__(self, data):
        self.data, self.at = data, 0

    def take(self, length, is_good=lambda field: True):
        field = self.data[self.at:self.at + length]
        refuse_if(len(field) < length or not is_good(field), '12 BadToolstack %d' % self.at)
        self.at += length
        return field

    def number(self, length):
        return int.from_bytes(self.take(length), 'little')


def is_name(field):
    return field.find(b'\0') == len(field) - 1


def read_entry(fields):
    """The pairs of an entry."""
    begin, start, size, length = fields.number(8), fields.number(8), fields.number(8), fields.number(4)
    front = b'physmap/%x/' % begin
    pairs = {front + b'start_addr': b'%x' % start, front + b'size': b'%x' % size}
    if length:
        pairs[front + b'name'] = fields.take(length, is_name)[:-1]
    fields.take(4)
    return pairs


def read_toolstack(data, emulators):
    fields, pairs = Fields(data), libxl.read_pairs(emulators.get(EMULATOR_PAIRS, b''))
    fields.take(4, lambda version: version == TOOLSTACK_VERSION)
    for _ in range(fields.number(4)):
        pairs.update(read_entry(fields))
    refuse_if(fields.at < len(data), '12 BadToolstack %d' % fields.at)
    text = libxl.spelled(pairs)
    refuse_if(len(text) > MOST_PAIRS, '19 TooManyPairs')
    if pairs:
        emulators[EMULATOR_PAIRS] = text


# ---- the whole stream

def read_start(source):
    size = source.take(8)
    refuse_if(size in (MARKER, libxl.IDENT), '2 Modern')
    refuse_if(size[4:] != bytes(4), '3 Tools32')


def read_tail(source, guest):
    guest['params'].update(zip(TAIL_PARAMS, struct.unpack('<3Q', source.take(24))))
    context = take_sized(source, MOST_BODY)
    guest['context'] = context[:end_of_chain(context, '14 BadContext')] + bytes(8)


def read_device(source, emulators):
    refuse_if(source.take(len(SIGNATURE)) != SIGNATURE, '15 BadSignature')
    emulators[DEVICE] = take_sized(source, MOST_DEVICE)


def read_guest(source):
    source.place = 'Start'
    read_start(source)
    guest, before, number = empty_guest(HVM), set(), 0
    while TAIL not in before:
        source.place = 'Chunk %d' % number
        kind, = struct.unpack('<i', source.take(4))
        judge_type(number, kind, before, guest['frames'])
        read_chunk(source, kind, guest)
        before.add(kind)
        number += 1
    source.place = 'Tail'
    read_tail(source, guest)
    source.place = 'Device'
    if source.at < len(source.data):
        read_device(source, guest['emulators'])
    return guest


def read(data):
    source = Input(data)
    try:
        return read_guest(source), ''
    except Refused as cause:
        return None, 'refused: %s: %s' % (source.place, cause)
