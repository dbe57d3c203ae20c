"""Legacy streams of HVM guests that are made at random, and how they are spoiled."""
import struct

from form import MOST_BODY, MOST_PAIRS
from streams import chain, rarely

PARAM_CHUNKS = -3, -4, -8, -10, -11, -14, -15, -16, -17
IOREQ_SERVER = -19, -20
VCPU_MOST = 0, 1, 62, 63, 64, 65, 127, 128, 4094, 4095
BEGINS = 0, 0, 1, 0xe0000000, 0xf0000000, 0xffffffff, 1 << 32, (1 << 64) - 1
NAMES = b'', b'\0', b'vram\0', b'vga.vram\0', b'a=/\xff\0'
OTHER_TYPES = (-1, -5, -6, -12, -13, -21, -22, -(1 << 31), 1025, (1 << 31) - 1, 0, 1, 1024, *range(-20, 0))
AROUND_A_NAME = 56                                  # what the pairs of an entry that begins at 0 spell besides its name
LONGEST, LONGEST_OF_DEVICE = MOST_BODY, MOST_BODY - 8


def chunk(kind, *pieces):
    return struct.pack('<i', kind) + b''.join(pieces)


def number(value, length):
    return value.to_bytes(length, 'little')


def sized(dice, data, most):
    """Data behind their length, or rarely behind another one."""
    return number(rarely(dice, len(data), dice.choice((len(data) + 1, most, most + 1, (1 << 32) - 1))), 4) + data


def start(dice):
    size = number(dice.choice((0, 0x100, 0x40000, (1 << 32) - 1)), 8)
    others = b'\xff' * 8, b'LibxlFmt', b'\xff' * 7 + b'\xfe', number(1 << 32, 8), number(1 << 63, 8)
    return rarely(dice, size, dice.choice(others))


def word(dice, kind):
    """A word of a batch: one of few frame numbers, so that some come again, or any."""
    pfn = dice.choice((dice.randrange(6), dice.randrange(6), dice.randrange(1 << 28), (1 << 28) - 1))
    return rarely(dice, kind << 28 | pfn, kind << 28 | pfn | 1 << dice.randrange(32, 64))


def batch(dice):
    words, data = [], []
    for _ in range(dice.choice((1, 1, 2, 3, 5))):
        kind = rarely(dice, dice.choice((0, 0, 0, 1, 4, 9, 12, 13, 14, 15, 15, 'placeholder')), dice.randrange(5, 9))
        words.append(number(0xF0000000 if kind == 'placeholder' else word(dice, kind), 8))
        if kind != 'placeholder' and kind < 13:
            data.append(dice.randbytes(8) * 512)
    count = rarely(dice, len(words), dice.choice((1025, 1 << 30)))
    return chunk(count, *words, *data)


def vcpu_map(dice):
    most = dice.choice(VCPU_MOST)
    said = rarely(dice, most, dice.choice((4096, 4097, (1 << 31) - 1, 1 << 31, (1 << 32) - 1)))
    return chunk(-2, number(said, 4), dice.randbytes(8 * (most // 64 + 1)))


def entry(dice):
    name = rarely(dice, dice.choice(NAMES), dice.choice((b'v', b'vram', b'a\0b\0', b'\0\0')))
    begin, start, size = dice.choice(BEGINS), dice.choice((0, dice.randrange(1 << 64))), dice.choice((0, 0x800000))
    length = rarely(dice, len(name), dice.choice((len(name) + 1, 1, (1 << 32) - 1)))
    return struct.pack('<QQQI', begin, start, size, length) + name + dice.choice((bytes(4), dice.randbytes(4)))


def toolstack(dice):
    entries = [entry(dice) for _ in range(dice.choice((0, 1, 1, 2, 3)))]
    count = rarely(dice, len(entries), dice.choice((len(entries) + 1, 1 << 31)))
    data = struct.pack('<II', rarely(dice, 1, dice.choice((0, 2))), count) + b''.join(entries) + rarely(dice, b'', b'\0')
    return chunk(-18, sized(dice, rarely(dice, data, data[:dice.randrange(len(data))]), LONGEST))


def most_toolstack(dice):
    """A toolstack whose pairs spell as many bytes as an emulator may have, one less or more."""
    name = b'v' * (MOST_PAIRS - AROUND_A_NAME + dice.choice((-1, 0, 1, 2))) + b'\0'
    data = struct.pack('<IIQQQI', 1, 1, 0, 0, 0, len(name)) + name + bytes(4)
    return chunk(-18, number(len(data), 4), data)


def some_chunk(dice):
    makers = batch, batch, batch, batch, batch, vcpu_map, tsc, toolstack, toolstack, parameter, parameter, last_checkpoint
    maker = most_toolstack if dice.random() < 0.005 else dice.choice(makers)
    return maker(dice)


def tsc(dice):
    return chunk(-7, dice.randbytes(20))


def last_checkpoint(dice):
    return chunk(-9)


def parameter(dice):
    return chunk(dice.choice(PARAM_CHUNKS), dice.randbytes(12))


def ioreq_server(dice):
    """Both of its chunks in either order, and rarely but one; each may come again."""
    kinds = dice.choice((IOREQ_SERVER, IOREQ_SERVER[::-1], (-19, -20, -19), ()))
    kinds = rarely(dice, kinds, dice.choice(((-19,), (-20,), (-20, -20))))
    return [chunk(kind, dice.randbytes(12)) for kind in kinds]


def tail(dice):
    pages = b''.join(number(dice.choice((0, 0xfeff0, (1 << 64) - 1)), 8) for _ in range(3))
    return [chunk(0), pages, sized(dice, chain(dice), LONGEST)]


def device(dice):
    if dice.random() < 0.3:
        return []
    signature = rarely(dice, b'DeviceModelRecord0002', dice.choice((b'DeviceModelRecord0001', b'QemuDeviceModelRecord')))
    context = sized(dice, dice.randbytes(dice.choice((0, 1, 8, 40))), LONGEST_OF_DEVICE)
    return [signature, context, dice.choice((b'', dice.randbytes(9)))]


def legacy_stream(dice):
    """The pieces of a stream that may be accepted."""
    chunks = [some_chunk(dice) for _ in range(dice.choice((0, 1, 2, 3, 4, 6)))] + ioreq_server(dice)
    dice.shuffle(chunks)
    return [start(dice), *chunks, *tail(dice), *device(dice)]


def spoil(dice, pieces):
    """Changes one thing about a stream."""
    at = dice.randrange(1 if dice.random() < 0.9 else 0, len(pieces))
    piece, way = bytearray(pieces[at]), dice.randrange(6)
    if way == 0:
        del pieces[at]
    elif way == 1:
        pieces.insert(dice.randrange(1, len(pieces) + 1), pieces[at])
    elif way == 2:
        other = dice.randrange(1, len(pieces))
        pieces[at], pieces[other] = pieces[other], pieces[at]
    elif way == 3:
        piece[:4] = struct.pack('<i', dice.choice(OTHER_TYPES))
        pieces[at] = bytes(piece)
    elif way == 4 and piece:
        where = dice.randrange(min(len(piece), 64))
        piece[where] = dice.choice((0, 1, 0xff, piece[where] ^ 1 << dice.randrange(8)))
        pieces[at] = bytes(piece)
    else:
        pieces[at] = bytes(piece[:dice.randrange(len(piece) + 1)])
