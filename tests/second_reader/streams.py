"""Streams of HVM guests that are made at random, what those of PV guests have in common with them, and how they are spoiled."""
import struct

KEYS = (0, 1, 2, 255, 256, 4095)


def rarely(dice, usual, rare):
    return rare if dice.random() < 0.02 else usual


def chain(dice):
    """An HVM context."""
    length = rarely(dice, 24, dice.choice((0, 20, 25, 32)))
    entries = [struct.pack('<HHI', rarely(dice, 1, 2), 0, length) + dice.randbytes(24)]
    for _ in range(dice.randrange(4)):
        data = dice.randbytes(dice.choice((0, 1, 3, 8, 21)))
        entries.append(struct.pack('<HHI', dice.choice((1, 2, 3, 9)), dice.randrange(3), len(data)) + data)
    tail = dice.choice((b'', b'', dice.randbytes(5)))
    end = struct.pack('<HHI', 0, *dice.choice(((0, 0), (7, 9)))) + tail
    return b''.join(entries) + rarely(dice, end, dice.choice((b'', end[:4])))


def pages(dice):
    words, data = [], []
    for _ in range(dice.choice((1, 1, 2, 3, 5))):
        kind = rarely(dice, dice.choice((0, 0, 0, 1, 4, 9, 12, 13, 14, 15, 15)), dice.randrange(5, 9))
        pfn = dice.choice((dice.randrange(6), dice.randrange(6), dice.randrange(1 << 28), dice.randrange(1 << 52)))
        pfn = rarely(dice, pfn, dice.choice(((1 << 28) - 1, 1 << 28, 1 << 51, (1 << 52) - 1)))
        words.append(struct.pack('<Q', kind << 60 | dice.choice((0, dice.randrange(256))) << 52 | pfn))
        if kind < 13:
            data.append(dice.randbytes(8) * 512)
    return struct.pack('<II', rarely(dice, len(words), dice.choice((0, len(words) + 1))), dice.choice((0, 5))) + b''.join(words + data)


def params(dice):
    pairs = [struct.pack('<QQ', rarely(dice, dice.choice(KEYS), 4096), dice.randrange(1 << 64)) for _ in range(dice.randrange(4))]
    return struct.pack('<II', rarely(dice, len(pairs), 4), dice.choice((0, 1))) + b''.join(pairs)


def cpuid(dice):
    return b''.join(struct.pack('<II', dice.choice(KEYS), dice.choice(KEYS)) + dice.randbytes(16) for _ in range(dice.randrange(5)))


def msrs(dice):
    return b''.join(struct.pack('<I', dice.choice(KEYS)) + dice.randbytes(12) for _ in range(dice.randrange(5)))


def record(dice, kind, body):
    return struct.pack('<II', kind, len(body)) + body + dice.choice((bytes, dice.randbytes))(-len(body) % 8)


def some_record(dice, kinds):
    kind = dice.choice(kinds)
    bodies = {1: pages, 8: lambda dice: dice.randbytes(24), 9: chain, 10: params, 17: cpuid, 18: msrs}
    if kind == 'optional':
        return record(dice, 1 << 31 | dice.choice((0, 1, 16, 19, dice.randrange(1 << 31))), dice.randbytes(dice.choice((0, 1, 8, 13))))
    return record(dice, kind, bodies[kind](dice))


def headers(dice, version, kind):
    image = b'\xff' * 8 + b'XENF' + struct.pack('>IH', version, dice.choice((0, 0, 0xfffe))) + dice.choice((bytes(6), dice.randbytes(6)))
    return [image, struct.pack('<IHHII', kind, 12, dice.choice((0, 9)), 4, 17)]


def sent_again(dice, page_records, more):
    """Most often nothing; or a VERIFY, and some of these records of pages once more, with others among them."""
    if dice.random() < 0.7:
        return []
    again = [it for it in page_records if dice.random() < 0.8] + [it for it in more if dice.random() < 0.5]
    dice.shuffle(again)
    return [record(dice, 13, b'')] * rarely(dice, 1, 2) + again


def hvm_stream(dice):
    """Headers and records of a stream of an HVM guest that may be accepted."""
    version = dice.choice((2, 3))
    records = [some_record(dice, (8, 17, 18, 'optional')) for _ in range(dice.randrange(4))]
    if version == 3 or dice.random() < 0.3:
        records.append(record(dice, 16, b''))
    content = [some_record(dice, (1, 1, 1, 8, 9, 10, 'optional')) for _ in range(dice.randrange(6))]
    sent = [it for it in content if it[:4] == bytes((1, 0, 0, 0))]
    records += content + sent_again(dice, sent, [record(dice, 1, pages(dice)) for _ in range(2)])
    records.append(record(dice, 9, chain(dice)))
    records += [some_record(dice, (1, 8, 10, 'optional')) for _ in range(dice.randrange(3))]
    return [*headers(dice, version, 2), *records, record(dice, 0, b'')]


def spoil(dice, pieces):
    """Changes one thing about a stream."""
    first = min(2, len(pieces) - 1)
    at = dice.randrange(first if dice.random() < 0.9 else 0, len(pieces))
    piece = bytearray(pieces[at])
    if len(piece) < 8:
        return
    way = dice.randrange(8)
    if way == 0:
        del pieces[at]
    elif way == 1:
        pieces.insert(dice.randrange(first, len(pieces)), pieces[at])
    elif way == 2:
        other = dice.randrange(first, len(pieces))
        pieces[at], pieces[other] = pieces[other], pieces[at]
    elif way == 3:
        piece[0:4] = struct.pack('<I', dice.choice((dice.randrange(20), 0x7fffffff, 1 << 31)))
        pieces[at] = bytes(piece)
    elif way == 4:
        length, = struct.unpack_from('<I', piece, 4)
        piece[4:8] = struct.pack('<I', (length + dice.choice((-16, -8, -1, 1, 8, 16, 24))) % (1 << 32))
        pieces[at] = bytes(piece)
    elif way == 5:
        where = dice.randrange(min(len(piece), 64))
        piece[where] = dice.choice((0, 1, 0xff, piece[where] ^ 1 << dice.randrange(8)))
        pieces[at] = bytes(piece)
    elif way == 6:
        where = dice.randrange(len(piece))
        pieces[at] = bytes(piece[:where])
    else:
        pieces[at] = bytes(piece) + dice.randbytes(dice.choice((1, 8)))
