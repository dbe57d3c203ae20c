"""Images of HVM hosts that are made at random, of both versions, a few of them of other hosts or faulty, with scripts behind
them."""
import struct

import libxl
import streams

LINES = 'wwwwttarxxp..'


def head(version, kind, width, count, zero=0):
    return b'XGIMAGE%d' % version + struct.pack('<IIQQ', kind, zero, width, count)


def frame_of(version, kind, pfn, mfn, page, reserved=0, zeros=None):
    """A frame as a version spells it, with these bits where zeros have to be; in version 2 the zero flag as it has to be, where
    no other is named."""
    if version == 1:
        return struct.pack('<IIQ', kind << 28 | pfn, reserved, mfn) + page
    left_out = bool(page) and not any(page) if zeros is None else zeros
    return struct.pack('<QQ', kind << 60 | reserved << 53 | left_out << 52 | pfn, mfn) + (b'' if left_out else page)


def frame(dice, version, pfn, mfn):
    kind, more = dice.choice((0,) * 14 + (13, 14)), {}
    page = dice.choice((dice.randbytes(8), dice.randbytes(8), bytes(8))) * 512
    if dice.random() < 0.003:
        kind, more['reserved'], mfn = dice.choice(((1, 0, mfn), (4, 0, mfn), (5, 0, mfn), (15, 0, mfn), (0, 7, mfn), (0, 0, 0), (0, 0, 1 << 40)))
    elif dice.random() < 0.003:
        kind, more['zeros'] = dice.choice(((13, True), (14, True), (5, True), (0, False)))
        page = bytes(4096)
    return frame_of(version, kind, pfn, mfn, page if kind < 13 else b'', **more)


def part(code, one, two, data):
    return struct.pack('<IIII', code, one, two, len(data)) + data + bytes(-len(data) % 8)


def emulator_parts(dice):
    """Pairs and contexts of one or a few emulators; rarely of none that there is, or pairs that aren't in canonical form."""
    found = {}
    for _ in range(dice.choice((1, 1, 2, 3, 9))):
        keys = streams.rarely(dice, dice.choice((0, 1, 1, 2, 2)), 3), streams.rarely(dice, dice.choice((0, 0, 1, 9, 255)), 256)
        if dice.random() < 0.7:
            values = dice.sample(((b'a', b'1'), (b'b', b''), (b'physmap/1f/name', b'\xff\x01'), (b'Z', b'2=3')), dice.randrange(1, 5))
            spelled = libxl.spelled(dict(values))
            found[(258, *keys)] = streams.rarely(dice, spelled, dice.choice((spelled[:-1], b'b\0c\0a\0d\0', b'a,\0\0', b'')))
        if dice.random() < 0.7:
            found[(259, *keys)] = dice.randbytes(dice.choice((0, 1, 5, 8, 24)))
    return found


def parts(dice):
    found = {(8, 0, 0): dice.randbytes(20)} if dice.random() < 0.3 else {}
    if dice.random() < 0.95:
        found[9, 0, 0] = streams.chain(dice)
    for _ in range(dice.randrange(3)):
        found[10, streams.rarely(dice, dice.choice((0, 1, 9, 4095)), 4096), 0] = streams.rarely(dice, dice.randbytes(8), bytes(7))
        found[17, dice.randrange(3), dice.randrange(3)] = dice.randbytes(16)
        found[18, dice.randrange(3), 0] = dice.randbytes(12)
    if dice.random() < 0.4:
        found.update(emulator_parts(dice))
    return found


def image(dice):
    """The pieces of an image, and its width and parts."""
    width, version = dice.choice((0, 1, 3, 9, 9, 64, 64, 130)), dice.choice((1, 2, 2))
    pfns = sorted(dice.sample(range(width), dice.choice((width, width - width // 9, width // 2))))
    mfns, found = dice.sample(range(1, 400), len(pfns)), parts(dice)
    kind, zero = streams.rarely(dice, 2, dice.choice((1, 3))), streams.rarely(dice, 0, 5)
    first = head(streams.rarely(dice, version, 3), kind, streams.rarely(dice, width, 1 << 28 | 1), len(pfns), zero)
    frames = [frame(dice, version, pfn, mfn) for pfn, mfn in zip(pfns, mfns)]
    last = [part(*key, data) for key, data in sorted(found.items())]
    return [first, *frames, struct.pack('<Q', len(last)), *last], width, found


def put(dice, key, found):
    """A line that replaces a part, by bytes of its length most often."""
    data = streams.chain(dice) if key[0] == 9 and dice.random() < 0.5 else dice.randbytes(len(found[key]))
    return 'p %d %d %d %s' % (*key, data.hex() or '00')


def line(dice, width, found):
    letter, pfn = dice.choice(LINES), dice.randrange(width + 1)
    if letter == 'w':
        data = dice.randbytes(dice.choice((1, 2, 8)))
        return 'w %d %d %s' % (pfn, dice.choice((0, 7, 4095, 4088)), dice.choice((data.hex(), data.hex().upper())))
    if letter == 't':
        return 't %d %d' % (pfn, dice.choice((0, 13, 14, 1, 15, 99)))
    if letter in 'ax':
        return '%s %d %d' % (letter, pfn, dice.choice((dice.randrange(400), dice.randrange(400), 1 << 40, 400)))
    if letter == 'r':
        return 'r %d' % pfn
    if letter == 'p' and found:
        return put(dice, dice.choice(list(found)), found)
    return '.'


def bad_line(dice):
    return dice.choice(('', ' .', '. ', 'w 1', 'w 01 0 ff', 'w 1 0 f', 'w 1 0 ', 'w 1 0 gg', 'w  1 0 ff', 't 1 18446744073709551616',
                        'r -1', 'r 1 2', 'W 1 0 ff', 'r 1\r', 'x 1\t2', 'p 9 0 00', '..', 'r +1'))


def script(dice, width, found):
    lines = []
    for _ in range(dice.choice((0, 1, 5, 30, 200))):
        lines += [line(dice, width, found)] * dice.choice((1, 1, 1, 3)) if dice.random() < 0.9 else ['.'] * dice.randrange(60)
    if dice.random() < 0.8:                          # a burst of writes, so that there are further rounds
        first = [dice.choice(('w %d 0 %02x', 'w %d 4000 %02x')) % (pfn, dice.randrange(256)) for pfn in range(width)]
        lines += (['.'] * dice.randrange(width + 2) + first) * dice.randrange(4)
    for key in found:
        if key[0] == 259 and dice.random() < 0.6:    # an emulator's context, up to the pause or behind it
            lines.insert(dice.choice((0, len(lines) // 2, len(lines))), put(dice, key, found))
    if dice.random() < 0.1:
        lines.insert(dice.randrange(len(lines) + 1), bad_line(dice))
    text = '\n'.join(lines).encode()
    return text + b'\n' if text and dice.random() < 0.8 else text


def image_and_script(dice):
    """The pieces of an image, and a script."""
    pieces, width, found = image(dice)
    return pieces, script(dice, width, found)
