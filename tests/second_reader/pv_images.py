"""Images of PV hosts that are made at random, with scripts behind them. Each is what a whole guest becomes on restore, with
machine frames in no order. Then come a few lines of a script, so that some hosts are no whole guests."""
import struct

import images
import pv
import pv_streams
import saver
import streams

TYPES = 0, 0, 1, 2, 3, 4, 9, 10, 11, 12, 13, 14, 5, 15


def host_at_random(dice):
    guest = pv_streams.Guest(dice)
    machine = dict(zip(guest.frames, dice.sample(range(1, 4000), len(guest.frames))))
    raw = pv.restored(vars(guest), machine)
    found = {(kind, vcpu, 0): context for (vcpu, kind), context in raw['vcpus'].items() if context}
    found[3, 0, 0] = struct.pack('<%dQ' % len(guest.p2m), *guest.p2m)
    found[7, 0, 0] = dice.randbytes(8) * 512
    if dice.random() < 0.3:
        found[8, 0, 0], found[18, 2, 0] = dice.randbytes(20), dice.randbytes(12)
        found[17, 1, dice.randrange(3)] = dice.randbytes(16)
    if dice.random() < 0.05:
        del found[dice.choice(list(found))]
    frames = {pfn: (kind, machine[pfn], page) for pfn, (kind, page) in sorted(raw['frames'].items())}
    return {'kind': 1, 'width': guest.top + 1, 'frames': frames, 'parts': found}


def some_mfn(dice, host):
    """Most often the machine frame of a frame."""
    there = dice.choice([mfn for _, mfn, _ in host['frames'].values()] or [1])
    return dice.choice((*[there] * 9, dice.randrange(4000), (1 << 40) - 1))


def some_entry(dice, host):
    """An entry of a table, seldom a superpage."""
    flags = dice.choice((1, 0x67, 0xfff, *[0xf7f] * 3, *[0x66] * 3))
    return dice.choice((0, some_mfn(dice, host) << 12 | flags))


def changed_context(dice, host, data):
    """A context with one number changed, most often to one that may be there."""
    number = dice.choice((some_mfn(dice, host), some_mfn(dice, host) << 12 | dice.randrange(2), 512, 7169))
    return pv.with_number(data, dice.choice((pv.RDX, pv.GDT_FRAMES + 8, pv.GDT_ENTS, pv.CTRLREG1, pv.CTRLREG3, 16, 24)), number)


def line(dice, host):
    """A line that fits the host as it is at first, most often."""
    letter, pfn = dice.choice('wwwwwwtaarxxp'), dice.choice((*host['frames'], dice.randrange(host['width'] + 1)))
    kind = host['frames'].get(pfn, (0,))[0]
    if letter == 'w' and pv.level_of(kind):
        slot = dice.choice((*pv_streams.SLOTS, dice.randrange(512)))
        return 'w %d %d %s' % (pfn, 8 * slot, struct.pack('<Q', some_entry(dice, host)).hex())
    if letter == 'w':
        return 'w %d %d %s' % (pfn, dice.choice((0, 7, 4088)), dice.randbytes(dice.choice((1, 8))).hex())
    if letter == 't':
        return 't %d %d' % (pfn, dice.choice((kind, kind ^ 8 if 0 < kind < 13 else kind, dice.choice(TYPES))))
    if letter in 'ax':
        pfn = dice.randrange(host['width']) if letter == 'a' else pfn
        return '%s %d %d' % (letter, pfn, dice.choice((some_mfn(dice, host), *[dice.randrange(1, 4000)] * 3)))
    if letter == 'r':
        return 'r %d' % pfn
    key = dice.choice(list(host['parts']))
    data = host['parts'][key]
    data = changed_context(dice, host, data) if key[0] == 4 else dice.randbytes(len(data))
    return 'p %d %d %d %s' % (*key, data.hex())


def script(dice, host):
    """A few lines, most often somewhere up to the pause, and bursts of frames that come, so that there are further rounds."""
    calls = host['width'] + dice.choice((2, 4, 12, 30))
    lines, left = [], calls if dice.random() < 0.9 else 2 * calls
    for _ in range(dice.choice((0, 1, 1, 3, 6, 12))):
        dots = min(left, dice.choice((0, 1, 2, dice.randrange(calls))))
        left -= dots
        lines += ['.'] * dots + [line(dice, host) for _ in range(dice.choice((1, 1, 2)))]
        if dice.random() < 0.1:
            first = dice.randrange(host['width'])
            lines += ['a %d %d' % (first + more, 5000 + first + more) for more in range(60)]
    if dice.random() < 0.05:
        lines.insert(dice.randrange(len(lines) + 1), images.bad_line(dice))
    return ''.join(text + '\n' for text in lines).encode()


def image_and_script(dice):
    """The pieces of an image, and a script."""
    host = host_at_random(dice)
    for _ in range(dice.choice((0, 0, 1, 2))):
        letter, *fields = saver.read_line(line(dice, host).encode())
        saver.DOES[letter](host, *fields)
    version = dice.choice((1, 2, 2))
    head = images.head(version, streams.rarely(dice, 1, 2), host['width'], len(host['frames']))
    frames = [images.frame_of(version, kind, pfn, mfn, page) for pfn, (kind, mfn, page) in sorted(host['frames'].items())]
    last = [images.part(*key, data) for key, data in sorted(host['parts'].items())]
    return [head, *frames, struct.pack('<Q', len(last)), *last], script(dice, host)
