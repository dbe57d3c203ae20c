"""Streams in the wrapper of libxl that are made at random, around images of guests of either kind."""
import struct

from form import MOST_PAIRS
from streams import rarely, record

KEYS = b'a', b'a', b'b', b'ab', b'Z', b'_', b'@', b'-', b'0/x', b'/9', b'physmap/1f/name'
VALUES = b'', b'1', b'/', b'\xff\x01', b'2=3', b'  '
BESIDE_KEY_BYTES = b',.:?A[^`{ \x7f\xff'             # next to those that keys have, and one that they have


def key(dice):
    return rarely(dice, dice.choice(KEYS), dice.choice((b'', bytes([dice.choice(BESIDE_KEY_BYTES)]), b'ab.')))


def pairs(dice):
    texts = [text for _ in range(dice.choice((0, 1, 1, 2, 3))) for text in (key(dice), dice.choice(VALUES))]
    whole = b''.join(text + b'\0' for text in texts)
    return rarely(dice, whole, dice.choice((whole[:-1], whole + b'a', whole + b'a\0')))


def most_pairs(dice):
    """Pairs that spell as many bytes as an emulator may have, one less or more."""
    return b'long\0' + b'v' * (MOST_PAIRS - 6 + dice.choice((-1, 0, 1, 4))) + b'\0'


def emulator_record(dice):
    kind = dice.choice((2, 2, 3))
    emulator = rarely(dice, dice.choice((0, 1, 1, 2)), dice.choice((3, (1 << 32) - 1)))
    index = rarely(dice, dice.choice((0, 0, 1, 255)), dice.choice((256, (1 << 32) - 1)))
    body = dice.randbytes(dice.randrange(20)) if kind == 3 else pairs(dice)
    if kind == 2 and dice.random() < 0.02:
        body = most_pairs(dice)
    return record(dice, kind, struct.pack('<II', emulator, index) + body)


def some_record(dice, may_be_emulator):
    if may_be_emulator and dice.random() < 0.8:
        return emulator_record(dice)
    kind = rarely(dice, 1 << 31 | dice.choice((0, 1, 2, 5, 6, dice.randrange(1 << 31))), dice.choice((4, 5, 6, 0x7fffffff)))
    return record(dice, kind, dice.randbytes(dice.choice((0, 1, 8, 13))))


def some_records(dice, may_be_emulator):
    return [some_record(dice, may_be_emulator) for _ in range(dice.choice((0, 0, 1, 1, 2, 4)))]


def header(dice):
    version = rarely(dice, 2, dice.choice((0, 1, 3, 0x02000000)))
    options = rarely(dice, dice.choice((0, 2, 0xfffffffe)), dice.choice((1, 3)))
    return b'LibxlFmt' + struct.pack('>II', version, options)


def wrapped(dice, image):
    """Header and records around the pieces of an image; a PV guest most often has no emulators."""
    may_be_emulator = image[1][:4] != b'\x01\0\0\0' or dice.random() < 0.1
    inner = [record(dice, 1, rarely(dice, b'', bytes(8))), *image]
    inner = rarely(dice, inner, dice.choice(([], inner + inner, inner + inner[:1])))
    before, behind = some_records(dice, may_be_emulator), some_records(dice, may_be_emulator)
    end = record(dice, 0, rarely(dice, b'', b'\0'))
    return [header(dice), *before, *inner, *behind, end]
