"""The part of the second reader that has the wrapper of libxl: its header and records, the state of emulators, and how a
guest with emulators is written.

A guest's `emulators` has bytes by id, index and record type: an emulator's pairs in canonical form, its context.
"""
import string
import struct

from form import *

IDENT = b'LibxlFmt'
VERSION, BIG_ENDIAN, FROM_LEGACY = 2, 1, 2           # the two last are bits of the options
LIBXL_END, LIBXC_CONTEXT, XENSTORE_DATA, EMULATOR_CONTEXT = range(4)
EMULATOR_RECORDS = XENSTORE_DATA, EMULATOR_CONTEXT
UNSUPPORTED = 4, 5                                   # CHECKPOINT_END, CHECKPOINT_STATE
FIRST_UNKNOWN = 6
EMULATOR_LIMIT, INDEX_LIMIT = 3, 256
KEY_BYTES = (string.ascii_letters + string.digits + '-/_@').encode()


def may_have_length(kind, length):
    return length >= 8 if kind in EMULATOR_RECORDS else length == 0


def judge_head(before, guest, kind, length):
    """A record's head behind records of these types; `guest` is the image's, or none before it came."""
    refuse_if(length > MOST_BODY, '8 BodyTooLong %d' % length)
    if not is_optional(kind):
        refuse_if(kind in UNSUPPORTED, '9 Unsupported %d' % kind)
        refuse_if(kind >= FIRST_UNKNOWN, '10 UnknownMandatory %d' % kind)
        refuse_if(not may_have_length(kind, length), '13 BadLength %d' % length)
    refuse_if(len(before) >= MOST_RECORDS, '31 TooManyRecords')
    if kind == LIBXL_END and guest and guest['kind'] == PV:
        refuse_if(any(other in EMULATOR_RECORDS for other in before), '36 EmulatorForPv')
    refuse_if(kind == LIBXL_END and not guest or kind == LIBXC_CONTEXT and guest, '37 ContextCount')


# ---- pairs of texts

def read_pairs(text):
    """The value of each key; of a key that stands twice the last."""
    *texts, torn = text.split(b'\0')
    refuse_if(torn or len(texts) % 2, '33 BadPairs %d' % (len(text) - len(torn)))
    pairs, offset = {}, 0
    for key, value in zip(texts[::2], texts[1::2]):
        bad = key.lstrip(KEY_BYTES)                  # what is left begins with the first byte that no key has
        refuse_if(bad or not key, '34 BadKey %d' % (offset + len(key) - len(bad)))
        pairs[key] = value
        offset += len(key) + len(value) + 2
    return pairs


def spelled(pairs):
    return b''.join(key + b'\0' + value + b'\0' for key, value in sorted(pairs.items()))


# ---- the state of emulators

def read_emulator_pairs(body, emulators, keeps_guest):
    emulator, index = struct.unpack_from('<II', body)
    pairs = read_pairs(body[8:])
    refuse_if(emulator >= EMULATOR_LIMIT, '35 BadEmulator %d' % emulator)
    key = emulator, index, XENSTORE_DATA
    text = spelled({**read_pairs(emulators.get(key, b'')), **pairs})
    refuse_if(len(text) > MOST_PAIRS and keeps_guest, '38 TooManyPairs')
    refuse_if(index >= INDEX_LIMIT, '39 EmulatorIndex %d' % index)
    if pairs:
        emulators[key] = text


def read_emulator_context(body, emulators):
    emulator, index = struct.unpack_from('<II', body)
    refuse_if(emulator >= EMULATOR_LIMIT, '35 BadEmulator %d' % emulator)
    refuse_if(index >= INDEX_LIMIT, '39 EmulatorIndex %d' % index)
    emulators[emulator, index, EMULATOR_CONTEXT] = body[8:]


def read_body(source, kind, length, emulators):
    body = source.take_body(kind, length, is_wrapped=True)
    if kind == XENSTORE_DATA:
        read_emulator_pairs(body, emulators, source.keeps_guest)
    elif kind == EMULATOR_CONTEXT:
        read_emulator_context(body, emulators)
    source.take(-length % 8)


# ---- the whole wrapper

def read_header(source):
    source.place = 'LibxlHeader'
    version, options = struct.unpack('>II', source.take(8))
    refuse_if(version != VERSION, '4 BadVersion %d' % version)
    refuse_if(options & BIG_ENDIAN, '5 BigEndian')


def read_behind_ident(source, read_image):
    """The stream in the wrapper; `read_image` reads the image in it."""
    read_header(source)
    before, stream, emulators = [], None, {}
    while LIBXL_END not in before:
        source.place = 'LibxlRecord %d' % len(before)
        kind, length = struct.unpack('<II', source.take(8))
        judge_head(before, stream and stream.guest, kind, length)
        if kind != LIBXC_CONTEXT:
            read_body(source, kind, length, emulators)
        source.stands(kind, length, is_wrapped=True)
        if kind == LIBXC_CONTEXT:                    # it has no body, and the image follows it
            stream = read_image(source)
        before.append(kind)
    stream.guest['emulators'] = emulators
    return stream


def wrapped(emulators, image):
    """The canonical stream of a guest with emulators."""
    options = FROM_LEGACY if any(emulator == 0 for emulator, _, _ in emulators) else 0
    out = [IDENT, struct.pack('>II', VERSION, options), record(LIBXC_CONTEXT), image]
    for (emulator, index, kind), data in sorted(emulators.items()):
        out.append(record(kind, struct.pack('<II', emulator, index), data))
    return b''.join(out + [record(LIBXL_END)])


def parts_of(emulators):
    """The parts by their keys."""
    return {(256 + kind, emulator, index): data for (emulator, index, kind), data in emulators.items()}
