"""A second reader of streams, written from the format's documents and from docs/, and not from the program.

`read(bytes)` answers the stream and no line, or none and the line of its refusal (without the end of the line). Of a
stream that was read, `canonical(guest)` and `image(guest, base)` are what `normalise` and `restore BASE` have to
write, and `summary(stream)` is the line of `verify`. It is short and slow, and holds everything in memory. What PV guests
alone have stands in pv.py, the wrapper of libxl in libxl.py, and what legacy streams have in legacy.py.
"""
import collections
import struct

import libxl
import pv
from form import *

MARKER = b'\xff' * 8

# type: the kinds of guest that have it, and the body lengths that it may have
TABLE = {
    END: ((PV, HVM), lambda n: n == 0),
    PAGE_DATA: ((PV, HVM), lambda n: n >= 8),
    PV_INFO: ((PV,), lambda n: n == 8),
    P2M_FRAMES: ((PV,), lambda n: n >= 8),
    BASIC: ((PV,), lambda n: n in (8, 5176)),
    EXTENDED: ((PV,), lambda n: n >= 8),
    XSAVE: ((PV,), lambda n: n >= 8),
    SHARED_INFO: ((PV,), lambda n: n == 4096),
    TSC_INFO: ((PV, HVM), lambda n: n == 24),
    CONTEXT: ((HVM,), lambda n: True),
    PARAMS: ((HVM,), lambda n: n >= 8),
    VCPU_MSRS: ((PV,), lambda n: n >= 8 and (n - 8) % 16 == 0),
    VERIFY: ((PV, HVM), lambda n: n == 0),
    STATIC_DATA_END: ((PV, HVM), lambda n: n == 0),
    CPUID_POLICY: ((PV, HVM), lambda n: n % 24 == 0 and n <= 65536 * 24),
    MSR_POLICY: ((PV, HVM), lambda n: n % 16 == 0 and n <= 65536 * 16),
}
UNSUPPORTED = (11, 14, 15)
STATIC = (PV_INFO, CPUID_POLICY, MSR_POLICY)
CONTENT = (END, PAGE_DATA, P2M_FRAMES, *VCPU, SHARED_INFO, CONTEXT, PARAMS, VERIFY)

# the image's version, the guest that is meant, the number of the image's records with END, and how many entries behind a
# VERIFY differ from the frames that were sent before it, or None where there is no VERIFY
Stream = collections.namedtuple('Stream', 'version guest records differs')


def broken_rule(version, guest_kind, before, kind):
    """The least rule of order that a record of this type breaks behind records of these types, or 0."""
    ended = STATIC_DATA_END in before
    content = any(other in CONTENT for other in before)
    broken = {
        1: kind == STATIC_DATA_END and ended,
        2: (kind in STATIC and ended) or (kind in (*STATIC, STATIC_DATA_END) and content),
        3: version == 3 and kind in CONTENT and not ended,
        4: kind == PV_INFO and PV_INFO in before,
        5: kind == P2M_FRAMES and PV_INFO not in before,
        6: guest_kind == PV and kind == PAGE_DATA and P2M_FRAMES not in before,
        7: kind == PAGE_DATA and any(other in VCPU for other in before),
        8: kind == VERIFY and any(other in (VERIFY, *VCPU) for other in before),
    }
    return min((rule for rule in broken if broken[rule]), default=0)


def judge_head(version, guest_kind, before, kind, length):
    refuse_if(length > MOST_BODY, '8 BodyTooLong %d' % length)
    if not is_optional(kind):
        refuse_if(kind in UNSUPPORTED, '9 Unsupported %d' % kind)
        refuse_if(kind not in TABLE, '10 UnknownMandatory %d' % kind)
        kinds, allows = TABLE[kind]
        refuse_if(guest_kind not in kinds, '11 WrongKind %d' % kind)
        rule = broken_rule(version, guest_kind, before, kind)
        refuse_if(rule, '12 OutOfOrder %d' % rule)
        refuse_if(not allows(length), '13 BadLength %d' % length)
    refuse_if(len(before) >= MOST_RECORDS, '31 TooManyRecords')


def end_of_chain(body, cause):
    """The offset of the entry that ends an HVM context; a fault in the chain is refused with this cause."""
    offset = 0
    while True:
        refuse_if(offset >= len(body), cause + (' NoEnd' if offset else ' NoHeader'))
        refuse_if(len(body) - offset < 8, cause + ' ShortEntry %d' % offset)
        typecode, _, length = struct.unpack_from('<HHI', body, offset)
        if offset == 0:
            refuse_if(typecode != 1, cause + ' NoHeader')
            refuse_if(length != 24, cause + ' HeaderSize %d' % length)
        if typecode == 0:
            return offset
        refuse_if(offset + 8 + length > len(body), cause + ' ShortEntry %d' % offset)
        offset += 8 + length


def judge_words(words, guest):
    for entry, (kind, _) in enumerate(words):
        refuse_if(5 <= kind <= 8, '15 BadPageType %d %d' % (entry, kind))
    if guest['kind'] == PV:
        for entry, (_, pfn) in enumerate(words):
            refuse_if(pfn > guest['top'], '16 PfnOutside %d %d' % (entry, pfn))


def send(frames, pfn, kind, page):
    if kind == XTAB:
        frames.pop(pfn, None)
    else:
        frames[pfn] = kind, page


def differs(frames, pfn, kind, page):
    """Whether an entry that is sent again says another frame than there is, or one where there is none, or none where there is one."""
    return frames.get(pfn) != (None if kind == XTAB else (kind, page))


def read_pages(source, length, guest, is_checked):
    """Sets the frames of a PAGE_DATA; or where they are sent again to be checked, answers how many of them differ."""
    count, _ = struct.unpack('<II', source.take(8))
    refuse_if(length < 8 + 8 * count, '13 BadLength %d' % length)
    refuse_if(count == 0, '14 NoPages')
    words = [(word >> 60, word % (1 << 52)) for word in struct.unpack('<%dQ' % count, source.take(8 * count))]
    judge_words(words, guest)
    refuse_if(length != 8 + 8 * count + PAGE * sum(has_page(kind) for kind, _ in words), '13 BadLength %d' % length)
    different = 0
    for entry, (kind, pfn) in enumerate(words):
        page = source.take(PAGE) if has_page(kind) else b''
        if guest['kind'] == HVM and has_page(kind):
            kind = NOTAB
        pv.judge_table(entry, kind, page, guest['top'])
        if is_checked:
            different += differs(guest['frames'], pfn, kind, page)
        else:
            send(guest['frames'], pfn, kind, page)
    return different


def read_params(body, params):
    count, = struct.unpack_from('<I', body)
    refuse_if(len(body) != 8 + 16 * count, '13 BadLength %d' % len(body))
    pairs = list(struct.iter_unpack('<QQ', body[8:]))
    for index, _ in pairs:
        refuse_if(index >= 4096, '26 ParamIndex %d' % index)
    params.update(pairs)


def read_part(kind, body, guest):
    """The body of a record that may set parts of a guest."""
    if kind == TSC_INFO:
        guest['tsc'] = body[:20]
    elif kind == CONTEXT:
        guest['context'] = body[:end_of_chain(body, '25 BadContext')] + bytes(8)
    elif kind == PARAMS:
        read_params(body, guest['params'])
    elif kind == CPUID_POLICY and body:
        guest['cpuid'] = {(leaf, subleaf): rest for leaf, subleaf, rest in struct.iter_unpack('<II16s', body)}
    elif kind == MSR_POLICY and body:
        guest['msrs'] = {index: rest for index, rest in struct.iter_unpack('<I12s', body)}
    elif guest['kind'] == PV:
        pv.read_body(kind, body, guest)


def judge_guest(guest):
    """The whole guest, at END."""
    if guest['kind'] == PV:
        pv.judge_guest(guest)
    else:
        refuse_if('context' not in guest, '27 Missing 9')
    refuse_if(len(guest['frames']) > MOST_FRAMES, '32 TooManyFrames')


def read_body(source, kind, length, guest, is_checked):
    """Answers how many entries differ, of a PAGE_DATA that is checked."""
    different = 0
    if is_optional(kind):
        source.take_body(kind, length)
    elif kind == END:
        if source.keeps_guest:
            judge_guest(guest)
    elif kind == PAGE_DATA:
        different = read_pages(source, length, guest, is_checked)
    else:
        read_part(kind, source.take_body(kind, length), guest)
    source.take(-length % 8)
    return different


def policy_records(guest):
    out = []
    if guest['cpuid']:
        out.append(record(CPUID_POLICY, *(struct.pack('<II', *key) + rest for key, rest in sorted(guest['cpuid'].items()))))
    if guest['msrs']:
        out.append(record(MSR_POLICY, *(struct.pack('<I', key) + rest for key, rest in sorted(guest['msrs'].items()))))
    return out


def page_records(guest):
    out, frames = [], sorted(guest['frames'].items())
    for at in range(0, len(frames), 1024):
        batch = frames[at:at + 1024]
        words = [struct.pack('<Q', kind << 60 | pfn) for pfn, (kind, _) in batch]
        out.append(record(PAGE_DATA, struct.pack('<II', len(batch), 0), *words, *(page for _, (_, page) in batch)))
    return out


def machine_records(guest):
    """What an HVM guest has behind the pages and X86_TSC_INFO."""
    pairs = sorted(guest['params'].items())
    params = [record(PARAMS, struct.pack('<II', len(pairs), 0), *(struct.pack('<QQ', *pair) for pair in pairs))]
    return (params if pairs else []) + [record(CONTEXT, guest['context'])]


def canonical_image(guest, pages=None):
    """The canonical image of a guest; or, where there are records of pages, the image with these in place of its own."""
    is_pv = guest['kind'] == PV
    out = [MARKER, b'XENF', struct.pack('>IHHI', 3, 0, 0, 0), struct.pack('<IHHII', guest['kind'], 12, 0, 0, 1)]
    out += [pv.info_record()] if is_pv else []
    out += policy_records(guest) + [record(STATIC_DATA_END)]
    out += [pv.p2m_record(guest)] if is_pv else []
    out += page_records(guest) if pages is None else pages
    out += [record(TSC_INFO, guest['tsc'], bytes(4))] if 'tsc' in guest else []
    out += (pv.machine_records if is_pv else machine_records)(guest)
    return b''.join(out + [record(END)])


def canonical(guest, pages=None):
    """The same for the stream of a guest."""
    image = canonical_image(guest, pages)
    return libxl.wrapped(guest['emulators'], image) if guest['emulators'] else image


def part(key, data):
    return struct.pack('<IIII', *key, len(data)) + data + bytes(-len(data) % 8)


def hvm_parts(guest):
    params = {(PARAMS, index, 0): struct.pack('<Q', value) for index, value in guest['params'].items()}
    return {(CONTEXT, 0, 0): guest['context'], **params}


def parts_of(guest):
    """The parts by their keys: code and two numbers."""
    parts = (pv.parts_of if guest['kind'] == PV else hvm_parts)(guest)
    if 'tsc' in guest:
        parts[TSC_INFO, 0, 0] = guest['tsc']
    parts.update(((CPUID_POLICY, *key), rest) for key, rest in guest['cpuid'].items())
    parts.update(((MSR_POLICY, index, 0), rest) for index, rest in guest['msrs'].items())
    parts.update(libxl.parts_of(guest['emulators']))
    return parts


def image(guest, base):
    """The image of a guest, with machine frames counted up from the base."""
    machine = {pfn: base + rank for rank, pfn in enumerate(sorted(guest['frames']))}
    width = max(guest['frames'], default=-1) + 1
    if guest['kind'] == PV:
        guest, width = pv.restored(guest, machine), guest['top'] + 1
    frames, parts = sorted(guest['frames'].items()), sorted(parts_of(guest).items())
    out = [b'XGIMAGE2', struct.pack('<IIQQ', guest['kind'], 0, width, len(frames))]
    for pfn, (kind, page) in frames:
        zeros = bool(page) and not any(page)         # a page of zeros is left out
        out.append(struct.pack('<QQ', kind << 60 | zeros << 52 | pfn, machine[pfn]) + (b'' if zeros else page))
    return b''.join(out + [struct.pack('<Q', len(parts))] + [part(*it) for it in parts])


def summary(stream):
    """The line of `verify`."""
    kind = {PV: 'pv', HVM: 'hvm'}[stream.guest['kind']]
    line = 'ok version %d kind %s frames %d records %d' % (stream.version, kind, len(stream.guest['frames']), stream.records)
    return line if stream.differs is None else '%s differs %d' % (line, stream.differs)


def empty_guest(kind):
    guest = {'kind': kind, 'top': 0, 'frames': {}, 'cpuid': {}, 'msrs': {}, 'emulators': {}}
    return {**guest, 'p2m': [], 'vcpus': {}} if kind == PV else {**guest, 'params': {}}


def read_headers(source):
    """What stands of the two headers behind the marker; answers the version and the kind of guest."""
    name, version, options = struct.unpack_from('>4sIH', source.take(16))
    refuse_if(name != b'XENF', '3 BadId')
    refuse_if(version not in (2, 3), '4 BadVersion %d' % version)
    refuse_if(options & 1, '5 BigEndian')
    source.place, source.version = 'DomainHeader', version
    kind, shift = struct.unpack_from('<IH', source.take(16))
    refuse_if(kind not in (PV, HVM), '6 BadKind %d' % kind)
    refuse_if(shift != 12, '7 BadPageShift %d' % shift)
    source.kind = kind
    return version, kind


def read_behind_marker(source):
    version, guest_kind = read_headers(source)
    guest, before, different = empty_guest(guest_kind), [], 0
    while END not in before:
        source.place = 'Record %d' % len(before)
        kind, length = struct.unpack('<II', source.take(8))
        judge_head(version, guest_kind, before, kind, length)
        different += read_body(source, kind, length, guest, VERIFY in before)
        source.stands(kind, length)
        before.append(kind)
    meant = pv.blank(guest) if guest_kind == PV and source.keeps_guest else guest
    return Stream(version, meant, len(before), different if VERIFY in before else None)


def read_image(source):
    """An image, marker and all."""
    source.place = 'ImageHeader'
    refuse_if(source.take(8) != MARKER, '2 NotStream')
    return read_behind_marker(source)


def read_either(source):
    """A bare image, or one in the wrapper of libxl."""
    first = source.take(8)
    if first == libxl.IDENT:
        return libxl.read_behind_ident(source, read_image)
    refuse_if(first != MARKER, '2 NotStream')
    return read_behind_marker(source)


def read(data):
    source = Input(data)
    try:
        return read_either(source), ''
    except Refused as cause:
        return None, 'refused: %s: %s' % (source.place, cause)
