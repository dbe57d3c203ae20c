"""Reads a file of `xl save` or a canonical stream record by record, without judging it, and lists in what two guests differ."""
import mmap
import os
import struct
import sys
from collections import namedtuple

TOP = os.path.dirname(os.path.dirname(os.path.dirname(os.path.realpath(__file__))))
sys.path.insert(0, TOP)

from front import headers  # noqa: E402

PAGE, PFN = 4096, (1 << 52) - 1
LIBXL_MAGIC = b'LibxlFmt'
LIBXL_FRONT = LIBXL_MAGIC + struct.pack('>II', 2, 0) + struct.pack('<II', 1, 0)   # version 2, then the head of LIBXC_CONTEXT
LIBXL_END = bytes(8)
LIBXL = {0: 'END', 1: 'LIBXC_CONTEXT', 2: 'EMULATOR_XENSTORE_DATA', 3: 'EMULATOR_CONTEXT', 4: 'CHECKPOINT_END'}
LIBXC = {0: 'END', 1: 'PAGE_DATA', 2: 'X86_PV_INFO', 3: 'X86_PV_P2M_FRAMES', 4: 'X86_PV_VCPU_BASIC', 5: 'X86_PV_VCPU_EXTENDED',
         6: 'X86_PV_VCPU_XSAVE', 7: 'SHARED_INFO', 8: 'X86_TSC_INFO', 9: 'HVM_CONTEXT', 10: 'HVM_PARAMS', 12: 'X86_PV_VCPU_MSRS',
         13: 'VERIFY', 16: 'STATIC_DATA_END', 17: 'X86_CPUID_POLICY', 18: 'X86_MSR_POLICY'}
ENTRIES = {1: 'HEADER', 2: 'CPU', 3: 'PIC', 4: 'IOAPIC', 5: 'LAPIC', 6: 'LAPIC_REGS', 7: 'PCI_IRQ', 8: 'ISA_IRQ', 9: 'PCI_LINK',
           10: 'PIT', 11: 'RTC', 12: 'HPET', 13: 'PMTIMER', 14: 'MTRR', 15: 'VIRIDIAN_DOMAIN', 16: 'CPU_XSAVE',
           17: 'VIRIDIAN_VCPU', 18: 'VMCE_VCPU', 19: 'TSC_ADJUST', 20: 'CPU_MSR'}
WITH_A_PAGE = 13                                     # page types below this one have a page in the stream

Guest = namedtuple('Guest', 'pages parts')           # pages by frame number as (type, bytes); other records as (name, bytes)


def mapped(path):
    with open(path, 'rb') as file:
        return mmap.mmap(file.fileno(), 0, access=mmap.ACCESS_READ)


def header_of(path):
    """All of xl's header with the configuration, and where the stream begins."""
    with open(path, 'rb') as file:
        front = file.read(headers.XL_LENGTH)
        if not front.startswith(headers.XL_MAGIC):
            return b'', 0
        return front + file.read(headers.xl_header(front).length), headers.xl_header(front).stream_begins


def pages_of(body):
    count, = struct.unpack_from('<I', body)
    at = 8 + 8 * count
    for word in struct.unpack_from('<%dQ' % count, body, 8):
        if word >> 60 < WITH_A_PAGE:
            yield word & PFN, (word >> 60, body[at:at + PAGE])
            at += PAGE
        elif word >> 60 != 15:                       # 15: there is no such frame
            yield word & PFN, (word >> 60, b'')


def image_from(data, at, guest):
    """Reads the records of an image; where it ends."""
    while True:
        kind, length = struct.unpack_from('<II', data, at)
        body, at = data[at + 8:at + 8 + length], at + 8 + (length + 7) // 8 * 8
        if kind == 0:
            return at
        if kind == 1:
            guest.pages.update(pages_of(memoryview(body)))
        else:
            guest.parts.append((LIBXC.get(kind, 'record %#x' % kind), body))


def guest_of(path):
    """The guest of a file, and the sizes and order of its records."""
    guest, data, at = Guest({}, []), mapped(path), header_of(path)[1]
    if data[at:at + 8] != LIBXL_MAGIC:
        image_from(data, at + 40, guest)             # 40 bytes of image and domain headers
        return guest
    at += 16
    while True:
        kind, length = struct.unpack_from('<II', data, at)
        if kind == 0:
            return guest
        if kind == 1:
            at = image_from(data, at + 8 + 40, guest)
            continue
        guest.parts.append(('libxl ' + LIBXL.get(kind, hex(kind)), data[at + 8:at + 8 + length]))
        at += 8 + (length + 7) // 8 * 8


def with_headers(original, stream, out):
    """A file that `xl restore` takes: xl's header of an original file, and a stream, with libxl's around a bare image."""
    front = header_of(original)[0]
    with open(stream, 'rb') as source, open(out, 'wb') as file:
        bare = source.read(8) != LIBXL_MAGIC
        source.seek(0)
        file.write(front + LIBXL_FRONT * bare)
        for block in iter(lambda: source.read(1 << 20), b''):
            file.write(block)
        file.write(LIBXL_END * bare)


def places(one, two):
    """Where two texts of bytes differ, as spans of offsets."""
    longest, spans = max(len(one), len(two)), []
    for offset in range(longest):
        if one[offset:offset + 1] != two[offset:offset + 1]:
            if spans and spans[-1][1] == offset:
                spans[-1][1] = offset + 1
            else:
                spans.append([offset, offset + 1])
    return spans


def spans_text(spans, most=12):
    text = ' '.join('%d' % first if end == first + 1 else '%d-%d' % (first, end - 1) for first, end in spans[:most])
    return '%d bytes, at %s%s' % (sum(end - first for first, end in spans), text, ' ..' * (len(spans) > most))


def entries_of(context):
    at, found = 0, {}
    while at + 8 <= len(context):
        kind, instance, length = struct.unpack_from('<HHI', context, at)
        found[kind, instance] = context[at + 8:at + 8 + length]
        at += 8 + length
    return found


def differing_entries(one, two):
    one, two = entries_of(one), entries_of(two)
    for key in sorted(set(one) | set(two)):
        if one.get(key) != two.get(key):
            name = '%s %d' % (ENTRIES.get(key[0], 'entry %d' % key[0]), key[1])
            yield 'HVM_CONTEXT ' + name, spans_text(places(one.get(key, b''), two.get(key, b'')))


def numbered(parts):
    """Records other than pages by name and number among those of the name, since those of vCPUs come several times."""
    found = {}
    for name, body in parts:
        found[name, sum(name == other for other, _ in found)] = body
    return found


def differing_parts(one, two):
    one, two = numbered(one), numbered(two)
    if set(one) != set(two):
        yield 'records', 'in one alone: ' + ', '.join('%s %d' % key for key in sorted(set(one) ^ set(two)))
    elif list(one) != list(two):
        yield 'order of records', ' '.join(name for name, _ in one) + ' became ' + ' '.join(name for name, _ in two)
    for name, number in one:
        left, right = one[name, number], two.get((name, number), one[name, number])
        if left != right and name == 'HVM_CONTEXT':
            yield from differing_entries(left, right)
        elif left != right:
            yield name if not number else '%s %d' % (name, number), spans_text(places(left, right))


def differences(one, two):
    """In what two guests differ: pairs of a name and a text. The pages come last, in one pair for each kind of difference."""
    yield from differing_parts(one.parts, two.parts)
    frames = set(one.pages) ^ set(two.pages)
    if frames:
        yield 'frames', 'in one alone: %d, such as %s' % (len(frames), [hex(pfn) for pfn in sorted(frames)[:6]])
    both = [pfn for pfn in one.pages if pfn in two.pages and one.pages[pfn] != two.pages[pfn]]
    types = [pfn for pfn in both if one.pages[pfn][0] != two.pages[pfn][0]]
    if types:
        yield 'page types', '%d frames, such as %s' % (len(types), [hex(pfn) for pfn in types[:6]])
    pages = [pfn for pfn in both if one.pages[pfn][0] == two.pages[pfn][0]]
    if pages:
        shown = ', '.join('%#x' % pfn for pfn in sorted(pages)[:8])
        yield 'pages', '%d of %d, %s%s' % (len(pages), len(one.pages), shown, ' ..' * (len(pages) > 8))


def frame_that_begins(guest, front):
    """The frame numbers of pages that begin with these bytes."""
    return [pfn for pfn, (_, page) in guest.pages.items() if page[:len(front)] == front]
