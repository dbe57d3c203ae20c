"""The part of the second reader that reads guest images, and brings the host in one to the guest that it is seen as.

A host has a kind, a width, frames (type, machine frame and page by frame number) and parts (bytes by code and two keys).
"""
import struct

import libxl
import pv
import reader
from form import *

NAMES = {b'XGIMAGE1': 1, b'XGIMAGE2': 2}
MOST_SAVED_WIDTH, MOST_WIDTH_OF_ONE, MOST_PV_WIDTH = 1 << 28, 1 << 28, 1 << 32
XALLOC, PAIRS, EMULATOR = 14, 258, 259

# code: the kinds of guest that have it, whether these are its keys, and whether this is a length of it in a host so wide
PARTS = {
    P2M_FRAMES: ((PV,), lambda one, two: one == two == 0, lambda n, width: n == 8 * ((width - 1) // 512 + 1)),
    BASIC: ((PV,), lambda one, two: one < VCPU_LIMIT and two == 0, lambda n, _: n == 5168),
    EXTENDED: ((PV,), lambda one, two: one < VCPU_LIMIT and two == 0, lambda n, _: 1 <= n <= MOST_BODY - 8),
    XSAVE: ((PV,), lambda one, two: one < VCPU_LIMIT and two == 0, lambda n, _: 1 <= n <= MOST_BODY - 8),
    SHARED_INFO: ((PV,), lambda one, two: one == two == 0, lambda n, _: n == PAGE),
    TSC_INFO: ((PV, HVM), lambda one, two: one == two == 0, lambda n, _: n == 20),
    CONTEXT: ((HVM,), lambda one, two: one == two == 0, lambda n, _: n <= MOST_BODY),
    PARAMS: ((HVM,), lambda one, two: one < VCPU_LIMIT and two == 0, lambda n, _: n == 8),
    VCPU_MSRS: ((PV,), lambda one, two: one < VCPU_LIMIT and two == 0, lambda n, _: n % 16 == 0 and 16 <= n <= MOST_BODY - 16),
    CPUID_POLICY: ((PV, HVM), lambda one, two: True, lambda n, _: n == 16),
    MSR_POLICY: ((PV, HVM), lambda one, two: two == 0, lambda n, _: n == 12),
    PAIRS: ((HVM,), lambda one, two: one < 3 and two < 256, lambda n, _: 1 <= n <= MOST_PAIRS),
    EMULATOR: ((HVM,), lambda one, two: one < 3 and two < 256, lambda n, _: n <= MOST_BODY - 8),
}


def types_of(kind):
    """The numbers of the page types that frames of such a host may have."""
    return (NOTAB, BROKEN, XALLOC) if kind == HVM else (0, 1, 2, 3, 4, 9, 10, 11, 12, BROKEN, XALLOC)


def read_head(source, widest):
    name, kind, zero, width, count = struct.unpack('<8sIIQQ', source.take(32))
    refuse_if(name not in NAMES, '2 NotImage')
    refuse_if(kind not in (PV, HVM), '3 BadKind %d' % kind)
    refuse_if(zero, '4 Reserved')
    refuse_if(width > widest or NAMES[name] == 1 and width > MOST_WIDTH_OF_ONE, '5 Width %d' % width)
    refuse_if(kind == PV and not 0 < width <= MOST_PV_WIDTH, '5 Width %d' % width)
    refuse_if(count > MOST_FRAMES or count > width, '6 FrameCount %d' % count)
    return NAMES[name], {'kind': kind, 'width': width, 'frames': {}, 'parts': {}}, count


def word_of_one(head):
    """What the head of a frame says in version 1: type, PFN, and whether the page is left out."""
    word, zero = struct.unpack_from('<II', head)
    refuse_if(zero, '4 Reserved')
    return word >> 28, word % (1 << 28), False


def word_of_two(head):
    """The same in version 2."""
    word, = struct.unpack_from('<Q', head)
    kind, zeros = word >> 60, bool(word >> 52 & 1)
    refuse_if(word >> 53 & 0x7f or zeros and kind >= BROKEN, '4 Reserved')
    return kind, word % (1 << 52), zeros


def read_page(source, version, kind, pfn, zeros):
    if not has_page(kind):
        return b''
    if zeros:
        return bytes(PAGE)
    page = source.take(PAGE)
    refuse_if(version == 2 and not any(page), '18 ZeroPage %d' % pfn)
    return page


def read_frame(source, version, host, machine):
    head = source.take(16)
    kind, pfn, zeros = (word_of_one, word_of_two)[version - 1](head)
    mfn, = struct.unpack_from('<Q', head, 8)
    refuse_if(kind not in types_of(host['kind']), '7 BadPageType %d' % kind)
    refuse_if(host['frames'] and pfn <= next(reversed(host['frames'])), '8 FrameOrder %d' % pfn)
    refuse_if(pfn >= host['width'], '9 FrameOutside %d' % pfn)
    refuse_if(not 0 < mfn < MACHINE_LIMIT, '10 MachineFrame %d' % mfn)
    refuse_if(mfn in machine, '11 MachineTwice %d' % mfn)
    machine.add(mfn)
    host['frames'][pfn] = kind, mfn, read_page(source, version, kind, pfn, zeros)


def are_canonical_pairs(text):
    try:
        return libxl.spelled(libxl.read_pairs(text)) == text
    except Refused:
        return False


def read_part(source, host):
    code, one, two, length = struct.unpack('<IIII', source.take(16))
    kinds, keys, allows = PARTS.get(code, ((), None, None))
    refuse_if(host['kind'] not in kinds or not keys(one, two), '12 PartKey %d' % code)
    refuse_if(host['parts'] and (code, one, two) <= next(reversed(host['parts'])), '13 PartOrder %d' % code)
    many = sum(key[0] == code for key in host['parts']) >= MOST_POLICY_ENTRIES
    refuse_if(many and code in (CPUID_POLICY, MSR_POLICY), '14 PartMany %d' % code)
    refuse_if(not allows(length, host['width']), '15 PartLength %d' % length)
    data = source.take(length)
    refuse_if(code == PAIRS and not are_canonical_pairs(data), '16 PartBytes')
    refuse_if(any(source.take(-length % 8)), '17 PartPadding')
    host['parts'][code, one, two] = data


def read_host(source, widest=MOST_SAVED_WIDTH):
    """The host, no wider than this, in the image of either version that the input begins with."""
    source.place = 'Head'
    version, host, count = read_head(source, widest)
    machine = set()
    for number in range(count):
        source.place = 'Frame %d' % number
        read_frame(source, version, host, machine)
    source.place = 'Parts'
    count, = struct.unpack('<Q', source.take(8))
    for number in range(count):
        source.place = 'Part %d' % number
        read_part(source, host)
    return host


# ---- the guest that a host is seen as

def with_parts_of_both(host):
    """A guest with the host's policies and X86_TSC_INFO."""
    guest, parts = reader.empty_guest(host['kind']), host['parts']
    guest['cpuid'] = {key[1:]: data for key, data in parts.items() if key[0] == CPUID_POLICY}
    guest['msrs'] = {key[1]: data for key, data in parts.items() if key[0] == MSR_POLICY}
    if (TSC_INFO, 0, 0) in parts:
        guest['tsc'] = parts[TSC_INFO, 0, 0]
    return guest


def hvm_guest_of(host):
    parts = host['parts']
    refuse_if((CONTEXT, 0, 0) not in parts, '1 Missing 9')
    context = parts[CONTEXT, 0, 0]
    guest = with_parts_of_both(host)
    guest['context'] = context[:reader.end_of_chain(context, '7 BadContext')] + bytes(8)
    guest['frames'] = {pfn: (kind, page) for pfn, (kind, _, page) in host['frames'].items()}
    guest['params'] = {key[1]: struct.unpack('<Q', data)[0] for key, data in parts.items() if key[0] == PARAMS}
    guest['emulators'] = {(one, two, code - 256): data for (code, one, two), data in parts.items() if code in (PAIRS, EMULATOR)}
    return guest


def judge_tables(frames, pfns):
    """`pfns` has the frame number of each machine frame that has one."""
    entries = [(pfn, slot, kind, entry) for pfn, (kind, page) in sorted(frames.items()) for slot, entry in pv.entries_in(kind, page)]
    for pfn, slot, kind, entry in entries:
        refuse_if(pv.is_superpage(kind, entry), '3 Superpage %d %d' % (pfn, slot))
    for pfn, slot, _, entry in entries:
        refuse_if(pv.frame_in(entry) not in pfns, '4 NoFrame %d %d' % (pfn, slot))


def judge_contexts(contexts, frames, pfns):
    """The contexts of the vCPUs by their numbers."""
    for vcpu, context in sorted(contexts.items()):
        count = pv.number_at(context, pv.GDT_ENTS)
        refuse_if(count > MOST_GDT_ENTRIES, '5 GdtEnts %d %d' % (vcpu, count))
    for vcpu, context in sorted(contexts.items()):
        for field, mfn, kinds in pv.fields_of(vcpu, context, in_host=True):
            refuse_if(frames.get(pfns.get(mfn), (None,))[0] not in kinds, '6 VcpuFrame %d %d' % (vcpu, field))


def pv_guest_of(host):
    parts, guest = host['parts'], with_parts_of_both(host)
    for code in (P2M_FRAMES, SHARED_INFO, BASIC):
        refuse_if((code, 0, 0) not in parts, '1 Missing %d' % code)
    guest['top'], guest['shared'] = host['width'] - 1, parts[SHARED_INFO, 0, 0]
    guest['p2m'] = [pfn for pfn, in struct.iter_unpack('<Q', parts[P2M_FRAMES, 0, 0])]
    frames = guest['frames'] = {pfn: (kind, page) for pfn, (kind, _, page) in host['frames'].items()}
    pv.judge_p2m(guest, '2 P2mFrame')
    pfns = {mfn: pfn for pfn, (_, mfn, _) in host['frames'].items()}
    judge_tables(frames, pfns)
    judge_contexts({key[1]: data for key, data in parts.items() if key[0] == BASIC}, frames, pfns)
    guest['frames'] = {pfn: (kind, pv.renamed_table(kind, page, pfns)) for pfn, (kind, page) in frames.items()}
    guest['vcpus'] = {(vcpu, code): pv.renamed_context(vcpu, data, pfns, in_host=True) if code == BASIC else data
                      for (code, vcpu, _), data in parts.items() if code in VCPU}
    return pv.blank(guest)


def guest_of(host):
    """The guest that a host is seen as; a host that isn't sound is refused."""
    return (pv_guest_of if host['kind'] == PV else hvm_guest_of)(host)
