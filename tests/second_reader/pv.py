"""The part of the second reader that PV guests alone have: bodies, page tables, the whole guest, the blank form, records,
and what a guest becomes on restore.

A guest's `top` is the greatest E so far, `p2m` the list of its P2M frames, `vcpus` has the context of (vCPU, record type).
"""
import collections
import struct

from form import *

BLANK_SLOTS = range(256, 272)
SHARED_BLANK = 3096, 3104                    # the bytes of SHARED_INFO that the blank form has as zeros
RDX, GDT_FRAMES, GDT_ENTS, CTRLREG1, CTRLREG3 = 616, 4832, 4960, 4992, 5008     # offsets in a vCPU's context
L4_TABLES = 4, 12
NO_FRAME = (1 << 64) - 1                     # in a slot of a P2M frame: the PFN has no frame


def number_at(data, offset):
    return struct.unpack_from('<Q', data, offset)[0]


def with_number(data, offset, value):
    return data[:offset] + struct.pack('<Q', value) + data[offset + 8:]


# ---- page tables

def level_of(kind):
    """1 to 4 for a page table, pinned or not, and 0 for all else."""
    return kind % 8 if kind in (1, 2, 3, 4, 9, 10, 11, 12) else 0


def frame_in(entry):
    return entry >> 12 & (1 << 40) - 1


def with_frame(entry, frame):
    return entry - (frame_in(entry) << 12) + (frame << 12)


def present_entries(level, page):
    """The entries of a table that count, with their slots."""
    for slot, (entry,) in enumerate(struct.iter_unpack('<Q', page)):
        if entry & 1 and not (level == 4 and slot in BLANK_SLOTS):
            yield slot, entry


def entries_in(kind, page):
    """The entries that count in a frame of this type, with their slots; none where it is no table."""
    return list(present_entries(level_of(kind), page)) if level_of(kind) else []


def is_superpage(kind, entry):
    return level_of(kind) > 1 and entry >> 7 & 1


def judge_table(place, kind, page, top):
    """A page that was sent for the word of this place."""
    present = entries_in(kind, page)
    for slot, entry in present:
        refuse_if(is_superpage(kind, entry), '17 Superpage %d %d' % (place, slot))
    for slot, entry in present:
        refuse_if(frame_in(entry) > top, '18 EntryOutside %d %d %d' % (place, slot, frame_in(entry)))


# ---- bodies

def read_info(body):
    refuse_if(body[0] == 4, '19 Pv32')
    refuse_if(body[0] != 8 or body[1] != 4, '20 BadPvInfo')


def read_p2m(body, guest):
    first, last = struct.unpack_from('<II', body)
    count = last // 512 - first // 512 + 1
    refuse_if(first <= last and len(body) != 8 + 8 * count, '13 BadLength %d' % len(body))
    refuse_if(first != 0, '21 P2mStart %d' % first)
    guest['p2m'][:count] = struct.unpack_from('<%dQ' % count, body, 8)
    guest['top'] = max(guest['top'], last)


def read_vcpu(kind, body, guest):
    vcpu, context = struct.unpack_from('<I', body)[0], body[8:]
    refuse_if(vcpu >= VCPU_LIMIT, '23 VcpuId %d' % vcpu)
    if kind == BASIC and context:
        count = number_at(context, GDT_ENTS)
        refuse_if(count > MOST_GDT_ENTRIES, '24 GdtEnts %d' % count)
    if context:
        guest['vcpus'][vcpu, kind] = context


def read_body(kind, body, guest):
    if kind == PV_INFO:
        read_info(body)
    elif kind == P2M_FRAMES:
        read_p2m(body, guest)
    elif kind in VCPU:
        read_vcpu(kind, body, guest)
    elif kind == SHARED_INFO:
        guest['shared'] = body


# ---- the whole guest

def judge_parts(guest):
    refuse_if(not guest['p2m'], '27 Missing %d' % P2M_FRAMES)
    refuse_if('shared' not in guest, '27 Missing %d' % SHARED_INFO)
    refuse_if((0, BASIC) not in guest['vcpus'], '27 Missing %d' % BASIC)


def judge_p2m(guest, cause='28 P2mFrame'):
    in_use = {pfn // 512 for pfn in guest['frames']}      # the indices whose 512 PFNs aren't all absent
    seen = {}                                             # the PFNs listed so far: is one of their indices in use
    for index, pfn in enumerate(guest['p2m']):
        wrong = pfn > guest['top'] or guest['frames'].get(pfn, (None,))[0] != NOTAB
        again = pfn in seen and (seen[pfn] or index in in_use)
        refuse_if(wrong or again, cause + ' %d' % index)
        seen[pfn] = seen.get(pfn, False) or index in in_use


def judge_targets(frames):
    for pfn, (kind, page) in sorted(frames.items()):
        for slot, entry in entries_in(kind, page):
            refuse_if(frame_in(entry) not in frames, '29 TargetAbsent %d %d' % (pfn, slot))


def fields_of(vcpu, context, in_host=False):
    """Each field that is used, the PFN in it, and the page types that the PFN may have. In a host, machine frames are in place of
    PFNs, and ctrlreg[1] counts wherever it isn't 0."""
    if vcpu == 0:
        yield 0, number_at(context, RDX), (NOTAB,)
    for slot in range(-(-number_at(context, GDT_ENTS) // 512)):
        yield 1 + slot, number_at(context, GDT_FRAMES + 8 * slot), (NOTAB,)
    yield 17, number_at(context, CTRLREG3) // 4096, L4_TABLES
    user = number_at(context, CTRLREG1)
    if user if in_host else user & 1:
        yield 18, user // 4096, L4_TABLES


def judge_vcpus(guest):
    for (vcpu, kind), context in sorted(guest['vcpus'].items()):
        for field, pfn, kinds in fields_of(vcpu, context) if kind == BASIC else ():
            refuse_if(guest['frames'].get(pfn, (None,))[0] not in kinds, '30 VcpuFrame %d %d' % (vcpu, field))


def judge_guest(guest):
    judge_parts(guest)
    judge_p2m(guest)
    judge_targets(guest['frames'])
    judge_vcpus(guest)


# ---- what a stream means, and how it is written

def blank_frame(kind, page):
    if kind in L4_TABLES:
        page = page[:8 * BLANK_SLOTS.start] + bytes(8 * len(BLANK_SLOTS)) + page[8 * BLANK_SLOTS.stop:]
    return kind, page


def blank_context(context):
    root, user = number_at(context, CTRLREG3), number_at(context, CTRLREG1)
    context = with_number(context, CTRLREG3, root // 4096 * 4096)
    return with_number(context, CTRLREG1, user // 4096 * 4096 + 1 if user & 1 else 0)


def blank(guest):
    """The blank form of a whole guest."""
    frames = {pfn: blank_frame(*frame) for pfn, frame in guest['frames'].items()}
    frames.update((pfn, (NOTAB, bytes(PAGE))) for pfn in guest['p2m'])
    vcpus = {key: blank_context(context) if key[1] == BASIC else context for key, context in guest['vcpus'].items()}
    start, end = SHARED_BLANK
    shared = guest['shared'][:start] + bytes(end - start) + guest['shared'][end:]
    return {**guest, 'frames': frames, 'vcpus': vcpus, 'shared': shared}


def info_record():
    return record(PV_INFO, bytes((8, 4)), bytes(6))


def p2m_record(guest):
    return record(P2M_FRAMES, struct.pack('<II%dQ' % len(guest['p2m']), 0, guest['top'], *guest['p2m']))


def machine_records(guest):
    """What is behind the pages and X86_TSC_INFO."""
    vcpus = [record(kind, struct.pack('<II', vcpu, 0), context) for (vcpu, kind), context in sorted(guest['vcpus'].items())]
    return [record(SHARED_INFO, guest['shared']), *vcpus]


# ---- frames that get other names, from PFNs to machine frames or back; `names` has the new one of each

def renamed_table(kind, page, names):
    for slot, entry in entries_in(kind, page):
        page = with_number(page, 8 * slot, with_frame(entry, names[frame_in(entry)]))
    return page


def renamed_context(vcpu, context, names, in_host=False):
    for field, old, _ in fields_of(vcpu, context, in_host):
        new = names[old]
        places = {0: (RDX, new), 17: (CTRLREG3, new * 4096), 18: (CTRLREG1, new * 4096 + 1)}
        context = with_number(context, *places.get(field, (GDT_FRAMES + 8 * (field - 1), new)))
    return context


# ---- what a guest in blank form becomes on restore; `machine` has the machine frame of each PFN that has a frame


def restored_p2m(index, machine):
    """The page of a P2M frame that is listed at this index alone."""
    return struct.pack('<512Q', *(machine.get(pfn, NO_FRAME) for pfn in range(512 * index, 512 * index + 512)))


def restored_frames(guest, machine):
    frames, listed = dict(guest['frames']), collections.Counter(guest['p2m'])
    for pfn, (kind, page) in frames.items():
        frames[pfn] = kind, renamed_table(kind, page, machine)
    for index, pfn in enumerate(guest['p2m']):
        frames[pfn] = NOTAB, restored_p2m(index, machine) if listed[pfn] == 1 else b'\xff' * PAGE
    return frames


def restored(guest, machine):
    vcpus = {(vcpu, kind): renamed_context(vcpu, context, machine) if kind == BASIC else context
             for (vcpu, kind), context in guest['vcpus'].items()}
    return {**guest, 'frames': restored_frames(guest, machine), 'vcpus': vcpus}


def parts_of(guest):
    """The parts by their keys that PV guests alone have."""
    parts = {(kind, vcpu, 0): context for (vcpu, kind), context in guest['vcpus'].items()}
    parts[P2M_FRAMES, 0, 0] = struct.pack('<%dQ' % len(guest['p2m']), *guest['p2m'])
    parts[SHARED_INFO, 0, 0] = guest['shared']
    return parts
