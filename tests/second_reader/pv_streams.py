"""Streams of PV guests that are made at random. Each has a small whole guest, with one thing about it changed or none. The
records that say it have frames sent twice, lists of P2M frames in parts, and any order that may be taken."""
import struct

from form import MOST_GDT_ENTRIES
from streams import headers, rarely, record, sent_again, some_record

TOPS = 15, 16, 100, 511, 512, 600, 1023, 1024, 1535
SLOTS = 0, 1, 255, 256, 263, 271, 272, 510, 511
TABLES = {1: 1, 2: 2, 3: 3, 4: 4, 9: 1, 10: 2, 11: 3, 12: 4}     # the level of each type of page table
LEVEL_4 = 4, 12
GDT_SIZES = 0, 1, 512, 513, MOST_GDT_ENTRIES - 1, MOST_GDT_ENTRIES
RDX, GDT_FRAMES, GDT_ENTS, CTRLREG1, CTRLREG3 = 616, 4832, 4960, 4992, 5008


class Guest:
    """Frames have type and page by PFN; `vcpus` has contexts by vCPU and record type."""

    def __init__(self, dice):
        self.top = dice.choice(TOPS)
        self.pfns = dice.sample(range(self.top + 1), 16) if dice.random() < 0.5 else list(range(self.top - 15, self.top + 1))
        dice.shuffle(self.pfns)
        self.ordinary, self.frames, self.left_out = [], {}, set()
        self.p2m = self.some_p2m(dice)
        self.take_ordinary(2)
        self.some_tables(dice)
        for _ in range(dice.randrange(4)):
            kind = dice.choice((0, 0, 1, 9, 13, 14))
            self.put(dice, self.pfns.pop(), kind)
        self.vcpus = {(vcpu, 4): self.some_context(dice, vcpu) for vcpu in {0, *dice.choice(((), (), (1,), (7, 4095)))}}
        for vcpu, kind in ((0, 5), (0, 6), (0, 12), (1, 5), (4095, 12)):
            if dice.random() < 0.3:
                self.vcpus[vcpu, kind] = dice.randbytes(16 * dice.randrange(3) if kind == 12 else dice.randrange(20))

    def take_ordinary(self, count):
        taken = [self.pfns.pop() for _ in range(count)]
        self.ordinary += taken
        self.frames.update((pfn, (0, bytes([pfn % 256]) * 4096)) for pfn in taken)
        return taken

    def some_p2m(self, dice):
        """A frame for each index with frames, and one for all others."""
        in_use = {pfn // 512 for pfn in self.pfns}
        self.spare, *frames = self.take_ordinary(1 + len(in_use))
        return [frames.pop() if index in in_use else self.spare for index in range(self.top // 512 + 1)]

    def some_tables(self, dice):
        """A table of each level; in most guests each leads to the one of the level below, at one slot or more."""
        below = None
        for level in (1, 2, 3, 4):
            pfn = self.pfns.pop()
            self.put(dice, pfn, level + dice.choice((0, 8)))
            if below is not None and dice.random() < 0.9:
                self.link(dice, pfn, below)
            below = pfn

    def link(self, dice, table, pfn):
        """Makes one of the table's slots that count name this frame."""
        kind, page = self.frames[table]
        at = 8 * dice.choice([slot for slot in SLOTS if not 256 <= slot < 272])
        self.frames[table] = kind, page[:at] + struct.pack('<Q', entry_of(dice, TABLES[kind], pfn)) + page[at + 8:]

    def put(self, dice, pfn, kind):
        self.frames[pfn] = kind, some_table(dice, TABLES[kind], list(self.frames)) if kind in TABLES else some_page(dice, kind)

    def of_kinds(self, kinds):
        return [pfn for pfn, (kind, _) in self.frames.items() if kind in kinds]

    def some_context(self, dice, vcpu):
        context = bytearray(dice.randbytes(8) * 646)
        entries = dice.choice(GDT_SIZES)
        root, user = (dice.choice(self.of_kinds(LEVEL_4)) << 12 for _ in range(2))
        used = [(GDT_FRAMES + 8 * slot, dice.choice(self.ordinary)) for slot in range(-(-entries // 512))]
        used += [(RDX, dice.choice(self.ordinary))] if vcpu == 0 else []
        used += [(CTRLREG1, dice.choice((user + 1, user + 0xfff, 0, dice.randrange(1 << 63) * 2)))]
        for offset, value in [*used, (GDT_ENTS, entries), (CTRLREG3, root + dice.choice((0, 5, 0xfff)))]:
            struct.pack_into('<Q', context, offset, value)
        return bytes(context)


def some_page(dice, kind):
    return b'' if kind in (13, 14, 15) else dice.randbytes(8) * 512


def entry_of(dice, level, pfn):
    """A present entry that may stand in a table of this level."""
    flags = dice.choice((1, 0x67, 0xfff if level == 1 else 0xf7f))
    return dice.choice((0, dice.randrange(1 << 12))) << 52 | pfn << 12 | flags


def some_table(dice, level, targets):
    """A table whose entries name these frames."""
    page = bytearray(4096)
    for slot in {*dice.sample(SLOTS, 4), dice.randrange(512)}:
        blank = level == 4 and 256 <= slot < 272
        absent = dice.randrange(1 << 63) * 2
        entry = dice.choice((entry_of(dice, level, dice.choice(targets)), absent, 0))
        struct.pack_into('<Q', page, 8 * slot, dice.randrange(1 << 64) if blank else entry)
    return bytes(page)


# ---- one thing changed; in some guests that leaves all as it may be

def some_pfn(dice, guest):
    absent = next((pfn for pfn in range(guest.top + 1) if pfn not in guest.frames), guest.top)
    present = list(guest.frames)
    outside = guest.top + 1, (1 << 28) - 1, 1 << 28, (1 << 40) - 1
    return dice.choice((dice.choice(present), dice.choice(present), absent, guest.top, *outside))


def change_entry(dice, guest):
    """An entry at one of the slots that tell: names another frame, or is a superpage."""
    pfn = dice.choice(guest.of_kinds(TABLES))
    kind, page = guest.frames[pfn]
    entry = entry_of(dice, TABLES[kind], some_pfn(dice, guest))
    if dice.random() < 0.3:
        entry |= 0x80
    at = 8 * dice.choice(SLOTS)
    guest.frames[pfn] = kind, page[:at] + struct.pack('<Q', entry) + page[at + 8:]


def change_p2m(dice, guest):
    pfn = dice.choice((some_pfn(dice, guest), dice.choice(guest.p2m), dice.choice(guest.p2m), 1 << 63))
    guest.p2m[dice.randrange(len(guest.p2m))] = pfn


def change_kind(dice, guest):
    pfn = dice.choice(list(guest.frames))
    del guest.frames[pfn]
    kind = dice.choice((0, 1, 2, 4, 10, 11, 12, 13, 14, 15))
    if kind != 15:
        guest.put(dice, pfn, kind)


def change_field(dice, guest):
    """A field of a vCPU's context: a frame, the size of the GDT, or whether ctrlreg[1] counts."""
    key = dice.choice([key for key in guest.vcpus if key[1] == 4])
    context = bytearray(guest.vcpus[key])
    gdt = [GDT_FRAMES + 8 * slot for slot in (0, 1, 12, 13, 14, 15)]
    offset = dice.choice((RDX, GDT_ENTS, GDT_ENTS, CTRLREG1, CTRLREG3, *gdt))
    value = some_pfn(dice, guest)
    if offset in (CTRLREG1, CTRLREG3):
        value = value << 12 | dice.randrange(1 << 12)
    if offset == GDT_ENTS:
        value = dice.choice((0, 511, 513, 7169, 7169, 1 << 32, (1 << 64) - 1))
    struct.pack_into('<Q', context, offset, value)
    guest.vcpus[key] = bytes(context)


def change_number(dice, guest):
    """A vCPU gets another number."""
    key = dice.choice(list(guest.vcpus))
    guest.vcpus[dice.choice((0, 1, 4095, 4096, (1 << 32) - 1)), key[1]] = guest.vcpus.pop(key)


def leave_out(dice, guest):
    guest.left_out.add(dice.choice((2, 3, 4, 7)))


def change_top(dice, guest):
    """Another greatest frame number, most often with a list of that length."""
    far = dice.choice((*[(1 << 32) - 1] * 8, 1 << 28, (1 << 28) - 1))
    guest.top = max(0, dice.choice((guest.top - 1, guest.top - 16, guest.top + 1, guest.top + 512, far)))
    if guest.top <= 1 << 28:
        guest.p2m = (guest.p2m + [guest.spare] * (guest.top // 512))[:guest.top // 512 + 1]


CHANGES = (*[change_entry] * 3, change_p2m, change_kind, *[change_field] * 2, change_number, leave_out, change_top)


# ---- the records

def info(dice):
    width, levels = rarely(dice, 8, dice.choice((0, 4, 7))), rarely(dice, 4, dice.choice((0, 3, 5)))
    return record(dice, 2, bytes((width, levels)) + dice.randbytes(6))


def p2m_record(dice, top, pfns):
    start = rarely(dice, 0, dice.choice((1, 512, top + 1))) % (1 << 32)
    return record(dice, 3, struct.pack('<II%dQ' % len(pfns), start, top, *pfns))


def shorter_list(dice, guest, pfns):
    """A list of some first P2M frames."""
    top = dice.choice((min(guest.top, 512 * len(pfns) - 1), dice.randrange(min(guest.top + 1, 512 * len(pfns)))))
    return p2m_record(dice, top, pfns[:top // 512 + 1])


def p2m_records(dice, guest):
    """Lists for before the pages and lists for among them. Behind the one that says all that the guest has, none says
    anything else; that one may come late."""
    whole = p2m_record(dice, guest.top, guest.p2m)
    others = [dice.choice((1, 3, 1 << 50)) for _ in guest.p2m[:8]]
    before = [shorter_list(dice, guest, others) for _ in range(dice.choice((0, 0, 1, 2)))]
    among = [shorter_list(dice, guest, guest.p2m) for _ in range(dice.choice((0, 0, 1, 2)))]
    return (before, [whole]) if before and dice.random() < 0.3 else ([*before, whole], among)


def entries(dice, guest):
    """Type, PFN and page of each entry that is sent: some frames twice, some that are taken away again."""
    last = [(kind, pfn, page) for pfn, (kind, page) in guest.frames.items()]
    dice.shuffle(last)
    first = []
    for _ in range(dice.choice((0, 1, 3))):
        pfn, kind = dice.choice(list(guest.frames)), dice.choice((0, 1, 2, 11, 12, 13, 15))
        page = some_table(dice, TABLES[kind], list(guest.frames)) if kind in TABLES else some_page(dice, kind)
        first.append((kind, pfn, page))
    if dice.random() < 0.3:
        pfn = dice.randrange(min(guest.top, 1 << 12) + 1)
        first += [] if pfn in guest.frames else [(0, pfn, bytes(4096))]
        last += [] if pfn in guest.frames else [(15, pfn, b'')]
    return first + last + rarely(dice, [], [(14, guest.top + 1, b'')])


def page_record(dice, batch):
    words = [kind << 60 | dice.choice((0, dice.randrange(256))) << 52 | pfn for kind, pfn, _ in batch]
    words[-1] ^= rarely(dice, 0, 1 << dice.randrange(60, 64))
    front = struct.pack('<II%dQ' % len(words), rarely(dice, len(words), dice.choice((0, 1))), dice.choice((0, 5)), *words)
    return record(dice, 1, front + b''.join(page for _, _, page in batch))


def page_records(dice, sent):
    out = []
    while sent:
        count = dice.choice((1, 3, 8, 20))
        out.append(page_record(dice, sent[:count]))
        sent = sent[count:]
    return out


def vcpu_records(dice, guest):
    out = []
    for (vcpu, kind), context in guest.vcpus.items():
        earlier = [dice.randbytes(16)] if kind != 4 and dice.random() < 0.2 else []
        empty = [b''] if dice.random() < 0.2 else []
        contexts = [*earlier, *([] if kind in guest.left_out else [context]), *empty]
        out += [record(dice, kind, struct.pack('<II', vcpu, dice.choice((0, 5))) + it) for it in contexts]
    dice.shuffle(out)
    return out


def mixed_in(dice, records, more):
    """Puts more records between these, or behind them, each at a place of its own."""
    for one in more:
        records.insert(dice.randrange(len(records) + 1), one)
    return records


def static_records(dice, version, guest):
    infos = [] if 2 in guest.left_out else [info(dice)] * rarely(dice, 1, 2)
    others = [some_record(dice, (8, 17, 18, 'optional')) for _ in range(dice.randrange(3))]
    ended = [record(dice, 16, b'')] if version == 3 or dice.random() < 0.3 else []
    return mixed_in(dice, others, infos) + ended


def content_records(dice, guest):
    """The lists of P2M frames that stand before all pages, the rest of the content but END, and what may stand anywhere."""
    first, among = ([], []) if 3 in guest.left_out else p2m_records(dice, guest)
    sent = page_records(dice, entries(dice, guest)) if first else []
    again = sent_again(dice, sent, [page_record(dice, dice.sample(entries(dice, guest), 3))] if first else [])
    shared = [] if 7 in guest.left_out else [record(dice, 7, dice.randbytes(8) * 512) for _ in range(dice.choice((1, 1, 2)))]
    others = [some_record(dice, (8, 'optional')) for _ in range(dice.randrange(3))]
    pages = mixed_in(dice, sent, among) + again
    return first + mixed_in(dice, pages + vcpu_records(dice, guest), shared + others)


def pv_stream(dice):
    """Headers and records of a stream of a PV guest that may be accepted."""
    version, guest = dice.choice((2, 3)), Guest(dice)
    if dice.random() < 0.6:
        dice.choice(CHANGES)(dice, guest)
    records = static_records(dice, version, guest) + content_records(dice, guest)
    return [*headers(dice, version, 1), *records, record(dice, 0, b'')]
