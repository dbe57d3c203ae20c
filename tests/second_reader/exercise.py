"""The part of the second reader that has `exercise`: its host and its script, which follow from a seed and a number of frames."""
import struct

import hosts
import pv
import reader
import saver
from form import *

LAST_MACHINE, FLAGS, STEP, MORE = 2000000, 0x67, 6364136223846793005, 1442695040888963407
START, GDT, L4, L3, L2, L1, FIRST_P2M = range(7)
TYPES = {L4: 12, L3: 3, L2: 2, L1: 1}
NONE = (1 << 64) - 1


class Exercise:
    """A host of n frames, and what is drawn for it, number by number."""

    def __init__(self, seed, n):
        self.x, self.n = seed, n
        self.p2m_frames = (n - 1) // 512 + 1
        self.first_data = FIRST_P2M + self.p2m_frames
        self.data_frames = n - self.first_data

    def draw(self):
        self.x = (self.x * STEP + MORE) % (1 << 64)
        return self.x

    def machine(self, pfn):
        return LAST_MACHINE + self.n - 1 - pfn

    def table(self, first, count):
        entries = [self.machine(first + slot) << 12 | FLAGS for slot in range(count)]
        return struct.pack('<512Q', *entries, *[0] * (512 - count))

    def p2m_page(self, index):
        pfns = range(512 * index, 512 * index + 512)
        return struct.pack('<512Q', *(self.machine(pfn) if pfn < self.n else NONE for pfn in pfns))

    def page(self, pfn):
        if pfn in (L4, L3, L2):
            return self.table(pfn + 1, 1)
        if pfn == L1:
            return self.table(self.first_data, min(self.data_frames, 512))
        if FIRST_P2M <= pfn < self.first_data:
            return self.p2m_page(pfn - FIRST_P2M)
        return struct.pack('<Q', self.draw() if pfn >= self.first_data else 0) + bytes(PAGE - 8)

    def context(self):
        context = bytearray(5168)
        for at, value in (616, self.machine(START)), (4832, self.machine(GDT)), (pv.GDT_ENTS, 512), (5008, self.machine(L4) << 12):
            struct.pack_into('<Q', context, at, value)
        return bytes(context)

    def host(self):
        frames = {pfn: (TYPES.get(pfn, NOTAB), self.machine(pfn), self.page(pfn)) for pfn in range(self.n)}
        listed = struct.pack('<%dQ' % self.p2m_frames, *range(FIRST_P2M, self.first_data))
        parts = {(P2M_FRAMES, 0, 0): listed, (BASIC, 0, 0): self.context(), (SHARED_INFO, 0, 0): bytes(PAGE)}
        return {'kind': PV, 'width': self.n, 'frames': frames, 'parts': parts}

    def groups(self):
        """The groups of lines of its script, once the host was made."""
        return [[('w', self.first_data + self.draw() % self.data_frames, 0, struct.pack('<Q', self.draw()))] for _ in range(2 * self.n)]


def exercise(seed, n):
    """The stream of an exercise, and its line."""
    it = Exercise(seed, n)
    host = it.host()
    live = saver.Saver(saver.Machine(host, it.groups()))
    rounds = live.save_frames()
    guest = hosts.guest_of(host)
    line = b'ok frames %d rounds %d entries %d canon %d\n' % (n, rounds, live.entries, len(reader.canonical(guest)))
    return reader.canonical(guest, live.records), line
