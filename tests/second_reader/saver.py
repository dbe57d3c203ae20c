"""The part of the second reader that has `save`: a script, the machine that runs it, and the live save.

`save(bytes)` answers what the program has to write and to report of an image with a script behind it. What a save writes
whose paused host is refused isn't told, but that it is no stream: its output is None.
"""
import re
import struct

import hosts
import pv
import reader
from form import *

MOST_SCRIPT, MOST_ROUNDS, FEW, BATCH = 1 << 24, 5, 50, 1024
FIXED = P2M_FRAMES, CPUID_POLICY, MSR_POLICY, hosts.PAIRS
NUMBER, HEX = rb'(0|[1-9][0-9]*)', rb'((?:[0-9A-Fa-f]{2})+)'
LINES = [re.compile(line) for line in (
    rb'(w) ' + NUMBER + b' ' + NUMBER + b' ' + HEX, rb'(t) ' + NUMBER + b' ' + NUMBER, rb'(a) ' + NUMBER + b' ' + NUMBER,
    rb'(r) ' + NUMBER, rb'(x) ' + NUMBER + b' ' + NUMBER, rb'(p) ' + NUMBER + b' ' + NUMBER + b' ' + NUMBER + b' ' + HEX,
    rb'(\.)')]


# ---- scripts

def read_line(text):
    """What a line says: its letter, and numbers and bytes; None of a bad one."""
    found = next(filter(None, (line.fullmatch(text) for line in LINES)), None)
    if not found:
        return None
    letter, *fields = found.groups()
    last = [bytes.fromhex(fields.pop().decode())] if letter in (b'w', b'p') else []
    numbers = [int(field) for field in fields]
    return None if any(number >= 1 << 64 for number in numbers) else (letter.decode(), *numbers, *last)


def read_script(text):
    """The groups of lines between the dots."""
    if len(text) > MOST_SCRIPT:
        raise Refused('Script: 2 TooLong')
    lines = text.split(b'\n')
    if not lines[-1]:
        lines.pop()
    groups = [[]]
    for number, line in enumerate(map(read_line, lines), 1):
        if not line:
            raise Refused('Script %d: 1 BadLine' % number)
        if line == ('.',):
            groups.append([])
        else:
            groups[-1].append(line)
    return groups


# ---- what a line does to a host, and which frame number it logs

def is_named(host, mfn):
    """Whether a page table names this machine frame."""
    entries = (entry for kind, _, page in host['frames'].values() for _, entry in pv.entries_in(kind, page))
    return any(pv.frame_in(entry) == mfn for entry in entries)


def may_come(host, mfn):
    is_free = 0 < mfn < hosts.MACHINE_LIMIT and all(mfn != machine for _, machine, _ in host['frames'].values())
    return is_free and not is_named(host, mfn)


def may_go(host, pfn):
    return pfn in host['frames'] and not is_named(host, host['frames'][pfn][1])


def write(host, pfn, at, data):
    kind, mfn, page = host['frames'].get(pfn, (None, 0, b''))
    if at + len(data) > len(page):
        return None
    host['frames'][pfn] = kind, mfn, page[:at] + data + page[at + len(data):]
    return pfn


def retype(host, pfn, kind):
    if pfn not in host['frames'] or kind not in hosts.types_of(host['kind']):
        return None
    _, mfn, page = host['frames'][pfn]
    host['frames'][pfn] = kind, mfn, (page or bytes(PAGE)) if has_page(kind) else b''
    return pfn


def add(host, pfn, mfn):
    if pfn in host['frames'] or pfn >= host['width'] or not may_come(host, mfn) or len(host['frames']) >= MOST_FRAMES:
        return None
    host['frames'][pfn] = NOTAB, mfn, bytes(PAGE)
    return pfn


def remove(host, pfn):
    if not may_go(host, pfn):
        return None
    del host['frames'][pfn]
    return pfn


def exchange(host, pfn, mfn):
    if not may_go(host, pfn) or not may_come(host, mfn):
        return None
    kind, _, page = host['frames'][pfn]
    host['frames'][pfn] = kind, mfn, page
    return pfn


def put(host, code, one, two, data):
    if len(host['parts'].get((code, one, two), b'')) == len(data) and code not in FIXED:
        host['parts'][code, one, two] = data


DOES = {'w': write, 't': retype, 'a': add, 'r': remove, 'x': exchange, 'p': put}


class Machine:
    """A host whose guest runs on in each call, up to the pause."""

    def __init__(self, host, groups):
        self.host, self.groups, self.log, self.paused = host, groups, set(), False

    def run(self):
        if self.groups and not self.paused:
            for letter, *fields in self.groups.pop(0):
                self.log.add(DOES[letter](self.host, *fields))
            self.log.discard(None)

    def peek(self, pfn):
        self.run()
        return self.host['frames'].get(pfn, (XTAB, 0, b''))

    def pfn_of(self, mfn):
        self.run()
        return next((pfn for pfn, (_, machine, _) in self.host['frames'].items() if machine == mfn), None)

    def take_log(self):
        self.run()
        log, self.log = self.log, set()
        return log

    def pause(self):
        self.run()
        self.paused = True


# ---- the live save

def looked_up(machine, kind, page):
    """A page as a stream has it; None of a table that none can have. Where it has a superpage, nothing is looked up."""
    entries = pv.entries_in(kind, page)
    if any(pv.is_superpage(kind, entry) for _, entry in entries):
        return None
    _, page = pv.blank_frame(kind, page)
    for slot, entry in entries:
        pfn = machine.pfn_of(pv.frame_in(entry))
        if pfn is None:
            return None
        page = pv.with_number(page, 8 * slot, pv.with_frame(entry, pfn))
    return page


class Saver:
    """A machine that is saved, the records of its pages so far, the number of entries in them, and the deferred tables."""

    def __init__(self, machine):
        self.machine, self.records, self.entries, self.deferred = machine, [], 0, set()

    def entry(self, pfn):
        """Reads a frame; a table that no stream can have is told as no frame, and deferred."""
        kind, _, page = self.machine.peek(pfn)
        page = looked_up(self.machine, kind, page)
        self.deferred.discard(pfn)
        if page is None:
            self.deferred.add(pfn)
            kind, page = XTAB, b''
        return struct.pack('<Q', kind << 60 | pfn), page

    def send(self, pfns):
        """Reads these frames, and writes them as records of at most 1024 entries."""
        pfns = sorted(pfns)
        for at in range(0, len(pfns), BATCH):
            batch = [self.entry(pfn) for pfn in pfns[at:at + BATCH]]
            words, pages = zip(*batch)
            self.records.append(record(PAGE_DATA, struct.pack('<II', len(batch), 0), *words, *pages))
        self.entries += len(pfns)

    def save_frames(self):
        """Sends all frames; answers how many rounds there were."""
        rounds, log = 0, range(self.machine.host['width'])
        while not rounds or rounds < MOST_ROUNDS and len(log) >= FEW:
            self.send(log)
            log = self.machine.take_log()
            rounds += 1
        self.machine.pause()
        self.send(log | self.machine.take_log() | self.deferred)
        return rounds


def save(data):
    """Status, standard output and report of `save`."""
    source = Input(data)
    try:
        host = hosts.read_host(source)
    except Refused as cause:
        return 1, b'', ('refused: %s: %s\n' % (source.place, cause)).encode()
    try:
        saver = Saver(Machine(host, read_script(data[source.at:])))
    except Refused as cause:
        return 1, b'', ('refused: %s\n' % cause).encode()
    rounds = saver.save_frames()
    try:
        report = b'ok rounds %d entries %d\n' % (rounds, saver.entries)
        return 0, reader.canonical(hosts.guest_of(host), saver.records), report
    except Refused as cause:
        return 1, None, ('refused: Pause: %s\n' % cause).encode()
