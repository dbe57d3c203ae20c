"""The part of the second reader that has `walk` and `walkimage`: which frame an address means to a vCPU, by its page tables.

A place to walk in has the contexts of the vCPUs by their ids, and frames (type and page) by frame number. It also has the frame
number of each number that an entry or ctrlreg[3] may hold: itself in a stream, and that of the machine frame in a host.
"""
import collections

import hosts
import pv
import reader
from form import *

WIDEST = 1 << 52                                     # of a host that is looked into
IN_GUEST = 'walk',                                   # the commands that look into the guest of a stream
Tables = collections.namedtuple('Tables', 'contexts frames names')


def of_guest(guest):
    contexts = {vcpu: context for (vcpu, kind), context in guest.get('vcpus', {}).items() if kind == BASIC}
    return Tables(contexts, guest['frames'], {pfn: pfn for pfn in guest['frames']})


def of_host(host):
    contexts = {key[1]: data for key, data in host['parts'].items() if key[0] == BASIC}
    return Tables(contexts, {pfn: (kind, page) for pfn, (kind, _, page) in host['frames'].items()},
                  {mfn: pfn for pfn, (_, mfn, _) in host['frames'].items()})


def slot_of(address, level):
    """Nine bits of the address for each level, from bit 12 on."""
    return (address >> 12 + 9 * (level - 1)) % 512


def is_canonical(address):
    return address < 1 << 47 or address >= (1 << 64) - (1 << 47)


def walk(tables, vcpu, address):
    """The number and the type of the frame that an address means; where it means none, a refusal says why."""
    refuse_if(vcpu not in tables.contexts, '1 NoVcpu %d' % vcpu)
    refuse_if(not is_canonical(address), '2 NotCanonical')
    number = pv.number_at(tables.contexts[vcpu], pv.CTRLREG3) >> 12
    for level in range(4, 0, -1):
        kind, page = tables.frames[tables.names[number]]
        refuse_if(pv.level_of(kind) != level, '4 NotTable %d' % level)
        entries = dict(pv.entries_in(kind, page))
        refuse_if(slot_of(address, level) not in entries, '3 Absent %d' % level)
        number = pv.frame_in(entries[slot_of(address, level)])
    return number, tables.frames[tables.names[number]][0]


def told(tables, words):
    """The line that the program has to put for words that name a walk, and whether a frame is meant."""
    try:
        return 'ok frame %d type %d' % walk(tables, int(words[1]), int(words[2], 16)), True
    except Refused as cause:
        return 'refused: Walk: %s' % cause, False


def answer(line, is_found):
    return int(not is_found), b'', (line + '\n').encode()


def of_stream(words, data):
    """Status, standard output and report of `walk`."""
    read, line = reader.read(data)
    return answer(*told(of_guest(read.guest), words)) if read else answer(line, False)


def of_image(words, data):
    """Status, standard output and report of `walkimage`."""
    source = Input(data)
    try:
        host = hosts.read_host(source, WIDEST)
    except Refused as cause:
        return answer('refused: %s: %s' % (source.place, cause), False)
    try:
        hosts.guest_of(host)
    except Refused as cause:
        return answer('refused: Host: %s' % cause, False)
    return answer(*told(of_host(host), words))


# ---- words at random

def some_slots(dice, tables, vcpu):
    """A slot for each level from 4 down, most often one whose entry leads to a table of the next level, or to some frame."""
    def frame(number):
        return tables.frames.get(tables.names.get(number), (NOTAB, b''))
    number = pv.number_at(tables.contexts[vcpu], pv.CTRLREG3) >> 12 if vcpu in tables.contexts else None
    for level in range(4, 0, -1):
        present = pv.entries_in(*frame(number))
        leading = [it for it in present if pv.level_of(frame(pv.frame_in(it[1]))[0]) == level - 1]
        other = dice.choice((0, 1, 255, 256, 263, 271, 272, 511, dice.randrange(512))), 0
        slot, entry = dice.choice(dice.choice([leading] * 8 + [present, [other]]) or present or [other])
        yield slot
        number = pv.frame_in(entry)


def some_words(dice, command, tables):
    """The words of a walk in these tables, or in none, where the input is refused."""
    tables = tables or Tables({}, {}, {})
    vcpu = dice.choice([*tables.contexts] * 8 + [dice.choice((0, 1, 4095, dice.randrange(4096)))])
    address = sum(slot << 12 + 9 * level for level, slot in zip((3, 2, 1, 0), some_slots(dice, tables, vcpu)))
    address += dice.choice((0, 1, 4095)) + (0xffff << 48) * (address >> 47)
    if dice.random() < 0.05:
        address ^= 1 << dice.randrange(47, 64)
    return [command, '%d' % vcpu, '%x' % address]


def walk_in_stream(dice, data):
    read, _ = reader.read(data)
    return some_words(dice, 'walk', read and of_guest(read.guest))


def walk_in_image(dice, data):
    try:
        return some_words(dice, 'walkimage', of_host(hosts.read_host(Input(data), WIDEST)))
    except Refused:
        return some_words(dice, 'walkimage', None)
