"""What is tried with each guest: it is saved, goes through the program, is given back to Xen, and has to go on."""
import json
import os
import struct
import subprocess
import time

import programs
import streams
import tried
from guests import LETTER, Broken, Tick, Watched, place_configuration

MIG = os.path.join(streams.TOP, 'bin', 'mig')
OTHERS = 60                                          # so many further pages a script writes
LIMIT = 1800                                         # seconds for one command of bin/mig
# Where two saves of a guest may differ that was restored and ran between them: clocks and timers, what its vCPUs did, its
# interrupts, what its devices hold.
MAY_DIFFER = {
    'pv': {'X86_TSC_INFO', 'SHARED_INFO', 'X86_PV_VCPU_BASIC', 'X86_PV_VCPU_EXTENDED', 'X86_PV_VCPU_XSAVE', 'pages', 'page types',
           'frames', 'X86_PV_P2M_FRAMES'},
    'pvh': {'X86_TSC_INFO', 'HVM_CONTEXT', 'HVM_PARAMS', 'pages', 'frames'},
    'hvm': {'X86_TSC_INFO', 'HVM_CONTEXT', 'HVM_PARAMS', 'libxl EMULATOR_CONTEXT', 'pages'},
}

# Where two saves may differ of which the second was made of the first, restored and never run: what counts by itself, and
# pages that Xen's tools write, as xenstore's ring.
STANDING = {'X86_TSC_INFO', 'HVM_CONTEXT CPU', 'HVM_CONTEXT ISA_IRQ', 'HVM_CONTEXT RTC', 'HVM_CONTEXT PMTIMER', 'HVM_CONTEXT PIT',
            'HVM_CONTEXT LAPIC', 'libxl EMULATOR_CONTEXT', 'pages'}
# Of the first PIC its first byte alone, the requests that stand in it: they follow the lines of ISA_IRQ, which clocks raise.
REQUESTS = 'HVM_CONTEXT PIC 0', '1 bytes, at 0'


def may_stand(pair):
    name, _ = pair
    return pair == REQUESTS or {name, name.rpartition(' ')[0]} & STANDING


def calls_to(guest, last):
    """How often a live saver calls the host until it has read this frame. It does once for each frame number, and for each
    present entry of a page table, but for those of a table of level 4 that are Xen's."""
    calls = last + 2
    for pfn, (kind, page) in guest.pages.items():
        if pfn <= last and kind & 7 in (1, 2, 3, 4):
            for slot, (entry,) in enumerate(struct.iter_unpack('<Q', page)):
                calls += entry & 1 and not (kind & 7 == 4 and 256 <= slot <= 271)
    return calls


class Trip:
    """One guest through all steps. A step answers what it saw, or raises Broken."""

    def __init__(self, machine, tool, guest, keep, front=None):
        """The guest's files have its name in front, where no other is given."""
        self.machine, self.tool, self.guest, self.keep = machine, tool, guest, keep
        self.front = front or guest.name
        self.watched = Watched(machine, guest)
        self.last, self.running = None, None         # its last tick before its save; which file it runs from

    def path(self, part):
        return os.path.join(self.machine.share, 'saves', '%s.%s' % (self.front, part))

    def need(self, part):
        if not os.path.exists(self.path(part)):
            raise Broken('there is no %s of it' % part)
        return self.path(part)

    def mig_says(self, *words):
        """What bin/mig answers, with status 0."""
        try:
            status, out, err = programs.answer([MIG, *words], LIMIT, env=tried.around(self.tool))
        except subprocess.TimeoutExpired:
            raise Broken('mig %s: not in %d s' % (words[0], LIMIT)) from None
        if status:
            raise Broken('mig %s: status %d: %s' % (words[0], status, ' '.join((out + err).split('\n')).strip()))
        return out.strip()

    def comes_up(self):
        place_configuration(self.machine, self.guest)
        attempt = self.watched.create()
        return 'at the %s start' % {1: 'first', 2: 'second', 3: 'third'}.get(attempt, '%dth' % attempt)

    def is_saved(self):
        return self.watched.lives(self.saved)

    def saved(self):
        if not self.watched.is_there():
            self.watched.create()
        began = time.monotonic()
        self.last = self.watched.save(self.guest.name + '.save')
        with open(self.path('last'), 'w') as file:
            json.dump(self.last, file)
        return '%d bytes in %.0f s, at tick %d' % (os.path.getsize(self.path('save')), time.monotonic() - began, self.last.number)

    def is_kept(self):
        """Whether an earlier run left its save here, and its last tick before that, which is read again."""
        if not all(os.path.exists(self.path(part)) for part in ('save', 'last')):
            return False
        with open(self.path('last')) as file:
            number, whole, generation, letter, vcpus = json.load(file)
        self.last = Tick(number, whole, generation, letter, tuple(vcpus))
        return True

    def save_goes_on(self):
        """What Xen itself does with its own file, so that a fault of the emulator isn't taken for one of ours."""
        return self.back('save')

    def is_accepted(self):
        said = self.mig_says('check', self.need('save'))
        return said.splitlines()[0].partition(': ')[2]

    def twice_is_once(self):
        self.mig_says('normalise', '--force', self.need('save'), self.path('stream'))
        self.mig_says('normalise', '--force', self.need('stream'), self.path('twice'))
        with open(self.path('stream'), 'rb') as one, open(self.path('twice'), 'rb') as two:
            while True:
                left, right = one.read(1 << 20), two.read(1 << 20)
                if left != right:
                    raise Broken('the second canonical stream is another one')
                if not left:
                    break
        os.unlink(self.path('twice'))
        changed = self.listed('save', 'stream', 'normalised')
        return '%d bytes; of what the guest has, these changed: %s' % (
            os.path.getsize(self.path('stream')), '; '.join('%s (%s)' % pair for pair in changed.items()) or 'nothing')

    def back(self, part, letter='first'):
        """Gives a file back to Xen and sees the guest go on."""
        if not self.last:
            raise Broken('there is no save of it')
        self.need(part)
        return self.watched.lives(lambda: self.given_back(part, letter))

    def given_back(self, part, letter):
        self.watched.destroy()
        self.running = None
        mark = self.watched.restore('%s.%s' % (self.front, part))
        seen = self.watched.goes_on(mark, self.last, letter)
        self.running = part
        return seen

    def canonical_goes_on(self):
        self.mig_says('normalise', '--xl', '--force', self.need('save'), self.path('back'))
        return self.back('back')

    def saved_again(self):
        """A second save of what was restored: canonical forms of before and after."""
        if self.running != 'back':
            raise Broken('its canonical stream was not restored')
        self.watched.lives(self.saved_of_back)
        self.watched.destroy()
        self.mig_says('normalise', '--force', self.need('again'), self.path('again.stream'))
        found = self.listed('stream', 'again.stream', 'again')
        strange = [name for name in found if not {name, name.partition(' ')[0]} & MAY_DIFFER[self.guest.kind]]
        if strange:
            raise Broken('differ besides what changes in a guest that runs: %s' % ', '.join(strange))
        os.unlink(self.path('again'))
        os.unlink(self.path('again.stream'))
        return 'differ: ' + (', '.join(found) or 'nothing')

    def saved_of_back(self):
        if not self.watched.is_there():
            self.given_back('back', 'first')
        self.watched.save(self.guest.name + '.again')

    def stands_still(self):
        """A guest that is restored paused and saved again as it is: nothing of it ran between the two saves."""
        self.watched.destroy()
        self.watched.restore(self.guest.name + '.back', '-p')
        self.watched.save(self.guest.name + '.again', still=True)
        self.watched.destroy()
        self.mig_says('normalise', '--force', self.path('again'), self.path('again.stream'))
        found = self.listed('stream', 'again.stream', 'still')
        strange = [name for name, text in found.items() if not may_stand((name, text))]
        if strange:
            raise Broken('differ, though the guest stood: %s' % ', '.join(strange))
        return 'differ: %s' % (', '.join('%s (%s)' % pair for pair in found.items()) or 'nothing')

    def listed(self, one, two, name):
        """The names of what differs; the list byte by byte is kept in a file."""
        found = dict(streams.differences(streams.guest_of(self.path(one)), streams.guest_of(self.path(two))))
        with open(os.path.join(self.keep, '%s.%s.txt' % (self.guest.name, name)), 'w') as file:
            file.writelines('%s: %s\n' % pair for pair in found.items())
        return found

    def save_of_image(self, script):
        """`mig save` of the guest's image with a script; the file for Xen stands then at `back`."""
        self.mig_says('restore', '--force', self.need('save'), self.path('image'))
        with open(self.path('script'), 'w') as file:
            file.write(script)
        said = self.mig_says('save', '--force', self.path('image'), self.path('script'), self.path('live'))
        streams.with_headers(self.path('save'), self.path('live'), self.path('back'))
        os.unlink(self.path('image'))
        return said.splitlines()[0].rpartition(': ')[2]

    def image_saved_alike(self):
        said = self.save_of_image('')
        same = self.mig_says('compare', self.path('save'), self.path('live'))
        return '%s; %s' % (said, same)

    def image_goes_on(self):
        self.need('live')
        seen = self.back('back')
        self.watched.destroy()
        return seen

    def written_script(self, guest, letter):
        """A script that writes the guest's letter before it is read, and again afterwards. It also writes the first bytes of
        other pages, as they are: these count as written, so that there is a second round."""
        text = ['w %d %d %s00\n' % (letter, LETTER, word.encode().hex()) for word in ('second', 'third')]
        others = [pfn for pfn, (kind, _) in sorted(guest.pages.items()) if kind == 0 and pfn != letter][:OTHERS]
        same = ['w %d 0 %s\n' % (pfn, bytes(guest.pages[pfn][1][:8]).hex()) for pfn in others]
        return ''.join([text[0], '.\n' * calls_to(guest, max(letter, others[-1])), text[1], *same, '.\n'])

    def image_written(self):
        """`mig save` with such a script: of the guest that is sent one page alone is another one."""
        guest = streams.guest_of(self.need('stream'))
        found = streams.frame_that_begins(guest, self.guest.mark)
        if len(found) != 1:
            raise Broken('%d frames have its mark' % len(found))
        said = self.save_of_image(self.written_script(guest, found[0]))
        self.mig_says('normalise', '--force', self.path('live'), self.path('live.stream'))
        differs = self.listed('stream', 'live.stream', 'written')
        os.unlink(self.path('live.stream'))
        if list(differs) != ['pages'] or not differs['pages'].startswith('1 of') or hex(found[0]) not in differs['pages']:
            raise Broken('other things differ than the one page that was written: %s' % differs)
        return '%s; one page differs, %#x' % (said, found[0])

    def written_goes_on(self):
        self.need('live')
        seen = self.back('back', 'third')
        self.watched.destroy()
        return seen + ', with the new letter'

    def clear(self):
        """Ends the guest and takes its files away, but for the save, so that the disk doesn't fill."""
        self.watched.destroy()
        for part in 'stream', 'back', 'live', 'image', 'again', 'again.stream', 'live.stream', 'twice', 'script':
            if os.path.exists(self.path(part)):
                os.unlink(self.path(part))

    def steps(self):
        """Names and functions, in order. What a guest has to do itself to be saved can't be done by one that stands."""
        yield 'comes up', self.comes_up
        yield 'is saved while it runs', self.is_saved
        yield 'its save as it is is restored by Xen and goes on', self.save_goes_on
        yield 'its save is accepted by mig check', self.is_accepted
        yield 'normalised twice is once', self.twice_is_once
        yield 'its canonical stream is restored by Xen and goes on', self.canonical_goes_on
        yield 'is saved by Xen again, canonical forms compared', self.saved_again
        if self.guest.kind == 'hvm':
            yield 'is restored and saved without running, canonical forms compared', self.stands_still
        yield 'mig save of its image, with an empty script, is the same guest state', self.image_saved_alike
        yield 'that stream is restored by Xen and goes on', self.image_goes_on
        yield 'mig save of its image, with a script that writes, differs in one page', self.image_written
        yield 'that stream is restored by Xen and goes on with what was written', self.written_goes_on
