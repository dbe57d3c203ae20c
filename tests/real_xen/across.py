"""A guest that one Xen saved is given to another Xen: as it is, as a canonical stream, and passed on by `mig_tool relay` in the
other's dom0. What the other Xen refuses of the original, too, is told apart from what it refuses of ours alone."""
import os
import re
import shutil

import streams
from guests import Refused
from trips import Trip

OURS = 'tiny', 'tiny2', 'tinypvh2', 'hvm1'           # the guests that are nothing but our own program
SAID = '/share/saves/relay.said'
RELAYED = ('cp /share/guests/mig_tool /root/; mkfifo /tmp/relayed; '
           '{ head -c %(front)d %(file)s; tail -c +%(behind)d %(file)s | /root/mig_tool relay 2> ' + SAID + '; } > /tmp/relayed & '
           'xl restore /tmp/relayed; status=$?; [ $status = 0 ] || kill $!; wait; rm /tmp/relayed; exit $status')
DOMAIN = re.compile(r'\b(HVM|d|Domain |domain )\d+')  # its number is another one at each restore


class Theirs(Exception):
    """The other Xen refuses the original, too."""


def sent(trip):
    """Steps on the Xen that a guest comes from."""
    def saved():
        seen = trip.is_saved()
        trip.watched.destroy()
        return seen
    yield 'comes up', trip.comes_up
    yield 'is saved while it runs', saved


class Crossing:
    """A guest on another Xen than the one that saved it, which is that of the trip `sent`."""

    def __init__(self, trip, other):
        self.guest, self.sent = trip.guest, trip
        sender = os.path.basename(trip.machine.lab)
        self.arrived = Trip(other, trip.tool, trip.guest, other.lab, '%s.of-%s' % (trip.guest.name, sender))
        self.of_original = None                      # how the original was refused

    def steps(self):
        one, other = (os.path.basename(trip.machine.lab) for trip in (self.sent, self.arrived))
        for what, step in (('its save as it is', self.original),
                           ('its canonical stream', lambda: self.ours(self.arrived.canonical_goes_on)),
                           ('its save, relayed in dom0,', lambda: self.ours(self.relayed))):
            yield 'of %s: %s is restored by %s and goes on' % (one, what, other), step
        self.arrived.clear()

    def original(self):
        self.arrived.last = self.sent.last
        shutil.copyfile(self.sent.need('save'), self.arrived.path('save'))
        try:
            return self.arrived.back('save')
        except Refused as refused:
            self.of_original = DOMAIN.sub(r'\1', str(refused))
            raise Theirs(self.of_original) from None

    def ours(self, step):
        """Does a step with a stream of ours. Where it is refused with the words with which the original was, it isn't at fault."""
        try:
            return step()
        except Refused as refused:
            if DOMAIN.sub(r'\1', str(refused)) != self.of_original:
                raise
            raise Theirs('as the original') from None

    def relayed(self):
        return self.arrived.watched.lives(self.passed_on)

    def passed_on(self):
        machine, watched = self.arrived.machine, self.arrived.watched
        shutil.copy(self.arrived.tool, os.path.join(machine.share, 'guests', 'mig_tool'))
        watched.destroy()
        front = streams.header_of(self.arrived.need('save'))[1]
        mark = watched.restored_by(RELAYED % {'front': front, 'behind': front + 1, 'file': '/share/saves/%s.save' % self.arrived.front})
        seen = watched.goes_on(mark, self.arrived.last)
        with open(machine.share + SAID[len('/share'):]) as file:
            return '%s; %s' % (seen, file.read().strip())
