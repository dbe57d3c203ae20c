"""A guest goes from xl to xl over the loopback, with the stream led through mig_tool between them. It does so by a live
migration. Most of these Xens can't migrate PV guests live: these go by `xl save` and `xl restore` at the two ends of a pipe. With
--debug, xl sends all frames a second time; a copy of such a stream is kept. Behind a VERIFY record `mig check --compare` compares
the frames."""
import os
import shutil

from guests import GOES_ON, Broken, Died, Watched, place_configuration, wrong

HERE = os.path.dirname(os.path.realpath(__file__))
SAID = '/share/saves/through.said'
THROUGH = '/share/guests/through /root/mig_tool ' + SAID
LIVE = "xl migrate %(words)s -s '' %(name)s '%(copied)s" + THROUGH + " | xl migrate-receive'"
COPY = '/share/saves/%s.debug'
COPIED = '/root/copy'                                # first in dom0's memory, since xl would wait for the shared folder
MIGRATES = 7200                                      # seconds
PIPED = ('mkfifo /tmp/from /tmp/to; xl save %(name)s /tmp/from & ' + THROUGH + ' < /tmp/from > /tmp/to & '
         'xl restore /share/guests/%(other)s.cfg /tmp/to; status=$?; [ $status = 0 ] || kill %%1 %%2; wait; exit $status')


class Migration:
    def __init__(self, machine, tool, guest, is_live, check=None, verifies=True):
        """`check` tells what `mig check --compare` says of a file; where it is there, the guest is migrated with --debug, and
        `verifies` says whether this Xen then writes a VERIFY record."""
        self.machine, self.tool, self.guest, self.check, self.verifies = machine, tool, guest, check, verifies
        self.is_live = is_live
        # Of a pipe the new domain is there before the old one has gone, so it has another name.
        self.other = guest if self.is_live else guest._replace(name=guest.name + 'b')
        self.watched = Watched(machine, guest)

    @property
    def name(self):
        way = 'is migrated live' if self.is_live else 'goes from xl save to xl restore in a pipe'
        more = ' with --debug' if self.check else ''
        return '%s %s%s, its stream through mig_tool, and goes on' % (self.guest.name, way, more)

    def place(self):
        """Puts the program, the script that stands in the pipe, and the configurations where dom0 finds them."""
        folder = os.path.join(self.machine.share, 'guests')
        for source, name in (self.tool, 'mig_tool'), (os.path.join(HERE, 'through'), 'through'):
            shutil.copyfile(source, os.path.join(folder, name))
            os.chmod(os.path.join(folder, name), 0o755)
        for guest in self.guest, self.other:
            place_configuration(self.machine, guest)
        said = self.machine.share + SAID[len('/share'):]
        if os.path.exists(said):
            os.unlink(said)
        return said

    def sent(self):
        """Sends the guest; a fault unless both xl and the program end well."""
        said_by_tool, crashes = self.place(), len(self.watched.crashes())
        command = (LIVE if self.is_live else PIPED) % {
            'name': self.guest.name, 'other': self.other.name, 'words': '--debug' if self.check else '',
            'copied': 'tee %s | ' % COPIED if self.check else ''}
        status, said = self.machine.run('cp /share/guests/mig_tool /root/; ' + command, MIGRATES)
        if self.check:
            self.machine.run('mv %s %s' % (COPIED, COPY % self.guest.name))
        tool_said = 'nothing'
        if os.path.exists(said_by_tool):
            with open(said_by_tool) as file:
                tool_said = ' '.join(file.read().split('\n')).strip()
        if status or tool_said != 'status 0':
            kind = Died if len(self.watched.crashes()) > crashes else Broken
            raise kind('xl: status %d: %s; mig_tool: %s' % (status, wrong(said), tool_said))

    def run(self):
        seen = self.watched.lives(self.led_through)
        return seen + '; ' + self.frames_compared() if self.check else seen

    def frames_compared(self):
        """Sees that `mig check --compare` takes the copy, and that the frames behind VERIFY are those sent before: the guest
        stood still."""
        said = self.check(self.machine.share + (COPY % self.guest.name)[len('/share'):]).splitlines()[0]
        if said.endswith(' differs 0') != self.verifies or (' differs ' in said) != self.verifies:
            raise Broken('mig check of the stream of --debug: ' + said)
        return said.rpartition(': ')[2]

    def led_through(self):
        self.place()
        attempt = self.watched.create()
        try:
            before, arrived = len(self.watched.ticks()), Watched(self.machine, self.other)
            arrived.arrived_at = len(arrived.incoming())
            self.sent()
            arrived.find_domain()
            if self.is_live and self.guest.kind != 'hvm':    # one log for both domains, or another that goes on behind it
                ticks = arrived.ticks_after(before - 1, 12, GOES_ON)
                return 'up at start %d; %s' % (attempt, arrived.went_on(ticks[1:], ticks[0]))
            last = self.watched.ticks()[-1]
            return 'up at start %d; %s' % (attempt, arrived.goes_on(0, last))
        finally:
            Watched(self.machine, self.other).destroy()
            self.watched.destroy()
