"""A guest goes live from the Xen of one machine to that of another: the two xl talk over a wire, a port of each machine, which is
joined here. The stream goes through `mig_tool relay`, what the two say before and behind it as it is."""
import os
import select
import subprocess
import threading
import time

from faults import Fault
from front import headers
from guests import Broken, Watched, place_configuration, wrong
from programs import ends_with_parent

# The number in the port's name depends on what other devices the machine has. A shell that opens a name that isn't there would make a file.
FINDS = 'port=$(ls /dev/vport*) || exit; '
SENDS = ("xl migrate -s '' %s '" + FINDS + "exec 3<> $port; cat <&3 & echo $! > /tmp/wire; exec cat >&3'; status=$?; "
         'kill $(cat /tmp/wire); exit $status')
# xl leaves a daemon behind, which would keep any further descriptor, and a port can be open only once.
RECEIVES = FINDS + 'xl migrate-receive <> $port >&0'
GIVES_UP = 'killall xl libxl-save-helper cat'        # each may have the port
EMPTIES = FINDS + 'cat < $port > /dev/null & sleep 2; kill $!'
MIGRATES, PATIENCE, BLOCK, LOOKS = 1800, 30, 1 << 16, 0.2  # seconds, seconds, bytes, seconds


class Joined:
    """The wires of two machines, joined for one migration."""

    def __init__(self, tool, one, other):
        self.tool, self.machines, self.one, self.other = tool, (one, other), one.wire, other.wire
        self.ended, self.said, self.refused = threading.Event(), 'nothing', False
        self.threads = [threading.Thread(target=way, daemon=True) for way in (self.forth, self.back)]

    def __enter__(self):
        for thread in self.threads:
            thread.start()
        return self

    def __exit__(self, *_):
        self.ended.set()
        for thread in self.threads:
            thread.join()

    def came(self, wire, most):
        """What came on a wire; nothing where the migration has ended."""
        while not self.ended.is_set():
            if select.select([wire], [], [], LOOKS)[0]:
                return wire.recv(most)
        return b''

    def copied(self, source, target, length=None):
        """Passes on so many bytes, or all up to the end of the migration; what was passed on of a given length."""
        passed = b''
        while length is None or len(passed) < length:
            block = self.came(source, BLOCK if length is None else length - len(passed))
            if not block:
                break
            target.sendall(block)
            passed += block if length else b''
        return passed

    def empty(self):
        """Takes away what a failed migration left, so that the next one doesn't meet it: whoever has a port, and what is in the wires."""
        for machine in self.machines:
            machine.run(GIVES_UP)
        for machine in self.machines:
            machine.run(EMPTIES)
            while select.select([machine.wire], [], [], LOOKS)[0]:
                machine.wire.recv(BLOCK)

    def back(self):
        self.copied(self.other, self.one)

    def forth(self):
        front = self.copied(self.one, self.other, headers.XL_LENGTH)
        if len(front) == headers.XL_LENGTH:
            self.copied(self.one, self.other, headers.xl_header(front).length)
            self.relayed()
            if not self.refused:
                self.copied(self.one, self.other)

    def relayed(self):
        """Lets the program pass on the stream. A wire has no end of file, so where the migration ended the program is ended, too."""
        program = subprocess.Popen([self.tool, 'relay'], stdin=self.one, stdout=self.other, stderr=subprocess.PIPE,
                                   preexec_fn=ends_with_parent)
        while program.poll() is None and not self.ended.wait(LOOKS):
            pass
        program.kill()
        self.said = program.communicate()[1].decode().strip() or 'ended by the test'
        self.refused = program.returncode != 0


class Talker(threading.Thread):
    """One of the two xl that talk, from its start to its end."""

    def __init__(self, machine, command):
        super().__init__(daemon=True)
        self.machine, self.command = machine, command
        self.status, self.said = None, ''

    def run(self):
        try:
            self.status, self.said = self.machine.run(self.command, MIGRATES)
        except (Fault, TimeoutError) as late:
            self.said = str(late)

    def __str__(self):
        return 'status %s: %s' % (self.status, wrong(self.said))


class Move:
    def __init__(self, one, other, tool, guest):
        self.one, self.other, self.tool, self.guest = one, other, tool, guest

    @property
    def name(self):
        return '%s is migrated live from %s to %s, its stream through mig_tool relay, and goes on' % (
            self.guest.name, *(os.path.basename(machine.lab) for machine in (self.one, self.other)))

    @staticmethod
    def talk(joined, *talkers):
        """Waits for the end of both xl. Where one ended, or the program refused the stream, the other has some time to end, too;
        it might wait for ever."""
        for talker in talkers:
            talker.start()
        while all(talker.is_alive() for talker in talkers) and not joined.refused:
            time.sleep(LOOKS)
        for talker in talkers:
            talker.join(PATIENCE)
            if talker.is_alive():
                talker.machine.run(GIVES_UP)
                talker.join()

    def moved(self):
        """Has the one xl send and the other receive; what the program said."""
        here, there = Talker(self.one, SENDS % self.guest.name), Talker(self.other, RECEIVES)
        with Joined(self.tool, self.one, self.other) as joined:
            self.talk(joined, there, here)
        if here.status != 0 or there.status != 0 or not joined.said.startswith('ok '):
            joined.empty()
            raise Broken('xl here: %s; xl there: %s; mig_tool: %s' % (here, there, joined.said))
        return joined.said

    def run(self):
        left, arrived = Watched(self.one, self.guest), Watched(self.other, self.guest)
        for machine in self.one, self.other:
            place_configuration(machine, self.guest)
        attempt = left.create()
        try:
            mark, arrived.arrived_at = arrived.mark(), len(arrived.incoming())
            said, last = self.moved(), left.ticks()[-1]
            arrived.find_domain()
            return 'up at start %d; %s; mig_tool: %s' % (attempt, arrived.goes_on(mark, last), said)
        finally:
            part = self.guest._replace(name=self.guest.name + '--incoming')    # its name until all of it is there
            for watched in left, arrived, Watched(self.other, part):
                watched.destroy()
