"""What tests/install/suites tries in one tree: the checks, each in an overlay of its own over the tree.

It is started in namespaces of its own, in which it mounts the overlays and has no network; they end with it. The last line is
'N passed, M failed'.

usage: tests/install/inside.py SUITE TREE LAYER WORK [CHECK...]

LAYER is a folder that stands over the tree in each overlay, with the clone and the tarball in /srv; WORK takes what is written.
"""
import contextlib
import fcntl
import glob
import hashlib
import os
import re
import shutil
import socket
import struct
import subprocess
import sys
import time

sys.dont_write_bytecode = True
from places import tree, wanted

PATH = '/usr/sbin:/usr/bin:/sbin:/bin'
INSTALLED = '/usr/local/bin:' + PATH                 # where bin/install puts programs when no prefix is named
CLONE, COPY, ARCHIVE = '/srv/mig', '/srv/copy', '/srv/mig.tar.gz'
NAME = 'mig-tool'                                    # of the Debian package
SLOW, LONG = 5, 1800                                 # seconds: of a check of the examples that is too slow, of a command that hangs
SIOCSIFFLAGS, IFF_UP = 0x8914, 1                     # of linux/sockios.h and linux/if.h
PASSED_OVER = '/proc', '/dev', '/srv', '/tmp', '/var/lib/dpkg', '/var/log', '/var/cache'
TESTS_IN = 'bookworm'                                # tests/run takes minutes; it is tried in this suite alone
USERS = {'root': (), 'nobody': ('--userspec=nobody:nogroup', '--groups=')}
OK_SMALLEST = 'ok version 3 kind hvm frames 0 records 3\n'
HEADER = b'Xen saved domain, xl format\n \0 \r' + bytes.fromhex('04030201 03000000 00000000 02000000') + b'{}'
PAGES = ['/usr/local/share/man/man1/%s.1' % name for name in ('mig', 'mig_check', 'mig_tool', 'xl-stream')]


def mounted(*words):
    subprocess.run(['mount', *words], check=True)


def loopback():
    """Brings up the one interface that there is, by which programs of a machine speak with each other."""
    with socket.socket(socket.AF_INET, socket.SOCK_DGRAM) as any_socket:
        fcntl.ioctl(any_socket, SIOCSIFFLAGS, struct.pack('16sH14x', b'lo', IFF_UP))


def read(path):
    with open(path, 'rb') as file:
        return file.read()


class Root:
    """An overlay over a tree and the layer, to run commands in."""
    suite = tree = layer = work = check = None       # where we are

    def __init__(self, place):
        self.place = place

    def at(self, path):
        """Where a path of the root stands outside."""
        return self.place + path

    def run(self, *words, user='root', cwd=CLONE, path=PATH, data=b''):
        """Status, standard output and standard error of a command in the root, in an environment that has the path alone."""
        inner = 'env', '-i', 'PATH=' + path, 'sh', '-c', 'cd "$0" && exec "$@"', cwd, *words
        ended = subprocess.run(['chroot', *USERS[user], self.place, *inner], input=data, stdout=subprocess.PIPE,
                               stderr=subprocess.PIPE, timeout=LONG, check=False)
        return ended.returncode, ended.stdout.decode(errors='replace'), ended.stderr.decode(errors='replace')


@contextlib.contextmanager
def root():
    """A fresh overlay with /dev and /proc."""
    place, upper, below = (os.path.join(Root.work, name) for name in ('root', 'upper', 'below'))
    for folder in place, upper, below:
        os.mkdir(folder)
    try:
        parts = Root.layer, Root.tree, upper, below  # volatile: what is thrown away needn't reach the disk
        mounted('-t', 'overlay', 'overlay', '-o', 'volatile,lowerdir=%s:%s,upperdir=%s,workdir=%s' % parts, place)
        mounted('--rbind', '/dev', place + '/dev')
        mounted('-t', 'proc', 'proc', place + '/proc')
        yield Root(place)
    finally:
        subprocess.run(['umount', '--recursive', '--lazy', place], check=False)
        for folder in place, upper, below:
            shutil.rmtree(folder)


# ---- what works

def examples(inside, top=CLONE):
    return sorted(os.path.join('examples', os.path.basename(path)) for path in glob.glob(inside.at(top) + '/examples/*.stream'))


def fine(got, what, status=0):
    """What isn't so of a command that answers this status, and writes no traceback."""
    if got[0] != status or 'Traceback' in got[1] + got[2]:
        yield '%s answers %.400r' % (what, got)


def checks_examples(inside, **more):
    """`bin/mig check` of the examples, four times: what is wrong, and the time."""
    names, times = examples(inside, more.get('cwd', CLONE)), []
    if not names:
        yield 'there are no examples'
    for _ in range(4):
        begun = time.monotonic()
        got = inside.run('bin/mig', 'check', *names, **more)
        times.append(time.monotonic() - begun)
        if got[0] or got[1].splitlines()[-1:] != ['%d files: %d ok' % (len(names), len(names))]:
            yield 'mig check answers %.400r' % (got,)
            return
    print('%s %s: the examples took %.2f s, then %.2f s' % (Root.suite, Root.check, times[0], min(times[1:])), flush=True)
    if times[0] > SLOW or min(times[1:]) > SLOW:
        yield 'a check took more than %d s' % SLOW


def works(inside, path, examples_at, user='nobody'):
    """What doesn't work of installed programs, from /tmp."""
    def used(*words, **more):
        return inside.run(*words, user=user, cwd='/tmp', path=path, **more)
    smallest = read(inside.at(examples_at + '/smallest-hvm.stream'))
    names = sorted(os.path.join(examples_at, name) for name in os.listdir(inside.at(examples_at)) if name.endswith('.stream'))
    got = used('mig', 'check', *names)
    yield from fine(got, 'mig check')
    yield from wanted(got[1].splitlines()[-1:], ['%d files: %d ok' % (len(names), len(names))])
    yield from wanted(used('mig_tool', 'verify', data=smallest), (0, '', OK_SMALLEST))
    yield from wanted(used('mig_check', data=smallest), (0, '', OK_SMALLEST))
    got = used('sh', '-c', 'xl-stream | mig_tool verify', data=HEADER + smallest)
    yield from wanted(got, (0, '', OK_SMALLEST))
    yield from names_a_checksum(used('mig', '--version'))


def names_a_checksum(got):
    yield from fine(got, 'mig --version')
    if not re.search(r'\b[0-9a-f]{64}\b', got[1]):
        yield 'mig --version names no sha256: %r' % got[1]


def paths_in(inside):
    """Each file and folder of the root, without what programs keep of their work."""
    found = set()
    for folder, folders, files in os.walk(inside.place):
        here = folder[len(inside.place):]
        folders[:] = [name for name in folders if here + '/' + name not in PASSED_OVER]
        found.update(here + '/' + name for name in folders + files)
    return found


# ---- the checks

def as_root():
    with root() as inside:
        yield from checks_examples(inside)
        yield from wanted(inside.run('git', 'status', '--porcelain'), (0, '', ''))
        yield from wanted(inside.run('sh', '-c', 'command -v rt')[1], '')


def as_nobody():
    """In a clone of its own."""
    with root() as inside:
        top = copied(inside, 'chown', '-R', 'nobody:nogroup')
        yield from checks_examples(inside, user='nobody', cwd=top)
        yield from wanted(inside.run('git', 'status', '--porcelain', user='nobody', cwd=top), (0, '', ''))


def copied(inside, *changes):
    """A copy of the clone, changed by a command: in an overlay it costs far less than a change of the clone itself."""
    inside.run('cp', '-a', CLONE, COPY)
    inside.run(*changes, COPY)
    return COPY


def works_and_stays(inside, top, user):
    """What doesn't work in a clone that can't be written, or is changed by it."""
    smallest = read(inside.at(top + '/examples/smallest-hvm.stream'))
    before = tree(inside.at(top))
    yield from checks_examples(inside, user=user, cwd=top)
    yield from names_a_checksum(inside.run('bin/mig', '--version', user=user, cwd=top))
    yield from wanted(inside.run('bin/mig_tool', 'verify', user=user, cwd=top, data=smallest), (0, '', OK_SMALLEST))
    after = tree(inside.at(top))
    yield from ('%s was changed' % path for path in before.keys() | after.keys() if before.get(path) != after.get(path))


def closed_to_nobody():
    """Nobody may write in the clone."""
    with root() as inside:
        yield from works_and_stays(inside, copied(inside, 'chmod', '-R', 'a-w'), 'nobody')


def read_only():
    """Not even root can write in the clone."""
    with root() as inside:
        mounted('--bind', inside.at(CLONE), inside.at(CLONE))
        mounted('-o', 'remount,bind,ro', inside.at(CLONE))
        yield from wanted(inside.run('sh', '-c', 'echo > new')[0] != 0, True)
        yield from works_and_stays(inside, CLONE, 'root')


def version():
    """It names the shipped program by its checksum."""
    with root() as inside:
        got = inside.run('bin/mig', '--version')
        yield from names_a_checksum(got)
        sums = {hashlib.sha256(read(path)).hexdigest() for path in glob.glob(inside.at(CLONE) + '/dist/*/mig_*')}
        if not sums >= set(re.findall(r'\b[0-9a-f]{64}\b', got[1])):
            yield 'no shipped program has a sha256 that mig --version names: %r' % got[1]


def installs_from(inside, top):
    """What isn't so of bin/install of a folder: it installs what nobody can use without the folder, and removes all of it."""
    before = paths_in(inside)
    yield from fine(inside.run('bin/install', cwd=top), 'bin/install')
    os.chmod(inside.at(top), 0o700)
    yield from works(inside, INSTALLED, '/usr/local/share/doc/mig/examples')
    yield from ('%s is missing' % page for page in PAGES if not os.path.isfile(inside.at(page)))
    yield from fine(inside.run('bin/install', '--remove', cwd=top), 'bin/install --remove')
    yield from wanted(paths_in(inside) - before, set())


def install():
    with root() as inside:
        yield from installs_from(inside, CLONE)


def debian_package():
    """Built in the tree, and installed where there is no git."""
    with root() as inside:
        got = inside.run('bin/debian-package', '/tmp/package')
        yield from fine(got, 'bin/debian-package')
        if got[0]:
            return
        yield from fine(inside.run('dpkg', '--remove', 'git'), 'dpkg --remove')
        os.chmod(inside.at(CLONE), 0o700)
        before = paths_in(inside)
        yield from fine(inside.run('dpkg', '-i', got[1].strip(), cwd='/'), 'dpkg -i')
        yield from works(inside, PATH, '/usr/share/doc/%s/examples' % NAME)
        yield from fine(inside.run('dpkg', '--purge', NAME), 'dpkg --purge')
        yield from wanted(paths_in(inside) - before, set())
        yield from wanted(inside.run('dpkg', '--audit'), (0, '', ''))


def tarball():
    """Unpacked by nobody where there is no git; root installs from it."""
    with root() as inside:
        if not os.path.exists(inside.at(ARCHIVE)):
            yield 'there is none'
            return
        yield from fine(inside.run('dpkg', '--remove', 'git'), 'dpkg --remove')
        inside.run('mkdir', '-m', '1777', '/tmp/unpacked')
        yield from fine(inside.run('tar', '-xzf', ARCHIVE, cwd='/tmp/unpacked', user='nobody'), 'tar')
        found = os.listdir(inside.at('/tmp/unpacked'))
        yield from wanted(len(found), 1)
        top = os.path.join('/tmp/unpacked', found[0])
        yield from checks_examples(inside, user='nobody', cwd=top)
        inside.run('chown', '-R', 'root:root', top)
        yield from installs_from(inside, top)


def without_python():
    """Each program says so in a line."""
    with root() as inside:
        inside.run('rm', '/usr/bin/python3')
        for name in 'mig', 'mig_tool', 'mig_check', 'xl-stream', 'install':
            status, out, err = inside.run('bin/' + name)
            yield from wanted((status, out, err.count('\n'), 'python3' in err), (125, '', 1, True))


def tests():
    """tests/run, as root."""
    with root() as inside:
        begun = time.monotonic()
        status, out, err = inside.run('tests/run')
        lines = out.splitlines() or ['nothing was printed']
        skipped = sum(line.startswith('skipped: ') for line in lines)
        print('%s tests: %.0f s, %s, %d skipped' % (Root.suite, time.monotonic() - begun, lines[-1], skipped), flush=True)
        if status or not re.fullmatch(r'[1-9]\d* passed, 0 failed', lines[-1]):
            told = lines[-60:] + err.splitlines()[-10:]
            yield 'tests/run answers %d and %s' % (status, '\n    '.join(line[:200] for line in told))


CHECKS = as_root, as_nobody, closed_to_nobody, read_only, version, install, debian_package, tarball, without_python, tests


def faults_of(check):
    try:
        return list(check())
    except Exception as fault:                       # a check that stumbles has failed, and the others go on
        return ['%s: %s' % (type(fault).__name__, fault)]


def main(words):
    Root.suite, Root.tree, Root.layer, Root.work = words[:4]
    loopback()
    passed = failed = 0
    for check in CHECKS:
        if words[4:] and check.__name__ not in words[4:] or check is tests and Root.suite != TESTS_IN:
            continue
        Root.check = check.__name__
        faults = faults_of(check)
        passed, failed = passed + (not faults), failed + bool(faults)
        if faults:
            print('%s %s: %s' % (Root.suite, check.__name__, '\n  '.join(faults[:5])), flush=True)
    print('%d passed, %d failed' % (passed, failed))
    return int(failed != 0)


if __name__ == '__main__':
    sys.exit(main(sys.argv[1:]))
