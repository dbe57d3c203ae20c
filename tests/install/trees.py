"""Clean trees of Debian's suites, made once by debootstrap from the mirror that this machine's apt uses, and kept."""
import fcntl
import os
import shutil
import subprocess

SUITES = 'bullseye', 'bookworm', 'trixie'
PACKAGES = 'python3', 'git'                          # besides the essential packages, and apt
QUIET = ('nice', '-n', '10')


class Skipped(Exception):
    """Why there is no such tree, in one line."""


def output_of(*words):
    """What a command writes; nothing where it fails."""
    ended = subprocess.run(words, stdout=subprocess.PIPE, stderr=subprocess.DEVNULL, check=False)
    return '' if ended.returncode else ended.stdout.decode(errors='replace')


def mirror():
    """Where apt has Debian's packages from, without the security updates, which have a place of their own."""
    form = '--format', '$(ORIGIN) $(LABEL) $(REPO_URI)'
    lines = output_of('apt-get', 'indextargets', *form, 'Created-By: Packages').splitlines()
    found = [line.split()[2] for line in lines if line.startswith('Debian Debian ')]
    if not found:
        raise Skipped("apt names no mirror of Debian that it has lists of; `apt-get update` fetches them")
    return found[0]


def make(suite, folder):
    """Makes the tree of a suite, in a mount namespace, so that what debootstrap mounts goes with it."""
    if os.geteuid():
        raise Skipped('only root makes a tree')
    if not shutil.which('debootstrap'):
        raise Skipped('debootstrap is missing; `apt-get install debootstrap` gets it')
    part, log = (os.path.join(folder, suite + ending) for ending in ('.part', '.log'))
    shutil.rmtree(part, ignore_errors=True)
    words = 'debootstrap', '--variant=minbase', '--include=' + ','.join(PACKAGES), suite, part, mirror()
    with open(log, 'wb') as said:
        ended = subprocess.run(['unshare', '--mount', *QUIET, *words], stdin=subprocess.DEVNULL, stdout=said,
                               stderr=subprocess.STDOUT, check=False)
    if ended.returncode:
        shutil.rmtree(part, ignore_errors=True)
        with open(log, encoding='utf-8', errors='replace') as said:
            last = (said.read().strip() or 'debootstrap failed').splitlines()[-1]
        raise Skipped('%s (%s has all that debootstrap said)' % (last, log))
    output_of('chroot', part, '/usr/bin/apt-get', 'clean')
    os.rename(part, os.path.join(folder, suite))
    os.unlink(log)


def tree_of(suite, folder):
    """The tree of a suite, which is made where it isn't there; another run that makes it is waited for."""
    tree = os.path.join(folder, suite)
    with open(os.path.join(folder, '.lock'), 'w') as lock:
        fcntl.flock(lock, fcntl.LOCK_EX)
        if not os.path.isdir(tree):
            make(suite, folder)
    return tree


def told(tree):
    """What a tree has, for the record."""
    with open(os.path.join(tree, 'etc', 'debian_version'), encoding='utf-8') as version:
        said = ['Debian ' + version.read().strip()]
    for words in ('python3', '--version'), ('git', '--version'), ('ldd', '--version'):
        said += output_of('chroot', tree, '/usr/bin/' + words[0], *words[1:]).splitlines()[:1]
    return ', '.join(said)
