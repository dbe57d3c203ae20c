"""Debian's packages: downloaded once into a cache folder, and unpacked aside. Nothing is installed."""
import glob
import os
import re
import shutil

import suites
from faults import Fault
from programs import command

EMULATOR = {'emulator': ('qemu-system-x86',)}           # what runs Xen: of this machine's own suite
# Of these sets one package is unpacked.
ALONE = {'kernel': re.compile(r'linux-image-\d'), 'hypervisor': re.compile(r'xen-hypervisor-\d')}
# Of what dom0 and the emulator ask for, these are of no use in a system without packages of its own: they take room only.
LEFT_OUT = re.compile(r'adduser|coreutils|cpio|debconf|dpkg|gcc-\d+-base|initramfs|iso-codes|klibc|libdb5|libklibc|libpam|'
                      r'libpython|libsemanage|libsepol|libsqlite|linux-|logsave|media-types|passwd|python|readline|'
                      r'sensible|sysvinit|tar$|ucf|udev|xen-hypervisor')
NOT_NEEDED = ('usr/share/doc', 'usr/share/man', 'usr/share/locale', 'usr/share/lintian', 'usr/share/info',
              'usr/share/icons', 'lib/udev')


def sets_of(suite):
    """What is unpacked where of a suite: dom0's programs, the kernel of dom0 and of guests, the hypervisor."""
    return {
        'dom0': ('xen-utils-' + suite.xen, 'xenstore-utils', 'libxenmisc' + suite.xen, suite.device_model, 'busybox-static'),
        'kernel': ('linux-image-amd64',),
        'hypervisor': ('xen-hypervisor-%s-amd64' % suite.xen,),
    }


class Cache:
    """The folder of downloaded packages of a suite, in sets. Apt keeps its lists and its state in it, so that the machine's
    own aren't used."""

    def __init__(self, folder, sets, suite):
        self.folder, self.sets, self.suite = folder, sets, suite
        self.state = os.path.join(folder, 'apt')

    def apt(self, *words, what, cwd=None):
        options = ('Dir::State=' + self.state, 'Dir::State::lists=%s/lists' % self.state,
                   'Dir::State::status=%s/status' % self.state, 'Dir::Cache=' + self.state,
                   'Debug::NoLocking=1', 'APT::Sandbox::User=', 'APT::Install-Recommends=0', 'Acquire::Retries=3',
                   *self.sources())
        return command(['apt-get', '-y', '-q', *(word for option in options for word in ('-o', option)), *words], what, cwd=cwd)

    def sources(self):
        """Options that let apt read the lists of another suite than this machine's."""
        if self.suite == suites.own():
            return ()
        return 'Dir::Etc::sourcelist=%s/sources.list' % self.state, 'Dir::Etc::sourceparts=%s/sources.list.d' % self.state

    def place_sources(self):
        for name, text in suites.sources_of(self.suite).items():
            path = os.path.join(self.state, name)
            os.makedirs(os.path.dirname(path), exist_ok=True)
            with open(path, 'w') as file:
                file.write(text + '\n')

    def list_name(self, name):
        return os.path.join(self.folder, name + '.list')

    def files_of(self, name):
        """The files of a set, or None where one isn't there yet."""
        try:
            with open(self.list_name(name)) as listed:
                files = listed.read().split()
        except FileNotFoundError:
            return None
        return files if all(os.path.exists(os.path.join(self.folder, file)) for file in files) else None

    def download(self, name):
        """Downloads the packages of a set with all that they depend on, as on a machine without any package."""
        planned = self.apt('-s', 'install', *self.sets[name], what='the packages of ' + name)
        wanted = re.findall(r'^Inst (\S+) \((\S+)', planned, re.M)
        self.apt('download', *('%s=%s' % package for package in wanted), what='downloading the packages of ' + name, cwd=self.folder)
        files = []
        for package, version in wanted:
            found = glob.glob(os.path.join(self.folder, '%s_%s_*.deb' % (package, version.replace(':', '%3a'))))
            if not found:
                raise Fault('the package %s %s was not downloaded' % (package, version))
            files.append(os.path.basename(found[0]))
        with open(self.list_name(name) + '.new', 'w') as listed:
            listed.write('\n'.join(files) + '\n')
        os.replace(self.list_name(name) + '.new', self.list_name(name))

    def fill(self):
        """Sees to it that the packages of every set are there."""
        missing = [name for name in self.sets if self.files_of(name) is None]
        if not missing:
            return
        for folder in 'lists/partial', 'archives/partial':
            os.makedirs(os.path.join(self.state, folder), exist_ok=True)
        with open(os.path.join(self.state, 'status'), 'w'):
            pass
        if self.sources():
            self.place_sources()
        self.apt('-o', 'APT::Update::Error-Mode=any', 'update', what="the lists of Debian's packages")
        for name in missing:
            self.download(name)

    def chosen(self, name):
        for file in self.files_of(name):
            if name in ALONE and not ALONE[name].match(file):
                continue
            if name not in ALONE and LEFT_OUT.match(file.split('_')[0]):
                continue
            yield os.path.join(self.folder, file)

    def unpack(self, name, folder):
        """Unpacks a set into a folder of its own."""
        os.makedirs(folder)
        for file in self.chosen(name):
            command(['dpkg-deb', '-x', file, folder], 'unpacking ' + os.path.basename(file))
        for path in NOT_NEEDED:
            shutil.rmtree(os.path.join(folder, path), ignore_errors=True)

    def version(self, name, package):
        """The version of a package of a set, which a pattern names, for the record."""
        for file in self.files_of(name):
            if re.match(package, file):
                return file.split('_')[1].replace('%3a', ':')
        return 'unknown'
