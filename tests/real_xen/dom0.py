"""Builds what QEMU boots: the hypervisor, dom0's kernel, and dom0's file system as an archive in memory."""
import glob
import gzip
import hashlib
import lzma
import os
import shutil
import stat
import struct

from faults import Fault
from programs import command

HERE = os.path.dirname(os.path.realpath(__file__))
# In this order they find what they need of one another: the devices of Xen, and the folder that dom0 shares with the test.
# Those of PARTS are parts of others of these in one kernel or another, and then no files.
MODULES = ('xen-evtchn', 'xen-privcmd', 'xen-gntdev', 'xen-gntalloc', 'xenfs', 'virtio_ring', 'virtio',
           'virtio_pci_legacy_dev', 'virtio_pci_modern_dev', 'virtio_pci', 'virtio_console', 'netfs', 'fscache', '9pnet', '9pnet_virtio', '9p')
PARTS = {'netfs', 'fscache', 'virtio_pci_legacy_dev', 'virtio_pci_modern_dev'}
FOLDERS = ('bin', 'sbin', 'dev', 'proc', 'sys', 'run', 'tmp', 'etc/xen', 'root', 'share', 'lib/modules', 'var/log/xen',
           'var/lib/xen', 'var/lib/xenstored')
LOADED, DISK = 4 * 512, 1 << 20                       # so much of the disk is loaded; its size
XZ, ZSTD = b'\xfd7zXZ\0', b'\x28\xb5\x2f\xfd'
ELF = b'\x7fELF'
LINKED = 'bin', 'sbin', 'lib', 'lib64'                # links into usr, in suites whose packages have all below usr


def place_kernel(boot_image, path):
    """Unpacks the ELF kernel in a bzImage, which a PV guest starts from. Linux's boot protocol says where its payload stands;
    behind it are four bytes of its length."""
    with open(boot_image, 'rb') as file:
        data = file.read()
    setup = ((data[0x1f1] or 4) + 1) * 512
    offset, length = struct.unpack_from('<II', data, 0x248)
    payload = data[setup + offset:setup + offset + length - 4]
    if payload.startswith(ZSTD):
        with open(path + '.zst', 'wb') as file:
            file.write(payload)
        command(['zstd', '-d', '-q', '-f', path + '.zst', '-o', path], 'unpacking ' + boot_image)
    elif payload.startswith(XZ):
        with open(path, 'wb') as file:
            file.write(lzma.LZMADecompressor().decompress(payload))
    else:
        raise Fault('the payload of %s is packed by neither xz nor zstd' % boot_image)
    with open(path, 'rb') as file:
        if file.read(len(ELF)) != ELF:
            raise Fault('no ELF kernel stands in %s' % boot_image)


class Archive:
    """A cpio archive in the form that Linux unpacks at its start (newc). It is written here so that neither cpio nor the
    rights of root, which device nodes ask for elsewhere, are needed."""

    def __init__(self, file):
        self.file, self.number = file, 0

    def entry(self, name, mode, data=b'', device=(0, 0)):
        self.number += 1
        encoded = name.encode() + b'\0'
        fields = (self.number, mode, 0, 0, 1, 0, len(data), 0, 0, *device, len(encoded), 0)
        head = b'070701' + b''.join(b'%08X' % field for field in fields) + encoded
        self.file.write(head + bytes(-len(head) % 4) + data + bytes(-len(data) % 4))

    def tree(self, top):
        """All below a folder: folders, files and links."""
        for folder, folders, files in os.walk(top):
            for name in sorted(folders) + sorted(files):
                path = os.path.join(folder, name)
                status = os.lstat(path)
                if stat.S_ISLNK(status.st_mode):
                    data = os.readlink(path).encode()
                elif stat.S_ISREG(status.st_mode):
                    with open(path, 'rb') as file:
                        data = file.read()
                else:
                    data = b''
                self.entry(os.path.relpath(path, top), status.st_mode, data)

    def console(self):
        self.entry('dev', 0o40755)
        self.entry('dev/console', 0o20600, device=(5, 1))

    def end(self):
        self.entry('TRAILER!!!', 0)


def bare(lab, source, name, *words):
    """Compiles a program that runs without any system below it; its path."""
    program = os.path.join(lab, name)
    command(['gcc', '-Wall', '-Wno-array-bounds', '-ffreestanding', '-fno-pie', '-no-pie', '-nostdlib', '-static',
             '-fno-stack-protector', '-fno-asynchronous-unwind-tables', '-fcf-protection=none', '-fno-strict-aliasing',
             '-Wl,-N,--build-id=none', *words, '-o', program, os.path.join(HERE, source)], 'compiling ' + source)
    return program


def boot_disk(lab):
    """The disk of the HVM guest: our program in its first sectors, and room."""
    disk = bare(lab, 'boot.c', 'boot.disk', '-Os', '-m16', '-march=i386', '-mregparm=3', '-Wl,-Ttext=0x7c00,--oformat=binary')
    if os.path.getsize(disk) > LOADED:
        raise Fault('boot.c has become too long: %d bytes' % os.path.getsize(disk))
    os.truncate(disk, DISK)


def tiny_guests(lab):
    """The guests that are nothing but our own program: PV, and PVH."""
    words = '-O2', '-mgeneral-regs-only', '-Wl,--no-warn-rwx-segments'
    bare(lab, 'tiny.c', 'tiny', *words, '-mcmodel=kernel', '-Wl,-Ttext=0xffffffff80000000')
    bare(lab, 'tiny.c', 'tinypvh', *words, '-DPVH', '-Wl,-Ttext=0x100000')


def guest_archive(lab):
    """The file system of a Linux guest: our init and nothing else."""
    init = os.path.join(lab, 'guest')
    command(['gcc', '-O2', '-Wall', '-static', '-s', '-pthread', '-o', init, os.path.join(HERE, 'guest.c')], 'compiling guest.c')
    with open(init, 'rb') as file:
        program = file.read()
    with gzip.GzipFile(os.path.join(lab, 'guest.img'), 'wb', mtime=0) as file:
        archive = Archive(file)
        archive.console()
        archive.entry('init', 0o100755, program)
        archive.end()


def one(pattern):
    found = sorted(glob.glob(pattern, recursive=True))
    if not found:
        raise Fault('no %s was unpacked' % pattern)
    return found[-1]


def small_files(root):
    for name, text in (('etc/passwd', 'root:x:0:0:root:/root:/bin/sh\n'), ('etc/group', 'root:x:0:\n'),
                       ('etc/hosts', '127.0.0.1 localhost\n'), ('etc/xen/xl.conf', '')):
        with open(os.path.join(root, name), 'w') as file:
            file.write(text)


def place_modules(root, kernel):
    """Puts the modules where dom0_init finds them, in the order in which it loads them."""
    built_in, order = one(os.path.join(kernel, '**/modules.builtin')), []
    with open(built_in) as file:
        needless = {os.path.basename(line.strip()) for line in file}
    for module in MODULES:
        found = glob.glob(os.path.join(os.path.dirname(built_in), '**', module + '.ko*'), recursive=True)
        if found:
            with (lzma.open if found[0].endswith('.xz') else open)(found[0], 'rb') as packed, \
                    open(os.path.join(root, 'lib/modules', module + '.ko'), 'wb') as file:
                shutil.copyfileobj(packed, file)
            order.append(module)
        elif module + '.ko' not in needless and module not in PARTS:
            raise Fault('no module %s was unpacked' % module)
    with open(os.path.join(root, 'lib/modules/order'), 'w') as file:
        file.write('\n'.join(order) + '\n')


def link_folders(root):
    for name in LINKED:
        if not os.path.lexists(os.path.join(root, name)) and os.path.isdir(os.path.join(root, 'usr', name)):
            os.symlink('usr/' + name, os.path.join(root, name))


def fill_root(root, kernel):
    link_folders(root)
    for folder in FOLDERS:
        os.makedirs(os.path.join(root, folder), exist_ok=True)
    small_files(root)
    place_modules(root, kernel)
    if not os.path.lexists(os.path.join(root, 'bin/sh')):
        os.symlink('busybox', os.path.join(root, 'bin/sh'))
    shutil.copy(os.path.join(HERE, 'dom0_init'), os.path.join(root, 'init'))
    os.chmod(os.path.join(root, 'init'), 0o755)


def sources_sum():
    """A checksum of what says how dom0 is built, so that what an earlier version of it built isn't booted."""
    added = hashlib.sha256()
    for name in 'dom0.py', 'dom0_init', 'packages.py', 'suites.py':
        with open(os.path.join(HERE, name), 'rb') as file:
            added.update(file.read())
    return added.hexdigest()


def once(folder, make):
    """Makes what is in a folder, where these sources didn't make it before."""
    done = os.path.join(folder, 'built')
    if os.path.exists(done):
        with open(done) as file:
            if file.read() == sources_sum():
                return
    make()
    with open(done, 'w') as file:
        file.write(sources_sum())


def unpack(cache, lab):
    """Unpacks all sets of packages of a cache, each into a folder of its own in `lab`."""
    cache.fill()
    for name in cache.sets:
        shutil.rmtree(os.path.join(lab, name), ignore_errors=True)
        cache.unpack(name, os.path.join(lab, name))


def build_host(cache, lab):
    """Builds Xen, dom0's kernel and dom0's file system in the folder `lab`."""
    unpack(cache, lab)
    with gzip.open(one(os.path.join(lab, 'hypervisor/boot/xen-4*.gz'))) as packed, open(os.path.join(lab, 'xen'), 'wb') as file:
        shutil.copyfileobj(packed, file)
    place_kernel(one(os.path.join(lab, 'kernel/boot/vmlinuz-*')), os.path.join(lab, 'vmlinux'))
    fill_root(os.path.join(lab, 'dom0'), os.path.join(lab, 'kernel'))
    with open(os.path.join(lab, 'dom0.cpio'), 'wb') as file:
        archive = Archive(file)
        archive.console()
        archive.tree(os.path.join(lab, 'dom0'))
        archive.end()


def build(cache, lab):
    """Builds all that is booted in the folder `lab`, of that the guests' programs each time."""
    once(lab, lambda: build_host(cache, lab))
    guest_archive(lab)
    boot_disk(lab)
    tiny_guests(lab)
