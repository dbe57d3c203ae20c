"""A folder with a save of every kind, built byte by byte, and what is to be said of each. What is wanted is worked out
from the formats, and not taken from bin/mig."""
import bz2
import gzip
import lzma
import os
import shutil
import struct
import subprocess

TOP = os.path.dirname(os.path.dirname(os.path.dirname(os.path.abspath(__file__))))
HAS_XZ = bool(shutil.which('xz'))                    # else nothing here is packed by it
CONFIG = b'{"c_info":{}}\0'
XL_MAGIC = bytes.fromhex('58656e20736176656420646f6d61696e2c20786c20666f726d61740a2000200d')
LIBVIRT_MAGIC = bytes.fromhex('6c6962766972742d786d6c0a2000200d')
COPY = 'copy the file again and compare its size with the origin'


def example(name):
    with open(os.path.join(TOP, 'examples', name), 'rb') as file:
        return file.read()


SMALLEST, THREE, TWO = example('smallest-hvm.stream'), example('three-frames.stream'), example('version-2-hvm.stream')
WRAPPED, LEGACY = example('wrapped-hvm.stream'), example('legacy-hvm.stream')
HOST = gzip.decompress(example('two-hundred-frames-version-1.image.gz'))
NEWER_HOST, SCRIPT = gzip.decompress(example('two-hundred-frames.image.gz')), example('two-hundred-frames.script')
THIRD_HEAD = 16 + 8 + 104 + 8 + 112                  # of WRAPPED: header, LIBXC_CONTEXT, the image, and the pairs
OK_SMALLEST = 'ok version 3 kind hvm frames 0 records 3'
OK_THREE = 'ok version 3 kind hvm frames 3 records 6'
OK_TWO = 'ok version 2 kind hvm frames 1 records 5'
OLD = 'xl save of Xen 4.5 or older, legacy stream'


def words(*values):
    return struct.pack('<%dI' % len(values), *values)


def xl(stream, mandatory=3, optional=0, config=CONFIG, order=0x01020304, length=None):
    return XL_MAGIC + words(order, mandatory, optional, len(config) if length is None else length) + config + stream


def libvirt(stream, version=2, xml=b'<domstatus/>\0'):
    return LIBVIRT_MAGIC + words(version, len(xml)) + bytes(40) + xml + stream


def record(kind, body=b''):
    return words(kind, len(body)) + body + bytes(-len(body) % 8)


def image(kind, *records):
    headers = b'\xff' * 8 + b'XENF' + bytes.fromhex('00000003 0000 0000 00000000') + words(kind, 12, 4, 17)
    return headers + b''.join(records)


def packed(program, data):
    return subprocess.run([program, '-c'], input=data, stdout=subprocess.PIPE, check=True).stdout


def crc_changed(data):
    """Packed by gzip, with a wrong checksum behind the data."""
    whole = bytearray(gzip.compress(data, mtime=0))
    whole[-8] ^= 1
    return bytes(whole)


def at(place, means, do, of='the file'):
    return '\n    at byte %d of %s: %s; %s' % (place, of, means, do)


def cut(place, of='the file'):
    return at(place, 'the input ends within this part', COPY, of)


def header_line(line, form='xl save'):
    return form + ': refused: %s\n    no stream was reached; %s' % (line, COPY)


PV32 = image(1, record(2, bytes([4, 3, 0, 0]) + bytes(4)))
BAD_TYPE = image(2, record(16), record(1, words(3, 0) + struct.pack('<3Q', 7, 8, 5 << 60 | 9) + bytes(8192)))
NO_END = image(2, record(16), record(0x80000000, b'note'))
DAMAGED_GZIP = 'gzip, libxc image: fault: read: it could not be unpacked: gzip: '

# name: bytes, and what is to be said of it behind its name; None where the line is told in run
SAVES = {
    b'01-bare.stream': (SMALLEST, 'libxc image: ' + OK_SMALLEST),
    b'02-three-frames.stream': (THREE, 'libxc image: ' + OK_THREE),
    b'03-version-2.stream': (TWO, 'libxc image: ' + OK_TWO),
    b'04-wrapped.stream': (WRAPPED, 'libxl stream: ' + OK_SMALLEST),
    b'05-legacy.stream': (LEGACY, 'legacy stream: ok legacy frames 1'),
    b'06-xl.save': (xl(WRAPPED), 'xl save, libxl stream: ' + OK_SMALLEST),
    b'07-xl-bare.save': (xl(THREE), 'xl save, libxc image: ' + OK_THREE),
    b'08-xl-long-configuration.save': (xl(WRAPPED, config=b'{' * 3000000), 'xl save, libxl stream: ' + OK_SMALLEST),
    b'09-xl-no-configuration.save': (xl(WRAPPED, config=b''), 'xl save, libxl stream: ' + OK_SMALLEST),
    b'10-xl-optional-flags.save': (xl(WRAPPED, optional=0xffffffff), 'xl save, libxl stream: ' + OK_SMALLEST),
    b'11-old.save': (xl(LEGACY, mandatory=1), OLD + ': ok legacy frames 1'),
    b'12-old-text.save': (xl(LEGACY, mandatory=0, config=b'name="guest"'), OLD + ': ok legacy frames 1'),
    b'13-libvirt.save': (libvirt(WRAPPED), 'libvirt save, libxl stream: ' + OK_SMALLEST),
    b'14-libvirt-old.save': (libvirt(LEGACY, version=1), 'libvirt save of Xen 4.5 or older, legacy stream: ok legacy frames 1'),
    b'15-bare.stream.gz': (gzip.compress(THREE), 'gzip, libxc image: ' + OK_THREE),
    b'16-xl.save.gz': (gzip.compress(xl(WRAPPED)), 'gzip, xl save, libxl stream: ' + OK_SMALLEST),
    b'17-xl.save.xz': (lzma.compress(xl(THREE)), 'xz, xl save, libxc image: ' + OK_THREE),
    b'18-old.save.gz': (gzip.compress(xl(LEGACY, mandatory=1)), 'gzip, ' + OLD + ': ok legacy frames 1'),
    b'19-cut.stream': (THREE[:4200], 'libxc image: refused: Record 1: 1 Truncated' + cut(48)),
    b'20-cut.save': (xl(THREE[:4200]), 'xl save, libxc image: refused: Record 1: 1 Truncated' + cut(48 + len(CONFIG) + 48)),
    b'21-cut.stream.gz': (gzip.compress(THREE[:4200]),
                          'gzip, libxc image: refused: Record 1: 1 Truncated' + cut(48, 'what gzip unpacks')),
    b'22-cut-in-libxl.save': (xl(WRAPPED[:-20]), 'xl save, libxl stream: refused: LibxlRecord 2: 1 Truncated'
                              + cut(48 + len(CONFIG) + THIRD_HEAD)),
    b'23-damaged.gz': (gzip.compress(THREE)[:-30], None),
    b'24-checksum.gz': (crc_changed(THREE), None),
    b'25-xl-cut-in-header': (xl(b'')[:40], header_line("xl's header is cut short: the input has 40 bytes")),
    b'26-xl-cut-in-configuration': (xl(b'')[:55],
                                    header_line("the domain's configuration is cut short: it has 7 of 14 bytes")),
    b'27-xl-big-endian': (xl(WRAPPED, order=0x04030201), header_line("xl's header is big-endian")),
    b'28-xl-unknown-flag': (xl(WRAPPED, mandatory=7), header_line("xl's header has mandatory flags that are unknown: 0x4")),
    b'29-libvirt-3': (libvirt(WRAPPED, version=3), header_line("libvirt's header has the version 3, which is unknown", 'libvirt save')),
    b'30-empty': (b'', 'no save: empty'),
    b'31-text.txt': (b'Saves of this host\n==================\n', "no save: begins with text: 'Saves of this host'"),
    b'32-program': (b'\x7fELF\2\1\1' + bytes(99), 'no save: begins with ELF, a program or a library'),
    b'33-zeros': (bytes(4096), 'no save: begins with 512 zero bytes'),
    b'34-bytes': (b'\x80\x81\x82\x83' * 99, 'no save: begins with the bytes 80 81 82 83 80 81 82 83'),
    b'35-disk.qcow2': (b'QFI\xfb\0\0\0\3' + bytes(99), 'no save: begins with qcow2, a disk image'),
    b'36-image': (b'XGIMAGE1' + bytes(32), 'guest image: not judged: `mig save` and `mig walk` alone read guest images'),
    b'36-image-2': (b'XGIMAGE2' + bytes(32), 'guest image: not judged: `mig save` and `mig walk` alone read guest images'),
    b'37-joined.stream': (THREE + SMALLEST,
                          'libxc image: ' + OK_THREE + '\n    104 bytes follow the end of the stream; they were not judged'),
    b'38-twice.gz.gz': (gzip.compress(gzip.compress(THREE)), 'no save: begins with gzip, which is to be unpacked first'),
    b'39-bare.bz2': (bz2.compress(THREE), 'no save: begins with bzip2, which is to be unpacked first'),
    b'40-pv32.stream': (PV32, 'libxc image: refused: Record 0: 19 Pv32'
                        + at(40, 'a PV guest of 32 bits', 'such guests are not taken')),
    b'41-page-type.stream': (BAD_TYPE, 'libxc image: refused: Record 1: 15 BadPageType 2 5'
                             + at(48, 'a page type that does not exist', COPY)),
    b'42-no-end.stream': (NO_END, 'libxc image: refused: Record 2: 1 Truncated' + cut(64)),
    b'43-old-header-new-stream.save': (xl(WRAPPED, mandatory=1), OLD + ': refused: Start: 2 Modern'
                                       + at(48 + len(CONFIG), 'a stream of Xen 4.6 or newer',
                                            'it needs no conversion: give it to `mig normalise` or `mig restore`')),
    b'44-old-cut.save': (xl(LEGACY[:-2], mandatory=1), OLD + ': refused: Device: 1 Truncated'
                         + cut(48 + len(CONFIG) + len(LEGACY) - 28)),
    b'45-old-pv.save': (xl(struct.pack('<Qi', 4096, -1) + bytes(99), mandatory=1), OLD + ': refused: Chunk 0: 4 VerifyOrPv'
                        + at(48 + len(CONFIG) + 8, 'a PV guest, or a save in verify mode',
                             'not taken; HVM guests saved without verify mode are')),
    b'46 name with spaces.stream': (SMALLEST, 'libxc image: ' + OK_SMALLEST),
    b'47-name\nwith-a-new-line.stream': (SMALLEST, 'libxc image: ' + OK_SMALLEST),
    b'48-name-\xff\xfe.stream': (SMALLEST, 'libxc image: ' + OK_SMALLEST),
    b'49-xapi': (b'XenSavedDomv2-\n' + WRAPPED, "no save: begins with XAPI's header: the stream is to be cut out by hand"),
    b'50-folder/51-below.save': (xl(THREE), 'xl save, libxc image: ' + OK_THREE),
}
if not HAS_XZ:
    del SAVES[b'17-xl.save.xz']
SHOWN = {b'47-name\nwith-a-new-line.stream': '47-name\\nwith-a-new-line.stream', b'48-name-\xff\xfe.stream': '48-name-\\xff\\xfe.stream'}
STARTS = {b'23-damaged.gz': DAMAGED_GZIP, b'24-checksum.gz': DAMAGED_GZIP}


def make(folder):
    """Puts all of them into a folder, and a link that leads nowhere."""
    for name, (data, _) in SAVES.items():
        path = os.path.join(os.fsencode(folder), name)
        os.makedirs(os.path.dirname(path), exist_ok=True)
        with open(path, 'wb') as file:
            file.write(data)
    os.symlink('nowhere', os.path.join(folder, '52-link'))
