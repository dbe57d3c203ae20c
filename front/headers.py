"""The headers that toolstacks put before a stream: what they say, and what is wrong with one.

xl's header (tools/xl/xl.h and xl_vmcontrol.c of Xen) has 32 bytes of magic, and four numbers of 4 bytes, little-endian. These are
the byte order 0x01020304, mandatory flags, optional flags and a length. Then come so many bytes with the domain's configuration.
Mandatory flags: bit 0, the configuration is JSON; bit 1, the stream is of version 2, which Xen 4.6 brought. Optional flags are
ignored, as xl does.

libvirt's header (src/libxl/libxl_conf.h of libvirt): 16 bytes of magic; a version and the length of an XML text, numbers
of 4 bytes, little-endian on x86; 40 unused bytes; then the text. Version 1 stands before a legacy stream, version 2
before a libxl stream.
"""
import struct
from collections import namedtuple

from front import errors

TYPE_CHECKING = False                                # a checker of types takes it for true; typing itself is slow to load
if TYPE_CHECKING:
    from typing import Union

XL_MAGIC = b'Xen saved domain, xl format\n \0 \r'
XL_NUMBERS = struct.Struct('<IIII')
XL_LENGTH = len(XL_MAGIC) + XL_NUMBERS.size
BYTE_ORDER, OTHER_ORDER = 0x01020304, 0x04030201
JSON, STREAM_V2 = 1 << 0, 1 << 1

LIBVIRT_MAGIC = b'libvirt-xml\n \0 \r'
LIBVIRT_NUMBERS = struct.Struct('<II40x')
LIBVIRT_LENGTH = len(LIBVIRT_MAGIC) + LIBVIRT_NUMBERS.size
LIBVIRT_LEGACY, LIBVIRT_V2 = 1, 2                    # versions, by the stream that follows


class XlHeader(namedtuple('XlHeader', 'mandatory optional length')):
    """What xl's header says, without the configuration itself."""

    @property
    def stream_begins(self) -> int:
        return XL_LENGTH + int(self.length)

    @property
    def is_legacy(self) -> bool:
        return not self.mandatory & STREAM_V2

    def before_v2(self, configuration: bytes) -> bytes:
        """The bytes of this header before a stream of version 2, with this configuration."""
        numbers = XL_NUMBERS.pack(BYTE_ORDER, self.mandatory | STREAM_V2, self.optional, len(configuration))
        return XL_MAGIC + numbers + configuration


def refuse_if(test: 'Union[bool, int]', why: str) -> None:
    if test:
        raise errors.BadHeader(why)


def xl_header(front: bytes) -> XlHeader:
    """What the first bytes of a file say as xl's header."""
    refuse_if(len(front) < XL_LENGTH, "xl's header is cut short: the input has %d bytes" % len(front))
    byte_order, mandatory, optional, length = XL_NUMBERS.unpack_from(front, len(XL_MAGIC))
    refuse_if(byte_order == OTHER_ORDER, "xl's header is big-endian")
    refuse_if(byte_order != BYTE_ORDER, "xl's header has the byte order 0x%08x, which is unknown" % byte_order)
    unknown = mandatory & ~(JSON | STREAM_V2)
    refuse_if(unknown, "xl's header has mandatory flags that are unknown: 0x%x" % unknown)
    return XlHeader(mandatory, optional, length)


def configuration_cut(there: int, length: int) -> errors.BadHeader:
    return errors.BadHeader("the domain's configuration is cut short: it has %d of %d bytes" % (there, length))


class LibvirtHeader(namedtuple('LibvirtHeader', 'version length')):
    """What libvirt's header says, without the XML text."""

    @property
    def stream_begins(self) -> int:
        return LIBVIRT_LENGTH + int(self.length)

    @property
    def is_legacy(self) -> bool:
        return bool(self.version == LIBVIRT_LEGACY)

    def before_v2(self, configuration: bytes) -> bytes:
        """The bytes of this header before a stream of version 2, with this XML text."""
        return LIBVIRT_MAGIC + LIBVIRT_NUMBERS.pack(LIBVIRT_V2, len(configuration)) + configuration


def libvirt_header(front: bytes) -> LibvirtHeader:
    """What the first bytes of a file say as libvirt's header."""
    refuse_if(len(front) < LIBVIRT_LENGTH, "libvirt's header is cut short: the input has %d bytes" % len(front))
    header = LibvirtHeader(*LIBVIRT_NUMBERS.unpack_from(front, len(LIBVIRT_MAGIC)))
    refuse_if(header.version not in (LIBVIRT_LEGACY, LIBVIRT_V2), "libvirt's header has the version %d, which is unknown" % header.version)
    return header
