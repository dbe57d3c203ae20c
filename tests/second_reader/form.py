"""What both kinds of guest have in common in the second reader: numbers and limits of the format, input, refusals, records."""
import struct

# the limits, in one place for all of the second reader
MOST_BODY, MOST_RECORDS, MOST_CHUNKS, MOST_FRAMES, MOST_PAIRS = 1 << 27, 1 << 28, 1 << 28, 1 << 24, 1 << 24
MOST_POLICY_ENTRIES, MOST_GDT_ENTRIES, VCPU_LIMIT, MACHINE_LIMIT = 65536, 7168, 4096, 1 << 40
PAGE = 4096
PV, HVM = 1, 2
END, PAGE_DATA, PV_INFO, P2M_FRAMES, BASIC, EXTENDED, XSAVE, SHARED_INFO, TSC_INFO, CONTEXT, PARAMS = range(11)
VCPU_MSRS, VERIFY, STATIC_DATA_END, CPUID_POLICY, MSR_POLICY = 12, 13, 16, 17, 18
VCPU = BASIC, EXTENDED, XSAVE, VCPU_MSRS
NOTAB, BROKEN, XTAB = 0, 13, 15


class Refused(Exception):
    pass


class Input:
    """Bytes that are taken one after another, and the place that is printed of what is being judged."""

    # whether a guest is kept; where none is, nothing is asked that needs a whole guest or all pairs of an emulator
    keeps_guest = True

    def __init__(self, data):
        self.data, self.at, self.place = data, 0, 'ImageHeader'
        self.version, self.kind = None, None         # what the headers of the image say, when they are judged

    def take(self, length):
        if len(self.data) - self.at < length:
            raise Refused('1 Truncated')
        self.at += length
        return self.data[self.at - length:self.at]

    def take_body(self, kind, length, is_wrapped=False):
        """The body of a record that is judged as a whole; `is_wrapped`: of a record of the wrapper."""
        return self.take(length)

    def stands(self, kind, length, is_wrapped=False):
        """A record of this type and length was judged, with its padding, and ends here; nothing is kept of it."""


def refuse_if(test, cause):
    if test:
        raise Refused(cause)


def has_page(kind):
    return kind < BROKEN


def is_optional(kind):
    """Whether a record of this type is one that is skipped."""
    return kind >= 1 << 31


def record(kind, *pieces):
    body = b''.join(pieces)
    return struct.pack('<II', kind, len(body)) + body + bytes(-len(body) % 8)
