"""The part of the second reader that says what `show` writes of a stream. It is a JSON object with its records that are whole,
with head, body and padding, in front of the part that is refused.

It is judged as `relay` judges it, without what END asks of the whole guest and without an emulator's number of bytes.
"""
import json
import struct

import libxl
import reader
from form import *

# the names in Xen's documents of the types that a record of an accepted stream may have, by layer; the names of all others
# are never shown, since such a record is refused at its head
NAMES = {
    'libxc': {
        END: 'END', PAGE_DATA: 'PAGE_DATA', PV_INFO: 'X86_PV_INFO', P2M_FRAMES: 'X86_PV_P2M_FRAMES', BASIC: 'X86_PV_VCPU_BASIC',
        EXTENDED: 'X86_PV_VCPU_EXTENDED', XSAVE: 'X86_PV_VCPU_XSAVE', SHARED_INFO: 'SHARED_INFO', TSC_INFO: 'X86_TSC_INFO',
        CONTEXT: 'HVM_CONTEXT', PARAMS: 'HVM_PARAMS', VCPU_MSRS: 'X86_PV_VCPU_MSRS', VERIFY: 'VERIFY',
        STATIC_DATA_END: 'STATIC_DATA_END', CPUID_POLICY: 'X86_CPUID_POLICY', MSR_POLICY: 'X86_MSR_POLICY'},
    'libxl': {
        libxl.LIBXL_END: 'END', libxl.LIBXC_CONTEXT: 'LIBXC_CONTEXT', libxl.XENSTORE_DATA: 'EMULATOR_XENSTORE_DATA',
        libxl.EMULATOR_CONTEXT: 'EMULATOR_CONTEXT'}}
OPTIONAL = 'optional'
KINDS = {None: None, PV: 'pv', HVM: 'hvm'}


def all_names():
    """The layer and the name of each record that may be shown."""
    return {(layer, name) for layer, names in NAMES.items() for name in (*names.values(), OPTIONAL)}


def names_met(tree):
    """The same of each record of a tree."""
    return [(record['layer'], record['name']) for record in tree['records']]


class Listed(Input):
    """An input whose records are listed when they stand whole."""

    keeps_guest = False

    def __init__(self, data):
        super().__init__(data)
        self.records = []

    def stands(self, kind, length, is_wrapped=False):
        layer = 'libxl' if is_wrapped else 'libxc'
        name = OPTIONAL if is_optional(kind) else NAMES[layer][kind]
        shown = {'layer': layer, 'length': length, 'name': name, 'type': kind}
        if (layer, kind) == ('libxc', PAGE_DATA):
            shown.update(self.words_before(length))
        self.records.append(shown)

    def words_before(self, length):
        """How many words the PAGE_DATA has that ends here, and how many of them have data: a page follows for each."""
        begins = self.at - length - -length % 8
        count, = struct.unpack_from('<I', self.data, begins)
        return {'words': count, 'pages': (length - 8 - 8 * count) // PAGE}


def text_of(tree):
    """The compact text of an object, members in the order of their names, as a line."""
    return (json.dumps(tree, sort_keys=True, separators=(',', ':')) + '\n').encode()


def show(data):
    """Status, standard output and report of `show`."""
    source, refused = Listed(data), None
    try:
        reader.read_either(source)
    except Refused as cause:
        refused = '%s: %s' % (source.place, cause)
    text = text_of({
        'kind': KINDS[source.kind], 'records': source.records, 'refused': refused, 'version': source.version,
        'wrapper': data.startswith(libxl.IDENT)})
    return (1, text, ('refused: %s\n' % refused).encode()) if refused else (0, text, b'')


def tree_in(text):
    """The object that a text spells, or none where it spells none."""
    try:
        return json.loads(text)
    except ValueError:
        return None


def disagreements(want, got):
    """What isn't as it has to be where `show` answers this: status, standard output and report."""
    if (got[0], got[2]) != (want[0], want[2]):
        yield 'show ends with status %d and says %r' % (got[0], got[2][:100])
    if tree_in(got[1]) != tree_in(want[1]):
        yield 'show spells another object: %r' % got[1][:200]
    elif got[1] != want[1]:
        yield 'show spells the object in another way: %r' % got[1][:200]
