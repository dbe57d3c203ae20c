"""The causes of refusals, each once: its number, name and arguments, where it stands, what it means and what can be done, at length
for docs/refusals.md and in half a sentence for an operator.

`bin/mig` says the short form behind a refusal. tests/documents/causes.py makes the tables of docs/refusals.md and the lists of
docs/mig_tool.1 of this file, and tests/lines.py takes the names and numbers."""
from collections import namedtuple

TYPE_CHECKING = False                                # a checker of types takes it for true; typing itself is slow to load
if TYPE_CHECKING:
    from typing import Dict, Optional

COPY = 'copy the file again and compare its size with the origin'
DAMAGED = 'copy the file again, else save the guest again'
PAUSED = 'save the guest again, while it is paused'
NOT_TAKEN = 'such guests are not taken'
AGAIN = 'write the image again, by `mig restore`'
MEND = 'mend the script, or the image, so that the host is sound when it is paused'
NEWER, NEWER_PROGRAM = 'made by a newer Xen, or damaged', 'made by a newer program, or damaged'
USUAL = DAMAGED, AGAIN                               # docs/refusals.md says these once, and not for each cause

# The last two are the short form: `means` follows "at byte N of the file: ".
Cause = namedtuple('Cause', 'number name arguments where meaning remedy means do')


def table(*causes: Cause) -> 'Dict[int, Cause]':
    """Causes by their numbers."""
    return {cause.number: cause for cause in causes}


# ---- of a stream

STREAM = table(
    Cause(1, 'Truncated', '', 'any',
          'the input ends before the part does. Of an empty input the place is `ImageHeader`',
          "copy the file again; compare its size with the origin's",
          'the input ends within this part', COPY),
    Cause(2, 'NotStream', '', 'ImageHeader',
          'the first 8 bytes are neither all ones, as those of an image, nor `LibxlFmt`; or the first 8 bytes behind '
          "LIBXC_CONTEXT aren't all ones",
          'see "Wrappers"; a legacy stream is for `convert`',
          'no stream begins here', 'look whether the right file was named; an old save is for `mig convert`'),
    Cause(3, 'BadId', '', 'ImageHeader',
          "the id isn't `XENF`",
          'look whether the right file was named',
          'the id of an image is missing', 'look whether the right file was named, and copy it again'),
    Cause(4, 'BadVersion', 'VERSION', 'ImageHeader, LibxlHeader',
          'a version of the image other than 2 and 3, or of the wrapper other than 2',
          NEWER,
          'a version that is not known', NEWER),
    Cause(5, 'BigEndian', '', 'ImageHeader, LibxlHeader',
          'the image or the wrapper is big-endian (bit 0 of the options)',
          'x86 guests are saved little-endian',
          'a big-endian stream', 'x86 guests are saved little-endian'),
    Cause(6, 'BadKind', 'TYPE', 'DomainHeader',
          "the guest's type is neither 1 (PV) nor 2 (HVM)",
          DAMAGED,
          'neither a PV nor an HVM guest', COPY),
    Cause(7, 'BadPageShift', 'SHIFT', 'DomainHeader',
          "pages don't have 4096 bytes (shift 12)",
          DAMAGED,
          'pages that have not 4096 bytes', COPY),
    Cause(8, 'BodyTooLong', 'LENGTH', 'Record, LibxlRecord',
          "a body of more than 2^27 bytes, which is Xen's limit too",
          DAMAGED,
          'a record of more than 2^27 bytes', 'bytes were lost or added before it: ' + COPY),
    Cause(9, 'Unsupported', 'TYPE', 'Record, LibxlRecord',
          "a record that isn't read: of the image 11 TOOLSTACK, 14 CHECKPOINT and 15 CHECKPOINT_DIRTY_PFN_LIST; of "
          'the wrapper 4 CHECKPOINT_END and 5 CHECKPOINT_STATE',
          'save the guest without these',
          'a record that is not read: of Remus or COLO, or TOOLSTACK', 'save the guest without these'),
    Cause(10, 'UnknownMandatory', 'TYPE', 'Record, LibxlRecord',
          "a type that the format doesn't have, without the bit that makes it optional",
          NEWER,
          'a record type that the format does not have', 'made by a newer Xen, or bytes were lost: ' + COPY),
    Cause(11, 'WrongKind', 'TYPE', 'Record',
          'a record of PV guests in an HVM stream, or in a PV stream 9 HVM_CONTEXT or 10 HVM_PARAMS',
          DAMAGED,
          'a record of the other kind of guest', COPY),
    Cause(12, 'OutOfOrder', 'RULE', 'Record',
          'the record may not be here, by a rule below',
          DAMAGED,
          'the record may not stand here', COPY),
    Cause(13, 'BadLength', 'LENGTH', 'Record, LibxlRecord',
          "a length that the type can't have, or that a count in the body contradicts: of words, pages or "
          'parameters, or in X86_PV_P2M_FRAMES of the P2M frames from the first frame number to the last',
          DAMAGED,
          'a length that this record cannot have', COPY),
    Cause(14, 'NoPages', '', 'Record',
          'a PAGE_DATA without words',
          'Xen writes no such record: tell those whose program made the stream',
          'a PAGE_DATA without frames', 'tell those whose program made the stream'),
    Cause(15, 'BadPageType', 'ENTRY TYPE', 'Record',
          'this word of a PAGE_DATA, counted from 0, has a reserved type, 5 to 8',
          DAMAGED,
          'a page type that does not exist', COPY),
    Cause(16, 'PfnOutside', 'ENTRY PFN', 'Record',
          'this word names a frame number above the greatest last one of the lists of P2M frames so far, also as XTAB',
          DAMAGED,
          'a frame number above the last one of the guest', COPY),
    Cause(17, 'Superpage', 'ENTRY SLOT', 'Record',
          'the page of this word is a page table of level 2, 3 or 4, and its entry in this slot (0 to 511) is for a '
          'large page: bits 0 and 7 are set',
          "start the guest without large pages; Xen's own saver stops at them, too",
          'a page table with a large page in it', DAMAGED),
    Cause(18, 'EntryOutside', 'ENTRY SLOT PFN', 'Record',
          'the page of this word is a page table, and its entry in this slot names a frame number above the greatest '
          'last one of the lists so far',
          DAMAGED,
          'a page table that names a frame outside the guest', DAMAGED),
    Cause(19, 'Pv32', '', 'Record',
          'X86_PV_INFO says that the guest has 32 bits',
          NOT_TAKEN,
          'a PV guest of 32 bits', NOT_TAKEN),
    Cause(20, 'BadPvInfo', '', 'Record',
          'X86_PV_INFO says another width than 8 bytes, or another number of page table levels than 4',
          "guests with 5 levels aren't taken; any other number is damage",
          'a PV guest of another width or number of table levels', 'not taken, or damaged: ' + COPY),
    Cause(21, 'P2mStart', 'PFN', 'Record',
          "a list of P2M frames doesn't begin with frame number 0, as Xen's lists do",
          DAMAGED,
          'a list of P2M frames that does not begin at 0', DAMAGED),
    Cause(23, 'VcpuId', 'ID', 'Record',
          'a vCPU record, with a context or without, of a vCPU with the number 4096 or more',
          DAMAGED,
          'a vCPU of number 4096 or more', COPY),
    Cause(24, 'GdtEnts', 'COUNT', 'Record',
          'the context of a vCPU says that its GDT has more entries than Xen leaves to a guest '
          '([Limits](DECISIONS.md#limits))',
          DAMAGED,
          'a vCPU whose GDT is too long', COPY),
    Cause(25, 'BadContext', 'FAULT', 'Record',
          "an HVM_CONTEXT that is no chain of entries: `NoHeader`, the first entry isn't the header, or there is "
          "none; `HeaderSize LENGTH`, the header hasn't 24 bytes; `ShortEntry OFFSET`, the entry there isn't whole; "
          '`NoEnd`, no END entry ends the chain',
          DAMAGED,
          'the context of the guest is damaged', DAMAGED),
    Cause(26, 'ParamIndex', 'INDEX', 'Record',
          'an HVM parameter with an index of 4096 or more',
          NEWER,
          'an HVM parameter that is not known', NEWER + ': ' + COPY),
    Cause(27, 'Missing', 'TYPE', 'Record',
          'END, and no record of this type came before. HVM: 9, HVM_CONTEXT. PV, in this order: 3, '
          'X86_PV_P2M_FRAMES; 7, SHARED_INFO; 4, X86_PV_VCPU_BASIC of vCPU 0 with a context',
          'save the guest again',
          'the stream ends without a record that each guest has', 'save the guest again'),
    Cause(28, 'P2mFrame', 'INDEX', 'Record',
          'END, and the P2M frame at this index of the list, counted from 0, is wrong. Its number is too great; it '
          "isn't there; it is a page table, BROKEN or XALLOC; or a smaller index has it too, and one of the two is for "
          'frame numbers that have frames. Index k is for frame numbers 512 k to 512 k + 511',
          PAUSED,
          'a P2M frame is missing or of another type', PAUSED),
    Cause(29, 'TargetAbsent', 'PFN SLOT', 'Record',
          "END, and the entry in this slot of the page table in frame PFN names a frame that isn't there",
          PAUSED,
          'a page table names a frame that was not sent', PAUSED),
    Cause(30, 'VcpuFrame', 'ID FIELD', 'Record',
          "END, and a field of the context of vCPU ID holds a frame that isn't there, or of a type that the field "
          "doesn't take. Ordinary frames: 0, rdx, the start page (of vCPU 0 alone); 1 to 14, the frames of the GDT "
          'from the first on, as many as it needs. Level 4 tables, pinned or not: 17, ctrlreg[3]; 18, ctrlreg[1], '
          'where its bit 0 is set',
          PAUSED,
          'a vCPU names a frame that is missing or of another type', PAUSED),
    Cause(31, 'TooManyRecords', '', 'Record, LibxlRecord',
          'the number of this record is 2^28',
          PAUSED,
          'more than 2^28 records', PAUSED),
    Cause(32, 'TooManyFrames', '', 'Record',
          'END, and the guest has more than 2^24 frames (64 GiB of pages, video memory and ROMs counted)',
          NOT_TAKEN,
          'a guest of more than 2^24 frames, 64 GiB', NOT_TAKEN),
    Cause(33, 'BadPairs', 'OFFSET', 'LibxlRecord',
          "a text of EMULATOR_XENSTORE_DATA that begins at this offset, behind the emulator's id and index, has no "
          'zero byte behind it; or the body ends there, and the last key has no value',
          DAMAGED,
          "the device model's store is cut", DAMAGED),
    Cause(34, 'BadKey', 'OFFSET', 'LibxlRecord',
          'the byte at this offset, counted in the same way, may not be in a key: ASCII letters, digits, `-`, `/`, '
          '`_` and `@` may. Or a key is empty, and its zero byte is there',
          'copy the file again, else tell those whose program made it',
          "a key of the device model's store has a byte that none may have", DAMAGED),
    Cause(35, 'BadEmulator', 'ID', 'LibxlRecord',
          'a record of an emulator with the id 3 or more. Known are 0 (unknown, in converted streams), 1 (qemu '
          'traditional) and 2 (qemu upstream)',
          NEWER,
          'a device model that is not known', NEWER + ': ' + COPY),
    Cause(36, 'EmulatorForPv', '', 'LibxlRecord',
          'END of the wrapper, the guest is PV, and a record of an emulator came before, also one that sets nothing',
          'two streams were joined: save the guest again',
          'a PV guest with a device model', 'two streams were joined: save the guest again'),
    Cause(37, 'ContextCount', '', 'LibxlRecord',
          'a second LIBXC_CONTEXT, or END of the wrapper without one',
          "copy the file again. Streams of Remus and COLO aren't taken",
          'not exactly one image in the libxl stream', COPY),
    Cause(38, 'TooManyPairs', '', 'LibxlRecord',
          'with this record, the pairs of one emulator spell more than 2^24 bytes: keys, values and their zero '
          'bytes, each key once with its last value',
          DAMAGED,
          "the device model's store is too long", DAMAGED),
    Cause(39, 'EmulatorIndex', 'INDEX', 'LibxlRecord',
          "a record of an emulator with the index 256 or more; Xen's tools write 0",
          DAMAGED,
          'an index of a device model that is too great', COPY),
)

# ---- of a legacy stream, of Xen 4.5 or older

LEGACY = table(
    Cause(1, 'Truncated', '', 'any',
          'the input ends before the part does. Of an empty input the place is `Start`; it is `Device` where some '
          "bytes follow the context, and fewer than the device model's record needs",
          "copy the file again; compare its size with the origin's",
          'the input ends within this part', COPY),
    Cause(2, 'Modern', '', 'Start',
          'the stream begins as an image or a libxl stream of Xen 4.6 and newer',
          'give it to `normalise`, `restore` or `verify`',
          'a stream of Xen 4.6 or newer', 'it needs no conversion: give it to `mig normalise` or `mig restore`'),
    Cause(3, 'Tools32', '', 'Start',
          "bytes 4 to 7 aren't 0: tools of 32 bits wrote the number in 4 bytes, or the file doesn't begin with the "
          'stream',
          "`bin/mig` finds the stream behind xl's header. Streams of 32-bit tools aren't taken: try Xen's "
          '`convert-legacy-stream`',
          'tools of 32 bits wrote it, or it is no stream', "try Xen's convert-legacy-stream"),
    Cause(4, 'VerifyOrPv', '', 'Chunk',
          "type -1, verify mode; as chunk 0 also what a PV guest's stream has there",
          "save the guest without verify mode; PV guests aren't taken",
          'a PV guest, or a save in verify mode', 'not taken; HVM guests saved without verify mode are'),
    Cause(5, 'Tmem', '', 'Chunk',
          'types -5 and -6, transcendent memory',
          'save the guest without it',
          'transcendent memory', 'save the guest without it'),
    Cause(6, 'Compressed', '', 'Chunk',
          'types -12 and -13, compressed pages and what enables them, for Remus',
          'save the guest with `xl save`',
          'pages that Remus compressed', 'save the guest with `xl save`'),
    Cause(7, 'UnknownChunk', 'NUMBER', 'Chunk',
          "a negative type that isn't in the table above; the number has no sign",
          DAMAGED,
          'a chunk type that does not exist', COPY),
    Cause(8, 'BatchTooLarge', 'COUNT', 'Chunk',
          'a batch of more than 1024 words',
          DAMAGED,
          'a batch of more than 1024 frames', COPY),
    Cause(9, 'BadPageType', 'ENTRY TYPE', 'Chunk',
          'this word of the batch, counted from 0, has a reserved type, 5 to 8',
          DAMAGED,
          'a page type that does not exist', COPY),
    Cause(10, 'WordHigh', 'ENTRY', 'Chunk',
          "bits 63 to 32 of this word of the batch, counted from 0, aren't all 0",
          DAMAGED,
          'a frame word with bits above 32', COPY),
    Cause(11, 'BadVcpuMax', 'NUMBER', 'Chunk',
          'the greatest number of a vCPU is 4096 or more, read without a sign',
          DAMAGED,
          'a vCPU of number 4096 or more', COPY),
    Cause(12, 'BadToolstack', 'OFFSET', 'Chunk',
          "what is at this offset in the data of TOOLSTACK: a field that isn't whole, or is missing; a version other "
          "than 1; a name that doesn't end with its one zero byte; or what follows the last entry",
          DAMAGED,
          "the toolstack's data are damaged", DAMAGED),
    Cause(13, 'UnpairedIoreq', '', 'Chunk',
          'type 0, and of HVM_IOREQ_SERVER_PFN and HVM_NR_IOREQ_SERVER_PAGES exactly one came before',
          DAMAGED,
          'one of two chunks that go together is missing', COPY),
    Cause(14, 'BadContext', 'FAULT', 'Tail',
          'the context is no chain of entries, with the faults of cause 25 above',
          DAMAGED,
          'the context of the guest is damaged', DAMAGED),
    Cause(15, 'BadSignature', '', 'Device',
          "what follows the context isn't `DeviceModelRecord0002`",
          "cut off what was appended, if it is known. A device model saved in another form isn't taken",
          "something else than a device model's record follows", 'cut off what was appended, if it is known'),
    Cause(16, 'TooManyChunks', '', 'Chunk',
          'the number of this chunk is 2^28',
          PAUSED,
          'more than 2^28 chunks', PAUSED),
    Cause(17, 'TooManyFrames', '', 'Chunk',
          'type 0, and the guest has more than 2^24 frames (64 GiB of pages, video memory and ROMs counted)',
          NOT_TAKEN,
          'a guest of more than 2^24 frames, 64 GiB', NOT_TAKEN),
    Cause(18, 'BodyTooLong', 'LENGTH', 'Chunk, Tail, Device',
          "the data of TOOLSTACK or a context have more than 2^27 bytes, or the device model's context more than "
          '2^27 - 8',
          DAMAGED,
          'more than 2^27 bytes in one piece', 'bytes were lost or added before it: ' + COPY),
    Cause(19, 'TooManyPairs', '', 'Chunk',
          "the pairs that this TOOLSTACK and earlier ones make of the device model's store spell more than 2^24 bytes",
          DAMAGED,
          "the device model's store is too long", DAMAGED),
)

# ---- of a guest image

IMAGE = table(
    Cause(1, 'Truncated', '', 'any',
          'the file ends before this part does. Of an empty file the place is `Head`',
          AGAIN,
          'the file ends within this part', COPY),
    Cause(2, 'NotImage', '', 'Head',
          'the file begins neither with `XGIMAGE1` nor with `XGIMAGE2`',
          'look whether the right file was named: a stream is no guest image',
          'no guest image begins here', 'look whether the right file was named: `mig restore` writes guest images'),
    Cause(3, 'BadKind', 'KIND', 'Head',
          "the guest's kind is neither 1 (PV) nor 2 (HVM)",
          AGAIN,
          'neither a PV nor an HVM guest', AGAIN),
    Cause(4, 'Reserved', '', 'Head, Frame',
          "a field that has to be 0 isn't; in version 2 also one of the bits 59 to 53 of a frame's word, or the zero "
          'flag of a frame of type 13 to 15, which has no page',
          NEWER_PROGRAM,
          'a field that has to be 0 is not', AGAIN),
    Cause(5, 'Width', 'WIDTH', 'Head',
          'the width, above all frame numbers, is more than 2^28, the most that `save` takes and version 1 holds; of '
          'a PV guest 0 or more than 2^32; for `walkimage` of version 2 more than 2^52',
          "guests that reach above 1 TiB aren't saved",
          'a width that no host has', 'guests above 1 TiB are not taken; else ' + AGAIN),
    Cause(6, 'FrameCount', 'COUNT', 'Head',
          'more than 2^24 frames, or more than the width',
          "guests with more frames aren't taken",
          'more frames than a host may have, or than its width', AGAIN),
    Cause(7, 'BadPageType', 'TYPE', 'Frame',
          'no frame of this kind of guest has a page type of this number',
          AGAIN,
          'a page type that no frame of this kind of guest has', AGAIN),
    Cause(8, 'FrameOrder', 'PFN', 'Frame',
          "the frame number isn't above the one before",
          AGAIN,
          'the frame numbers do not ascend', AGAIN),
    Cause(9, 'FrameOutside', 'PFN', 'Frame',
          "the frame number isn't below the width",
          AGAIN,
          'a frame number that is not below the width', AGAIN),
    Cause(10, 'MachineFrame', 'MFN', 'Frame',
          'the machine frame is 0, or 2^40 or more',
          AGAIN,
          'a machine frame that does not exist', AGAIN),
    Cause(11, 'MachineTwice', 'MFN', 'Frame',
          'an earlier frame has this machine frame too',
          AGAIN,
          'two frames have one machine frame', AGAIN),
    Cause(12, 'PartKey', 'CODE', 'Part',
          'no part of this kind of guest has this code, which is the type of the record that sets it, with these keys',
          NEWER_PROGRAM,
          'a part that this kind of guest does not have', AGAIN),
    Cause(13, 'PartOrder', 'CODE', 'Part',
          "the part's key isn't above the one before",
          AGAIN,
          'the parts do not ascend', AGAIN),
    Cause(14, 'PartMany', 'CODE', 'Part',
          'one entry of a policy more than 65536: 17 X86_CPUID_POLICY, 18 X86_MSR_POLICY',
          "guests with more entries aren't taken",
          'more than 65536 entries of a policy', NOT_TAKEN),
    Cause(15, 'PartLength', 'LENGTH', 'Part',
          'not a length that this part may have',
          AGAIN,
          'a length that this part cannot have', AGAIN),
    Cause(16, 'PartBytes', '', 'Part',
          "the part's bytes aren't pairs of texts in canonical form: key, a zero byte, value, a zero byte, with "
          'ascending keys',
          'write the pairs with ascending keys, each once',
          "the device model's store is not in its canonical form", AGAIN),
    Cause(17, 'PartPadding', '', 'Part',
          "padding behind the part's bytes that isn't zero",
          AGAIN,
          'padding that is not zero', AGAIN),
    Cause(18, 'ZeroPage', 'PFN', 'Frame',
          'in version 2, the page of this frame number is all zero and is in the file, where the zero flag of the '
          "frame's word says so",
          AGAIN,
          'a page of zeros that should have been left out', AGAIN),
)

# ---- of a script of a live save

SCRIPT = table(
    Cause(1, 'BadLine', '', 'Script N',
          'no line of a script: another letter, a field more or fewer, a number with a leading zero, a sign or of 2^64 '
          'and more, an odd number of hexadecimal digits or none, two spaces, a carriage return, or nothing',
          'mend the line; `bin/mig` shows it',
          'no line that a script may have', 'docs/operators.md, "A live save, tried on a file", tells all lines'),
    Cause(2, 'TooLong', '', 'Script',
          'the script has more than 16777216 bytes',
          'write a shorter one',
          'the script has more than 16777216 bytes', 'write a shorter one'),
)

# ---- of a host that is no whole guest: at the pause of a live save, or as its image has it

HOST = table(
    Cause(1, 'Missing', 'TYPE', '',
          'the host lacks a part that each guest has. HVM: 9, the context. PV, in this order: 3, the list of P2M '
          'frames; 7, SHARED_INFO; 4, the context of vCPU 0',
          'write the image again, with `restore`',
          'a host without a part that each guest has: HVM 9; PV 3, 7, and 4 of vCPU 0', AGAIN),
    Cause(2, 'P2mFrame', 'INDEX', '',
          'the P2M frame at this index of the list is wrong, as in cause 28 of a stream',
          'the lines `r` and `t` of this frame',
          'a P2M frame is missing, of another type, or listed twice', MEND),
    Cause(3, 'Superpage', 'PFN SLOT', '',
          'the frame is a page table of level 2, 3 or 4, and its entry in this slot is for a large page',
          'the lines `w` and `t` of this frame',
          'a page table with a large page in it', MEND),
    Cause(4, 'NoFrame', 'PFN SLOT', '',
          'the frame is a page table, and its entry in this slot names a machine frame that no frame of the host has',
          'the same; the entry has to be written, since no frame can come to this machine frame while it names that',
          'a page table that names a machine frame which no frame has', MEND),
    Cause(5, 'GdtEnts', 'ID COUNT', '',
          'the context of vCPU ID says that its GDT has more entries than Xen leaves to a guest',
          'the lines `p 4 ID 0`',
          'a vCPU whose GDT is too long', MEND),
    Cause(6, 'VcpuFrame', 'ID FIELD', '',
          'a field of the context of vCPU ID, counted as in cause 30 of a stream, names a machine frame that no '
          'frame of the host has, or one of another type',
          'the same, and the lines `x`, `r` and `t` of that frame',
          'a vCPU names a frame that is missing or of another type', MEND),
    Cause(7, 'BadContext', 'FAULT', '',
          'the context of an HVM guest is no chain of entries, with the faults of cause 25 of a stream',
          'the lines `p 9 0 0`',
          'the context of the guest is damaged', MEND),
)

# ---- of an address

WALK = table(
    Cause(1, 'NoVcpu', 'VCPU', '',
          'there is no vCPU of this id. An HVM guest has none of which a save or an image tells',
          'name a vCPU that the guest has',
          'the guest has no such vCPU, or is an HVM guest', 'name a vCPU that the guest has; HVM guests have none here'),
    Cause(2, 'NotCanonical', '', '',
          "bits 63 to 47 of the address aren't all equal",
          'look whether the address was copied whole',
          'bits 63 to 47 of the address are not all equal', 'look whether the address was copied whole'),
    Cause(3, 'Absent', 'LEVEL', '',
          "the way ends at a table of this level, 4 to 1: the entry in the address's slot isn't present, or the slot "
          "is one of the hypervisor's own, 256 to 271 of level 4",
          'the guest has mapped nothing there',
          "no entry is present there, or the slot is the hypervisor's", 'the guest has mapped nothing at this address'),
    Cause(4, 'NotTable', 'LEVEL', '',
          'the way comes to a frame that is no table of this level, 3 to 1',
          "linear tables aren't followed",
          'the frame named there is no table of this level', 'linear tables are not followed'),
)

# ---- which of them a refusal names

PLACES = (
    (STREAM, ('ImageHeader', 'DomainHeader', 'Record', 'LibxlHeader', 'LibxlRecord')),
    (LEGACY, ('Start', 'Chunk', 'Tail', 'Device')),
    (IMAGE, ('Head', 'Frame', 'Parts', 'Part')),
    (SCRIPT, ('Script',)),
    (HOST, ('Pause', 'Host')),
    (WALK, ('Walk',)),
)
OF_PLACE = {place: causes for causes, places in PLACES for place in places}


def of_refusal(place: str, number: int) -> 'Optional[Cause]':
    """The cause with this number at a place, whose first word tells the kind of input; None where there is none. No script runs on
    a host at the place `Host`, so its image alone can be mended."""
    kind = place.split()[0]
    cause = OF_PLACE.get(kind, {}).get(number)
    return cause._replace(do=AGAIN) if cause and kind == 'Host' else cause
