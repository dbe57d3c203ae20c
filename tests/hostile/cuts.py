"""Input that is cut, that comes in pieces, or whose numbers promise more than there is."""
import os
import select
import struct
import subprocess

import program

IDENT, MOST_BODY = b'LibxlFmt', 1 << 27
# where the parts of the case pv-smallest end, and their places
SMALLEST_PV_PARTS = (
    (24, 'ImageHeader'), (40, 'DomainHeader'), (56, 'Record 0'), (64, 'Record 1'), (88, 'Record 2'), (12416, 'Record 3'),
    (16520, 'Record 4'), (21704, 'Record 5'), (21712, 'Record 6'))
PAGES_OF_PV = 24 + 88 + 8 + 8 + 3 * 8                   # where its first page begins in the wrapper
PIECES = 1, 7, 4096
ALL, SOME = 1, 16                                       # of the lengths inside of parts, each or every sixteenth
OF_COMMANDS = (['verify'], ALL), *((words, SOME) for words in (['normalise'], ['restore'], ['relay'], ['show']))
OF_CHECK = (program.CHECK, ALL),
BESIDE_ENDS, SHARES = 9, 16
FRONTS, SECONDS = 40, 20                                # fronts that come one after another, and how long is waited for output
WAITING, OF_WORD = 512, 8                               # bytes that may wait, and so many more for each word where a page comes
HEADERS, LIBXL_HEADERS, HEAD = 40, 16, 8                # bytes


# ---- each proper prefix

def wrapped_pv():
    """The smallest PV stream in the wrapper of libxl, before an optional record, and where its parts end."""
    image = program.case('pv-smallest')
    optional = struct.pack('<II', 1 << 31, 3) + b'abc' + bytes(5)
    front = IDENT + struct.pack('>II', 2, 0) + struct.pack('<II', 1, 0)
    behind = len(front) + len(image)
    parts = [(8, 'ImageHeader'), (16, 'LibxlHeader'), (24, 'LibxlRecord 0')]
    parts += [(len(front) + end, place) for end, place in SMALLEST_PV_PARTS]
    parts += [(behind + 16, 'LibxlRecord 1'), (behind + 24, 'LibxlRecord 2')]
    return front + image + optional + bytes(8), parts


def lengths(stream, parts, step):
    """The lengths of proper prefixes: those beside where a part or a page ends, and of the others every so many."""
    ends = [0] + [end for end, _ in parts] + list(range(PAGES_OF_PV, PAGES_OF_PV + 3 * 4096, 4096))
    beside = {end + more for end in ends for more in range(-BESIDE_ENDS, BESIDE_ENDS + 1)}
    return sorted({*range(0, len(stream), step), *(length for length in beside if 0 <= length < len(stream))})


def is_passed_on(stream, parts, out):
    """Whether this was written of a cut stream: a front with all parts that are there, and all but a piece of 4096 bytes."""
    whole = max((end for end, _ in parts if end <= len(stream)), default=0)
    return stream.startswith(out) and len(out) >= max(whole, len(stream) - 4095)


def prefixes(tool, words, step, share):
    """A share of the proper prefixes of a PV stream in the wrapper, longest first: each is refused as cut, in the part that
    isn't there whole. `relay` writes a front of it: all parts before this one, and of this one all but a piece; `show` the text
    that the second reader tells."""
    stream, parts = wrapped_pv()
    runs = program.Runs(tool)
    runs.give(stream)
    for length in lengths(stream, parts, step)[share::SHARES][::-1]:
        runs.cut(length)
        place = next(place for end, place in parts if length < end)
        want = program.Answer(program.REFUSED, b'', b'refused: %s: 1 Truncated\n' % place.encode())
        if words == ['show']:
            want = want._replace(out=program.wanted(words, stream[:length]).out)
        got = runs.answer(words)
        if program.passes_on(words) and is_passed_on(stream[:length], parts, got.out):
            want = want._replace(out=got.out)
        for why in program.differences(got, want):
            yield '%s of %d bytes: %s' % (program.named(words), length, why)


# ---- input in pieces

def pieces(tool, size):
    """The same answers where the input comes through a pipe in pieces of this size."""
    for name, words, data in program.forms(tool):
        cut = [data[at:at + size] for at in range(0, len(data), size)]
        got = program.Answer(*program.examples.piped(tool, words, cut))
        for why in program.differences(got, program.wanted(words, data)):
            yield '%s, %s: %s' % (name, program.named(words), why)


def read_up_to(pipe, length):
    """So many bytes of a pipe; fewer where it ends, or where no more come."""
    out = b''
    while len(out) < length and select.select([pipe], [], [], SECONDS)[0]:
        part = os.read(pipe.fileno(), length - len(out))
        if not part:
            break
        out += part
    return out


def records(stream, at):
    """Where the records from this byte on stand, up to END, with their types and the lengths of their bodies."""
    kind = None
    while kind != 0:
        kind, length = struct.unpack_from('<II', stream, at)
        yield at, kind, length
        at += HEAD + (length + 7) // 8 * 8


def pages_in(stream):
    """Where the pages of each PAGE_DATA begin and end, and how many words it has."""
    at = 0
    if stream.startswith(IDENT):
        at = next(place for place, kind, _ in records(stream, LIBXL_HEADERS) if kind == 1) + HEAD
    for place, kind, length in records(stream, at + HEADERS):
        if kind == 1:
            count = struct.unpack_from('<I', stream, place + HEAD)[0]
            yield place + HEAD + 8 + 8 * count, place + HEAD + length, count


def may_wait(stream, length):
    """How many bytes of a front of so many may wait to be written."""
    return WAITING + next((OF_WORD * words for begins, ends, words in pages_in(stream) if begins <= length < ends), 0)


def many_heads():
    """An HVM image with 128 records that are heads alone, in front of all others."""
    image = program.case('smallest-hvm')
    return image[:HEADERS] + head(1 << 31, 0) * 128 + image[HEADERS:]


def flowing(tool):
    """What came is passed on before more comes. Of each front, while the input is open, `relay` has written all that it passes on
    of it, but for what may wait; and all of it at the end."""
    for name, words, data in (*program.forms(tool), ('many heads', ['relay'], many_heads())):
        if not program.passes_on(words):
            continue
        pipes = dict.fromkeys(('stdin', 'stdout', 'stderr'), subprocess.PIPE)
        with subprocess.Popen([tool, *words], bufsize=0, **pipes) as started:
            came, out = 0, b''
            for length in (*range(1, len(data), max(1, len(data) // FRONTS)), len(data)):
                started.stdin.write(data[came:length])
                came, want = length, program.wanted(words, data[:length]).out
                least = len(want) if length == len(data) else len(want) - may_wait(data, length)
                out += read_up_to(started.stdout, least - len(out))
                if not want.startswith(out) or len(out) < least:
                    started.kill()
                    yield '%s: of %d bytes that came %d were written, wanted %d' % (name, length, len(out), least)
                    break


# ---- heads that promise more than there is

def image(kind):
    """The two headers of an image."""
    return b'\xff' * 8 + b'XENF' + struct.pack('>IHHI', 3, 0, 0, 0) + struct.pack('<IHHII', kind, 12, 0, 0, 1)


def head(kind, length):
    return struct.pack('<II', kind, length)


def lying_records():
    """By name, streams that end some bytes behind a head that promises many; the place of the record, and the bytes."""
    hvm = image(2) + head(16, 0)
    pv = image(1) + head(2, 8) + bytes((8, 4)) + bytes(6) + head(16, 0)
    listed = head(3, 16) + struct.pack('<IIQ', 0, 15, 2)
    words = struct.pack('<II', (MOST_BODY - 8) // 8, 0)
    yield 'words of pages', 'Record 1', hvm + head(1, MOST_BODY) + words
    yield 'a context', 'Record 1', hvm + head(9, MOST_BODY)
    yield 'parameters', 'Record 1', hvm + head(10, MOST_BODY) + struct.pack('<II', (MOST_BODY - 8) // 16, 0)
    yield 'an optional record', 'Record 1', hvm + head(1 << 31, MOST_BODY)
    yield 'a CPUID policy', 'Record 0', image(2) + head(17, 65536 * 24)
    yield 'an MSR policy', 'Record 0', image(2) + head(18, 65536 * 16)
    yield 'P2M frames', 'Record 2', pv + head(3, MOST_BODY) + struct.pack('<II', 0, (1 << 28) - 1)
    yield 'words of pages of a PV guest', 'Record 3', pv + listed + head(1, MOST_BODY) + words
    yield 'an extended context', 'Record 2', pv + head(5, MOST_BODY) + bytes(8)
    yield 'an XSAVE context', 'Record 2', pv + head(6, MOST_BODY) + bytes(8)
    yield 'MSRs of a vCPU', 'Record 2', pv + head(12, MOST_BODY - 8) + bytes(8)
    wrapper = IDENT + struct.pack('>II', 2, 0)
    yield 'pairs', 'LibxlRecord 0', wrapper + head(2, MOST_BODY) + bytes(8)
    yield 'the context of an emulator', 'LibxlRecord 0', wrapper + head(3, MOST_BODY) + bytes(8)


def lying_chunks():
    """The same of legacy streams."""
    start, tail = struct.pack('<Q', 256), struct.pack('<i3Q', 0, 0, 0, 0)
    whole = tail + struct.pack('<I', 40) + program.case('smallest-hvm')[56:96]
    yield 'a toolstack', 'Chunk 0', start + struct.pack('<iI', -18, MOST_BODY)
    yield 'a batch', 'Chunk 0', start + struct.pack('<i', 1024)
    yield 'a map of vCPUs', 'Chunk 0', start + struct.pack('<iI', -2, 4095)
    yield 'a legacy context', 'Tail', start + tail + struct.pack('<I', MOST_BODY)
    yield 'a device model', 'Device', start + whole + b'DeviceModelRecord0002' + struct.pack('<I', MOST_BODY - 8)


def lying_images():
    """The same of images of hosts."""
    def front(kind, width):
        return b'XGIMAGE1' + struct.pack('<IIQQ', kind, 0, width, 0) + struct.pack('<Q', (1 << 64) - 1)

    def part(*fields):
        return struct.pack('<IIII', *fields)
    yield 'frames of a host', 'Frame 0', b'XGIMAGE1' + struct.pack('<IIQQ', 2, 0, 1 << 28, 1 << 24)
    yield 'frames of a host, version 2', 'Frame 0', b'XGIMAGE2' + struct.pack('<IIQQ', 2, 0, 1 << 28, 1 << 24)
    yield 'parts of a host', 'Part 0', front(2, 1 << 28)
    yield 'the context of a host', 'Part 0', front(2, 1) + part(9, 0, 0, MOST_BODY)
    yield 'the pairs of a host', 'Part 0', front(2, 1) + part(258, 0, 0, 1 << 24)
    yield 'the context of an emulator of a host', 'Part 0', front(2, 1) + part(259, 0, 0, MOST_BODY - 8)
    yield 'the P2M frames of a host', 'Part 0', front(1, 1 << 28) + part(3, 0, 0, 8 * (1 << 28) // 512)
    yield 'the MSRs of a vCPU of a host', 'Part 0', front(1, 1) + part(12, 0, 0, MOST_BODY - 16)


def lying_heads(tool):
    """By name, words, line and input."""
    of_tool = ((['verify'], lying_records()), (['relay'], lying_records()), (['show'], lying_records()),
               (['convert'], lying_chunks()), (['save'], lying_images()))
    of_check = (program.CHECK, lying_records()), (program.LEGACY, lying_chunks())
    for words, made in of_check if program.is_check(tool) else of_tool:
        for name, place, data in made:
            yield name, words, b'refused: %s: 1 Truncated\n' % place.encode(), data


# what a program may have where a head promises 2^27 bytes and none stand behind it, its input's buffer included
MOST_HELD = 200 << 10


def asked(tool, faults, words, data):
    """An answer, and what was counted."""
    runs = program.Runs(tool)
    runs.give(data)
    return runs.answer(words, faults.environment()), faults.told()


def asked_by_lies(tool, faults):
    """By name, the input of each lying head with nothing, 4 KiB or 1 MiB of the body behind it, and the bytes asked for."""
    for name, words, line, data in lying_heads(tool):
        for behind in (0, 4096, 1 << 20):
            more = data + bytes(behind)
            want = program.wanted(words, more)
            got, told = asked(tool, faults, words, more)
            yield '%s, %s' % (name, program.named(words)), behind, line if not behind else want.report, want, got, told


def lies(tool, faults):
    """Each lying head is refused, and little memory is held: twice what is behind it in the input, and some KiB; by
    `relay` and `show` some KiB alone, but for the words of pages."""
    for name, behind, line, want, got, told in asked_by_lies(tool, faults):
        for why in program.differences(got, want._replace(report=line)):
            yield '%s, %d bytes behind it: %s' % (name, behind, why)
        kept = 0 if name.endswith((', relay', ', show')) and not name.startswith('words') else behind
        if told.peak > MOST_HELD + 2 * kept or told.reads == 0:
            yield '%s, %d bytes behind it: %d bytes were held' % (name, behind, told.peak)
