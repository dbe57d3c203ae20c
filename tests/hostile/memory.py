"""Little memory: the address space of the program is limited to each of some sizes, from far too little to ample.

Whether the program begins at all is the affair of the kernel and of the loader: with less than they need they end it, by a signal
or with the loader's status and line. That it is they is seen from a run in which the loader does all it does and the program none
of its own (LD_TRACE_LOADED_OBJECTS, which is what ldd sets). Of a program that needs no loader it is seen from a run without
words, which tells its usage and no more. From the least size on at which this run succeeds the program answers for itself: status
5 with its line and nothing on standard output, or the right answer. `relay` may have written a front of what it passes on; what
it passes on, and what `show` lists the records of, may be far longer than the memory that either has.
"""
import itertools
import struct

import program

KIB, MIB = 1 << 10, 1 << 20
FRAMES, PAGE = 1024, bytes(range(256)) * 16
PAGES = PAGE * 512
# from less than the kernel or the loader needs to more than any command here needs; 1408: a program without a loader begins
SIZES = [size * KIB for size in (
    1024, 1408, 2560, 2624, 2688, 2816, 3072, 3584, 4096, 4608, 5120, 6144, 7168, 8192, 10240, 12288, 16384, 20480, 32768,
    98304)]


def page_record(first):
    words = struct.pack('<512Q', *range(first, first + 512))
    return struct.pack('<IIQ', 1, 8 + 512 * 8 + 512 * 4096, 512) + words + PAGES


def hvm(frames=FRAMES, behind=()):
    """The smallest stream with pages, 4 MiB of them unless said otherwise, and these records behind them."""
    smallest = program.case('smallest-hvm')
    return b''.join([smallest[:48], *(page_record(first) for first in range(0, frames, 512)), *behind, smallest[48:]])


def legacy():
    smallest = program.case('legacy-smallest')
    batches = (struct.pack('<i512Q', 512, *range(first, first + 512)) + PAGES for first in range(0, FRAMES, 512))
    return b''.join([smallest[:8], *batches, smallest[8:]])


def wrapped():
    """The same in the wrapper of libxl, behind 1 MiB of pairs and before a context of 1 MiB."""
    pairs = b''.join(b'key/%08d\0%s\0' % (number, b'v' * 50) for number in range(16384))
    pairs, context = (struct.pack('<IIII', kind, 8 + len(data), 2, 0) + data for kind, data in ((2, pairs), (3, bytes(MIB))))
    return b'LibxlFmt' + struct.pack('>II', 2, 0) + pairs + struct.pack('<II', 1, 0) + hvm() + context + bytes(8)


def image():
    frames = (struct.pack('<IIQ', pfn, 0, pfn + 1) + PAGE for pfn in range(FRAMES))
    context = struct.pack('<QIIII', 1, 9, 0, 0, 40) + program.case('smallest-hvm')[56:96]
    return b''.join([b'XGIMAGE1', struct.pack('<IIQQ', 2, 0, FRAMES, FRAMES), *frames, context, b'.\nw 5 0 ff\n'])


def pv():
    """The stream of an exercise, of 600 frames."""
    return program.second.exercise.exercise(1, 600)[0]


def asked(tool):
    """By name, words and an input of some MiB."""
    streams = {'HVM': hvm(), 'libxl': wrapped(), 'PV': pv()}
    if program.is_check(tool):
        yield from ((name, program.CHECK, data) for name, data in streams.items())
        yield 'legacy', program.LEGACY, legacy()
        yield 'words', ['verify', 'it'], b''
        return
    for (name, data), words in itertools.product(streams.items(), (['verify'], ['restore'], ['normalise'], ['relay'], ['show'])):
        yield name, words, data
    yield 'legacy', ['convert'], legacy()
    yield 'image', ['save'], image()
    yield 'PV image', ['save'], program.wanted(['restore'], pv()).out + b'.\nw 0 0 ff\n'
    yield 'no input', ['exercise', '1', '600'], b''
    yield 'words', ['verify', 'it'], b''


def is_loaded(tool, size):
    """Whether the kernel and the loader get as far as the program's own first step."""
    if not program.has_loader(tool):
        return program.with_limit(tool, ['it'], b'', size) == program.no_command(tool)
    return program.with_limit(tool, ['it'], b'', size, {'LD_TRACE_LOADED_OBJECTS': '1', 'LD_BIND_NOW': '1'}).status == 0


def may_be_enough(tool, words):
    """Whether what lets the loader end may be enough: where no page is kept."""
    return program.is_check(tool) or words in (['relay'], ['show'], ['verify', 'it'])


def answers(tool):
    """By name and words: for each size whether it is the loader's affair, what was answered, and what is right."""
    loaded = {size: is_loaded(tool, size) for size in SIZES}
    for name, words, data in asked(tool):
        want = program.no_command(tool) if name == 'words' else program.wanted(words, data)
        yield name, words, want, [(size, loaded[size], program.with_limit(tool, words, data, size)) for size in SIZES]


def little(tool):
    """No other answer than the right one or want of memory; at the greatest size it is the right one."""
    for name, words, want, got in answers(tool):
        for size, is_its_own, answer in got:
            if is_its_own and answer != want and not program.is_no_memory(words, answer, want):
                yield '%s, %s, %d KiB: status %d, %d bytes out, report %r' % (
                    name, program.named(words), size // KIB, answer.status, len(answer.out), answer.report[:200])
        if got[-1][2] != want:
            yield '%s, %s: status %d with much memory' % (name, program.named(words), got[-1][2].status)
        if not may_be_enough(tool, words) and not any(program.is_no_memory(words, answer, want) for _, _, answer in got):
            yield '%s, %s: no size was too little' % (name, program.named(words))


# ---- what is passed on, or listed, and not kept

LONGEST, ENOUGH = 1 << 27, 16 * MIB
BLOCK = bytes(range(1, 256)) * 4096                  # of no whole number of pieces or pages


def of_length(length):
    """So many bytes, block by block."""
    for at in range(0, length, len(BLOCK)):
        yield BLOCK[:length - at]


def listed(layer, number, name, length=0, **more):
    """What is shown of a record."""
    return {'layer': layer, 'length': length, 'name': name, 'type': number, **more}


STATIC, CONTEXT, END = listed('libxc', 16, 'STATIC_DATA_END'), listed('libxc', 9, 'HVM_CONTEXT', 40), listed('libxc', 0, 'END')


def long_streams():
    """By name, what is shown of the records of each, and its bytes block by block: bodies as long as they may be, and many
    pages."""
    smallest = program.case('smallest-hvm')
    front, context, end = smallest[:48], smallest[48:96], smallest[96:]
    optional = struct.pack('<II', 1 << 31, LONGEST), *of_length(LONGEST)
    shown = listed('libxc', 1 << 31, 'optional', LONGEST)
    yield 'optional records', [STATIC, shown, shown, CONTEXT, END], [front, *optional, *optional, context, end]
    inner = LONGEST - 32 - 8 - 8
    entries = struct.pack('<HHI', 2, 0, inner), *of_length(inner), bytes(8)
    long_context = struct.pack('<II', 9, LONGEST), smallest[56:88], *entries
    yield 'a context twice', [STATIC, *[listed('libxc', 9, 'HVM_CONTEXT', LONGEST)] * 2, END], [front, *long_context, *long_context, end]
    count = LONGEST // 16 - 1
    some = struct.pack('<QQ', 7, 1) * (count // 3)
    parameters = struct.pack('<IIQ', 10, 8 + 16 * count, count), some, some, some, struct.pack('<QQ', 7, 1) * (count % 3)
    yield ('parameters twice', [STATIC, *[listed('libxc', 10, 'HVM_PARAMS', 8 + 16 * count)] * 2, CONTEXT, END],
           [front, *parameters, *parameters, context, end])
    shown = listed('libxc', 1, 'PAGE_DATA', 8 + 512 * 4104, words=512, pages=512)
    yield 'pages', [STATIC, *[shown] * 100, CONTEXT, END], [front, *(page_record(512 * number) for number in range(100)), context, end]
    many = [b'key\0' + b'v' * 4091 + b'\0'] * (LONGEST // 4096 - 1)
    pairs = struct.pack('<IIII', 2, LONGEST, 2, 0), *many, b'k\0' + b'v' * 4085 + b'\0'
    shown = listed('libxl', 2, 'EMULATOR_XENSTORE_DATA', LONGEST)
    yield 'pairs of a wrapper, twice', [shown, shown, listed('libxl', 1, 'LIBXC_CONTEXT'), STATIC, CONTEXT, END, listed('libxl', 0, 'END')], [
        b'LibxlFmt' + struct.pack('>II', 2, 0), *pairs, *pairs, struct.pack('<II', 1, 0), smallest, bytes(8)]


def in_records(count, of_record, page=b''):
    """Records of 1024 frames each, counted up, with a word for each and its page where it has one."""
    data = page * 1024
    head = struct.pack('<IIQ', 1, 8 + 8 * 1024 + len(data), 1024)
    for first in range(0, count, 1024):
        yield head + struct.pack('<1024Q', *(of_record | pfn for pfn in range(first, first + 1024))) + data


def guest_of(count, of_record, page=b''):
    """The stream of an HVM guest of so many frames, block by block; nothing of it is kept."""
    smallest = program.case('smallest-hvm')
    yield smallest[:48]
    yield from in_records(count, of_record, page)
    yield smallest[48:]


XALLOC = 0xE << 60
MOST_FRAMES = 1 << 24
OF_ALL, OF_SOME, SOME = 300 * MIB, 24 * MIB, 1 << 20   # for 2^24 frames, and for 2^20, so much is enough


def no_page_kept(check, count, kind, page, most):
    """What isn't so of a check of a guest of so many frames, where mig_check may have so much memory."""
    got = program.passed_through(check, program.CHECK, guest_of(count, kind, page), most)
    line = program.lines.line_of('verified', 3, 'hvm', count, 3 + count // 1024)
    if got != program.Passed(program.DONE, 0, program.digest_of([]), line.encode() + b'\n'):
        yield '%d frames with %d bytes each, %d KiB: status %d, report %r' % (count, len(page), most // KIB, got.status, got.report)


def checked_without_pages(check):
    """2^20 frames with pages of zeros, 4 GiB, pass mig_check in 24 MiB, and 2^24 without pages in 300 MiB."""
    yield from no_page_kept(check, SOME, 0, bytes(4096), OF_SOME)
    yield from no_page_kept(check, MOST_FRAMES, XALLOC, b'', OF_ALL)


def kept_pages_are_too_many(tool):
    """The same 2^20 frames are too much for mig_tool there, which keeps pages."""
    got = program.passed_through(tool, ['verify'], guest_of(SOME, 0, bytes(4096)), OF_SOME)
    if got[:3] != (program.MEMORY, 0, program.digest_of([])) or got.report != program.NO_MEMORY.report:
        yield 'status %d, report %r' % (got.status, got.report)


def all_frames_checked(check):
    """The greatest guest, 64 GiB of pages of zeros, passes mig_check in 300 MiB."""
    yield from no_page_kept(check, MOST_FRAMES, 0, bytes(4096), OF_ALL)


def passed_on(tool):
    """`relay` passes on more than 200 MiB where it may have 16 MiB, the program itself and its buffer included."""
    for name, shown, blocks in long_streams():
        length, records = sum(map(len, blocks)), sum(record['layer'] == 'libxc' for record in shown)
        got = program.passed_through(tool, ['relay'], blocks, ENOUGH)
        want = program.Passed(program.DONE, length, program.digest_of(blocks), b'ok records %d bytes %d\n' % (records, length))
        if got != want:
            yield '%s: status %d, %d bytes out, report %r' % (name, got.status, got.length, got.report)
        if length < 200 * MIB:
            yield '%s: %d bytes alone' % (name, length)


def listed_whole(tool):
    """`show` lists the records of the same where it may have 16 MiB."""
    for name, shown, blocks in long_streams():
        wrapper = shown[0]['layer'] == 'libxl'
        text = program.examples.text_of({'kind': 'hvm', 'records': shown, 'refused': None, 'version': 3, 'wrapper': wrapper})
        got = program.passed_through(tool, ['show'], blocks, ENOUGH)
        if got != program.Passed(program.DONE, len(text), program.digest_of([text]), b''):
            yield '%s: status %d, %d bytes out, report %r' % (name, got.status, got.length, got.report)
