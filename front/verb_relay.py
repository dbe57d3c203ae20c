"""`mig relay`: a stream in, the same stream out, while the program judges it part by part. To standard output it goes as it
comes; OUT is written beside its place and renamed when all is well."""
import sys

from front import errors, forms, program, sources, verdict
from front.progress import LINE
from front.text import put_lines
from front.write import Output, configuration, put
from front.words import in_json, takes_header, verb, writes_over

TYPE_CHECKING = False                                # a checker of types takes it for true; typing itself is slow to load
if TYPE_CHECKING:
    from typing import Any

RELAY = """\
IN is what `mig check` takes, standard input where it is left out; OUT is standard output where it is left out, and else it is
written beside its place and renamed when all is well. What is told stands on standard error where standard output has the
stream.

The stream goes on as it came, up to its END; what follows it is read and dropped. The header before it goes on with --xl or
--libvirt alone, and a packed file goes on unpacked. A part is judged before it is written, or a piece of 4096 bytes at most while the
rest of a record is still to come. So a stream that is refused, or a read or write that failed, leaves a front of the stream,
which `mig check` refuses. The guest isn't kept in memory. Put it between two hosts:

  xl's stream | mig relay --xl | ssh HOST 'cat > guest.save && mig check guest.save'

Not judged is what needs the whole guest: whether a record is missing that each guest has (cause 27), whether the frames are
there that the list of P2M frames, page tables and vCPUs name (28 to 30), how many frames there are (32), and how long all
pairs of a device model are (38). `mig check` on the far side tells these. It ends when the input ends, or the stream is
refused."""


def passed_on(words: 'Any', path: str, source: 'Any', output: Output) -> verdict.Verdict:
    """The verdict of a stream that the program passes on."""
    form = forms.form_of(source)
    early = verdict.without_program(words.input, form)
    if early:
        return early
    if words.toolstack:
        configuration(source, form, words.toolstack)
        put(output.fd, source.at(0, form.begins))
    said = program.run(path, ['relay'], source, form.begins, output.fd)
    return verdict.of_answer(words.input, source, form, 'relay', said)


def show(words: 'Any', found: verdict.Verdict) -> None:
    """Prints a verdict: on standard output, or on standard error where that has the stream, and of a refusal."""
    to = sys.stderr if words.output == '-' or found.status and not words.json else sys.stdout
    if words.json:
        verdict.put_facts(found.facts(), to)
        return
    is_cut = words.output == '-' and found.status and found.begins is not None
    put_lines([*found.lines(), *['    what was written to standard output may be cut; throw it away'] * bool(is_cut)], to)


def relayed(words: 'Any') -> verdict.Verdict:
    """The verdict of the input, of which OUT has got its name where all is well."""
    source = sources.source_of(words.input)
    LINE.begin('passing on', [words.input])
    try:
        output = Output(words.output, words.force)
        try:
            found = passed_on(words, program.find(), source, output)
            if found.status == errors.OK:
                output.place()
        finally:
            output.close()
    finally:
        source.close()
    return found


def relay(words: 'Any') -> int:
    try:
        found = relayed(words)
    except errors.Unreadable as why:
        if not words.json:
            raise sources.unread(words.input, why) from None
        found = verdict.fault(words.input, str(why))
    show(words, found)
    return int(found.status)


def offer(verbs: 'Any') -> None:
    words = verb(verbs, 'relay', 'pass a stream on while it is judged part by part, without keeping its guest', relay, RELAY,
                 {errors.REFUSED: 'a part of the stream may have been written'})
    words.add_argument('input', metavar='IN', nargs='?', default='-')
    words.add_argument('output', metavar='OUT', nargs='?', default='-')
    takes_header(words, "pass %s's header on in front")
    writes_over(words)
    in_json(words)
