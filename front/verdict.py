"""What is to be said of one file: the program's answer, and around it what the front knows."""
import base64
import os
import re
import sys
from collections import namedtuple

from front import causes, errors, forms, guarding, places, program, sources
from front.text import put_lines, shown

TYPE_CHECKING = False                                # a checker of types takes it for true; typing itself is slow to load
if TYPE_CHECKING:
    from typing import Any, Callable, Dict, Iterator, Optional, TextIO, Type

    Judge = Callable[[str, Any], 'Verdict']          # of a file's name and its source

OK, REFUSED, NO_SAVE, NOT_JUDGED, FAULT = 'ok', 'refused', 'no save', 'not judged', 'fault'
SCHEMA = 1                                           # of what --json prints: docs/verdict.schema.json
REFUSAL = re.compile(r'refused: (\w+(?: \d+)?): (\d+) (\w+)')
FACTS = re.compile(r'ok version (\d+) kind (\w+) frames (\d+) records (\d+)(?: differs (\d+|unknown))?')
UNCOMPARED = 'unknown'
READ_FAULT = 'fault: read: '                         # in front of what is wrong with a file
LEGACY_FACTS = re.compile(r'ok legacy frames (\d+)')
SAVED = re.compile(r'ok rounds (\d+) entries (\d+)')
RELAYED = re.compile(r'ok records (\d+) bytes (\d+)')


Fields = namedtuple('Fields', 'name result status line form begins offset packed means do follows text size digest stamp')


class Verdict(Fields):
    """Of one file: a result, the status that goes with it, the program's line, the form that was found, and what explains it.
    Also the text of a script's bad line, the size in bytes of a stream that was saved, and by what the file is known again. What
    says nothing of the file is None."""

    @classmethod
    def of(cls, name: str, result: str, status: int, line: str, form: 'Optional[str]' = None, **more: 'Any') -> 'Verdict':
        """One that says no more than this. (python3.6 knows no defaults of a namedtuple.)"""
        return cls(name, result, status, line, form, *map(more.get, cls._fields[5:]))

    def lines(self) -> 'Iterator[str]':
        """What is printed of it."""
        parts = [shown(self.name)] + [self.form] * (self.form is not None and self.result != NO_SAVE)
        yield ': '.join(parts + [self.line])
        if self.means:
            yield '    %s%s; %s' % (self.where(), self.means, self.do)
        if SAVED.fullmatch(self.line):
            yield '    ' + self.saved()
        yield from self.differing()
        relayed = RELAYED.fullmatch(self.line)
        if relayed:
            yield '    each part was judged, and not whether the guest is whole; `mig check` tells that'
        if self.follows:
            yield '    %d bytes follow the end of the stream; they were not judged%s' % (
                self.follows, ' and not passed on' if relayed else '')

    def differing(self) -> 'Iterator[str]':
        """What the frames came to that were sent once more, to be compared, where some differ, or weren't compared."""
        said = FACTS.fullmatch(self.line)
        if self.is_uncompared():
            yield ('    the frames that were sent again to be compared (VERIFY) were not compared with those sent first; '
                   '`mig check --compare` does that')
        elif said and int(said[5] or 0):
            yield ('    %s of the frames that were sent again to be compared (VERIFY) differ from those sent first; the guest has '
                   'those sent first' % said[5])

    def is_uncompared(self) -> bool:
        """Whether frames were sent once more, and not compared."""
        said = FACTS.fullmatch(self.line)
        return bool(said) and said[5] == UNCOMPARED  # type: ignore[index]

    def saved(self) -> str:
        """What a live save took."""
        rounds, entries = map(int, SAVED.fullmatch(self.line).groups())  # type: ignore[union-attr]
        told = '%d round%s while the guest ran, then the pause; %d frame numbers sent' % (rounds, 's' * (rounds > 1), entries)
        if self.size is None:
            return told
        return told + (', %d bytes' % self.size if self.size < 1e6 else ', %.1f MB' % (self.size / 1e6))

    def where(self) -> str:
        if self.text is not None:
            return '%s is ' % self.text
        if self.offset is None:
            return ''
        return 'at byte %d of %s: ' % (self.offset, 'what %s unpacks' % self.packed if self.packed else 'the file')

    def facts(self) -> 'Dict[str, Any]':
        """It as one object, for JSON: what isn't there is left out."""
        found = {'schema': SCHEMA, **of_name(self.name), 'result': self.result, 'status': self.status}  # type: Dict[str, Any]
        names = 'form', 'begins', 'line', 'offset', 'packed', 'means', 'do', 'follows', 'text', 'size', 'digest'
        found.update((name, getattr(self, name)) for name in names if getattr(self, name) is not None)
        found.update(self.stamp or {})
        refusal = REFUSAL.match(self.line)
        if refusal:
            found.update(place=refusal[1], cause=int(refusal[2]), cause_name=refusal[3])
        said = FACTS.fullmatch(self.line)
        if said:
            found.update(version=int(said[1]), kind=said[2], frames=int(said[3]), records=int(said[4]))
        if said and said[5]:
            found.update(differs=None if self.is_uncompared() else int(said[5]))
        said = LEGACY_FACTS.fullmatch(self.line)
        if said:
            found.update(frames=int(said[1]))
        said = SAVED.fullmatch(self.line)
        if said:
            found.update(rounds=int(said[1]), entries=int(said[2]))
        said = RELAYED.fullmatch(self.line)
        if said:
            found.update(records=int(said[1]), bytes=int(said[2]))
        return found


def of_name(name: str, field: str = 'file') -> 'Dict[str, str]':
    """A file's name for JSON, with its bytes where they aren't UTF-8: other programs lose what stands for these."""
    try:
        name.encode()
    except UnicodeEncodeError:
        return {field: name, field + '_bytes': base64.b64encode(os.fsencode(name)).decode()}
    return {field: name}


def put_facts(facts: 'Dict[str, Any]', to: 'Optional[TextIO]' = None) -> None:
    """Prints facts as a JSON object in a line."""
    import json                                      # it takes a while to load
    put_lines([json.dumps(facts)], to or sys.stdout)


def put_object(verb: str, found: 'Verdict', more: 'Optional[Dict[str, Any]]' = None, to: 'Optional[TextIO]' = None) -> None:
    """Prints what a verb says of a file as a JSON object."""
    put_facts({**found.facts(), 'verb': verb, **(more or {})}, to)


def tell_of(found: Verdict) -> None:
    """Tells of what has no result, or more behind it."""
    lines = list(found.lines())
    put_lines(lines if found.status else ['%s: %s' % (shown(found.name), line.strip()) for line in lines[1:]], sys.stderr)


def of_one(name: str, judge: 'Callable[[Any], Verdict]', in_json: bool) -> Verdict:
    """The verdict of the one file of a verb, as a function answers it of its source. Where it can't be read the verb ends, or answers
    that in an object."""
    try:
        with sources.one_source(name) as source:
            return judge(source)
    except errors.Unreadable as why:
        if not in_json:
            raise sources.unread(name, why) from None
        return fault(name, str(why))


SPECIAL = 'not judged: a pipe, a socket or a device is read only where it is given by its name'


def fault(name: str, why: str) -> Verdict:
    return Verdict.of(name, FAULT, errors.READ_FAULT, READ_FAULT + why)


def without_program(name: str, form: forms.Form) -> 'Optional[Verdict]':
    """The verdict of a file that no command takes; None where one does."""
    if form.kind == forms.NONE:
        return Verdict.of(name, NO_SAVE, errors.REFUSED, 'no save: ' + form.why)
    if form.kind == forms.BROKEN:
        return Verdict.of(name, REFUSED, errors.REFUSED, 'refused: ' + form.why, form.words, means='no stream was reached',
                       do=causes.COPY)
    if form.kind == forms.IMAGE:
        return Verdict.of(name, NOT_JUDGED, errors.REFUSED, 'not judged: `mig save` and `mig walk` alone read guest images', form.words)
    return None


def of_answer(name: str, source: 'Any', form: forms.Form, command: str, answer: program.Answer) -> Verdict:
    """The verdict of a file of which the program answered this to a command."""
    words = ', '.join(filter(None, (source.packed, form.words))) or None
    found = Verdict.of(name, FAULT, answer.status, answer.line, words, begins=form.begins, packed=source.packed)
    if answer.status == errors.OK:
        end = places.end_of(source, form) if command not in ('save', 'walkimage') else None
        follows = max(source.size - end, 0) if end is not None else 0  # a file that grows meanwhile is longer than it was
        return found._replace(result=OK, line=answer.line or 'ok', follows=follows or None)
    refusal = REFUSAL.match(answer.line)
    if answer.status != errors.REFUSED or not refusal:
        return found
    said = causes.of_refusal(refusal[1], int(refusal[2]))
    return found._replace(result=REFUSED, offset=places.place_of(source, form.begins, command, refusal[1]),
                          means=said and said.means, do=said and said.do)


def judged(name: str, path: str, source: 'Any') -> Verdict:
    """What mig_check at a path says of a source."""
    form = forms.form_of(source)
    early = without_program(name, form)
    if early:
        return early
    is_legacy = form.kind == forms.LEGACY
    answer = program.run(path, ['legacy'] * is_legacy, source, form.begins)
    return of_answer(name, source, form, 'convert' if is_legacy else 'verify', answer)


def compared(name: str, path: str, source: 'Any') -> Verdict:
    """What `verify` of mig_tool at a path says of a stream: it compares the frames behind a VERIFY, too."""
    form = forms.form_of(source)
    return of_answer(name, source, form, 'verify', program.run(path, ['verify'], source, form.begins))


def of_file(name: str, judge: 'Judge', kind: 'Type[sources.Plain]' = sources.Plain) -> Verdict:
    """The verdict of a file with this name, as a function answers it of a name and a source, of this kind where it isn't packed. It is
    asked twice where the first time only the file's inode was changed meanwhile, as a backup does that makes a hard link."""
    found = of_source(name, judge, kind)
    return of_source(name, judge, kind) if name != '-' and found.line == READ_FAULT + sources.TOUCHED else found


def of_source(name: str, judge: 'Judge', kind: 'Type[sources.Plain]') -> Verdict:
    """The same, asked once."""
    source = None  # type: Optional[sources.Source]
    try:
        source = sources.source_of(name, kind)
        return judge(name, source)
    except errors.Special:
        return Verdict.of(name, NOT_JUDGED, errors.REFUSED, SPECIAL)
    except errors.Unreadable as unreadable:
        return fault(name, str(unreadable))
    except (errors.NoProgram, errors.Refused, MemoryError):
        raise
    except Exception as unforeseen:                  # the other files are checked all the same
        return Verdict.of(name, FAULT, errors.FAULTY, guarding.told_of(unforeseen))
    finally:
        if source:
            source.close()
