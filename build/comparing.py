"""Compares the programs that are shipped with those that were proved and built on this machine, byte for byte."""
import os
import tempfile

from build import linking
from build.proving import object_of
from front import errors, resolve

TYPE_CHECKING = False                                # a checker of types takes it for true; typing itself is slow to load
if TYPE_CHECKING:
    from typing import Dict, Tuple

    from build.proving import Kit

SAME, NOT_COMPARED, DIFFERS = range(3)               # the greatest of several says most


def shipped_fault(sources: str) -> str:
    """Why what is shipped isn't that of these sources; nothing where it is."""
    for name in resolve.NAMES:
        try:
            found = resolve.shipped(name)
        except errors.Unfit as unfit:
            return str(unfit)
        if found.told['sources'] != sources:
            return '%s is of other sources than what was proved' % resolve.below_top(found.path)
        if found.told['version'] != resolve.number():
            return '%s is of release %s, and these sources are of %s' % (
                resolve.below_top(found.path), found.told['version'], resolve.number())
    return ''


def compare(objects: 'Dict[str, str]', sources: str, kit: 'Kit') -> 'Tuple[int, str]':
    """How the shipped programs compare with object files, of each program by its name, that were made of these sources by this kit,
    and a line on it."""
    fault = shipped_fault(sources)
    if fault:
        return DIFFERS, fault
    told = resolve.manifest(resolve.SHIPPED)
    found = [compare_one(name, made, told, kit) for name, made in objects.items()]
    return max(found, key=lambda it: it[0])


def compare_one(name: str, made: str, told: 'Dict[str, str]', kit: 'Kit') -> 'Tuple[int, str]':
    """The same of one program."""
    same = resolve.sum_of_file(made) == told[object_of(name)]
    if told['kit'] != kit.line:
        return NOT_COMPARED, "the shipped %s was built by %s, and this kit is %s: its object file is %s" % (
            name, told['kit'], kit.line, 'the same all the same' if same else 'another one, as it may be')
    if not same:
        return DIFFERS, 'the object file is not that of the shipped %s, which was built by the same kit' % name
    here = linking.linker(), linking.library()
    if here != (told['linker'], told['library']):
        return NOT_COMPARED, 'the object file is that of the shipped %s, byte for byte; it is not linked again, since %s links here' % (
            name, ', '.join(filter(None, here)) or 'nothing')
    with tempfile.TemporaryDirectory(prefix='mig-compare-') as room:
        linked = os.path.join(room, name)
        linking.link(kit, name, made, linked)
        if resolve.sum_of_file(linked) != told[name]:
            return DIFFERS, 'the object file is that of the shipped %s, and what is linked from it is not' % name
    return SAME, 'what is shipped is byte for byte what was proved and built here'
