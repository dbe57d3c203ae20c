"""Writes the programs into a folder, with the MANIFEST that front/resolve.py reads."""
import os
import shutil

from build import linking
from build.proving import object_of
from front import resolve
from front.version import revision, said_by_git

TYPE_CHECKING = False                                # a checker of types takes it for true; typing itself is slow to load
if TYPE_CHECKING:
    from typing import Callable, Dict

    from build.proving import Kit

LICENCE = 'Apache-2.0'
HEAD = '''\
# What the programs in this folder are: the SHA-256 of each and of its object file. `sources` is that of all that they are made
# from: of the lines of crates.txt of the crates that they stand on, by their names, and then of a line as sha256sum writes it for
# each file of src, specs and proofs of these crates, by their paths in the order of their bytes. front/resolve.py reads this file.
'''


def text(**told: str) -> str:
    return HEAD + ''.join('%s: %s\n' % it for it in told.items())


def put(path: str, made: 'Callable[[str], object]') -> None:
    """Has a function make a file beside its place, and gives it its name."""
    os.makedirs(os.path.dirname(path), exist_ok=True)
    part = '%s.%d.part' % (path, os.getpid())
    try:
        made(part)
        os.replace(part, path)
    finally:
        if os.path.lexists(part):
            os.unlink(part)


def put_text(path: str, content: str) -> None:
    def made(part: str) -> None:
        with open(part, 'w', encoding='utf-8') as file:
            file.write(content)
    put(path, made)


def put_program(from_: str, path: str) -> None:
    def made(part: str) -> None:
        shutil.copyfile(from_, part)
        os.chmod(part, 0o755)
    put(path, made)


def sums_of(programs: 'Dict[str, str]') -> 'Dict[str, str]':
    """The checksum of each of these programs, by its name."""
    return {name: resolve.sum_of_file(path) for name, path in programs.items()}


def keep_own(programs: 'Dict[str, str]', kit: 'Kit', sources: str) -> None:
    """Keeps the programs that were proved here, each by its name the path of one, with their object files; the manifest comes last,
    so what is half written doesn't fit."""
    for name, path in programs.items():
        kept = os.path.join(resolve.OWN, name)
        put_program(path, kept)
        put(object_of(kept), lambda part: shutil.copyfile(object_of(path), part))
    objects = {object_of(name): resolve.sum_of_file(object_of(path)) for name, path in programs.items()}
    put_text(os.path.join(resolve.OWN, 'MANIFEST'), text(
        version=resolve.number(), licence=LICENCE, machine=resolve.MACHINE, **sums_of(programs), **objects, sources=sources,
        kit=kit.line, origin='proved on this machine'))


def ship(programs: 'Dict[str, str]', own: 'Dict[str, str]') -> None:
    """Puts programs that were linked of what was proved here where they are shipped from. Asks first of which commit they are: the
    programs that are put there are a change."""
    commit, at = said_by_git('rev-parse', 'HEAD') or 'unknown', revision()
    for name, path in programs.items():
        put_program(path, os.path.join(resolve.SHIPPED, resolve.MACHINE, name))
    objects = {object_of(name): own[object_of(name)] for name in programs}
    put_text(os.path.join(resolve.SHIPPED, 'MANIFEST'), text(
        version=resolve.number(), licence=LICENCE, machine=resolve.MACHINE, **sums_of(programs), **objects,
        sources=own['sources'], commit=commit, kit=own['kit'], linker=linking.linker(),
        library=linking.library(), origin='built from commit %s, shipped' % at))
