"""How a crate of the tests is checked by the Rattle kit, over libraries that stand proved already."""
import os
import subprocess

TYPE_CHECKING = False                                # a checker of types takes it for true; typing itself is slow to load
if TYPE_CHECKING:
    from typing import List, Optional


def words_over(name: str, stands_on: 'List[str]', folders: 'List[str]') -> 'Optional[List[str]]':
    """The words that check a crate of this name, where its libraries stand in one of these folders, as NAME.rlib, and those below
    them in any; None where one of them isn't there."""
    kit = os.path.dirname(subprocess.run(['rt', 'doc'], stdout=subprocess.PIPE, check=True).stdout.decode().strip())
    words = [kit + '/bin/rattle', 'check', '--crate-name', name, 'src/lib.rt', '--extern', 'std=%s/rlibs/std.rlib' % kit,
             '-L', 'dependency=%s/rlibs' % kit, '--links', name + '=',
             '--antt-project', kit + '/rattle/logic/antt-project.json', '--logic-built', kit + '/logic_built']
    places = [os.path.abspath(folder) for folder in folders]
    for place in places:
        words += ['-L', 'dependency=' + place]
    for library in stands_on:
        found = [path for path in (os.path.join(place, library + '.rlib') for place in places) if os.path.exists(path)]
        if not found:
            return None
        words += ['--extern', '%s=%s' % (library, found[0])]
    return words
