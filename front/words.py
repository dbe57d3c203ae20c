"""The words of the verbs: what several of them have, and how they say what they do. Each verb is a module front/verb_NAME.py, which
offers its words by `offer`, so that its help stands nowhere else."""
import argparse
import re
import sys
import textwrap

from front import errors
from front.text import put_lines, shown

TYPE_CHECKING = False                                # a checker of types takes it for true; typing itself is slow to load
if TYPE_CHECKING:
    from typing import Any, Callable, List, Mapping, Optional, Tuple, Union

WIDTH = 120
STATUSES = {
    errors.OK: 'each file was accepted',
    errors.REFUSED: "a file was refused, is no save, or isn't judged",
    errors.USAGE: 'the words make no command, OUT is there already, is a terminal, or names no file',
    errors.READ_FAULT: "a file couldn't be read or unpacked",
    errors.WRITE_FAULT: "OUT, or what is told, couldn't be written",
    errors.NO_MEMORY: "no memory was found, or the program was ended from outside, or couldn't begin",
    errors.FAULTY: '`mig` itself has a fault, which a line tells; nothing is said of the file, and no OUT has got its name',
    errors.NO_PROGRAM: 'no program runs here, and none could be built',
    '128 + N': 'the signal N (1, 2 or 15) ended `mig`',
}
ANSWERS = """\
Answers are explained in docs/refusals.md. An `ok` says that the stream is well formed and holds a whole guest, and of
`relay`, as status 0 of `show`, that its parts are well formed: a bit that was flipped inside a page can't be seen by any
reader of this format."""
CHOICE = """\
A name on the command line, and in a list, is always taken; --include and --exclude look at the names of the files that are
found below a folder, and leave it all its folders. GLOB is a pattern of the shell: *, ? and [..]."""
INTO = """\
With -t DIR there are many PATHs, files and folders with all files below, and one result for each file in DIR, which has to be
there. A file that is named gets its base name in DIR, one that is found below a folder the path that it has below that folder;
folders are made where they aren't there. A name that ends in .gz, .zst or .xz loses that end. Of two files with one place the
second isn't written. Nothing is written over without --force. What fails is told, all are counted at the end, and the status
is the greatest; what was broken off is begun again with --skip-existing. DIR may stand in a folder that is named: no file in it
is taken then."""
INPUT = """\
IN is a file or `-`: a file of `xl save` or of libvirt's libxl driver, a libxl stream, the image of a libxc stream, or
a stream of Xen 4.5 or older, also packed by gzip, zstd or xz."""
OUT = 'OUT is written beside its place and renamed when all is well; `-` is standard output.'


def statuses_of(own: 'Union[Mapping[Any, str], Tuple[()]]' = ()) -> str:
    """The statuses, with what a verb adds to some of them."""
    told = {**STATUSES, **{status: '; '.join(filter(None, (STATUSES.get(status), says))) for status, says in dict(own).items()}}
    lines = ['exit status:']
    for status in sorted(told, key=lambda it: (isinstance(it, str), it)):
        lines += textwrap.wrap(told[status], WIDTH, initial_indent='  %-5s' % status if status != '128 + N' else '  128 + N  ',
                               subsequent_indent=' ' * 7)
    return '\n'.join([*lines, '', ANSWERS])


def number(least: int, most: 'Optional[int]' = None) -> 'Callable[[str], int]':
    def parse(text: str) -> int:
        if not re.fullmatch('[0-9]+', text) or int(text) < least or most is not None and int(text) > most:
            raise argparse.ArgumentTypeError('a number from %d %s is wanted' % (least, 'on' if most is None else 'to %d' % most))
        return int(text)
    return parse


def size(text: str) -> int:
    told = re.fullmatch('([0-9]+)([KMGT]?)', text)
    if not told or not int(told[1]):
        raise argparse.ArgumentTypeError('a size is wanted, as 512M or 8G')
    return int(told[1]) << 10 * ' KMGT'.index(told[2] or ' ')


def address(text: str) -> int:
    digits = text[2:] if text[:2] in ('0x', '0X') else text
    if not re.fullmatch('[0-9A-Fa-f]+', digits) or int(digits, 16) >= 1 << 64:
        raise argparse.ArgumentTypeError('an address of 64 bits to base 16 is wanted')
    return int(digits, 16)


class Words(argparse.ArgumentParser):
    """What it says is written as all lines are."""

    def _get_option_tuples(self, option_string: str) -> 'List[Any]':
        """A word that begins with -- is an option only where it is one whole. (python3.6 takes no `-j4` with allow_abbrev=False.)"""
        return [] if option_string.startswith('--') else super()._get_option_tuples(option_string)

    def parse_known_args(self, args: 'Any' = None, namespace: 'Any' = None) -> 'Any':
        """Of a verb that takes many files, those behind an option are taken too; behind `--` none is an option. What a verb doesn't know
        ends here, where its own usage is at hand."""
        found, left = super().parse_known_args(args, namespace)
        end = left.index('--') if '--' in left else len(left)
        if self.get_default('usage_fault') and not any(word.startswith('-') and word != '-' for word in left[:end]):
            found.paths, left = [*found.paths, *left[:end], *left[end + 1:]], []
        if left:
            self.error('unrecognized arguments: ' + ' '.join(map(shown, left)))
        return found, left

    def _print_message(self, message: str, file: 'Any' = None) -> None:
        put_lines(message.splitlines(), file or sys.stderr)


def verb(verbs: 'Any', name: str, says: str, run: 'Callable[[Any], int]', more: str = '',
         statuses: 'Union[Mapping[Any, str], Tuple[()]]' = (), runs: bool = True) -> Words:
    """Offers a verb, which a function does, with what its help says besides, and what its statuses mean besides; most run programs."""
    words = verbs.add_parser(name, help=says, description='%s%s.' % (says[0].upper(), says[1:]),
                             epilog='\n\n'.join(filter(None, (more, statuses_of(statuses)))),
                             formatter_class=argparse.RawDescriptionHelpFormatter)  # type: Words
    words.add_argument('--memory', metavar='SIZE', type=size,
                       help='the most memory that the programs which hold guests may take, all together (80 %% of what is available)')
    words.set_defaults(run=run, user=None)
    if runs:
        words.add_argument('--user', metavar='NAME',
                           help='where root runs mig: have unpackers and the proved programs run as this user (nobody); root is as before')
    return words


def takes_files(words: Words, says: 'Optional[str]' = None) -> None:
    """The words of a verb that takes many files."""
    words.add_argument('paths', metavar='PATH', nargs='*', help=says)
    words.add_argument('--include', metavar='GLOB', action='append', help='of the files below folders take those with such a name')
    words.add_argument('--exclude', metavar='GLOB', action='append', help='of the files below folders take none with such a name')
    words.add_argument('--files-from', metavar='FILE', action='append', help='take the paths too that FILE, or -, names, one a line')
    words.add_argument('-0', dest='ends_with_nul', action='store_true', help='with --files-from: each path ends with NUL')
    words.set_defaults(usage_fault=words.error)


def at_once(words: Words) -> None:
    """The word of a verb that takes several files at once."""
    words.add_argument('-j', dest='jobs', metavar='N', type=number(1), default=1, help='up to N files at once, as far as memory allows')


def writes_over(words: Words) -> None:
    """The word of a verb that writes OUT."""
    words.add_argument('--force', action='store_true', help='write over OUT where it is there')


def unpacks(words: 'Any') -> None:
    """The word of a verb that may unpack into a folder."""
    words.add_argument('--unpack-to', metavar='DIR',
                       help='unpack a packed file whole into DIR first, where no name stands for it, so that no page is kept in memory')


def takes_header(words: Words, says: str, then: str = '') -> None:
    """The words of a verb that passes the header of a toolstack on; with a command of each, what that is good for."""
    one_of = words.add_mutually_exclusive_group()
    for toolstack, command in ('xl', 'xl restore'), ('libvirt', 'virsh restore'):
        one_of.add_argument('--' + toolstack, dest='toolstack', action='store_const', const=toolstack,
                            help=says % toolstack + (then % command if then else ''))


def in_json(words: 'Any', says: str = 'print one JSON object') -> None:
    words.add_argument('--json', action='store_true', help=says)
