"""What bin/mig_tool and bin/mig_check do in a checkout or an unpacked release: they run the program of their name. Words, standard
input, standard output, standard error and the status are the program's own."""
import os
import signal
import sys

from front import errors, program, resolve

TYPE_CHECKING = False                                # a checker of types takes it for true; typing itself is slow to load
if TYPE_CHECKING:
    from typing import List, Optional

FAILED = 125


class Wrapper:
    """Runs the program of a name. Which one that is, front/resolve.py tells: one that was proved here, or the shipped one. Where
    neither is of these sources it is proved and built first, which takes the Rattle kit."""

    def __init__(self, name: str) -> None:
        self.name = name

    def tell(self, line: str) -> None:
        print('%s: %s' % (self.name, line), file=sys.stderr, flush=True)

    def usage_of(self, words: 'List[str]') -> 'Optional[int]':
        """The status where these words name no command, so that nothing is built for them."""
        from build.words import USAGES, names_a_command
        if names_a_command(self.name, words):
            return None
        print(USAGES[self.name], file=sys.stderr)
        return errors.USAGE

    def unproved(self, words: 'List[str]') -> int:
        from build import unproved as sources
        try:
            return sources.run(self.name, words, self.tell)
        except sources.NoAnswer as none:
            self.tell(str(none))
            return FAILED

    def of_sources(self, option: str, words: 'List[str]') -> int:
        """Proves the sources, or runs them without a proof."""
        if not program.can_build():
            self.tell('%s needs the sources, and here are none: take a checkout' % option)
            return FAILED
        if option == '--prove' and not words:
            os.execv(program.BUILDER, [program.BUILDER, option])
        status = self.usage_of(words)
        return self.unproved(words) if status is None else status

    def run(self, words: 'List[str]') -> int:
        """The program, with its own words, in the place of this script."""
        try:
            program.catch_signals(program.RUNNING.stop)  # while it is built
            path = program.resolved(self.name).path
            for number in signal.SIGPIPE, signal.SIGXFSZ:
                signal.signal(number, signal.SIG_DFL)    # python3 ignores these
            os.execve(path, [self.name] + words, program.surroundings(words, os.environ))
        except errors.NoProgram as none:
            if str(none):
                self.tell(str(none))
        except errors.Stopped as stopped:
            return stopped.status
        except OSError as fault:
            self.tell('%s does not start: %s' % (path, fault.strerror))
        return FAILED

    def is_there(self) -> bool:
        try:
            resolve.present(self.name)
        except errors.NoProgram:
            return False
        return True

    def main(self, words: 'List[str]') -> int:
        if words[:1] in (['--prove'], ['--unproved']):
            return self.of_sources(words[0], words[1:])
        status = None if self.is_there() or not program.can_build() else self.usage_of(words)
        return self.run(words) if status is None else status
