"""All statuses of `mig`, and all that is raised: what ends a verb, which front/main.py catches in one place, and what ends a smaller
piece of work."""
OK, REFUSED, USAGE, READ_FAULT, WRITE_FAULT, NO_MEMORY, NOT_COMPARED, FAULTY, NO_PROGRAM = 0, 1, 2, 3, 4, 5, 6, 7, 125
BY_OTHERS = 126, 127                                 # of a shell, or where a library of the program isn't found, or has no room
BY_SIGNAL = 128                                      # and the signal's number


# ---- what ends a verb

class Failed(Exception):
    """What ends a verb, with its status, and a line where that isn't told already."""
    status = FAULTY

    def __init__(self, line: str = '') -> None:
        super().__init__(line)


class Refused(Failed):
    """What can't be done."""

    def __init__(self, status: int, line: str) -> None:
        super().__init__(line)
        self.status = status


class BadWords(Refused):
    """Words that no file makes good."""


class NoProgram(Failed):
    """No program runs."""
    status = NO_PROGRAM


class Unreadable(Failed):
    """A file that can't be read, and why, in one line; its name, where it isn't the only one."""
    status, name = READ_FAULT, ''


class Untold(Failed):
    """Lines couldn't be written; where, and why."""
    status = WRITE_FAULT


class Stopped(BaseException):
    """A signal asks for an end. No program is started any more."""

    def __init__(self, number: int) -> None:
        super().__init__()
        self.status = BY_SIGNAL + number


# ---- what ends a smaller piece of work

class Special(Exception):
    """A pipe, a socket or a device that was found in a folder, which is no save."""


class BadHeader(Exception):
    """What is wrong with a toolstack's header, in one line."""


class Unread(Exception):
    """Why a configuration tells nothing, in one line."""


class Lost(Exception):
    """A walk over the heads of records can't go on: the input ends, or has a part that isn't known."""


class Cut(Exception):
    """A guest image ends before it is whole."""


class Difference(Exception):
    """How two canonical streams differ, in words."""


class Ended(Exception):
    """The program ended before it wrote a whole canonical stream of this save."""


class Unfit(Exception):
    """Why the program of a folder isn't run."""


class Absent(Unfit):
    """There is none."""
