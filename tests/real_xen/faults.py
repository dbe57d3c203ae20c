"""What ends the test before its end, with one line for standard error."""


class Fault(Exception):
    """Nothing further can be tried: a package, a program or room is missing, or a wait took too long."""
