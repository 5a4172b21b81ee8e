"""What ends a command before it has an answer."""


class Misuse(Exception):
    """A wrong argument, a file that cannot be read, or a library that is not there: exit status 2."""


def cannot(name: object, error: OSError) -> Misuse:
    """The misuse of a file that cannot be read or written."""
    return Misuse(f"{name}: {error.strerror}")
