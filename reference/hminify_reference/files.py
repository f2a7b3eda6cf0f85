"""Files and standard output."""
import sys


class Failed(Exception):
    """A call on a file or on standard output has failed."""


def load(name, limit):
    """The bytes of a file, at most one more than the limit."""
    try:
        with open(name, "rb") as file:
            return file.read(limit + 1)
    except (OSError, ValueError) as error:
        raise Failed(told(name, error)) from error


def save(name, content):
    try:
        with open(name, "wb") as file:
            file.write(content)
    except (OSError, ValueError) as error:
        raise Failed(told(name, error)) from error


def put(content):
    try:
        sys.stdout.buffer.write(content)
        sys.stdout.buffer.flush()
    except OSError as error:
        raise Failed(told("standard output", error)) from error


def told(name, error):
    return "hminify: %s: %s" % (name, getattr(error, "strerror", None) or error)
