"""Text for a terminal: colours where one looks, and none where a program reads."""
import os
import sys


def is_terminal():
    """Whether standard output is a terminal that may be coloured (NO_COLOR and TERM=dumb say no)."""
    return bool(sys.stdout and sys.stdout.isatty()) and not os.environ.get("NO_COLOR") and os.environ.get("TERM") != "dumb"


def painted(terminal):
    """What puts a colour of SGR around a text, on a terminal."""
    return (lambda text, code: f"\x1b[{code}m{text}\x1b[0m" if code else text) if terminal else lambda text, _: text
