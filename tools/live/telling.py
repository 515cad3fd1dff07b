"""What the launcher tells whoever started it. Where that can't be written, nobody is told, and the server goes on."""
import contextlib
import os
import sys


def tell(text):
    """A line on standard error."""
    with contextlib.suppress(OSError, ValueError):
        print(f"sqlive: {text}", file=sys.stderr, flush=True)


def write(text):
    """Writes some text to standard output. Behind a fault it is given up, so that nothing is left to be written at the end."""
    try:
        if text:
            print(end=text, flush=True)
    except OSError:
        os.dup2(os.open(os.devnull, os.O_WRONLY), sys.stdout.fileno())
        raise
