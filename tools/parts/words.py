"""Readers of command line words, which say what was wrong and what is right."""
import argparse
import re
import subprocess
from pathlib import Path

from packets import SERVICES

TOP = Path(__file__).resolve().parents[2]
CALL = re.compile(r"([0-3]):(\d{1,10}):(status|close|buffer=\d{1,5})", re.ASCII)


def version():
    """The repository's, as git tells it; that of a package, as it was built."""
    if (TOP / "version").is_file():
        return (TOP / "version").read_text(encoding="utf-8").strip()
    try:
        return subprocess.run(["git", "describe", "--tags", "--always", "--dirty"], cwd=TOP, capture_output=True, text=True, check=True).stdout.strip()
    except (OSError, subprocess.CalledProcessError):
        return "of an unknown commit"


class Version(argparse.Action):
    """`--version` of every tool."""

    def __init__(self, **more):
        super().__init__(nargs=0, help="the commit of the repository", **more)

    def __call__(self, parser, *_):
        print(f"{parser.prog} of squeues {version()}")
        parser.exit()


def between(least, most):
    """A reader of numbers in a range."""
    def number(text):
        if not (text.isascii() and text.isdigit() and least <= int(text) <= most):
            raise argparse.ArgumentTypeError(f"{text!r} isn't a number from {least:,} to {most:,}")
        return int(text)
    return number


def port_pair(text):
    real, _, served = text.partition("=")
    if not (real.isascii() and real.isdigit() and 0 < int(real) < 65_536 and served in map(str, SERVICES)):
        raise argparse.ArgumentTypeError(f"{text!r} isn't like 80=7 (served as echo) or 80=9 (as discard)")
    return int(real), int(served)


def port_table(parser, pairs):
    """The services by their ports; a port that stands twice is refused."""
    ports = [port for port, _ in pairs]
    for port in ports:
        if ports.count(port) > 1:
            parser.error(f"--port {port} stands {ports.count(port)} times")
    return dict(pairs)


def call_word(text):
    found = CALL.fullmatch(text)
    if not found:
        raise argparse.ArgumentTypeError(f"{text!r} isn't like 0:3:status: a thread from 0 to 3, a connection, and status, close or buffer=N")
    if found[3].startswith("buffer") and int(found[3][7:]) > 65_535:
        raise argparse.ArgumentTypeError(f"{text!r}: a buffer has 0 to 65,535 bytes")
    return text
