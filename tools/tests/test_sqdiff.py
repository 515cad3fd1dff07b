"""sqdiff: each kind shows where a crafted server does it, and nothing where sqrun itself is the captured server."""
import csv
import gzip
import io
import json
import os
import random
import re
import subprocess
import sys
import tempfile
import unittest
from contextlib import redirect_stderr, redirect_stdout
from html.parser import HTMLParser
from importlib.machinery import SourceFileLoader
from importlib.util import module_from_spec, spec_from_loader
from pathlib import Path
from unittest import mock

from common import MODEL, SQRUN, TOOLS, TOP, captures, need, output
from crafted import ACK, CWR, ECE, FIN, MSS, PSH, RST, SACKED, SCALED, STAMPED, SYN, URG, Talk, as_ipv6
from browser import Browser, COMMAND
from drawing import seconds
from generated import BEGIN, write
from standards import KINDS, VERDICTS

GRAVE = ("MUST", "SHOULD", "unjudged")
SECOND = 1_000_000

# Runs a command with the same Python, and tells its most memory in kilobytes. (getrusage would tell that of the process which started it, where
# that is larger.)
MEASURED = """
import runpy, sys
sys.argv = sys.argv[1:]
try:
    runpy.run_path(sys.argv[0], run_name="__main__")
except SystemExit as end:
    status = end.code
with open("/proc/self/status") as lines:
    print(next(line for line in lines if line.startswith("VmHWM:")).split()[1], file=sys.stderr)
sys.exit(status)
"""


def program():
    """The command of some sqrun: a built one, an unproved one, or the model."""
    if os.access(SQRUN, os.X_OK):
        return SQRUN
    if MODEL:
        return f"{sys.executable} {MODEL} run"
    raise unittest.SkipTest("no sqrun: run ./build, or name it by SQRUN")


def lines(path, *words):
    """The differences and the summary that sqdiff finds, and its status."""
    status, said, told = called("--json", "--sqrun", program(), *words, path)
    assert status in (0, 1, 2) and said, (status, told)
    *found, summary = map(json.loads, said.splitlines())
    return found, summary, status


def called(*words):
    """sqdiff's status, output and error output, without a process of its own."""
    out, told = io.TextIOWrapper(io.BytesIO(), encoding="utf-8"), io.StringIO()
    loader = SourceFileLoader("sqdiff", str(TOOLS / "sqdiff"))
    tool = module_from_spec(spec_from_loader("sqdiff", loader))
    loader.exec_module(tool)
    with mock.patch.object(sys, "argv", ["sqdiff", *map(str, words)]), redirect_stdout(out), redirect_stderr(told):
        status = tool.main()
    return status, out.buffer.getvalue().decode(), told.getvalue()


def texts(port=9, **more):
    """An open connection to discard, whose server has nothing to say but acknowledgements."""
    return Talk(port, **more).open()


def stamped(talk, count=1):
    """So many echoes with timestamps on each segment."""
    for _ in range(count):
        talk.up(ACK | PSH, b"hello", options=STAMPED).down(ACK | PSH, b"hello", options=STAMPED).up(options=STAMPED)
    return talk


def late_behind(change):
    """An echo whose own acknowledgement is too late, behind one that was in time and of which the capture has no whole segment."""
    talk = Talk().open().up(ACK | PSH, b"hello").down(mark=True)
    at, body = talk.records[-1]
    talk.records[-1] = at, change(body)
    return talk.down(ACK | PSH, b"hello", wait=SECOND * 7 // 10).up()


def noticed():
    """An open connection that uses congestion notification."""
    return Talk().up(SYN | ECE | CWR, options=MSS).down(SYN | ACK | ECE, options=MSS, mark=True).up()


def probed(*waits):
    """A closed window, probed after so many seconds each."""
    talk = Talk().open().up(ACK | PSH, b"hello", window=0).down()
    for n, wait in enumerate(waits):
        talk.down(ACK | PSH, b"h", seq=1, wait=int(wait * SECOND), mark=n == 2).up(ack=1, window=0)
    talk.theirs += 1
    return talk.up().down(ACK | PSH, b"ello").up()


def taken(count):
    """A closed window whose client takes the byte of each probe."""
    talk = Talk().open().up(ACK | PSH, b"hello" * 5, window=0).down()
    for n in range(count):
        talk.down(ACK | PSH, (b"hello" * 5)[n:n + 1], wait=SECOND).up(window=0)
    return talk.up().down(ACK | PSH, (b"hello" * 5)[count:]).up()


def refused():
    """An echo past the window, which is refused, and goes again once there is room; the first one is marked."""
    return Talk(window=1_000).open().up(ACK | PSH, b"x" * 1_400).down(ACK | PSH, b"x" * 1_000).down(ACK | PSH, b"x" * 400, mark=True).up(ack=1_001, window=0).up(
        ack=1_001, window=0)


def swapped(talk):
    """The last two records have changed places, with their times."""
    talk.records[-2:] = talk.records[:-3:-1]
    return talk


def turned(talk):
    """The last record first."""
    talk.records.reverse()
    return talk


def opened(asked=MSS, offered=MSS, late=b"", **more):
    talk = Talk(asked=asked, offered=offered, **more)
    return talk.up(SYN, options=asked).down(SYN | ACK, options=offered, mark=True).up(options=late)


# By kind a conversation that has it. What is marked is the frame that is to be named. Beside the kind itself nothing else that is grave may
# be found, but for what stands in BESIDE.
STORIES = {
    "no answer": lambda: Talk().up(SYN, options=MSS, mark=True),
    "begins inside": lambda: Talk().up(ACK | PSH, b"hello", mark=True).down(ACK | PSH, b"hello").up(),
    "SYN refused": lambda: Talk().up(SYN, options=MSS).down(RST | ACK, seq=-900_000, mark=True),
    "SYN acknowledged wrongly": lambda: Talk().up(SYN, options=MSS).down(SYN | ACK, options=MSS, ack=5, mark=True),
    "maximum segment size": lambda: opened(offered=b"").echo(),
    "window scale": lambda: opened(asked=MSS + SCALED).echo(),
    "window scale unasked": lambda: opened(offered=MSS + SCALED).echo(),
    "window scale over 14": lambda: opened(asked=MSS + SCALED, offered=MSS + b"\x01\x03\x03\x0f").echo(),
    "selective acknowledgements": lambda: opened(asked=MSS + SACKED, offered=MSS + SACKED).echo(),
    "selective acknowledgements unasked": lambda: Talk().open().echo().down(options=b"\1\1\5\x0a" + bytes(8), mark=True),
    "selective acknowledgement unsent": lambda: opened(asked=MSS + SACKED, offered=MSS + SACKED).echo(options=b"\1\1\5\x0a\x10\0\0\1\x10\0\0\5", mark=True),
    "option malformed": lambda: Talk().open().echo(options=b"\x08\0\0\0", mark=True),
    "timestamps": lambda: stamped(opened(asked=MSS + STAMPED, offered=MSS + STAMPED, late=STAMPED)),
    "timestamps unasked": lambda: opened(offered=MSS + STAMPED).echo(),
    "timestamp missing": lambda: stamped(opened(asked=MSS + STAMPED, offered=MSS + STAMPED, late=STAMPED)).up(ACK | PSH, b"x", options=STAMPED).down(
        ACK | PSH, b"x", mark=True).up(options=STAMPED),
    "maximum segment size later": lambda: Talk().open().echo(options=MSS, mark=True),
    "SYN,ACK again": lambda: Talk().up(SYN, options=MSS).down(SYN | ACK, options=MSS, mark=True).up(wait=SECOND * 3 // 2).echo(),
    "congestion notification": lambda: noticed().up(ACK | PSH, b"hello").down(ACK | PSH | ECE, b"hello").up(),
    "congestion notification unasked": lambda: Talk().open().up(ACK | PSH, b"hello").down(ACK | PSH | ECE, b"hello", mark=True).up(),
    "captured twice": lambda: Talk().open().up(ACK | PSH, b"hello").down(ACK | PSH, b"hello", number=77).down(
        ACK | PSH, b"hello", seq=1, number=77, wait=20, mark=True).up(),
    "not whole in the capture": lambda: late_behind(lambda body: body[:-1]),
    "acknowledged later": lambda: Talk().open().up(ACK | PSH, b"hello", mark=True).down(ACK | PSH, b"hello", wait=SECOND // 5).up(),
    "acknowledged too late": lambda: Talk().open().up(ACK | PSH, b"hello").down(ACK | PSH, b"hello", wait=SECOND * 7 // 10, mark=True).up(),
    "acknowledged together": lambda: Talk().open().up(ACK | PSH, b"one").up(ACK | PSH, b"two").down(ACK | PSH, b"one").down(ACK | PSH, b"two").up(),
    "acknowledged too seldom": lambda: texts().up(ACK, b"x" * 1460).up(ACK, b"x" * 1460).up(ACK, b"x" * 1460, wait=50_000).down(wait=50_000, mark=True),
    "acknowledged apart": lambda: Talk().open().up(ACK | PSH, b"hello").down(mark=True).down(ACK | PSH, b"hello").up(),
    "gap not acknowledged": lambda: Talk().open().up(ACK | PSH, b"world", seq=6, mark=True).up(ACK | PSH, b"hello", seq=1).down(
        ACK | PSH, b"helloworld", ack=11).up(seq=11),
    "parts": lambda: Talk().open().echo().up(ACK | PSH, b"hello").down(ACK | PSH, b"hello, and more").up(mark=True).echo(),
    "capture ends first": lambda: Talk().open().echo().up(ACK | PSH, b"hello").down(),
    "acknowledged what wasn't sent": lambda: Talk().open().echo().up(ACK | FIN).down(ack=5_008, mark=True).down(ACK | FIN).up(),
    "window scale later": lambda: Talk().open().echo(options=SCALED, mark=True),
    "selective acknowledgements permitted later": lambda: Talk().open().echo(options=SACKED, mark=True),
    "checksum wrong each time": lambda: Talk().open().echo().echo().echo().up(ACK | PSH, b"hello").down().down(ACK | PSH, b"hello", wrong=True, mark=True).down(
        ACK | PSH, b"hello", seq=16, wrong=True, wait=SECOND).down(ACK | PSH, b"hello", seq=16, wrong=True, wait=2 * SECOND).up(ack=16, wait=SECOND),
    "acknowledged before it came": lambda: Talk().open().echo().up(ACK | PSH, b"hello").down(ACK | PSH, b"hello", ack=16, mark=True).up(
        ACK | PSH, b"world", wait=50_000).down(ACK | PSH, b"world").up(),
    "acknowledged what isn't captured": lambda: Talk().open().up(ACK | PSH, b"hello").down(ACK | PSH, b"hello", ack=11, mark=True).up(),
    "text isn't captured": lambda: Talk().open().up(ACK | PSH, b"hello").up(seq=6, ack=6),
    "acknowledgement went back": lambda: Talk().open().echo().down(ack=1, mark=True),
    "not acknowledged": lambda: texts().up(ACK | PSH, b"hello", mark=True),
    "window": lambda: Talk(room=1_000).open().echo(),
    "window closed": lambda: texts(room=5).up(ACK | PSH, b"hello").down(window=0, mark=True).down(window=1_000, wait=SECOND),
    "window shrunk": lambda: texts().up(ACK | PSH, b"hello").down().up(ACK | PSH, b"hello").down(window=100, mark=True),
    "window opened by little": lambda: texts(room=1_460).up(ACK | PSH, b"x" * 1_460).down(window=0).down(window=10, wait=SECOND, mark=True),
    "text": lambda: Talk().open().up(ACK | PSH, b"hello").down(ACK | PSH, b"jello", mark=True).up(),
    "length of the text": lambda: Talk().open().echo().up(ACK | PSH, b"hello").down().then(2 * SECOND),
    "boundaries": lambda: Talk().open().up(ACK | PSH, b"hello").down(ACK, b"he", mark=True).down(ACK | PSH, b"llo").up(),
    "larger than the client takes": lambda: Talk(asked=b"\x02\x04\x01\xf4").open().up(ACK | PSH, b"x" * 600).down(ACK | PSH, b"x" * 600, mark=True).up(),
    "larger than a packet": lambda: Talk().open().up(ACK | PSH, b"x" * 1_460).up(ACK | PSH, b"x" * 1_460).down(ACK | PSH, b"x" * 2_920, mark=True).up(),
    "past the window": lambda: Talk(window=100).open().up(ACK | PSH, b"x" * 300).down(ACK | PSH, b"x" * 300, mark=True).up(ack=101),
    "PSH": lambda: Talk().open().up(ACK | PSH, b"hello").down(ACK, b"hello", mark=True).up(),
    "FIN with text": lambda: Talk().open().up(ACK | PSH | FIN, b"hello").down(ACK | PSH | FIN, b"hello", mark=True).up(),
    "FIN": lambda: Talk().open().echo().up(ACK | FIN).down().then(2 * SECOND),
    "text after FIN": lambda: Talk().open().echo().up(ACK | FIN).down(ACK | FIN).down(ACK | PSH, b"more", mark=True).up(),
    "text changed": lambda: Talk().open().up(ACK | PSH, b"hello").down(ACK | PSH, b"hello").down(ACK | PSH, b"jello", seq=1, wait=SECOND * 11 // 10, mark=True).up(),
    "without ACK": lambda: Talk().open().up(ACK | PSH, b"hello").down().down(PSH, b"hello", mark=True).up(),
    "reserved bits": lambda: Talk().open().echo(reserved=4, mark=True),
    "urgent": lambda: Talk().open().up(ACK | PSH, b"hello").down(ACK | PSH | URG, b"hello", mark=True).up(),
    "wrong checksum": lambda: Talk().open().echo().echo().echo(wrong=True, mark=True),
    "checksums of the card": lambda: Talk().up(SYN, options=MSS).down(SYN | ACK, options=MSS, wrong=True, mark=True).up().echo(wrong=True),
    "sent again": lambda: Talk().open().up(ACK | PSH, b"hello").down(ACK | PSH, b"hello").up(wait=SECOND * 3 // 2),
    "sent again early": lambda: Talk().open().up(ACK | PSH, b"hello").down(ACK | PSH, b"hello").down(ACK | PSH, b"hello", seq=1, wait=SECOND // 3, mark=True).up(),
    "no backoff": lambda: Talk().open().up(ACK | PSH, b"hello").down(ACK | PSH, b"hello").down(ACK | PSH, b"hello", seq=1, wait=SECOND).down(
        ACK | PSH, b"hello", seq=1, wait=SECOND).down(ACK | PSH, b"hello", seq=1, wait=SECOND, mark=True).up(),
    "window probed": lambda: Talk().open().up(ACK | PSH, b"hello", window=0).down().down(ACK | PSH, b"h", wait=SECOND // 2, mark=True).down(
        ACK | PSH, b"h", seq=1, wait=SECOND).down(ACK | PSH, b"h", seq=1, wait=SECOND * 2).up().down(ACK | PSH, b"ello").up(),
    "window probed without text": lambda: Talk().open().up(ACK | PSH, b"hello", window=0).down().down(seq=0, wait=SECOND, mark=True).up(
        window=0).up().down(ACK | PSH, b"hello").up(),
    "window probed without backoff": lambda: probed(*[1] * 10),
    "window not probed": lambda: Talk().open().up(ACK | PSH, b"hello", window=0, mark=True).down().up(wait=SECOND * 70).down(ACK | PSH, b"hello").up(),
    "reset": lambda: Talk().open().echo().down(ACK | RST, mark=True),
    "no reset": lambda: Talk().open().echo().up(RST).up(wait=SECOND),
    "reset with a wrong number": lambda: Talk().open().echo().down(RST, seq=5_000_000, mark=True),
    "SYN not challenged": lambda: Talk().open().echo().up(SYN, seq=100, options=MSS, mark=True).up(wait=SECOND),
    "state at the end": lambda: Talk().open().echo().up(ACK | FIN).down().then(2 * SECOND),
}
# What a story has beside its own kind, of what is grave.
BESIDE = {"text after FIN": {"parts"}, "checksum wrong each time": {"wrong checksum", "capture ends first"}, "text isn't captured": {"not acknowledged"}, "not whole in the capture": {"acknowledged too late"}, "wrong checksum": {"text isn't captured", "not acknowledged"}}
# Right servers, which a careless reader takes for wrong ones.
CONTROLS = {
    "a reset of what came before the SYN": lambda: Talk().up(seq=-4_000, ack=2_000).down(RST, seq=2_000).up(SYN, options=MSS),
    "that, and the SYN is refused": lambda: Talk().up(seq=-4_000, ack=2_000).down(RST, seq=2_000).up(SYN, options=MSS).down(RST | ACK, seq=-900_000),
    "that, and the SYN is answered": lambda: Talk().up(seq=-4_000, ack=2_000).down(RST, seq=2_000).open().echo().close(),
    "a connection that goes on from before, and then anew": lambda: Talk().up(ACK | PSH, b"hello", seq=70_000, ack=80_000).down(
        ACK | PSH, b"hello", seq=80_000, ack=70_005).up(ACK | RST, seq=70_005, ack=80_005).open().echo().close(),
    "a SYN that is also a reset": lambda: Talk().up(ACK, seq=-4_000, ack=2_000).down(RST, seq=2_000).up(SYN | RST | FIN, seq=7).up(
        ACK, seq=-4_000, ack=2_000).down(RST, seq=2_000),
    "a SYN refused, then answered": lambda: Talk().up(SYN, options=MSS).down(RST | ACK, seq=-900_000).up(SYN, seq=0, options=MSS, wait=SECOND).down(
        SYN | ACK, options=MSS).up().echo().close(),
    "a second SYN with another number": lambda: again(Talk().up(SYN, options=MSS).down(SYN | ACK, options=MSS, window=0xffff)).up(SYN, options=MSS).down(
        SYN | ACK, options=MSS, window=1_000).up().echo().close(),
    "the answer to the first of two SYNs": lambda: Talk().up(SYN, options=MSS + SCALED).up(SYN, seq=500_000, options=MSS).down(
        SYN | ACK, options=MSS + SCALED, ack=1).up(),
    "a SYN without options behind one that has them": lambda: Talk().up(SYN, options=MSS + SCALED).up(SYN, seq=0).down(SYN | ACK, options=MSS + SCALED).up(),
    "a SYN again without timestamps": lambda: opened(asked=MSS + STAMPED, offered=MSS + STAMPED).up(SYN, seq=0, options=MSS, wait=SECOND).down(
        SYN | ACK, seq=0, options=MSS).up().echo().close(),
    "a SYN again that names a smaller size": lambda: Talk().up(SYN, options=MSS).up(SYN, seq=0, options=b"\x02\x04\x02\x18", wait=SECOND).down(
        SYN | ACK, options=MSS).up().echo(b"x" * 1_000).close(),
    "a text that the wire spoils, and that is sent again": lambda: texts().up(ACK | PSH, b"hello", wrong=True).up(
        ACK | PSH, b"world").down(ack=1).up(ACK | PSH, b"hello", seq=1, wait=SECOND * 6 // 10).down(),
    "acknowledgements that the wire spoils": lambda: texts().up(ACK | PSH, b"one").down(wrong=True).up(ACK | PSH, b"two", wait=SECOND * 7 // 10).down().up(
        ACK | PSH, b"three").down().up(ACK | PSH, b"four").down(),
    "numbers and flags that the wire spoils": lambda: Talk().open().echo().down(FIN | ACK, seq=3_000_000, wrong=True).down(
        ACK | PSH, b"HELLO", seq=1, wrong=True).down(RST, seq=77, wrong=True).down(ACK, reserved=4, wrong=True).echo().echo().echo().echo().close(),
    "two segments that a card was to cut": lambda: Talk(asked=b"\x02\x04\x01\xf4").open().up(ACK | PSH, b"x" * 600).down(
        ACK | PSH, b"x" * 600, card=True).up().echo().echo(),
    "a late acknowledgement on a long way": lambda: Talk(9).up(SYN, options=MSS).down(SYN | ACK, options=MSS, wait=50_000).up().up(ACK | PSH, b"hello").down(
        wait=SECOND * 7 // 10),
    "a late acknowledgement where the wire loses": lambda: texts().up(ACK | PSH, b"one").down().up(ACK | PSH, b"one", seq=1, wait=SECOND // 5).down().up(
        ACK | PSH, b"two", wait=50_000).down(wait=SECOND * 6 // 10),
    "timeouts of which the wire lost one": lambda: Talk().open().up(ACK | PSH, b"hello").down(ACK | PSH, b"hello").down(
        ACK | PSH, b"hello", seq=1, wait=SECOND).down(ACK | PSH, b"hello", seq=1, wait=6 * SECOND).down(ACK | PSH, b"hello", seq=1, wait=8 * SECOND).up(),
    "an acknowledgement of which the capture has the addresses": lambda: late_behind(lambda body: body[:20]),
    "an acknowledgement in a fragment": lambda: late_behind(lambda body: body[:6] + b"\x20\0" + body[8:]),
    "an acknowledgement in a fragment without ports": lambda: late_behind(lambda body: body[:6] + b"\0\x10" + body[8:]),
    "an acknowledgement whose header is too long": lambda: late_behind(lambda body: body[:32] + b"\xf0" + body[33:]),
    "a late acknowledgement behind one that the capture lacks": lambda: texts().up(ACK | PSH, b"one").down().up(ACK | PSH, b"two").up(
        ACK | PSH, b"three", wait=SECOND * 7 // 10).down(),
    "a text into a window of which the capture lacks the opening": lambda: Talk(window=100).open().up(ACK | PSH, b"x" * 300).down(ACK | PSH, b"x" * 300).up(),
    "a text and its echo that changed places, and more text": lambda: swapped(Talk().open().up(ACK | PSH, b"one").down(ACK | PSH, b"one")).up().up(
        ACK | PSH, b"two", wait=SECOND // 3).down(ACK | PSH, b"two").up(),
    "acknowledgements that are too late by more than a timer": lambda: texts().up(ACK | PSH, b"one").down(wait=SECOND * 2),
    "a keep-alive with a byte": lambda: Talk().open().echo().down(ACK, b"\0", seq=5, wait=60 * SECOND).up(),
    "accurate congestion notification": lambda: noticed().echo(reserved=1),
    "probes whose bytes are taken": lambda: taken(12),
    "probes that wait five seconds at first": lambda: probed(5, 5, 5, 5, 6, 12, 24, 48, 60, 60, 60),
    "a text that came when the window was open again": lambda: Talk().open().echo().up(window=0).up(wait=70 * SECOND).echo().close(),
    "echo": lambda: Talk().open().echo().echo(b"x" * 1_460).close(),
    "discard": lambda: texts().up(ACK | PSH, b"hello").down().close(),
    "a late half of a second less": lambda: Talk().open().up(ACK | PSH, b"hello").down(ACK | PSH, b"hello", wait=SECOND * 49 // 100).up(),
    "a far client": lambda: Talk().up(SYN, options=MSS).down(SYN | ACK, options=MSS, wait=SECOND // 2).up(wait=SECOND // 2).up(
        ACK | PSH, b"hello").down(ACK | PSH, b"hello", wait=SECOND * 6 // 10).up(wait=SECOND // 10),
    "selective acknowledgements that the server permits": lambda: opened(offered=MSS + SACKED).echo(),
    "acknowledgements behind FIN": lambda: Talk().open().echo().down(ACK | FIN).up(ACK | PSH, b"x").down().up(ACK | FIN).down(),
    "a SYN,ACK for each SYN": lambda: Talk().up(SYN, options=MSS).up(SYN, options=MSS, seq=0).down(SYN | ACK, options=MSS).up(
        SYN, options=MSS, seq=0).down(SYN | ACK, options=MSS, seq=0, wait=5_000).up(SYN, options=MSS, seq=0).down(SYN | ACK, options=MSS, seq=0, wait=5_000).down(
        SYN | ACK, options=MSS, seq=0, wait=5_000).up(),
    "two segments that changed places": lambda: texts().up(ACK | PSH, b"hello").up(ACK | PSH, b"hello").down().down(ack=6, window=60_000),
    "a text lost behind the capture": lambda: texts().up(ACK | PSH, b"one").up(ACK | PSH, b"two").down(ack=1).up(ACK | PSH, b"one", seq=1, wait=SECOND).down(),
    "a text after one that is sent again": lambda: texts().up(ACK | PSH, b"one").up(ACK | PSH, b"two").up(ACK | PSH, b"one", seq=1, wait=SECOND).down(),
    "every second full segment": lambda: texts().up(ACK, b"x" * 1460).up(ACK, b"x" * 1460, wait=50_000).down(wait=50_000),
    "a probe into a closed window": lambda: Talk().open().up(ACK | PSH, b"hello", window=0).down().down(ACK | PSH, b"h", wait=SECOND).up(),
    "as large as the client takes": lambda: Talk(asked=b"\x02\x04\x01\xf4").open().echo(b"x" * 500),
    "up to the window": lambda: Talk(window=300).open().echo(b"x" * 300),
    "doubled timeouts": lambda: Talk().open().up(ACK | PSH, b"hello").down(ACK | PSH, b"hello").down(ACK | PSH, b"hello", seq=1, wait=SECOND).down(
        ACK | PSH, b"hello", seq=1, wait=2 * SECOND).down(ACK | PSH, b"hello", seq=1, wait=4 * SECOND).up(),
    "a reset as an answer": lambda: Talk().open().echo().up(ACK | PSH, b"hello").down(RST, seq=6),
    "a segment asked for by a selective acknowledgement": lambda: opened(asked=MSS + SACKED, offered=MSS + SACKED).up(ACK | PSH, b"hello").down(
        ACK | PSH, b"hello").up(ACK | PSH, b"world").down(ACK | PSH, b"world").up(ack=1, options=b"\1\1\5\x0a" + (900_006).to_bytes(4, "big") + (
            900_011).to_bytes(4, "big")).down(ACK | PSH, b"hello", seq=1).up(),
    "a probe for the tail after two round trips": lambda: opened(asked=MSS + SACKED, offered=MSS + SACKED).up(ACK | PSH, b"hello").down(
        ACK | PSH, b"hello").down(ACK | PSH, b"hello", seq=1, wait=1_500).down(ACK | PSH, b"hello", seq=1, wait=SECOND).up(),
    "two answers to a SYN that the wire doubled": lambda: Talk().up(SYN, options=MSS).down(SYN | ACK, options=MSS, number=1).up().down(
        SYN | ACK, options=MSS, seq=0, wait=10, number=2).up().echo().close(),
    "all that goes again behind a timeout": lambda: Talk().open().up(ACK | PSH, b"hello").down(ACK, b"hel").up(ACK | PSH, b"world", wait=SECOND * 9 // 10).down(
        ACK | PSH, b"lo").down(ACK, b"hel", seq=1, wait=SECOND // 10).up(ack=4).down(ACK | PSH, b"lo", seq=4).up().down(ACK | PSH, b"world").up(),
    "text in a SYN, which the server takes": lambda: Talk().up(SYN, b"hello", options=MSS).down(SYN | ACK, options=MSS).up(ack=1).down(
        ACK | PSH, b"hello").up().up(ACK | PSH, b"world", wait=50_000).down(ACK | PSH, b"world").up().close(),
    "text in a SYN, which goes again": lambda: Talk().up(SYN, b"hello", options=MSS).down(SYN | ACK, options=MSS, ack=1).up(
        ACK | PSH, b"hello", seq=1).down(ACK | PSH, b"hello").up().close(),
    "echoes that stand before their texts, by another clock": lambda: Talk().open().down(ACK | PSH, b"hello", ack=6).up(ACK | PSH, b"hello", ack=1, wait=20_000).up(wait=100).down(
        ACK | PSH, b"world", ack=11, wait=SECOND).up(ACK | PSH, b"world", ack=6, wait=20_000).up().close(),
    "a capture whose records are turned round": lambda: turned(Talk().open().echo().close()),
    "a segment asked for by three acknowledgements": lambda: Talk().open().up(ACK | PSH, b"hello").down(ACK | PSH, b"hello").up(ack=1).up(ack=1).up(
        ack=1).down(ACK | PSH, b"hello", seq=1).up(),
}


# By kind a conversation whose client breaks the rule, in the frame that is marked.
OF_CLIENTS = {
    "reserved bits": lambda: Talk().open().up(ACK | PSH, b"hello", reserved=4, mark=True).down(ACK | PSH, b"hello").up().close(),
    "maximum segment size later": lambda: Talk().open().echo().up(options=MSS, mark=True).close(),
    "window scale later": lambda: Talk().open().echo().up(options=SCALED, mark=True).close(),
    "selective acknowledgements permitted later": lambda: Talk().open().echo().up(options=SACKED, mark=True).close(),
    "without ACK": lambda: Talk().open().up(PSH, b"hello", mark=True).down(ack=1).echo(b"again", seq=6),
    "past the window": lambda: Talk(room=3).open().up(ACK | PSH, b"hello", mark=True).down(ack=4, window=0).then(SECOND),
    "text changed": lambda: Talk().open().up(ACK | PSH, b"hello").up(ACK | PSH, b"jello", seq=1, wait=SECOND * 11 // 10, mark=True).down(ACK | PSH, b"hello").up(),
    "text after FIN": lambda: Talk().open().echo().up(ACK | FIN).down().up(ACK | PSH, b"more", mark=True).down(ack=7),
    "no backoff": lambda: Talk().open().up(ACK | PSH, b"hello").up(ACK | PSH, b"hello", seq=1, wait=SECOND).up(ACK | PSH, b"hello", seq=1, wait=SECOND).up(
        ACK | PSH, b"hello", seq=1, wait=SECOND, mark=True).down(ACK | PSH, b"hello").up(),
    "acknowledged what wasn't sent": lambda: Talk().open().echo().up(ACK | FIN).down(ACK | FIN).up(ack=5_008, mark=True),
    "acknowledged before it came": lambda: Talk().open().echo().up(ACK | PSH, b"hello").down(ACK | PSH, b"hello").up(ack=16, mark=True).down(
        ACK | PSH, b"world", wait=50_000).up(),
    "reset with a wrong number": lambda: Talk().open().echo().up(RST, seq=5_000_000, mark=True),
    "selective acknowledgement unsent": lambda: opened(asked=MSS + SACKED, offered=MSS + SACKED).up(ACK | PSH, b"hello").down(ACK | PSH, b"hello").up(
        ack=1, options=b"\1\1\5\x0a\x10\0\0\1\x10\0\0\5", mark=True).up(),
    "timestamps unasked": lambda: Talk().open().echo().up(options=STAMPED, mark=True).close(),
    "window shrunk": lambda: Talk().open().up(ACK | PSH, b"hello").down(ACK | PSH, b"hello").up().up(window=100, wait=5_000, mark=True).close(),
}


def at_port(datagram, port, old=(7, 9)):
    """The same segment with another port of its server in the place of 7 and 9, and a checksum that is as right or wrong."""
    header = 4 * (datagram[0] & 15)
    for at in (header, header + 2):
        held = int.from_bytes(datagram[at:at + 2], "big")
        if held in old and len(datagram) >= header + 18:
            total = (0xffff ^ int.from_bytes(datagram[header + 16:header + 18], "big")) + (0xffff ^ held) + port
            total = (total & 0xffff) + (total >> 16)
            total = 0xffff ^ ((total & 0xffff) + (total >> 16))
            return datagram[:at] + port.to_bytes(2, "big") + datagram[at + 2:header + 16] + total.to_bytes(2, "big") + datagram[header + 18:]
    return datagram


def again(talk):
    """The client begins with another number, on the same two ends and in the same life of the server's."""
    talk.start = talk.start[0] + 600_000_000, talk.start[1] + 40_000
    talk.mine = talk.theirs = 0
    return talk


class Kinds(unittest.TestCase):
    def setUp(self):
        folder = tempfile.TemporaryDirectory()
        self.addCleanup(folder.cleanup)
        self.folder = Path(folder.name)

    def test_there_is_a_story_of_each_kind(self):
        self.assertEqual(set(STORIES), set(KINDS))
        self.assertTrue(all(kind.verdict in VERDICTS and kind.section and kind.rule.endswith((".", ")")) for kind in KINDS.values()))

    def test_each_kind(self):
        program()
        for name, story in STORIES.items():
            with self.subTest(name):
                talk = story()
                found, summary, status = lines(talk.save(self.folder))
                found = [line for line in found if line["side"] == "server"]
                mine = [line for line in found if line["kind"] == name]
                self.assertEqual(len(mine), 1, found)
                if talk.marked:
                    self.assertEqual(mine[0]["frame"], talk.marked)
                grave = {line["kind"] for line in found if line["verdict"] in GRAVE} - {name}
                self.assertLessEqual(grave, BESIDE.get(name, set()), found)
                self.assertEqual(status, 2 if name == "no answer" else int(any(line["verdict"] == "MUST" for line in found)))
                self.assertEqual(summary["must"], sum(line["count"] for line in found if line["verdict"] == "MUST"))

    def test_what_the_segments_tell_alone(self):
        """The same stories at a port without a service, over IPv4 and IPv6: each MUST and SHOULD is found, at its frame, and nothing else that is grave of the server."""
        for name, story in STORIES.items():
            for changed in (lambda datagram: datagram, as_ipv6):
                with self.subTest(name, ipv6=changed is as_ipv6):
                    talk = story()
                    found, summary, status = lines(talk.save(self.folder, changed=lambda datagram: changed(at_port(datagram, 8_080))), "--alone")
                    wanted = [(name, talk.marked)] if KINDS[name].verdict in ("MUST", "SHOULD") else []
                    server = [line for line in found if line["side"] == "server" and line["verdict"] in ("MUST", "SHOULD")]
                    self.assertEqual([line["kind"] for line in server], [kind for kind, _ in wanted])
                    self.assertTrue(all(frame in (None, line["frame"]) for (_, frame), line in zip(wanted, server)), (wanted, server))
                    self.assertEqual(status, 2 if not summary["judged"] else int(any(line["verdict"] == "MUST" for line in found)))
                    if name == "text after FIN":        # what a server does wrong is no gap that its client should acknowledge
                        self.assertEqual([line["kind"] for line in found if line["side"] == "client"], [])

    def test_what_is_right_alone(self):
        """No MUST of either side, and no SHOULD of the server."""
        for name, story in CONTROLS.items():
            for changed in (lambda datagram: datagram, as_ipv6):
                with self.subTest(name, ipv6=changed is as_ipv6):
                    found, _, status = lines(story().save(self.folder, changed=lambda datagram: changed(at_port(datagram, 443))), "--alone")
                    self.assertEqual([line for line in found if line["verdict"] == "MUST" or line["side"] == "server" and line["verdict"] == "SHOULD"], [])
                    self.assertIn(status, (0, 2))

    def test_a_client_that_breaks_a_rule(self):
        """Each at its frame, on a connection that is served and on one that isn't, over IPv4 and IPv6."""
        program()
        for name, story in OF_CLIENTS.items():
            for port, changed, words in ((7, lambda datagram: datagram, ()), (8_080, lambda datagram: datagram, ()), (8_080, as_ipv6, ("--alone",))):
                with self.subTest(name, port=port, words=words):
                    talk = story()
                    found, _, status = lines(talk.save(self.folder, changed=lambda datagram: changed(at_port(datagram, port))), *words)
                    mine = [(line["kind"], line["frame"]) for line in found if line["side"] == "client" and line["verdict"] in ("MUST", "SHOULD")]
                    self.assertEqual(mine, [(name, talk.marked)])
                    self.assertEqual(status, int(any(line["verdict"] == "MUST" for line in found)))

    def test_what_is_right_has_none(self):
        program()
        for name, story in CONTROLS.items():
            with self.subTest(name):
                found, _, status = lines(story().save(self.folder))
                self.assertEqual([line for line in found if line["verdict"] == "MUST" or line["verdict"] == "SHOULD" and line["side"] == "server"], [])
                self.assertEqual(status, 0)
                if name in ("echo", "discard"):
                    self.assertEqual(found, [])


    def test_a_pair_of_ends_used_again(self):
        """Each life is compared by itself, with numbers of its own."""
        found, summary, _ = lines(Talk().open().echo().close().anew(SECOND).open().echo(reserved=4, mark=True).close().save(self.folder))
        self.assertEqual([(line["life"], line["kind"], line["frame"]) for line in found], [(1, "reserved bits", 14)])
        self.assertEqual((summary["connections"], summary["must"]), (1, 1))

    def test_nothing_compared(self):
        """It's told, with what the capture has, and is no pass: a port that isn't served, packets cut short, UDP, clients alone."""
        talk = Talk(8080).open().echo()
        cut = [(at, body[:60]) for at, body in Talk().open().echo(b"x" * 100).records if len(body) > 60]
        write(self.folder / "cut.pcap", cut, 101)
        udp = bytes.fromhex("4500001d000000004011" "0000" "0a0000010a000002" "0fa00007000900" "0061")
        write(self.folder / "udp.pcap", [(BEGIN, udp)], 101)
        for path, words in ((talk.save(self.folder, "port.pcap"), ("TCP ports 8080 (6 segments)", "--port 8080=9")), (self.folder / "cut.pcap", ("2 packets are cut", "-s 0")),
                            (self.folder / "udp.pcap", ("UDP ports 7", "sqmore")), (Talk().up(SYN, options=MSS).save(self.folder), ("no segment of a server",))):
            for shape in ((), ("--json",), ("--page",)):
                with self.subTest(path.name, shape=shape):
                    status, said, told = called("--sqrun", program(), *shape, path)
                    self.assertEqual(status, 0 if path.name == "port.pcap" else 2, told)      # its segments alone are judged
                    self.assertEqual("What the segments alone tell is judged" in told, path.name == "port.pcap")
                    for word in ("nothing is compared", *words):
                        self.assertIn(word, told)
                    if shape == ("--json",):
                        self.assertEqual(json.loads(said.splitlines()[-1])["compared"], 0)

    def test_past_the_window(self):
        """A text that was refused breaks a MUST also where it goes again once there is room; one that the client takes without that doesn't."""
        again = refused().up(ack=1_001, window=5_000, wait=SECOND // 2).down(ACK | PSH, b"x" * 400, seq=1_001, wait=SECOND).up(window=5_000)
        for talk, verdict in ((again, "MUST"), (refused().up(wait=SECOND // 2), "unjudged")):
            found, _, status = lines(talk.save(self.folder))
            self.assertEqual([(line["verdict"], line["frame"], line["count"]) for line in found if line["kind"] == "past the window"], [(verdict, talk.marked, 1)])
            self.assertEqual(status, int(verdict == "MUST"))

    def test_a_reset_behind_the_end(self):
        """Once its FIN is acknowledged a server has only one number left, and what it answers."""
        for number, count in ((555, 1), (7, 0)):
            found, _, _ = lines(Talk().open().echo().close().up(wait=SECOND).down(RST, seq=number).save(self.folder))
            self.assertEqual(sum(line["kind"] == "reset with a wrong number" for line in found), count, found)

    def test_windows_that_are_not_probed(self):
        """By how long they are closed; where the capture ends, it isn't known whether text waits."""
        closed = lambda wait: Talk().open().up(ACK | PSH, b"hello", window=0, mark=True).down().up(wait=int(wait * SECOND)).down(ACK | PSH, b"hello").up()
        until_the_end = Talk().open().up(ACK | PSH, b"hello", window=0, mark=True).down().up(window=0, wait=SECOND * 70)
        for talk, verdict in ((closed(2), None), (closed(59), "unjudged"), (closed(61), "MUST"), (until_the_end, "unjudged")):
            for words in ((), ("--alone",)):
                found, _, _ = lines(talk.save(self.folder), *words)
                self.assertEqual([(line["verdict"], line["frame"]) for line in found if line["kind"] == "window not probed"], [(verdict, talk.marked)] * bool(verdict))

    def test_the_timeout_that_is_early(self):
        """Its frame is named, and not that of the last one."""
        talk = Talk().open().up(ACK | PSH, b"hello").down(ACK | PSH, b"hello").down(ACK | PSH, b"hello", seq=1, wait=SECOND).down(
            ACK | PSH, b"hello", seq=1, wait=SECOND // 5, mark=True).down(ACK | PSH, b"hello", seq=1, wait=SECOND * 3).up()
        found, _, _ = lines(talk.save(self.folder))
        self.assertEqual([(line["frame"], line["captured"]) for line in found if line["kind"] == "sent again early"], [(talk.marked, "after 200 ms")])

    def test_what_a_gap_lacks(self):
        """What isn't captured is told of the side whose it is, and how much; nothing else is made of it."""
        of = lambda found, side: {line["kind"]: line["captured"] for line in found if line["side"] == side and line["verdict"] in GRAVE and not line["why"]}
        found, _, _ = lines(Talk().open().up(ACK | PSH, b"hello").up(ack=6).up(ACK | PSH, b"world!", ack=6, wait=50_000).down(ACK | PSH, b"world!", seq=6).up(ack=12).save(self.folder))
        self.assertEqual(of(found, "server"), {"text isn't captured": "all but 5 bytes of the server's text, which the client acknowledged"})
        self.assertEqual(of(found, "client"), {"acknowledged what isn't captured": "all but 5 bytes of the server's text, from 1 on"})
        found, _, _ = lines(Talk().open().down(ACK | PSH, b"hello", ack=6).up(seq=6).up(ACK | PSH, b"world!", seq=6, wait=50_000).down(ACK | PSH, b"world!", ack=12).up(seq=12).save(self.folder))
        self.assertEqual({kind: said for kind, said in of(found, "server").items() if kind != "parts"},
                         {"acknowledged what isn't captured": "all but 5 bytes of the client's text, from 1 on"})
        self.assertEqual(of(found, "client"), {"text isn't captured": "all but 5 bytes of the client's text, which the server acknowledged"})
        self.assertNotIn("text", {line["kind"] for line in found})

    def test_text_in_a_syn(self):
        """It's captured, and no gap is in it, whether the server takes it or it goes again."""
        for name in ("text in a SYN, which the server takes", "text in a SYN, which goes again"):
            found, _, _ = lines(CONTROLS[name]().save(self.folder))
            self.assertLessEqual({line["kind"] for line in found if line["verdict"] in GRAVE}, {"parts"}, found)

    def test_a_client_at_a_served_port(self):
        """A client's port of 7 or 9 makes a client of neither server."""
        for port in (7, 9):
            talk = Talk().open().echo(reserved=4, mark=True).close()
            found, summary, _ = lines(talk.save(self.folder, changed=lambda datagram: at_port(datagram, port, (4_000,))))
            self.assertEqual([(line["kind"], line["frame"]) for line in found], [("reserved bits", talk.marked)])
            self.assertEqual((summary["connections"], summary["compared"]), (1, 1))

    def test_an_end_that_is_told_later(self):
        """An acknowledgement beyond FIN, which came before FIN."""
        talk = Talk().open().up(ACK | PSH, b"hello").down(ACK | PSH, b"hello", ack=500, mark=True).up().close()
        found, _, _ = lines(talk.save(self.folder))
        self.assertEqual([(line["kind"], line["frame"]) for line in found if line["verdict"] == "MUST"], [("acknowledged what wasn't sent", talk.marked)])

    def test_a_capture_out_of_order(self):
        found, _, _ = lines(turned(Talk().open().echo().close()).save(self.folder))
        self.assertEqual([line["captured"] for line in found if line["kind"] == "no answer"], ["SYN,ACK stands before its SYN: the capture is out of order"])

    def test_gaps_make_unjudged(self):
        """Where the capture lacks a text, a late acknowledgement breaks no MUST: the one that was in time may be missing too."""
        late = lambda talk: talk.up(ACK | PSH, b"hello").down(ACK | PSH, b"hello", wait=SECOND * 7 // 10).up()
        for talk, verdict in ((late(Talk().open()), "MUST"), (late(Talk().open()).up(ACK | PSH, b"world").up(ack=11), "unjudged")):
            found, _, status = lines(talk.save(self.folder))
            self.assertEqual(next(line["verdict"] for line in found if line["kind"] == "acknowledged too late"), verdict)
            self.assertEqual(status, int(verdict == "MUST"))


def large(size, room, piece=1_448):
    """An echo of so many bytes by a server with more room than sqrun: the client fills it before it reads, again and again."""
    talk = Talk(asked=MSS + SCALED, offered=MSS + SCALED, window=65_535, room=room >> 7)
    talk.up(SYN, options=talk.asked).down(SYN | ACK, options=talk.offered, window=65_535).up()
    text = bytes(range(256)) * (piece // 256 + 1)
    while talk.mine + piece <= size + 1:
        pieces = min(room, size + 1 - talk.mine) // piece
        for n in range(pieces):
            talk.up(ACK, text[:piece], wait=10)
            if n % 2:
                talk.down(wait=10)
        for n in range(pieces):
            talk.down(ACK, text[:piece], wait=10)
            if n % 2:
                talk.up(wait=10)
        talk.up(wait=10)
    return talk.close()


class Parting(unittest.TestCase):
    """Nothing is compared behind the segment that the reference can't follow, and nothing of the service is judged where the capture ends first."""

    def setUp(self):
        program()
        folder = tempfile.TemporaryDirectory()
        self.addCleanup(folder.cleanup)
        self.folder = Path(folder.name)

    def parted(self, path, *words):
        found, summary, status = lines(path, *words)
        line = next(line for line in found if line["kind"] == "parts")
        self.assertEqual([line["kind"] for line in found if line["verdict"] in ("MUST", "SHOULD")], [])
        self.assertEqual((status, summary["parted"]), (0, 1))
        return line["frame"], summary["not_compared"], {line["kind"] for line in found if line["verdict"] == "service"}

    def test_an_echo_into_more_room_than_sqrun_has(self):
        """By docs/TCP.md sqrun keeps 65,535 bytes that it is to send and 1,048,576 that it received: they part at the first text beyond, before which stand three segments of
        the handshake and an acknowledgement of every second text."""
        talk = large(4_000_000, 3 << 20)
        path = talk.save(self.folder)
        frame, left, service = self.parted(path)
        before = (65_535 + 1_048_576) // 1_448
        self.assertEqual(frame, 3 + before + before // 2 + 1)
        self.assertEqual((left, service), (100 * (len(talk.records) - frame + 1) // len(talk.records), set()))
        text = called("--sqrun", program(), "--each", path)[1]
        self.assertIn(f"1 parts from the reference, {left} % not compared", text)
        self.assertIn(f"parts at frame {frame}, ", text)
        self.assertNotIn("ESTABLISHED", text)

    def test_half_a_capture(self):
        """Every capture that is stopped while a server works: what it would have sent next is no difference."""
        talk = large(400_000, 100_000)
        for part in (50, 100, 150, 300):
            write(self.folder / "half.pcap", talk.records[:part], 101)
            found, summary, status = lines(self.folder / "half.pcap")
            self.assertEqual([line for line in found if line["verdict"] in ("MUST", "SHOULD", "service")], [])
            self.assertEqual((status, summary["unfinished"]), (0, int(any(line["kind"] == "capture ends first" for line in found))))
        write(self.folder / "half.pcap", talk.records[:100], 101)
        self.assertEqual(lines(self.folder / "half.pcap")[1]["unfinished"], 1)

    def test_a_capture_that_is_cut(self):
        path = Talk().open().echo().up(ACK | PSH, b"hello").down().save(self.folder)
        path.write_bytes(path.read_bytes() + bytes(9))
        status, text, _ = called("--sqrun", program(), path)
        self.assertEqual(status, 0)
        self.assertIn("the last record is cut", text)
        self.assertIn("capture ends first", text)

    def test_a_quiet_server_has_ended(self):
        """A second of silence, and the missing echo is the server's own."""
        talk = Talk().open().echo().up(ACK | PSH, b"hello").down()
        for wait, verdict in ((SECOND // 2, "capture ends first"), (2 * SECOND, "length of the text")):
            found, _, _ = lines(talk.then(wait).save(self.folder))
            self.assertIn(verdict, {line["kind"] for line in found})

    def test_http(self):
        """As echo, the first byte differs, and the client follows the other server; as discard, it follows a text that discard never sends."""
        answer = b"HTTP/1.1 200 OK\r\nContent-Length: 2000\r\n\r\n" + b"x" * 1_400
        talk = Talk(80).open().up(ACK | PSH, b"GET / HTTP/1.1\r\n\r\n").down(ACK, answer).up(mark=True).down(ACK | PSH, b"x" * 600).up().close()
        for service, found in (("7", {"text"}), ("9", {"text"})):
            frame, left, kinds = self.parted(talk.save(self.folder), "--port", f"80={service}")
            self.assertEqual((frame, left, kinds), (talk.marked, 100 * 6 // 11, found))


class Recorded(unittest.TestCase):
    def setUp(self):
        program()
        folder = tempfile.TemporaryDirectory()
        self.addCleanup(folder.cleanup)
        self.folder = Path(folder.name)

    def test_sqrun_beside_itself(self):
        """Where the captured server is sqrun, nothing differs."""
        for path in captures():
            with self.subTest(path.name):
                report = output(program().split() , path.read_bytes())
                (self.folder / "a.report").write_bytes(report)
                (self.folder / "self.pcap").write_bytes(output([TOOLS / "sqpcap", self.folder / "a.report", "--capture", path]))
                found, summary, _ = lines(self.folder / "self.pcap")
                # The clients answered another server: they send options that sqrun never offered.
                self.assertEqual([line for line in found if line["side"] == "server"], [])
                self.assertLessEqual({line["kind"] for line in found}, {"timestamps unasked", "selective acknowledgements unasked"})
                self.assertEqual(summary["compared"], summary["connections"])

    def test_real_servers_break_no_must(self):
        for path in recorded():
            with self.subTest(path.name):
                found, summary, status = lines(path)
                self.assertEqual((status, summary["must"]), (0, 0), [line for line in found if line["verdict"] == "MUST"])
                self.assertTrue(found)

    def test_nor_where_the_wire_spoils_bits(self):
        """The same captures with bytes changed behind the Ethernet header, few or many, as a bad wire would."""
        rnd = random.Random(5)
        for path in recorded():
            for share in (0.005, 0.03):
                with self.subTest(path.name, share=share):
                    (self.folder / "spoilt.pcap").write_bytes(spoilt(rnd, path, share))
                    found, summary, _ = lines(self.folder / "spoilt.pcap")
                    self.assertEqual(summary["must"], 0, [line for line in found if line["verdict"] == "MUST"])

    def test_records_left_out_and_neighbours_that_changed_places(self):
        """The same captures without some of their records, as of a capture that couldn't keep up; and noted by two processors."""
        rnd = random.Random(6)
        for path in recorded():
            for change, share in ((fewer, 0.005), (fewer, 0.02), (fewer, 0.05), (disordered, 0.05)):
                with self.subTest(path.name, change=change, share=share):
                    (self.folder / "changed.pcap").write_bytes(change(rnd, path, share))
                    found, summary, _ = lines(self.folder / "changed.pcap")
                    self.assertEqual(summary["must"], 0, [line for line in found if line["verdict"] == "MUST"])

    def test_what_tshark_says_of_them(self):
        """Options of SYN,ACK, sizes of texts and late acknowledgements are those that tshark shows."""
        need("tshark")
        for path in recorded():
            with self.subTest(path.name):
                found, _, _ = lines(path)
                theirs = Dissected(path)
                for line in found:
                    ends = line["ends"].split(" ")
                    if line["kind"] in OPTIONS and line["verdict"] == "choice":
                        self.assertEqual(theirs.option(ends, line["kind"]), line["captured"], line)
                    if line["kind"] == "boundaries" and theirs.in_order(ends):
                        self.assertIn(", ".join(map(str, theirs.sizes(ends)[:6])), line["captured"])
                    if line["kind"] == "acknowledged later":
                        most = float(re.search(r"and ([\d.]+) ms at most", line["captured"])[1])
                        # A text above a gap waits for what is missing, which isn't the server's delay.
                        self.assertLessEqual(most, max(theirs.waits(ends)) + 1)
                        if not any(row["tcp.analysis.retransmission"] for row in theirs.of(ends[::-1])):
                            self.assertAlmostEqual(most, max(theirs.waits(ends)), delta=1)

    def test_the_servers_differ_as_their_stacks_do(self):
        """lwIP offers a scale of 1 and delays acknowledgements, 4.4BSD's TCP has no scale; neither permits selective acknowledgements."""
        scales = {}
        for path in recorded():
            found, _, _ = lines(path)
            scales[path.name] = {line["captured"] for line in found if line["kind"] == "window scale"}
            if path.name.startswith(("lwip", "slirp")):
                self.assertEqual([line for line in found if line["kind"] in ("selective acknowledgements", "timestamps")], [])
        self.assertEqual((scales["lwip.pcap.gz"], scales["slirp.pcap.gz"], scales["echo_short.pcap"]), ({"1"}, {"none"}, {"7"}))

    def test_the_example(self):
        """What tshark shows of examples/echo_short.pcap: Linux answers the first text by an ACK and an echo of its own."""
        found, summary, _ = lines(TOP / "examples" / "echo_short.pcap")
        apart = {line["connection"]: line["frame"] for line in found if line["kind"] == "acknowledged apart"}
        self.assertEqual(apart, {0: 7, 1: 17, 2: 32})
        self.assertEqual({(line["kind"], line["captured"], line["sqrun"]) for line in found if line["kind"] in ("window scale", "timestamps")},
                         {("window scale", "7", "5"), ("timestamps", "yes", "none")})
        self.assertEqual([line["connection"] for line in found if line["kind"] == "FIN"], [2])
        self.assertEqual(summary["connections"], 4)


OPTIONS = {"maximum segment size": "tcp.options.mss_val", "window scale": "tcp.options.wscale.shift", "selective acknowledgements": "tcp.options.sack_perm",
           "timestamps": "tcp.options.timestamp.tsval"}


def recorded():
    """Captures of real servers: those of all tools, and of other implementations of TCP."""
    return captures() + sorted((Path(__file__).resolve().parent / "recorded").glob("*.pcap.gz"))


def whole(path):
    return gzip.decompress(path.read_bytes()) if path.suffix == ".gz" else path.read_bytes()


def cut(data):
    """The header of a capture, and its records."""
    out, at = [], 24
    while at + 16 <= len(data):
        end = at + 16 + int.from_bytes(data[at + 8:at + 12], "little")
        out.append(data[at:end])
        at = end
    return data[:24], out


def fewer(rnd, path, share):
    """The capture without this share of its records."""
    head, records = cut(whole(path))
    return head + b"".join(record for record in records if rnd.random() >= share)


def disordered(rnd, path, share):
    """The capture where this share of its records stands before the one before it, if they are of about one time."""
    head, records = cut(whole(path))
    time = lambda record: SECOND * int.from_bytes(record[:4], "little") + int.from_bytes(record[4:8], "little")
    for n in range(1, len(records)):
        if rnd.random() < share and time(records[n]) - time(records[n - 1]) < 1_000:
            records[n - 1:n + 1] = records[n], records[n - 1]
    return head + b"".join(records)


def spoilt(rnd, path, share):
    """The capture with a byte changed in this share of its packets."""
    data = bytearray(whole(path))
    at = 24
    while at + 16 <= len(data):
        size = int.from_bytes(data[at + 8:at + 12], "little")
        if rnd.random() < share and size > 14:
            data[at + 16 + rnd.randrange(14, size)] ^= 1 << rnd.randrange(8)
        at += 16 + size
    return bytes(data)


class Dissected:
    """What tshark shows of a capture's segments."""

    def __init__(self, path):
        names = ("ip.src", "tcp.srcport", "ip.dst", "tcp.dstport", "tcp.flags", "tcp.len", "tcp.ack", "tcp.nxtseq", "frame.time_epoch",
                 "tcp.analysis.retransmission", "tcp.analysis.out_of_order", *OPTIONS.values())
        fields = [word for name in names for word in ("-e", name)]
        told = output(["tshark", "-r", path, "-Y", "tcp", "-T", "fields", "-E", "occurrence=f", *fields]).decode()
        self.rows = [dict(zip(names, line.split("\t"))) for line in told.splitlines()]

    def of(self, ends):
        """The segments from the server of these ends."""
        client, server = (end.rpartition(":") for end in ends)
        wanted = server[0], server[2], client[0], client[2]
        return [row for row in self.rows if (row["ip.src"], row["tcp.srcport"], row["ip.dst"], row["tcp.dstport"]) == wanted]

    def option(self, ends, kind):
        first = next(row for row in self.of(ends) if int(row["tcp.flags"], 16) & 0x12 == 0x12)
        value = first[OPTIONS[kind]]
        return "none" if not value else value if kind in ("maximum segment size", "window scale") else "yes"

    def in_order(self, ends):
        return not any(row["tcp.analysis.retransmission"] or row["tcp.analysis.out_of_order"] for row in self.of(ends))

    def sizes(self, ends):
        return [int(row["tcp.len"]) for row in self.of(ends) if int(row["tcp.len"])]

    def waits(self, ends):
        """Milliseconds from each text of the client to the first acknowledgement that covers it."""
        number = lambda row, name: int(row[name] or 0)
        answers = [(float(row["frame.time_epoch"]), number(row, "tcp.ack")) for row in self.of(ends)]
        out = []
        for row in self.of(ends[::-1]):
            at, end = float(row["frame.time_epoch"]), number(row, "tcp.nxtseq")
            out += [min((then - at) * 1000 for then, ack in answers if then >= at and ack >= end)] if number(row, "tcp.len") else []
        return out


class Hostile(unittest.TestCase):
    def setUp(self):
        program()
        folder = tempfile.TemporaryDirectory()
        self.addCleanup(folder.cleanup)
        self.folder = Path(folder.name)

    def test_any_segments(self):
        """400 connections of random segments: there is an answer for each, on the page too."""
        rnd = random.Random(8)
        listed = []
        for port in range(2_000, 2_400):
            talk = Talk()
            talk.up(SYN, options=rnd.choice((MSS, MSS + SCALED, b"", STAMPED)))
            for _ in range(rnd.randrange(12)):
                side = rnd.choice((talk.up, talk.down))
                side(rnd.choice((ACK, ACK, ACK | PSH, SYN, SYN | ACK, RST, FIN | ACK, rnd.randrange(256))), rnd.randbytes(rnd.choice((0, 1, 9, 1_000))),
                     wait=rnd.choice((10, 10_000, SECOND, 100 * SECOND)), seq=rnd.choice((None, None, rnd.randrange(-50, 50), rnd.getrandbits(32))),
                     ack=rnd.choice((None, None, rnd.randrange(-50, 50), rnd.getrandbits(32))), window=rnd.choice((None, 0, 1, 65_535)),
                     options=rnd.choice((b"", MSS, rnd.randbytes(8), b"\x05\x00\x01", b"\x03", STAMPED)), reserved=rnd.choice((0, 0, 0, 5)))
            listed += [(at + port, body[:20] + port.to_bytes(2, "big") + body[22:] if body[22:24] == b"\0\7" else
                        body[:22] + port.to_bytes(2, "big") + body[24:]) for at, body in talk.records]
        write(self.folder / "a.pcap", sorted(listed), 101)
        found, summary, _ = lines(self.folder / "a.pcap")
        self.assertEqual(summary["connections"], 400)
        self.assertGreater(len({line["kind"] for line in found}), 25)
        done = subprocess.run([TOOLS / "sqdiff", "--page", "--sqrun", program(), self.folder / "a.pcap"], capture_output=True, text=True)
        self.assertEqual((done.returncode, done.stderr), (1, ""))
        seen = Elements()
        seen.feed(done.stdout)
        self.assertEqual(seen.open, [])

    def test_texts_far_away_take_little(self):
        """One byte at each 2^21 of the numbers: neither time nor memory for what lies between."""
        talk = Talk().open()
        for n in range(2_000):
            talk.down(ACK | PSH, b"x", seq=n << 21)
        path = talk.save(self.folder)
        done = subprocess.run([sys.executable, "-c", MEASURED, TOOLS / "sqdiff", "--json", "--sqrun", program(), path], capture_output=True, text=True, timeout=100)
        self.assertLess(int(done.stderr.split()[-1]), 150_000)
        self.assertIn(done.returncode, (0, 1), done.stderr)


class Shapes(unittest.TestCase):
    def setUp(self):
        program()
        folder = tempfile.TemporaryDirectory()
        self.addCleanup(folder.cleanup)
        self.folder = Path(folder.name)
        self.path = Talk().open().echo(reserved=4).up(ACK | PSH, b"hello").down().down(ACK, b"hello").up().save(self.folder)

    def said(self, *words, status=1):
        done = subprocess.run([TOOLS / "sqdiff", "--sqrun", program(), *words], capture_output=True, text=True)
        self.assertEqual(done.returncode, status, done.stderr)
        return done.stdout if status < 2 else done.stderr

    def test_text(self):
        text = self.said(self.path)
        self.assertIn("10.0.0.1:4000 -> 10.0.0.2:7 (connection 0, echo)", text)
        self.assertRegex(text, r"MUST     reserved bits: frame 5 at [\d.]+ .s: captured: 0100; allowed: 0000 \[RFC 9293, 3\.1\]")
        self.assertRegex(text, r"\Aa MUST is broken 1 time, no SHOULD; 1 connection: 1 differs\n(.*\n)?  MUST     reserved bits: ")
        each = self.said("--each", self.path)
        self.assertRegex(each, r"(?m)^  MUST +reserved bits +1 connection +1 time +RFC 9293, 3\.1$")

    def test_the_first_screen(self):
        """At most ten lines, the gravest first, what is free once; coloured on a terminal alone."""
        listed = []
        for n, story in enumerate(STORIES.values()):
            port = (6_000 + n).to_bytes(2, "big")
            listed += [(at, body[:20] + port + body[22:] if body[22:24] in (b"\0\7", b"\0\11") else body[:22] + port + body[24:]) for at, body in story().records]
        write(self.folder / "all.pcap", sorted(listed), 101)
        text = self.said(self.folder / "all.pcap").splitlines()
        self.assertLessEqual(len(text), 10)
        verdicts = [line.split()[0] for line in text if line.startswith("  ")]
        self.assertEqual(verdicts, sorted(verdicts, key=lambda word: [*VERDICTS[:-1], "and", "choice"].index(word)))
        self.assertEqual(verdicts.count("choice"), 1)
        self.assertNotIn("\x1b", "".join(text))
        words = " ".join(map(str, (TOOLS / "sqdiff", "--sqrun", f"'{program()}'", self.folder / "all.pcap")))
        shown = subprocess.run(["script", "-qec", words, "/dev/null"], capture_output=True, env={**os.environ, "TERM": "xterm"}).stdout.decode().split("\n")
        self.assertLessEqual(len(shown), 11, shown)         # the last one is empty
        self.assertTrue(any("\x1b[31;1mMUST" in line for line in shown))

    def test_equal_connections_are_grouped(self):
        """A thousand connections that differ alike take few lines, and all are counted."""
        listed = []
        for n in range(1_000):
            port = (6_000 + n).to_bytes(2, "big")
            talk = Talk(asked=MSS + SCALED, offered=MSS + SACKED).open().echo(reserved=4 * (n % 10 == 0)).close()
            listed += [(at, body[:20] + port + body[22:] if body[22:24] == b"\0\7" else body[:22] + port + body[24:]) for at, body in talk.records]
        write(self.folder / "many.pcap", sorted(listed), 101)
        text = self.said("--each", self.folder / "many.pcap")
        self.assertLess(len(text.splitlines()), 100)
        self.assertIn("97 more", text)
        self.assertEqual(text.count("reserved bits: frame"), 1)
        page = self.said("--page", self.folder / "many.pcap")
        self.assertEqual(page.count("<section"), 100)
        self.assertIn("900 more aren't listed", page)
        seen = Elements()
        seen.feed(page)
        self.assertLessEqual({link[1:] for link in seen.links}, seen.names)

    def test_csv_has_the_fields_of_json(self):
        found = [json.loads(line) for line in self.said("--json", self.path).splitlines()][:-1]
        rows = list(csv.DictReader(io.StringIO(self.said("--csv", self.path))))
        plain = lambda value: "" if value is None else " ".join(map(str, value)) if isinstance(value, list) else str(value)
        self.assertEqual(rows, [{name: plain(value) for name, value in line.items()} for line in found])

    def test_what_is_alike_is_counted(self):
        text = called("--sqrun", program(), Talk().open().echo().close().save(self.folder, "alike.pcap"))[1]
        self.assertRegex(text, r"\Ano MUST, no SHOULD is broken; 1 connection: 1 is alike\n")
        self.assertNotIn("10.0.0.1", text)

    def test_connections_are_counted_once(self):
        """Not each side and each life of one; and a window that shrinks once is counted once, however long it stays."""
        talk = Talk().open().up(ACK | PSH, b"one", reserved=4).down(ACK | PSH, b"one", reserved=4).up().close().anew(SECOND)
        talk.open().echo(reserved=4).close()
        path = talk.save(self.folder, "lives.pcap")
        found, summary, _ = lines(path)
        self.assertEqual([(line["life"], line["side"]) for line in found], [(0, "server"), (1, "server"), (0, "client")])
        self.assertEqual([(one["connections"], one["times"]) for one in summary["summary"]], [(1, 3)])
        self.assertIn("  MUST     reserved bits (3 times): frame", called("--sqrun", program(), path)[1])
        talk = Talk(9, room=60_000).open()
        for window in (5_000, 5_000, 5_000, 60_000, 59_000, 59_000):
            talk.up(ACK | PSH, b"hello").down(window=window, wait=2_000)
        found, _, _ = lines(talk.save(self.folder, "shrunk.pcap"))
        line = next(line for line in found if line["kind"] == "window shrunk")
        self.assertEqual((line["frames"], line["count"]), ([5, 13], 2))

    def test_the_first_line(self):
        """What is broken, what couldn't be judged, and in what the connections differ."""
        late = Talk().open().up(ACK | PSH, b"hello").down(ACK | PSH, b"hello", wait=SECOND * 7 // 10).up().up(ACK | PSH, b"world").up(ack=11)
        early = Talk().open().up(ACK | PSH, b"hello").down(ACK | PSH, b"hello").down(ACK | PSH, b"hello", seq=1, wait=SECOND // 3).up()
        for talk, words, wanted in ((Talk(room=1_000).open().echo(), (), "no MUST, no SHOULD is broken; 1 connection: 1 differs in what is free"),
                                    (late, (), "no MUST is found broken, no SHOULD; 1 time a MUST can't be judged; 1 connection: 1 differs in what is free or unjudged"),
                                    (early, (), "no MUST is broken, a SHOULD 1 time; 1 connection: 1 differs"),
                                    (early, ("--must",), "no MUST is broken, a SHOULD 1 time; 1 connection: 1 differs"),
                                    (early, ("--alone",), "no MUST is broken, a SHOULD 1 time; 1 judged by the segments alone")):
            path = talk.save(self.folder, "line.pcap")
            self.assertEqual(called("--sqrun", program(), *words, path)[1].splitlines()[0], wanted)
            self.assertIn(f"<p>{wanted}", called("--sqrun", program(), "--page", *words, path)[1].replace("&#x27;", "'"))

    def test_times_for_people(self):
        for us, wanted in ((0, "0 µs"), (999, "999 µs"), (1_000, "1 ms"), (999_400, "999 ms"), (999_600, "1.000 s"), (-600_000, "-600 ms"), (99_999_999, "100.000 s"), (2 * 10 ** 8, "200.0 s")):
            self.assertEqual(seconds(us), wanted)

    def test_the_times_of_frames_are_the_captures(self):
        """Also of a segment that is older than the one before it, which sqrun is told to be of that one's time."""
        talk = texts().up(ACK | PSH, b"hello", wait=-50, mark=True)
        line = next(line for line in lines(talk.save(self.folder, "back.pcap"))[0] if line["kind"] == "not acknowledged")
        self.assertEqual((line["frames"], line["frames_at_us"], line["at_us"]), ([talk.marked], [talk.at], talk.at))

    def test_what_a_rule_allows_is_not_what_sqrun_did(self):
        """Beside what breaks a rule stands what that allows. Where no sqrun ran, and of a client, nothing is said of sqrun."""
        talk = Talk().open().up(ACK | PSH, b"hello", reserved=4).down(ACK | PSH, b"hello").down(ACK | PSH, b"hello", seq=1, wait=SECOND // 3).up().up(ACK | PSH, b"more").down(reserved=4)
        path = talk.then(2 * SECOND).save(self.folder, "rules.pcap")
        found, _, _ = lines(path)
        rules = {line["kind"] for line in found if line["allowed"]}
        self.assertEqual(rules, {"reserved bits", "sent again early"})
        self.assertLessEqual({"acknowledged apart", "length of the text"}, {line["kind"] for line in found if line["sqrun"]})
        self.assertTrue(all(not line["sqrun"] for line in found if line["kind"] in rules or line["side"] == "client"))
        alone = called("--alone", "--each", path)[1]
        self.assertIn("captured: 0100; allowed: 0000", alone)
        self.assertNotIn("sqrun:", alone)
        self.assertIn("<td class=\"long\">allowed: 0000<", called("--sqrun", program(), "--page", path)[1])

    def test_a_capture_with_each_datagram_twice(self):
        """sqrun gets none of the client's copies: nothing differs. Where one alone is doubled, as a wire may do, it gets both."""
        talk = Talk().up(SYN, options=MSS, number=1).down(SYN | ACK, options=MSS, number=2).up(number=3).up(ACK | PSH, b"hello", number=4).down(
            ACK | PSH, b"hello", number=5).up(number=6).up(ACK | FIN, number=7).down(ACK | FIN, number=8).up(number=9)
        talk.records = [(at + later, body) for at, body in talk.records for later in (0, 10)]
        path = talk.save(self.folder, "twice.pcap")
        found, _, status = lines(path)
        self.assertEqual([(line["kind"], line["side"], line["count"]) for line in found], [("captured twice", "server", 3), ("captured twice", "client", 6)])
        self.assertEqual(status, 0)
        self.assertIn("6 segments that the capture has twice left out for sqrun", called("--sqrun", program(), path)[1])
        talk.records = [record for n, record in enumerate(talk.records) if n % 2 == 0 or n in (7, 9)]
        self.assertNotIn("left out", called("--sqrun", program(), talk.save(self.folder, "one.pcap"))[1])

    def test_alike_is_not_the_same(self):
        """Without an identification two resets are two, and two texts of about one time have the same bytes, which may be one datagram."""
        for number in (0, 54_321):              # of all
            talk = Talk().up(SYN, options=MSS).down(SYN | ACK, options=MSS, number=number).up().echo(number=number).down(RST, wait=10, number=number).down(
                RST, seq=6, wait=34, number=number)
            found, _, _ = lines(talk.save(self.folder, "resets.pcap"))
            self.assertEqual([(line["kind"], line["captured"]) for line in found], [("reset", "2 times"), ("state at the end", "LISTEN")])
        talk = Talk().open().up(ACK | PSH, b"hello").down(ACK | PSH, b"hello").down(ACK | PSH, b"hello", seq=1, wait=34).up()
        found, _, _ = lines(talk.save(self.folder, "texts.pcap"))
        self.assertEqual([(line["kind"], line["captured"]) for line in found], [("captured twice", "the same bytes 34 µs later, without an identification")])

    def test_must_alone_and_chosen_connections(self):
        text = self.said("--must", self.path)
        self.assertNotIn("PSH", text)
        self.assertIn("reserved bits", text)
        self.assertIn("there are 1", self.said("--conn", "1", self.path, status=2))

    def test_the_picture_of_the_pages(self):
        """docs/pictures/beside.svg is what --svg draws, but for the note on the program."""
        self.assertEqual((TOP / "docs" / "pictures" / "beside.svg").read_text(), self.said("--svg", "--conn", "1", TOP / "examples" / "echo_short.pcap", status=0))

    def test_kinds(self):
        text = self.said("--kinds", status=0)
        for kind in KINDS.values():
            self.assertRegex(text, rf"(?m)^{kind.verdict} +{re.escape(kind.name)} +{re.escape(kind.section)}$")

    def test_refusals(self):
        self.assertIn("name a capture", self.said(status=2))
        (self.folder / "text").write_text("no capture at all, but text")
        self.assertIn("magic", self.said(self.folder / "text", status=6))

    def test_a_port_turned(self):
        talk = Talk(8080).open().up(ACK | PSH, b"GET").down(ACK | PSH, b"200").up()
        found, _, _ = lines(talk.save(self.folder), "--port", "8080=7")
        self.assertEqual([(line["kind"], line["ends"]) for line in found], [("text", "10.0.0.1:4000 10.0.0.2:8080")])

    def test_a_folder_of_sqshard(self):
        """The folder, its shards together, and the merged report beside its captures give what the captures give."""
        need("parallel")
        path = next(path for path in captures() if path.name == "echo_short.pcap")
        with open(self.folder / "merged", "wb") as out:
            subprocess.run([TOOLS / "sqshard", "run", "--sqrun", program(), "--shard-bytes", "1500", self.folder / "work", path], stdout=out, stderr=subprocess.DEVNULL, check=True)
        right, _, _ = lines(path)
        self.assertEqual(lines(self.folder / "work")[0], right)
        self.assertEqual(lines(self.folder / "work", "--report", self.folder / "merged")[0], right)
        shards = sorted((self.folder / "work" / "shards").iterdir())
        self.assertGreater(len(shards), 2)
        apart = [line for shard in shards for line in lines(shard)[0]]
        self.assertEqual(sorted({line["ends"] for line in apart}), sorted({line["ends"] for line in right}))

    def test_page(self):
        """The page is whole, has an anchor for each link, both servers' arrows, and nothing that runs or is loaded."""
        page = self.said("--page", self.path)
        seen = Elements()
        seen.feed(page)
        self.assertEqual(seen.open, [])
        self.assertLessEqual({link[1:] for link in seen.links}, seen.names)
        self.assertNotIn("script", seen.tags)
        self.assertIn("default-src 'none'", page)
        self.assertIn("Nothing on this page is proved", page)
        self.assertIn("· frame 5", page)
        self.assertEqual(page.count('class="arrow segment '), 2 * 6)
        self.assertEqual(page.count('class="arrow reply'), 4 + 3)

    def test_json_fields_are_documented(self):
        found, summary, _ = lines(self.path)
        told = set(re.findall(r"`(\w+)`", (TOP / "docs" / "TOOLS.md").read_text().split("`--json` gives a line for each kind")[1].split("\n\n")[0]))
        self.assertEqual(set(found[0]) | set(summary), told)

    def test_page_in_a_browser(self):
        need(COMMAND)
        (self.folder / "a.html").write_text(self.said("--page", self.path), encoding="utf-8")
        browser = Browser()
        self.addCleanup(browser.close)
        browser.open(self.folder / "a.html")
        self.assertEqual(browser.complaints(), [])
        box = browser.box("svg.fig")
        self.assertGreater(box["width"], 600)
        self.assertGreater(box["height"], 300)
        # On a phone tables and diagrams scroll by themselves.
        browser.call("Emulation.setDeviceMetricsOverride", width=400, height=800, deviceScaleFactor=2, mobile=True)
        self.assertLessEqual(browser.js("document.documentElement.scrollWidth"), 400)


class Elements(HTMLParser):
    """Tags that are open, and names and links."""

    def __init__(self):
        super().__init__()
        self.open, self.names, self.links, self.tags = [], set(), set(), set()

    def handle_starttag(self, tag, attributes):
        self.tags.add(tag)
        held = dict(attributes)
        self.names |= {held["id"]} if "id" in held else set()
        self.links |= {held["href"]} if "href" in held else set()
        if tag in ("section", "svg", "g", "table", "div", "details"):
            self.open.append(tag)

    def handle_endtag(self, tag):
        if tag in ("section", "svg", "g", "table", "div", "details"):
            assert self.open.pop() == tag


if __name__ == "__main__":
    unittest.main()
