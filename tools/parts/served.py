"""What happened on a connection, in the order in which it was served: segments, times, calls, and the replies to each."""
from contextlib import nullcontext
from pathlib import Path

import capture
import report as reports
from capture import Capture, Segment
from files import MAGICS, SECTION, Refused, standard_in

PLACED = ("A report gives each reply's time and not what it answers. Where several segments have that time, a reply is placed after the one that it "
          "acknowledges: a guess for the eye.")


def load_whole(report_name, capture_names=None, datagrams=True):
    """The report and its capture; without a capture the connections have replies alone.

    A capture is a file, several files, or a folder of sqshard's; see capture.sources. Without `datagrams` the replies' bytes are left out.
    """
    name = "standard input" if report_name == "-" else report_name
    names = [capture_names] if isinstance(capture_names, (str, Path)) else list(capture_names or ())
    try:
        if report_name == "-" and "-" in names:
            raise Refused("standard input is the report, and can't be its capture too", 2)
        with nullcontext(standard_in()) if report_name == "-" else open(report_name, "rb") as lines:
            if lines.peek(4)[:4] in (*MAGICS, SECTION):
                raise Refused(f"{name} is a capture, and a report of it is wanted: `tools/sq --page`, `tools/sq --pcap` and `tools/sqdiff` take captures", 2)
            report = reports.read_lines(lines, name, datagrams)
        if not names:
            return report, Capture(reports.without_capture(report), 0, 0)
        whole = capture.read(names, report.verified(), report.most())
        reports.join(report, whole, name, ", ".join(map(str, names)))
        return report, whole
    except OSError as fault:
        raise Refused(f"{fault.filename or name}: {fault.strerror}") from None


def numbers(words, option, below):
    """`0,3-5` as numbers below the limit."""
    out = []
    for part in words.split(","):
        first, _, last = part.partition("-")
        if not (first.isascii() and first.isdigit() and (not last or last.isascii() and last.isdigit())):
            raise Refused(f"--{option} {words}: not numbers like 0,3-5")
        if int(first) > int(last or first):
            raise Refused(f"--{option} {words}: {part} begins behind its end")
        if int(last or first) >= below:
            raise Refused(f"--{option} {words}: there are {below:,}, numbered from 0")
        out += range(int(first), int(last or first) + 1)
    return sorted(set(out))


def events_of(conn, order):
    """[time, kind, thing, replies] for each act of the order."""
    out, clock = [], 0
    for act in order:
        if isinstance(act, int):
            item = conn.items[act] if act < len(conn.items) else None
            clock = item.at if isinstance(item, Segment) else item if item is not None else clock
            out.append([clock, "segment" if isinstance(item, Segment) else "time", item, []])
        else:
            out.append([clock, "call", act, []])
    return out


def answered(events, at, reply):
    """Which event at or behind `at` this reply answers."""
    while at + 1 < len(events) and (events[at][0] < reply.at or events[at][1] == "time" and events[at][0] == reply.at):
        at += 1
    for n in range(at, len(events)):
        clock, kind, segment, _ = events[n]
        if clock != reply.at:
            break
        if kind == "segment" and (segment.seq + segment.span()) % 2 ** 32 == reply.ack:
            return n
    return at


def rows(conn, served):
    """(time or None, kind, thing) in the order served; replies stand after what they answer."""
    if not conn.items:                  # no capture: the replies alone
        return [(r.at, "reply", r) for r in served.replies]
    events, at = events_of(conn, served.acts()), 0
    for reply in served.replies:
        at = answered(events, at, reply)
        events[at][3].append(reply)
    out = []
    for n, (clock, kind, thing, replies) in enumerate(events):
        if kind != "time":
            out.append((clock, kind, thing))
        for reply in replies:
            out += [(reply.at, "time", reply)] if kind == "time" else []
            out.append((reply.at, "reply", reply))
        if kind == "time" and n == len(events) - 1:
            out.append((None, "end", clock))
    return out
