"""What sqdiff found, as text, JSON lines and CSV: the verdicts first, what the standards leave free once, and equal connections together."""
import csv
import io
import json
import shutil
from dataclasses import dataclass, field

from drawing import plural, seconds
from screen import painted
from standards import KINDS, VERDICTS

LINES = 10                  # of the first screen
GROUPS = 25                 # of connections that differ alike
SHOWN = 3                   # connections that are named of a group
COLOURS = {"MUST": "31;1", "SHOULD": "33;1", "service": "36", "choice": "2", "unjudged": "2"}
FIELDS = ("connection", "life", "ends", "side", "kind", "verdict", "section", "count", "frame", "frames", "at_us", "frames_at_us", "captured", "sqrun", "allowed", "why")


@dataclass
class One:
    """A life of a connection, or one side of it, with its differences, whatever found them."""
    number: int | None          # in the report
    life: int
    ends: str
    side: str                   # whose: of the captured server or the client
    differences: list
    begun: int                  # microseconds
    parted: object = None       # parting.Parting
    service: str = ""
    alone: bool = False         # judged by its segments, without the reference

    def name(self):
        told = [f"connection {self.number}"] * (self.number is not None) + [f"life {self.life + 1}"] * (self.life > 0) + [self.service] * bool(self.service)
        return self.ends.replace(" ", " -> ") + f" ({', '.join([*told, 'the client'] if self.side == 'client' else told or ['the server'])})"


@dataclass
class Line:
    """A kind over all connections."""
    kind: object
    verdict: str
    ends: set = field(default_factory=set)          # of the connections that have it, in whatever life and on whatever side
    times: int = 0
    first: list = field(default_factory=list)       # some of the (One, Difference) that have it

    @property
    def connections(self):
        return len(self.ends)


@dataclass
class Outcome:
    """How many there are, and what became of them."""
    connections: int = 0            # that the reference served
    compared: int = 0               # of these, those with a segment of the server
    differ: int = 0                 # in what the standards ask for, or the service
    free: int = 0                   # in what is free or unjudged alone
    vague: bool = False             # of these some in what is unjudged
    judged: int = 0                 # others, by their segments alone
    parted: int = 0
    left: int = 0                   # of 100 segments of all compared, those behind a parting
    unfinished: int = 0
    must: int = 0                   # how often one is broken
    should: int = 0
    doubts: int = 0                 # how often a MUST can't be judged

    def words(self):
        """In a line."""
        out = [self.broken()] + [f"{plural(self.doubts, 'time')} a MUST can't be judged"] * bool(self.doubts)
        if self.connections or not self.judged:
            out.append(plural(self.connections, "connection") + ": " * bool(self.connections) + self.differing())
        if self.judged:
            out.append(f"{self.judged:,} {'others ' if self.connections else ''}judged by the segments alone")
        if self.parted:
            out.append(f"{self.parted:,} {'parts' if self.parted == 1 else 'part'} from the reference, {self.left} % not compared")
        if self.unfinished:
            out.append(f"the capture ends before {self.unfinished:,}")
        return "; ".join(out)

    def broken(self):
        if not (self.compared or self.judged):
            return "nothing is compared"
        if not (self.must or self.should or self.doubts):
            return "no MUST, no SHOULD is broken"
        must = f"a MUST is broken {plural(self.must, 'time')}" if self.must else "no MUST is found broken" if self.doubts else "no MUST is broken"
        return must + (f", a SHOULD {plural(self.should, 'time')}" if self.should else ", no SHOULD")

    def differing(self):
        verb = lambda n, one, many: f"{n:,} {one if n == 1 else many}"
        alike = self.connections - self.differ - self.free
        return ", ".join([verb(self.differ, "differs", "differ")] * bool(self.differ) + [verb(self.free, "differs", "differ") + " in what is free" + " or unjudged" * self.vague] * bool(self.free)
                         + [verb(alike, "is alike", "are alike")] * bool(alike))


def summed(listed):
    """The kinds that occur, the gravest first."""
    out = {}
    for one in listed:
        for difference in one.differences:
            line = out.setdefault((difference.kind, difference.verdict), Line(KINDS[difference.kind], difference.verdict))
            line.ends.add(one.ends)
            line.times += difference.count
            if len(line.first) < 5:
                line.first.append((one, difference))
    order = list(KINDS)
    return sorted(out.values(), key=lambda line: (VERDICTS.index(line.verdict), order.index(line.kind.name)))


def times(summary, verdict, rule=None):
    """How often the verdict is said, or only of rules that are this."""
    return sum(line.times for line in summary if line.verdict == verdict and rule in (None, line.kind.verdict))


def where(one, d):
    return f"frame {d.frame} at {seconds(max(0, d.at - one.begun))}: " if d.frame else ""


def allowed(d):
    """What the rule allows that this is against."""
    return d.reference if KINDS[d.kind].verdict in ("MUST", "SHOULD") else ""


def of_sqrun(one, d):
    """What sqrun did, where it ran and is compared."""
    return "" if one.alone or allowed(d) else d.reference


def sides(one, d):
    return f"captured: {d.captured}" + f"; sqrun: {of_sqrun(one, d)}" * bool(of_sqrun(one, d)) + f"; allowed: {allowed(d)}" * bool(allowed(d)) + f"; unjudged, since {d.why}" * bool(d.why)


def free(summary):
    """What the standards leave free, in a line."""
    names = [line.kind.name + (f" ({line.connections:,})" if line.connections > 1 else "") for line in summary if line.verdict == "choice"]
    return [f"  choice   {', '.join(names)}"] if names else []


def grave(line, paint, width):
    """A line of the first screen: the verdict, what, how often, and where first."""
    one, d = line.first[0]
    many = f" ({plural(line.times, 'time')}" + (f" in {plural(line.connections, 'connection')}" if line.connections > 1 else "") + ")" if line.times > 1 else ""
    text = f"{d.kind}{many}: {where(one, d)}{sides(one, d)} [{line.kind.section}] {one.name()}"
    return f"  {paint(f'{line.verdict:8}', COLOURS[line.verdict])} {cut(text, width - 11)}"


def cut(text, width):
    """As much as a line holds."""
    return text if len(text) <= width else text[:max(0, width - 2)] + ".."


def first_screen(outcome, summary, notes, terminal, more):
    """At most ten lines: what came out, the gravest kinds, what is free, and how to see more. `more` says whether there is more to see."""
    paint = painted(terminal)
    colour = "31;1" if outcome.must else "33;1" if outcome.doubts else "32;1" if outcome.compared or outcome.judged else ""
    out = [paint(outcome.words(), colour), *["; ".join(notes)] * bool(notes)]
    told, rest = [line for line in summary if line.verdict != "choice"], free(summary)
    room = LINES - len(out) - len(rest) - more
    shown = told if len(told) <= room else told[:room - 1]
    width = shutil.get_terminal_size().columns if terminal else 1 << 16
    out += [grave(line, paint, width) for line in shown]
    out += [f"  and {plural(len(told) - len(shown), 'kind')} more"] * (len(shown) < len(told))
    return [*out, *(paint(cut(line, width), COLOURS["choice"]) for line in rest), *["--each: by connection; --page: both servers beside each other; --kinds: what each word means"] * more]


def by_connection(listed, summary, paint=lambda text, _: text):
    """What differs, by connection: what is free once for all, and those that differ alike together."""
    out = [f"  {paint(f'{line.verdict:8}', COLOURS[line.verdict])} {line.kind.name:42} {plural(line.connections, 'connection'):16} {plural(line.times, 'time'):12} {line.kind.section}" for line in summary]
    for line in (line for line in summary if line.verdict == "choice"):
        one, d = line.first[0]
        out.append(f"  choice   {d.kind}: {where(one, d)}{sides(one, d)} ({one.name()}{' and others' * (line.connections > 1)})")
    groups = {}
    for one in listed:
        told = tuple(sorted({(d.kind, d.verdict) for d in one.differences if d.verdict != "choice"}))
        groups.setdefault((told, one.side), []).append(one)
    groups = sorted(((key, ones) for key, ones in groups.items() if key[0]), key=lambda group: min(VERDICTS.index(verdict) for _, verdict in group[0][0]))
    for _, ones in groups[:GROUPS]:
        out += ["", *group_lines(ones, paint)]
    return out + [f"and {plural(len(groups) - GROUPS, 'group')} more: --json has all"] * (len(groups) > GROUPS)


def group_lines(ones, paint):
    """Connections that differ alike, with the first one's differences."""
    rest = [f"{len(ones) - SHOWN:,} more"] * (len(ones) > SHOWN)
    out = [", ".join([one.name() for one in ones[:SHOWN]] + rest) + (f"; parts at frame {ones[0].parted.segment.record + 1}, {ones[0].parted.left} % not compared" if ones[0].parted else "")]
    for d in sorted(ones[0].differences, key=lambda d: VERDICTS.index(d.verdict)):
        if d.verdict != "choice":
            times = f" ({d.count:,} times)" if d.count > 1 else ""
            out.append(f"  {paint(f'{d.verdict:8}', COLOURS[d.verdict])} {d.kind}{times}: {where(ones[0], d)}{sides(ones[0], d)} [{KINDS[d.kind].section}]")
    return out


def rows(listed):
    """A row for each difference, by the names of FIELDS."""
    for one in listed:
        for d in one.differences:
            kind = KINDS[d.kind]
            yield {"connection": one.number, "life": one.life, "ends": one.ends, "side": one.side, "kind": d.kind, "verdict": d.verdict, "section": kind.section,
                   "count": d.count, "frame": d.frame, "frames": d.frames, "at_us": d.times[0] if d.times else d.at, "frames_at_us": d.times, "captured": d.captured, "sqrun": of_sqrun(one, d), "allowed": allowed(d), "why": d.why}


def last_row(outcome, summary):
    """The last line of JSON."""
    return {"connections": outcome.connections, "compared": outcome.compared, "judged": outcome.judged, "parted": outcome.parted, "not_compared": outcome.left,
            "unfinished": outcome.unfinished, "must": outcome.must,
            "summary": [{"kind": line.kind.name, "verdict": line.verdict, "section": line.kind.section, "rule": line.kind.rule,
                         "connections": line.connections, "times": line.times} for line in summary]}


def flat(value):
    """What stands in a field: a list of numbers is joined by blanks, one of anything else is JSON."""
    if not isinstance(value, list):
        return value
    return " ".join(map(str, value)) if all(isinstance(one, int) for one in value) else json.dumps(value)


def as_csv(names, listed):
    """The rows as CSV (RFC 4180), with a line of names; a list is joined by blanks."""
    out = io.StringIO()
    writer = csv.DictWriter(out, names)
    writer.writeheader()
    for row in listed:
        writer.writerow({name: flat(value) for name, value in row.items()})
    return out.getvalue()
