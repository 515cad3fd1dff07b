"""What a captured server did otherwise than sqrun: both are watched, and what they did is compared."""
from dataclasses import dataclass, replace

from capture import ACK, FIN, PSH, RST, SYN, Segment
from drawing import plural, seconds
from findings import Found
from parting import parting, service_text, told
from segments import MSS, SACK_PERMITTED, SCALE, TIMESTAMP, accepts, copies, opens, option_text, options
from served import rows
from timeseq import lives, near
from watching import LATE, Handshake, Watch, judge_timeouts

MOST_BROKEN = 2_000         # times and records that are looked at of what is no whole segment


@dataclass
class Compared:
    """One life of a connection, with all differences in it."""
    number: int
    life: int
    conn: object
    served: object
    segments: object            # timeseq.Life
    differences: list
    state: str = ""             # where the captured server stands at the end, as far as the capture shows
    trip: int = 0               # microseconds from the SYN to its answer
    parted: object = None       # parting.Parting, where the client leaves the reference
    unfinished: bool = False    # the capture ends while it's at work
    alone = False


def compare(number, conn, served, sums, ending):
    """All lives of a connection, compared. `sums` says which segments have a wrong checksum, `ending` where the capture ends."""
    out, used = [], lives(conn, served)
    ends = [life.client[0].at if life.client else 1 << 63 for life in used[1:]] + [1 << 63]
    spoilt, begin = sums.spoilt.get(conn.tuple, []), 0
    for n, (life, stop) in enumerate(zip(used, ends)):
        found, listed = Found(), in_order(life, rows(conn, served))
        note_broken(conn, begin, stop, found)
        life = heard(life, [s for s in spoilt if begin <= s.at < stop], found)
        card = [s for s in life.server if s.record in sums.card]
        if card:
            found.add("checksums of the card", card[0], f"{len(card)} of {plural(len(life.server), 'segment')}", "none")
        one = Compared(number, n, conn, served, life, [], unfinished=ending.comes_first(life, stop == 1 << 63))
        compare_life(one, found, listed, bool(card), ending.at)
        one.differences = found.differences()
        out.append(one)
        begin = stop
    return out


def note_broken(conn, begin, stop, found):
    """What of this time is no whole segment, and perhaps of this connection. Where there is very much, its time doesn't matter."""
    listed = (conn.broken[:MOST_BROKEN] + conn.shared[:MOST_BROKEN])[:MOST_BROKEN]
    mine = [(at, record) for at, record in zip(listed[::2], listed[1::2]) if begin <= at < stop or len(listed) == MOST_BROKEN]
    if mine:
        at, record = mine[0]
        found.add("not whole in the capture", Segment(at, 0, 0, 0, 0, 0, record=record), "cut short, a fragment, or malformed", "", len(mine))


def heard(life, spoilt, found):
    """The life without what no receiver takes, and without what the capture holds a second time."""
    for s in spoilt:
        found.add("wrong checksum", s, plural(len(spoilt), "segment"), "")
    left_out = {s.record for s in spoilt}
    return replace(life, client=[s for s in life.client if s.record not in left_out],
                   server=once([s for s in life.server if s.record not in left_out], found))


def once(segments, found):
    """The segments without those that the capture holds a second time."""
    left_out = set()
    for s, words in copies(segments):
        found.add("captured twice", s, words, "")
        left_out.add(s.record)
    return [s for s in segments if s.record not in left_out]


def in_order(life, listed):
    """The segments of a life with sqrun's answers, each behind what it answers, from the SYN on that sqrun answered."""
    mine = {id(s) for s in life.client + life.replies}
    out = [thing for _, kind, thing in listed if kind in ("segment", "reply") and id(thing) in mine]
    return out[next((n for n, s in enumerate(out) if opens(s) and s.seq == life.irs), 0):]


def compare_life(one, found, beside, offloaded, until):
    """Finds what differs, and notes the captured server's state at the end. `beside` are the client's segments and sqrun's answers."""
    life = one.segments
    if not life.server:
        found.add("no answer", life.client[0] if life.client else None, "nothing", plural(len(life.replies), "segment"))
        return
    syn = next(filter(opens, life.client), None)
    if syn is None:
        found.add("begins inside", life.client[0] if life.client else None, plural(len(life.server), "segment"), plural(len(life.replies), "segment"))
        return
    stretches = handshakes(life)
    if not stretches:
        one.state = no_syn_ack(life, syn, found)
        return
    ours = next((s for s in life.replies if s.has(SYN)), None)
    beside_us = next((n for n, (part, _) in enumerate(stretches) if part.irs == life.irs), 0)
    found.wire = any(shake.trip >= LATE for _, shake in stretches)
    for n, (part, shake) in enumerate(stretches):
        watch = watched(part, shake, found, by_record(part), offloaded, until)
        compare_handshake(part, shake, found)
        if n == beside_us and ours is not None:
            one.trip = shake.trip
            one.parted = parting(part, shake, Handshake([syn], [ours]))
            beside_reference(one, part, watch, (shake, Handshake([syn], [ours])), beside, found)
    one.state = watch.state
    compare_end(one, watch, found)


def by_record(life):
    return sorted(life.client + life.server, key=lambda s: s.record)


def beside_reference(one, part, watch, shakes, beside, found):
    """Both servers beside each other, up to where the client leaves the reference."""
    shake, our_shake = shakes
    if one.parted:
        found.add("parts", one.parted.segment, told(one.parted), one.parted.reference)
        compare_text(part, watch, service_text(part, one.served.service), found, "acknowledged what isn't captured" not in found.by_kind)
        part = one.parted.before(part)
        if not part.server:
            return
        watch = watched(part, shake, Found(), by_record(part), False, 1 << 63)
        listed = {id(s) for s in part.client + part.replies}
        beside = [s for s in beside if id(s) in listed]
    reference = watched(replace(part, server=part.replies), our_shake, Found(), beside, False, 1 << 63)
    compare_watches(one, part, watch, reference, found)


def handshakes(life):
    """Of each handshake of the captured server what belongs to it, as a life, and the handshake itself.

    A SYN with another number begins a new one; so does one that gets an answer with another number.
    """
    shakes, since, servers = [], {}, {id(s) for s in life.server}       # `since`: by number the SYNs since the last one began
    for s in sorted(life.client + life.server, key=lambda s: s.record):
        if id(s) not in servers:
            if opens(s):
                since.setdefault(s.seq, []).append(s)
        elif accepts(s) and since:
            asked = since.get((s.ack - 1) % 2 ** 32) or next(reversed(since.values()))
            if not shakes or (shakes[-1][0][0].seq, shakes[-1][1].seq) != (asked[0].seq, s.seq):
                shakes.append((asked, s))
                since = {}
    ends = [(asked[0].record, answer.record) for asked, answer in shakes[1:]] + [(1 << 63, 1 << 63)]
    parts = [replace(life, client=[s for s in life.client if asked[0].record <= s.record < client_end],
                     server=[s for s in life.server if answer.record <= s.record < server_end], irs=asked[0].seq)
             for (asked, answer), (client_end, server_end) in zip(shakes, ends)]
    return [(part, handshake(part, answer)) for part, (_, answer) in zip(parts, shakes)]


def handshake(life, answer):
    """What belongs to the handshake whose first answer this is."""
    settled = next((s.at for s in life.client if s.record > answer.record and not opens(s)), None)
    return Handshake([s for s in life.client if opens(s) and s.seq == life.irs], [s for s in life.server if accepts(s) and s.seq == answer.seq], settled)


def watched(life, shake, found, segments, offloaded, until):
    """A server watched from the first segment to the last, and to the capture's end."""
    watch = Watch(life, shake, found, offloaded, until)
    for segment in segments:
        watch.take(segment)
    watch.end()
    return watch


def no_syn_ack(life, syn, found):
    """The state of a server that answered no SYN by SYN,ACK. A reset may answer another segment than the SYN, whatever came before it."""
    answers = [s for s in life.server if s.record > syn.record]
    refusals = [s for s in answers if s.has(RST) and not of_another(s, life.client)]
    if not refusals:
        before = any(accepts(s) and 1 <= near(s.ack, syn.seq) <= syn.span() for s in life.server)
        found.add("no answer", syn, "SYN,ACK stands before its SYN: the capture is out of order" if before else "no SYN,ACK in the capture", "SYN,ACK")
        return ""
    first = refusals[0]
    found.add("SYN refused", first, "reset", "SYN,ACK")
    asked = [s for s in life.client if opens(s) and s.record < first.record]
    if not any(first.has(ACK) and first.seq == 0 and near(first.ack, s.seq) == s.span() for s in asked) and not inside(life, first):
        found.add("reset with a wrong number", first, f"seq {first.seq}" + f", ack {near(first.ack, syn.seq)}" * first.has(ACK), f"seq 0, ack {syn.span()}")
    return "LISTEN"


def of_another(reset, client):
    """Whether the reset answers a segment of the client that is no SYN, as RFC 9293, 3.10.7.1 says."""
    before = (s for s in client if s.record < reset.record and not opens(s))
    return any(reset.seq == s.ack if s.has(ACK) else reset.seq == 0 and reset.has(ACK) and reset.ack == (s.seq + s.span()) % 2 ** 32 for s in before)


def inside(life, segment):
    """Whether the server may know of an older connection, whose numbers the capture hasn't got: then a reset may have any."""
    return any(s.record < segment.record and not s.has(RST) for s in life.server) or not opens(life.client[0])


# The handshake.

NAMED = ((MSS, "maximum segment size"), (SCALE, "window scale"), (SACK_PERMITTED, "selective acknowledgements"), (TIMESTAMP, "timestamps"))


def judge_handshake(life, shake, found):
    """What the answer to a SYN must and must not have."""
    answer = shake.answer
    if not any(1 <= near(answer.ack, syn.seq) <= syn.span() for syn in shake.syns) and not taken(life.client, answer):
        found.add("SYN acknowledged wrongly", answer, f"ack {near(answer.ack, shake.syns[0].seq)}", "ack 1")
    for kind, name in NAMED:
        if kind in (SCALE, TIMESTAMP) and kind in shake.offered and kind not in shake.asked:
            found.add(f"{name} unasked", answer, option_text(kind, shake.offered), "none")
    if SCALE in shake.offered and shake.offered[SCALE][0] > 14:
        found.add("window scale over 14", answer, option_text(SCALE, shake.offered), "at most 14")
    again = [s for s in life.server if s.has(SYN)]
    judge_timeouts(unasked(again, life.client), found)


def compare_handshake(life, shake, found):
    judge_handshake(life, shake, found)
    ours = next((r for r in life.replies if r.has(SYN)), None)
    theirs = options(ours) if ours else {}
    for kind, name in NAMED:
        one, other = option_text(kind, shake.offered), option_text(kind, theirs)
        if one != other:
            found.add(name, shake.answer, one, other)
    again, again_ours = ([s for s in segments if s.has(SYN)] for segments in (life.server, life.replies))
    if len(again) != len(again_ours):
        found.add("SYN,ACK again", again[min(1, len(again) - 1)], times(again), times(again_ours))


def taken(client, answer):
    """Whether the client goes on from the numbers of this answer: then it sent a SYN that the capture hasn't got."""
    return any(s.has(ACK) and not s.has(RST) and s.record > answer.record and s.seq == answer.ack and near(s.ack, answer.seq) >= 1 for s in client)


def unasked(answers, client):
    """The last SYN,ACK that a SYN asked for, and those behind it that a timer sent. One that follows soon answers a SYN that the wire doubled."""
    asked, out = 0, []
    for answer in answers:
        if asked < sum(s.has(SYN) and s.record < answer.record for s in client):
            asked, out = asked + 1, []
        elif out and answer.at - out[-1].at < LATE:
            out = []
        out.append(answer)
    return out


def times(segments):
    """`once`, or how long after the first the others went."""
    if len(segments) < 2:
        return "once" if segments else "never"
    return f"{len(segments)} times, after " + ", ".join(seconds(s.at - segments[0].at) for s in segments[1:6]) + (" .." if len(segments) > 6 else "")


# Both servers beside each other.

def compare_watches(one, life, watch, reference, found):
    if not one.parted:
        compare_text(life, watch, reference.outgoing.stream.whole(), found)
        compare_length(one, watch, reference, found)
    compare_cuts(life, watch, found)
    compare_acknowledgements(life, watch, reference, found)
    compare_windows(watch, reference, found)
    compare_again(life, watch, reference, found)


def compare_text(life, watch, wanted, found, is_whole=False):
    """What the server sent against this text, which is whole or a front of the right one."""
    theirs = watch.outgoing.stream.whole()
    same = next((n for n, (a, b) in enumerate(zip(theirs, wanted)) if a != b), None)
    if same is None and is_whole and len(theirs) > len(wanted):
        same = len(wanted)
    if same is not None:
        first = next((s for s in life.server if s.length and near(s.seq, watch.base) <= same + 1 < near(s.seq, watch.base) + s.length), None)
        found.add("text", first, f"byte {same + 1} on is {theirs[same:same + 8]!r}", f"{wanted[same:same + 8]!r}")


def compare_length(one, watch, reference, found):
    theirs, ours = watch.outgoing.length(), len(reference.outgoing.stream.whole())
    if theirs == ours:
        return
    if one.unfinished and theirs < ours:
        found.add("capture ends first", None, f"{theirs:,} bytes of text so far", f"{ours:,} bytes")
    else:
        found.add("length of the text", None, f"{theirs:,} bytes", f"{ours:,} bytes")


def cuts(segments, base):
    """The new texts of segments, as (first, end)."""
    top, out = 1, []
    for s in segments:
        lo = near(s.seq, base)
        if s.length and not s.has(RST) and lo + s.length > top:
            out.append((lo, lo + s.length, s))
            top = lo + s.length
    return out


def compare_cuts(life, watch, found):
    theirs, ours = cuts(life.server, watch.base), cuts(life.replies, life.iss)
    ends, our_ends = {hi for _, hi, _ in theirs}, {hi for _, hi, _ in ours}
    reach = min(max(ends, default=1), max(our_ends, default=1))
    other = next((s for _, hi, s in theirs if hi <= reach and hi not in our_ends), None)
    if other is None and any(hi <= reach and hi not in ends for hi in our_ends):
        other = theirs[0][2]
    if other is not None:
        found.add("boundaries", other, sizes(theirs), sizes(ours))
    compare_pushes(theirs, ours, found)


def sizes(listed, most=6):
    shown = ", ".join(str(hi - lo) for lo, hi, _ in listed[:most])
    return f"{plural(len(listed), 'segment')} of {shown}{' ..' if len(listed) > most else ''} bytes" if listed else "no text"


def compare_pushes(theirs, ours, found):
    """PSH where both servers end a segment at the same byte."""
    pushed = {hi: s.has(PSH) for _, hi, s in ours}
    for _, hi, s in theirs:
        if pushed.get(hi, s.has(PSH)) != s.has(PSH):
            found.add("PSH", s, "with PSH" if s.has(PSH) else "without PSH", "with PSH" if pushed[hi] else "without PSH")


def compare_acknowledgements(life, watch, reference, found):
    theirs, ours = watch.incoming, reference.incoming
    if theirs.together > ours.together:
        found.add("acknowledged together", theirs.first_together, f"{plural(theirs.together, 'acknowledgement')} of several segments", f"{ours.together}")
    if any(s.length for s in life.replies) and theirs.pure > ours.pure:
        first = next(s for s in life.server if not s.span() and not s.has(RST))
        found.add("acknowledged apart", first, f"{plural(theirs.pure, 'segment')} without text", f"{plural(ours.pure, 'segment')} without text")


def compare_windows(watch, reference, found):
    theirs, ours = ([size for size, _ in side.incoming.windows] for side in (watch, reference))
    if not theirs or not ours:
        return
    if (min(theirs), max(theirs)) != (min(ours), max(ours)):
        found.add("window", None, span(theirs), span(ours))
    if 0 in theirs and 0 not in ours:
        found.add("window closed", next(s for size, s in watch.incoming.windows if size == 0), f"{plural(theirs.count(0), 'time')}", "never")


def compare_again(life, watch, reference, found):
    theirs, ours = watch.outgoing, reference.outgoing
    if len(theirs.again) != len(ours.again):
        found.add("sent again", theirs.again[0] if theirs.again else None, plural(len(theirs.again), "segment") + timed(theirs.again, life),
                  plural(len(ours.again), "segment") + timed(ours.again, life))
    if len(theirs.probes) != len(ours.probes) and theirs.probes:
        found.add("window probed", theirs.probes[0], probed(theirs), probed(ours))


def span(sizes):
    return f"{min(sizes):,} bytes" if min(sizes) == max(sizes) else f"{min(sizes):,} to {max(sizes):,} bytes"


def probed(side):
    if not side.probes:
        return "never"
    closed = [one.by.at for one in side.closed] + ([side.closed_at.at] if side.closed_at else [])
    first = side.probes[0].at
    return f"{plural(len(side.probes), 'time')}, first {seconds(first - max((at for at in closed if at <= first), default=first))} after it closed"


def timed(segments, life):
    if not segments:
        return ""
    begun = life.client[0].at if life.client else segments[0].at
    return ", at " + ", ".join(seconds(s.at - begun) for s in segments[:4]) + (" .." if len(segments) > 4 else "")


def compare_end(one, watch, found):
    """How both servers end. Where the client left the reference, or the capture ends first, only what was sent is told."""
    life, end = one.segments, one.served.end
    theirs, ours = (next((s for s in segments if s.has(FIN)), None) for segments in (life.server, life.replies))
    if one.parted:
        return
    if theirs is not None and theirs.length:
        found.add("FIN with text", theirs, f"with {plural(theirs.length, 'byte')}", "alone" if ours is not None else "no FIN")
    if one.unfinished:
        if theirs is None and ours is not None or watch.state != end and theirs is None:
            found.add("capture ends first", None, f"in {watch.state or 'no state'}", f"in {end}")
        return
    if (theirs is None) != (ours is None):
        found.add("FIN", theirs, "sent" if theirs is not None else "not sent", "sent" if ours is not None else "not sent")
    theirs, ours = ([s for s in segments if s.has(RST)] for segments in (life.server, life.replies))
    if len(theirs) > len(ours):
        found.add("reset", theirs[0], plural(len(theirs), "time"), plural(len(ours), "time"))
    elif len(ours) > len(theirs):
        found.add("no reset", None, plural(len(theirs), "time"), plural(len(ours), "time"))
    if watch.state and watch.state != end and {watch.state, end} != {"TIME-WAIT", "LISTEN"}:
        found.add("state at the end", None, watch.state, end)
