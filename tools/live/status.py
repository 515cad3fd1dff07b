"""What a launcher knows of its server, told over a socket to whoever asks: `tools/sqlive status`."""
import contextlib
import os
import re
import socket
import threading
import time
from pathlib import Path

import orders
import telling
from meanings import meaning_of


def places(device):
    """Where the socket may be: for root and for a service, and for a user. No other user may write there. Networks may have devices of equal names."""
    users = os.environ.get("XDG_RUNTIME_DIR") or f"/run/user/{os.getuid()}"
    return [Path(folder) / "sqlive" / f"{device}-{os.stat('/proc/self/ns/net').st_ino}" for folder in ("/run", users)]


def bind_for_all(listens, place):
    """Binds a socket that every user may ask. Its mode is set at once, not later by its name: another file could have that by then."""
    mask = os.umask(0o111)
    try:
        listens.bind(str(place))
    finally:
        os.umask(mask)


def listening(device):
    """The socket; None where there is no place for it, and that is told. Whoever has the device may take its name."""
    for place in places(device):
        listens = socket.socket(socket.AF_UNIX)
        try:
            place.parent.mkdir(exist_ok=True)
            place.unlink(missing_ok=True)
            bind_for_all(listens, place)
            listens.listen()
            return listens
        except OSError as error:
            listens.close()
            why = error
    telling.tell(f"it serves without status: {why}")
    return None


@contextlib.contextmanager
def told(device, *who):
    """Gives all facts that these know to each who asks, a fact a line, as a context."""
    def answer():
        while True:
            with listens.accept()[0] as asks:
                try:
                    facts = {fact: value for knows in who for fact, value in knows.facts().items()}
                    asks.sendall("".join(f"{fact} {value}\n" for fact, value in facts.items()).encode())
                except (OSError, IndexError):
                    pass  # who asked is gone, or the server is, or it has ended and isn't waited for yet

    listens = listening(device)
    if listens:
        threading.Thread(target=answer, daemon=True).start()
    try:
        yield
    finally:
        if listens:
            Path(listens.getsockname()).unlink(missing_ok=True)


def facts_of(device):
    """The facts of the server on a device; None where no launcher tells any."""
    for place in places(device):
        with socket.socket(socket.AF_UNIX) as asks:
            asks.settimeout(30)
            try:
                asks.connect(str(place))
                return dict(line.split(" ", 1) for line in asks.makefile().read().splitlines()) or None
            except OSError:
                continue
    return None


# The facts that may fall, or say what is; all others count.
GAUGES = ("open", "most_memory_kb", "rings", *orders.GAUGES)
# A fact of one ring, or of the answers of one status: the name that all such have, and what tells them apart.
LABELLED = re.compile("(?P<ring>ring)_(?P<which>[0-9]+)_(?P<way>in|out)|(?P<answers>answers)_(?P<status>[0-9]+|other)")


def exposition(device, facts):
    """The facts in the text format of Prometheus: all lines of a name stand together. What the launcher saw is told from the server's own count of it."""
    samples, on = {}, device.replace("\\", r"\\").replace('"', r"\"")
    for fact, value in facts.items():
        found = LABELLED.fullmatch(fact)
        if not found:
            name, label = f"seen_{fact}" if f"{fact}_total" in facts else fact, ""
        elif found["ring"]:
            name, label = f"ring_{found['way']}", f',ring="{found["which"]}"'
        else:
            name, label = "answers_by_status", f',status="{found["status"]}"'
        samples.setdefault(name, []).append(f'sqlive_{name}{{device="{on}"{label}}} {value}\n')
    return "".join(f"# HELP sqlive_{name} {meaning_of(name)}\n# TYPE sqlive_{name} {'gauge' if name in GAUGES else 'counter'}\n{''.join(lines)}"
                   for name, lines in samples.items())


def tell(device, follow, prometheus=False):
    """What the server on a device met so far: a fact a line, or in the format of Prometheus, or to follow it a line a second until it ends. Why that
    isn't all, or None."""
    facts = facts_of(device) or {}
    try:
        return shown(device, facts, follow, prometheus)
    except BrokenPipeError:
        return None  # who reads has enough, as `head` does
    except OSError as error:
        return f"sqlive: standard output: {error.strerror}"


def shown(device, facts, follow, prometheus):
    """Prints these facts, and follows them. Why they aren't all, or None."""
    if prometheus:
        telling.write(exposition(device, facts))
    elif not follow:
        telling.write("".join(f"{fact} {value}\n" for fact, value in facts.items()))
    why = why_not_all(device, facts)
    with contextlib.suppress(KeyboardInterrupt):
        while follow and not prometheus and facts:
            time.sleep(1)
            before, facts = facts, facts_of(device)
            if facts:
                telling.write(f"{line_of_second(before, facts)}\n")
    return why


def why_not_all(device, facts):
    """Why there are no facts, or none of the server's own; None where there are."""
    if not facts:
        return f"sqlive: no tools/sqlive runs on {device} in this network namespace"
    return None if orders.GAUGES[0] in facts else "sqlive: the server told no counts"


def line_of_second(before, now):
    """What a second brought."""
    seconds = float(now["seconds"]) - float(before["seconds"])
    a_second = {fact: (float(now[fact]) - float(before[fact])) / seconds for fact in now if fact in before}
    cpu = sum(a_second[fact] for fact in ("cpu_seconds", "mover_cpu_seconds") if fact in a_second)
    ways = [f"{way} {a_second[f'datagrams_{way}']:8.0f}/s {a_second[f'bytes_{way}'] * 8e-6:8.1f} Mbit/s" for way in ("in", "out")]
    answers = f"   answers {a_second['answers']:.0f}/s" if "answers" in a_second else ""
    return (f"{time.strftime('%H:%M:%S')}  {'   '.join(ways)}   open {now['open']} (+{a_second['opened']:.0f}/s){answers}   lost {a_second['lost_in']:.0f}/s"
            f"   processor {100 * cpu:.0f} %   {now['most_memory_kb']} kB")
