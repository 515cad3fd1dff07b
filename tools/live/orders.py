"""Orders of a host to its server, as docs/LIVE.md has them: the text of a datagram of UDP to the port of systat (RFC 866), from a port of the host
that takes a right."""
import contextlib
import select
import socket
import time
from pathlib import Path

import seen
from telling import tell

SYSTAT, DRAIN = 11, b"drain"
# The first port whose orders don't count.
FREE_PORT = 1024
# The ports that take a right, and that `bindresvport` gives away.
PORTS = range(1023, 511, -1)
# A server tells its counts once from one tick to the next, and how long it is asked beyond that, and after how long once more, in seconds.
TICK, LATE, AGAIN = 0.02, 0.3, 0.1
# What its rings tell that is no count: what is, at the moment.
GAUGES = ("connections", "waiting", "held", "draining")


def bound(host):
    """A socket on such a port. A PermissionError says that the right is missing, and another OSError that all are taken."""
    for port in PORTS:
        orders = socket.socket(socket.AF_INET, socket.SOCK_DGRAM)
        try:
            orders.bind((str(host), port))
            return orders
        except PermissionError:
            orders.close()
            raise
        except OSError as error:
            orders.close()
            why = error
    raise why


def give(orders, server, order):
    """Sends a server an order. A datagram may get lost, and the order may come again."""
    try:
        orders.sendto(order, (str(server), SYSTAT))
    except BlockingIOError:
        pass  # a full queue: it is told again


def unprivileged():
    """From which port on a socket takes no right, where that is one of those whose orders count; else None."""
    with contextlib.suppress(OSError, ValueError):
        first = int(Path("/proc/sys/net/ipv4/ip_unprivileged_port_start").read_text())
        return first if first < FREE_PORT else None


def drains(host, server):
    """Takes each order of the host to drain, as `seen.tap` wants it; from which port, isn't looked at."""
    return seen.with_numbers((1, 0, 0x45), (1, 9, socket.IPPROTO_UDP), (4, 12, int(host)), (4, 16, int(server)), (2, 22, SYSTAT),
                             (2, 24, 8 + len(DRAIN)), (4, 28, int.from_bytes(DRAIN[:4], "big")), (1, 32, DRAIN[4]))


class OthersDrains:
    """Tells of the first order to drain that counts and comes before the launcher's own."""
    def __init__(self, device, host, server):
        self.host, self.over = host, False
        seen.each_of(seen.tap(device, drains(host, server)), self.see)

    def see(self, datagram):
        port = int.from_bytes(datagram[20:22], "big")
        if not self.over and port < FREE_PORT:
            self.over = True
            tell(f"{self.host} port {port} told the server to drain, and this launcher didn't")


def drain(orders, server):
    """Tells a server to drain."""
    give(orders, server, DRAIN)


def counts(host, server, rings):
    """What each of so many rings tells of itself; nothing where one of them doesn't in time. An order is given again where a ring told its counts just
    before, or a datagram was lost. What answers it comes to a socket of its own, so that no ring counts twice."""
    until, told = time.monotonic() + TICK + LATE, {}
    with contextlib.ExitStack() as asked:
        while (now := time.monotonic()) < until:
            orders = asked.enter_context(bound(host))
            give(orders, server, b"counts")
            told[orders] = []
            while ready := select.select(told, [], [], max(0, min(now + AGAIN, until) - time.monotonic()))[0]:
                for answered in ready:
                    text, (who, port) = answered.recvfrom(1 << 16)
                    told[answered] += [text] if (who, port) == (str(server), SYSTAT) else []
                    if len(told[answered]) == rings:
                        return [{name: int(number) for name, number in map(str.split, answer.decode().splitlines())} for answer in told[answered]]
    return []


def sums(told):
    """Facts of all rings together: what counts gets the name that Prometheus gives it."""
    return {name if name in GAUGES else f"{name}_total": (max if name == "draining" else sum)(ring[name] for ring in told) for name in (told[0] if told else ())}


class Counts:
    """What a server tells of itself."""
    def __init__(self, host, server, rings):
        self.asked = host, server, rings

    def facts(self):
        try:
            return sums(counts(*self.asked))
        except (OSError, ValueError, KeyError):
            return {}  # the right is missing, all ports are taken, or what answered is no server
