"""What is seen of a live server from beside it: a capture of its device, and counts. The server itself isn't asked."""
import ctypes
import os
import select
import socket
import stat
import struct
import threading
import time
from collections import OrderedDict
from dataclasses import dataclass
from pathlib import Path

from ends_log import Log
from tcp_segments import ACK, FIN, RST, SYN
from telling import tell

ETH_P_ALL, SOL_PACKET, PACKET_STATISTICS, SO_ATTACH_FILTER, SO_RCVBUFFORCE = 3, 263, 6, 26, 33
# So much memory holds what isn't read yet.
ROOM = 64 << 20
# What a server has sent at most that isn't acknowledged.
MOST_UNDER_WAY = 65535


def opens_or_ends(server):
    """Takes the head of each first TCP fragment over IPv4 that has SYN, FIN or RST, or comes to the server without text, as a handshake's
    third segment does: BPF, as (code, where to if so, if not, number)."""
    return ((0x30, 0, 0, 0), (0x54, 0, 0, 0xF0), (0x15, 0, 17, 0x40), (0x30, 0, 0, 9), (0x15, 0, 15, 6), (0x28, 0, 0, 6), (0x45, 13, 0, 0x1FFF),
            (0xB1, 0, 0, 0), (0x50, 0, 0, 13), (0x45, 9, 0, SYN | FIN | RST), (0x20, 0, 0, 16), (0x15, 0, 8, int(server)),
            (0x50, 0, 0, 12), (0x54, 0, 0, 0xF0), (0x74, 0, 0, 2), (0x0C, 0, 0, 0), (0x07, 0, 0, 0), (0x28, 0, 0, 2), (0x1D, 0, 1, 0),
            (0x06, 0, 0, 80), (0x06, 0, 0, 0))


# Takes nothing.
NOTHING = ((0x06, 0, 0, 0),)


def comes_to(server):
    """Takes the head of each TCP datagram over IPv4 that comes to the server."""
    return ((0x30, 0, 0, 0), (0x54, 0, 0, 0xF0), (0x15, 0, 5, 0x40), (0x30, 0, 0, 9), (0x15, 0, 3, 6), (0x20, 0, 0, 16), (0x15, 0, 1, int(server)),
            (0x06, 0, 0, 80), (0x06, 0, 0, 0))


def with_numbers(*numbers):
    """Takes the head of each datagram that has these numbers, as (how many bytes, where, which): BPF as above."""
    load = {1: 0x30, 2: 0x28, 4: 0x20}
    steps = [step for left, (size, at, number) in zip(range(len(numbers), 0, -1), numbers) for step in ((load[size], 0, 0, at), (0x15, 0, 2 * left - 1, number))]
    return (*steps, (0x06, 0, 0, 80), (0x06, 0, 0, 0))


def attach(taps, only, level=socket.SOL_SOCKET, option=SO_ATTACH_FILTER):
    """A tap gets what this filter takes, from now on; what it got before is still there."""
    filtered = ctypes.create_string_buffer(b"".join(struct.pack("HBBI", *step) for step in only))
    taps.setsockopt(level, option, struct.pack("HP", len(only), ctypes.addressof(filtered)))


def tap(name, only=()):
    """A socket that gets what passes through a device, or what the filter takes of it."""
    taps = socket.socket(socket.AF_PACKET, socket.SOCK_DGRAM, 0)
    if only:
        attach(taps, only)
    taps.setsockopt(socket.SOL_SOCKET, SO_RCVBUFFORCE, ROOM)
    taps.bind((name, ETH_P_ALL))
    return taps


def each_of(taps, use, when_idle=lambda: None):
    """Gives what a tap gets to a function, in a thread of its own, until the device is gone. Whenever nothing is left, it calls the other one."""
    def read():
        poll, gone = select.poll(), False
        poll.register(taps, select.POLLIN)
        while True:
            try:
                use(taps.recv(65536, socket.MSG_DONTWAIT))
            except BlockingIOError:
                when_idle()
                if gone:
                    return
                poll.poll()
            except OSError:
                gone = True

    thread = threading.Thread(target=read, daemon=True)
    thread.start()
    return thread


class Lossy:
    """Gives what a tap gets to a function, and counts what it lost, since it came faster than it was read."""
    def __init__(self, taps, *use):
        self.taps, self.thread, self.lost = taps, each_of(taps, *use), 0

    def count(self):
        self.lost += struct.unpack("II", self.taps.getsockopt(SOL_PACKET, PACKET_STATISTICS, 8))[1]
        return self.lost

    def catch_up(self, until):
        """Waits until all that passed is used, at most up to this moment."""
        while select.select([self.taps], [], [], 0)[0] and time.monotonic() < until:
            time.sleep(0.001)

    def finish(self):
        """Waits for what is left, where the device is gone. What was lost."""
        self.thread.join(5)
        return self.count()


def begin_capture(file):
    """Empties an open file, and writes the head of a capture of raw IP."""
    if stat.S_ISREG(os.fstat(file).st_mode):
        os.ftruncate(file, 0)
    os.write(file, struct.pack("<IHHIIII", 0xA1B2C3D4, 2, 4, 0, 0, 65535, 101))


class Capture:
    """A capture that is begun. Where it can't be written any more, it ends behind its last whole record; `.lacks` counts what comes later."""
    MOST_WAITING = 256

    def __init__(self, file):
        self.file, self.end, self.waiting, self.lacks = file, os.fstat(file).st_size, [], 0

    def keep(self, datagram):
        """Appends a TCP datagram, with the present time."""
        if datagram[0] >> 4 != 4 or len(datagram) < 20 or datagram[9] != socket.IPPROTO_TCP:
            return
        if self.lacks:
            self.lacks += 1
            return
        at = time.time_ns() // 1000
        self.waiting.append(struct.pack("<IIII", at // 10**6, at % 10**6, len(datagram), len(datagram)) + datagram)
        if len(self.waiting) == self.MOST_WAITING:
            self.write()

    def write(self):
        """Writes what waits."""
        written, all_waiting = 0, b"".join(self.waiting)
        try:
            while written < len(all_waiting):
                written += os.write(self.file, all_waiting[written:])
            self.end += written
        except OSError as error:
            self.cut(written)
            tell(f"the capture ends here: {error.strerror}")
        self.waiting = []

    def cut(self, written):
        """Ends the capture behind the last whole record of so many bytes that were written."""
        self.lacks, reached = len(self.waiting), self.end + written
        for record in self.waiting:
            if self.end + len(record) > reached:
                break
            self.end, self.lacks = self.end + len(record), self.lacks - 1
        if stat.S_ISREG(os.fstat(self.file).st_mode):
            os.ftruncate(self.file, self.end)


@dataclass
class Connection:
    """What was seen of one: the number that it began with, the one behind the server's SYN, whether the handshake is over, whose FIN came
    (1 the client's, 2 the server's), the number that the client acknowledged last, and when its SYN came."""
    began: int
    answer: int | None = None
    opened: bool = False
    fins: int = 0
    acked: int | None = None
    since: float = 0.0

    def shows_opened(self, inward, flags, ack):
        """Whether this segment shows that the handshake is over: it acknowledges the server's SYN, or is the server's FIN."""
        if self.answer is None or not inward:
            return self.answer is not None and bool(flags & FIN)
        return bool(flags & ACK) and (ack - self.answer) % 2**32 <= MOST_UNDER_WAY


class Connections:
    """How many connections there were at these ports of a server, by the segments that open or end one.

    Open are those whose handshake was seen to be over, and whose end wasn't seen. So who left the server's table in silence still counts. A
    handshake whose third segment has text shows by the client's next segment without any, or by the server's FIN.
    """
    MOST = 1 << 17

    def __init__(self, server, ports, log=None):
        self.server, self.ports, self.known, self.log = server.packed, frozenset(ports), OrderedDict(), log or Log()
        self.asked = self.opened = self.open = self.refused = self.resets_in = self.resets_out = 0
        # whether the server has ended: then clients' resets only answer the launcher's
        self.left = False

    def over(self, ends, how):
        found = self.known.pop(ends, None)
        if found and found.opened:
            self.open -= 1
            self.log.tell(ends, found.since, how)

    def finish(self):
        """The server has ended: what is open ends too."""
        while self.known:
            self.over(next(iter(self.known)), "left-open")

    def see(self, datagram):
        tcp = datagram[4 * (datagram[0] & 15):]
        if len(tcp) < 14:
            return
        inward, flags = datagram[16:20] == self.server, tcp[13]
        ours, theirs = (tcp[2:4], tcp[:2]) if inward else (tcp[:2], tcp[2:4])
        ends = (datagram[12:16] if inward else datagram[16:20]) + theirs + ours
        seq, ack = struct.unpack(">II", tcp[4:12])
        if inward and flags & (SYN | ACK | RST) == SYN:
            self.asks(ends, seq)
            return
        if flags & RST:
            self.reset(ends, inward, struct.unpack(">H", ours)[0])
            return
        found = self.known.get(ends)
        if not found:
            return
        if flags & SYN and not inward:
            found.answer = (seq + 1) % 2**32
        elif not found.opened and found.shows_opened(inward, flags, ack):
            found.opened = True
            self.opened += 1
            self.open += 1
        if inward and flags & ACK:
            found.acked = ack
        if flags & FIN:
            found.fins |= 1 if inward else 2
            if found.fins == 3:
                self.over(ends, "closed")

    def asks(self, ends, began):
        """A SYN: a new connection, or one that is sent again."""
        if (found := self.known.get(ends)) and found.began == began:
            return
        self.over(ends, "unseen")
        if struct.unpack(">H", ends[-2:])[0] in self.ports:
            self.asked += 1
            self.known[ends] = Connection(began, since=time.monotonic())
            if len(self.known) > self.MOST:
                self.over(next(iter(self.known)), "unseen")

    def reset(self, ends, inward, port):
        if inward:
            self.resets_in += 1
        elif port in self.ports:
            self.resets_out += 1
        else:
            self.refused += 1
        self.over(ends, "reset-by-server" if not inward else "left-open" if self.left else "reset-by-client")

    def still_open(self, most):
        """Both ends and what was seen of each open connection whose client acknowledged something; of more than so many the youngest."""
        found = [(ends, its) for ends, its in self.known.copy().items() if its.opened and its.acked is not None]
        return found[:-most - 1:-1]

    def facts(self):
        return {name: getattr(self, name) for name in ("asked", "opened", "open", "refused", "resets_in", "resets_out")}


def device_facts(name):
    """What passed through a device of this network namespace, as the kernel counts: what it sends there comes to the server."""
    for line in Path("/proc/thread-self/net/dev").read_text().splitlines():
        if line.strip().startswith(f"{name}:"):
            found = list(map(int, line.split(":")[1].split()))
            return dict(datagrams_in=found[9], bytes_in=found[8], lost_in=found[11], datagrams_out=found[1], bytes_out=found[0])
    return {}
