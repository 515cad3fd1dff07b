"""The wire between this network namespace and the program: a TUN device on one side, frames over two pipes on the other.

Both directions are treated alike: datagrams are lost, delayed, doubled, reordered or held to a rate, as asked. The wire keeps
the datagrams that the program saw and sent, with their times, as a capture.
"""
import ctypes
import fcntl
import heapq
import ipaddress
import json
import os
import random
import select
import signal
import socket
import struct
import subprocess
import sys
import time
from dataclasses import dataclass, field

import tcp_segments
import tun
from frames import CLIENT, HEAD, Frames
from programs import most_memory_kb
from rings import F_SETPIPE_SZ, PIPE

CLONE_NEWNET = 0x40000000
ROUTER = "192.0.2.9"


def new_namespace():
    """A network namespace of this process's own, with its loopback on."""
    libc = ctypes.CDLL(None, use_errno=True)
    if libc.unshare(CLONE_NEWNET):
        raise OSError(ctypes.get_errno(), "no network namespace (it takes root)")
    subprocess.run(["ip", "link", "set", "lo", "up"], check=True)


@dataclass
class Impairments:
    """What the wire does to each datagram: probabilities, milliseconds, and megabits a second (0: as fast as it goes)."""
    loss: float = 0.0
    duplicate: float = 0.0
    corrupt: float = 0.0
    reorder: float = 0.0
    delay: float = 0.0
    jitter: float = 0.0
    rate: float = 0.0
    queue: int = 100
    # how many bytes a datagram may have behind the router on the way to the clients (0: as many as it has)
    path: int = 0
    seed: int = 1

    def any(self):
        return any((self.loss, self.duplicate, self.corrupt, self.reorder, self.delay, self.jitter, self.rate, self.path))


@dataclass
class Direction:
    """One direction of the wire, with its counts."""
    deliver: callable
    counts: dict = field(default_factory=lambda: dict(datagrams=0, lost=0, doubled=0, corrupted=0, overflowed=0, too_long=0))
    busy_until: float = 0.0
    queued: int = 0


class End:
    """Both pipes of a ring, and what isn't written or isn't a whole frame yet."""
    def __init__(self, into, out_of):
        self.into, self.out_of, self.to_write, self.was_read = into, out_of, bytearray(), bytearray()
        for pipe in (into, out_of):
            os.set_blocking(pipe, False)
            fcntl.fcntl(pipe, F_SETPIPE_SZ, PIPE)

    def put(self, at, datagram=b""):
        self.to_write += HEAD.pack(len(datagram), at) + datagram

    def write(self):
        try:
            del self.to_write[:os.write(self.into, self.to_write)]
        except BlockingIOError:
            pass

    def frames(self, data):
        """The datagrams that are whole now."""
        self.was_read += data
        at = 0
        while len(self.was_read) - at >= HEAD.size:
            length, _ = HEAD.unpack_from(self.was_read, at)
            end = at + HEAD.size + length
            if len(self.was_read) < end:
                break
            yield bytes(self.was_read[at + HEAD.size:end])
            at = end
        del self.was_read[:at]


class Wire:
    def __init__(self, program, impairments, places=1024, capture=None, rings=0, layout=None, tick=0.02, mtu=1500):
        self.asked, self.random = impairments, random.Random(impairments.seed)
        self.device = tun.open_device("wire0")
        tun.set_up("wire0", ipaddress.ip_interface(CLIENT + "/24"), mtu)
        os.set_blocking(self.device, False)
        server = Frames(program, rings, layout, places=places)
        self.child, self.ends = server.process, [End(*pair) for pair in server.ends]
        self.start, self.tick, self.next_tick = time.monotonic(), tick, 0.0
        self.heap, self.entered, self.ended = [], 0, False
        self.inward, self.outward = Direction(self.to_program), Direction(self.to_client)
        self.capture = open(capture, "wb", 1 << 20) if capture else None
        if self.capture:
            self.capture.write(struct.pack("<IHHIIII", 0xA1B2C3D4, 2, 4, 0, 0, 65535, 101))

    def now(self):
        return int((time.monotonic() - self.start) * 1e6) + 1

    def keep(self, at, datagram):
        if self.capture:
            self.capture.write(struct.pack("<IIII", at // 10**6, at % 10**6, len(datagram), len(datagram)) + datagram)

    def end_of(self, datagram):
        """The ring of a datagram's connection."""
        return self.ends[sum(datagram[12:24]) % len(self.ends)]

    def to_program(self, datagram):
        at = self.now()
        self.keep(at, datagram)
        self.end_of(datagram).put(at, datagram)

    def to_client(self, datagram):
        try:
            os.write(self.device, datagram)
        except OSError:
            self.outward.counts["overflowed"] += 1

    def send(self, way, datagram):
        """A datagram enters the wire."""
        way.counts["datagrams"] += 1
        asked = self.asked
        if not asked.any():
            way.deliver(datagram)
            return
        if way is self.outward and 0 < asked.path < len(datagram):
            way.counts["too_long"] += 1
            self.report(tcp_segments.too_long(socket.inet_aton(ROUTER), datagram, asked.path))
            return
        if self.random.random() < asked.loss:
            way.counts["lost"] += 1
            return
        doubled = self.random.random() < asked.duplicate
        way.counts["doubled"] += doubled
        for _ in range(1 + doubled):
            self.send_one(way, datagram)

    def report(self, message):
        """What the router says comes to every ring: it isn't of the connection's own flow."""
        at = self.now()
        for end in self.ends:
            end.put(at, message)

    def send_one(self, way, datagram):
        asked, now = self.asked, time.monotonic()
        due = now
        if self.random.random() < asked.corrupt:
            way.counts["corrupted"] += 1
            bits = bytearray(datagram)
            at = self.random.randrange(8 * len(bits))
            bits[at >> 3] ^= 1 << (at & 7)
            datagram = bytes(bits)
        if asked.rate:
            if way.queued >= asked.queue:
                way.counts["overflowed"] += 1
                return
            way.busy_until = due = max(way.busy_until, now) + len(datagram) * 8 / (asked.rate * 1e6)
            way.queued += 1
        if self.random.random() >= asked.reorder:
            due += (asked.delay + self.random.uniform(-asked.jitter, asked.jitter)) / 1000
        self.entered += 1
        heapq.heappush(self.heap, (due, self.entered, way, datagram))

    def read_device(self):
        for _ in range(64):
            try:
                datagram = os.read(self.device, 65536)
            except BlockingIOError:
                return
            if datagram[0] >> 4 == 4 and len(datagram) > 19 and datagram[9] == 6:
                self.send(self.inward, datagram)

    def read_program(self, end, time_to_keep=None):
        try:
            data = os.read(end.out_of, 1 << 20)
        except BlockingIOError:
            return
        if not data:
            sys.exit(f"the program ended with status {self.child.wait()}")
        self.take(end, data, time_to_keep)

    def take(self, end, data, time_to_keep):
        """The program's answers: they are kept at this time, else at the present one."""
        for datagram in end.frames(data):
            self.keep(time_to_keep or self.now(), datagram)
            self.send(self.outward, datagram)

    def result(self):
        return dict(inward=self.inward.counts, outward=self.outward.counts, peak_kb=most_memory_kb(self.child.pid))

    def end(self, *_):
        self.ended = True

    def finish(self):
        """A last time comes to the program, and what it still answers to all that it was given stands in the capture at that time."""
        last = self.now()
        for end in self.ends:
            end.put(last)
            while end.to_write:
                end.write()
                for other in self.ends:
                    self.read_program(other, last)
        result = self.result()
        for end in self.ends:
            os.close(end.into)
            os.set_blocking(end.out_of, True)
        for end in self.ends:
            while data := os.read(end.out_of, 1 << 20):
                self.take(end, data, last)
        if self.capture:
            self.capture.close()
        self.child.wait()
        print(json.dumps(result), flush=True)

    def run(self):
        poll = select.poll()
        read = {end.out_of: end for end in self.ends}
        for pipe in read:
            poll.register(pipe, select.POLLIN)
        print("ready", flush=True)
        while not self.ended:
            room = all(len(end.to_write) < 1 << 20 for end in self.ends)
            poll.register(self.device, select.POLLIN if room else 0)
            for end in self.ends:
                poll.register(end.into, select.POLLOUT if end.to_write else 0)
            now = time.monotonic()
            wait = self.next_tick - now
            if self.heap:
                wait = min(wait, self.heap[0][0] - now)
            for pipe, _ in poll.poll(int(wait * 1000) if wait > 0.001 else 0):
                if pipe == self.device:
                    self.read_device()
                elif pipe in read:
                    self.read_program(read[pipe])
            self.deliver_due()
            for end in self.ends:
                if end.to_write:
                    end.write()
        self.finish()

    def deliver_due(self):
        """What the wire held comes, and every 20 ms the time to each ring."""
        now = time.monotonic()
        while self.heap and self.heap[0][0] <= now:
            _, _, way, datagram = heapq.heappop(self.heap)
            way.queued -= bool(self.asked.rate)
            way.deliver(datagram)
        if now >= self.next_tick:
            self.next_tick = now + self.tick
            for end in self.ends:
                end.put(self.now())


def main():
    """wire.py PROGRAM RINGS LAYOUT PLACES CAPTURE JSON: runs until SIGTERM, and then prints its counts. Without rings RINGS is 0. LAYOUT is JSON too."""
    program, rings, layout, places, capture, asked = sys.argv[1:]
    wire = Wire(program, Impairments(**json.loads(asked)), int(places), capture or None, int(rings), json.loads(layout))
    signal.signal(signal.SIGTERM, wire.end)
    wire.run()


if __name__ == "__main__":
    main()
