"""The server by several rings on a TUN device with as many queues: its pipes, and the small C program that moves datagrams between both.

A pipe has no datagrams' bounds and no time, so it carries frames, as docs/LIVE.md has them.
"""
import fcntl
import mmap
import os
import struct
import subprocess
import sys
import time
from pathlib import Path

sys.path.append(str(Path(__file__).resolve().parents[1] / "parts"))
from compiled import compiled
from programs import NOBODY, as_nobody, cpu_seconds, how_ended, most_memory_kb, pages_words, rings_words

F_SETPIPE_SZ, PIPE = 1031, 1 << 20
# What a queue counts, by direction: datagrams, their bytes, and those that the device refused; each direction in 64 bytes.
COUNTS, DIRECTION = struct.Struct("QQQ"), 64
# How often it is asked whether all is over, in seconds.
LOOK = 0.05


def mover():
    """The program that moves datagrams, as `compiled` keeps it."""
    return compiled(Path(__file__).with_name("queues.c"), "-O3", "-pthread")


def pipe_for_nobody():
    """A pipe that nobody may open by /dev/fd: the end to read, and the one to write."""
    ends = os.pipe2(os.O_CLOEXEC)
    if os.geteuid() == 0:
        os.fchown(ends[0], NOBODY, NOBODY)
    fcntl.fcntl(ends[0], F_SETPIPE_SZ, PIPE)
    return ends


class Pipes:
    """A pipe to each ring and one from it."""
    def __init__(self, rings):
        self.to_rings = [pipe_for_nobody() for _ in range(rings)]
        self.from_rings = [pipe_for_nobody() for _ in range(rings)]
        self.of_server = [end for to, back in zip(self.to_rings, self.from_rings) for end in (to[0], back[1])]

    def words(self):
        """The files of the server, in its order."""
        return [f"/dev/fd/{end}" for end in self.of_server]


class Rings:
    """The server and what moves its datagrams, both as nobody. The queues are handed over, and closed here; so is the capture, where one is kept."""
    def __init__(self, program, mover, queues, words, long_segments, capture=None, site=(), **layout):
        pipes, size = Pipes(len(queues)), 2 * DIRECTION * len(queues)
        counts = os.memfd_create("counts")
        os.ftruncate(counts, size)
        self.rings, self.counts = len(queues), mmap.mmap(counts, size, prot=mmap.PROT_READ)
        of_mover = [end for queue, to, back in zip(queues, pipes.to_rings, pipes.from_rings) for end in (queue, to[1], back[0])]
        apart = {"stdin": subprocess.DEVNULL, "start_new_session": True}
        self.server = as_nobody(program, ["sqlive", *pages_words(site), *rings_words(self.rings, **layout), *words, *pipes.words()], [*pipes.of_server, *site], **apart)
        kept = [] if capture is None else [capture]
        told = [int(long_segments), counts, *(kept or [-1]), *of_mover]
        self.mover = as_nobody(mover, ["queues", *map(str, told)], [counts, *kept, *of_mover], **apart)
        for end in (*pipes.of_server, counts, *kept, *of_mover):
            os.close(end)

    def counted(self):
        """Of each ring what it was brought, and what was taken from it: datagrams, bytes, and those that the device refused."""
        each = [COUNTS.unpack_from(self.counts, DIRECTION * place) for place in range(2 * self.rings)]
        return list(zip(each[::2], each[1::2]))

    def serve(self, is_over):
        """Until the server ends, or all is over."""
        while self.server.poll() is None and not is_over():
            time.sleep(LOOK)

    def facts(self):
        """Sums are the device's; these are the rings' own."""
        each = {f"ring_{k}_{way}": counts[0] for k, ways in enumerate(self.counted()) for way, counts in zip(("in", "out"), ways)}
        taken = dict(cpu_seconds=cpu_seconds(self.server.pid), mover_cpu_seconds=cpu_seconds(self.mover.pid), most_memory_kb=most_memory_kb(self.server.pid))
        return {**taken, "rings": self.rings, **each}

    def end(self, seconds=10):
        """Ends the input of each ring, so that the server ends; kills it where it doesn't. The server's status, and whether its capture is whole."""
        self.moved = self.mover.poll()
        self.mover.terminate()
        try:
            self.server.wait(seconds)
        except subprocess.TimeoutExpired:
            self.server.kill()
        self.server.wait()
        try:
            self.mover.wait(seconds)
        except subprocess.TimeoutExpired:
            self.mover.kill()
        self.mover.wait()
        return self.server.returncode, self.mover.returncode <= 0

    def who_ended(self):
        """The mover, where a signal ended it: then the server has ended behind it."""
        if self.moved is not None and self.moved < 0:
            return f"queues.c, which moves datagrams, {how_ended(self.moved)}"
        return f"the program {how_ended(self.server.returncode)}"
