"""The live servers over frames: a datagram, or none, behind its length and a time (docs/LIVE.md)."""
import ipaddress
import os
import struct
import subprocess

from programs import rings_words, setting
from rings import Pipes

HEAD = struct.Struct(">QQ")
CLIENT, SERVER, SECRET = "10.9.0.1", "10.9.0.2", "000102030405060708090a0b0c0d0e0f"


def frames_words(**its):
    """The words of a run over frames, whose network is that of the client."""
    network = ipaddress.ip_interface(CLIENT + "/24").network
    return ["frames", SECRET, *setting(ipaddress.ip_address(SERVER), network.broadcast_address, **its)]


class Frames:
    """A server over frames as a process: `sqlive`, by several rings where these are told.

    `.ends` has a pair of descriptors for each ring: what to write to, and what to read.
    """
    def __init__(self, program, rings=0, layout=None, pages=None, **its):
        site = ["--pages", pages] if pages else []
        if not rings:
            self.process = subprocess.Popen(["sqlive", *site, *frames_words(**its)], executable=program, stdin=subprocess.PIPE, stdout=subprocess.PIPE, bufsize=0)
            self.ends = [(os.dup(self.process.stdin.fileno()), os.dup(self.process.stdout.fileno()))]
            self.process.stdin.close()
            self.process.stdout.close()
            return
        pipes = Pipes(rings)
        words = ["sqlive", *site, *rings_words(rings, **(layout or {})), *frames_words(**its), *pipes.words()]
        self.process = subprocess.Popen(words, executable=program, stdin=subprocess.DEVNULL, pass_fds=pipes.of_server)
        for end in pipes.of_server:
            os.close(end)
        self.ends = [(to[1], back[0]) for to, back in zip(pipes.to_rings, pipes.from_rings)]
