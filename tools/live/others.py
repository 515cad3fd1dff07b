"""Clients that aren't this program's own: Debian's lwIP as the client's TCP, and nc and socat over this machine's.

Each gives the bytes that came back, and fails by an exception; by Missing where a package isn't there.
"""
import ipaddress
import os
import shutil
import subprocess
import tempfile
from pathlib import Path

import tun
from frames import SERVER

HERE = Path(__file__).resolve().parent
LWIP, LWIP_NETWORK = "10.8.0.2", ipaddress.ip_interface("10.8.0.1/24")
LWIP_HEADERS = "/usr/include/lwip"


class Missing(Exception):
    """Debian packages that a case needs, and that aren't there."""


def need(program, package):
    """A program, or a folder, of a Debian package."""
    if not (os.path.isdir(program) or shutil.which(program)):
        raise Missing(package)


def need_one(*packages):
    """The program of the first of these Debian packages that is there, each of which has its package's name."""
    for name in packages:
        if found := shutil.which(name):
            return found
    raise Missing(packages[0])


FORWARDS = Path("/proc/sys/net/ipv4/ip_forward")


class Lwip:
    """lwIP's TCP on a TUN device of its own, as a context. This namespace's kernel forwards between that device and the wire."""
    def __enter__(self):
        need("cc", "gcc libc6-dev")
        need(LWIP_HEADERS, "liblwip-dev")
        self.folder = tempfile.TemporaryDirectory()
        self.program = f"{self.folder.name}/lwip_client"
        subprocess.run(["cc", "-O2", "-o", self.program, HERE / "lwip_client.c", f"-I{LWIP_HEADERS}", "-llwip"], check=True)
        FORWARDS.write_text("1")
        self.device, self.first = tun.open_device("lwip0"), 40000
        tun.set_up("lwip0", LWIP_NETWORK)
        return self

    def __exit__(self, *_):
        os.close(self.device)
        # (a kernel that forwards answers for hosts that aren't there)
        FORWARDS.write_text("0")
        self.folder.cleanup()

    def exchange(self, text, port=7, count=1, quiet=200, timeout=120):
        """What comes back on connections at once, each of which sends the text and half closes."""
        words = [self.program, str(self.device), LWIP, str(self.first), SERVER, str(port), str(count), str(quiet)]
        self.first += count
        return subprocess.run(words, input=text, stdout=subprocess.PIPE, check=True, timeout=timeout, pass_fds=[self.device]).stdout


def nc(text, port=7):
    """OpenBSD's nc, which closes its half behind the last byte by -N."""
    need("nc.openbsd", "netcat-openbsd")
    return subprocess.run(["nc.openbsd", "-N", SERVER, str(port)], input=text, stdout=subprocess.PIPE, check=True, timeout=60).stdout


def ping(*words, answered, target=SERVER):
    """ping with these words gets so many answers, none of them twice and none damaged."""
    said = subprocess.run(["ping", "-q", *words, target], capture_output=True, text=True, timeout=60).stdout
    assert f" {answered} received" in said and "duplicates" not in said and "corrupted" not in said, said


def socat(text, port=7):
    need("socat", "socat")
    return subprocess.run(["socat", "-t", "60", "-", f"TCP:{SERVER}:{port}"], input=text, stdout=subprocess.PIPE, check=True, timeout=60).stdout
