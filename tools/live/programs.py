"""The live servers as processes: where they are, their words, and how one is started without privileges."""
import ctypes
import os
import signal
import subprocess
from pathlib import Path

TOP = Path(__file__).resolve().parents[2]
# The user and the group "nobody" of Debian.
NOBODY = 65534
# What a server has without a word for it: its services and their ports, how many echo requests it answers from tick to tick, TTL and DSCP.
USUAL_PORTS, PINGS, TTL, DSCP = {"echo": 7, "discard": 9}, 1000, 64, 0
PR_SET_PDEATHSIG, PR_SET_NO_NEW_PRIVS, PR_CAP_AMBIENT, PR_CAP_AMBIENT_CLEAR_ALL = 1, 38, 47, 4


def built(name):
    """The program as ./build leaves it, else as tools/try-build does; the former where there is neither."""
    proved, unproved = TOP / name, TOP / f"{name}-unproved"
    return str(unproved if unproved.exists() and not proved.exists() else proved)


def setting(server, broadcast, places=1024, idle=7200, memory=256 << 20, mtu=1500, ports=None, pings=PINGS, host=None, ttl=TTL, dscp=DSCP):
    """The words that say what a server is started with. Both headers of a segment take 40 bytes. `ports` has the port of each service by
    its name; without it there are echo at 7 and discard at 9. `host` is whose orders count. No word says what is usual, unless another one stands behind it;
    TTL and DSCP have words of their own."""
    words = [server.packed.hex(), broadcast.packed.hex(), str(places), str(idle), str(memory), str(mtu - 40)]
    words += ["--ttl", str(ttl)] * (ttl != TTL) + ["--dscp", str(dscp)] * (dscp != DSCP)
    more = [",".join(f"{name}={port}" for name, port in (ports or USUAL_PORTS).items()), str(pings), host and host.packed.hex()]
    usual = [ports is None, pings == PINGS, host is None]
    while more and usual.pop():
        more.pop()
    return words + more


def rings_words(rings, squeues=None, mode="process", budget=64):
    """The words that say how the server by several rings is laid out."""
    return ["--rings", str(rings), "--squeues", str(squeues or rings), "--mode", mode, "--budget", str(budget)]


def pages_words(site):
    """The words that name the file of pages, where there is one."""
    return [word for file in site for word in ("--pages", f"/dev/fd/{file}")]


def end_with_the_launcher():
    """The process ends when its parent does, hands on no capability, and never gains a privilege."""
    libc = ctypes.CDLL(None, use_errno=True)
    for words in ((PR_SET_PDEATHSIG, signal.SIGKILL, 0), (PR_CAP_AMBIENT, PR_CAP_AMBIENT_CLEAR_ALL, 0), (PR_SET_NO_NEW_PRIVS, 1, 0)):
        if libc.prctl(*words, 0, 0):
            os._exit(126)


def as_nobody(program, words, descriptors=(), **streams):
    """Starts a program as nobody, with these descriptors; by a launcher that isn't root, as its own user. Nobody may not see the folder that it lies in."""
    file = os.open(program, os.O_RDONLY | os.O_CLOEXEC)
    user = {"user": NOBODY, "group": NOBODY, "extra_groups": []} if os.geteuid() == 0 else {}
    try:
        return subprocess.Popen(words, executable=f"/proc/self/fd/{file}", pass_fds=[file, *descriptors], preexec_fn=end_with_the_launcher, **user, **streams)
    finally:
        os.close(file)


def how_ended(status):
    """How a process ended, by what Popen tells of it."""
    names = {number.value: number.name for number in signal.Signals}
    return f"was ended by {names.get(-status, f'signal {-status}')}" if status < 0 else f"ended with status {status}"


def most_memory_kb(pid):
    """The most memory that a process had."""
    return int(Path(f"/proc/{pid}/status").read_text().split("VmHWM:")[1].split()[0])


def cpu_seconds(pid):
    """The processor time of a process so far."""
    ticks = Path(f"/proc/{pid}/stat").read_text().rsplit(")", 1)[1].split()[11:13]
    return sum(map(int, ticks)) / os.sysconf("SC_CLK_TCK")
