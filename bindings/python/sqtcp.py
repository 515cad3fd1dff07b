"""The proved server's side of TCP, from Python: an engine without socket, clock and thread.

    from sqtcp import Server
    with Server(address="10.9.0.2", broadcast="10.9.0.255", echo=7) as server:
        for answer in server.datagram(now, datagram):
            send(answer)

Datagrams are bytes, each an IPv4 datagram. Times are microseconds since any moment that stays. A server is for one thread, and keeps its memory
until it is closed.
docs/C.md tells what is proved of it. The library is libsqtcp.so at the top of the checkout, or where SQTCP_LIBRARY says.
"""
import ctypes
import ipaddress
import os
import threading
from pathlib import Path

DONE, NO_MEMORY, REFUSED, CLOSED = range(4)
MOST_BYTES = 65_535
LAST_TIME = 1 << 62


class Handle(ctypes.Structure):
    """struct sqtcp."""
    _fields_ = [("at", ctypes.c_void_p), ("open", ctypes.c_bool)]


class Setting(ctypes.Structure):
    """struct sqtcp_setting."""
    _fields_ = [*((name, ctypes.c_uint64) for name in ("idle", "bytes", "places")), ("secret", ctypes.c_uint8 * 16),
                *((name, ctypes.c_uint32) for name in ("address", "broadcast", "pings", "host")),
                *((name, ctypes.c_uint16) for name in ("segment", "echo", "discard", "daytime", "chargen")),
                *((name, ctypes.c_uint8) for name in ("ttl", "dscp"))]


HANDLE = ctypes.POINTER(Handle)
CALLS = {                                                # name: the result, and what it takes
    "open": (ctypes.c_uint32, HANDLE, ctypes.POINTER(Setting)),
    "close": (None, HANDLE),
    "datagram": (ctypes.c_uint32, HANDLE, ctypes.c_uint64, ctypes.c_char_p, ctypes.c_size_t),
    "tick": (ctypes.c_uint32, HANDLE, ctypes.c_uint64),
    "next_size": (ctypes.c_size_t, HANDLE),
    "next": (ctypes.c_size_t, HANDLE, ctypes.c_char_p, ctypes.c_size_t),
    "connections": (ctypes.c_size_t, HANDLE),
}


class Refused(ValueError):
    """The time is later than 2^62, or the datagram over 65,535 bytes."""


class Closed(ValueError):
    """The server isn't open."""


def library(path=None):
    """The library at this path, its calls declared."""
    found = ctypes.CDLL(str(path or os.environ.get("SQTCP_LIBRARY") or Path(__file__).resolve().parents[2] / "libsqtcp.so"))
    for name, (result, *takes) in CALLS.items():
        call = getattr(found, f"sqtcp_{name}")
        call.restype, call.argtypes = result, takes
    return found


def number(address):
    """An IPv4 address as a number, from its text or from a number."""
    return int(ipaddress.IPv4Address(address))


class Server:
    """A server that is open. `places` is how many connections it keeps, `held` how many bytes of text they may hold together, `idle` how long
    (microseconds) a silent one stays where the table is full; `echo`, `discard`, `daytime` and `chargen` are ports, 0 for not had. `ttl`
    and `dscp`, 0 to 63, stand in each datagram that is sent. The secret behind its initial sequence numbers (RFC 6528) is drawn where none is given."""

    def __init__(self, *, address, broadcast, host=0, places=1000, held=64 << 20, idle=60_000_000, pings=1000, segment=1460,
                 echo=0, discard=0, daytime=0, chargen=0, ttl=64, dscp=0, secret=None, path=None):
        numbers = dict(idle=idle, bytes=held, places=places, pings=pings, segment=segment, echo=echo, discard=discard, daytime=daytime, chargen=chargen,
                       ttl=ttl, dscp=dscp)
        for name, kind in Setting._fields_:
            if name in numbers and not 0 <= numbers[name] < 1 << 8 * ctypes.sizeof(kind):
                raise ValueError(f"{name} is out of range: {numbers[name]}")
        secret = os.urandom(16) if secret is None else bytes(secret)
        if len(secret) != 16:
            raise ValueError(f"the secret has {len(secret)} bytes, not 16")
        self.library, self.handle, self.thread = library(path), Handle(), threading.get_ident()
        self.buffer = ctypes.create_string_buffer(MOST_BYTES)
        self.say(self.library.sqtcp_open(self.handle, Setting(
            **numbers, secret=(ctypes.c_uint8 * 16)(*secret), address=number(address), broadcast=number(broadcast), host=number(host))))

    def say(self, answer):
        if answer == NO_MEMORY:
            raise MemoryError("the server goes on, and may have lost a connection")
        if answer == REFUSED:
            raise Refused("the time is later than 2^62, or the datagram over 65,535 bytes")
        if answer == CLOSED:
            raise Closed("the server isn't open")

    def here(self):
        """The handle, for the thread that opened it."""
        if threading.get_ident() != self.thread:
            raise RuntimeError("a server is for the thread that opened it")
        return self.handle

    def datagram(self, now, body):
        """A datagram comes: what is sent then, a list of datagrams."""
        if not 0 <= now <= LAST_TIME:
            raise Refused(f"no time: {now}")
        body = bytes(body)
        self.say(self.library.sqtcp_datagram(self.here(), now, body, len(body)))
        return self.sent()

    def tick(self, now):
        """The time comes, ten times a second or so: what is sent then, a list of datagrams."""
        if not 0 <= now <= LAST_TIME:
            raise Refused(f"no time: {now}")
        self.say(self.library.sqtcp_tick(self.here(), now))
        return self.sent()

    def sent(self):
        """The datagrams that wait to be sent. After a MemoryError some may wait."""
        out = []
        while size := self.library.sqtcp_next(self.here(), self.buffer, MOST_BYTES):
            out.append(ctypes.string_at(self.buffer, size))
        return out

    def connections(self):
        """How many there are."""
        return self.library.sqtcp_connections(self.here())

    def close(self):
        """Frees what it has. Closing twice does nothing."""
        self.library.sqtcp_close(self.here())

    def __enter__(self):
        return self

    def __exit__(self, *fault):
        self.close()
