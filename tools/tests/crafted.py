"""Conversations made by hand: what a client and a server send, segment by segment, as a capture of raw IP."""
import struct
from pathlib import Path

from generated import BEGIN, checksum, write

FIN, SYN, RST, PSH, ACK, URG, ECE, CWR = 1, 2, 4, 8, 16, 32, 64, 128
CLIENT, SERVER = (0x0a000001, 4000), (0x0a000002, 7)
CLIENT_START, SERVER_START = 5_000, 900_000
MSS, SCALED, SACKED, STAMPED = b"\x02\x04\x05\xb4", b"\x01\x03\x03\x07", b"\x01\x01\x04\x02", b"\x01\x01\x08\x0a" + bytes(7) + b"\1" + bytes(4)


def segment(source, destination, seq, ack, flags, window, text, options, reserved=0, wrong=False, card=False, number=0):
    """An IPv4 datagram with this segment. Its checksum may be `wrong`, or the one that a host leaves to its `card`."""
    options += b"\1" * (-len(options) % 4)
    size = 20 + len(options) + len(text)
    ip = struct.pack(">BBHHHBBHII", 0x45, 0, 20 + size, number, 0x4000, 64, 6, 0, source[0], destination[0])
    ip = ip[:10] + struct.pack(">H", checksum(ip)) + ip[12:]
    tcp = struct.pack(">HHIIBBHHH", source[1], destination[1], seq % 2 ** 32, ack % 2 ** 32, (20 + len(options)) // 4 << 4 | reserved, flags, window, 0, 0)
    tcp += options + text
    addresses = struct.pack(">IIHH", source[0], destination[0], 6, size)
    found = checksum(addresses) ^ 0xffff if card else checksum(addresses + tcp) ^ wrong
    return ip + tcp[:16] + struct.pack(">H", found) + tcp[18:]


def as_ipv6(datagram):
    """The same segment between the addresses fd00::A.B.C.D of RFC 4291, 2.5.5. A right checksum stays right, a wrong one wrong, and one left to a card so."""
    source, destination = (b"\xfd" + bytes(11) + datagram[at:at + 4] for at in (12, 16))
    tcp = datagram[20:]
    if datagram[6] & 0x3f or datagram[7] or len(tcp) < 18:
        return struct.pack(">IHBB", 6 << 28, max(len(tcp), 20), 6, 64) + source + destination + tcp[:4]         # no whole segment
    old, new = datagram[12:20] + struct.pack(">HH", 6, len(tcp)), source + destination + struct.pack(">II", len(tcp), 6)
    held, = struct.unpack_from(">H", tcp, 16)
    right = checksum(old + tcp[:16] + b"\0\0" + tcp[18:])
    for was, known in ((checksum(old) ^ 0xffff, checksum(new) ^ 0xffff), (right, checksum(new + tcp[:16] + b"\0\0" + tcp[18:]))):
        if held == was:
            held = known
    return struct.pack(">IHBB", 6 << 28, len(tcp), 6, 64) + source + destination + tcp[:16] + struct.pack(">H", held) + tcp[18:]


class Talk:
    """One connection. Numbers count from the first of each side; `wait` is in microseconds; `mark` notes the frame."""

    def __init__(self, port=7, asked=MSS, offered=MSS, window=65_535, room=65_535):
        self.server = SERVER[0], port
        self.start = CLIENT_START, SERVER_START
        self.asked, self.offered, self.window, self.room = asked, offered, window, room
        self.at, self.records, self.marked = BEGIN, [], None
        self.mine = self.theirs = 0             # the next number of the client and of the server

    def put(self, wait, mark, *what, **more):
        self.at += wait
        self.records.append((self.at, segment(*what, **more)))
        self.marked = len(self.records) if mark else self.marked
        return self

    def up(self, flags=ACK, text=b"", wait=100, seq=None, ack=None, window=None, options=b"", mark=False, **more):
        """The client sends; without `seq` and `ack` what comes next."""
        here = self.mine if seq is None else seq
        self.put(wait, mark, CLIENT, self.server, self.start[0] + here, (self.start[1] + (self.theirs if ack is None else ack)) * bool(flags & ACK),
                 flags, self.window if window is None else window, text, options, **more)
        if seq is None:
            self.mine += len(text) + bool(flags & SYN) + bool(flags & FIN)
        return self

    def down(self, flags=ACK, text=b"", wait=100, seq=None, ack=None, window=None, options=b"", mark=False, **more):
        """The server sends."""
        here = self.theirs if seq is None else seq
        self.put(wait, mark, self.server, CLIENT, self.start[1] + here, (self.start[0] + (self.mine if ack is None else ack)) * bool(flags & ACK),
                 flags, self.room if window is None else window, text, options, **more)
        if seq is None:
            self.theirs += len(text) + bool(flags & SYN) + bool(flags & FIN)
        return self

    def open(self):
        return self.up(SYN, options=self.asked).down(SYN | ACK, options=self.offered).up()

    def echo(self, text=b"hello", **more):
        """Text, its echo, and the client's acknowledgement."""
        return self.up(ACK | PSH, text).down(ACK | PSH, text, **more).up()

    def close(self):
        return self.up(ACK | FIN).down(ACK | FIN).up()

    def then(self, wait):
        """The capture goes on for so long, with a datagram of others at its end."""
        self.at += wait
        self.records.append((self.at, segment((0x0a000003, 53), (0x0a000004, 53), 1, 1, ACK, 1, b"", b"")))
        return self

    def anew(self, wait):
        """The same two ends, with other first numbers."""
        self.start = self.start[0] + 1_000_000, self.start[1] + 3_000_000
        self.mine = self.theirs = 0
        self.at += wait
        return self

    def save(self, folder, name="a.pcap", changed=lambda datagram: datagram):
        path = Path(folder) / name
        write(path, [(at, changed(datagram)) for at, datagram in self.records], 101)
        return path
