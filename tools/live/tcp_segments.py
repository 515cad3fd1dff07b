"""IPv4 datagrams with a TCP segment, written and read."""
import struct
from dataclasses import dataclass

FIN, SYN, RST, PSH, ACK = 1, 2, 4, 8, 16


def inet_sum(data):
    """The Internet checksum (RFC 1071)."""
    if len(data) & 1:
        data += b"\0"
    total = sum(struct.unpack(f">{len(data) // 2}H", data))
    while total >> 16:
        total = (total & 0xFFFF) + (total >> 16)
    return total ^ 0xFFFF


def segment(source, source_port, target, target_port, seq, ack, flags, window=64240, text=b"", options=b""):
    options += b"\0" * (-len(options) % 4)
    tcp = struct.pack(">HHIIBBHHH", source_port, target_port, seq % 2**32, ack % 2**32, (5 + len(options) // 4) << 4, flags, window, 0, 0) + options + text
    tcp = tcp[:16] + struct.pack(">H", inet_sum(source + target + struct.pack(">BBH", 0, 6, len(tcp)) + tcp)) + tcp[18:]
    header = struct.pack(">BBHHHBBH", 0x45, 0, 20 + len(tcp), 0, 0x4000, 64, 6, 0) + source + target
    return header[:10] + struct.pack(">H", inet_sum(header)) + header[12:] + tcp


def echo(source, target, kind, rest):
    """An echo message of ICMP (RFC 792) in its datagram: 8 asks, 0 answers."""
    return icmp(source, target, kind, 0, rest)


def too_long(router, dropped, mtu, target=None):
    """What a router says of a datagram that it can't pass on whole, to its sender (RFC 792; RFC 1191, 4): it quotes the header and 8 bytes."""
    return icmp(router, target or dropped[12:16], 3, 4, struct.pack(">HH", 0, mtu) + dropped[:28])


def icmp(source, target, kind, code, rest):
    """A message of ICMP in its datagram."""
    message = bytes((kind, code)) + struct.pack(">H", inet_sum(bytes((kind, code, 0, 0)) + rest)) + rest
    header = struct.pack(">BBHHHBBH", 0x45, 0, 20 + len(message), 0, 0x4000, 64, 1, 0) + source + target
    return header[:10] + struct.pack(">H", inet_sum(header)) + header[12:] + message


def udp(source, source_port, target, port, text):
    """A datagram of UDP (RFC 768)."""
    part = struct.pack(">HHHH", source_port, port, 8 + len(text), 0) + text
    part = part[:6] + struct.pack(">H", inet_sum(source + target + struct.pack(">BBH", 0, 17, len(part)) + part) or 0xFFFF) + part[8:]
    header = struct.pack(">BBHHHBBH", 0x45, 0, 20 + len(part), 0, 0x4000, 64, 17, 0) + source + target
    return header[:10] + struct.pack(">H", inet_sum(header)) + header[12:] + part


@dataclass
class Segment:
    source: bytes
    source_port: int
    target: bytes
    target_port: int
    seq: int
    ack: int
    flags: int
    text: bytes
    options: bytes = b""

    def seq_end(self):
        """The sequence number behind the segment, a SYN and a FIN counted."""
        return (self.seq + len(self.text) + bool(self.flags & SYN) + bool(self.flags & FIN)) % 2**32


def read(datagram):
    """The segment of a datagram that is well formed, with both sums; else it fails."""
    assert datagram[0] == 0x45 and len(datagram) == struct.unpack(">H", datagram[2:4])[0], "the header"
    assert inet_sum(datagram[:20]) == 0, "the header's sum"
    tcp = datagram[20:]
    assert inet_sum(datagram[12:20] + struct.pack(">BBH", 0, 6, len(tcp)) + tcp) == 0, "the segment's sum"
    source_port, target_port, seq, ack, offset, flags = struct.unpack(">HHIIBB", tcp[:14])
    return Segment(datagram[12:16], source_port, datagram[16:20], target_port, seq, ack, flags, tcp[4 * (offset >> 4):], tcp[20:4 * (offset >> 4)])
