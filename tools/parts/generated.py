"""Generated captures: connections to ports 7 and 9 in both directions, with tags, cut bodies, fragments, malformed and unserved packets,
wrong checksums, gaps and retransmissions; and pcap files of each form."""
import random
import struct

FIN, SYN, RST, PSH, ACK = 1, 2, 4, 8, 16
BEGIN = 1_700_000_000_000_000           # microseconds
FORMS = (("<", 0xa1b2c3d4, 1), (">", 0xa1b23c4d, 1000), (">", 0xa1b2c3d4, 1), ("<", 0xa1b23c4d, 1000))
MACS = b"\x02\0\0\0\0\1\x02\0\0\0\0\2"
COOKED = b"\0\0\0\1\0\6\2\0\0\0\0\1\0\0"


def checksum(data):
    total = int.from_bytes(data + bytes(len(data) % 2), "big")
    return 0xffff - ((total - 1) % 0xffff + 1 if total else 0)


def datagram(source, destination, seq, ack, flags, window=65_535, text=b"", options=b"", wrong=False, words=5):
    """An IPv4 datagram with one segment; source and destination are (address, port)."""
    size = 20 + len(options) + len(text)
    ip = struct.pack(">BBHHHBBHII", 0x40 | words, 0, 4 * words + size, 0, 0x4000, 64, 6, 0, source[0], destination[0]) + bytes(4 * words - 20)
    ip = ip[:10] + struct.pack(">H", checksum(ip)) + ip[12:]
    tcp = struct.pack(">HHIIBBHHH", source[1], destination[1], seq % 2 ** 32, ack % 2 ** 32, (20 + len(options)) // 4 << 4, flags, window, 0, 0)
    tcp += options + text
    found = checksum(struct.pack(">IIHH", source[0], destination[0], 6, size) + tcp)
    return ip + tcp[:16] + struct.pack(">H", found ^ wrong) + tcp[18:]


class Conversation:
    """One connection's records, about as many as wanted."""

    def __init__(self, rnd, c, start):
        self.rnd, self.at, self.out = rnd, start, []
        self.client = (0x0a010000 + c % 60_000 // 7 if c % 3 else 0x0a020000 + rnd.randrange(1 << 16)), 1024 + c * 7919 % 60_000
        self.server = 0x0a000002 + c % 5, 7 if c % 4 else 9
        self.mine, self.theirs = rnd.getrandbits(32), rnd.getrandbits(32)

    def up(self, flags, text=b"", **more):
        self.out.append((self.at, datagram(self.client, self.server, self.mine, self.theirs if flags & ACK else 0, flags, text=text,
                                           wrong=self.rnd.random() < .002, words=6 if self.rnd.random() < .002 else 5, **more)))

    def down(self, flags, text=b""):
        self.out.append((self.at, datagram(self.server, self.client, self.theirs, self.mine, flags, text=text)))

    def open(self, c):
        self.up(SYN, options=b"\x02\x04\x05\xb4" if c % 2 else b"\x02\x04\x02\x18\x01\x03\x03\x07")
        self.mine += 1
        self.at += self.rnd.randrange(50, 500)
        self.down(SYN | ACK)
        self.theirs += 1
        self.at += self.rnd.randrange(50, 500)
        self.up(ACK)

    def talk(self, most):
        rnd = self.rnd
        self.at += rnd.randrange(100, 40_000) if rnd.random() > .03 else rnd.randrange(100_000, 3_000_000)
        text = rnd.randbytes(rnd.randint(1, most))
        self.up(PSH | ACK, text, window=rnd.choice((65_535, 65_535, 4_096, 300)))
        if rnd.random() < .02:
            self.at += 150_000
            self.up(PSH | ACK, text)
        self.mine += len(text)
        self.at += rnd.randrange(20, 200)
        self.down(PSH | ACK, text if self.server[1] == 7 else b"")
        self.theirs += len(text) if self.server[1] == 7 else 0
        if rnd.random() < .3:
            self.at += rnd.randrange(20, 200)
            self.up(ACK)

    def close(self, c):
        self.at += 1000
        self.up((RST if c % 11 == 3 else FIN) | ACK)
        if c % 11 != 3:
            self.mine += 1
            self.at += 100
            self.down(FIN | ACK)
            self.theirs += 1
            self.at += 100
            self.up(ACK)


def body(rnd, link, data):
    """A body for the link; some are cut, tagged, padded, or no TCP at all."""
    r = rnd.random()
    for below, changed in ((.002, data[:-1]), (.004, data[:rnd.randrange(44)]), (.006, data[:6] + b"\x20\0" + data[8:]),
                           (.010, data[:9] + b"\x11" + data[10:]), (.011, b"\x44" + data[1:]), (.012, data[:32] + b"\x40" + data[33:]),
                           (.013, data[:2] + b"\0\0" + data[4:]), (.014, data[:2] + b"\0\x1e" + data[4:]), (.016, data + bytes(6)),
                           (.017, b"\x60" + data[1:]), (1, data)):
        if r < below:
            data = changed
            break
    r = rnd.random()
    if link == 1:
        tag = b"\x81\0\0\5" if r < .15 else b"\x81\0\0\5\x81\0\0\6" if r < .152 else b""
        return MACS + tag + (b"\x86\xdd" if .152 <= r < .155 else b"\x08\0") + data
    if link == 113:
        return COOKED + (b"\x08\6" if r < .003 else b"\x08\0") + data
    return data


def records(seed, count, conns, link=101, text=32, span=600):
    """So many records of so many connections, as (microseconds, body)."""
    rnd, out = random.Random(seed), []
    for c in range(conns):
        talk = Conversation(rnd, c, BEGIN + int(rnd.random() * span * 1e6))
        wanted = max(8, int(count / conns * rnd.choice((.5, 1, 1, 1.5)))) if c else count // conns
        talk.open(c)
        while len(talk.out) < wanted - 4:
            talk.talk(text)
        talk.close(c)
        out += talk.out
    out.sort(key=lambda record: record[0])
    return [(at, body(rnd, link, data)) for at, data in out[:count]]


def write(path, listed, link, form=0, cut=0):
    """A pcap file; so many bytes of the end are missing."""
    order, magic, unit = FORMS[form]
    pieces = [struct.pack(order + "IHHIIII", magic, 2, 4, 0, 0, 65_535, link)]
    for at, data in listed:
        seconds, micros = divmod(at, 1_000_000)
        if seconds and unit == 1 and at % 7 == 0:           # a fraction of a second or more is allowed
            seconds, micros = seconds - 1, micros + 1_000_000
        pieces += struct.pack(order + "IIII", seconds, micros * unit + (at % 999 if unit > 1 else 0), len(data), len(data)), data
    whole = b"".join(pieces)
    path.write_bytes(whole[:len(whole) - cut])
