"""Captures that are made to be slow to serve, each with so many records, beside a plain one. Raw IP, checksums not right."""
import random
import struct

ACK, PSH, SYN = 16, 8, 2
CLIENT, SERVER, PORT = 0x0a000001, 0x0a000002, 4000
FIRST = 1000                    # the client's first sequence number
HEAD = struct.Struct("<IIII")
IP = struct.Struct(">BBHHHBBHII")
TCP = struct.Struct(">HHIIBBHHH")
WINDOW = 65_535


def record(at, seq, ack, flags, text=b"", options=b"", port=PORT, client=CLIENT, window=WINDOW, service=7, server=SERVER):
    """A record at so many microseconds."""
    header = 20 + len(options)
    data = IP.pack(0x45, 0, 20 + header + len(text), 0, 0, 64, 6, 0, client, server) + TCP.pack(
        port, service, seq & 0xffffffff, ack & 0xffffffff, header << 2, flags, window, 0, 0) + options + text
    return HEAD.pack(at // 1_000_000, at % 1_000_000, len(data), len(data)) + data


def opened(service=7):
    return [record(0, FIRST, 0, SYN, service=service), record(1, FIRST + 1, 1, ACK, service=service)]


def plain(count):
    """A hundred clients that send a byte, and acknowledge its echo with the next one."""
    out = [record(c, FIRST, 0, SYN, port=PORT + c) for c in range(100)]
    for n in range(count - 100):
        c, k = n % 100, n // 100
        out.append(record(100 + n, FIRST + 1 + k, 1 + k, PSH | ACK, b"x", port=PORT + c))
    return out


def repeated_syn(count):
    return [record(n, FIRST, 0, SYN) for n in range(count)]


def alternating_syns(count):
    return [record(n, FIRST + n % 2 * 5000, 0, SYN) for n in range(count)]


def sixty_four_runs(count):
    """So many runs stand above a gap; then more text comes between them, which is kept nowhere, and the same text again."""
    out = opened() + [record(2 + i, FIRST + 101 + 2 * i, 1, ACK, b"x") for i in range(64)]
    rnd = random.Random(1)
    return out + [record(100 + n, FIRST + 101 + 2 * rnd.randrange(2000), 1, ACK, b"x") for n in range(count - len(out))]


def descending_bytes(count):
    """Single bytes from far up in the window down to the first, with which all are taken; and so on."""
    out, base = opened(9), FIRST + 1
    while len(out) < count:
        for k in range(min(60_000, count - len(out)) - 1, -1, -1):
            out.append(record(len(out), base + k, 1, ACK, b"x", service=9))
        base += 60_000
    return out


def overlapping_text(count):
    """Behind a gap each text begins a byte before the one that came before it, and ends within it."""
    out = opened()
    while len(out) < count:
        out.append(record(len(out), FIRST + 60_000 - len(out) % 50_000, 1, ACK, b"x" * 40))
    return out


def probes(count):
    """A window of 0 while text waits, and a time after each segment at which a deadline has passed."""
    out = opened() + [record(2, FIRST + 1, 1, PSH | ACK, b"x" * 1000, window=0)]
    return out + [record(200_000 * n, FIRST + 1001, 1, ACK, window=0) for n in range(1, count - len(out) + 1)]


def new_connections(count):
    """Each record another address pair: 4,096 of them are served."""
    return [record(n, FIRST, 0, SYN, port=1024 + n % 60_000, client=CLIENT + n // 60_000) for n in range(count)]


def many_servers(count, servers):
    """One client opens a connection to each server, and then again to any of them."""
    rnd = random.Random(1)
    return [record(n, FIRST, 0, SYN, server=servers[n] if n < len(servers) else rnd.choice(servers)) for n in range(count)]


def many_options(count):
    """Forty bytes of options that say nothing, one by one."""
    out = opened(9)
    return out + [record(2 + n, FIRST + 1 + n, 1, PSH | ACK, b"x", b"\1" * 40, service=9) for n in range(count - len(out))]


def long_texts(count):
    """Text of a thousand bytes that is echoed and acknowledged late."""
    out = opened()
    return out + [record(2 + n, FIRST + 1 + 100 * n, 1 + 100 * max(0, n - 50), PSH | ACK, b"x" * 100) for n in range(count - len(out))]


def vanishing(count):
    """So many clients that send a full segment and never acknowledge its echo; the last record stands a day later."""
    out = []
    for c in range(count):
        out += [record(2 * c, FIRST, 0, SYN, options=b"\2\4\5\xb4", port=PORT + c), record(2 * c + 1, FIRST + 1, 1, PSH | ACK, b"x" * 1460, port=PORT + c)]
    return out + [record(86_400_000_000, FIRST, 0, SYN, service=80)]


def fitting(listed, most=67_108_864):
    """As many of the records as one run takes."""
    size = 24
    for n, data in enumerate(listed):
        size += len(data)
        if size > most:
            return listed[:n]
    return listed


SLOW = (repeated_syn, alternating_syns, sixty_four_runs, descending_bytes, overlapping_text, probes, new_connections, many_options, long_texts)


def capture(listed):
    return struct.pack("<IHHIIII", 0xa1b2c3d4, 2, 4, 0, 0, WINDOW, 101) + b"".join(listed)


def datagrams():
    """What sqmore serves: UDP to the ports of echo and discard, and a client of the character generator."""
    out = []
    for n, (port, text) in enumerate(((7, b"hello"), (9, b""), (7, b"x" * 400))):
        data = IP.pack(0x45, 0, 28 + len(text), 0, 0, 64, 17, 0, CLIENT, SERVER) + struct.pack(">HHHH", PORT + n, port, 8 + len(text), 0) + text
        out.append(HEAD.pack(0, n, len(data), len(data)) + data)
    return capture(out + [record(1000, FIRST, 0, SYN, service=19), record(2000, FIRST + 1, 1, ACK, window=300, service=19),
                          record(3000, FIRST + 1, 200, ACK, window=300, service=19), record(4000, FIRST + 1, 300, 17, service=19)])


def five_segments():
    """A client opens a connection, sends five bytes, closes, and acknowledges."""
    return capture([record(0, FIRST, 0, SYN), record(1000, FIRST + 1, 1, ACK), record(2000, FIRST + 1, 1, PSH | ACK, b"hello"),
                    record(3000, FIRST + 6, 6, 17), record(4000, FIRST + 7, 7, ACK)])
