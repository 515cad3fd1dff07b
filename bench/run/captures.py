#!/usr/bin/env python3
"""Writes the captures of the benchmark: captures.py many FILE, and likewise grouped and one.

many: the generated capture of number 7: 100,000 records, 1,000 connections.
grouped: the same datagrams, one connection after another.
one: 1,000,000 records of one connection, whose client sends 1 MiB at once, with a small window, and then acknowledges byte by byte.
"""

import struct
import sys

MASK = (1 << 32) - 1


def total(data):
    if len(data) % 2:
        data += b"\0"
    n = sum(struct.unpack(f"!{len(data) // 2}H", data))
    while n >> 16:
        n = (n & 0xFFFF) + (n >> 16)
    return n


def datagram(client, port, server_port, seq, ack, flags, window, text, options=b"", sums=True):
    server = bytes((10, 0, 0, 2))
    length = 40 + len(options) + len(text)
    ip = struct.pack("!BBHHHBBH4s4s", 0x45, 0, length, 0, 0x4000, 64, 6, 0, client, server)
    tcp = struct.pack("!HHIIBBHHH", port, server_port, seq & MASK, ack & MASK, (5 + len(options) // 4) << 4, flags, window, 0, 0) + options + text
    if sums:
        ip = ip[:10] + struct.pack("!H", 0xFFFF - total(ip)) + ip[12:]
        pseudo = client + server + struct.pack("!HH", 6, len(tcp))
        tcp = tcp[:16] + struct.pack("!H", 0xFFFF - total(pseudo + tcp)) + tcp[18:]
    return ip + tcp


def record(at, body):
    return struct.pack("<IIII", at // 1_000_000, at % 1_000_000, len(body), len(body)) + body


HEADER = struct.pack("<IHHiIII", 0xA1B2C3D4, 2, 4, 0, 0, 262_144, 101)


def generated():
    """The datagrams of the generated capture of number 7, each with its connection's number."""
    x = 7

    def draw():
        nonlocal x
        x = (x * 6364136223846793005 + 1442695040888963407) % (1 << 64)
        return x >> 32

    numbers = [(draw(), draw()) for _ in range(1000)]
    sent = [0] * 1000
    for k in range(100):
        for c in range(1000):
            isn, iss = numbers[c]
            echoed = sent[c] if c % 2 == 0 else 0
            text = b""
            if k == 0:
                flags, seq, ack = 2, isn, 0
            elif k == 99:
                flags, seq, ack = 16, isn + sent[c] + 2, iss + 2 + echoed
            else:
                flags = 16 if k == 1 else 17 if k == 98 else 24
                seq, ack = isn + 1 + sent[c], iss + 1 + echoed
            if 2 <= k <= 97:
                text = bytes(draw() % 256 for _ in range(1 + (c + k) % 96))
            body = datagram(bytes((10, 1, c // 256, c % 256)), 40000, 7 if c % 2 == 0 else 9, seq, ack, flags, 65535, text)
            yield c, body
            sent[c] += len(text)


def write(out, datagrams):
    out.write(HEADER)
    for i, (_, body) in enumerate(datagrams):
        out.write(record(10 * i, body))


def many(out):
    write(out, generated())


def grouped(out):
    write(out, sorted(generated(), key=lambda datagram: datagram[0]))


def one(out):
    client = bytes((10, 0, 0, 1))
    window = 4
    out.write(HEADER)
    count = 0

    def put(seq, ack, flags, text=b"", options=b""):
        nonlocal count
        out.write(record(count, datagram(client, 4000, 7, seq, ack, flags, window, text, options, sums=False)))
        count += 1

    put(100, 0, 2, options=bytes((3, 3, 0, 0)))
    put(101, 501, 16)
    seq = 101
    for _ in range(1_048_576 // 1024):
        put(seq, 501, 24, b"x" * 1024)
        seq += 1024
    acked = 501
    while count < 1_000_000:
        acked += 1
        put(seq, acked, 16)


def datagrams(out):
    """100,000 datagrams to UDP echo, of 1,000 clients by turns, each with 24 bytes of text and no sums."""
    out.write(HEADER)
    server = bytes((10, 0, 0, 2))
    for i in range(100_000):
        client = bytes((10, 1, i % 1000 // 250, i % 250))
        text = b"%024d" % i
        ip = struct.pack("!BBHHHBBH4s4s", 0x45, 0, 28 + len(text), 0, 0x4000, 64, 17, 0, client, server)
        out.write(record(10 * i, ip + struct.pack("!HHHH", 4000, 7, 8 + len(text), 0) + text))


def main():
    kind, path = sys.argv[1:]
    with open(path, "wb") as out:
        {"many": many, "grouped": grouped, "one": one, "datagrams": datagrams}[kind](out)


main()
