"""Clients over this machine's own sockets. Each checks the bytes that come back, and fails by an exception."""
import hashlib
import random
import select
import socket
import struct
import time

HOST = "10.9.0.2"
BLOCK = random.Random(1).randbytes(1 << 20)


def connect(port=7, timeout=30, port_here=0, **options):
    """A connected socket, from this port where one is told. Congestion control is cubic, which a namespace may not have as its default."""
    client = socket.socket()
    client.setsockopt(socket.IPPROTO_TCP, socket.TCP_CONGESTION, b"cubic")
    for name, value in options.items():
        level = socket.IPPROTO_TCP if name.startswith("TCP") else socket.SOL_SOCKET
        client.setsockopt(level, getattr(socket, name), value)
    client.settimeout(timeout)
    if port_here:
        client.bind(("10.9.0.1", port_here))
    client.connect((HOST, port))
    return client


def read_to_end(client):
    data = b""
    while True:
        more = client.recv(65536)
        if not more:
            return data
        data += more


def echo(size, pause=0.0, timeout=120, **options):
    """Sends and reads at once, half closes behind the last byte, and reads to the end."""
    client = connect(timeout=timeout, **options)
    client.setblocking(False)
    sent = got = 0
    here, back = hashlib.sha256(), hashlib.sha256()
    closed, end, reads_from = False, time.monotonic() + timeout, time.monotonic() + pause
    while True:
        if time.monotonic() > end:
            raise TimeoutError(f"{got} of {size} bytes came back")
        reading = time.monotonic() >= reads_from
        readable, writable, _ = select.select([client] if reading else [], [client] if sent < size else [], [], 0.05)
        if writable:
            at = sent % len(BLOCK)
            part = BLOCK[at:at + min(65536, size - sent)]
            count = client.send(part)
            here.update(part[:count])
            sent += count
        if sent == size and not closed:
            closed = True
            client.shutdown(socket.SHUT_WR)
        if readable:
            data = client.recv(65536)
            if not data:
                break
            back.update(data)
            got += len(data)
    client.close()
    assert (got, back.digest()) == (size, here.digest()), f"{got} of {size} bytes came back, or others"


def discard(size, timeout=120):
    client = connect(port=9, timeout=timeout)
    left = size
    while left:
        left -= client.send(BLOCK[:min(left, len(BLOCK))])
    client.shutdown(socket.SHUT_WR)
    assert read_to_end(client) == b"", "discard sent something"
    client.close()


def one_after_another(count):
    for i in range(count):
        client = connect()
        client.sendall(b"%d" % i)
        client.shutdown(socket.SHUT_WR)
        assert read_to_end(client) == b"%d" % i
        client.close()


def at_once(count, size, timeout=120):
    data = BLOCK[:size]
    clients, poll = {}, select.poll()
    for _ in range(count):
        client = socket.socket()
        client.setblocking(False)
        client.connect_ex((HOST, 7))
        clients[client.fileno()] = [client, 0, bytearray()]
        poll.register(client, select.POLLIN | select.POLLOUT)
    end = time.monotonic() + timeout
    while clients:
        if time.monotonic() > end:
            raise TimeoutError(f"{len(clients)} of {count} connections aren't done")
        for number, event in poll.poll(200):
            state = clients[number]
            client, sent, back = state
            if event & select.POLLOUT and sent < size:
                state[1] += client.send(data[sent:sent + 65536])
                if state[1] == size:
                    client.shutdown(socket.SHUT_WR)
                    poll.modify(client, select.POLLIN)
            elif event & (select.POLLIN | select.POLLHUP | select.POLLERR):
                more = client.recv(65536)
                back += more
                if not more:
                    assert back == data, "other bytes came back"
                    poll.unregister(client)
                    client.close()
                    del clients[number]


def ping_pong(count, size=100, timeout=60):
    client = connect(timeout=timeout, TCP_NODELAY=1)
    for i in range(count):
        data = BLOCK[i:i + size]
        client.sendall(data)
        back = b""
        while len(back) < size:
            back += client.recv(size - len(back))
        assert back == data
    client.shutdown(socket.SHUT_WR)
    assert read_to_end(client) == b""
    client.close()


def reset_in_the_middle():
    """A reset in mid-transfer, and the same port again at once."""
    first = connect(SO_REUSEADDR=1)
    port = first.getsockname()[1]
    first.sendall(BLOCK[:100000])
    first.setsockopt(socket.SOL_SOCKET, socket.SO_LINGER, struct.pack("ii", 1, 0))
    first.close()
    second = socket.socket()
    second.setsockopt(socket.SOL_SOCKET, socket.SO_REUSEADDR, 1)
    second.settimeout(10)
    second.bind(("10.9.0.1", port))
    second.connect((HOST, 7))
    second.sendall(b"again")
    assert second.recv(10) == b"again"
    second.shutdown(socket.SHUT_WR)
    assert read_to_end(second) == b""
    second.close()


def refused(port=80):
    try:
        connect(port=port, timeout=5)
    except ConnectionRefusedError:
        return
    raise AssertionError(f"port {port} isn't refused")
