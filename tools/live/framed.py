"""The live servers over frames, where the test gives the time: each step is deterministic, and needs neither root nor a device."""
import os
import socket
import threading

import tcp_segments
from frames import CLIENT, HEAD, SERVER, Frames
from tcp_segments import ACK, FIN, PSH, RST, SYN

SECOND = 1_000_000
MSS = b"\2\4\5\xb4"


class Alone:
    """`sqlive`, with one stream."""
    def __init__(self, program):
        self.program = program

    def start(self, **setting):
        server = Frames(self.program, **setting)
        self.process = server.process
        return server.ends[0]

    def ended(self):
        return self.process.wait(60)


class First:
    """The first of several rings, whose others get nothing."""
    def __init__(self, program, rings, **layout):
        self.words = program, rings, layout

    def start(self, **setting):
        server = Frames(*self.words, **setting)
        self.process, first, self.others = server.process, server.ends[0], server.ends[1:]
        return first

    def ended(self):
        for end in (end for ends in self.others for end in ends):
            os.close(end)
        return self.process.wait(60)


class Shared:
    """`sqlive` by several rings: whoever uses one of its rings shares the process with those who use the others."""
    def __init__(self, program, rings, **layout):
        self.words, self.lock, self.server = (program, rings, layout), threading.Lock(), None

    def start(self, ring, setting):
        with self.lock:
            if not self.server:
                self.server = Frames(*self.words, **setting)
            return self.server.ends[ring]

    def ended(self):
        return self.server.process.wait(60)


class Ring:
    """One of the rings of a shared server."""
    def __init__(self, server, ring):
        self.server, self.ring = server, ring

    def start(self, **setting):
        return self.server.start(self.ring, setting)

    def ended(self):
        return self.server.ended()


class Framed:
    """A stream of a program, as a context. The clock begins at a second."""
    def __init__(self, program, **setting):
        self.program, self.setting, self.now, self.mark = program, setting, SECOND, 0

    def __enter__(self):
        into, out_of = self.program.start(**self.setting)
        self.into, self.out_of = open(into, "wb"), open(out_of, "rb")
        return self

    def __exit__(self, *_):
        self.into.close()
        status = self.program.ended()
        self.out_of.close()
        assert status == 0, f"the program ended with status {status}"

    def step(self, *datagrams, after=0):
        """What is sent for each datagram, or for the time alone, so many microseconds later."""
        return list(map(tcp_segments.read, self.raw(*(datagrams or (b"",)), after=after)))

    def raw(self, *datagrams, after=0):
        """The same as bytes. Behind them goes a segment to a port that isn't served: its reset is the mark of the end."""
        self.now += after
        self.mark += 1
        mark = datagram(40000, 1, self.mark, 0, SYN, source="10.9.0.250")
        for body in (*datagrams, mark):
            self.into.write(HEAD.pack(len(body), self.now) + body)
        self.into.flush()
        sent = []
        while True:
            length, _ = HEAD.unpack(self.out_of.read(HEAD.size))
            sent.append(self.out_of.read(length))
            if sent[-1][9] == 6:
                found = tcp_segments.read(sent[-1])
                if (found.source_port, found.ack) == (1, self.mark + 1):
                    return sent[:-1]


def datagram(source_port, port, seq, ack, flags, source=CLIENT, target=SERVER, **fields):
    return tcp_segments.segment(socket.inet_aton(source), source_port, socket.inet_aton(target), port, seq, ack, flags, **fields)


class Client:
    """A client's end of a connection, which is opened here."""
    def __init__(self, server, port=40000, service=7, isn=1000, options=MSS, **fields):
        self.server, self.port, self.service, self.fields = server, port, service, fields
        answer, = server.step(self.segment(isn, 0, SYN, options=options))
        assert (answer.flags, answer.ack) == (SYN | ACK, isn + 1), answer
        self.seq, self.ack, self.announced = isn + 1, answer.seq + 1, answer.options
        assert server.step(self.segment(self.seq, self.ack, ACK)) == []

    def segment(self, seq, ack, flags, **fields):
        return datagram(self.port, self.service, seq, ack, flags, **{**self.fields, **fields})

    def send(self, text=b"", flags=PSH | ACK, after=0):
        """What comes back for a text that is next in order."""
        sent = self.server.step(self.segment(self.seq, self.ack, flags, text=text), after=after)
        self.seq += len(text) + bool(flags & FIN)
        return sent

    def close(self):
        """Closes, and acknowledges the server's FIN."""
        last = self.send(flags=FIN | ACK)[-1]
        assert last.flags & FIN, last
        self.ack = last.seq_end()
        assert self.server.step(self.segment(self.seq, self.ack, ACK)) == []
