"""What a server beside its blocks does with what strangers send: one function a rule, each over frames."""
import ipaddress
import socket
import struct

import tcp_segments
from framed import SECOND, Client, Framed, datagram
from frames import CLIENT, SERVER
from tcp_segments import ACK, FIN, PSH, RST, SYN


def addresses(program):
    """RFC 9293, 3.9.2.3: a segment to or from what is no host's address is dropped, also at a port that isn't served."""
    with Framed(program) as server:
        for port in (7, 80):
            for ends in ({"source": "255.255.255.255"}, {"source": "224.0.0.1"}, {"source": "240.0.0.1"}, {"source": "0.0.0.0"}, {"source": "127.0.0.1"},
                         {"source": "10.9.0.255"}, {"source": "10.9.0.2"}, {"target": "255.255.255.255"}, {"target": "224.0.0.1"},
                         {"target": "10.9.0.255"}, {"target": "8.8.8.8"}):
                for flags in (SYN, ACK):
                    assert server.step(datagram(40000, port, 1, 1, flags, **ends)) == [], f"an answer to port {port}, {ends}"
            assert server.step(datagram(port, port, 1, 0, SYN, source="10.9.0.2")) == [], "an answer to two equal ends"
        assert len(server.step(datagram(40000, 80, 1, 0, SYN))) == 1 and len(server.step(datagram(40001, 7, 1, 0, SYN, source="192.0.2.1"))) == 1


def challenges(program):
    """RFC 5961, 7: one challenge in 500 ms for each connection; text out of order is acknowledged each time (RFC 5681, 4.2)."""
    with Framed(program) as server:
        client, other = Client(server), Client(server, port=40001)
        resets = [client.segment(client.seq + 10, 0, RST)] * 10000
        first = server.step(*resets)
        assert [(s.flags, s.seq, s.ack) for s in first] == [(ACK, client.ack, client.seq)], first
        assert server.step(client.segment(client.seq - 1, client.ack, ACK), after=499_999) == []
        assert len(server.step(client.segment(client.seq, 0, SYN), after=1)) == 1
        assert len(server.step(other.segment(other.seq + 10, 0, RST))) == 1
        holes = [client.segment(client.seq + 100 * i, client.ack, ACK, text=b"hole") for i in (1, 2, 3)]
        assert len(server.step(*holes)) == 3
        assert server.step(client.segment(client.seq, 0, RST)) == []
        assert server.step(client.segment(client.seq, client.ack, ACK))[0].flags == RST, "a reset at RCV.NXT has to end it"


def blind(program):
    """RFC 5961, 5.2: text and FIN of somebody who guesses the acknowledgement don't come in, and get one challenge."""
    with Framed(program) as server:
        client = Client(server, options=b"\2\4\5\xb4\1\3\3\7")
        assert [s.text for s in client.send(b"honest")] == [b"honest"]
        client.ack += 6
        server.step(client.segment(client.seq, client.ack, ACK))
        guesses = [client.ack - 65536 - distance for distance in (1, 2**30, 2**31 - 2**17)] + [client.ack + distance for distance in (1, 2**20, 2**31 - 2**17)]
        for ack in guesses:
            sent = server.step(client.segment(client.seq, ack, ACK, text=b"evil"), client.segment(client.seq, ack, FIN | ACK), after=SECOND)
            assert [(s.flags, s.seq, s.ack) for s in sent] == [(ACK, client.ack, client.seq)], (ack, sent)
        # an acknowledgement that is a bit older is of use with its text
        sent = server.step(client.segment(client.seq, client.ack - 6, PSH | ACK, text=b"after"))
        assert [s.text for s in sent] == [b"after"], sent


def fresh(program):
    """The count of retransmissions is a connection's own: after eight connections with eight each, the ninth's text is sent again too. Where no round
    trip is measured, the timeout stays doubled (RFC 6298, 5.5 and 5.7)."""
    with Framed(program) as server:
        client = Client(server)
        for _ in range(9):
            for doubled in range(8):
                client.send(b"x")
                assert server.step(after=min(60, 2 ** doubled) * SECOND - 1) == [], doubled
                again, = server.step(after=1)
                assert again.text == b"x", again
                client.ack += 1
                server.step(client.segment(client.seq, client.ack, ACK))
            client.close()
            client = Client(server, isn=client.seq + 100_000)


def idle(program):
    """Four clients that vanished in a table for four: behind the idle limit the next client is served, and not before."""
    with Framed(program, places=4, idle=7200) as server:
        for i in range(4):
            Client(server, port=41000 + i)
        server.step(after=7200 * SECOND - 1)
        assert server.step(datagram(45000, 7, 1, 0, SYN)) == [], "a full table took a connection"
        server.step(after=1)
        assert len(server.step(datagram(45000, 7, 1, 0, SYN))) == 1, "nobody left"


def one_address(program):
    """A table for twelve, nine of whose places one address has, and three another one. Whoever comes from elsewhere gets one at the next tick: of the nine
    the one that was silent the longest leaves, one a tick, until these are as many as the three."""
    with Framed(program, places=12) as server:
        clients = [Client(server, port=41000 + i) for i in range(9)] + [Client(server, port=41000 + i, source="192.0.2.1") for i in range(3)]
        for client in reversed(clients):
            assert client.send(b"x", after=1)[-1].text == b"x"
            client.ack += 1
            server.step(client.segment(client.seq, client.ack, ACK))
        silent = list(reversed(clients[:9]))
        for i in range(6):
            source = f"192.0.2.{2 + i}"
            for newcomer in (source, "192.0.2.100"):
                assert server.step(datagram(45000, 7, 1, 0, SYN, source=newcomer)) == [], "a full table took a connection"
            assert server.step(datagram(45000, 7, 1, 0, SYN)) == [], "a full table took one of the many"
            server.step(after=SECOND // 50)
            left = silent.pop(0)
            Client(server, port=45000, source=source)
            assert server.step(datagram(45000, 7, 1, 0, SYN, source="192.0.2.100")) == [], "two left at a tick"
            assert [s.flags for s in server.step(left.segment(left.seq, left.ack, ACK, text=b"y"))] == [RST], "another one left"
        # three and three of twelve are no more than a quarter
        for _ in range(3):
            assert server.step(datagram(45000, 7, 1, 0, SYN, source="192.0.2.100"), after=SECOND // 50) == []
            server.step(after=SECOND // 50)
        for client in silent + clients[9:]:
            assert client.send(b"z")[-1].text == b"z"


def vanished(program):
    """As many clients as a table has places, and none is ever heard of again: thirty days later the next one is served."""
    with Framed(program, places=1024) as server:
        ports = range(20000, 21024)
        answers = server.step(*(datagram(port, 7, 1, 0, SYN) for port in ports))
        assert [s.target_port for s in answers] == list(ports)
        assert server.step(*(datagram(s.target_port, 7, 2, s.seq + 1, ACK) for s in answers)) == []
        assert server.step(datagram(45000, 7, 1, 0, SYN)) == [], "a full table took a connection"
        server.step(after=30 * 24 * 3600 * SECOND)
        assert [s.text for s in Client(server, port=45000).send(b"here")] == [b"here"], "nobody left"


def half_open(program):
    """A full table of half-open connections and two that are open: each SYN is answered, the oldest half-open one is the one that left."""
    with Framed(program, places=6) as server:
        first, second = Client(server, port=1000), Client(server, port=1001)
        for i in range(20):
            assert len(server.step(datagram(2000 + i, 7, 1, 0, SYN))) == 1
        assert [s.text for s in first.send(b"a")] == [b"a"] and [s.text for s in second.send(b"b")] == [b"b"]
        # those opened last are there: a second SYN resets them (RFC 9293, 3.10.7.4), and an older one opens a new connection
        youngest, older = datagram(2019, 7, 2, 0, SYN), datagram(2010, 7, 2, 0, SYN)
        assert server.step(youngest) == [] and len(server.step(older)) == 1


def own_age(program):
    """Who comes again from the same port has its own age: it doesn't give way for its first SYN, whose connection is over."""
    with Framed(program, places=2) as server:
        server.step(datagram(5000, 7, 1000, 0, SYN))
        server.step(datagram(5000, 7, 1001, 0, RST), after=1)
        again, = server.step(datagram(5000, 7, 9000, 0, SYN), after=1)
        assert len(server.step(datagram(5001, 7, 1, 0, SYN), after=1)) == 1
        assert server.step(datagram(5000, 7, 9001, again.seq + 1, ACK)) == [], "it was taken for an old one"


def half_closed(server, port):
    """A client of daytime that acknowledges the server's FIN and doesn't close: FIN-WAIT-2. The acknowledgement."""
    opened, = server.step(datagram(port, 13, 1000, 0, SYN))
    told, closed = server.step(datagram(port, 13, 1001, opened.seq + 1, ACK))
    assert server.step(datagram(port, 13, 1001, closed.seq_end(), ACK)) == []
    return closed.seq_end()


def closing(server, port, ack):
    """The flags of what the client's FIN is answered by."""
    answer, = server.step(datagram(port, 13, 1001, ack, FIN | ACK))
    return answer.flags


def silent(program):
    """Half open for three minutes, or silent in FIN-WAIT-2 for one: a connection leaves at the tick, and not before."""
    with Framed(program, ports={"echo": 7, "daytime": 13}) as server:
        (first,), (second,) = (server.step(datagram(port, 7, 1000, 0, SYN)) for port in (5000, 5001))
        server.step(after=180 * SECOND - 1)
        assert server.step(datagram(5000, 7, 1001, first.seq + 1, ACK)) == [], "it left too early"
        server.step(after=1)
        refused, = server.step(datagram(5001, 7, 1001, second.seq + 1, ACK))
        assert refused.flags & RST, "it is half open for ever"
        first, second = half_closed(server, 6000), half_closed(server, 6001)
        server.step(after=60 * SECOND - 1)
        assert closing(server, 6000, first) == ACK, "it left too early"
        server.step(after=1)
        assert closing(server, 6001, second) & RST, "it is half closed for ever"


def time_wait(program):
    """Connections in TIME-WAIT leave where three quarters of the places are taken, and else stay."""
    with Framed(program, places=4, ports={"echo": 7, "daytime": 13}) as server:
        acks = {}
        for ports in ((6000, 6001), (6002, 6003)):
            for port in ports:
                acks[port] = half_closed(server, port)
                assert closing(server, port, acks[port]) == ACK
            if ports[0] == 6000:
                server.step(after=1)
                assert all(closing(server, port, acks[port]) == ACK for port in ports), "it left too early"
        server.step(after=1)
        assert all(len(server.step(datagram(7000 + i, 7, 1, 0, SYN))) == 1 for i in range(4)), "nobody left"


def memory(program):
    """All connections hold at most so many bytes: text beyond is passed over with its FIN. At a tick where three quarters are held what stands behind
    gaps is forgotten, and nothing else."""
    with Framed(program, memory=3000) as server:
        holder, other = Client(server), Client(server, port=40001)

        def is_passed_over(text):
            sent = other.send(text)
            other.seq -= len(text)
            return sent == []

        for i in (1, 2, 3):
            server.step(holder.segment(holder.seq + 1000 * i, holder.ack, ACK, text=bytes(1000)))
        assert is_passed_over(b"x")
        assert server.step(b"") == []
        assert [s.text for s in other.send(b"x")] == [b"x"], "no room behind a tick"
        other.ack += 1
        assert server.step(other.segment(other.seq, other.ack, ACK), b"") == []
        # the first of these filled the gap, if anything were held behind it
        for _ in range(3):
            assert [(s.ack, s.text) for s in holder.send(bytes(1000))] == [(holder.seq, bytes(1000))]
        assert is_passed_over(b"y")
        assert server.step(b"") == []
        assert is_passed_over(b"y")
        assert server.step(holder.segment(holder.seq, 0, RST), b"") == []
        assert [s.text for s in other.send(b"y")] == [b"y"], "no room behind a reset"
        other.ack += 1
        assert server.step(other.segment(other.seq, other.ack, ACK)) == []


def ports(program):
    """Each service at the port that the words name: echo, daytime (RFC 867), which closes first, and the generator; port 9, unnamed, refuses."""
    with Framed(program, ports={"echo": 7007, "daytime": 13, "chargen": 19}) as server:
        client = Client(server, service=7007)
        assert [s.text for s in client.send(b"here")] == [b"here"]
        opened, = server.step(datagram(40001, 13, 1000, 0, SYN), after=86_400 * SECOND)
        told, closed = server.step(datagram(40001, 13, 1001, opened.seq + 1, ACK), after=SECOND - 1)
        assert (told.text, closed.flags & FIN) == (b"1970-01-02 00:00:01 UTC\r\n", FIN), (told, closed)
        opened, = server.step(datagram(40002, 19, 1000, 0, SYN))
        given = b"".join(s.text for s in server.step(datagram(40002, 19, 1001, opened.seq + 1, ACK)))
        assert given[:190] == 2 * bytes(range(32, 127)), given
        refused, = server.step(datagram(40003, 9, 1000, 0, SYN))
        assert refused.flags & RST, refused


def zero_window(program):
    """A window that is 0 for hours keeps the connection, whose probes are answered (RFC 9293, 3.8.6.1); as it opens the text comes at once."""
    with Framed(program) as server:
        client = Client(server, window=0)
        assert [s.text for s in client.send(b"text")] == [b""]
        for k in range(100):
            probes = server.step(after=(SECOND if k == 0 else 64 * SECOND))
            assert {(probe.seq, probe.text) for probe in probes} == {(client.ack, b"t")}, probes
            assert server.step(client.segment(client.seq, client.ack, ACK)) == []
        sent = server.step(client.segment(client.seq, client.ack, ACK, window=64240))
        told = bytearray(4)
        for found in sent:
            told[found.seq - client.ack:found.seq - client.ack + len(found.text)] = found.text
        assert told == b"text", sent
        client.ack += 4
        client.fields["window"] = 64240
        client.close()


def both_closed(program):
    """RFC 9293, 3.10.7.4: a client that writes and doesn't read has both windows closed. Once it reads, the text comes: its acknowledgement counts, which
    stands behind the byte of its probe."""
    text = bytes(k * 7 % 251 for k in range(2 * 65535))
    with Framed(program) as server:
        client = Client(server, window=0)
        for at in range(0, len(text), 1460):
            told = client.send(text[at:at + 1460])[-1]
        assert told.ack == client.seq, "what both queues hold"
        told, = server.step(client.segment(client.seq, client.ack, ACK, text=b"?"), after=SECOND // 5)
        assert told.ack == client.seq, "the probe's byte isn't taken"
        assert [s.text for s in server.step(after=SECOND)] == [text[:1]]
        back = bytearray(text[:1])
        while len(back) < len(text):
            acknowledged = client.ack + len(back)
            sent = server.step(client.segment(client.seq + 1, acknowledged, ACK, window=8760), after=SECOND // 10)
            if len(back) > 1 and not any(found.text for found in sent):
                # our window is open by a byte, and the client sends its own again
                sent = server.step(client.segment(client.seq, acknowledged, ACK, text=b"?", window=8760), after=SECOND // 10)
            assert any(found.text for found in sent), f"silence behind {len(back)} bytes"
            for found in sent:
                if found.seq == client.ack + len(back):
                    back += found.text
        assert back.startswith(text)


def late_copy(program):
    """RFC 6582, 3.2, and RFC 5827, 3.1: messages one by one, of which the wire doubles an answer late. Its acknowledgement has no other one sent twice."""
    with Framed(program) as server:
        client, copies = Client(server), 1
        for k in range(300):
            assert [s.text for s in client.send(bytes([k % 256]), after=SECOND // 100)] == [bytes([k % 256])], f"message {k}"
            copies = sum(len(server.step(client.segment(client.seq, client.ack, ACK), after=100)) for _ in range(copies))
            assert copies == 0, f"message {k} came twice"
            client.ack += 1


def echo_requests(program):
    """Echo requests (RFC 792) between a connection's segments: each is answered as it came, in order; a spoiled one, and one that isn't for us, aren't."""
    us, them = socket.inet_aton(SERVER), socket.inet_aton(CLIENT)
    with Framed(program) as server:
        client = Client(server)
        asked = [tcp_segments.echo(them, us, 8, b"\0\1\0" + bytes([k]) + bytes(range(k))) for k in range(20)]
        told = server.raw(asked[0], client.segment(client.seq, client.ack, PSH | ACK, text=b"x"), *asked[1:])
        client.seq, client.ack = client.seq + 1, client.ack + 1
        wanted = [tcp_segments.echo(us, them, 0, datagram[24:]) for datagram in asked]
        assert [told[0], *told[2:]] == wanted and tcp_segments.read(told[1]).text == b"x", told
        spoiled = [asked[5][:-1] + b"\7", asked[5][:20] + b"\10\1" + asked[5][22:], tcp_segments.echo(them, us, 0, b"abcd"),
                   tcp_segments.echo(them, socket.inet_aton("10.9.0.3"), 8, b"abcd"), tcp_segments.echo(socket.inet_aton("10.9.0.255"), us, 8, b"abcd"),
                   tcp_segments.echo(us, us, 8, b"abcd"), tcp_segments.echo(them, us, 8, b"abc")]
        assert server.raw(*spoiled) == []
        # so many between two ticks, and again behind a tick
        for _ in range(2):
            assert len(server.raw(*[asked[3]] * 1100)) in (1000, 1000 - len(asked))
            server.step(after=SECOND)
        client.close()


def pings(program):
    """As many echo requests are answered from tick to tick as the word says: 3 of 5, and behind a tick 3 again."""
    us, them = socket.inet_aton(SERVER), socket.inet_aton(CLIENT)
    asked, wanted = tcp_segments.echo(them, us, 8, b"\0\1\0\1text"), tcp_segments.echo(us, them, 0, b"\0\1\0\1text")
    with Framed(program, pings=3) as server:
        for _ in range(2):
            assert server.raw(*[asked] * 5) == [wanted] * 3
            server.step(after=SECOND)
        Client(server).close()


def path_mtu(program):
    """Where the paths take 1,300 bytes nothing longer is announced or sent (RFC 9293, 3.7.1), also to a client that takes more, and also where it comes again."""
    with Framed(program, mtu=1300) as server:
        client, text = Client(server), bytes(range(250)) * 10
        assert client.announced == struct.pack(">BBH", 2, 4, 1260), client.announced
        sent = client.send(text[:1400]) + client.send(text[1400:])
        assert b"".join(s.text for s in sent) == text and {len(s.text) for s in sent} == {1260, 140, 1100}, sent
        again = server.step(after=SECOND)
        assert [s.text for s in again] == [text[:1260]], again


def path_mtu_icmp(program):
    """RFC 1191: where a router says that a segment under way was too long, segments get shorter, but no shorter than 536 bytes, and what isn't acknowledged
    is sent again. It isn't heeded for another number, other ends, another address or a longer path, and nobody else's segments get shorter."""
    us, them, router = map(socket.inet_aton, (SERVER, CLIENT, "192.0.2.9"))
    text = bytes(range(250)) * 12

    def report(seq, mtu, port=40000, service=7, router=router, target=us):
        dropped = tcp_segments.segment(us, service, them, port, seq, 0, PSH | ACK, text=text[:1460])
        return tcp_segments.too_long(router, dropped, mtu, target)

    with Framed(program) as server:
        client, other = Client(server), Client(server, port=40001)

        def acknowledge(count):
            client.ack += count
            return [(s.seq, s.text) for s in server.step(client.segment(client.seq, client.ack, ACK))]

        assert [len(s.text) for s in client.send(text[:1460]) + client.send(text[1460:2920])] == [1460] * 2
        first = client.ack
        heeded = report(first + 1460, 1000)
        # unreachables, source quench, time exceeded, parameter problem (RFC 9293, 3.9.2.2)
        others = [tcp_segments.icmp(router, us, kind, code, heeded[24:]) for kind, code in ((3, 0), (3, 1), (3, 2), (3, 3), (3, 5), (4, 0), (11, 0), (12, 0))]
        passed_over = [report(first - 1, 1000), report(first + 2920, 1000), report(first, 1500), report(first, 1000, port=40002), report(first, 1000, service=9),
                       report(first, 1000, target=socket.inet_aton("10.9.0.3")), report(first, 1000, router=socket.inet_aton("224.0.0.1")), report(first, 1000, router=us),
                       heeded[:-1] + bytes((heeded[-1] ^ 1,)), heeded[:20] + b"\3\1" + heeded[22:], heeded[:-4], *others]
        assert server.raw(*passed_over) == []
        assert [(s.seq, s.text) for s in server.step(heeded, heeded)] == [(first, text[:960])]
        for at in (960, 1920):
            assert acknowledge(960) == [(first + at, text[at:min(at + 960, 2920)])]
        assert acknowledge(960) == [(first + 2880, text[2880:2920])] and acknowledge(40) == []
        assert [s.text for s in client.send(text[:1460])] == [text[:960], text[960:1460]]
        # no shorter than 536 bytes, also where the router doesn't say how long
        assert [s.text for s in server.step(report(client.ack, 0), report(client.ack, 300))] == [text[:536]]
        assert acknowledge(536) == [(client.ack, text[536:1072])] and acknowledge(924) == []
        assert [len(s.text) for s in other.send(text[:1460])] == [1460]


def drain(program):
    """Where the host orders it, no connection opens any more, and at the next tick each one closes: what is under way goes first, then its FIN. An order
    of anybody else, by a port that takes no right, with options or with a wrong sum says nothing, and so does another text."""
    us, host = socket.inet_aton(SERVER), socket.inet_aton("10.9.0.250")
    order = tcp_segments.udp(host, 1023, us, 11, b"drain")
    with_options = struct.pack(">BBH", 0x46, 0, len(order) + 4) + order[4:10] + b"\0\0" + order[12:20] + b"\1\1\1\0"
    with_options = with_options[:10] + struct.pack(">H", tcp_segments.inet_sum(with_options)) + with_options[12:] + order[20:]
    others = [tcp_segments.udp(socket.inet_aton(CLIENT), 1023, us, 11, b"drain"), tcp_segments.udp(host, 1024, us, 11, b"drain"), tcp_segments.udp(host, 1023, us, 12, b"drain"),
              tcp_segments.udp(host, 1023, socket.inet_aton("10.9.0.3"), 11, b"drain"), tcp_segments.udp(host, 1023, us, 11, b"drained"), tcp_segments.udp(host, 1023, us, 11, b""),
              order[:-1] + b"m", order[:8] + b"\77" + order[9:], order[:26] + b"\0\0" + order[28:], with_options]
    with Framed(program, host=ipaddress.ip_address("10.9.0.250")) as server:
        client, slow = Client(server), Client(server, port=40001, window=3)
        half, = server.step(datagram(40002, 7, 1000, 0, SYN))
        assert server.raw(*others, b"") == [] and [s.text for s in client.send(b"before")] == [b"before"], "somebody else's order"
        client.ack += 6
        assert [s.text for s in slow.send(b"longer")] == [b"lon"]
        assert server.raw(order) == [], "an answer to an order"
        refused, = server.step(datagram(41000, 7, 1000, 0, SYN))
        assert (refused.flags, refused.ack) == (RST | ACK, 1001), refused
        told, = server.step(after=1)
        assert (told.target_port, told.seq, told.flags) == (40000, client.ack, FIN | ACK), told
        # the slow one gets the rest, and its FIN behind it
        slow.ack += 3
        assert [s.text for s in server.step(slow.segment(slow.seq, slow.ack, ACK, window=100))] == [b"ger", b""]
        # the half-open one is told once it is open
        assert server.step(datagram(40002, 7, 1001, half.seq + 1, ACK)) == []
        told, = server.step(after=1)
        assert (told.target_port, told.seq, told.flags) == (40002, half.seq + 1, FIN | ACK), told
        client.ack += 1
        assert [s.flags for s in server.step(client.segment(client.seq, client.ack, FIN | ACK))] == [ACK]


RULES = {function.__name__.replace("_", "-"): function
         for function in (addresses, challenges, blind, fresh, idle, one_address, vanished, half_open, own_age, silent, time_wait, memory, zero_window, both_closed, late_copy, echo_requests, pings, path_mtu, path_mtu_icmp, ports,
                          drain)}
