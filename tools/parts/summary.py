"""What a report and its capture say of each connection, as one flat set of fields (documented in docs/TOOLS.md)."""
from capture import RST
from listing import end_of
from timeseq import kinds, lives

FIELDS = ("connection", "client", "server", "service", "captured_port", "first_frame", "last_frame", "begins_us", "ends_us", "lives", "not_whole",
          "client_segments", "client_bytes", "client_again", "client_resets", "server_segments", "server_bytes", "server_again", "server_resets",
          "replies", "reply_bytes", "replies_again", "reply_resets", "answers", "captured_end", "end")


def lines(report, whole, ports=None):
    """A dictionary for each connection, in the report's order."""
    for number, (conn, served) in enumerate(zip(whole.conns, report.conns)):
        yield one(number, conn, served, report, ports)


def one(number, conn, served, report, ports):
    client, server = conn.tuple.split(" ")
    used = lives(conn, served)
    mapped = int(server.rpartition(":")[2])
    first = min(conn.client, key=lambda s: s.record)
    return {
        "connection": number, "client": client, "server": server, "service": served.service,
        "captured_port": ports.real_port(client, server) if ports else mapped,
        "first_frame": first.record + 1, "last_frame": max(s.record for s in conn.client + conn.server) + 1,
        "begins_us": first.at, "ends_us": max(s.at for s in conn.client + conn.server), "lives": len(used), "not_whole": len(conn.broken) // 2,
        "client_segments": len(conn.client), "client_bytes": sum(s.length for s in conn.client),
        "client_again": sum(kinds(life.client, life.irs).count("again") for life in used), "client_resets": sum(s.has(RST) for s in conn.client),
        "server_segments": len(conn.server), "server_bytes": sum(s.length for s in conn.server),
        "server_again": sum(kinds(life.server, life.iss).count("again") for life in used), "server_resets": sum(s.has(RST) for s in conn.server),
        "replies": len(served.replies), "reply_bytes": sum(s.length for s in served.replies),
        "replies_again": sum(kinds(life.replies, life.iss).count("again") for life in used), "reply_resets": sum(s.has(RST) for s in served.replies),
        "answers": [{"thread": j, "call": k, "asked": report.calls.get((j, k)), "answer": text} for (j, k), text in sorted(served.answers.items())],
        "captured_end": end_of(used[-1].client, used[-1].server), "end": served.end,
    }
