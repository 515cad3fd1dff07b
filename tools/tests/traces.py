"""A report with very many marks, as long as one wishes: rings process feeds one by one, and move each connection after each two of them."""


def long_trace(marks, conns=1_000, squeues=4, rings=4, depth=20):
    """The report's text. Now and then a worker finds some feeds that were queued, and a call is made."""
    made, fed, home, count, turn, asked = [[] for _ in range(squeues)], [0] * conns, [c % squeues for c in range(conns)], 0, 0, 0
    while count < marks:
        c = turn % conns
        q, p, turn = home[c], c % rings, turn + 1
        here = made[q]
        if turn % 97 == 0:
            near = [d for d in range(c, min(c + 200, conns)) if home[d] == q and fed[d] % 2][:depth]
            here += [f"fill {d % rings} {d}.{fed[d]}" for d in near] + [f"work {rings + 4}", f"leave {rings + 4} 0 none"] * bool(near)
            count += len(near) + 2 * bool(near)
            for d in near:
                fed[d] += 1
        elif turn % 4_001 == 0 and asked < 100:
            here += [f"claim {rings + asked % 4} ask", f"leave {rings + asked % 4} 0 call {c} {asked % 4} {asked // 4}"]
            asked, count = asked + 1, count + 2
        elif fed[c] % 2 == 0 and fed[c]:
            home[c] = to = (q + 1) % squeues
            here += [f"claim {p} ask", f"leave {p} 0 out {c}"]
            made[to] += [f"claim {p} ask", f"leave {p} 0 in {c}", f"fast {p} {c}.{fed[c]}", f"leave {p} 0 none"]
            fed[c], count = fed[c] + 1, count + 6
        else:
            here += [f"fast {p} {c}.{fed[c]}", f"leave {p} 0 none"]
            fed[c], count = fed[c] + 1, count + 2
    return "\n".join(report(made, fed, conns, squeues, rings, asked)) + "\n"


def report(made, fed, conns, squeues, rings, asked):
    total = sum(fed)
    yield "report 2"
    yield f"records {total} tail 0 served {total} nofit 0 server 0 other 0 fragment 0 cut 0 malformed 0 badsum 0 connections {conns}"
    for c in range(conns):
        yield f"conn {c} 10.0.{c >> 8}.{c & 255}:{4000 + c} 10.9.0.1:7 echo"
        yield f"order f0-{max(fed[c] - 1, 0)}"
        yield "end LISTEN"
    yield f"setup squeues {squeues} rings {rings} mode process budget 64 spread 2 verify 0"
    for n in range(asked):
        yield f"call {n % 4}:0:status"
    for q, marks in enumerate(made):
        yield f"squeue {q} marks {len(marks)}"
        yield from marks
    yield "done"
