"""What of a connection is worth a look: what was sent again, came late or was reset, closed windows, and how it ended."""
from dataclasses import dataclass

import timeseq
from capture import ACK, RST, SYN
from drawing import plural


@dataclass
class Interest:
    number: int
    again: int              # segments that sqrun sent again
    reasons: list           # in words

    def rank(self):
        """Most reasons first, and then in order."""
        return -len(self.reasons), -self.again, self.number


def of(number, conn, served):
    again = late = by_client = 0
    lives = timeseq.lives(conn, served)
    for life in lives:
        again += timeseq.kinds(life.replies, life.iss).count("again")
        came = timeseq.kinds(life.client, life.irs)
        by_client += came.count("again")
        late += came.count("late")
    twice = [f"{who} repeated {plural(n, 'segment')}" for who, n in (("sqrun", again), ("the client", by_client)) if n]
    reasons = twice + [f"{plural(late, 'segment')} of the client came late"] * bool(late)
    reasons += ["reset by the client"] * any(s.has(RST) for s in conn.client) + ["reset by sqrun"] * any(s.has(RST) for s in served.replies)
    reasons += ["window closed"] * any(s.window == 0 and s.has(ACK) and not s.has(RST | SYN) for s in [*conn.client, *served.replies])
    reasons += [f"used {len(lives)} times"] * (len(lives) > 1) + ["still open"] * (served.end not in ("LISTEN", "TIME-WAIT"))
    reasons += ["a call came too late"] * any(text in ("notopen", "already") for text in served.answers.values())
    return Interest(number, again, reasons)
