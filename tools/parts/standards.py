"""The kinds of differences between a captured server and the reference, each with its section and what the standard says of it.

`MUST` is said where the captured server breaks a MUST, or what TCP is defined by without that word; `SHOULD` where it departs from a
SHOULD; `choice` where the standard leaves both free; `service` where the application above TCP differs; and `unjudged` where the capture
alone can't tell. Where it has gaps, records that aren't whole, wrong sums, or segments that changed places, findings.NEEDS_WHOLE are
unjudged too; where the wire is long or loses, findings.NEEDS_WIRE. Numbers like MUST-40 are those of RFC 9293, appendix B.
"""
from dataclasses import dataclass

VERDICTS = ("MUST", "SHOULD", "service", "unjudged", "choice")


@dataclass(frozen=True)
class Kind:
    name: str
    verdict: str
    section: str
    rule: str


def kinds(*rows):
    return {row[0]: Kind(*row) for row in rows}


KINDS = kinds(
    # The handshake and options.
    ("no answer", "unjudged", "RFC 9293, 3.10.7.2", "A listening server answers a SYN with SYN,ACK. The capture has no segment of the server."),
    ("begins inside", "unjudged", "RFC 9293, 3.10.7.2", "The capture has no SYN of this connection, so the reference knows nothing of it and answers with resets."),
    ("SYN refused", "choice", "RFC 9293, 3.10.7.1", "Where nothing listens, a SYN is answered by a reset."),
    ("SYN acknowledged wrongly", "MUST", "RFC 9293, 3.10.7.2", "SYN,ACK acknowledges the SYN's number plus one, or more where the SYN had text."),
    ("maximum segment size", "choice", "RFC 9293, 3.7.1 (SHLD-5, MAY-3)", "The option says what the receiver can take; without it 536 holds."),
    ("window scale", "choice", "RFC 7323, 2.2", "Each side may offer a shift of its own, or none."),
    ("window scale unasked", "MUST", "RFC 7323, 2.2", "SYN,ACK may have the option only if the SYN had it."),
    ("window scale over 14", "MUST", "RFC 7323, 2.3", "The shift must be limited to 14."),
    ("selective acknowledgements", "choice", "RFC 2018, 2", "A side may permit them; the reference doesn't."),
    ("selective acknowledgements unasked", "MUST", "RFC 2018, 4", "Without the client's permission none may be sent. (That the server permits them itself is free.)"),
    ("timestamps", "choice", "RFC 7323, 3.2", "SYN,ACK may have them if the SYN had; the reference doesn't."),
    ("timestamps unasked", "MUST", "RFC 7323, 3.2", "They may be sent only if the SYN had them."),
    ("timestamp missing", "MUST", "RFC 7323, 3.2", "Once each SYN and SYN,ACK has had them, each segment but a reset must."),
    ("maximum segment size later", "MUST", "RFC 9293, 3.2 (MUST-65)", "The option must not stand in a segment without SYN."),
    ("window scale later", "MUST", "RFC 7323, 2.1", "The option is sent only in a segment with SYN."),
    ("selective acknowledgements permitted later", "MUST", "RFC 2018, 2", "The option must not be sent without SYN."),
    ("selective acknowledgement unsent", "MUST", "RFC 2018, 3", "A block is of text that came. (Said where it lies a megabyte beyond the text and the window, or before the SYN.)"),
    ("option malformed", "MUST", "RFC 9293, 3.2 (MUST-68)", "An option but the end and no operation has a length, which counts its own two bytes and lies in the header."),
    ("SYN,ACK again", "choice", "RFC 9293, 3.8.1; RFC 6298, 2.1", "An unanswered SYN,ACK goes again; the first timeout should be one second."),
    ("congestion notification", "choice", "RFC 3168, 6.1; RFC 9768", "ECE, CWR and AE are used where both sides agreed; the reference has none."),
    ("congestion notification unasked", "SHOULD", "RFC 3168, 6.1.1; RFC 9768", "ECE, CWR and AE should be clear where the other side's SYN has none of them."),
    ("captured twice", "unjudged", "RFC 791, 3.1", "The same datagram, by its identification, stands twice in the capture, as where it crosses a bridge; the second is left out, for sqrun too "
     "where most of a connection's do. (Without an identification: the same text or SYN within a millisecond.)"),
    ("not whole in the capture", "unjudged", "RFC 791, 3.1; RFC 9293, 3.1", "A record of these ends is cut short, a fragment, or malformed, so it doesn't tell what was sent. What needs a whole capture isn't judged."),
    # Where the two can't be compared.
    ("parts", "unjudged", "RFC 9293, 3.10.7.4", "The client follows the captured server to where the reference isn't: it acknowledges what the reference hasn't sent, or sends more "
     "than that has room for. The reference drops it. Nothing behind is compared."),
    ("capture ends first", "unjudged", "RFC 9293, 3.10", "The capture ends, or is cut, while the connection is at work. What the server would have sent next isn't known."),
    # Acknowledgements.
    ("acknowledged later", "choice", "RFC 9293, 3.8.6.3 (SHLD-18)", "An acknowledgement should be delayed a little, below 0.5 s. The reference sends each at once."),
    ("acknowledged too late", "MUST", "RFC 9293, 3.8.6.3 (MUST-40)", "The delay must be below 0.5 s. (Said where most of a connection's are later: the capture may lack one.)"),
    ("acknowledged together", "choice", "RFC 9293, 3.10.7.4 (MUST-58, MUST-59)", "What waits is processed before one acknowledgement is sent; how much waits is chance."),
    ("acknowledged too seldom", "SHOULD", "RFC 9293, 3.8.6.3 (SHLD-19)", "At least every second full-sized segment should be acknowledged."),
    ("acknowledged apart", "choice", "RFC 9293, 3.10.7.4", "An acknowledgement should go with text where that costs no undue delay; the service needs time, the reference's none."),
    ("gap not acknowledged", "SHOULD", "RFC 5681, 4.2; RFC 9293, 3.10.7.4 (MAY-13)", "A segment above a gap should be acknowledged at once."),
    ("acknowledged what wasn't sent", "MUST", "RFC 9293, 3.4 and 3.10.7.4", "An acknowledgement tells the next number that is expected. Behind the other side's FIN there is none."),
    ("acknowledged before it came", "MUST", "RFC 9293, 3.4", "An acknowledgement of X says that all before X was received. (MUST where most are in time: else two clocks may differ.)"),
    ("acknowledged what isn't captured", "unjudged", "RFC 9293, 3.4", "The capture has gaps, or the server acknowledges what never came. What needs a whole capture isn't judged."),
    ("text isn't captured", "unjudged", "RFC 9293, 3.4", "The other side acknowledged text which the capture lacks. What needs a whole capture isn't judged."),
    ("acknowledgement went back", "unjudged", "RFC 9293, 3.10.7.4", "RCV.NXT never falls; two acknowledgements may have changed places on the way. What needs their order isn't judged."),
    ("not acknowledged", "unjudged", "RFC 9293, 3.8.6.3", "The capture may end too early, or lack the acknowledgement."),
    # Windows.
    ("window", "choice", "RFC 9293, 3.8.6", "How much room a receiver announces is its own matter."),
    ("window closed", "choice", "RFC 9293, 3.8.6.1 (MAY-8)", "A receiver may keep its window closed."),
    ("window shrunk", "SHOULD", "RFC 9293, 3.8.6 (SHLD-14)", "The right edge of the window should not move to the left."),
    ("window opened by little", "MUST", "RFC 9293, 3.8.6.2.2 (MUST-39)", "A receiver must wait until it can open the window by a segment, or half its buffer."),
    # What is sent.
    ("text", "service", "RFC 862, RFC 863", "The server sent other bytes than the service of the reference does."),
    ("length of the text", "service", "RFC 862, RFC 863", "The server sent more or fewer bytes than the service of the reference does."),
    ("boundaries", "choice", "RFC 9293, 3.7 and 3.9.1.2 (SHLD-28)", "How a stream is cut into segments is free."),
    ("larger than the client takes", "MUST", "RFC 9293, 3.7.1 (MUST-15, MUST-16)", "Text and options must fit the client's maximum segment size, 536 where it named none. (Where its SYNs differ, the largest.)"),
    ("larger than a packet", "unjudged", "RFC 9293, 3.7.1", "The capture was taken before the card cut the segment (segmentation offload), or behind one that joins."),
    ("past the window", "MUST", "RFC 9293, 3.8.6 and 3.10.2", "A sender may send what the client's window has room for, and one byte to probe a window of 0. (MUST only where the client's next segments show no more room, and it never acknowledges that text, or not before it goes again.)"),
    ("PSH", "choice", "RFC 9293, 3.9.1.2 (MAY-15, MUST-61)", "The last segment of what an application sends has PSH, where SEND can't say so itself."),
    ("FIN with text", "choice", "RFC 9293, 3.10.4", "FIN may go with the last text or alone."),
    ("FIN", "service", "RFC 9293, 3.6", "When a server closes is its application's matter."),
    ("text after FIN", "MUST", "RFC 9293, 3.6", "Behind FIN nothing more is sent, and FIN keeps its number."),
    ("text changed", "MUST", "RFC 9293, 3.4", "Each byte has its own number: what is sent again is what was sent."),
    ("without ACK", "MUST", "RFC 9293, 3.1", "Once a connection is established, each segment has ACK."),
    ("reserved bits", "MUST", "RFC 9293, 3.1", "Reserved bits must be zero in what is sent. (The last of the four is AE of RFC 9768.)"),
    ("urgent", "choice", "RFC 9293, 3.8.5 (SHLD-13)", "Urgent data is supported, and new applications should not use it."),
    ("wrong checksum", "unjudged", "RFC 9293, 3.1 (MUST-2, MUST-3)", "The wire may have spoilt it, or its sender computes wrong. A receiver drops it; so it is left out of all else, for sqrun too."),
    ("checksum wrong each time", "MUST", "RFC 9293, 3.1 (MUST-2)", "A sender must compute it. (Said of a text that went three times and more, and was never taken.)"),
    ("checksums of the card", "unjudged", "RFC 9293, 3.1 (MUST-2)", "The capture was taken before the sender's card filled the sums in. All else is judged."),
    # What is sent again.
    ("sent again", "choice", "RFC 9293, 3.8.1; RFC 6298, 5", "What isn't acknowledged in time is sent again; the wire that was captured lost, the reference's timer is fixed."),
    ("sent again early", "SHOULD", "RFC 6298, 2.4", "A timeout below one second should be rounded up to it. (But for RFC 8985's probe: the last text, once, after two round trips, where both sides permit selective acknowledgements; and a SYN,ACK below 10 ms, whose SYN the wire may have doubled.)"),
    ("no backoff", "MUST", "RFC 9293, 3.8.2 (MUST-19); RFC 6298, 5.5", "The timeout must double each time. (Said where it doesn't grow.)"),
    ("window probed", "choice", "RFC 9293, 3.8.6.1 (SHLD-29)", "A window of 0 is probed first after a timeout, whose length is the server's."),
    ("window probed without backoff", "SHOULD", "RFC 9293, 3.8.6.1 (SHLD-30)", "The wait between probes should grow exponentially. (Said where the ninth is as short as the first.)"),
    ("window probed without text", "unjudged", "RFC 9293, 3.8.6.1 (MUST-36)", "A probe has a byte of new text or one sent again; an empty segment below the window draws the same answer."),
    ("window not probed", "MUST", "RFC 9293, 3.8.6.1 (MUST-36)", "Where text waits, a window of 0 must be probed regularly. (MUST from a minute on, where the text went as "
     "soon as there was room, and none had come since; else unjudged, from 6 s on.)"),
    # Resets and the end.
    ("reset", "choice", "RFC 9293, 3.5.2 and 3.6.1 (SHLD-3)", "A server that aborts, or has lost data, sends a reset."),
    ("no reset", "choice", "RFC 9293, 3.5.2", "The reference has returned to LISTEN, where an acknowledgement is answered by a reset."),
    ("reset with a wrong number", "MUST", "RFC 9293, 3.5.2 and 3.10.7.1", "A reset takes its number from what it answers, or is the next to be sent."),
    ("SYN not challenged", "SHOULD", "RFC 9293, 3.10.7.4; RFC 5961, 4", "A SYN on an established connection should be answered by an acknowledgement."),
    ("state at the end", "choice", "RFC 9293, 3.3.2", "Where the connection stands at the end of the capture."),
)
