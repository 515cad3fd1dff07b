"""What each fact of `tools/sqlive status` means, by its name there: the launcher's, and the program's, which have `_total` where they count."""

LAUNCHERS = {
    "seconds": "For how many seconds the server has run.",
    "datagrams_in": "Datagrams that the device brought, the launcher's wake-ups too.",
    "bytes_in": "Bytes that the device brought.",
    "lost_in": "Datagrams that the device lost, since the server took them too late.",
    "datagrams_out": "Datagrams that the server sent.",
    "bytes_out": "Bytes that the server sent.",
    "asked": "Connections that a SYN asked for.",
    "opened": "Connections whose handshake was seen to be over.",
    "open": "Connections that were seen to open, and not to end.",
    "refused": "Resets from ports that aren't served.",
    "resets_in": "Resets that clients sent.",
    "resets_out": "Resets from ports that are served.",
    "answers": "Answers over HTTP.",
    "answers_by_status": "Answers over HTTP by their status.",
    "unseen": "Datagrams that the launcher's counts lack.",
    "uncaptured": "Datagrams that the capture lacks.",
    "unlogged": "Lines that the log lacks.",
    "cpu_seconds": "Processor time of the program.",
    "mover_cpu_seconds": "Processor time of what moves datagrams between the device and the rings.",
    "most_memory_kb": "The most memory that the program had, in KiB.",
    "rings": "How many rings serve.",
    "ring_in": "Datagrams that a ring was brought.",
    "ring_out": "Datagrams that a ring sent.",
}
PROGRAMS = {
    "connections": "Connections that have a place, half-open ones too.",
    "waiting": "The connections that were opened last, of which some may be half open and others over.",
    "held": "Bytes of text that all connections held at the last tick, with those that came since.",
    "draining": "1 once the server drains.",
    "passed_over_total": "Datagrams that are nothing that is answered, or have a wrong sum; on one thread the launcher's wake-ups too.",
    "pinged_total": "Echo requests that were answered.",
    "astray_total": "Segments to another address, or from one that is no other host's.",
    "refused_total": "Segments to ports that aren't served.",
    "opened_total": "Connections that took a place.",
    "turned_away_total": "Connections that found no place.",
    "gave_way_total": "Half-open connections that gave way to later ones.",
    "left_total": "Connections that left at a tick, though nobody ended them.",
    "challenges_total": "Challenges that were sent (RFC 5961).",
    "unanswered_total": "Segments that got no challenge, so shortly behind another one.",
    "late_total": "Segments that came at an earlier time than their connection's last one.",
    "over_full_total": "Segments whose text was passed over, since all connections hold as much as they may.",
    "shortened_total": "Connections whose segments became shorter for their path (RFC 1191).",
    "unreachable_total": "Segments whose network or host couldn't be reached, as a router says.",
    "port_unreachable_total": "Segments whose host has nobody for their protocol or port, as it says.",
    "prohibited_total": "Segments that somebody doesn't let pass, as it says.",
    "time_exceeded_total": "Segments that passed too many routers, or waited too long for their other fragments.",
    "parameter_problem_total": "Segments whose header somebody calls wrong.",
    "unreached_total": "Half-open connections that left at such a message.",
    "urgent_total": "How often urgent data came of which nothing was known, or it turned out to end later.",
}


def meaning_of(name):
    """The sentence for a name as Prometheus gets it, where both count beside `seen_`; empty for a count that has none."""
    return PROGRAMS.get(name) or LAUNCHERS.get(name) or LAUNCHERS.get(name.removeprefix("seen_"), "")
