"""What a server of pages answers to bytes that come: a small model, written from RFC 9110 and RFC 9112 alone, for tests.

`answers(pages, received)` gives an `Answer` for each request, and whether the connection ends behind the last one. What the RFCs leave
open is as docs/WEB.md tells it.
"""
import re
import urllib.parse
from dataclasses import dataclass, field

MOST_HEAD = 8192
TOKEN = rb"[!#$%&'*+.^_`|~0-9A-Za-z-]+"
REQUEST_LINE = re.compile(rb"(" + TOKEN + rb") ([!-~\x80-\xff]+) HTTP/(\d)\.(\d)")
FIELD_LINE = re.compile(rb"(" + TOKEN + rb"):([\t -~\x80-\xff]*)")
# RFC 3986, 3.2.2 and 3.2.3: unreserved and sub-delims, reg-name, IP-literal (by its bytes alone, as docs/WEB.md tells), port
PLAIN = rb"A-Za-z0-9._~!$&'()*+,;=-"
REG_NAME = rb"(?:[" + PLAIN + rb"]|%[0-9A-Fa-f]{2})*"
IP_LITERAL = rb"\[[:" + PLAIN + rb"]+\]"
# Host = uri-host [ ":" port ] (RFC 9110, 7.2); an http URI has a host that isn't empty, and no user (4.2.1 and 4.2.4)
HOST = re.compile(rb"(" + IP_LITERAL + rb"|" + REG_NAME + rb")(?::[0-9]*)?")
HTTP_URI = re.compile(rb"(?i:http)://([^/?]*)([^?]*)(?:\?.*)?", re.DOTALL)
# entity-tag = [ weak ] opaque-tag (RFC 9110, 8.8.3), and a list of such, with empty elements (5.6.1)
ENTITY_TAG = rb'(?:W/)?"[\x21\x23-\x7e\x80-\xff]*"'
TAGS = re.compile(rb"[ \t]*(?:" + ENTITY_TAG + rb")?(?:[ \t]*,[ \t]*(?:" + ENTITY_TAG + rb")?)*[ \t]*")
ONE_RANGE = re.compile(rb"(?i:bytes)=([0-9]*)-([0-9]*)")
OTHER_METHODS = {b"POST", b"PUT", b"DELETE", b"CONNECT", b"OPTIONS", b"TRACE", b"PATCH"}


@dataclass
class Page:
    kind: bytes
    tag: bytes
    body: bytes


@dataclass
class Answer:
    status: int
    body: bytes | None = None
    fields: dict = field(default_factory=dict)
    keeps: bool = False


def pages_in(pack):
    """The pages of a pack, by path."""
    parts = []
    while pack:
        length = int.from_bytes(pack[:4], "big")
        parts.append(pack[4:4 + length])
        pack = pack[4 + length:]
    return {parts[k]: Page(*parts[k + 1:k + 4]) for k in range(0, len(parts), 4)}


def without_escapes(path):
    return re.sub(rb"%([0-9A-Fa-f]{2})", lambda found: bytes([int(found[1], 16)]), path)


def elements(values):
    """The elements of a field's list (RFC 9110, 5.6.1), of all lines of that name."""
    return [part.strip(b" \t") for value in values for part in value.split(b",") if part.strip(b" \t")]


def lower(values):
    return [value.lower() for value in elements(values)]


class Request:
    """A request's head; `fault` is the status of one that can't be taken."""
    def __init__(self, lines):
        self.fault, self.method, self.fields = None, b"", {}
        found = REQUEST_LINE.fullmatch(lines[0])
        self.method = lines[0].split(b" ")[0]
        if not found:
            self.fault = 400
            return
        _, self.target, major, minor = found.groups()
        self.old = minor == b"0"
        if major != b"1":
            self.fault = 505
            return
        for line in lines[1:]:
            if not (found := FIELD_LINE.fullmatch(line)):
                self.fault = 400
                return
            self.fields.setdefault(found[1].lower(), []).append(found[2].strip(b" \t"))
        hosts = self.of(b"host")
        if len(hosts) > 1 or not hosts and not self.old or not all(map(HOST.fullmatch, hosts)):
            self.fault = 400
            return
        self.read_framing()

    def of(self, name):
        return self.fields.get(name, [])

    def read_framing(self):
        """RFC 9112, 6.1 to 6.3."""
        # a list in a Content-Length field may be refused (RFC 9110, 8.6): here it is, and so is a list of codings that ends in a comma
        lengths, codings = self.of(b"content-length"), lower(self.of(b"transfer-encoding"))
        self.content, cut = bool(codings), [part.strip(b" \t") for value in self.of(b"transfer-encoding") for part in value.split(b",")]
        if cut and (self.old or lengths or not cut[-1]):
            self.fault = 400
        elif codings and codings != [b"chunked"]:
            self.fault = 400 if codings.count(b"chunked") > 1 or b"chunked" in codings[:-1] or codings[-1] != b"chunked" else 501
        elif lengths:
            if not all(re.fullmatch(rb"\d+", length) for length in lengths) or len(set(map(int, lengths))) != 1:
                self.fault = 400
            else:
                self.content = int(lengths[0]) > 0

    def keeps(self):
        said = lower(self.of(b"connection"))
        return not self.content and b"close" not in said and (not self.old or b"keep-alive" in said)

    def path(self):
        """The path that is asked for (RFC 9112, 3.2.1 and 3.2.2); None where the target has neither form."""
        if self.target[:1] == b"/":
            return self.target.split(b"?")[0]
        found = HTTP_URI.fullmatch(self.target)
        named = found and HOST.fullmatch(found[1])
        return (found[2] or b"/") if named and named[1] else None


def tags_in(value):
    """The entity tags of a field's value. One that is no list of tags is cut at its commas, as docs/WEB.md tells."""
    return re.findall(ENTITY_TAG, value) if TAGS.fullmatch(value) else elements([value])


def tags_match(values, tag, weak):
    """If-Match and If-None-Match = "*" / #entity-tag (RFC 9110, 13.1.1 and 13.1.2), by the comparison of 8.8.3.2."""
    return b"*" in values or any(given == tag or weak and given == b"W/" + tag for value in values for given in tags_in(value))


def part_of(request, page):
    """The part of a page that GET wants, as its first place and the one behind its last: None where all is sent, "none" where no byte of
    it is there (RFC 9110, 13.1.5, 14.1.1, 14.1.2 and 14.2)."""
    size, ranges, if_range = len(page.body), request.of(b"range"), request.of(b"if-range")
    found = ONE_RANGE.fullmatch(ranges[0]) if len(ranges) == 1 else None
    # a server may ignore any Range field: it does with several ranges, with other units, and with what is no range
    if request.method != b"GET" or not found or found[0].endswith(b"=-") or if_range and if_range != [page.tag]:
        return None
    first, last = found.groups()
    if not first:
        count = int(last)
        # an empty page has no part to tell of, so it is sent whole
        return "none" if count == 0 else None if size == 0 else (max(size - count, 0), size)
    if int(first) >= size:
        return "none"
    if last and int(last) < int(first):
        return None
    return int(first), min(int(last) + 1, size) if last else size


def of_page(pages, request, path, answer):
    page = pages[path]
    if request.of(b"if-match") and not tags_match(request.of(b"if-match"), page.tag, False):
        answer.status = 412
    elif tags_match(request.of(b"if-none-match"), page.tag, True):
        answer.status, answer.fields = 304, {b"etag": page.tag}
    elif (part := part_of(request, page)) == "none":
        answer.status, answer.fields = 416, {b"content-range": b"bytes */%d" % len(page.body)}
    elif part:
        answer.status, answer.body = 206, page.body[slice(*part)]
        answer.fields = {
            b"etag": page.tag, b"content-type": page.kind, b"content-length": b"%d" % len(answer.body),
            b"content-range": b"bytes %d-%d/%d" % (part[0], part[1] - 1, len(page.body))}
    else:
        answer.status, answer.body = 200, page.body
        answer.fields = {b"etag": page.tag, b"content-type": page.kind, b"content-length": b"%d" % len(page.body)}
    return answer


def last(status):
    """An answer behind which the connection ends, and that says so (RFC 9112, 9.6)."""
    return Answer(status, fields={b"connection": b"close"})


def answer_of(pages, lines):
    request = Request(lines)
    if request.fault:
        return last(request.fault)
    answer = Answer(0, keeps=request.keeps())
    if request.method not in (b"GET", b"HEAD"):
        answer.status = 405 if request.method in OTHER_METHODS else 501
        answer.fields = {b"allow": b"GET, HEAD"} if answer.status == 405 else {}
    elif request.content:
        answer.status = 413
    elif (path := request.path()) is None:
        return last(400)
    elif (plain := without_escapes(path)) in pages:
        answer = of_page(pages, request, plain, answer)
    elif plain + b"/" in pages:
        answer.status, answer.fields = 301, {b"location": urllib.parse.quote(plain + b"/", safe="/-._~!$&'()*+,;=:@").encode()}
    else:
        answer.status = 404
    if not answer.keeps or request.old:
        answer.fields[b"connection"] = b"keep-alive" if answer.keeps else b"close"
    return answer


def head_of(received):
    """Where the head at the front ends, and its lines; None while it isn't whole."""
    at = re.match(rb"(\r?\n)*", received).end()
    found = re.search(rb"\n\r?\n", received[at:MOST_HEAD])
    if not found:
        return None
    end = at + found.end()
    return end, [line for line in (line.removesuffix(b"\r") for line in received[at:end].split(b"\n")) if line]


def answers(pages, received):
    """What is answered to all of this, in order, and whether the connection ends then."""
    given = []
    while received:
        at = re.match(rb"(\r?\n)*", received[:MOST_HEAD]).end()
        first = received[at:at + 1]
        if first and first != b"\r" and not re.fullmatch(TOKEN, first):
            return [*given, last(400)], True
        head = head_of(received)
        if head is None:
            if len(received) < MOST_HEAD:
                break
            return [*given, last(431 if b"\n" in received[at:MOST_HEAD] else 414)], True
        end, lines = head
        given.append(answer_of(pages, lines))
        # whoever asks by HEAD takes no content (RFC 9110, 9.3.2), also where the rest of the line is none
        if lines[0].split(b" ")[0] == b"HEAD":
            given[-1].body = b""
        if not given[-1].keeps:
            return given, True
        received = received[end:]
    return given, False
