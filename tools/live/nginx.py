"""Debian's nginx on a folder, and its answers beside those of a server of pages. Each difference that is awaited has a name and a reason."""
import contextlib
import re
import socket
import subprocess
import tempfile
import time
from dataclasses import dataclass
from pathlib import Path

import others
from frames import SERVER

CONFIG = """
daemon off; user root; worker_processes {workers}; pid {at}/pid; error_log {at}/error.log;
events {{ worker_connections 1024; }}
http {{
  include /etc/nginx/mime.types; default_type application/octet-stream; access_log off; sendfile on; open_file_cache max=100; keepalive_requests 1000000000;
  charset utf-8; charset_types text/css text/plain text/javascript application/json; absolute_redirect off;
  server {{ listen {address}:{port}; root {folder}; }}
}}
"""
# What each answer may differ in, and why.
ANYWHERE = {
    "Server there alone": "its program's name and version are nothing that a client needs",
    "Last-Modified there alone": "left out by name (docs/WEB.md): a page has no date",
    "Accept-Ranges there alone": "a client may ask for a part without it (RFC 9110, 14.3)",
    "ETag differs": "ours is made of the page's bytes, theirs of the file's date and length",
}
# What an answer may differ in that isn't of a page.
OF_NO_PAGE = {
    "content differs": "the words of a status are each server's own",
    "Content-Length differs": "as the words",
    "Content-Type differs": "ours are plain text, theirs HTML",
    "reason differs": "a client ignores it (RFC 9112, 4); ours are those of RFC 9110",
    "Allow here alone": "RFC 9110, 15.5.6, asks for it with 405",
}
OWN_STATUS = {
    "501 405": "a method that nobody knows (RFC 9110, 15.6.2)",
    "413 200": "content behind GET isn't skipped here (docs/WEB.md)",
    "431 400": "a head that is too long (RFC 6585, 5)",
    "404 200": "a path is compared byte for byte here; clients take out dots and doubled slashes before they ask (RFC 3986, 5.2.4)",
    "200 304": "conditions with dates are left out by name (docs/WEB.md)",
}
# Where a part is asked for.
OF_PARTS = {
    "200 416": "a range that ends before it begins, or is none at all, is passed over (RFC 9110, 14.1.1 and 14.2)",
}
OF_PARTS_BY_HEAD = {"200 206": "a range counts with GET alone (RFC 9110, 14.2)"}


@dataclass
class Told:
    status: str
    reason: str
    fields: dict
    content: bytes


def words(at, folder, address, port, workers=1):
    """The words that start nginx on this folder, in the foreground, with its own files in the folder `at`. SIGTERM ends it."""
    others.need("nginx", "nginx-light")
    config = Path(at, f"{port}-{workers}.conf")
    config.write_text(CONFIG.format(at=at, folder=folder, address=address, port=port, workers=workers))
    return ["nginx", "-e", f"{at}/error.log", "-c", str(config)]


class Nginx:
    """nginx on this folder at an address and a port, as a context."""
    def __init__(self, folder, address="127.0.0.1", port=8080):
        self.folder, self.address, self.port = folder, address, port

    def __enter__(self):
        self.at = tempfile.TemporaryDirectory()
        self.process = subprocess.Popen(words(self.at.name, self.folder, self.address, self.port))
        for _ in range(100):
            with contextlib.suppress(OSError), socket.create_connection((self.address, self.port)):
                return self
            time.sleep(0.05)
        raise AssertionError("nginx doesn't start")

    def __exit__(self, *_):
        self.process.terminate()
        self.process.wait()
        self.at.cleanup()


def ask(address, port, text):
    """What a server tells to this text, up to its FIN."""
    with socket.create_connection((address, port), timeout=10) as client:
        client.sendall(text)
        told = b"".join(iter(lambda: client.recv(1 << 16), b""))
    head, _, content = told.partition(b"\r\n\r\n")
    first, *lines = head.decode("latin-1").split("\r\n")
    found = re.fullmatch(r"HTTP/1\.1 (\d{3}) (.*)", first)
    assert found, told[:200]
    fields = [line.split(": ", 1) for line in lines]
    assert len({name.lower() for name, _ in fields}) == len(fields), f"a field stands twice: {lines}"
    return Told(*found.groups(), {name.title().replace("Etag", "ETag"): value for name, value in fields}, content)


def differences(ours, theirs):
    """The names of what differs."""
    if ours.status != theirs.status:
        return {f"{ours.status} {theirs.status}"}
    found = {f"{name} here alone" for name in ours.fields.keys() - theirs.fields.keys()} | {f"{name} there alone" for name in theirs.fields.keys() - ours.fields.keys()}
    found |= {f"{name} differs" for name in ours.fields.keys() & theirs.fields.keys() if name != "Date" and ours.fields[name] != theirs.fields[name]}
    return found | {what for what, pair in (("content differs", (ours.content, theirs.content)), ("reason differs", (ours.reason, theirs.reason))) if pair[0] != pair[1]}


def request(target, *fields, method="GET", version="1.1", host="Host: a", content=""):
    lines = [f"{method} {target} HTTP/{version}", *([host] if host else []), *fields, "Connection: close"]
    return ("\r\n".join(lines) + "\r\n\r\n" + content).encode("latin-1")


def requests(files, tag, date):
    """What both are asked, with a server's own tag and date of /k1.bin."""
    paths = ["/", "/sub", "/sub/", "/none", "/sub/none", "/index.html/", "/index.html?query", "/%69ndex.html", "/sub/../index.html", "//index.html",
             "http://a/style.css", *(name.replace(" ", "%20") for name in files)]
    yield from (request(path, method=method, version=version) for path in paths for method, version in (("GET", "1.1"), ("HEAD", "1.1"), ("GET", "1.0")))
    yield from (request("/", method=method) for method in ("POST", "PUT", "DELETE", "OPTIONS", "TRACE", "PATCH", "BREW", "CONNECT"))
    yield from (request("/k1.bin", field) for field in (f"If-None-Match: {tag}", f'If-None-Match: "x", W/{tag}', "If-None-Match: *", 'If-None-Match: "x"', f"If-Match: {tag}",
                                                        'If-Match: "x"', "If-Match: *", f"If-Modified-Since: {date}", "X: " + "y" * 9000, "Content-Length: 0"))
    yield from (request("/", version=version) for version in ("2.0", "1.2"))
    yield from (request("/", host=host) for host in ("", "Host: a\r\nHost: b", "Host : a", "Host: a/b"))
    yield request("/" + "a" * 9000)
    yield request("/", "Content-Length: 3", content="abc")
    yield request("/", "Content-Length: 3\r\nContent-Length: 4", content="abc")
    yield request("/", "Transfer-Encoding: chunked", content="3\r\nabc\r\n0\r\n\r\n")


def ranges(tag):
    """What both are asked for parts of /k1.bin."""
    yield from (request("/k1.bin", f"Range: {wanted}", method=method) for method in ("GET", "HEAD")
                for wanted in ("bytes=0-9", "bytes=-5", "bytes=10-", "bytes=1000-2000", "bytes=1024-", "bytes=5-4", "bytes=-0", "bytes=a-b", "lines=0-9", "bytes=0-1023"))
    yield from (request("/k1.bin", "Range: bytes=0-9", f"If-Range: {given}") for given in (tag, '"x"', f"W/{tag}"))


def awaited(text, status, ranged):
    """What the answers to this text may differ in, where ours has this status."""
    parts = OF_PARTS | (OF_PARTS_BY_HEAD if text.startswith(b"HEAD ") else {}) if ranged else {}
    return ANYWHERE | OWN_STATUS | parts | ({} if status in ("200", "206", "304") else OF_NO_PAGE)


def compare(files, folder, port, ranged):
    """Both servers are asked the same, with ranges where our server answers them: no difference but those of the lists, each of which is met. How
    many requests there were."""
    met, count = set(), 0
    with Nginx(folder) as nginx:
        ends = ((SERVER, port), (nginx.address, nginx.port))
        known = [ask(*end, request("/k1.bin")).fields for end in ends]
        asked = [[*requests(files, its["ETag"], known[1]["Last-Modified"]), *(ranges(its["ETag"]) if ranged else ())] for its in known]
        for pair in zip(*asked):
            told = [ask(*end, text) for end, text in zip(ends, pair)]
            found = differences(*told)
            others_found = sorted(found - awaited(pair[0], told[0].status, ranged).keys())
            assert not others_found, f"to {pair[0][:200]!r}: {others_found}; {told[0].status} {told[0].fields}, {told[1].status} {told[1].fields}"
            met |= found
            count += 1
    lists = awaited(b"HEAD ", "", ranged).keys()
    assert lists == met, f"no request shows {sorted(lists - met)}"
    return f"{count} requests, {len(lists)} awaited differences"
