"""A site, its clients, and damaged requests beside the model of http_model: what live_test asks of a server of pages."""
import http.client
import os
import random
import re
import socket
import subprocess
import tempfile
import time
import zlib
from pathlib import Path

import http_model
import others
import pages
from framed import Client, Framed
from frames import SERVER
from tcp_segments import ACK, FIN, RST

PORT = 80


def site(folder):
    """Writes a site of pages of all sizes. Its files, by path."""
    draw = random.Random(1)
    rows = b"".join(b"\0" + draw.randbytes(3 * 40) for _ in range(30))

    def chunk(name, data):
        return len(data).to_bytes(4, "big") + name + data + zlib.crc32(name + data).to_bytes(4, "big")

    png = (b"\x89PNG\r\n\x1a\n" + chunk(b"IHDR", b"\0\0\0\x28\0\0\0\x1e\x08\2\0\0\0") + chunk(b"IDAT", zlib.compress(rows)) + chunk(b"IEND", b""))
    files = {
        "index.html": b"<!doctype html><title>Pages</title><link rel=stylesheet href=style.css><h1>Pages</h1><img src=pics/a.png><a href=sub/>sub</a>",
        "style.css": b"body { font-family: sans-serif }\n", "pics/a.png": png, "sub/index.html": b"<!doctype html><title>Sub</title><p>Below.\n",
        "hello world.txt": b"hello\n", "empty.txt": b"", "k1.bin": draw.randbytes(1024), "m1.bin": draw.randbytes(1 << 20)}
    for name, body in files.items():
        path = Path(folder, name)
        path.parent.mkdir(exist_ok=True)
        path.write_bytes(body)
    return {"/" + name: body for name, body in files.items()}


def curl(*words):
    """What curl writes. It isn't to take any of the user's settings."""
    others.need("curl", "curl")
    return subprocess.run(["curl", "-q", "-s", "-S", "--max-time", "30", *words], capture_output=True, check=True).stdout


def by_curl(files):
    """Each page by HTTP/1.1 and 1.0 as it lies there; several on one connection; parts of it; HEAD; a tag that is had; a folder; what isn't there."""
    base = f"http://{SERVER}"
    for name, body in files.items():
        url = base + name.replace(" ", "%20")
        assert curl(url) == body and curl("-0", url) == body, name
    told = curl("-w", "%{num_connects} ", "-o", "/dev/null", base + "/k1.bin", "-o", "/dev/null", base + "/style.css", "-o", "/dev/null", base + "/empty.txt")
    assert told == b"1 0 0 ", told
    large = files["/m1.bin"]
    for words, part in (("0-0", large[:1]), ("1000-", large[1000:]), ("-7", large[-7:]), ("5-99999999", large[5:])):
        assert curl("-r", words, base + "/m1.bin") == part, words
    tag = re.search(rb"ETag: (\S+)", curl("-I", base + "/m1.bin"))[1].decode()
    statuses = [curl("-o", "/dev/null", "-w", "%{http_code}", *words).decode() for words in (
        [base + "/"], ["-H", f"If-None-Match: {tag}", base + "/m1.bin"], ["-H", 'If-Match: "other"', base + "/m1.bin"], [base + "/sub"],
        ["-L", base + "/sub"], [base + "/none"], ["--path-as-is", base + "/../../etc/passwd"], ["-d", "text", base + "/"], ["-X", "DELETE", base + "/"],
        ["-X", "BREW", base + "/"], ["-r", "1-2", base + "/m1.bin"], ["-r", "1-2,5-6", base + "/m1.bin"], ["-r", "9999999-", base + "/m1.bin"],
        ["-r", "1-2", "-H", f"If-Range: {tag}", base + "/m1.bin"], ["-r", "1-2", "-H", 'If-Range: "x"', base + "/m1.bin"])]
    assert statuses == "200 304 412 301 200 404 404 405 405 501 206 200 416 206 200".split(), statuses


def by_wget(files):
    """The whole site, followed from its front page, is what lies there."""
    others.need("wget", "wget")
    with tempfile.TemporaryDirectory() as at:
        subprocess.run(["wget", "-q", "-r", "-l3", "-nH", "-P", at, f"http://{SERVER}/"], check=True, timeout=60)
        found = {"/" + str(path.relative_to(at)): path.read_bytes() for path in Path(at).rglob("*") if path.is_file()}
    assert found == {name: files[name] for name in found} and {"/index.html", "/style.css", "/pics/a.png", "/sub/index.html"} <= set(found), set(found)


def connected():
    return socket.create_connection((SERVER, PORT), timeout=30)


def read_all(client):
    told = b"".join(iter(lambda: client.recv(1 << 16), b""))
    client.close()
    return told


def pipelined(count, quiet=1):
    """So many requests in one go, by a client that reads nothing for so many seconds: each is answered, in order."""
    asked = [f"/k1.bin?{k}" if k % 3 else "/none" for k in range(count)]
    with connected() as client:
        text = b"".join(f"GET {path} HTTP/1.1\r\nHost: a\r\n{'Connection: close' if k == count - 1 else 'X: y'}\r\n\r\n".encode() for k, path in enumerate(asked))
        sent = 0
        client.setblocking(False)
        end = time.monotonic() + quiet
        while time.monotonic() < end:
            try:
                sent += client.send(text[sent:sent + 65536])
            except BlockingIOError:
                pass
            time.sleep(0.01)
        client.setblocking(True)
        client.settimeout(30)
        told = bytearray()
        while True:
            if sent < len(text):
                client.settimeout(0.01)
                try:
                    sent += client.send(text[sent:sent + 65536])
                except (TimeoutError, BlockingIOError):
                    pass
                client.settimeout(30)
            if not (some := client.recv(1 << 16)):
                break
            told += some
    statuses = re.findall(rb"HTTP/1\.1 (\d+) ", bytes(told))
    assert statuses == [b"200" if k % 3 else b"404" for k in range(count)], (len(statuses), statuses[:5])


def half_heads():
    """Half a request and FIN: nothing, and FIN. A request with FIN behind it: its answer, and FIN. A byte at a time: the answer."""
    for sent, wanted in ((b"GET / HT", b""), (b"GET /empty.txt HTTP/1.1\r\nHost: a\r\n\r\n", b"HTTP/1.1 200 OK")):
        with connected() as client:
            client.sendall(sent)
            client.shutdown(socket.SHUT_WR)
            assert read_all(client)[:len(wanted) or None] == wanted
    with connected() as client:
        client.setsockopt(socket.IPPROTO_TCP, socket.TCP_NODELAY, 1)
        for byte in b"GET /style.css HTTP/1.0\r\n\r\n":
            client.sendall(bytes([byte]))
        assert read_all(client).endswith(b"body { font-family: sans-serif }\n")


def kept_alive(count, files):
    """So many pages on each of 20 connections at once."""
    clients = [http.client.HTTPConnection(SERVER, PORT, timeout=30) for _ in range(20)]
    names = sorted(name for name in files if name != "/m1.bin")
    for k in range(count):
        for client in clients:
            client.request("GET", names[k % len(names)].replace(" ", "%20"))
        for client in clients:
            answer = client.getresponse()
            assert answer.status == 200 and answer.read() == files[names[k % len(names)]]
    for client in clients:
        client.close()


def byte_by_byte(files):
    """A request of a byte a segment, ten milliseconds apart, that has a half more behind it; and an answer that is taken a byte at a time."""
    with connected() as client:
        client.setsockopt(socket.IPPROTO_TCP, socket.TCP_NODELAY, 1)
        for byte in b"GET /k1.bin HTTP/1.1\r\nHost: a\r\nX: slow\r\n\r\nGET /style.css HTTP/1.0\r\n":
            client.sendall(bytes([byte]))
            time.sleep(0.01)
        client.sendall(b"\r\n")
        told = read_all(client)
        assert files["/k1.bin"] in told and told.endswith(files["/style.css"]), told[:300]
    with socket.socket() as client:
        client.setsockopt(socket.SOL_SOCKET, socket.SO_RCVBUF, 1024)
        client.setsockopt(socket.IPPROTO_TCP, socket.TCP_MAXSEG, 88)
        client.settimeout(30)
        client.connect((SERVER, PORT))
        client.sendall(b"GET /k1.bin HTTP/1.0\r\n\r\n")
        assert b"".join(iter(lambda: client.recv(1), b"")).endswith(files["/k1.bin"])


def by_wrk(count):
    """How many requests wrk makes in a second on so many connections. None fails."""
    others.need("wrk", "wrk")
    said = subprocess.run(["wrk", "-t1", f"-c{count}", "-d1s", f"http://{SERVER}/k1.bin"], capture_output=True, text=True, check=True, timeout=60).stdout
    assert "Non-2xx" not in said and "Socket errors" not in said, said
    return int(re.search(r"(\d+) requests in", said)[1])


def status_of(*words):
    return curl("-o", "/dev/null", "-w", "%{http_code}", *words).decode()


def are_ranges_answered():
    return status_of("-r", "0-0", f"http://{SERVER}/k1.bin") == "206"


def by_browser(folder):
    """A page whose script tells what a browser made of its style sheet, its picture and another page, in a folder that is about to be served."""
    Path(folder, "browser.html").write_text("""<!doctype html><link rel=stylesheet href=style.css><img src=pics/a.png><p id=told></p><script>
onload = async () => told.textContent = [getComputedStyle(document.body).fontFamily, document.images[0].naturalWidth, (await (await fetch('sub')).text()).length].join()
</script>""")

    def ask():
        program = others.need_one("chromium-headless-shell", "chromium")
        with tempfile.TemporaryDirectory() as at:
            words = [program, "--headless", "--no-sandbox", "--disable-gpu", f"--user-data-dir={at}", "--virtual-time-budget=5000", "--dump-dom",
                     f"http://{SERVER}/browser.html"]
            said = subprocess.run(words, capture_output=True, text=True, timeout=180, env={**os.environ, "HOME": at}).stdout
        assert '<p id="told">sans-serif,40,' in said, said[-300:]
        return re.search('id="told">(.*)</p>', said)[1]
    return ask


def by_ranges(files):
    """Parts of a page (RFC 9110, 14): from the front, the last bytes, from a byte on, none; several, which are answered by all; and If-Range."""
    url, body = f"http://{SERVER}/k1.bin", files["/k1.bin"]
    tag = re.search(rb"ETag: (\S+)", curl("-I", url))[1].decode()
    cases = {"0-9": body[:10], "-5": body[-5:], "10-": body[10:], "1023-1023": body[-1:], "1000-5000": body[1000:], "-5000": body, "0-1023": body}
    for wanted, part in cases.items():
        assert curl("-r", wanted, url) == part and status_of("-r", wanted, url) == "206", wanted
    head = curl("-D", "-", "-o", "/dev/null", "-r", "10-19", url).decode()
    assert f"Content-Range: bytes 10-19/{len(body)}\r\n" in head and "Content-Length: 10\r\n" in head, head
    for wanted in (f"{len(body)}-", "5000-6000", "-0"):
        head = curl("-D", "-", "-o", "/dev/null", "-r", wanted, url).decode()
        assert head.startswith("HTTP/1.1 416 ") and f"Content-Range: bytes */{len(body)}\r\n" in head, (wanted, head)
    # several ranges, a unit that isn't known, and a range that is none, may be passed over (14.2)
    for words in (["-r", "0-1,5-6"], ["-H", "Range: lines=0-9"], ["-H", "Range: bytes=5-4"], ["-r", "0-9", "-H", 'If-Range: "other"'],
                  ["-r", "0-9", "-H", f"If-Range: W/{tag}"]):
        assert curl(*words, url) == body and status_of(*words, url) == "200", words
    assert curl("-r", "0-9", "-H", f"If-Range: {tag}", url) == body[:10]
    assert status_of("-r", "0-9", "-H", f"If-None-Match: {tag}", url) == "304" and status_of("-r", "0-9", f"http://{SERVER}/none") == "404"
    with tempfile.TemporaryDirectory() as at:
        half = Path(at, "m1.bin")
        half.write_bytes(files["/m1.bin"][:500000])
        curl("-C", "-", "-o", str(half), f"http://{SERVER}/m1.bin")
        assert half.read_bytes() == files["/m1.bin"], "a download that goes on"
    return f"{len(cases)} parts"


def loaded(*words):
    """ab's requests all succeed. Requests a second."""
    others.need("ab", "apache2-utils")
    said = subprocess.run(["ab", "-q", *words, f"http://{SERVER}/k1.bin"], capture_output=True, text=True, check=True, timeout=120).stdout
    failed = re.search(r"Failed requests: +(\d+)", said)[1]
    assert failed == "0" and "Non-2xx" not in said, said
    return float(re.search(r"Requests per second: +([\d.]+)", said)[1])


# ---- damaged requests, over frames

HOST = b"Host: a\r\n"
SEEDS = [
    b"GET / HTTP/1.1\r\n" + HOST + b"\r\n", b"HEAD /style.css HTTP/1.1\r\n" + HOST + b"\r\n", b"GET /none HTTP/1.0\r\n\r\n",
    b"GET /hello%20world.txt HTTP/1.1\r\n" + HOST + b"Connection: close\r\n\r\n", b"GET /sub HTTP/1.1\r\n" + HOST + b"\r\n",
    b"POST / HTTP/1.1\r\n" + HOST + b"Content-Length: 3\r\n\r\nabc", b"GET http://a/k1.bin?q HTTP/1.1\r\n" + HOST + b"\r\n",
    b"GET /k1.bin HTTP/1.1\r\n" + HOST + b"If-None-Match: W/\"x\", *\r\n\r\n", b"GET / HTTP/1.1\r\n" + HOST + b"Transfer-Encoding: chunked\r\n\r\n0\r\n\r\n",
    b"\r\n\r\nGET /empty.txt HTTP/1.1\nHost: [::1]:80\n\n", b"OPTIONS * HTTP/1.1\r\n" + HOST + b"\r\n", b"GET / HTTP/2.0\r\n" + HOST + b"\r\n",
    b"GET / HTTP/1.1\r\n" + HOST + b"If-Match: \"x\"\r\n\r\n", b"GET / HTTP/1.0\r\nConnection: keep-alive\r\n\r\n",
    b"GET /k1.bin HTTP/1.1\r\n" + HOST + b"Range: bytes=10-" + b"9" * 40 + b"\r\n\r\n",
    b"GET /style.css HTTP/1.1\r\n" + HOST + b"Range: bytes=-9\r\nIf-Range: \"x\"\r\n\r\n",
    b"GET / HTTP/1.1\r\n" + HOST + b"Content-Length: 0\r\nContent-Length: 0\r\n\r\n"]
PIECES = [b"\r\n", b"\n", b"\r", b" ", b"\t", b":", b"\0", b"%", b"%2e", b"..", b"/", b"HTTP/1.1", b"Host: b\r\n", b"Content-Length: 5\r\n", b"chunked", b",", b"*", b"\x80",
          b"Transfer-Encoding: gzip\r\n", b"Connection: keep-alive, close\r\n", b"a" * 300, b"X: " + b"y" * 9000 + b"\r\n", b"http://", b"?",
          b"Range: bytes=1-\r\n", b"-", b"=", b"9"]


def damaged(draw):
    """A request, or two, with some of its bytes changed, left out, doubled, or put among others."""
    text = b"".join(draw.choice(SEEDS) for _ in range(draw.choice((1, 1, 1, 2, 3))))
    for _ in range(draw.choice((0, 1, 1, 2, 3))):
        at = draw.randrange(len(text) + 1)
        end = min(len(text), at + draw.choice((0, 0, 1, 1, 4, 20)))
        text = text[:at] + draw.choice([*PIECES, b"", bytes([draw.randrange(256)])]) + text[end:]
    return text


def told_of(client, text, draw):
    """All bytes that come back for a text that is sent in pieces, and whether the server's FIN came."""
    told, ended = bytearray(), False
    cuts = sorted(draw.randrange(len(text) + 1) for _ in range(draw.choice((0, 0, 1, 3))))
    pieces = [text[a:b] for a, b in zip([0, *cuts], [*cuts, len(text)])]
    waiting = [piece[k:k + 1400] for piece in pieces for k in range(0, len(piece), 1400)]
    while True:
        sent = client.send(waiting.pop(0)) if waiting else client.server.step(client.segment(client.seq, client.ack, ACK))
        for found in sent:
            if found.seq == client.ack:
                told += found.text
                client.ack = found.seq_end()
                ended = ended or bool(found.flags & FIN)
        if not waiting and not any(found.text or found.flags & FIN for found in sent):
            return bytes(told), ended


def parsed(told, given):
    """The answers in these bytes, as the model has them."""
    for wanted in given:
        head, _, told = told.partition(b"\r\n\r\n")
        first, *lines = head.split(b"\r\n")
        fields = {name.lower(): value for name, value in (line.split(b": ", 1) for line in lines)}
        status = int(re.fullmatch(rb"HTTP/1\.1 (\d{3}) [A-Za-z ]+", first)[1])
        length = 0 if wanted.body == b"" or status == 304 else int(fields[b"content-length"])
        body, told = told[:length], told[length:]
        assert len(body) == length and b"date" in fields, head
        assert status == wanted.status and (wanted.body is None or body == wanted.body), (status, wanted.status)
        assert all(fields.get(name) == value for name, value in wanted.fields.items()), (fields, wanted.fields)
        assert wanted.keeps or fields.get(b"connection") == b"close", fields
    assert told == b"", told[:80]


def broken_requests(program, count, seed):
    """So many damaged requests over frames, each on a connection of its own, are answered as the model says."""
    draw = random.Random(seed)
    with tempfile.TemporaryDirectory() as at:
        site(at)
        pack, _, _ = pages.pack_of(at)
        Path(at, "pack").write_bytes(pack)
        known = http_model.pages_in(pack)
        with Framed(program, pages=f"{at}/pack", ports={"web": PORT}) as server:
            for k in range(count):
                text = damaged(draw)
                client = Client(server, port=1024 + k % 60000, service=PORT, isn=draw.randrange(1 << 32))
                told, ended = told_of(client, text, draw)
                given, over = http_model.answers(known, text)
                try:
                    parsed(told, given)
                    assert ended == over, (ended, over)
                except (AssertionError, KeyError, ValueError, TypeError) as error:
                    raise AssertionError(f"request {k} of seed {seed}, {text!r}: {error!r}; told {told[:300]!r}; wanted {given}") from error
                client.server.step(client.segment(client.seq, client.ack, ACK | RST))
    return f"{count} requests"
