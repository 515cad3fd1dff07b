"""bindings: libsqtcp for C, Rust and Python. It's ./libsqtcp.a and ./libsqtcp.so, as `./build libsqtcp` leaves them, or those of the folder that
SQTCP_LIB_DIR names. Nothing here proves: the tests show that headers and declarations fit what was proved, and how a caller's faults are met."""
import contextlib
import doctest
import os
import re
import shutil
import subprocess
import sys
import tempfile
import threading
import unittest
from pathlib import Path

from common import TOOLS, TOP, need

sys.path.insert(0, str(TOOLS / "live"))

from tcp_segments import ACK, FIN, PSH, SYN, read, segment      # noqa: E402

BINDINGS, TESTS = TOP / "bindings", TOP / "bindings" / "tests"
FOLDER = Path(os.environ.get("SQTCP_LIB_DIR") or TOP)
ROWS = TOP / "crates" / "cases_programs" / "data" / "sqlive.rows"
FRAMES = TOP / "crates" / "sqlive" / "stdin"
US, PEER = bytes((10, 9, 0, 2)), bytes((10, 9, 0, 1))
FUZZED = 20_000                 # runs of the fuzzer in a test


def library(name):
    """The path of libsqtcp.a or libsqtcp.so."""
    if not (FOLDER / name).exists():
        raise unittest.SkipTest(f"no {name}: run ./build libsqtcp, or name its folder by SQTCP_LIB_DIR")
    return FOLDER / name


def ran(command, status=0, **how):
    """What a command prints."""
    done = subprocess.run(list(map(str, command)), capture_output=True, **how)
    assert done.returncode == status, (command, done.returncode, done.stdout[-1000:], done.stderr[-3000:])
    return done.stdout.decode()


@contextlib.contextmanager
def program(compiler, source, *words):
    """A program of C over the archive, compiled with every warning; the words stand before the archive."""
    need(compiler)
    archive = library("libsqtcp.a")
    with tempfile.TemporaryDirectory() as folder:
        made = Path(folder) / "program"
        ran([compiler, "-O1", "-g", "-Wall", "-Wextra", "-Werror", "-I", BINDINGS / "include", source, *words, archive, "-o", made])
        yield made


def python():
    """The Python side, over the library that is tested."""
    shared = library("libsqtcp.so")
    if str(BINDINGS / "python") not in sys.path:
        sys.path.insert(0, str(BINDINGS / "python"))
    os.environ["SQTCP_LIBRARY"] = str(shared)
    import sqtcp
    return sqtcp


def header_names():
    """The calls that the header declares."""
    return re.findall(r"^(?:uint32_t|size_t|void) (sqtcp_\w+)\(", (BINDINGS / "include" / "sqtcp.h").read_text(), re.M)


class Names(unittest.TestCase):
    def test_the_library_has_the_names_of_the_header_and_no_others(self):
        need("nm")
        for words, name in ((["-g"], "libsqtcp.a"), (["-D"], "libsqtcp.so")):
            lines = ran(["nm", *words, "--defined-only", library(name)]).splitlines()
            self.assertEqual(sorted(line.split()[2] for line in lines if len(line.split()) == 3), sorted(header_names()))

    def test_it_asks_for_memory_and_for_nothing_else(self):
        need("nm")
        asked = {line.split()[-1] for line in ran(["nm", "-u", library("libsqtcp.a")]).splitlines() if " U " in line}
        self.assertLessEqual(asked, {"malloc", "realloc", "free", "memcpy", "memmove", "memset", "memcmp"})
        self.assertLessEqual({"malloc", "free"}, asked)

    def test_each_call_is_declared_in_rust_and_python(self):
        rust = re.findall(r"pub fn (sqtcp_\w+)\(\s*server", (BINDINGS / "rust" / "sqtcp" / "src" / "lib.rs").read_text())
        calls = re.search(r"^CALLS = \{.*?^\}", (BINDINGS / "python" / "sqtcp.py").read_text(), re.M | re.S).group()
        self.assertEqual(rust, header_names())
        self.assertEqual([f"sqtcp_{name}" for name in re.findall(r'^    "(\w+)"', calls, re.M)], header_names())

    def test_pkg_config(self):
        need("pkg-config")
        words = ran(["pkg-config", "--cflags", "--libs", "sqtcp"], env={**os.environ, "PKG_CONFIG_PATH": str(BINDINGS)}).split()
        self.assertEqual([Path(words[0].removeprefix("-I")).resolve(), Path(words[1]).resolve()], [BINDINGS / "include", TOP / "libsqtcp.a"])


class Layout(unittest.TestCase):
    def test_c_rust_and_python_agree(self):
        sqtcp = python()
        lines = []
        for name, struct in (("sqtcp", sqtcp.Handle), ("sqtcp_setting", sqtcp.Setting)):
            lines.append(f"{name} {sqtcp.ctypes.sizeof(struct)}")
            lines += [f"{name}.{field} {getattr(struct, field).offset}" for field, _ in struct._fields_]
        with program("gcc", TESTS / "layout.c") as made:
            self.assertEqual(ran([made]).splitlines(), lines)
        need("cargo")
        with tempfile.TemporaryDirectory() as folder:
            told = Path(folder) / "layout"
            cargo(folder, "test", "--lib", SQTCP_LAYOUT=str(told))
            self.assertEqual(told.read_text().splitlines(), lines)


def cargo(folder, *words, **environment):
    """What cargo prints, without a network."""
    library("libsqtcp.a")
    its = {**os.environ, "SQTCP_LIB_DIR": str(FOLDER), "CARGO_TARGET_DIR": str(folder), **environment}
    return ran(["cargo", *words, "--offline", "--quiet", "--manifest-path", BINDINGS / "rust" / "sqtcp" / "Cargo.toml"], env=its)


class Rust(unittest.TestCase):
    def test_its_own_tests(self):
        need("cargo")
        with tempfile.TemporaryDirectory() as folder:
            self.assertIn("test result: ok", cargo(folder, "test"))


def rows():
    """(name, words, frames, datagrams wanted) of the rows of sqlive over one thread, without pages, that end well. An independent model gave what
    is wanted."""
    parts, found = {}, []
    for block in ROWS.read_text().split("\n\n"):
        lines = [line for line in block.splitlines() if not line.startswith("#")]
        if not lines:
            continue
        fields, field = {}, None
        for line in lines:
            if not line.startswith(" "):
                field, _, rest = line.partition(" ")
                fields.setdefault(field, [rest] if rest else [])
            else:
                fields[field].append(line.strip())
        if "part" in fields:
            parts[lines[0].split()[1]] = fields["part"][1:]
            continue
        runs = [run for word in fields.get("each", []) for run in (parts[word[1:]] if word.startswith("@") else [word])] + fields.get("words", [])
        runs = [run.split() for run in runs if run.startswith("sqlive frames")]
        plain = all(line.startswith("hex ") for line in fields.get("input", []))
        if runs and plain and "status" not in fields and not {"reads", "failing_reads", "failing_writes"} & set(fields):
            frames = b"".join(bytes_of(word) for line in fields.get("input", []) for word in line.split()[1:])
            found.append((fields["row"][0], runs[0], frames, [bytes.fromhex(line.split()[1]) for line in fields.get("out", [])]))
    return found


def bytes_of(word):
    """What a word of a row says: bytes, or N*BYTE for N of one."""
    count, _, byte = word.rpartition("*")
    return bytes.fromhex(byte) * int(count or 1)


def server_of(sqtcp, words):
    """A server by the words of sqlive frames."""
    secret, address, broadcast, places, idle, held, most, *rest = words[2:]
    marking = {}
    while rest and rest[0] in ("--ttl", "--dscp"):
        marking[rest[0][2:]] = int(rest[1])
        rest = rest[2:]
    ports = {"echo": 7, "discard": 9} if not rest else {name: int(port) for name, _, port in (word.partition("=") for word in rest[0].split(","))}
    return sqtcp.Server(secret=bytes.fromhex(secret), address=int(address, 16), broadcast=int(broadcast, 16), places=int(places), idle=int(idle) * 1_000_000,
                        held=int(held), segment=int(most), pings=int(rest[1]) if rest[1:] else 1000, host=int(rest[2], 16) if rest[2:] else 0,
                        **ports, **marking)


def frames_in(data):
    """(time, body) of each frame."""
    at = 0
    while at < len(data):
        size, time = (int.from_bytes(data[i:i + 8], "big") for i in (at, at + 8))
        yield time, data[at + 16:at + 16 + size]
        at += 16 + size


class Stored(unittest.TestCase):
    def test_the_rows_of_the_live_server(self):
        sqtcp, tried = python(), 0
        for name, words, frames, wanted in rows():
            if "web=" in " ".join(words):
                continue
            with self.subTest(row=name), server_of(sqtcp, words) as server:
                sent = []
                for time, body in frames_in(frames):
                    sent += server.datagram(time, body) if body else server.tick(time)
                self.assertEqual(sent, wanted)
                tried += 1
        self.assertGreater(tried, 40)


class Session(unittest.TestCase):
    def setUp(self):
        self.sqtcp = python()

    def test_echo(self):
        """A handshake, text and its echo, and both ends close."""
        with self.sqtcp.Server(address="10.9.0.2", broadcast="10.9.0.255", echo=7) as server:
            def say(now, seq, ack, flags, text=b""):
                return [read(sent) for sent in server.datagram(now, segment(PEER, 4000, US, 7, seq, ack, flags, text=text))]

            (answer,) = say(1, 100, 0, SYN)
            self.assertEqual((answer.flags, answer.ack), (SYN | ACK, 101))
            self.assertEqual(say(2, 101, answer.seq + 1, ACK), [])
            self.assertEqual(server.connections(), 1)
            (echoed,) = say(3, 101, answer.seq + 1, PSH | ACK, b"hello")
            self.assertEqual((echoed.text, echoed.ack), (b"hello", 106))
            (closing,) = say(4, 106, answer.seq + 6, FIN | ACK)
            self.assertEqual((closing.flags & FIN, closing.ack), (FIN, 107))
            self.assertEqual(say(5, 107, answer.seq + 7, ACK), [])
            self.assertEqual(server.connections(), 0)

    def test_another_thread_is_told(self):
        server, told = self.sqtcp.Server(address="10.9.0.2", broadcast="10.9.0.255"), []

        def ticks():
            try:
                server.tick(1)
            except RuntimeError as fault:
                told.append(str(fault))

        other = threading.Thread(target=ticks)
        other.start()
        other.join()
        self.assertEqual(told, ["a server is for the thread that opened it"])
        server.close()

    def test_what_is_out_of_range(self):
        server = self.sqtcp.Server(address="10.9.0.2", broadcast="10.9.0.255")
        for now in (-1, 2**62 + 1, 2**64):
            self.assertRaises(self.sqtcp.Refused, server.tick, now)
            self.assertRaises(self.sqtcp.Refused, server.datagram, now, b"")
        self.assertRaises(self.sqtcp.Refused, server.datagram, 1, bytes(65_536))
        self.assertEqual(server.datagram(1, bytearray(65_535)), [])
        for words in ({"echo": 65_536}, {"places": -1}, {"held": 2**64}, {"segment": 70_000}, {"secret": b"short"}):
            self.assertRaises(ValueError, self.sqtcp.Server, address="10.9.0.2", broadcast="10.9.0.255", **words)
        server.close()
        server.close()
        self.assertRaises(self.sqtcp.Closed, server.tick, 1)
        self.assertEqual((server.connections(), server.sent()), (0, []))


class Misuse(unittest.TestCase):
    def test_each_that_has_an_answer_gets_it(self):
        for compiler in ("gcc", "clang"):
            with self.subTest(compiler=compiler), program(compiler, TESTS / "misuse.c", "-fsanitize=address,undefined") as made:
                self.assertEqual(ran([made]), "")

    def test_as_cpp(self):
        need("g++")
        with tempfile.TemporaryDirectory() as folder:
            source = Path(folder) / "a.cpp"
            source.write_text("#include <sqtcp.h>\nint main() { sqtcp s{}; return sqtcp_tick(&s, 1) == SQTCP_CLOSED ? 0 : 1; }\n")
            with program("g++", source) as made:
                self.assertEqual(ran([made]), "")

    def test_malloc_that_fails(self):
        with program("gcc", TESTS / "failing_malloc.c", "-fsanitize=address,undefined", "-Wl,--wrap=malloc,--wrap=realloc") as made:
            self.assertGreater(int(ran([made, FRAMES]).split()[0]), 50)

    def test_fuzzer(self):
        """Briefly: FUZZED runs, from nothing and from a seed of its own."""
        need("clang")
        probe = subprocess.run(["clang", "-fsanitize=fuzzer,address", "-x", "c", "-", "-o", os.devnull], input=b"int LLVMFuzzerTestOneInput(const char *a, long n) "
                               b"{ return a && n < 0; }", capture_output=True)
        if probe.returncode:
            raise unittest.SkipTest("clang has no libFuzzer (Debian: libclang-rt-14-dev)")
        with program("clang", TESTS / "fuzz.c", "-fsanitize=fuzzer,address,undefined") as made, tempfile.TemporaryDirectory() as corpus:
            ran([made, f"-runs={FUZZED}", "-seed=1", "-max_len=512", "-print_final_stats=0", corpus], cwd=corpus)


class Examples(unittest.TestCase):
    def test_pages_quote_programs(self):
        """What README and docs/C.md show of C stands in first.c."""
        code = (BINDINGS / "c" / "first.c").read_text()
        for page in ("README.md", "docs/C.md"):
            (shown,) = re.findall(r"^```c\n(.*?)^```", (TOP / page).read_text(), re.M | re.S)
            self.assertIn(shown, code)

    def test_the_python_session_of_the_page(self):
        """What docs/C.md types into Python gives what stands there."""
        python()
        (shown,) = re.findall(r"^```python\n(>>>.*?)^```", (TOP / "docs" / "C.md").read_text(), re.M | re.S)
        test = doctest.DocTestParser().get_doctest(shown, {}, "docs/C.md", "docs/C.md", 0)
        self.assertEqual(doctest.DocTestRunner(verbose=False).run(test).failed, 0)

    def test_first(self):
        """Datagrams come on one descriptor and leave on another: a SYN is answered by a SYN,ACK."""
        import socket
        with program("gcc", BINDINGS / "c" / "first.c") as made:
            ours, its = socket.socketpair(socket.AF_UNIX, socket.SOCK_SEQPACKET)
            server = subprocess.Popen([made], stdin=its, stdout=its)
            its.close()
            ours.settimeout(20)
            ours.send(segment(PEER, 4000, US, 7, 100, 0, SYN))
            answer = read(ours.recv(65_535))
            ours.close()
            self.assertEqual((answer.flags, answer.ack), (SYN | ACK, 101))
            self.assertEqual(server.wait(20), 0)

    def test_each_compiles(self):
        for source in sorted((BINDINGS / "c").glob("*.c")):
            with self.subTest(source=source.name), program("gcc", source) as made:
                self.assertTrue(made.exists())

    def test_echo_on_a_device(self):
        """The TUN example in a network namespace of its own, with Linux's TCP for a client: a MiB comes back."""
        need("ip")
        if os.geteuid() or not Path("/dev/net/tun").exists() or not shutil.which("unshare"):
            raise unittest.SkipTest("needs root and /dev/net/tun")
        client = TESTS / "device_client.py"
        with program("gcc", BINDINGS / "c" / "tun_echo.c") as made:
            done = subprocess.run(["unshare", "--net", sys.executable, client, made], capture_output=True, timeout=60)
            if done.returncode == 77:
                raise unittest.SkipTest(done.stdout.decode().strip())
            self.assertEqual((done.returncode, done.stderr.decode()[-500:]), (0, "10.9.0.2 serves echo at port 7\n"))


if __name__ == "__main__":
    unittest.main()
