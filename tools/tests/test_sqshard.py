"""sqshard: the merged report is that of one run; beyond one run's limits, that of the independent model without limits."""
import hashlib
import json
import os
import pty
import random
import re
import shutil
import socket
import struct
import subprocess
import sys
import tempfile
import time
import unittest
import unittest.mock
from array import array
from pathlib import Path

from common import MODEL, SQRUN, TOOLS, captures, need, output, sqrun
import records as fast
import shards
from files import Refused, header
from generated import ACK, PSH, SYN, datagram, records, write

NO_LIMITS = """import sys
sys.path.insert(0, sys.argv[1])
import captures, pcap, plan, run
pcap.MAX_BYTES = pcap.MAX_RECORDS = plan.MOST_CONNECTIONS = 1 << 60
status, out, err = run.run(sys.argv[2:], sys.stdin.buffer.read)
sys.stdout.buffer.write(out)
"""


def without_limits(path, *words):
    if not MODEL:
        raise unittest.SkipTest("needs the independent model: SQORACLE")
    return output([sys.executable, "-c", NO_LIMITS, Path(MODEL).parent, *words], path.read_bytes())


def twisted(rnd, listed):
    """Bodies of random bytes, cut and twisted ones, and times that go back."""
    listed = list(listed)
    for _ in range(60):
        i = rnd.randrange(len(listed))
        at, data = listed[i]
        kind = rnd.randrange(4)
        if kind == 0:
            data = rnd.randbytes(rnd.randrange(70))
        elif kind == 1:
            data = data[:rnd.randrange(len(data) + 1)]
        elif kind == 2 and data:
            k = rnd.randrange(min(len(data), 50))
            data = data[:k] + bytes([rnd.getrandbits(8)]) + data[k + 1:]
        else:
            at = max(0, at - rnd.randrange(5_000_000))
        listed.insert(rnd.randrange(len(listed)), (at, data))
    return listed


def some_pcapng(rnd):
    """A pcapng file by chance, that is right or nearly so."""
    order = rnd.choice("<>")

    def block(kind, body):
        body += bytes(-len(body) % 4)
        return struct.pack(order + "II", kind, 12 + len(body)) + body + struct.pack(order + "I", 12 + len(body))
    interface = lambda value: block(1, struct.pack(order + "HHI", 101, 0, rnd.choice((0, 40))) + struct.pack(order + "HHBxxx", 9, 1, value) + bytes(4))
    values = [rnd.choice((6, 6, 9, 3, 0x8a, 0x80, 19, 0x7f)) for _ in range(rnd.randint(1, 3))]
    out = [block(0x0a0d0d0a, struct.pack(order + "IHHq", 0x1a2b3c4d, 1, 0, -1)), *map(interface, values)]
    for _ in range(rnd.randrange(60)):
        data, time = rnd.randbytes(rnd.randrange(60)), rnd.choice((rnd.getrandbits(31), rnd.getrandbits(50), rnd.getrandbits(64), 2 ** 53, 2 ** 32 * 10 ** 6))
        number = rnd.randrange(len(values) + (rnd.random() < .01))
        size = len(data) + (rnd.random() < .01)
        out.append(block(6, struct.pack(order + "IIIII", number, time >> 32, time & 0xffff_ffff, size, size) + data))
        if rnd.random() < .1:
            out.append(rnd.choice((block(3, struct.pack(order + "I", 4) + b"data"), block(5, bytes(12)), block(0x0bad, bytes(8)), interface(6), *out[:1])))
    whole = bytearray(b"".join(out))
    if rnd.random() < .3:
        whole[rnd.randrange(len(whole))] ^= 1 << rnd.randrange(8)
    return bytes(whole[:len(whole) - rnd.choice((0, 0, 0, 1, 17))])


class Shards(unittest.TestCase):
    def setUp(self):
        need("parallel")
        if not os.access(SQRUN, os.X_OK):
            self.skipTest("no sqrun: run ./build, or name it by SQRUN")
        folder = tempfile.TemporaryDirectory()
        self.addCleanup(folder.cleanup)
        self.folder = Path(folder.name)
        self.work = self.folder / "w"

    def merged(self, files, *words, size=2000, program=SQRUN, anew=True, status=0):
        if anew:
            shutil.rmtree(self.work, ignore_errors=True)
        return output([TOOLS / "sqshard", "run", "--sqrun", program, "--shard-bytes", size, *words, self.work, *files], status=status)

    def in_parts(self, rnd, listed, link, name):
        """The records in five files of mixed forms, with names that a shell would trip over."""
        cuts = sorted(rnd.randrange(len(listed)) for _ in range(4))
        files = []
        for i, (a, b) in enumerate(zip([0] + cuts, cuts + [len(listed)])):
            files.append(self.folder / f"{name} part {i};'.pcap")
            write(files[-1], listed[a:b], link, form=rnd.randrange(4))
        return files

    def test_same_as_one_run(self):
        for seed in range(6):
            link, rnd = (1, 101, 113)[seed % 3], random.Random(seed)
            listed = twisted(rnd, records(seed, 3000, 40, link, span=20))
            write(self.folder / "whole.pcap", listed, link)
            files = self.in_parts(rnd, listed, link, seed)
            for words in ((), ("--verify",)):
                with self.subTest(seed=seed, words=words):
                    self.assertEqual(self.merged(files, *words, size=rnd.choice((1, 3000, 50_000, 1 << 26))), sqrun(self.folder / "whole.pcap", *words))

    def test_real_captures(self):
        for path in captures():
            with self.subTest(path.name):
                self.assertEqual(self.merged([path]), sqrun(path))

    def test_same_as_the_model(self):
        listed = twisted(random.Random(9), records(9, 1500, 20, 1, span=20))
        write(self.folder / "whole.pcap", listed, 1)
        for words in ((), ("--verify",)):
            self.assertEqual(self.merged([self.folder / "whole.pcap"], *words), without_limits(self.folder / "whole.pcap", *words))

    def test_more_connections_than_one_run(self):
        write(self.folder / "a.pcap", records(1, 90_000, 9_000, text=4), 101)
        merged = self.merged([self.folder / "a.pcap"], size=1 << 26)
        self.assertGreater(int(merged.split(b"\n")[1].split()[-1]), 8192)
        self.assertIn(b" nofit 0 ", merged.split(b"\n")[1])
        self.assertEqual(merged, without_limits(self.folder / "a.pcap"))

    def test_pcapng(self):
        need("editcap")
        listed = records(4, 800, 10, 1, span=20)
        write(self.folder / "a.pcap", listed[:500], 1, form=3)
        write(self.folder / "b.pcap", listed[500:], 1)
        write(self.folder / "whole.pcap", listed, 1)
        output(["editcap", "-F", "pcapng", self.folder / "a.pcap", self.folder / "a.pcapng"])
        self.assertEqual(self.merged([self.folder / "a.pcapng", self.folder / "b.pcap"]), sqrun(self.folder / "whole.pcap"))
        cut = self.folder / "cut.pcapng"
        cut.write_bytes((self.folder / "a.pcapng").read_bytes()[:-6])
        self.assertIn(b" tail 1 ", self.merged([cut, self.folder / "b.pcap"]))

    def test_cut_tail_of_any_file(self):
        listed = records(9, 300, 5)
        write(self.folder / "a.pcap", listed[:100] + [(1, b"xxxxxxxxx")], 101, cut=3)
        write(self.folder / "b.pcap", listed[100:], 101)
        write(self.folder / "whole.pcap", listed + [(1, b"xxxxxxxxx")], 101, cut=3)
        merged = self.merged([self.folder / "a.pcap", self.folder / "b.pcap"])
        self.assertEqual(merged, sqrun(self.folder / "whole.pcap"))
        self.assertIn(b" tail 1 ", merged)

    def test_no_records(self):
        write(self.folder / "a.pcap", [], 1)
        self.assertEqual(self.merged([self.folder / "a.pcap"] * 2), sqrun(self.folder / "a.pcap"))

    def test_last_time_of_all(self):
        """The last time is that of a record that is served nowhere, in another file."""
        listed = records(3, 200, 3)
        late = [(listed[-1][0] + 3_600_000_000, b"\x60")]
        write(self.folder / "a.pcap", listed, 101)
        write(self.folder / "b.pcap", late, 101, form=1)
        write(self.folder / "whole.pcap", listed + late, 101)
        both, alone = self.merged([self.folder / "a.pcap", self.folder / "b.pcap"]), self.merged([self.folder / "a.pcap"])
        self.assertEqual(both, sqrun(self.folder / "whole.pcap"))
        self.assertNotEqual(both.split(b"\n")[2:], alone.split(b"\n")[2:])

    def test_greatest_time(self):
        path = self.folder / "a.pcap"
        write(path, records(3, 200, 3), 101)
        path.write_bytes(path.read_bytes() + struct.pack("<IIII", 2 ** 32 - 1, 2 ** 32 - 1, 1, 1) + b"\x60")
        self.assertEqual(self.merged([path]), sqrun(path))

    def test_one_connection_at_the_limit_and_past_it(self):
        syn = records(3, 200, 1)[0]
        write(self.folder / "a.pcap", [syn] * 1_048_575, 101)
        self.assertIn(b"\nrecords 1048575 tail 0 served 1048575 ", self.merged([self.folder / "a.pcap"], size=1 << 26))
        write(self.folder / "a.pcap", [syn] * 1_048_576, 101)
        self.assertIn(b"more than one run takes", self.merged([self.folder / "a.pcap"], status=7))

    def test_refusals(self):
        listed = records(3, 200, 3)
        good, other, long, short, odd = (self.folder / f"{name}.pcap" for name in ("good", "other", "long", "short", "odd"))
        write(good, listed, 101)
        write(other, [], 1)
        long.write_bytes(good.read_bytes() + struct.pack("<IIII", 0, 0, 262_145, 0))
        short.write_bytes(good.read_bytes()[:23])
        odd.write_bytes(bytes.fromhex("0a0d0d0a") + bytes(40))
        for files, line in (([good, other], "second link type 1"), ([long], "record 200 has length 262145"), ([short], "short header of 23 bytes"),
                            ([odd], "pcapng magic 00000000"), ([self.folder / "none.pcap"], "No such file")):
            with self.subTest(line):
                shutil.rmtree(self.work, ignore_errors=True)
                done = subprocess.run([TOOLS / "sqshard", "run", "--sqrun", SQRUN, self.work, *files], capture_output=True, text=True)
                self.assertNotEqual(done.returncode, 0)
                self.assertEqual(done.stdout, "")
                self.assertIn(line, done.stderr)

    def test_other_parallel(self):
        (self.folder / "parallel").write_text("#!/bin/sh\necho parallel of moreutils\n")
        (self.folder / "parallel").chmod(0o755)
        said = output([TOOLS / "sqshard", "run", self.work, captures()[0]], status=2, environment={"PATH": f"{self.folder}:{os.environ['PATH']}"})
        self.assertIn(b"needs GNU parallel", said)
        self.assertFalse(self.work.exists())

    def test_damaged_reports_and_going_on(self):
        """merge alone refuses what isn't the plan's, whole and unchanged; the same run again serves it again."""
        path = self.folder / "a.pcap"
        write(path, records(3, 2000, 30), 101)
        want = sqrun(path)
        self.assertEqual(self.merged([path]), want)
        self.assertEqual(self.merged([path], anew=False), want)             # nothing is done twice
        report, total = self.work / "reports" / "000001", self.work / "sums" / "000001"
        text, told = report.read_bytes(), total.read_bytes()
        damages = [text[:-5], text[:len(text) // 2], b"", b"x" + text, text + b"x", text + b"done\n", text.replace(b"served ", b"served 1"),
                   text.replace(b"conn 0 1", b"conn 0 2"), text.replace(b"\nconn 0", b"\nconn 7"), text.replace(b"malformed 0", b"malformed 1")]
        for damage in damages:
            self.assertNotEqual(damage, text)
            report.write_bytes(damage)
            for sum_of_it in (hashlib.blake2b(damage).hexdigest().encode(), told):       # whether its sum was made again or not
                total.write_bytes(sum_of_it)
                done = subprocess.run([TOOLS / "sqshard", "merge", self.work], capture_output=True)
                self.assertEqual((done.returncode, done.stdout), (1, b""))
                self.assertIn(b"reports/000001: ", done.stderr)
        for damage in damages[1:3] + damages[-1:]:
            report.write_bytes(damage)
            self.assertEqual(self.merged([path], anew=False), want)
            self.assertEqual(len((self.work / "serve.log").read_text().splitlines()), 2)    # the one alone was served again
        report.write_bytes(text.replace(b"LISTEN", b"CLOSED", 1) if b"LISTEN" in text else text[::-1])
        self.assertIn(b"by its BLAKE2 sum", output([TOOLS / "sqshard", "merge", self.work], status=1))
        self.assertEqual(self.merged([path], anew=False), want)
        total.unlink()
        said = subprocess.run([TOOLS / "sqshard", "merge", self.work], capture_output=True, check=True)
        self.assertEqual(said.stdout, want)
        self.assertIn(b"1 of the reports have no sum", said.stderr)
        report.unlink()
        self.assertIn(b"no report", output([TOOLS / "sqshard", "merge", self.work], status=1))
        self.assertEqual(self.merged([path], anew=False), want)

    def test_a_report_that_is_always_wrong_is_refused(self):
        """Serving it again doesn't help, and that is the end."""
        path, wrong = self.folder / "a.pcap", self.folder / "wrong"
        write(path, records(3, 600, 6), 101)
        wrong.write_text(f"#!/bin/sh\n{SQRUN} \"$@\" | sed 's/^conn 0 1/conn 0 2/'\n")
        wrong.chmod(0o755)
        self.assertIn(b"isn't connection", self.merged([path], program=wrong, status=1))

    def test_statuses_and_counts_of_failures(self):
        good, other = self.folder / "good.pcap", self.folder / "other.pcap"
        write(good, records(3, 200, 3), 101)
        other.write_bytes(b"\x1f\x8b" + bytes(40))
        said = self.merged([good, other, good], status=6)
        self.assertIn(b"magic 1f8b0000", said)
        self.assertRegex(said, rb"scan: 1 of 3 jobs failed")
        write(other, [], 1)
        self.assertIn(b"second link type 1", self.merged([good, other], status=6))

    def test_sqrun_is_looked_for_first(self):
        said = output([TOOLS / "sqshard", "run", "--sqrun", "no-such-program", self.work, captures()[0]], status=2)
        self.assertIn(b"no program 'no-such-program'", said)
        self.assertFalse(self.work.exists())

    def test_pieces_of_a_file(self):
        """A file that is scanned in pieces gives what it gives in one."""
        for form, size in ((0, 9_000), (1, 20_000)):
            listed = twisted(random.Random(form), records(form, 900, 12, 1, span=40))
            write(self.folder / "a.pcap", listed, 1, form=form, cut=5)
            self.assertEqual(self.merged([self.folder / "a.pcap"], "--piece-bytes", size, size=30_000), sqrun(self.folder / "a.pcap"))
            self.assertGreater(len((self.work / "pieces").read_text().splitlines()), 2)
        long = self.folder / "long.pcap"
        long.write_bytes((self.folder / "a.pcap").read_bytes()[:24] + struct.pack(">IIII", 1, 1, 4, 4) + bytes(4) + struct.pack(">IIII", 0, 0, 262_145, 0))
        self.assertIn(b"record 1 has length 262145", self.merged([long], "--piece-bytes", 10, status=6))

    def test_python_and_c_agree(self):
        """The scan, the walk and the deal in C give what the same gives in Python, for each link, form, cut and twist."""
        if not fast.LIBRARY:
            self.skipTest("cc isn't installed")
        for seed in range(24):
            rnd, link = random.Random(seed), (1, 101, 113)[seed % 3]
            path = self.folder / "a.pcap"
            write(path, twisted(rnd, records(seed, 400, 9, link, span=3_000)), link, form=seed % 4, cut=rnd.randrange(20))
            mapped = fast.Mapped(path)
            form = header(path, mapped.data)
            for verify in (False, True):
                quick, slow = fast.scan(path, mapped, 24, mapped.size, form, verify), fast.scan_slowly(path, mapped.data, 24, mapped.size, form, verify)
                for name in ("counts", "records", "last", "rest", "end"):
                    self.assertEqual(getattr(quick, name), getattr(slow, name), (seed, name))
                self.assertEqual((bytes(quick.connections), bytes(quick.owners)), (bytes(slow.connections), bytes(slow.owners)))
                for wanted in (24, 700, 9_000, mapped.size):
                    self.assertEqual(fast.walk(mapped, 24, mapped.size, wanted, form), fast.walk_slowly(mapped.data, 24, mapped.size, wanted, form))
                owners, conns = array("i", bytes(quick.owners)), len(quick.connections) // fast.CONNECTION.size
                shards, first_rest = array("I", (c // 3 for c in range(conns))), conns // 3 + 1
                rest, sides = (first_rest, 2_000, 700, first_rest + 200), []
                for how, data in ((lambda *words: fast.deal(path, mapped, *words), None), (lambda *words: fast.deal_slowly(mapped.data, *words), None)):
                    got = {}
                    how(24, form, owners, shards, rest, 270_000, lambda shard, piece, got=got: got.__setitem__(shard, got.get(shard, b"") + piece))
                    sides.append(got)
                self.assertEqual(*sides)

    def test_packets_of_pcapng_agree(self):
        """The same records from C as from Python: both byte orders, resolutions, odd blocks between, times at the edges, cut and changed bytes."""
        if not fast.LIBRARY:
            self.skipTest("cc isn't installed")
        for seed in range(60):
            rnd = random.Random(seed)
            (self.folder / "a.pcapng").write_bytes(some_pcapng(rnd))
            sides = []
            for library in (fast.LIBRARY, None):
                folder = self.folder / f"{seed}{bool(library)}"
                folder.mkdir()
                with unittest.mock.patch.object(fast, "LIBRARY", library):
                    try:
                        sides.append((shards.as_pcap(self.folder / "a.pcapng", folder), (folder / "capture.pcap").read_bytes()))
                    except Refused as refused:
                        sides.append(str(refused))
            self.assertEqual(*sides, seed)

    def test_without_cc(self):
        path = self.folder / "a.pcap"
        write(path, twisted(random.Random(2), records(2, 700, 9, 1)), 1)
        want = self.merged([path], "--piece-bytes", 9_000)
        shutil.rmtree(self.work)
        again = output([TOOLS / "sqshard", "run", "--sqrun", SQRUN, "--shard-bytes", 2000, "--piece-bytes", 9_000, self.work, path],
                       environment={"SQSHARD_PYTHON": "1"})
        self.assertEqual(again, want)
        self.assertEqual(want, sqrun(path))

    def test_clients_that_vanish_are_planned_for(self):
        """Each leaves text that is never acknowledged, and a day passes: the plan says about how large the reports are, and keeps them small."""
        path, texts = self.folder / "a.pcap", []
        for c in range(60):
            ends = (0x0a000100 + c, 4_000), (0x0a000001, 7)
            texts += [(1_000 + c, datagram(*ends, 99, 0, SYN, options=b"\x02\x04\x05\xb4")), (9_000 + c, datagram(*ends, 100, 1, PSH | ACK, text=bytes(1_460)))]
        write(path, sorted(texts) + [(86_400_000_000, b"\x60")], 101)
        self.merged([path], size=1 << 26)
        plan = json.loads((self.work / "plan.json").read_text())
        sizes = [(self.work / "reports" / f"{s:06}").stat().st_size for s in range(len(plan["firsts"]))]
        self.assertGreater(sum(sizes), 80 * path.stat().st_size)
        for size, said in zip(sizes, plan["reports"]):
            self.assertLess(size, said)
            self.assertGreater(2 * size, said)
        self.assertGreater(plan["memory"], 1.6 * max(sizes))
        self.assertLess(plan["memory"], 2 << 30)
        few = self.merged([path], "--shard-conns", 20, size=1 << 26)
        self.assertEqual(len(json.loads((self.work / "plan.json").read_text())["firsts"]), 3)
        self.assertEqual(few, sqrun(path))

    def test_no_report_has_more_than_was_planned(self):
        for seed, span in enumerate((5, 600, 90_000)):
            path = self.folder / "a.pcap"
            write(path, twisted(random.Random(seed), records(seed, 900, 12, 101, text=700, span=span)), 101)
            self.merged([path], size=50_000)
            plan = json.loads((self.work / "plan.json").read_text())
            for s, said in enumerate(plan["reports"]):
                self.assertLess((self.work / "reports" / f"{s:06}").stat().st_size, said, seed)

    def test_told_stages(self):
        path = self.folder / "a.pcap"
        write(path, records(3, 600, 6), 101)
        said = subprocess.run([TOOLS / "sqshard", "run", "--sqrun", SQRUN, self.work, path], capture_output=True, text=True, check=True).stderr
        said = "".join(line for line in said.splitlines(keepends=True) if not re.search(r" of \d+ done|without proof$", line))     # of a busy machine, and of the program
        self.assertRegex(said, r"^sqshard: scan: 1 done, .*\nsqshard: plan: 600 records, \d+ connections: 1 shard,.* of memory\nsqshard: deal: 1 done.*\n"
                               r"sqshard: serve: \d done, .*\n$")

    def test_other_captures_in_the_same_directory(self):
        path = self.folder / "a.pcap"
        write(path, records(3, 300, 3), 101)
        self.merged([path])
        self.assertIn(b"is of other captures", self.merged([path], "--verify", anew=False, status=2))
        write(path, records(4, 300, 3), 101)
        self.assertIn(b"before they changed", self.merged([path], anew=False, status=2))

    def test_a_shard_that_fails_once_is_served_again(self):
        path = self.folder / "a.pcap"
        write(path, records(3, 2000, 30), 101)
        once = self.folder / "once"
        once.write_text(f"#!/bin/sh\nif [ ! -e {self.folder}/seen ]; then touch {self.folder}/seen; cat > /dev/null; exit 3; fi\nexec {SQRUN} \"$@\"\n")
        once.chmod(0o755)
        self.assertEqual(self.merged([path], "--jobs", 1, program=once), sqrun(path))
        always = self.folder / "always"
        always.write_text("#!/bin/sh\nexit 3\n")
        always.chmod(0o755)
        self.assertIn(b"sqrun ended with 3", self.merged([path], program=always, status=1))

    def test_plain_formats(self):
        """The directory's files are read here as its description says, by other code."""
        path = self.folder / "a.pcap"
        listed = records(3, 500, 8)
        write(path, listed, 101)
        self.merged([path])
        table = self.work / "tables" / "000000"
        about, plan = json.loads((table / "about.json").read_text()), json.loads((self.work / "plan.json").read_text())
        self.assertEqual((self.work / "pieces").read_text(), f"000000 0 0 {path.stat().st_size} 0\n")
        rows = list(struct.iter_unpack("<12sHHQQQQQ", (table / "connections").read_bytes()))
        owners = struct.unpack(f"<{len(listed)}i", (table / "owners").read_bytes())
        self.assertEqual(sum(about["counts"]), len(listed))
        self.assertEqual([row[3] for row in rows], [owners.count(c) for c in range(len(rows))])
        self.assertEqual(b"".join(row[0] for row in rows), (self.work / "tuples").read_bytes())
        shards = struct.unpack(f"<{len(rows)}I", (self.work / "files" / "000000.shards").read_bytes())
        self.assertEqual([shards.index(s) for s in range(len(plan["firsts"]))], plan["firsts"])
        self.assertEqual(plan["served"], [sum(row[3] for row, t in zip(rows, shards) if t == s) for s in range(len(plan["firsts"]))])
        for shard in (self.work / "reports").iterdir():
            self.assertEqual((self.work / "sums" / shard.name).read_text(), hashlib.blake2b(shard.read_bytes()).hexdigest() + "  -\n")
        for file in self.work.rglob("*"):
            self.assertFalse(file.is_file() and file.read_bytes()[:1] == b"\x80", f"{file} looks like a pickle")

    def test_cores_are_not_asked_for_twice(self):
        """Each of the jobs at one time keeps to cores of its own."""
        path, seen, cores = self.folder / "a.pcap", self.folder / "seen", os.sched_getaffinity(0)
        write(path, records(3, 2000, 30), 101)
        told = self.folder / "told"
        told.write_text(f"#!/bin/sh\ntaskset -cp $$ >> {seen}\nexec {SQRUN} \"$@\"\n")
        told.chmod(0o755)
        for jobs, kept in ((len(cores), {1}), (1, {len(cores)})):
            seen.unlink(missing_ok=True)
            self.merged([path], "--jobs", jobs, program=told)
            lists = [line.split(": ")[1] for line in seen.read_text().splitlines()]
            counts = {sum(int(b or a) - int(a) + 1 for a, _, b in (part.partition("-") for part in one.split(","))) for one in lists}
            self.assertEqual(counts, kept)

    def test_over_ssh(self):
        """Served by a machine behind a real ssh: this one, with a server and keys of the test's own. Nothing is left there."""
        need("ssh"), need("rsync")
        server = shutil.which("sshd", path=f"{os.environ['PATH']}:/usr/sbin")
        if not server:
            self.skipTest("sshd isn't installed")
        for key in ("host", "user"):
            output(["ssh-keygen", "-q", "-t", "ed25519", "-N", "", "-f", self.folder / key])
        with socket.create_server(("127.0.0.1", 0)) as free:
            port = free.getsockname()[1]
        home = self.folder / "home"
        home.mkdir()
        (self.folder / "config").write_text(f"ListenAddress 127.0.0.1:{port}\nHostKey {self.folder}/host\nAuthorizedKeysFile {self.folder}/user.pub\n"
                                            f"StrictModes no\nUsePAM no\nPidFile none\nPermitRootLogin yes\nSetEnv HOME={home}\n")
        Path("/run/sshd").mkdir(exist_ok=True) if os.geteuid() == 0 else None
        daemon = subprocess.Popen([server, "-D", "-f", self.folder / "config"], stderr=subprocess.DEVNULL)
        self.addCleanup(daemon.wait)
        self.addCleanup(daemon.terminate)
        for _ in range(100):
            with socket.socket() as probe:
                if probe.connect_ex(("127.0.0.1", port)) == 0:
                    break
            time.sleep(.1)
        known = f"-o StrictHostKeyChecking=no -o UserKnownHostsFile={self.folder}/known -o LogLevel=ERROR"
        (self.folder / "nodes").write_text(f"2/ssh -p {port} -i {self.folder}/user {known} 127.0.0.1\n")
        path = self.folder / "a.pcap"
        write(path, records(3, 2000, 30), 101)
        self.assertEqual(self.merged([path], "--verify", "--nodes", self.folder / "nodes", program=os.path.abspath(SQRUN), size=20_000), sqrun(path, "--verify"))
        left = [path for folder in (home, Path.home() / ".parallel") for path in folder.rglob("*") if path.name in ("shards", "reports", "0-head")]
        self.assertEqual(left, [])

    def test_a_bar_where_somebody_looks(self):
        path = self.folder / "a.pcap"
        write(path, records(3, 600, 6), 101)
        ours, theirs = pty.openpty()
        with subprocess.Popen([TOOLS / "sqshard", "run", "--sqrun", SQRUN, "--shard-bytes", "9000", self.work, path], stdout=subprocess.DEVNULL, stderr=theirs):
            os.close(theirs)
            said = b""
            try:
                while more := os.read(ours, 1 << 16):
                    said += more
            except OSError:                 # nobody writes any more
                pass
        os.close(ours)
        self.assertRegex(said, rb"\d+% \d+:\d+=")
        self.assertIn(b"sqshard: serve: ", said)

    def test_told_how_far_it_is(self):
        """Where there is no bar, a stage says now and then how many jobs are done, and of how many."""
        path, slow = self.folder / "a.pcap", self.folder / "slow"
        write(path, records(3, 600, 6), 101)
        slow.write_text(f"#!/bin/sh\nsleep 2\nexec {os.path.abspath(SQRUN)} \"$@\"\n")
        slow.chmod(0o755)
        said = subprocess.run([TOOLS / "sqshard", "run", "--tell", "1", "--sqrun", slow, self.work, path], capture_output=True, text=True, check=True).stderr
        self.assertRegex(said, r"(?m)^sqshard: serve: 0 of 2 done, \d+ s$")       # a shard, and one of what is served nowhere

    def test_other_tools_read_what_it_makes(self):
        """sqplot and sqpcap take the folder, its files, and one shard; more connections than one run has, too."""
        many = records(1, 60_000, 6_000, text=4)
        write(self.folder / "a.pcap", many, 101)
        listed = records(2, 400, 6, 101)
        write(self.folder / "b.pcap", [(at + 10 ** 9, data) for at, data in listed], 101, form=3)
        files = [self.folder / "a.pcap", self.folder / "b.pcap"]
        report = self.folder / "a.report"
        report.write_bytes(self.merged(files, size=200_000))
        self.assertGreater(report.read_bytes().count(b"\nconn "), 4_096)
        pages = [output([TOOLS / "sqplot", *words, "--conn", "4999", report]) for words in (["--capture", self.work], ["--capture", files[0], "--capture", files[1]])]
        strip = lambda page: re.sub(rb"<title>.*?</h1>", b"", page, flags=re.S)
        self.assertEqual(*map(strip, pages))
        joined = [output([TOOLS / "sqpcap", *words, report]) for words in (["--capture", self.work], ["--capture", files[0], "--capture", files[1]])]
        self.assertEqual(*joined)
        self.assertIn(b"of b.pcap", pages[0] + output([TOOLS / "sqpcap", "--pcapng", "--capture", self.work, report]))
        told = re.findall(rb"records (\d+) tail", report.read_bytes())[0]
        self.assertEqual(int(told), len(many) + len(listed))
        shard, counted = sorted((self.work / "shards").iterdir())[1], 0
        one = output([TOOLS / "sqpcap", "--capture", shard, self.work / "reports" / shard.name])
        at = 24
        while at < len(one):
            at, counted = at + 16 + struct.unpack_from("<I", one, at + 8)[0], counted + 1
        text = (self.work / "reports" / shard.name).read_bytes()
        self.assertEqual(counted, int(re.search(rb" served (\d+)", text)[1]) + text.count(b"\nreply "))
        self.assertIn(b" is of ", output([TOOLS / "sqpcap", "--capture", files[0], report], status=1))

    def staged(self, path, size=2000):
        stage = [TOOLS / "sqshard"]
        output([*stage, "begin", "--verify", self.work, path])
        output([*stage, "scan", self.work, "000000"])
        subprocess.run([*stage, "plan", "--shard-bytes", str(size), self.work], check=True, capture_output=True)
        output([*stage, "deal", self.work, "000000"])

    def task(self, number, count, **more):
        return subprocess.run([TOOLS / "sqshard.slurm"], cwd=self.work, capture_output=True, env={
            **os.environ, "SLURM_ARRAY_TASK_ID": str(number), "SLURM_ARRAY_TASK_COUNT": str(count), "SQRUN": os.path.abspath(SQRUN), **more})

    def test_slurm_script(self):
        """The array script's loop, with Slurm's variables set by hand: scan, deal and serve."""
        path = self.folder / "a.pcap"
        write(path, records(3, 2000, 30), 101)
        output([TOOLS / "sqshard", "begin", "--verify", "--piece-bytes", 30_000, self.work, path])
        for stage in ("scan", "plan", "deal", "serve"):
            if stage == "plan":
                subprocess.run([TOOLS / "sqshard", "plan", "--shard-bytes", "2000", self.work], check=True, capture_output=True)
                continue
            for number in range(3):
                done = self.task(number, 3, STAGE=stage, SQSHARD=str(TOOLS / "sqshard"))
                self.assertEqual((done.returncode, done.stderr, done.stdout), (0, b"", b""))
        said = subprocess.run([TOOLS / "sqshard", "merge", self.work], check=True, capture_output=True)
        self.assertEqual((said.stdout, said.stderr), (sqrun(path, "--verify"), b""))        # each has its sum

    def test_slurm_script_goes_on_past_a_bad_shard(self):
        path = self.folder / "a.pcap"
        write(path, records(3, 2000, 30), 101)
        self.staged(path)
        count = len(list((self.work / "shards").iterdir()))
        (self.work / "shards" / "000003" / "0-head").write_bytes(b"x")
        done = self.task(0, 1)
        self.assertEqual(done.returncode, 6)
        self.assertRegex(done.stderr, rb"shard 000003: \S+ ended with 6")
        self.assertEqual(len(list((self.work / "reports").iterdir())), count - 1)

    def test_slurm_script_outside_of_a_folder(self):
        self.folder.joinpath("w").mkdir()
        done = self.task(0, 1)
        self.assertEqual(done.returncode, 2)
        self.assertIn(b"isn't a folder of sqshard", done.stderr)


if __name__ == "__main__":
    unittest.main()
