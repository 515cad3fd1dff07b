"""The script for Wireshark: tshark shows sqdiff's verdicts on the packets that they name, over IPv4 and IPv6, and on no others."""
import csv
import os
import subprocess
import tempfile
import unittest
from pathlib import Path

from common import TOOLS, TOP, need, output
from crafted import ACK, PSH, Talk, as_ipv6
from test_sqdiff import program

SCRIPT = TOOLS / "wireshark" / "squeues.lua"
SHOWN = ("frame.number", "squeues.verdict", "squeues.kind", "squeues.section", "squeues.side", "squeues.captured", "_ws.expert.message")


def shown(capture, verdicts, *words, complaint=""):
    """What tshark shows of the packets that have a verdict: a tuple for each, by SHOWN. It complains once, or of nothing."""
    fields = [word for name in SHOWN for word in ("-e", name)]
    done = subprocess.run(["tshark", "-X", f"lua_script:{SCRIPT}", "-r", capture, "-Y", "squeues.verdict", "-T", "fields", "-E", "aggregator=|", *fields, *words],
                          capture_output=True, text=True, env={**os.environ, "SQDIFF": str(verdicts)})
    assert done.returncode == 0, done.stderr
    told = [line for line in done.stderr.splitlines() if "squeues" in line]
    assert len(told) == bool(complaint) and complaint in "".join(told), (told, complaint)
    return [tuple(line.split("\t")) for line in done.stdout.splitlines()]


class Wireshark(unittest.TestCase):
    def setUp(self):
        need("tshark")
        folder = tempfile.TemporaryDirectory()
        self.addCleanup(folder.cleanup)
        self.folder = Path(folder.name)

    def verdicts(self, capture, *words):
        to = self.folder / "verdicts.csv"
        done = subprocess.run([TOOLS / "sqdiff", "--csv", *words, "-o", to, capture], capture_output=True)
        self.assertIn(done.returncode, (0, 1), done.stderr)
        return to

    def test_each_verdict_stands_on_its_packet(self):
        """A MUST of the server and one of the client, with texts that CSV has to quote."""
        talk = Talk().open().echo(b'"a", b\n', reserved=4, mark=True).up(ACK | PSH, b"c").down(ACK | PSH, b"c").up(reserved=4).close()
        for changed in (lambda datagram: datagram, as_ipv6):
            with self.subTest(ipv6=changed is as_ipv6):
                capture = talk.save(self.folder, changed=changed)
                found = shown(capture, self.verdicts(capture, "--alone"))
                self.assertEqual([line[:6] for line in found], [("5", "MUST", "reserved bits", "RFC 9293, 3.1", "server", "0100"),
                                                                ("9", "MUST", "reserved bits", "RFC 9293, 3.1", "client", "0100")])
                self.assertTrue(all("reserved bits: 0100" in line[6] for line in found))

    def test_all_lines_of_a_real_capture(self):
        """Each frame that a line of sqdiff's names has that line's kind, and no other frame has one."""
        capture = TOP / "examples" / "echo_short.pcap"
        to = self.verdicts(capture, "--sqrun", program())
        wanted = {}
        with open(to, newline="", encoding="utf-8") as lines:
            for row in csv.DictReader(lines):
                for frame in row["frames"].split():
                    wanted.setdefault(frame, []).append(row["kind"])
        self.assertGreater(len(wanted), 4)
        self.assertEqual({line[0]: sorted(line[2].split("|")) for line in shown(capture, to)}, {frame: sorted(kinds) for frame, kinds in wanted.items()})

    def test_verdicts_of_another_capture_are_not_shown(self):
        """Where the ends of a line aren't the packet's, or its frames have other times; and that is said."""
        talk = Talk().open().echo(reserved=4)
        to = self.verdicts(talk.save(self.folder, "one.pcap"), "--alone")
        other = talk.save(self.folder, "other.pcap", changed=lambda datagram: datagram[:19] + b"\x63" + datagram[20:] if datagram[19] == 2 else datagram[:15] + b"\x63" + datagram[16:])
        self.assertEqual(len(shown(self.folder / "one.pcap", to)), 1)
        self.assertEqual(shown(other, to, complaint="another capture"), [])

    def test_frames_that_moved_are_not_shown(self):
        """A capture without some of its records: those before keep their verdicts, and those behind have none."""
        talk = Talk().open()
        for _ in range(6):
            talk.echo(reserved=4)
        to = self.verdicts(talk.save(self.folder), "--alone")
        self.assertEqual([line[0] for line in shown(self.folder / "a.pcap", to)], ["5", "8", "11", "14", "17", "20"])
        del talk.records[9:12]
        self.assertEqual([line[0] for line in shown(talk.save(self.folder, "cut.pcap"), to, complaint="another capture")], ["5", "8"])

    def test_without_verdicts_all_is_as_ever(self):
        capture = Talk().open().echo().save(self.folder)
        whole = self.verdicts(capture, "--alone").read_bytes()
        plain = output(["tshark", "-r", capture])
        for name, data, complaint in (("", b"", ""), ("none", whole, ""), ("empty", b"", "isn't what"), ("other", b"a,b\n1,2\n", "isn't what"),
                                      ("broken", whole + b'1,"1', "ends inside"), ("away", None, "can't be read")):
            if data is not None and name:
                (self.folder / name).write_bytes(data)
            name = name and self.folder / name
            self.assertEqual(shown(capture, name, complaint=complaint), [])
            self.assertEqual(output(["tshark", "-X", f"lua_script:{SCRIPT}", "-r", capture], environment={"SQDIFF": str(name)}), plain)


if __name__ == "__main__":
    unittest.main()
