"""What a line of sqrun's or sqreplay's means, and what to do about it."""
import re

MAGICS = {"1f8b": "a gzip file", "fd37": "an xz file", "28b5": "a Zstandard file", "425a": "a bzip2 file", "504b": "a zip file",
          "736e": "a snoop file (editcap turns it into pcap)", "7265": "text: a report, perhaps"}
TEXT = "No capture begins so: it looks like text."
SAVED = "Save it as pcap or pcapng: `editcap IN OUT.pcapng` reads what Wireshark reads."
BROKEN = "The file is damaged there. `editcap IN OUT.pcapng` keeps what can still be read."
# Each line that sqrun writes in place of a report, with what it means; {0}, {1}.. are what the line shows.
LINES = (
    (r"usage: sqrun .*", "One of the words isn't sqrun's, or out of its range; `sq --help` lists them."),
    (r"sqrun: out of memory", "A run takes some seven times its capture's size, and far more where clients never acknowledge. Give it more memory, "
     "or fewer connections at a time (tools/sqshard)."),
    (r"sqrun: read fault", "The input couldn't be read: a folder, a closed descriptor, or a failing disk."),
    (r"sqrun: write fault", "The report couldn't be written: a full disk, or a reader that went away."),
    (r"sqrun: bad capture: short header of (\d+) bytes", "The file has {0} bytes, and a capture begins with 24. Nothing was captured, or it isn't a capture."),
    (r"sqrun: bad capture: magic ([0-9a-f]{8})", "No capture begins so{magic}. " + SAVED),
    (r"sqrun: bad capture: version (\d+)\.(\d+)", "Version {0}.{1} of pcap isn't read, only 2.4. " + SAVED),
    (r"sqrun: bad capture: link type (\d+)", "Link type {0}: sqrun reads Ethernet (1), raw IP (101) and Linux cooked (113). {link}"),
    (r"sqrun: bad capture: record (\d+) has length (\d+)", "Record {0} claims {1} bytes, more than 262,144. " + BROKEN),
    (r"sqrun: bad capture: pcapng link type (\d+) in block \d+", "Link type {0}: sqrun reads Ethernet (1), raw IP (101) and Linux cooked (113). {link}"),
    (r"sqrun: bad capture: pcapng second link type (\d+) in block \d+", "The file has packets of two link types. {link}"),
    (r"sqrun: bad capture: pcapng version (\d+)\.(\d+) in block \d+", "Version {0}.{1} of pcapng isn't read, only 1. " + SAVED),
    (r"sqrun: bad capture: pcapng (.*)", "The pcapng file breaks its own form there. " + BROKEN),
    (r"sqrun: call on connection (\d+) of (\d+)", "A CALL names connection {0}, and the capture has {1}, numbered from 0: {calls}"),
    (r"sqrun: too large: more than 67108864 bytes", "One run takes 64 MiB. {shard}"),
    (r"sqrun: too large: more than 1048576 records", "One run takes 1,048,576 records. {shard}"),
    (r"sqrun: too large: trace of (\d+) marks", "A trace holds 67,108,864 marks, and this one may have {0}. Fewer --squeues, fewer CALLs, a greater --spread, or no --trace."),
)
LINK = "tools/sq turns BSD loopback, raw IPv4, Linux cooked 2 and VLAN tags into raw IP. For others capture anew: `tcpdump -i any -y LINUX_SLL -w FILE`."
SHARD = "tools/sqshard makes one report of larger captures; tools/sq calls it by itself, unless there are CALLs or --trace."


def explained(line):
    """What the line means and what to do; an empty text where it is none of sqrun's."""
    for form, told in LINES:
        found = re.fullmatch(form, line)
        if found:
            if "magic" in form and found[1][:4] not in MAGICS and all(32 <= byte < 127 or byte in (9, 10, 13) for byte in bytes.fromhex(found[1])):
                return TEXT
            magic = MAGICS.get(found[1][:4]) if "magic" in form else None
            conns = int(found[2]) if "call on" in form else 0
            return told.format(*found.groups(), magic=f": it looks like {magic}" if magic else "", link=LINK, shard=SHARD,
                               calls=f"0 to {conns - 1} are there." if conns else "there is none.")
    return ""


# The reasons of sqreplay, with what fails.
REASONS = (
    (r"no: no report", "There is no line `done`, so no report ends."),
    (r"no: capture", "What stands behind the line `done` is no capture, or too large."),
    (r"no: form", "From the line `setup` on a line is none that a report has: a number out of range or with a leading zero, a call out of order, a count of "
     "marks that isn't theirs. A report without a trace has no such lines: only those of `sqrun --trace` are judged."),
    (r"no: illegal squeue (\d+) mark (\d+)", "The marks of squeue {0} up to number {1}, from 0, aren't a legal history: nobody could have done that then."),
    (r"no: open squeue (\d+)", "Squeue {0} hasn't ended: a pass isn't closed, somebody has it, or something is queued."),
    (r"no: unfit squeue (\d+) mark (\d+)", "Mark {1} of squeue {0}, from 0, is a ring's, and breaks the homes, the mode or the budget of the line `setup`."),
    (r"no: order (\d+)", "Connection {0} came to a squeue without having left the one before, or its order misses an entry or has one twice."),
    (r"no: text (\d+)", "Line {0} isn't the one of a right report of these marks and this capture."),
)


def reason(line):
    """What a reason of sqreplay's means, and its numbers; an empty text where it is none."""
    for form, told in REASONS:
        found = re.fullmatch(form, line)
        if found:
            return told.format(*found.groups()), tuple(map(int, found.groups()))
    return "", ()
