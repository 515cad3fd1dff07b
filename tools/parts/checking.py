"""Is a report a right one? sqreplay judges those with marks; one without is compared with a run of its own."""
import io
import re
import subprocess
from itertools import zip_longest
from pathlib import Path

import builds
import front
import output
import report as reports
from drawing import plural
from files import Refused, map_file
from links import AnyRecords
from refusals import reason

BESIDE = 3                  # lines shown before and behind a wrong one
SHOWN = 160                 # characters of a line
TRIES = 8                   # runs, to meet a certain order of CALLs
SETUP = re.compile(r"setup squeues (\d+) rings (\d+) mode (\w+) budget (\d+) spread (\d+) verify ([01])")


def check(asked, words, folder, told):
    """Prints `yes` and answers 0, or prints `no`, what it means and where, and answers 1."""
    name = asked.files[0]
    try:
        data = Path(name).read_bytes()
    except OSError as fault:
        raise Refused(f"{name!r}: {fault.strerror}", 4) from None
    lines = data.decode("ascii", errors="replace").split("\n")
    if data[:4] in front.STARTS:
        raise Refused(f"{name!r} is a capture: the report stands first, --check REPORT CAPTURE", 2)
    captures, _, _ = front.prepared(front.Asked(asked.files[1:], words, asked.port), folder, told)
    other = another(lines, captures)
    if other:
        told_lines = ["no: capture", other]
    elif lines[0] == "report 1":
        told_lines = unmarked(asked, words, lines, captures, folder, told)
    else:
        told_lines = traced(asked, data, lines, captures, folder, told)
    output.put(asked.output, [f"{line}\n" for line in told_lines])
    return 0 if told_lines[0] == "yes" else 1


def another(lines, captures):
    """Says it where the report is of another capture than these: they have another number of records."""
    said = re.match(r"records (\d{1,15}) ", lines[1]) if len(lines) > 1 else None
    try:
        there = sum(1 for path in captures for _ in AnyRecords(path, map_file(path)))
    except Refused:
        return ""
    return f"The report is of a capture with {plural(int(said[1]), 'record')}, and this one has {there:,}." if said and int(said[1]) != there else ""


def served(asked, words, captures, folder, told):
    """The lines of a run of its own on the same capture."""
    run = front.serve(front.Asked([], words, {}, asked.sqrun), captures, folder, told) or front.shard(
        front.Asked([], words, {}, asked.sqrun, asked.work), captures, folder, told)
    return run.report.read_text("ascii").split("\n")


def unmarked(asked, words, lines, captures, folder, told):
    """A report without marks or answers is a function of the capture, and so of a run of its own."""
    if any(line.startswith("answer ") for line in lines):
        raise Refused("a report with answers of CALLs is judged with its marks alone: take one of sqrun --trace")
    right = served(asked, words, captures, folder, told)
    for number, (line, other) in enumerate(zip_longest(lines, right), 1):
        if line != other:
            hint = " Perhaps it was made with --verify: say so." if number == 2 and "--verify" not in words else ""
            return [f"no: text {number}", f"Line {number} isn't the one that sqrun writes for this capture." + hint, *beside(lines, number, other)]
    return ["yes"]


def traced(asked, data, lines, captures, folder, told):
    """What sqreplay says, with what it means."""
    given = data + b"".join(path.read_bytes() for path in captures)
    told.begin("checking", len(given))
    done = subprocess.run(builds.command("sqreplay", asked.sqreplay), input=given, capture_output=True)
    told.end()
    said = done.stdout.decode(errors="replace").strip()
    if done.returncode not in (0, 1) or not said:
        raise Refused(done.stderr.decode(errors="replace").strip() or f"sqreplay ended with {done.returncode}", done.returncode or 1)
    if said == "yes":
        return ["yes"]
    meaning, numbers = reason(said)
    return [said, meaning, *shown(said.split(" ")[1], numbers, asked, lines, captures, folder, told)]


def shown(kind, numbers, asked, lines, captures, folder, told):
    """The lines that a reason speaks of."""
    if kind == "text":
        return beside(lines, numbers[0], right_line(numbers[0], asked, lines, captures, folder, told))
    if kind in ("illegal", "unfit"):
        at = lines.index(next(line for line in lines if line.startswith(f"squeue {numbers[0]} marks ")))
        return beside(lines, at + numbers[1] + 2)
    if kind == "open":
        at = next((n for n, line in enumerate(lines, 1) if line.startswith(f"squeue {numbers[0] + 1} marks ")), len(lines) - 1)
        return beside(lines, at - 1)
    if kind == "order":
        at = next((n for n, line in enumerate(lines, 1) if line.startswith(f"conn {numbers[0]} ")), 0)
        return beside(lines, at + 1) if at else []
    if kind == "form":
        try:
            reports.read_lines(io.BytesIO("\n".join(lines[:lines.index("done") + 1]).encode("ascii", errors="replace") + b"\n"), "the report", False)
        except Refused as refused:
            return [str(refused)]
    return []


def right_line(number, asked, lines, captures, folder, told):
    """The line of a run of its own that serves the connection in the same order. With CALLs several runs are tried: the order is chance."""
    found = next((SETUP.fullmatch(line) for line in lines if line.startswith("setup ")), None)
    first, block = block_of(lines, number)
    if found is None or not first and number != 2:
        return None
    verify, calls = ["--verify"] * (found[6] == "1"), [line[5:] for line in lines if line.startswith("call ")]
    words = [f"--{name}={value}" for name, value in zip(("squeues", "rings", "mode", "budget", "spread"), found.groups())] + calls
    by_chance = any(line.startswith("answer ") for line in block)
    for _ in range(TRIES if by_chance else 1):
        try:
            other = served(asked, verify + words if by_chance else verify, captures, folder, told)
        except Refused:
            return None
        begin = next((n for n, line in enumerate(other, 1) if first and line.split(" ")[:2] == block[0].split(" ")[:2]), None)
        if not first:
            return other[1]
        if begin and (not by_chance or other[begin:begin + 1] == block[1:2]):
            return other[begin + number - first - 1] if begin + number - first <= len(other) else None
    return None


def block_of(lines, number):
    """The number of the line `conn` that this line is below (0: none), and the block's lines."""
    first = next((n for n in range(min(number, len(lines)), 0, -1) if lines[n - 1].startswith("conn ")), 0)
    if not first:
        return 0, []
    end = next((n for n in range(first, len(lines)) if lines[n].startswith(("conn ", "setup ", "done"))), len(lines))
    return first, lines[first - 1:end]


def beside(lines, number, right=None):
    """The line of this number, from 1, with those beside it; and the right one below it, where it is known."""
    out = []
    for n in range(max(1, number - BESIDE), min(len(lines), number + BESIDE) + 1):
        out.append(f"{'>' if n == number else ' '} {n:>7}  {cut(lines[n - 1])}")
        if n == number and right is not None:
            out.append(f"    right  {cut(right)}")
    return out


def cut(line):
    """A line of somebody's file for a terminal."""
    clean = "".join(c if " " <= c <= "~" else "?" for c in line)
    return clean if len(clean) <= SHOWN else clean[:SHOWN] + ".."
