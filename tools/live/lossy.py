#!/usr/bin/python3
"""Prints the seconds of an echo of 1 MiB over impaired wires, to `sqlive` and to Linux in its place: the median of three, and both beside each other.

    sudo tools/live/lossy.py PROGRAM        for the table of docs/LIVE.md; on a quiet machine, or behind chrt -r 1
"""
import json
import signal
import statistics
import subprocess
import sys
import time
from dataclasses import asdict
from pathlib import Path

import clients
from wire import Impairments, new_namespace

HERE = Path(__file__).resolve().parent
WIRES = (
    ("1 % lost, 20 ms to and fro", dict(loss=0.01, delay=10)),
    ("5 % lost, 20 ms to and fro", dict(loss=0.05, delay=10)),
    ("10 Mbit/s with a queue of 50, 20 ms", dict(rate=10, queue=50, delay=10)),
    ("40 ms to and fro, nothing lost", dict(delay=20)),
)


def seconds(program, impairments, seed):
    words = [sys.executable, HERE / "wire.py", program, "0", "{}", "1024", "", json.dumps(asdict(Impairments(seed=seed, **impairments)))]
    with subprocess.Popen(words, stdout=subprocess.PIPE, text=True) as wire:
        assert wire.stdout.readline() == "ready\n", "the wire doesn't start"
        begin = time.monotonic()
        clients.echo(1 << 20, timeout=600)
        took = time.monotonic() - begin
        wire.terminate()
        wire.communicate()
    return took


def main():
    programs = [Path(sys.argv[1]).resolve(), HERE / "linux_frames.py"]
    signal.signal(signal.SIGINT, signal.default_int_handler)
    new_namespace()
    print("| Wire | `sqlive` | Linux | beside |\n|---|---|---|---|")
    for name, impairments in WIRES:
        ours, theirs = (statistics.median(seconds(program, impairments, seed) for seed in range(1, 4)) for program in programs)
        print(f"| {name} | {ours:.2f} | {theirs:.2f} | {ours / theirs:.1f} |", flush=True)


if __name__ == "__main__":
    sys.exit(main())
