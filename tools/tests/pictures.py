#!/usr/bin/python3
"""Makes the pictures of docs/pictures anew, from a run of sqrun on examples/echo_short.pcap: SQRUN names the program, or ./sqrun.

echo.svg is the same for each run, and the tests compare it; where who had a squeue is shown, each run has another picture.
"""
import subprocess
import tempfile
from pathlib import Path

from common import TOOLS, TOP, sqrun
from browser import Browser

PICTURES, EXAMPLE = TOP / "docs" / "pictures", TOP / "examples" / "echo_short.pcap"
TRACED = ["--trace", "--squeues", "2", "--rings", "2", "--spread", "4", "--budget", "2", "0:1:status", "2:0:status"]


def plot(report, *words):
    subprocess.run([TOOLS / "sqplot", "--capture", EXAMPLE, *words, report], check=True)


def clip(browser, selectors):
    """The place on the page that these elements take together."""
    boxes = [browser.box(selector) for selector in selectors]
    top, bottom = min(box["y"] for box in boxes), max(box["y"] + box["height"] for box in boxes)
    return {"x": 0, "y": top, "width": 1040, "height": bottom - top + 6}


def main():
    with tempfile.TemporaryDirectory() as folder:
        plain, traced, page = (Path(folder) / name for name in ("plain", "traced", "page.html"))
        plain.write_bytes(sqrun(EXAMPLE))
        traced.write_bytes(sqrun(EXAMPLE, *TRACED))
        plot(plain, "--conn", "1", "--figure", "ladder", "-o", PICTURES / "echo.svg")
        plot(traced, "--figure", "squeues", "-o", PICTURES / "traced.svg")
        plot(traced, "-o", page)
        browser = Browser(1040, 900)
        browser.open(page)
        browser.js("timeline.follow(1); timeline.see([10, 70])")
        browser.settle()
        browser.shot(PICTURES / "squeues.png", clip(browser, [".timeline form", ".timeline .read"]))
        browser.js("fill(document.querySelector('#conn1')); document.querySelector('#conn1').scrollIntoView(); document.querySelector('#c1down').focus()")
        for _ in range(3):
            browser.settle()
            browser.key("ArrowRight")
        browser.settle()
        browser.shot(PICTURES / "graph.png", clip(browser, ["#conn1 h2", "#c1down-read"]))
        browser.close()


if __name__ == "__main__":
    main()
