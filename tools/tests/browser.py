"""Headless Chromium by its debugging pipe: no driver, no net, no port."""
import base64
import json
import os
import shutil
import subprocess
import tempfile
import time
from pathlib import Path
from urllib.parse import quote

COMMAND = next((name for name in ("chromium-headless-shell", "chromium") if shutil.which(name)), "chromium-headless-shell")
CONTROL, SHIFT = 2, 8           # of a key that is held


class Browser:
    def __init__(self, width=1040, height=900):
        to_read, self.out = os.pipe()
        self.inp, to_write = os.pipe()
        self.home = tempfile.TemporaryDirectory()
        words = [COMMAND, "--disable-gpu", "--hide-scrollbars", "--remote-debugging-pipe", f"--user-data-dir={self.home.name}",
                 f"--window-size={width},{height}"] + ["--headless"] * (COMMAND == "chromium") + ["--no-sandbox"] * (os.geteuid() == 0) + ["about:blank"]

        def place():                    # the pipe is descriptors 3 and 4
            a, b = os.dup(to_read), os.dup(to_write)
            os.dup2(a, 3), os.dup2(b, 4)
        self.process = subprocess.Popen(words, preexec_fn=place, close_fds=False, stderr=subprocess.DEVNULL)
        os.close(to_read), os.close(to_write)
        self.count, self.buffer, self.events, self.session = 0, b"", [], None
        target = next(t for t in self.call("Target.getTargets")["targetInfos"] if t["type"] == "page")
        self.session = self.call("Target.attachToTarget", targetId=target["targetId"], flatten=True)["sessionId"]
        for domain in ("Page", "Runtime", "Log", "Network"):
            self.call(domain + ".enable")
        self.size = {"width": width, "height": height}
        self.phone(False)

    def call(self, method, **params):
        self.count += 1
        message = {"id": self.count, "method": method, "params": params}
        if self.session:
            message["sessionId"] = self.session
        os.write(self.out, json.dumps(message).encode() + b"\0")
        while True:
            answer = self.receive()
            if answer.get("id") == self.count:
                if "error" in answer:
                    raise RuntimeError(answer["error"])
                return answer["result"]
            self.events.append(answer)

    def receive(self):
        while b"\0" not in self.buffer:
            more = os.read(self.inp, 1 << 20)
            if not more:
                raise RuntimeError(f"{COMMAND} ended")
            self.buffer += more
        line, _, self.buffer = self.buffer.partition(b"\0")
        return json.loads(line)

    def open(self, path):
        self.events.clear()
        self.call("Page.navigate", url=Path(path).resolve().as_uri())
        while not any(e.get("method") == "Page.loadEventFired" for e in self.events):
            self.events.append(self.receive())
        self.until(f"document.readyState === 'complete' && location.pathname === {json.dumps(quote(str(Path(path).resolve())))}")

    def until(self, code, seconds=60):
        """Waits for something on the page that may take a while."""
        end = time.monotonic() + seconds
        while not self.js(code):
            if time.monotonic() > end:
                raise RuntimeError(f"after {seconds} s not yet: {code}")
            time.sleep(0.05)

    def js(self, code):
        answer = self.call("Runtime.evaluate", expression=code, returnByValue=True)
        if "exceptionDetails" in answer:
            raise RuntimeError(answer["exceptionDetails"])
        return answer["result"].get("value")

    def complaints(self):
        """Errors of the page, and what it asked for beside its own file."""
        self.js("0")
        return [e for e in self.events if e.get("method") in ("Runtime.exceptionThrown", "Runtime.consoleAPICalled", "Log.entryAdded")
                or e.get("method") == "Network.requestWillBeSent" and e["params"]["type"] != "Document"]

    def drag(self, a, b, held=0):
        for kind, (x, y), buttons in (("mousePressed", a, 1), ("mouseMoved", b, 1), ("mouseReleased", b, 0)):
            self.call("Input.dispatchMouseEvent", type=kind, x=x, y=y, button="left", buttons=buttons, clickCount=1, modifiers=held)

    def click(self, at):
        for kind, buttons in (("mousePressed", 1), ("mouseReleased", 0)):
            self.call("Input.dispatchMouseEvent", type=kind, x=at[0], y=at[1], button="left", buttons=buttons, clickCount=1)

    def point(self, at):
        self.call("Input.dispatchMouseEvent", type="mouseMoved", x=at[0], y=at[1])

    def wheel(self, at, down, held=0):
        self.call("Input.dispatchMouseEvent", type="mouseWheel", x=at[0], y=at[1], deltaX=0, deltaY=down, modifiers=held)

    def fingers(self, *steps):
        """Each step is where the fingers are, from the first touch on."""
        for n, places in enumerate(steps):
            self.call("Input.dispatchTouchEvent", type="touchStart" if n == 0 else "touchMove", touchPoints=[{"x": x, "y": y, "id": k} for k, (x, y) in enumerate(places)])
        self.call("Input.dispatchTouchEvent", type="touchEnd", touchPoints=[])

    def key(self, name):
        self.call("Input.dispatchKeyEvent", type="keyDown", key=name, **({"text": name} if len(name) == 1 else {}))
        self.call("Input.dispatchKeyEvent", type="keyUp", key=name)

    def scripts(self, on):
        self.call("Emulation.setScriptExecutionDisabled", value=not on)

    def phone(self, on=True):
        if on:
            self.call("Emulation.setDeviceMetricsOverride", width=390, height=760, deviceScaleFactor=2, mobile=True)
        else:
            # What the page has: of a whole chromium's window a part is its own.
            self.call("Emulation.setDeviceMetricsOverride", **self.size, deviceScaleFactor=1, mobile=False)
        self.call("Emulation.setTouchEmulationEnabled", enabled=on)

    def settle(self):
        """Lets the page draw what is due."""
        self.call("Runtime.evaluate", expression="new Promise(done => requestAnimationFrame(() => requestAnimationFrame(done)))", awaitPromise=True)

    def processes(self, pid=None):
        """The browser's processes."""
        pid = pid or self.process.pid
        out = [pid]
        for task in Path(f"/proc/{pid}/task").iterdir():
            for child in (task / "children").read_text().split():
                out += self.processes(int(child))
        return out

    def processor_seconds(self):
        total = 0
        for pid in self.processes():
            fields = Path(f"/proc/{pid}/stat").read_text().rpartition(")")[2].split()
            total += int(fields[11]) + int(fields[12])
        return total / os.sysconf("SC_CLK_TCK")

    def page_memory(self):
        """Bytes of the process that shows the page, its share of what it has in common with others."""
        largest = 0
        for pid in self.processes():
            if b"--type=renderer" in Path(f"/proc/{pid}/cmdline").read_bytes():
                largest = max(largest, *(1024 * int(line.split()[1]) for line in Path(f"/proc/{pid}/smaps_rollup").read_text().split("\n") if line.startswith("Pss:")))
        return largest

    def dark(self, on=True):
        self.call("Emulation.setEmulatedMedia", features=[{"name": "prefers-color-scheme", "value": "dark" if on else "light"}])

    def shot(self, path, clip=None):
        more = {"clip": {**clip, "scale": 1}} if clip else {}
        Path(path).write_bytes(base64.b64decode(self.call("Page.captureScreenshot", captureBeyondViewport=bool(clip), **more)["data"]))

    def box(self, selector):
        return self.js(f"(()=>{{const r=document.querySelector({selector!r}).getBoundingClientRect();"
                       "return {x:r.x+scrollX,y:r.y+scrollY,width:r.width,height:r.height}})()")

    def close(self):
        try:
            os.write(self.out, b'{"id":0,"method":"Browser.close"}\0')
        except BrokenPipeError:
            pass
        self.process.wait(20)
        os.close(self.out), os.close(self.inp)
        self.home.cleanup()
