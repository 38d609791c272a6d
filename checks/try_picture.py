#!/usr/bin/env python3
"""Opens a flame graph in Chromium without a window, and compares what is shown after clicks and searches with what was worked out by
hand: try_picture.py PROGRAM [PICTURES]

PROGRAM is a built framehop-stacks. What is shown is written into the folder PICTURES as images, if it is named. Needs Debian's chromium
and chromium-driver. Status 0 where all is as it should be.
"""
import base64
import contextlib
import json
import socket
import subprocess
import sys
import tempfile
import time
import urllib.request
from pathlib import Path

# Ten samples: of `alpha` five, in three of which it is innermost.
FOLDED = "main;alpha 3\nmain;alpha;beta<int> 2\nmain;gamma(a_function_with_a_name_that_is_cut_where_half_the_picture_is_its_width_and_whole_in_all_of_it) 5\n"
GAMMA = FOLDED.split("\n")[2].split(";")[1][:-2]
# at first: left edge and width in pixels, of 1,200 for ten samples; of 600 - 6 pixels 81 letters of 7.25 are a name, and two are dots
FIRST = {
    "all": (0, 1200, "all"),
    "main": (0, 1200, "main"),
    "alpha": (0, 600, "alpha"),
    "beta<int>": (360, 240, "beta<int>"),
    GAMMA: (600, 600, GAMMA[:79] + ".."),
}
# after a click on `alpha`: a sample is 240 wide; after one on `gamma`: 240, too
ALPHA = {"all": (0, 1200, "all"), "main": (0, 1200, "main"), "alpha": (0, 1200, "alpha"), "beta<int>": (720, 480, "beta<int>")}
GAMMA_WHOLE = {"all": (0, 1200, "all"), "main": (0, 1200, "main"), GAMMA: (0, 1200, GAMMA)}
# the words that are typed, the boxes that are marked, and the sum that is told
SEARCHES = [
    ("beta|gamma", {"beta<int>", GAMMA}, "70.00% marked"),
    ("^(main|alpha)$", {"main", "alpha"}, "100.00% marked"),
    ("<int>", {"beta<int>"}, "20.00% marked"),
    ("gamma(", {GAMMA}, "50.00% marked"),
    ("delta", set(), "0.00% marked"),
]
SHOWN = """
const number = (box, name) => Number(box.querySelector("rect").getAttribute(name));
const shown = [...document.querySelectorAll("g")].filter(box => box.getAttribute("display") !== "none");
return shown.map(box => [box.querySelector("title").textContent.replace(/ \\(\\d+ samples?, [0-9.]+%\\)$/, ""), number(box, "x"),
    number(box, "width"), box.querySelector("text").textContent, box.querySelector("rect").getAttribute("fill") === "rgb(230,0,230)"]);
"""
TOLD = 'return [...document.querySelectorAll("svg > text")].map(text => text.textContent);'
CONTROL, ESCAPE, BACKSPACE = "\ue009", "\ue00c", "\ue003"


def free_port():
    with contextlib.closing(socket.socket()) as it:
        it.bind(("127.0.0.1", 0))
        return it.getsockname()[1]


class Browser:
    """Chromium, by the WebDriver protocol."""

    def __init__(self):
        self.port = free_port()
        self.driver = subprocess.Popen(["chromedriver", f"--port={self.port}"], stdout=subprocess.DEVNULL, stderr=subprocess.DEVNULL)
        self.path = ""
        for _ in range(100):
            with contextlib.suppress(OSError):
                self.ask("GET", "/status")
                break
            time.sleep(0.1)
        words = ["--headless", "--no-sandbox", "--disable-gpu", "--hide-scrollbars", "--window-size=1240,300"]
        wanted = {"alwaysMatch": {"goog:chromeOptions": {"args": words}}}
        self.path = f"/session/{self.ask('POST', '/session', {'capabilities': wanted})['sessionId']}"

    def ask(self, method, place, body=None):
        data = None if body is None else json.dumps(body).encode()
        request = urllib.request.Request(f"http://127.0.0.1:{self.port}{self.path}{place}", data, {"Content-Type": "application/json"}, method=method)
        with urllib.request.urlopen(request, timeout=100) as reply:
            return json.load(reply)["value"]

    def run(self, script):
        return self.ask("POST", "/execute/sync", {"script": script, "args": []})

    def act(self, kind, steps):
        self.ask("POST", "/actions", {"actions": [{"type": kind, "id": kind, "actions": steps}]})

    def click(self, x, y):
        self.act("pointer", [{"type": "pointerMove", "x": x, "y": y}, {"type": "pointerDown", "button": 0}, {"type": "pointerUp", "button": 0}])

    def press(self, *keys):
        self.act("key", [{"type": "keyDown", "value": key} for key in keys] + [{"type": "keyUp", "value": key} for key in reversed(keys)])

    def end(self):
        with contextlib.suppress(OSError):
            self.ask("DELETE", "")
        self.driver.terminate()
        self.driver.wait()


failed = []


def compare(browser, step, boxes, marked, told):
    """Compares the boxes that are shown, those that are marked, and the texts beside them."""
    shown = browser.run(SHOWN)
    if {name: (left, width, label) for name, left, width, label, _ in shown} != boxes:
        failed.append(f"{step}: the boxes are {shown}")
    if {name for name, *_, is_marked in shown if is_marked} != marked:
        failed.append(f"{step}: other boxes are marked: {shown}")
    if browser.run(TOLD)[1:] != [told]:
        failed.append(f"{step}: it is told {browser.run(TOLD)}")
    if len(sys.argv) > 2:
        Path(sys.argv[2], f"{step}.png").write_bytes(base64.b64decode(browser.ask("GET", "/screenshot")))


def try_all(browser):
    compare(browser, "first", FIRST, set(), "")
    # the row of `alpha` and `gamma` is the third, from 88 pixels on, 10 pixels to the right
    browser.click(100, 95)
    compare(browser, "alpha", ALPHA, set(), "")
    browser.click(100, 63)
    compare(browser, "all", FIRST, set(), "")
    browser.click(1100, 95)
    compare(browser, "gamma", GAMMA_WHOLE, set(), "")
    browser.press(ESCAPE)
    compare(browser, "escape", FIRST, set(), "")
    for at, (words, marked, told) in enumerate(SEARCHES):
        browser.press(CONTROL, "f")
        for key in words:
            browser.press(key)
        compare(browser, f"search-{at}", FIRST, marked, told)
    browser.press(CONTROL, "f")
    browser.press(BACKSPACE)
    compare(browser, "no-search", FIRST, set(), "")


with tempfile.TemporaryDirectory() as room:
    drawn = subprocess.run([sys.argv[1], "--svg", "-"], input=FOLDED, stdout=subprocess.PIPE, check=True, text=True).stdout
    Path(room, "picture.svg").write_text(drawn)
    browser = Browser()
    try:
        browser.ask("POST", "/url", {"url": Path(room, "picture.svg").as_uri()})
        try_all(browser)
    finally:
        browser.end()
for fault in failed:
    print(f"try_picture.py: {fault}", file=sys.stderr)
if failed:
    sys.exit(1)
print("what Chromium shows of a flame graph is as it should be")
