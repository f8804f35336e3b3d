"""Windows of a headless Chromium, over the WebDriver protocol, for checks/page.py."""
import base64
import contextlib
import json
import pathlib
import shutil
import subprocess
import sys
import time
import urllib.error
import urllib.request

ELEMENT = "element-6066-11e4-a52e-4f735466cecf"
KEYS = {"Enter": "\ue007", "Escape": "\ue00c", "ArrowUp": "\ue013", "ArrowDown": "\ue015", "Tab": "\ue004", "Shift": "\ue008", "Control": "\ue009"}


class Driver:
    """Debian's chromedriver, which starts one Chromium for each window."""

    def __init__(self, port):
        self.address = f"http://127.0.0.1:{port}"
        self.process = subprocess.Popen(["chromedriver", f"--port={port}"], stdin=subprocess.DEVNULL, stdout=subprocess.DEVNULL, stderr=subprocess.DEVNULL)

    def ask(self, method, path, body=None):
        data = None if body is None else json.dumps(body).encode()
        request = urllib.request.Request(self.address + path, data, {"Content-Type": "application/json"}, method=method)
        try:
            with urllib.request.urlopen(request, timeout=120) as response:
                return json.load(response)["value"]
        except urllib.error.HTTPError as error:
            sys.exit(f"the browser: {path}: {json.load(error)['value']['message']}")

    def wait(self):
        """Waits until it answers."""
        for _ in range(400):
            with contextlib.suppress(OSError):
                if self.ask("GET", "/status")["ready"]:
                    return
            time.sleep(0.05)
        sys.exit("chromedriver doesn't answer")

    def stop(self):
        self.process.terminate()
        self.process.wait()


class Window:
    """One browser with a profile of its own, in this folder, and one window."""

    def __init__(self, driver, profile, size=(1100, 860), trusted=None):
        """`trusted` is the sum of the key of a certificate that nobody has signed."""
        words = ["--headless=new", "--no-sandbox", "--disable-gpu", "--disable-dev-shm-usage", f"--user-data-dir={profile}", f"--window-size={size[0]},{size[1]}"]
        if trusted is not None:
            words.append(f"--ignore-certificate-errors-spki-list={trusted}")
        options = {"args": words, "binary": shutil.which("chromium")}
        made = driver.ask("POST", "/session", {"capabilities": {"alwaysMatch": {"goog:chromeOptions": options, "goog:loggingPrefs": {"browser": "ALL"}}}})
        self.driver, self.path = driver, f"/session/{made['sessionId']}"
        self.ask("POST", "/timeouts", {"script": 30_000})

    def ask(self, method, path, body=None):
        return self.driver.ask(method, self.path + path, body)

    def open(self, address):
        self.ask("POST", "/url", {"url": address})

    def reload(self):
        self.ask("POST", "/refresh", {})

    def close(self):
        self.ask("DELETE", "")

    def new_tab(self, address):
        """Opens a second tab of the same browser, and goes to it. The handle of it."""
        handle = self.ask("POST", "/window/new", {"type": "tab"})["handle"]
        self.go_to(handle)
        self.open(address)
        return handle

    def tab(self):
        return self.ask("GET", "/window")

    def go_to(self, handle):
        self.ask("POST", "/window", {"handle": handle})

    def run(self, script, *words):
        """What the body of a function gives; a promise is waited for."""
        return self.ask("POST", "/execute/sync", {"script": script, "args": list(words)})

    def devtools(self, command, **parameters):
        return self.ask("POST", "/goog/cdp/execute", {"cmd": command, "params": parameters})

    def find(self, selector):
        return self.ask("POST", "/element", {"using": "css selector", "value": selector})[ELEMENT]

    def click(self, selector):
        # away from what stays at the edges of the window while the page is scrolled
        self.run("document.querySelector(arguments[0])?.scrollIntoView({ block: 'center' })", selector)
        self.ask("POST", f"/element/{self.find(selector)}/click", {})

    def type(self, selector, *texts):
        """Types these texts into a field; the names of keys stand for keys."""
        text = "".join(KEYS.get(text, text) for text in texts)
        self.ask("POST", f"/element/{self.find(selector)}/value", {"text": text})

    def press(self, *keys):
        """Presses keys one after the other, wherever the focus is."""
        actions = [{"type": kind, "value": KEYS.get(key, key)} for key in keys for kind in ("keyDown", "keyUp")]
        self.ask("POST", "/actions", {"actions": [{"type": "key", "id": "keyboard", "actions": actions}]})

    def press_with(self, held, key):
        """Presses a key while another one is held."""
        actions = [("keyDown", held), ("keyDown", key), ("keyUp", key), ("keyUp", held)]
        steps = [{"type": kind, "value": KEYS.get(one, one)} for kind, one in actions]
        self.ask("POST", "/actions", {"actions": [{"type": "key", "id": "keyboard", "actions": steps}]})

    def drag(self, selector, onto):
        """Drags the middle of one element beyond the middle of another, by the mouse."""
        start, end = self.find(selector), self.find(onto)
        move = [{"type": "pointerMove", "duration": 50, "origin": {ELEMENT: element}, "x": 0, "y": y} for element, y in ((start, 0), (end, 0), (end, 8))]
        actions = [move[0], {"type": "pointerDown", "button": 0}, move[1], move[2], {"type": "pointerUp", "button": 0}]
        self.ask("POST", "/actions", {"actions": [{"type": "pointer", "id": "mouse", "actions": actions}]})

    def messages(self):
        """What the page wrote to the console since the last call."""
        return self.ask("POST", "/se/log", {"type": "browser"})

    def picture(self, path):
        pathlib.Path(path).write_bytes(base64.b64decode(self.ask("GET", "/screenshot")))

    def waits(self, what, script, *words, seconds=20):
        """Waits until the body of a function gives something true, and gives it with how long it took."""
        start = time.monotonic()
        while not (found := self.run(script, *words)):
            if time.monotonic() - start > seconds:
                sys.exit(f"wrong: {what}: not within {seconds} s; the page shows {self.run('return document.body.innerText')!r}")
            time.sleep(0.02)
        return found, time.monotonic() - start
