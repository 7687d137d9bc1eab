"""Chromium without a window, by its DevTools protocol over two pipes."""
import base64, json, os, shutil, subprocess, tempfile, time

NAMES = "chromium", "chromium-browser", "google-chrome"


def found():
    """The path of Chromium, and None where it isn't installed."""
    return next(filter(None, map(shutil.which, NAMES)), None)


class Chromium:
    """A browser with one tab. `errors` has what its console said and what its scripts threw, `requests` the addresses that it asked for."""

    def __init__(self, *words):
        self.folder = tempfile.TemporaryDirectory(prefix="chromium-", ignore_cleanup_errors=True)
        takes, self.out = os.pipe()
        self.into, gives = os.pipe()
        how = ["--headless=new", "--remote-debugging-pipe", "--disable-gpu", "--disable-extensions", "--no-first-run"]
        how += [f"--user-data-dir={self.folder.name}"]
        safe = ["--no-sandbox"] if os.geteuid() == 0 else []
        command = ["bash", "-c", f'exec "$@" 3<&{takes} 4>&{gives}', "bash", found(), *how, *safe, *words, "about:blank"]
        quiet = {name: subprocess.DEVNULL for name in ("stdin", "stdout", "stderr")}
        self.process = subprocess.Popen(command, pass_fds=(takes, gives), **quiet)
        os.close(takes)
        os.close(gives)
        self.number, self.rest, self.session, self.errors, self.requests = 0, b"", None, [], []
        target = next(it for it in self.call("Target.getTargets")["targetInfos"] if it["type"] == "page")
        self.session = self.call("Target.attachToTarget", targetId=target["targetId"], flatten=True)["sessionId"]
        for part in ("Page", "Runtime", "Log", "Network"):
            self.call(f"{part}.enable")

    def __enter__(self):
        return self

    def __exit__(self, *wrong):
        self.process.terminate()
        self.process.wait(20)
        self.folder.cleanup()

    def message(self):
        while b"\0" not in self.rest:
            octets = os.read(self.into, 1 << 20)
            if not octets:
                raise EOFError("Chromium has ended")
            self.rest += octets
        text, _, self.rest = self.rest.partition(b"\0")
        return json.loads(text)

    def take(self, message):
        """Keeps what an event says."""
        name, told = message.get("method"), message.get("params", {})
        if name == "Runtime.exceptionThrown":
            self.errors.append(told["exceptionDetails"].get("exception", {}).get("description", told["exceptionDetails"]["text"]))
        elif name == "Log.entryAdded":
            self.errors.append(told["entry"]["text"])
        elif name == "Runtime.consoleAPICalled":
            self.errors.append(str(told["args"]))
        elif name == "Network.requestWillBeSent":
            self.requests.append(told["request"]["url"])

    def call(self, name, **words):
        self.number += 1
        to = {"sessionId": self.session} if self.session else {}
        os.write(self.out, json.dumps({"id": self.number, "method": name, "params": words} | to).encode() + b"\0")
        while True:
            message = self.message()
            if message.get("id") == self.number:
                if "error" in message:
                    raise RuntimeError(f"{name}: {message['error']['message']}")
                return message["result"]
            self.take(message)

    def open(self, path):
        """Opens a file, and waits until it says that it is ready; after how many milliseconds that was, by the page's own mark."""
        self.errors, self.requests = [], []
        self.call("Page.navigate", url=f"file://{os.path.abspath(path)}")
        return self.until("Number(document.documentElement?.dataset.ready)")

    def until(self, script, longest=20):
        """What a script says as soon as that is true."""
        end = time.monotonic() + longest
        while not (found := self.value(script)):
            if time.monotonic() > end:
                raise TimeoutError(f"{script}: {found}; errors: {self.errors}")
            time.sleep(0.05)
        return found

    def value(self, script):
        told = self.call("Runtime.evaluate", expression=script, returnByValue=True, awaitPromise=True)
        if "exceptionDetails" in told:
            raise RuntimeError(f"{script}: {told['exceptionDetails']}")
        return told["result"].get("value")

    def size(self, width, height, is_dark=False):
        self.call("Emulation.setDeviceMetricsOverride", width=width, height=height, deviceScaleFactor=1, mobile=False)
        self.call("Emulation.setEmulatedMedia", features=[{"name": "prefers-color-scheme", "value": "dark" if is_dark else "light"}])

    def click(self, x, y):
        for kind in ("mousePressed", "mouseReleased"):
            self.call("Input.dispatchMouseEvent", type=kind, x=x, y=y, button="left", clickCount=1)

    def key(self, name, text=""):
        words = {"key": name, "code": name, "windowsVirtualKeyCode": {"Enter": 13}.get(name, 0)}
        self.call("Input.dispatchKeyEvent", type="keyDown", text=text, **words)
        self.call("Input.dispatchKeyEvent", type="keyUp", **words)

    def pdf(self, path):
        with open(path, "wb") as file:
            file.write(base64.b64decode(self.call("Page.printToPDF", printBackground=True, preferCSSPageSize=True)["data"]))
