"""A headless Chromium, driven by chromedriver over HTTP, as the W3C's WebDriver has it."""
import base64
import contextlib
import functools
import json
import shutil
import subprocess
import tempfile
import time
import urllib.error
import urllib.request

from helpers import page_serving
from helpers.trying import END, Missing

CHROMIUM, DRIVER, OPENSSL = (shutil.which(name) for name in ("chromium", "chromedriver", "openssl"))
OPTIONS = ("--headless=new", "--no-sandbox", "--disable-gpu", "--disable-dev-shm-usage", "--window-size=1100,900")
ELEMENT = "element-6066-11e4-a52e-4f735466cecf"
SECONDS = 60
# How long a page may take to show what is wanted.
PATIENCE = 20
ATTEMPTS = 20


class Browser:
    """A session of a browser of its own."""

    def __init__(self, folder):
        self.port = page_serving.free_port()
        self.ran = subprocess.Popen([DRIVER, f"--port={self.port}"], stdout=subprocess.DEVNULL, stderr=subprocess.DEVNULL)
        options = {"binary": CHROMIUM, "args": [*OPTIONS, f"--user-data-dir={folder}"]}
        wanted = {"browserName": "chrome", "goog:chromeOptions": options}
        self.session = ""
        self.wait_until_ready()
        self.session = f"/session/{self.call('POST', '/session', {'capabilities': {'alwaysMatch': wanted}})['sessionId']}"

    def wait_until_ready(self):
        for _ in range(200):
            with contextlib.suppress(urllib.error.URLError, ConnectionError):
                if self.call("GET", "/status")["ready"]:
                    return
            time.sleep(0.05)
        raise AssertionError("chromedriver is not ready")

    def call(self, method, path, body=None):
        """What the driver answers."""
        data = None if body is None else json.dumps(body).encode()
        asked = urllib.request.Request(f"http://127.0.0.1:{self.port}{self.session}{path}", data, {"Content-Type": "application/json"},
                                       method=method)
        with urllib.request.urlopen(asked, timeout=SECONDS) as answer:
            return json.load(answer)["value"]

    def devtools(self, command, **parameters):
        return self.call("POST", "/goog/cdp/execute", {"cmd": command, "params": parameters})

    def open(self, address):
        self.call("POST", "/url", {"url": address})

    def run(self, script, *arguments):
        """The value of a function's body in the page."""
        return self.call("POST", "/execute/sync", {"script": script, "args": list(arguments)})

    def keys(self, *names):
        """Presses keys, one after the other."""
        presses = [{"type": kind, "value": name} for name in names for kind in ("keyDown", "keyUp")]
        self.call("POST", "/actions", {"actions": [{"type": "key", "id": "keys", "actions": presses}]})

    def click(self, selector):
        """Clicks an element, found anew where a look of the page has put another one in its place."""
        for attempt in range(ATTEMPTS):
            try:
                found = self.call("POST", "/element", {"using": "css selector", "value": selector})
                return self.call("POST", f"/element/{found[ELEMENT]}/click", {})
            except urllib.error.HTTPError:
                if attempt == ATTEMPTS - 1:
                    raise
                time.sleep(0.05)

    def picture(self):
        return base64.b64decode(self.call("GET", "/screenshot"))

    def shows(self, script, wanted, *arguments):
        """Waits until a function of the page gives what is wanted."""
        end, found = time.monotonic() + PATIENCE, None
        while time.monotonic() < end:
            found = self.run(script, *arguments)
            if found == wanted:
                return
            time.sleep(0.1)
        raise AssertionError(f"{found!r}, wanted {wanted!r}")

    def end(self):
        with contextlib.suppress(urllib.error.URLError, ConnectionError):
            self.call("DELETE", "")
        self.ran.terminate()
        self.ran.wait(timeout=SECONDS)


def what_is_missing():
    """The packages of Debian that a test of the page lacks here."""
    needed = {"nginx-light": page_serving.NGINX, "chromium": CHROMIUM, "chromium-driver": DRIVER, "openssl": OPENSSL}
    return [name for name, found in needed.items() if not found]


@functools.lru_cache(maxsize=None)
def session():
    """The browser that the tests share, up to the end of their run."""
    missing = what_is_missing()
    if missing:
        raise Missing(", ".join(missing))
    folder = tempfile.mkdtemp(prefix="desk-browser-")
    END.callback(shutil.rmtree, folder, ignore_errors=True)
    shown = Browser(folder)
    END.callback(shown.end)
    return shown
