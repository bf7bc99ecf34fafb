"""Browsers without a screen, for tests of pages: Chromium, told what to do through a pipe, and Firefox, through a socket. A window
of either has the same methods."""
import base64
import contextlib
import fcntl
import json
import os
import select
import signal
import socket
import subprocess
import sys
import time

LATEST = 600  # seconds until something hangs for sure
KEYS = {"Enter": ("Enter", 13, "\r", "\ue007"), "ArrowUp": ("ArrowUp", 38, "", "\ue013"),
        "ArrowDown": ("ArrowDown", 40, "", "\ue015"), "Escape": ("Escape", 27, "", "\ue00c"), "Tab": ("Tab", 9, "\t", "\ue004")}


class Wrong(Exception):
    """What isn't as it should be, in words."""


class Ended(Wrong):
    """A browser that has ended, or hangs."""


def check(holds, told):
    if not holds:
        raise Wrong(told)


def until(holds, told):
    """Waits until something holds."""
    end = time.monotonic() + LATEST
    while not holds():
        check(time.monotonic() < end, told)
        time.sleep(0.01)


class Window:
    """What windows of both browsers can do."""

    def until(self, expression, told):
        """Waits until an expression is true."""
        end = time.monotonic() + LATEST
        while not self.holds(expression):
            if time.monotonic() > end:
                shown = self.value("document.body && document.body.innerText") or ""
                raise Wrong("%s; shown is %r" % (told, shown[-600:]))
            time.sleep(0.01)

    def holds(self, expression):
        """Whether an expression is true; it isn't where it can't be told, as while a page goes for another."""
        try:
            return self.value("(() => { try { return !!(%s); } catch { return false; } })()" % expression)
        except Ended:
            raise
        except Wrong:
            return False

    def enter(self, text):
        """Types a line and Enter, wherever the focus is."""
        self.type(text)
        self.key("Enter")


class Started:
    """A browser with a folder of its own for all that it keeps."""

    def start(self, words, room, **more):
        os.makedirs(room, exist_ok=True)
        self.room = room
        self.process = subprocess.Popen(words, stdin=subprocess.DEVNULL, stdout=subprocess.DEVNULL, env=dict(os.environ, HOME=room),
                                        start_new_session=True, **more)

    def end(self):
        """Ends it at once, with all its processes."""
        with contextlib.suppress(ProcessLookupError):
            os.killpg(self.process.pid, signal.SIGKILL)
        self.process.wait()


# --- Chromium ------------------------------------------------------------------------------------------------------

def above(numbers):
    """The same open files by numbers above those that a child gives anew."""
    found = [fcntl.fcntl(number, fcntl.F_DUPFD_CLOEXEC, 20) for number in numbers]
    for number in numbers:
        os.close(number)
    return found


class Chromium(Started):
    name = "Chromium"

    def __init__(self, room):
        theirs_in, self.to = above(os.pipe())
        self.come, theirs_out = above(os.pipe())
        words = ["chromium", "--headless=new", "--no-sandbox", "--disable-gpu", "--disable-dev-shm-usage", "--no-first-run",
                 "--mute-audio", "--disable-background-networking", "--disable-background-timer-throttling",
                 "--disable-renderer-backgrounding",
                 "--disable-component-update", "--hide-scrollbars", "--remote-debugging-pipe",
                 "--user-data-dir=" + os.path.join(room, "user")]
        begin = "import os, sys; os.dup2(%d, 3); os.dup2(%d, 4); os.execvp(sys.argv[1], sys.argv[1:])" % (theirs_in, theirs_out)
        self.start([sys.executable, "-I", "-S", "-c", begin, *words], room, stderr=subprocess.DEVNULL,
                   pass_fds=(theirs_in, theirs_out))
        os.close(theirs_in)
        os.close(theirs_out)
        self.number, self.held, self.events = 0, b"", []

    def read(self):
        """The next message."""
        while b"\0" not in self.held:
            is_there = select.select([self.come], [], [], LATEST)[0]
            part = os.read(self.come, 1 << 20) if is_there else b""
            if not part:
                raise Ended("the browser has ended" if is_there else "the browser says nothing")
            self.held += part
        message, _, self.held = self.held.partition(b"\0")
        return json.loads(message)

    def send(self, method, window=None, **words):
        self.number += 1
        message = {"id": self.number, "method": method, "params": words, **({"sessionId": window} if window else {})}
        os.write(self.to, json.dumps(message).encode() + b"\0")
        return self.number

    def call(self, method, window=None, **words):
        number = self.send(method, window, **words)
        while True:
            message = self.read()
            if message.get("id") == number:
                check("error" not in message, "%s: %s" % (method, message.get("error")))
                return message["result"]
            if "method" in message:
                self.events.append(message)

    def window(self, size=(1000, 720), dark=False, script=""):
        return ChromiumWindow(self, size, dark, script)

    def end(self):
        super().end()
        os.close(self.to)
        os.close(self.come)


class ChromiumWindow(Window):
    def __init__(self, browser, size, dark, script):
        self.browser = browser
        self.target = browser.call("Target.createTarget", url="about:blank")["targetId"]
        self.session = browser.call("Target.attachToTarget", targetId=self.target, flatten=True)["sessionId"]
        for domain in ("Page", "Network", "Runtime", "Log"):
            self.call(domain + ".enable")
        self.call("Emulation.setFocusEmulationEnabled", enabled=True)
        self.call("Emulation.setEmulatedMedia", features=[{"name": "prefers-color-scheme", "value": "dark" if dark else "light"}])
        self.resize(size)
        if script:
            self.call("Page.addScriptToEvaluateOnNewDocument", source=script)

    def call(self, method, **words):
        return self.browser.call(method, self.session, **words)

    def resize(self, size):
        self.call("Emulation.setDeviceMetricsOverride", width=size[0], height=size[1], deviceScaleFactor=1, mobile=size[0] < 500)

    def go(self, address):
        self.call("Page.navigate", url=address)

    def value(self, expression):
        answer = self.call("Runtime.evaluate", expression=expression, returnByValue=True, awaitPromise=True)
        check("exceptionDetails" not in answer, "%s: %s" % (expression, answer.get("exceptionDetails")))
        return answer["result"].get("value")

    def type(self, text):
        self.call("Input.insertText", text=text)

    def key(self, name):
        code, number, text, _ = KEYS[name]
        for kind in ("keyDown" if text else "rawKeyDown", "keyUp"):
            self.call("Input.dispatchKeyEvent", type=kind, key=name, code=code,
                      windowsVirtualKeyCode=number, text=text if kind == "keyDown" else "")

    def reload(self):
        self.call("Page.reload")

    def picture(self, path):
        write(path, base64.b64decode(self.call("Page.captureScreenshot", format="png")["data"]))

    def requests(self):
        """The addresses that were asked for, and what the page's rules refused."""
        return [event["params"]["request"]["url"] for event in self.browser.events if event["method"] == "Network.requestWillBeSent"
                and event.get("sessionId") == self.session]

    def close(self):
        self.browser.call("Target.closeTarget", targetId=self.target)


# --- Firefox -------------------------------------------------------------------------------------------------------

class Socket:
    """A socket of the web: frames of text, as a client sends and reads them."""

    def __init__(self, port, path):
        self.socket = socket.create_connection(("127.0.0.1", port), LATEST)
        self.held = b""
        key = base64.b64encode(os.urandom(16)).decode()
        self.socket.sendall(("GET %s HTTP/1.1\r\nHost: 127.0.0.1:%d\r\nUpgrade: websocket\r\nConnection: Upgrade\r\n"
                             "Sec-WebSocket-Version: 13\r\nSec-WebSocket-Key: %s\r\n\r\n" % (path, port, key)).encode())
        while b"\r\n\r\n" not in self.held:
            self.more()
        answer, _, self.held = self.held.partition(b"\r\n\r\n")
        check(b" 101 " in answer, "Firefox refuses its socket: %r" % answer)

    def more(self):
        try:
            part = self.socket.recv(1 << 20)
        except OSError as why:
            raise Ended("the browser says nothing (%s)" % why) from why
        if not part:
            raise Ended("the browser has ended")
        self.held += part

    def take(self, count):
        while len(self.held) < count:
            self.more()
        taken, self.held = self.held[:count], self.held[count:]
        return taken

    def send(self, text):
        data, mask = text.encode(), os.urandom(4)
        code, size = (len(data), 0) if len(data) < 126 else (126, 2) if len(data) < 65536 else (127, 8)
        length = bytes([128 | code]) + len(data).to_bytes(8, "big")[8 - size:]
        self.socket.sendall(b"\x81" + length + mask + bytes(byte ^ mask[at % 4] for at, byte in enumerate(data)))

    def read(self):
        """The next message of text, of as many frames as it comes in."""
        text = b""
        while True:
            first, length = self.take(2)
            if length == 126:
                length = int.from_bytes(self.take(2), "big")
            elif length == 127:
                length = int.from_bytes(self.take(8), "big")
            data = self.take(length)
            if first & 15 in (0, 1):
                text += data
                if first & 128:
                    return text.decode()


# Nothing of Firefox's own goes to the network, and the window of a test is the one in front.
SETTINGS = {"datareporting.policy.dataSubmissionEnabled": False, "app.update.enabled": False, "browser.startup.page": 0,
            "browser.shell.checkDefaultBrowser": False, "network.captive-portal-service.enabled": False,
            "network.connectivity-service.enabled": False,
            "browser.safebrowsing.malware.enabled": False, "services.settings.server": "data:,#remote-settings-dummy/v1",
            "browser.region.update.enabled": False, "extensions.update.enabled": False, "focusmanager.testmode": True,
            "toolkit.telemetry.enabled": False, "browser.newtabpage.enabled": False, "dom.disable_open_during_load": False,
            "media.volume_scale": "0.0", "network.proxy.no_proxies_on": "127.0.0.1"}


class Firefox(Started):
    name = "Firefox"

    def __init__(self, room):
        profile = os.path.join(room, "user")
        os.makedirs(profile, exist_ok=True)
        write(os.path.join(profile, "user.js"), "".join("user_pref(%s, %s);\n" % (json.dumps(name), json.dumps(value))
                                                         for name, value in SETTINGS.items()).encode())
        said = os.path.join(profile, "WebDriverBiDiServer.json")
        if os.path.exists(said):
            os.unlink(said)
        self.start(["firefox-esr", "--headless", "--no-remote", "--profile", profile, "--remote-debugging-port", "0"], room,
                   stderr=subprocess.DEVNULL)
        end = time.monotonic() + LATEST
        while True:
            with contextlib.suppress(OSError, ValueError, KeyError), open(said, encoding="ascii") as file:
                port = json.load(file)["ws_port"]
                break
            check(time.monotonic() < end and self.process.poll() is None, "Firefox doesn't start")
            time.sleep(0.05)
        self.socket, self.number, self.events = Socket(port, "/session"), 0, []
        self.call("session.new", capabilities={})
        self.call("session.subscribe", events=["network.beforeRequestSent"])

    def call(self, method, **words):
        self.number += 1
        self.socket.send(json.dumps({"id": self.number, "method": method, "params": words}))
        while True:
            message = json.loads(self.socket.read())
            if message.get("id") == self.number:
                check(message["type"] == "success", "%s: %s" % (method, message.get("message")))
                return message["result"]
            self.events.append(message)

    def window(self, size=(1000, 720), dark=False, script=""):
        return FirefoxWindow(self, size, script)


class FirefoxWindow(Window):
    def __init__(self, browser, size, script):
        self.browser = browser
        self.context = browser.call("browsingContext.create", type="tab")["context"]
        self.resize(size)
        if script:
            browser.call("script.addPreloadScript", functionDeclaration="() => { %s }" % script, contexts=[self.context])

    def resize(self, size):
        self.browser.call("browsingContext.setViewport", context=self.context, viewport={"width": size[0], "height": size[1]})

    def go(self, address):
        self.browser.call("browsingContext.navigate", context=self.context, url=address, wait="none")

    def value(self, expression):
        wrapped = "(async () => JSON.stringify(await (%s)))()" % expression.strip().rstrip(";")
        answer = self.browser.call("script.evaluate", expression=wrapped, target={"context": self.context}, awaitPromise=True)
        check(answer["type"] == "success", "%s: %s" % (expression, answer.get("exceptionDetails", {}).get("text")))
        value = answer["result"].get("value")
        return json.loads(value) if value else None

    def keys(self, letters):
        steps = [{"type": kind, "value": letter} for letter in letters for kind in ("keyDown", "keyUp")]
        self.browser.call("input.performActions", context=self.context, actions=[{"type": "key", "id": "keys", "actions": steps}])

    def type(self, text):
        self.keys(text)

    def key(self, name):
        self.keys([KEYS[name][3]])

    def reload(self):
        self.browser.call("browsingContext.reload", context=self.context, wait="none")

    def picture(self, path):
        write(path, base64.b64decode(self.browser.call("browsingContext.captureScreenshot", context=self.context)["data"]))

    def requests(self):
        return [event["params"]["request"]["url"] for event in self.browser.events
                if event.get("method") == "network.beforeRequestSent" and event["params"]["context"] == self.context]

    def close(self):
        self.browser.call("browsingContext.close", context=self.context)


def write(path, data):
    with open(path, "wb") as file:
        file.write(data)

