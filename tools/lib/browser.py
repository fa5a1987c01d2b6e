"""A headless Chromium, driven by its DevTools protocol over a small WebSocket client (RFC 6455). For trials."""
import base64, contextlib, json, os, pathlib, select, shutil, signal, socket, struct, subprocess, tempfile, time
import urllib.parse

NAMES = ("chromium", "chromium-browser", "google-chrome")
OPTIONS = (
    "--headless=new",
    "--no-sandbox",
    "--disable-gpu",
    "--disable-extensions",
    "--hide-scrollbars",
    "--no-first-run",
    "--remote-debugging-port=0",
)
START, ANSWER = 60, 60  # seconds, at most
TEXT, CLOSE, PING, PONG, LAST = 0x1, 0x8, 0x9, 0xA, 0x80
SHORT, MIDDLE, LONG = 125, 126, 127  # lengths of a frame, and marks of longer ones
IS_MASKED = 0x80


class NoBrowser(Exception):
    pass


class WebSocket:
    """A client. Text messages alone."""

    def __init__(self, address: str):
        parts = urllib.parse.urlsplit(address)
        self.socket = socket.create_connection((parts.hostname, parts.port), ANSWER)
        self.heard = b""
        key = base64.b64encode(os.urandom(16)).decode()
        upgrade = "Upgrade: websocket", "Connection: Upgrade", f"Sec-WebSocket-Key: {key}", "Sec-WebSocket-Version: 13"
        self.socket.sendall(
            "\r\n".join((f"GET {parts.path} HTTP/1.1", f"Host: {parts.netloc}", *upgrade, "", "")).encode()
        )
        while b"\r\n\r\n" not in self.heard:
            self.hear()
        head, self.heard = self.heard.split(b"\r\n\r\n", 1)
        if b" 101 " not in head.split(b"\r\n")[0]:
            raise NoBrowser(head.decode())

    def hear(self):
        piece = self.socket.recv(65_536)
        if not piece:
            raise NoBrowser("the browser is gone")
        self.heard += piece

    def take(self, size: int) -> bytes:
        while len(self.heard) < size:
            self.hear()
        taken, self.heard = self.heard[:size], self.heard[size:]
        return taken

    def send(self, content: bytes, kind: int = TEXT):
        size, mask = len(content), os.urandom(4)
        if size <= SHORT:
            head = struct.pack("!BB", LAST | kind, IS_MASKED | size)
        elif size < 65_536:
            head = struct.pack("!BBH", LAST | kind, IS_MASKED | MIDDLE, size)
        else:
            head = struct.pack("!BBQ", LAST | kind, IS_MASKED | LONG, size)
        repeated = (mask * (size // 4 + 1))[:size]
        masked = (int.from_bytes(content, "big") ^ int.from_bytes(repeated, "big")).to_bytes(size, "big")
        self.socket.sendall(head + mask + masked)

    def receive(self) -> str:
        message = b""
        while True:
            first, size = self.take(2)
            if size == MIDDLE:
                (size,) = struct.unpack("!H", self.take(2))
            elif size == LONG:
                (size,) = struct.unpack("!Q", self.take(8))
            content, kind = self.take(size), first & 0xF
            if kind == PING:
                self.send(content, PONG)
            elif kind == CLOSE:
                raise NoBrowser("the browser is gone")
            else:
                message += content
                if first & LAST:
                    return message.decode()

    def has_more(self, seconds: float) -> bool:
        return bool(self.heard) or bool(select.select([self.socket], [], [], seconds)[0])


class Browser:
    """One page of a browser of its own."""

    def __init__(self):
        binary = next(filter(None, map(shutil.which, NAMES)), None)
        if not binary:
            raise NoBrowser("no chromium: apt-get install chromium")
        self.folder, self.count, self.said = tempfile.mkdtemp(prefix="browser-"), 0, []
        started = [binary, *OPTIONS, f"--user-data-dir={self.folder}", "about:blank"]
        with open(f"{self.folder}/said", "wb") as said:
            self.process = subprocess.Popen(
                started, stdin=subprocess.DEVNULL, stdout=said, stderr=said, start_new_session=True
            )
        self.session = None
        self.socket = WebSocket(self.address())
        target = next(it for it in self.ask("Target.getTargets")["targetInfos"] if it["type"] == "page")
        self.session = self.ask("Target.attachToTarget", targetId=target["targetId"], flatten=True)["sessionId"]
        for domain in ("Page", "Runtime", "Performance"):
            self.ask(f"{domain}.enable")

    def address(self) -> str:
        until, file = time.monotonic() + START, pathlib.Path(self.folder, "DevToolsActivePort")
        while time.monotonic() < until and self.process.poll() is None:
            with contextlib.suppress(OSError):
                lines = file.read_text().splitlines()
                if len(lines) == 2:
                    return f"ws://127.0.0.1:{lines[0]}{lines[1]}"
            time.sleep(0.1)
        said = pathlib.Path(self.folder, "said").read_text()[-500:]
        self.close()
        raise NoBrowser(f"chromium doesn't start: {said}")

    def ask(self, method: str, **given):
        self.count += 1
        number, about = self.count, {"sessionId": self.session} if self.session else {}
        self.socket.send(json.dumps({"id": number, "method": method, "params": given, **about}).encode())
        while True:
            message = json.loads(self.socket.receive())
            if message.get("id") == number:
                if "error" in message:
                    raise NoBrowser(f"{method}: {message['error']}")
                return message["result"]
            self.note(message)

    def note(self, message: dict):
        """Keeps what the page complained of."""
        kind, about = message.get("method"), message.get("params", {})
        if kind == "Runtime.exceptionThrown":
            self.said.append(
                about["exceptionDetails"].get("exception", {}).get("description", about["exceptionDetails"]["text"])
            )
        elif kind == "Runtime.consoleAPICalled" and about["type"] in ("error", "warning"):
            self.said.append(" ".join(str(it.get("value", it.get("description"))) for it in about["args"]))

    def complaints(self) -> list[str]:
        while self.socket.has_more(0):
            self.note(json.loads(self.socket.receive()))
        return self.said

    def open(self, address: str):
        self.ask("Page.navigate", url=address)
        self.wait("document.readyState === 'complete'")

    def value(self, expression: str):
        """Of an expression of the page, which may be a promise."""
        answer = self.ask("Runtime.evaluate", expression=expression, returnByValue=True, awaitPromise=True)
        if "exceptionDetails" in answer:
            raise NoBrowser(f"{expression}: {answer['exceptionDetails']}")
        return answer["result"].get("value")

    def wait(self, expression: str, seconds: float = ANSWER) -> bool:
        """Whether the expression came to be true within that time."""
        until = time.monotonic() + seconds
        while time.monotonic() < until:
            if self.value(expression):
                return True
            time.sleep(0.05)
        return False

    def size(self, width: int, height: int, dark: bool):
        self.ask("Emulation.setDeviceMetricsOverride", width=width, height=height, deviceScaleFactor=1, mobile=False)
        self.ask(
            "Emulation.setEmulatedMedia",
            features=[{"name": "prefers-color-scheme", "value": "dark" if dark else "light"}],
        )

    def picture(self, path: str, whole: bool = True):
        """A PNG of the whole page, or of what stands in the window."""
        taken = self.ask("Page.captureScreenshot", format="png", captureBeyondViewport=whole)
        pathlib.Path(path).write_bytes(base64.b64decode(taken["data"]))

    def press(self, key: str, code: str = "", shift: bool = False):
        text = {"text": key} if len(key) == 1 else {}
        for kind in ("keyDown", "keyUp"):
            self.ask(
                "Input.dispatchKeyEvent",
                type=kind,
                key=key,
                code=code or key,
                modifiers=8 if shift else 0,
                **(text if kind == "keyDown" else {}),
            )

    def metrics(self) -> dict[str, float]:
        return {it["name"]: it["value"] for it in self.ask("Performance.getMetrics")["metrics"]}

    def close(self):
        with contextlib.suppress(ProcessLookupError):
            os.killpg(self.process.pid, signal.SIGKILL)
        self.process.wait()
        shutil.rmtree(self.folder, ignore_errors=True)
