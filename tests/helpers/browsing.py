#!/usr/bin/env python3
"""A browser that is asked by its debugging protocol: pages are opened, expressions evaluated, and what the console says is kept.

    from browsing import Browser
    with Browser("chromium") as browser:
        browser.open("http://127.0.0.1:8000/player")
        browser.value("document.title")
"""
import base64
import json
import os
import socket
import struct
import subprocess
import tempfile
import time
import urllib.request
from pathlib import Path

WAIT = 20


class Browser:
    """One page of a headless Chromium. Each call is bounded by WAIT seconds."""

    def __init__(self, program, *words):
        self.folder = tempfile.TemporaryDirectory()
        self.process = subprocess.Popen(
            [
                program,
                "--headless=new",
                "--no-sandbox",
                "--disable-gpu",
                "--disable-dev-shm-usage",
                "--autoplay-policy=no-user-gesture-required",
                "--remote-debugging-port=0",
                f"--user-data-dir={self.folder.name}",
                *words,
                "about:blank",
            ],
            stdout=subprocess.DEVNULL,
            stderr=subprocess.DEVNULL,
        )
        self.messages = []
        self.waiting = b""
        self.number = 0
        self.socket = self.connect()
        for domain in ("Runtime", "Log", "Page", "Network"):
            self.call(f"{domain}.enable")

    def __enter__(self):
        return self

    def __exit__(self, *_):
        self.process.terminate()
        self.process.wait(WAIT)
        for _ in range(20):
            try:
                self.folder.cleanup()
                return
            except OSError:
                time.sleep(0.1)

    def connect(self):
        """A connection to the page, by a WebSocket (RFC 6455)."""
        told = Path(self.folder.name, "DevToolsActivePort")
        end = time.monotonic() + WAIT
        while not told.exists() or len(told.read_text().splitlines()) < 2:
            if time.monotonic() > end:
                raise TimeoutError("the browser doesn't begin")
            time.sleep(0.05)
        port = int(told.read_text().splitlines()[0])
        with urllib.request.urlopen(f"http://127.0.0.1:{port}/json", timeout=WAIT) as it:
            pages = [page for page in json.load(it) if page["type"] == "page"]
        path = pages[0]["webSocketDebuggerUrl"].partition(str(port))[2]
        peer = socket.create_connection(("127.0.0.1", port), WAIT)
        key = base64.b64encode(os.urandom(16)).decode()
        peer.sendall(
            f"GET {path} HTTP/1.1\r\nHost: 127.0.0.1:{port}\r\nUpgrade: websocket\r\nConnection: Upgrade\r\n"
            f"Sec-WebSocket-Key: {key}\r\nSec-WebSocket-Version: 13\r\n\r\n".encode()
        )
        head = b""
        while b"\r\n\r\n" not in head:
            head += peer.recv(1)
        if b" 101 " not in head:
            raise ConnectionError(head.decode())
        return peer

    def take(self, count):
        while len(self.waiting) < count:
            more = self.socket.recv(65536)
            if not more:
                raise ConnectionError("the browser is gone")
            self.waiting += more
        taken, self.waiting = self.waiting[:count], self.waiting[count:]
        return taken

    def hear(self):
        """The next message of the browser."""
        text = b""
        while True:
            first, length = self.take(2)
            if length == 126:
                (length,) = struct.unpack(">H", self.take(2))
            elif length == 127:
                (length,) = struct.unpack(">Q", self.take(8))
            text += self.take(length)
            if first & 0x80:
                return json.loads(text)

    def call(self, method, **parameters):
        self.number += 1
        text = json.dumps({"id": self.number, "method": method, "params": parameters}).encode()
        mask = os.urandom(4)
        length = struct.pack(">BBH", 0x81, 0xFE, len(text)) if len(text) > 125 else struct.pack(">BB", 0x81, 0x80 | len(text))
        self.socket.sendall(length + mask + bytes(byte ^ mask[at % 4] for at, byte in enumerate(text)))
        while True:
            message = self.hear()
            if message.get("id") == self.number:
                if "error" in message:
                    raise RuntimeError(f"{method}: {message['error']}")
                return message["result"]
            self.keep(message)

    def keep(self, message):
        """Keeps what the console says, errors of scripts, and what the browser logs."""
        told = message.get("params", {})
        match message.get("method"):
            case "Runtime.consoleAPICalled":
                self.messages.append(" ".join(str(it.get("value", it.get("description"))) for it in told["args"]))
            case "Runtime.exceptionThrown":
                self.messages.append(told["exceptionDetails"].get("exception", {}).get("description", "an exception"))
            case "Log.entryAdded":
                self.messages.append(f"{told['entry']['text']} {told['entry'].get('url', '')}")

    def open(self, url):
        self.call("Page.navigate", url=url)
        self.until("document.readyState === 'complete'")

    def value(self, expression):
        """What an expression comes to; of a promise, what it is fulfilled with."""
        result = self.call("Runtime.evaluate", expression=expression, returnByValue=True, awaitPromise=True, userGesture=True)
        if "exceptionDetails" in result:
            raise RuntimeError(f"{expression}: {result['exceptionDetails']}")
        return result["result"].get("value")

    def until(self, expression, seconds=WAIT):
        """Waits until the expression is true; whether it was in time."""
        end = time.monotonic() + seconds
        while not self.value(f"!!({expression})"):
            if time.monotonic() > end:
                return False
            time.sleep(0.1)
        return True

    def picture(self, path, width=1000, height=900):
        self.call("Emulation.setDeviceMetricsOverride", width=width, height=height, deviceScaleFactor=1, mobile=False)
        Path(path).write_bytes(base64.b64decode(self.call("Page.captureScreenshot")["data"]))
