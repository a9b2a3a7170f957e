"""Headless Chromium for scripts: a client of its debugging protocol, over Python's own library."""
import base64
import json
import os
import re
import shutil
import socket
import struct
import subprocess
import tempfile


class Socket:
    """A WebSocket (RFC 6455), as far as it is needed: whole texts, to and fro."""

    def __init__(self, port, path):
        self.file = socket.create_connection(("127.0.0.1", port), timeout=300)
        key = base64.b64encode(os.urandom(16)).decode()
        self.file.sendall(
            f"GET {path} HTTP/1.1\r\nHost: 127.0.0.1:{port}\r\nUpgrade: websocket\r\nConnection: Upgrade\r\n"
            f"Sec-WebSocket-Key: {key}\r\nSec-WebSocket-Version: 13\r\n\r\n".encode()
        )
        self.input = self.file.makefile("rb")
        while self.input.readline().strip():
            pass

    def send(self, text):
        data, mask = text.encode(), os.urandom(4)
        head = struct.pack("!BBQ", 0x81, 0x80 | 127, len(data)) + mask
        self.file.sendall(head + bytes(byte ^ mask[i & 3] for i, byte in enumerate(data)))

    def receive(self):
        text, last = b"", False
        while not last:
            first, size = self.input.read(2)
            last, size = first & 0x80, size & 127
            if size == 126:
                (size,) = struct.unpack("!H", self.input.read(2))
            elif size == 127:
                (size,) = struct.unpack("!Q", self.input.read(8))
            text += self.input.read(size)
        return text.decode()


class Browser:
    """A page of headless Chromium. Use it in a `with`."""

    def __init__(self, width, height):
        self.folder = tempfile.mkdtemp(prefix="h264v-browser.")
        words = ["chromium", "--headless=new", "--no-sandbox", "--disable-gpu", f"--user-data-dir={self.folder}"]
        words += ["--remote-debugging-port=0", f"--window-size={width},{height}", "about:blank"]
        self.process = subprocess.Popen(words, stdout=subprocess.DEVNULL, stderr=subprocess.PIPE, text=True)
        line = next(line for line in self.process.stderr if "DevTools listening" in line)
        port, path = re.search(r"ws://127\.0\.0\.1:(\d+)(/\S+)", line).groups()
        self.socket, self.number = Socket(int(port), path), 0
        self.events = []  # what was told beside answers, as (method, parameters)
        target = self.call("Target.createTarget", url="about:blank")["targetId"]
        self.session = self.call("Target.attachToTarget", targetId=target, flatten=True)["sessionId"]
        self.call("Page.enable")

    def call(self, method, **parameters):
        """Calls a method of the protocol; its answer."""
        self.number += 1
        message = {"id": self.number, "method": method, "params": parameters}
        if getattr(self, "session", None):
            message["sessionId"] = self.session
        self.socket.send(json.dumps(message))
        while True:
            answer = json.loads(self.socket.receive())
            if "method" in answer:
                self.events.append((answer["method"], answer["params"]))
            if answer.get("id") == self.number:
                if "error" in answer:
                    raise RuntimeError(answer["error"])
                return answer["result"]

    def evaluate(self, text):
        """The value of an expression on the page, once it is known."""
        answer = self.call("Runtime.evaluate", expression=text, awaitPromise=True, returnByValue=True)
        if "exceptionDetails" in answer:
            raise RuntimeError(answer["exceptionDetails"])
        return answer["result"].get("value")

    def screenshot(self, name):
        """Writes the whole page as a PNG file."""
        size = self.call("Page.getLayoutMetrics")["cssContentSize"]
        clip = {"x": 0, "y": 0, "width": size["width"], "height": size["height"], "scale": 1}
        shot = self.call("Page.captureScreenshot", format="png", captureBeyondViewport=True, clip=clip)
        with open(name, "wb") as file:
            file.write(base64.b64decode(shot["data"]))

    def __enter__(self):
        return self

    def __exit__(self, *_):
        self.process.terminate()
        self.process.wait()
        shutil.rmtree(self.folder, ignore_errors=True)
