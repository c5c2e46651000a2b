"""The page's server, started for a test, and requests to it."""

import http.client
import json
import os
import re
import resource
import subprocess
import sys
import tempfile
import time
from urllib.parse import urlencode

import dating
from dating.names import Names
from dating.page.fields import read_edit

DATED = "^t/(o|^o|t/^t)*/m+"
# The house of examples/surveyor.txt: 0 is the master, and locked; the rafter 3 is dated, the wall post 4 is not.
HOUSE = ["open 9", "add 5 t 2", "add 6 t 2", "add 7 t 3", "add 8 t 4", "add 7 o 6", "add 5 m 1", "add 1 m 0", "lock 0"]
NAMES = "0 master chronology\n1 house chronology\n2 tie beam\n3 rafter\n4 wall post\n5 A-1\n6 A-2\n7 B-1\n8 C-1\nt taken from\no overlaps\nm matched against\n"


class Folder(tempfile.TemporaryDirectory):
    """A folder with the history of the house in it."""

    def __init__(self, lines=HOUSE):
        super().__init__()
        self.path = os.path.join(self.name, "house.txt")
        if lines:
            with dating.open(self.path, records=int(lines[0].split()[1])) as register:
                edits = [read_edit(line, Names()) for line in lines[1:]]
                # A large sheet is one line of the history.
                for part in [edits] if len(edits) > 100 else [[edit] for edit in edits]:
                    register.apply(part)

    def text(self):
        with open(self.path, "rb") as file:
            return file.read()

    def calls(self):
        """The calls of the history, without their remarks."""
        return [line.split("  # ")[0] for line in self.text().decode().split("\n")[1:] if line]

    def put(self, name, text):
        path = os.path.join(self.name, name)
        with open(path, "w", encoding="utf-8") as file:
            file.write(text)
        return path


class Server:
    """A server over a history, on a port of its own."""

    def __init__(self, path, *arguments, port=0, largest=None):
        """With `largest`, no file can have more bytes than that: a disk that is full."""
        command = [sys.executable, "-W", "error", "-m", "dating.page", path, "--port", str(port), *arguments]

        def limit():
            resource.setrlimit(resource.RLIMIT_FSIZE, (largest, largest))

        self.process = subprocess.Popen(command, stdout=subprocess.PIPE, stderr=subprocess.PIPE, text=True, preexec_fn=largest and limit)
        self.said = self.process.stdout.readline()
        found = re.match(r"http://([^:]+):(\d+)/", self.said)
        if not found:
            raise RuntimeError(self.process.communicate()[1])
        self.port = int(found[2])
        self.origin = f"http://127.0.0.1:{self.port}"
        self.token = ""

    def request(self, method, path, body=None, headers=None, timeout=60):
        """The status, the headers and the body of an answer."""
        wire = http.client.HTTPConnection("127.0.0.1", self.port, timeout=timeout)
        try:
            wire.request(method, path, body, headers or {})
            answer = wire.getresponse()
            return answer.status, answer.headers, answer.read()
        finally:
            wire.close()

    def get(self, path, **fields):
        """A status, and the JSON of an answer."""
        fields = {key.rstrip("_"): value for key, value in fields.items()}
        status, _, body = self.request("GET", f"{path}?{urlencode(fields)}" if fields else path)
        return status, json.loads(body)

    def ask(self, kind, **fields):
        status, data = self.get("/ask", kind=kind, **fields)
        assert status == 200, data
        return data

    def mark(self):
        return self.get("/sheet")[1]["mark"]

    def headers(self):
        self.token = self.token or self.get("/sheet")[1]["token"]
        return {"Origin": self.origin, "X-Dating-Token": self.token, "Content-Type": "application/json"}

    def post(self, path, headers=None, **body):
        status, _, said = self.request("POST", path, json.dumps(body), self.headers() if headers is None else headers)
        return status, json.loads(said)

    def save(self, *edits, since=None, name=None):
        return self.post("/save", edits=list(edits), since=since or self.mark(), name=name or os.urandom(8).hex())

    def kill(self):
        self.process.kill()
        self.process.wait()
        self.process.stdout.close()
        self.process.stderr.close()

    def end(self):
        """Ends it as Ctrl-C does; what it said of failures."""
        self.process.terminate()
        said = self.process.communicate(timeout=20)[1]
        assert self.process.returncode == 0, (self.process.returncode, said)
        return said

    def __enter__(self):
        return self

    def __exit__(self, *_):
        if self.process.poll() is None:
            said = self.end()
            assert not said.strip(), said


def until(asked, seconds=5.0):
    """Waits until something holds; how long it took."""
    began = time.monotonic()
    while not asked():
        if time.monotonic() - began > seconds:
            raise AssertionError(f"not within {seconds} seconds")
        time.sleep(0.02)
    return time.monotonic() - began
