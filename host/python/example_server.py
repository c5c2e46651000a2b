"""A server for a screen on which several people edit one register: each has a draft of their own, and Save makes all of it or nothing.

    python3 example_server.py house.txt 8000

A person's edits go into a draft, which Cancel throws away: the register was never touched, so there is nothing to undo, and no one else's edit is taken back.
Save makes the draft on the register as it then is, all or none; refused, it is still there to be mended. Everything that is accepted is in the file first.

    POST /anna/unlock   {"record": 0}              into Anna's draft
    POST /anna/insert   {"from": 8, "letter": "m", "to": 0}
    POST /anna/cancel   {}
    POST /anna/save     {}
    GET  /anna          her draft; and the links and locks of the register
"""

from __future__ import annotations

import json
import sys
import threading
from http.server import BaseHTTPRequestHandler, ThreadingHTTPServer
from typing import Any

import dating
from dating import Draft, Kept, Refusal

MOST_BYTES = 65536


class Desk:
    """The register, and the draft of each person."""

    def __init__(self, register: Kept) -> None:
        self.register = register
        self.drafts: dict[str, Draft] = {}
        self.turn = threading.Lock()

    def done(self, person: str, action: str, given: dict[str, Any]) -> dict[str, Any]:
        """Does what a person asks, and tells how things stand."""
        with self.turn:
            draft = self.drafts.setdefault(person, self.register.draft())
            if action == "insert":
                draft.add(given["from"], given["letter"], given["to"])
            elif action == "remove":
                draft.remove(given["from"], given["letter"], given["to"])
            elif action in ("lock", "unlock", "withdraw", "reinstate"):
                getattr(draft, action)(given["record"])
            elif action == "cancel":
                del self.drafts[person]
            elif action == "save":
                draft.save()
                del self.drafts[person]
            elif action != "look":
                raise KeyError(action)
            return self.stands(person)

    def stands(self, person: str) -> dict[str, Any]:
        """A person's draft, and the register."""
        edits = self.drafts[person].edits if person in self.drafts else []
        return {"draft": [str(edit) for edit in edits], "links": [str(link) for link in self.register.links()], "locked": self.register.locked()}


class Handler(BaseHTTPRequestHandler):
    """One request; `desk` is put in by `serve`."""

    desk: Desk

    def do_GET(self) -> None:
        self.answer("look", {})

    def do_POST(self) -> None:
        length = int(self.headers.get("Content-Length") or 0)
        try:
            given = json.loads(self.rfile.read(min(length, MOST_BYTES)) or b"{}")
        except ValueError as error:
            return self.send(400, {"error": f"no JSON: {error}"})
        self.answer(self.path.rpartition("/")[2], given if isinstance(given, dict) else {})

    def answer(self, action: str, given: dict[str, Any]) -> None:
        person = self.path.split("/")[1]
        try:
            self.send(200, self.desk.done(person, action, given))
        except Refusal as refusal:
            self.send(409, {"refused": refusal.number, "why": refusal.meaning, "place": refusal.place, **self.desk.stands(person)})
        except dating.NotKept as error:
            self.send(503, {"error": str(error)})
        except (KeyError, TypeError) as error:
            self.send(400, {"error": f"not understood: {error}"})

    def send(self, status: int, told: dict[str, Any]) -> None:
        body = json.dumps(told).encode()
        self.send_response(status)
        self.send_header("Content-Type", "application/json")
        self.send_header("Content-Length", str(len(body)))
        self.end_headers()
        self.wfile.write(body)

    def log_message(self, format: str, *words: Any) -> None:
        """Nothing is logged."""


def serve(register: Kept, port: int) -> ThreadingHTTPServer:
    """A server on this machine alone; `serve_forever` runs it."""
    return ThreadingHTTPServer(("127.0.0.1", port), type("Handler", (Handler,), {"desk": Desk(register)}))


if __name__ == "__main__":
    with dating.open(sys.argv[1], records=1024) as kept:
        serve(kept, int(sys.argv[2])).serve_forever()
