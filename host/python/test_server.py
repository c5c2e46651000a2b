"""The story: on a locked core, Unlock, Insert Link, Cancel, Save left the core unlocked, or took back another person's link. Here it does neither."""

from __future__ import annotations

import json
import tempfile
import threading
import unittest
import urllib.error
import urllib.request
from pathlib import Path
from typing import Any

import dating
from example_server import serve

LINK = {"from": 8, "letter": "m", "to": 0}


class Story(unittest.TestCase):
    def setUp(self) -> None:
        folder = tempfile.TemporaryDirectory()
        self.addCleanup(folder.cleanup)
        self.path = Path(folder.name) / "house.txt"
        self.register = dating.open(self.path, records=9)
        self.addCleanup(self.register.close)
        self.register.add(8, "t", 4)
        self.register.lock(0)
        self.server = serve(self.register, 0)
        self.addCleanup(self.server.server_close)
        self.addCleanup(self.server.shutdown)
        threading.Thread(target=self.server.serve_forever, daemon=True).start()

    def post(self, person: str, action: str, **given: Any) -> tuple[int, dict[str, Any]]:
        url = f"http://127.0.0.1:{self.server.server_address[1]}/{person}/{action}"
        try:
            with urllib.request.urlopen(url, json.dumps(given).encode(), timeout=20) as answer:
                return answer.status, json.load(answer)
        except urllib.error.HTTPError as error:
            with error:
                return error.code, json.load(error)

    def kept(self) -> tuple[list[str], list[int]]:
        """The links and locks as the file has them."""
        with dating.open(self.path, read_only=True) as again:
            return [str(link) for link in again.links()], again.locked()

    def test_cancelled_by_one(self) -> None:
        self.assertEqual(self.post("anna", "unlock", record=0)[0], 200)
        status, told = self.post("anna", "insert", **LINK)
        self.assertEqual((status, told["draft"], told["links"], told["locked"]), (200, ["unlock 0", "add 8 m 0"], ["8 t 4"], [0]))
        self.post("anna", "cancel")
        status, told = self.post("anna", "save")
        self.assertEqual((status, told), (200, {"draft": [], "links": ["8 t 4"], "locked": [0]}))
        self.assertEqual(self.kept(), (["8 t 4"], [0]))
        self.assertIsNone(self.register.chain(4, 0, "^t/m"))

    def test_cancelled_with_another_between(self) -> None:
        self.post("anna", "unlock", record=0)
        self.post("anna", "insert", **LINK)
        self.assertEqual(self.post("ben", "insert", **{"from": 7, "letter": "t", "to": 3})[0], 200)
        self.assertEqual(self.post("ben", "save")[0], 200)
        self.post("anna", "cancel")
        self.post("anna", "save")
        self.assertEqual(self.kept(), (["7 t 3", "8 t 4"], [0]))

    def test_both_or_neither(self) -> None:
        self.post("anna", "unlock", record=0)
        self.post("anna", "insert", **LINK)
        self.assertEqual(self.post("anna", "save")[0], 200)
        self.assertEqual(self.kept(), (["8 m 0", "8 t 4"], []))
        # Ben's draft was good when he made it; Anna has inserted the same link before he saves.
        self.register.remove(8, "m", 0)
        self.post("ben", "insert", **LINK)
        self.post("ben", "lock", record=0)
        self.register.add(8, "m", 0)
        status, told = self.post("ben", "save")
        self.assertEqual((status, told["refused"], told["place"], told["draft"]), (409, 5, 0, ["add 8 m 0", "lock 0"]))
        self.assertEqual(self.kept(), (["8 m 0", "8 t 4"], []))

    def test_refused_in_the_draft(self) -> None:
        status, told = self.post("anna", "insert", **LINK)
        self.assertEqual((status, told["refused"], told["why"], told["draft"]), (409, 4, "an end of the link is locked: 0", []))
        for action, given in [("insert", {}), ("insert", {"from": "x", "letter": "m", "to": 0}), ("dance", {})]:
            self.assertEqual(self.post("anna", action, **given)[0], 400)
        self.assertEqual(self.kept(), (["8 t 4"], [0]))


if __name__ == "__main__":
    unittest.main()
