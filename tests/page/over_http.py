"""The page's server over HTTP: every call, drafts, two people, bad input, foreign origins, many at once, killed and started again."""

import base64
import http.client
import json
import os
import random
import socket
import subprocess
import sys
import threading
import time
import unittest
from xml.etree import ElementTree

from served import DATED, HOUSE, NAMES, Folder, Server, until

STATIC = os.path.join(os.environ["PYTHONPATH"].split(":")[0], "dating", "page", "static")


class Page(unittest.TestCase):
    """Each test has a house and a server of its own."""

    arguments = ()
    lines = HOUSE

    def setUp(self):
        self.folder = Folder(self.lines)
        self.addCleanup(self.folder.cleanup)
        self.server = Server(self.folder.path, *self.arguments)
        self.addCleanup(self.server.__exit__)
        self.ask, self.save, self.get, self.post = self.server.ask, self.server.save, self.server.get, self.server.post

    def unchanged(self):
        """What is checked of the history after something that must change nothing."""
        return self.folder.text(), self.server.get("/sheet")[1]["mark"]


class Questions(Page):
    def test_every_address_answers(self):
        for path, kind in (("/", "text/html"), ("/page.css", "text/css"), ("/page.js", "text/javascript"), ("/wire.js", "text/javascript")):
            status, headers, body = self.server.request("GET", path)
            self.assertEqual((status, headers["Content-Type"].split(";")[0]), (200, kind))
            self.assertIn("default-src 'none'", headers["Content-Security-Policy"])
            self.assertEqual(headers["X-Content-Type-Options"], "nosniff")
            self.assertTrue(body)
        status, headers, body = self.server.request("HEAD", "/")
        self.assertEqual((status, body), (200, b""))
        self.assertEqual(self.get("/sheet")[1]["totals"], [["m", "", 2], ["o", "", 1], ["t", "", 4]])
        self.assertEqual(self.get("/history", most=2)[1]["rows"][0][0], "lock 0")
        self.assertEqual(self.get("/changes", since=self.server.mark())[1]["total"], 0)
        status, _, body = self.server.request("GET", "/pages.txt?expression=m%2B")
        self.assertEqual((status, len(body) % 73), (200, 0))
        self.assertTrue(self.server.request("GET", "/sheet.txt")[2].startswith(b"# sheet of a dating register"))
        self.assertEqual(self.server.request("GET", "/closing.csv")[2].split(b"\n")[:2], [b"old,new", b"0,0"])

    def test_nothing_comes_from_elsewhere(self):
        for name in os.listdir(STATIC):
            with open(os.path.join(STATIC, name), encoding="utf-8") as file:
                text = file.read()
            self.assertNotRegex(text, r"https?://", name)
            self.assertNotRegex(text, r"innerHTML|outerHTML|insertAdjacentHTML|document\.write|eval\(", name)

    def test_a_chain_in_words_and_drawn(self):
        found = self.ask("chain", from_="3", to="0", expression=DATED)
        self.assertTrue(found["found"])
        self.assertEqual(found["words"], ["3 <-t- 7 -o-> 6 -t-> 2 <-t- 5 -m-> 1 -m-> 0 (6 steps)"])
        drawn = ElementTree.fromstring(found["picture"])
        boxes = [each for each in drawn.iter("{http://www.w3.org/2000/svg}rect") if each.get("class", "").startswith("box ")]
        self.assertEqual([each.get("class") for each in boxes if "inner" not in each.get("class")], ["box free"] * 6 + ["box locked"])
        self.assertEqual(len(found["rows"]), 6)

    def test_none_is_said_with_why(self):
        found = self.ask("chain", from_="4", to="0", expression=DATED)
        self.assertFalse(found["found"])
        self.assertEqual(found["words"][0], "no chain of any length from 4 to 0")
        self.assertIn("then m+ reaches none", found["words"][1])
        self.assertIn("none", ElementTree.fromstring(found["picture"]).itertext())
        for kind, fields, words in (
            ("ends", {"record": "4", "expression": "^t/m"}, "no records: no chain of any length from 4 leads anywhere"),
            ("starts", {"record": "4", "expression": "m"}, "no records: no chain of any length leads to 4 from anywhere"),
            ("pairs", {"expression": "o/m"}, "no pairs: no chain of any length joins two records, nor one to itself"),
            ("pairs", {"expression": "z"}, "no pairs: no chain of any length joins two records, nor one to itself"),
            ("hangs", {"from_": "4", "to": "0", "expression": DATED}, "no chain of any length from 4 to 0"),
            ("support", {"record": "8", "expression": DATED, "anchors": "0 1"}, "no record hangs on 8 alone (joined to 0, 1)"),
            ("loops", {"letters": "tom"}, "no record returns to itself over links t o m"),
            ("links", {"which": "z"}, "no links z"),
        ):
            found = self.ask(kind, **fields)
            self.assertEqual((found["found"], found["words"][0]), (False, words))
        self.assertIn("no link has the letter z", self.ask("pairs", expression="z")["words"])
        self.assertIn("o joins 1 pair; then m joins none", self.ask("pairs", expression="o/m")["words"])

    def test_what_curators_and_surveyors_ask(self):
        self.assertEqual(self.ask("ends", record="3", expression=DATED)["rows"], [["0"], ["1"]])
        self.assertEqual(self.ask("starts", record="0", expression=DATED)["rows"], [["2"], ["3"]])
        self.assertEqual(self.ask("support", record="7", expression=DATED, anchors="1, 0")["rows"], [["3"]])
        self.assertEqual(self.ask("hangs", from_="3", to="0", expression=DATED)["rows"], [["1"], ["2"], ["5"], ["6"], ["7"]])
        self.assertEqual(self.ask("generations", letters="mt")["total"], 9)
        self.assertEqual(self.ask("links", which="7")["rows"], [["7", "o", "6"], ["7", "t", "3"]])
        self.save("add 4 m 8")
        found = self.ask("loops", letters="mt")
        self.assertEqual((found["rows"], found["words"][1]), ([["4"], ["8"]], "4 -m-> 8 -t-> 4 (2 steps)"))
        self.assertFalse(self.ask("generations", letters="mt")["words"][0].startswith("9"))

    def test_refused_questions_say_where_and_why(self):
        for kind, fields, number, words in (
            ("chain", {"from_": "4", "to": "0", "expression": "t / m"}, 9, "outside the grammar"),
            ("chain", {"from_": "40", "to": "0", "expression": "t"}, 2, "record"),
            ("pairs", {"expression": "a" * 257}, 10, "256 are the most"),
            ("loops", {"letters": "T"}, 3, "label"),
        ):
            status, data = self.get("/ask", kind=kind, **fields)
            self.assertEqual((status, data["kind"], data["number"]), (422, "refused", number))
            self.assertIn(words, data["error"])
        self.assertIn("^", self.get("/ask", kind="pairs", expression="t / m")[1]["mark"])
        wrong = [{"kind": "chain", "from_": "x", "to": "0", "expression": "t"}, {"kind": "chain"}, {"kind": "none"}]
        for fields in [*wrong, {"kind": "ends", "record": "-1", "expression": "t"}]:
            status, data = self.get("/ask", **fields)
            self.assertEqual((status, data["kind"]), (400, "fault"))
            self.assertGreater(len(data["error"]), 8)

    def test_whole_by_generations(self):
        status, headers, body = self.server.request("GET", "/whole.svg?letters=tom")
        if self.get("/sheet")[1]["dot"]:
            self.assertEqual((status, headers["Content-Type"]), (200, "image/svg+xml"))
            ElementTree.fromstring(body)
        else:
            self.assertEqual(status, 400)
            self.assertIn(b"Graphviz is not installed", body)


class Names(Page):
    @property
    def arguments(self):
        return ("--names", self.folder.put("names.txt", NAMES))

    def test_names_are_taken_and_shown(self):
        found = self.ask("chain", from_="rafter", to="master chronology", expression="^t/o")
        self.assertEqual(found["words"][0], "no chain of any length from 3 (rafter) to 0 (master chronology)")
        self.assertEqual(self.save('lock "tie beam"')[0], 200)
        self.assertEqual(self.get("/sheet")[1]["locked"], [[0, "master chronology"], [2, "tie beam"]])
        status, data = self.save("add C-1 m 0")
        self.assertEqual((status, data["error"]), (409, "an end of the link is locked: 0 (master chronology)"))
        status, data = self.get("/ask", kind="ends", record="attic", expression="t")
        self.assertIn("not \"attic\"", data["error"])

    def test_names_are_never_markup(self):
        self.server.end()
        wild = "<script>alert(1)</script> & 'more'"
        with Server(self.folder.path, "--names", self.folder.put("wild.txt", f"4 {wild}\nt <b>\n")) as server:
            for expression in ("^t", "m"):
                drawn = ElementTree.fromstring(server.ask("chain", from_="4", to="8", expression=expression)["picture"])
                self.assertEqual({each.tag.split("}")[1] for each in drawn.iter()}, {"svg", "title", "rect", "path", "text"})
            self.assertIn(wild, server.ask("ends", record="8", expression="t")["rows"][0][0])

    def test_closing_up_keeps_its_table_first(self):
        before = self.unchanged()
        told = self.get("/closing")[1]
        self.assertEqual(self.unchanged(), before)
        self.assertEqual(self.save("remove 8 t 4", "withdraw 4")[0], 200)
        status, data = self.post("/close", mark=told["mark"])
        self.assertEqual((status, data["kind"]), (409, "changed"))
        told = self.get("/closing")[1]
        self.assertIn("4 was withdrawn and is gone", told["words"])
        status, data = self.post("/close", mark=told["mark"])
        self.assertEqual(status, 200, data)
        with open(f"{self.folder.path}.closed-1-numbers.csv", encoding="utf-8") as file:
            self.assertEqual(file.read().split("\n")[4:7], ["3,3", "4,", "5,4"])
        with open(f"{self.folder.path}.closed-1-names.txt", encoding="utf-8") as file:
            self.assertIn("4 A-1\n", file.read())
        self.assertEqual(self.get("/sheet")[1]["records"], 8)
        self.assertEqual(self.folder.calls()[-1], "close")


class Drafts(Page):
    def test_the_story(self):
        """On a locked core: Unlock, Insert Link, Cancel, Save. No link, the lock as it was, and the surveyor's question says none and why."""
        before = self.unchanged()
        question = {"kind": "chain", "from": "4", "to": "0", "expression": DATED}
        status, data = self.post("/draft", edits=["unlock 0", "add 8 m 0"], question=question, since=before[1])
        self.assertEqual((status, data["refused"]), (200, None))
        self.assertEqual(data["effect"]["comes"], [["4 <-t- 8 -m-> 0 (2 steps)"]])
        # Cancel is the page's alone. Save has nothing to save then.
        status, data = self.save()
        self.assertEqual((status, data["error"]), (400, "there is nothing to save: the draft is empty, and the sheet is as it was"))
        self.assertEqual(self.unchanged(), before)
        self.assertEqual(self.get("/sheet")[1]["locked"], [[0, ""]])
        found = self.ask("chain", from_="4", to="0", expression=DATED)
        self.assertEqual((found["found"], found["words"][0]), (False, "no chain of any length from 4 to 0"))

    def test_all_or_none(self):
        before = self.unchanged()
        status, data = self.save("unlock 0", "add 8 m 0", "add 8 m 9", "lock 0")
        self.assertEqual((status, data["place"], data["number"]), (409, 2, 2))
        self.assertIn("records are 0 to 8", data["error"])
        status, data = self.save("unlock 0", "link 8 m 0")
        self.assertEqual((status, data["place"], data["number"]), (409, 1, None))
        status, data = self.save("undo")
        self.assertEqual((status, data["place"]), (409, 0))
        self.assertEqual(self.unchanged(), before)
        status, data = self.save("unlock 0", "add 8 m 0", "lock 0")
        self.assertEqual((status, data["saved"]), (200, 3))
        self.assertEqual(self.folder.calls()[-1], "do unlock 0, add 8 m 0, lock 0")
        self.assertTrue(self.ask("chain", from_="4", to="0", expression=DATED)["found"])

    def test_what_comes_and_goes(self):
        for kind, fields, edit, comes, goes in (
            ("pairs", {"expression": DATED}, "remove 7 o 6", 0, 2),
            ("ends", {"record": "5", "expression": "m+"}, "add 5 m 2", 1, 0),
            ("links", {"which": ""}, "remove 7 o 6", 0, 1),
            ("loops", {"letters": "mt"}, "add 4 m 8", 2, 0),
            ("support", {"record": "7", "expression": DATED, "anchors": "0"}, "remove 7 o 6", 0, 1),
            ("generations", {"letters": "m"}, "add 2 m 5", 3, 3),
            ("chain", {"from": "3", "to": "0", "expression": DATED}, "remove 7 o 6", 0, 1),
        ):
            told = self.post("/draft", edits=[edit], question={"kind": kind, **fields}, since=self.server.mark())[1]["effect"]
            self.assertEqual((told["comes_total"], told["goes_total"]), (comes, goes), (kind, told))

    def test_a_save_that_is_sent_twice_is_made_once(self):
        first = self.save("lock 3", name="mine")
        self.assertEqual(self.save("lock 3", name="mine"), first)
        self.assertEqual(self.folder.calls().count("lock 3"), 1)

    def test_two_people(self):
        mine = self.server.mark()
        self.assertEqual(self.save("lock 4")[0], 200)
        seen = self.get("/changes", since=mine)[1]
        self.assertEqual((seen["total"], seen["calls"][0][0]), (1, "lock 4"))
        # Who saves on a changed sheet is told what changed; what it refuses now is refused, and nothing is made.
        status, data = self.save("add 3 o 4", since=mine)
        self.assertEqual((status, data["error"]), (409, "an end of the link is locked: 4"))
        told = self.post("/draft", edits=["add 3 o 2"], question=None, since=mine)[1]
        self.assertEqual(told["between"]["calls"][0][0], "lock 4")
        status, data = self.save("add 3 o 2", since=mine)
        self.assertEqual((status, data["between"]["total"], data["between"]["calls"][0][0]), (200, 1, "lock 4"))
        # Undo takes back no edit but the one that was shown.
        sheet = self.get("/sheet")[1]
        self.save("lock 8")
        status, data = self.post("/undo", mark=sheet["mark"], edit=sheet["undo"])
        self.assertEqual((status, data["kind"]), (409, "changed"))
        sheet = self.get("/sheet")[1]
        self.assertEqual(self.post("/undo", mark=sheet["mark"], edit="lock 4")[0], 409)
        # Nor one of the same words that another made since.
        self.save("unlock 8", "lock 8")
        self.assertEqual(self.post("/undo", mark=sheet["mark"], edit="lock 8")[0], 409)
        sheet = self.get("/sheet")[1]
        self.assertEqual(self.post("/undo", mark=sheet["mark"], edit="lock 8")[1]["undone"], "lock 8")
        self.assertEqual(self.folder.calls()[-4:], ["add 3 o 2", "lock 8", "do unlock 8, lock 8", "undo"])
        self.assertTrue(self.get("/changes", since="4-00000000")[1]["another"])

    def test_one_who_reads(self):
        with Server(self.folder.path, "--read-only") as reader:
            mark = reader.mark()
            self.save("lock 5")
            taken = until(lambda: reader.get("/changes", since=mark)[1]["total"] == 1, 2)
            self.assertLess(taken, 2)
            status, data = reader.save("lock 6")
            self.assertEqual((status, data["kind"]), (500, "not kept"))
            self.assertIn("reading alone", data["error"])
        refused = subprocess.run([sys.executable, "-m", "dating.page", self.folder.path], capture_output=True, text=True, check=False)
        self.assertEqual((refused.returncode, refused.stdout), (1, ""))
        self.assertIn("open for writing elsewhere", refused.stderr)


class Safe(Page):
    def test_only_its_own_page_may_post(self):
        before = self.unchanged()
        right = self.server.headers()
        body = {"edits": ["lock 3"], "since": before[1], "name": "x"}
        wrong = [
            {**right, "Origin": "http://evil.example"},
            {**right, "Origin": "null"},
            {**right, "Origin": f"https://127.0.0.1:{self.server.port}"},
            {**right, "Origin": f"http://127.0.0.1:{self.server.port + 1}"},
            {key: value for key, value in right.items() if key != "Origin"},
            {**right, "X-Dating-Token": "x"},
            {key: value for key, value in right.items() if key != "X-Dating-Token"},
            {**right, "Host": "evil.example"},
            {**right, "Host": f"evil.example:{self.server.port}"},
            {**right, "Sec-Fetch-Site": "cross-site"},
        ]
        for headers in wrong:
            status, data = self.post("/save", headers=headers, **body)
            self.assertEqual((status, data["kind"]), (403, "denied"), headers)
        for kind in ("text/plain", "application/x-www-form-urlencoded", ""):
            self.assertEqual(self.post("/save", headers={**right, "Content-Type": kind}, **body)[0], 415)
        for headers in ({"Host": "evil.example"}, {"Origin": "http://evil.example"}, {"Sec-Fetch-Site": "cross-site"}):
            for path in ("/sheet", "/ask?kind=pairs&expression=m"):
                self.assertEqual(self.server.request("GET", path, headers=headers)[0], 403)
        self.assertEqual(self.unchanged(), before)
        self.assertEqual(self.post("/save", headers=right, **body)[0], 200)

    def test_bad_input_of_every_kind(self):
        before = self.unchanged()
        right = self.server.headers()
        bodies = [b"", b"{", b"[]", b"null", b"3", b'"x"', b"\xff\xfe", b"{}" * 3, b"[" * 100000, b'{"edits": 1}', b'{"edits": [1]}', b'{"edits": ["lock 3"]}']
        bodies += [b'{"edits": ["lock 3"], "since": 4, "name": "x"}', b'{"edits": ["lock 3"], "since": "%s", "name": 4}' % (b"x" * 50)]
        bodies += [b'{"edits": [], "since": "", "name": ""}']
        wrong = ["lock", "lock x", "lock 3 4", "lock 99999999999999999999", "add 0 aa 1", "add 0 A 1", "lock -3", "\u0000", "lock \u0663", "x" * 300]
        for lines in ([[line] for line in wrong] + [["lock 3"] * 1001, ["open 3"], ["close"], ["undo"], ["lock 3", "lock 3"]]):
            bodies.append(json.dumps({"edits": lines, "since": before[1], "name": "x"}).encode())
        for path in ("/save", "/draft", "/undo", "/close"):
            for body in bodies:
                status, headers, said = self.server.request("POST", path, body, right)
                if path == "/draft" and status == 200:
                    refused = json.loads(said)["refused"]
                    self.assertTrue(refused and len(refused["words"]) > 8 or b"[]" in body or b'["lock 3"]' in body, body)
                    continue
                self.assertIn(status, (400, 409), (path, body, said))
                self.assertGreater(len(json.loads(said)["error"]), 8)
        for path in ("/nothing", "/../etc/passwd", "/static/page.html", "/%00", "//evil.example/"):
            self.assertEqual(self.server.request("GET", path)[0], 404)
        self.assertEqual(self.server.request("GET", "/save")[0], 405)
        self.assertEqual(self.server.request("POST", "/sheet", b"{}", right)[0], 405)
        self.assertEqual(self.server.request("PUT", "/sheet")[0], 501)
        self.assertEqual(self.server.request("GET", "/ask?" + "x" * 5000)[0], 414)
        self.assertEqual(self.server.request("GET", "/ask?" + "&".join(f"f{n}=1" for n in range(30)))[0], 400)
        self.assertEqual(self.server.request("GET", "/ask?kind=pairs&kind=links")[0], 400)
        self.assertEqual(self.server.request("GET", "/ask?kind=pairs&expression=%ff")[0], 400)
        for query in ("kind=pairs&expression=m&first=-1", "kind=pairs&expression=m&first=99999999999", "kind=pairs&expression=m&width=x"):
            self.assertEqual(self.server.request("GET", f"/ask?{query}")[0], 400)
        self.assertEqual(self.server.request("POST", "/save", b"x" * (300 << 10), right)[0], 413)
        self.assertEqual(self.unchanged(), before)

    def raw(self, text, wait=True):
        with socket.create_connection(("127.0.0.1", self.server.port), timeout=30) as wire:
            wire.sendall(text)
            if not wait:
                return b""
            wire.shutdown(socket.SHUT_WR)
            said = b""
            try:
                while part := wire.recv(65536):
                    said += part
            except ConnectionResetError:
                pass
            return said

    def test_what_is_no_request(self):
        before = self.unchanged()
        token = self.server.headers()["X-Dating-Token"]
        head = f"POST /save HTTP/1.1\r\nHost: 127.0.0.1:{self.server.port}\r\nOrigin: {self.server.origin}\r\nX-Dating-Token: {token}\r\n"
        head += "Content-Type: application/json\r\n"
        for more, status in (
            ("Content-Length: -1\r\n\r\n", b"411"),
            ("Transfer-Encoding: chunked\r\n\r\n0\r\n\r\n", b"411"),
            ("\r\n", b"411"),
            ("Content-Length: 50\r\n\r\n{", b"400"),
            ("Content-Length: 99999999999\r\n\r\n", b"413"),
        ):
            self.assertIn(status, self.raw((head + more).encode()).split(b"\r\n")[0], more)
        chance = random.Random(int(os.environ.get("SEED", 44)))
        for _ in range(40):
            self.raw(bytes(chance.randrange(256) for _ in range(chance.randrange(1, 400))) + b"\r\n\r\n")
        for _ in range(60):
            text = json.dumps({"edits": ["lock 3"], "since": before[1], "name": "x"})
            at = chance.randrange(len(text))
            spoilt = text[:at] + chance.choice(['"', "{", "\\", "\x00", "}", "9"]) + text[at + chance.randrange(1, 3) :]
            status, _, said = self.server.request("POST", "/draft", spoilt.encode(), self.server.headers())
            self.assertIn(status, (200, 400), said)
        self.assertEqual(self.unchanged(), before)

    def test_slow_clients_hold_up_nobody(self):
        slow = [socket.create_connection(("127.0.0.1", self.server.port)) for _ in range(20)]
        try:
            for wire in slow:
                wire.sendall(b"GET /sheet HTTP/1.1\r\nHost:")
            began = time.monotonic()
            self.assertEqual(self.get("/sheet")[0], 200)
            # A slow client is given up after 20 seconds: who waits for one waits as long.
            self.assertLess(time.monotonic() - began, 10)
        finally:
            for wire in slow:
                wire.close()


class Password(Page):
    arguments = ("--host", "0.0.0.0")

    def setUp(self):
        self.folder = Folder()
        self.addCleanup(self.folder.cleanup)

    def test_another_address_needs_a_password(self):
        files = [self.folder.put("short", "short\n"), self.folder.put("empty", ""), "/nothing/here"]
        for more in [(), *(("--password-file", file) for file in files)]:
            done = subprocess.run([sys.executable, "-m", "dating.page", self.folder.path, *self.arguments, *more], capture_output=True, text=True, check=False)
            self.assertEqual((done.returncode, done.stdout), (1, ""))
            self.assertIn("password" if "/nothing/here" not in more else "cannot be read", done.stderr)
        word = self.folder.put("word", "larch and oak\n")
        with Server(self.folder.path, *self.arguments, "--password-file", word) as server:
            right = {"Authorization": "Basic " + base64.b64encode(b"anna:larch and oak").decode()}
            wrong = ["Basic " + base64.b64encode(b"anna:larch").decode(), "Basic ???", "Bearer x"]
            for headers in [{}, *({"Authorization": word} for word in wrong)]:
                for path in ("/", "/sheet"):
                    status, given, _ = server.request("GET", path, headers=headers)
                    self.assertEqual(status, 401)
                    self.assertIn("Basic", given["WWW-Authenticate"])
            status, _, body = server.request("GET", "/sheet", headers=right)
            self.assertEqual(status, 200)
            post = {**right, "Origin": server.origin, "X-Dating-Token": json.loads(body)["token"], "Content-Type": "application/json"}
            given = {"edits": ["lock 3"], "since": "", "name": "x"}
            without = {key: value for key, value in post.items() if key != "Authorization"}
            self.assertEqual(server.post("/save", headers=without, **given)[0], 401)
            self.assertEqual(server.post("/save", headers={**post, "Origin": "http://evil.example"}, **given)[0], 403)
            self.assertEqual(server.post("/save", headers=post, **given)[0], 200)


class Large(Page):
    """A full sheet: 1,024 records and 4,096 links."""

    lines = ["open 1024"] + [f"add {a} {letter} {(a * step + 1) % 1024}" for letter, step in zip("abcd", (1, 3, 5, 7)) for a in range(1024)]

    def test_long_lists_by_parts(self):
        found = self.ask("pairs", expression="a|b|c|d")
        self.assertEqual((len(found["rows"]), found["first"]), (500, 0))
        rows, total = found["rows"], found["total"]
        while len(rows) < total:
            rows += self.ask("pairs", expression="a|b|c|d", first=len(rows))["rows"]
        self.assertEqual(len(rows), total)
        self.assertEqual(rows, sorted(rows, key=lambda row: tuple(map(int, row))))
        self.assertEqual((len(self.ask("links", which="")["rows"]), self.ask("links", which="", first=4000)["rows"][-1]), (500, ["1023", "d", "1018"]))
        self.assertEqual(self.ask("pairs", expression="(a|b)*")["total"], 1 << 20)
        far = self.ask("chain", from_="0", to="1023", expression="a+")
        self.assertEqual((far["total"], len(far["rows"]), far["picture"]), (1023, 500, ""))
        self.assertIn("which no one can read in a picture", far["remark"])
        self.assertEqual(self.get("/ask", kind="hangs", from_="0", to="1023", expression="a+")[0], 400)
        self.assertEqual(self.server.request("GET", "/whole.svg?letters=abcd")[0], 400)

    def test_ten_at_once(self):
        """Nine ask for all they can while one saves: all are answered, none waits long, and every answer is right."""
        longest, faults = [0.0], []

        def timed(call):
            began = time.monotonic()
            call()
            longest[0] = max(longest[0], time.monotonic() - began)

        def reader(place):
            try:
                for turn in range(6):
                    if place % 3 == 0:
                        self.assertEqual(self.ask("pairs", expression="(a|b|c|d)*")["total"], 1 << 20)
                    elif place % 3 == 1:
                        timed(lambda: self.assertEqual(self.ask("ends", record="5", expression="a")["rows"], [["6"]]))
                    else:
                        timed(lambda: self.assertEqual(self.get("/changes", since="0-00000000")[0], 200))
            except Exception as error:
                faults.append(error)

        threads = [threading.Thread(target=reader, args=(place,)) for place in range(9)]
        self.server.headers()
        for thread in threads:
            thread.start()
        for turn in range(20):
            timed(lambda turn=turn: self.assertEqual(self.save(f"{'un' if turn % 2 else ''}lock 7")[0], 200))
        for thread in threads:
            thread.join()
        self.assertEqual(faults, [])
        self.assertEqual(self.folder.calls()[-20:], ["lock 7", "unlock 7"] * 10)
        print(f"page: ten clients at once on a full sheet; the longest small request took {longest[0]:.2f} s")
        self.assertLess(longest[0], 10)


class Killed(unittest.TestCase):
    def test_nothing_that_was_answered_is_lost(self):
        """Killed while it saves: every save that was answered is in the history, each once and in order, and at most one more for each time."""
        folder = Folder()
        self.addCleanup(folder.cleanup)
        chance = random.Random(int(os.environ.get("SEED", 7)))
        answered, rounds = [], 20
        links = iter([f"add {a} {letter} {b}" for letter in "bcdefgh" for a in range(1, 9) for b in range(1, 9)])
        for turn in range(rounds):
            server = Server(folder.path)
            headers = server.headers()
            ending = threading.Timer(chance.uniform(0.01, 0.15), server.process.kill)
            ending.start()
            try:
                for place, link in enumerate(links):
                    status, _ = server.post("/save", headers=headers, edits=[link, "unlock 0", "lock 0"], since="", name=f"{turn}-{place}")
                    self.assertEqual(status, 200)
                    answered.append(f"do {link}, unlock 0, lock 0")
                    self.assertEqual(server.save("unlock 0", f"{link}", name=f"{turn}-{place}-again")[0], 409)
            except (OSError, http.client.HTTPException):
                pass
            ending.join()
            server.kill()
        with Server(folder.path) as server:
            calls = [call for call in folder.calls() if call.startswith("do ")]
            self.assertEqual(len(calls), len(set(calls)))
            self.assertEqual([call for call in calls if call in answered], answered)
            self.assertLessEqual(len(calls) - len(answered), rounds)
            self.assertEqual(len(folder.calls()) - len(calls), len(HOUSE))
            self.assertEqual(server.get("/sheet")[1]["links"], 7 + len(calls))
        more = len(calls) - len(answered)
        said = f"{len(answered)} saves were answered, and all are there; {more} more were made and not answered; none that was refused"
        print(f"page: killed {rounds} times; {said}")

    def test_a_full_disk(self):
        """What cannot be written is not made, and said so; what fits is."""
        folder = Folder()
        self.addCleanup(folder.cleanup)
        before = folder.text()
        with Server(folder.path, largest=len(before) + 50) as server:
            status, data = server.save("lock 3", "lock 4", "lock 5", "lock 6")
            self.assertEqual((status, data["kind"]), (500, "not kept"))
            self.assertIn("the call is not made", data["error"])
            self.assertEqual((folder.text(), server.get("/sheet")[1]["locked"]), (before, [[0, ""]]))
            self.assertEqual(server.save("lock 3")[0], 200)
            status, data = server.post("/close", mark=server.mark())
            self.assertEqual(status, 500)
            self.assertEqual(server.get("/sheet")[1]["records"], 9)
        with Server(folder.path, largest=30) as server:
            status, data = server.post("/close", mark=server.mark())
            self.assertIn("nothing is closed up", data["error"])
        self.assertEqual(folder.calls(), [*HOUSE, "lock 3"])

    def test_a_page_learns_whether_its_save_was_made(self):
        folder = Folder()
        self.addCleanup(folder.cleanup)
        with Server(folder.path) as server:
            mark = server.mark()
            server.save("lock 3", "lock 4", since=mark)
        with Server(folder.path) as server:
            self.assertTrue(server.post("/draft", edits=["lock 3", "lock 4"], question=None, since=mark)[1]["made"])
            self.assertFalse(server.post("/draft", edits=["lock 3", "lock 5"], question=None, since=mark)[1]["made"])
            old = server.headers() | {"X-Dating-Token": "of an earlier start"}
            status, data = server.post("/save", headers=old, edits=["lock 5"], since=mark, name="x")
            self.assertEqual(status, 403)
            self.assertIn("nothing is done", data["error"])

    def test_files_that_cannot_be_served(self):
        folder = Folder([])
        self.addCleanup(folder.cleanup)

        def said(*arguments):
            done = subprocess.run([sys.executable, "-m", "dating.page", *arguments], capture_output=True, text=True, check=False)
            self.assertEqual((done.returncode, done.stdout), (1, ""))
            return done.stderr

        self.assertIn("--records N makes one", said(folder.path))
        self.assertIn("1 to 1,024", said(folder.path, "--records", "2000"))
        self.assertFalse(os.path.exists(folder.path))
        with Server(folder.path, "--records", "3") as server:
            self.assertEqual(server.get("/sheet")[1]["records"], 3)
            other = Folder()
            self.addCleanup(other.cleanup)
            self.assertIn("cannot be served", said(other.path, "--port", str(server.port)))
        damaged = folder.put("damaged.txt", folder.text().decode().replace("open 3", "open 4"))
        self.assertIn("line 2", said(damaged))
        with open(folder.path, "ab") as file:
            file.write(b"lock 1  # 2026")
        server = Server(folder.path)
        self.assertIn("was cut", server.get("/sheet")[1]["torn"])
        self.assertIn("was cut", server.end())


if __name__ == "__main__":
    unittest.main(verbosity=1)
