"""The page in a real browser: the laboratory's own story, drafts, two people, the states of an answer, the keyboard alone, sizes, light and dark.

`in_browser.py FOLDER` writes pictures of the page into a folder instead.
"""

import os
import signal
import sys
import time
import unittest

from browser import ENTER, TAB, Browser
from served import DATED, NAMES, Folder, Server

browser = None


def setUpModule():
    global browser
    browser = Browser()


def tearDownModule():
    browser.close()


def asked(from_, to, expression=DATED):
    browser.type("#ask [name=from]", from_)
    browser.type("#ask [name=to]", to)
    browser.type("#ask [name=expression]", expression)
    browser.click("#ask button")


def unlocked(record):
    browser.type("#edit-record [name=record]", record)
    browser.click("#edit-record [value=unlock]")


def inserted(from_, letter, to):
    for name, value in (("from", from_), ("letter", letter), ("to", to)):
        browser.type(f"#edit-link [name={name}]", value)
    browser.click("#edit-link [value=add]")


class Page(unittest.TestCase):
    def setUp(self):
        self.folder = Folder()
        self.addCleanup(self.folder.cleanup)
        self.server = Server(self.folder.path)
        self.addCleanup(lambda: self.server.__exit__())
        browser.screen(1280, 800)
        self.opened()

    def opened(self):
        browser.go(self.server.origin)
        browser.says("#wire", "Connected")

    def test_the_story(self):
        """On a locked core: Unlock, Insert Link, Cancel, Save. No link, the lock as it was, and the surveyor's question says none and why."""
        before = self.folder.text()
        asked("4", "0")
        browser.says("#answer", "no chain of any length from 4 to 0")
        unlocked("0")
        inserted("8", "m", "0")
        browser.says("#draft-count", "2 lines, not made")
        browser.says("#effect", "there would be a chain, and there is none now")
        self.assertEqual(self.folder.text(), before)
        browser.click("#cancel")
        browser.says("#told", "thrown away")
        browser.says("#draft-count", "empty")
        browser.click("#save")
        browser.says("#told", "There is nothing to save")
        self.assertEqual(self.folder.text(), before)
        self.assertIn("1 record locked", browser.text("#sheet-line"))
        browser.click("#ask button")
        browser.says("#answer", "no chain of any length from 4 to 0")
        self.assertIn("none", browser.kind("#answer"))
        self.assertIn("then m+ reaches none", browser.text("#answer"))
        self.assertTrue(browser.run("return document.querySelector('#answer svg .box.none') !== null"))
        self.assertEqual(self.server.get("/sheet")[1]["locked"], [[0, ""]])
        # With Save instead of Cancel both are made.
        unlocked("0")
        inserted("8", "m", "0")
        browser.click("#save")
        browser.says("#told", "Saved: 2 edits made, and in the file")
        self.assertEqual(self.folder.calls()[-1], "do unlock 0, add 8 m 0")
        browser.until(lambda: "old" in browser.kind("#answer"))
        self.assertIn("as of then", browser.text("#answer"))
        browser.click("#ask button")
        browser.says("#answer", "4 <-t- 8 -m-> 0 (2 steps)")
        self.assertEqual(browser.kind("#answer"), ["answer", "found"])

    def test_a_refused_draft_is_still_there_to_mend(self):
        before = self.folder.text()
        inserted("8", "o", "7")
        inserted("8", "m", "0")
        browser.click("#save")
        browser.says("#told", "Not saved: line 2")
        self.assertIn("an end of the link is locked: 0", browser.text("#told"))
        self.assertEqual(self.folder.text(), before)
        self.assertEqual(browser.run("return [...document.querySelectorAll('#lines input')].map((line) => line.value)"), ["add 8 o 7", "add 8 m 0"])
        browser.type("#lines li:nth-child(2) input", "add 8 m 1" + TAB)
        browser.says("#effect", "The draft can be saved")
        # It is still there when the page is loaded anew.
        browser.go(self.server.origin + "/")
        browser.says("#draft-count", "2 lines, not made")
        browser.click("#save")
        browser.says("#told", "Saved: 2 edits made")
        self.assertEqual(self.folder.calls()[-1], "do add 8 o 7, add 8 m 1")

    def test_two_people(self):
        asked("4", "0")
        browser.says("#answer", "no chain")
        inserted("8", "o", "7")
        browser.says("#draft-count", "1 line")
        began = time.monotonic()
        self.assertEqual(self.server.save("lock 3")[0], 200)
        browser.says("#changes", "lock 3")
        taken = time.monotonic() - began
        print(f"page: another's edit was seen in the browser after {taken:.2f} s")
        self.assertLess(taken, 2)
        browser.until(lambda: "old" in browser.kind("#answer"))
        browser.says("#between", "lock 3")
        browser.click("#save")
        browser.says("#told", "Saved: 1 edit made")
        self.assertIn("The sheet had changed since you began, by 1 call", browser.text("#told"))
        self.assertIn("lock 3", browser.text("#told"))

    def test_two_pages(self):
        """Each of two pages learns of what the other saved, and each has a draft of its own."""
        first = browser.window()
        inserted("8", "o", "7")
        browser.says("#draft-count", "1 line")
        browser.another()
        try:
            browser.screen(1280, 800)
            self.opened()
            browser.says("#draft-count", "empty")
            browser.type("#edit-record [name=record]", "8")
            browser.click("#edit-record [value=lock]")
            browser.click("#save")
            browser.says("#told", "Saved: 1 edit made")
        finally:
            browser.call("DELETE", "/window")
            browser.to(first)
        self.assertLess(browser.says("#changes", "lock 8", 2), 2)
        browser.says("#effect", "Line 1 would be refused: an end of the link is locked: 8")
        browser.click("#save")
        browser.says("#told", "Not saved: line 1")
        self.assertEqual(self.folder.calls()[-1], "lock 8")

    def test_under_way_no_answer_and_none_look_different(self):
        os.kill(self.server.process.pid, signal.SIGSTOP)
        asked("4", "0")
        browser.says("#answer", "this is no answer yet")
        self.assertEqual(browser.kind("#answer"), ["answer", "under-way"])
        os.kill(self.server.process.pid, signal.SIGCONT)
        browser.says("#answer", "no chain of any length")
        self.assertEqual(browser.kind("#answer"), ["answer", "none"])
        asked("4", "0", "t / m")
        browser.says("#answer", "outside the grammar")
        self.assertEqual(browser.kind("#answer"), ["answer", "refused"])
        self.assertIn("^ an expression has no blanks", browser.text("#answer pre"))
        # Killed: no answer, and the draft is still there. Started again, it can be saved.
        inserted("8", "o", "7")
        browser.says("#effect", "The draft can be saved")
        self.server.kill()
        asked("4", "0")
        browser.says("#answer", "This does not mean none")
        self.assertEqual(browser.kind("#answer"), ["answer", "error"])
        browser.says("#wire", "Not connected")
        browser.click("#save")
        browser.says("#told", "No answer to Save")
        self.server = Server(self.folder.path, port=self.server.port)
        browser.says("#wire", "Connected:", 15)
        browser.says("#told", "has not been made", 15)
        browser.click("#save")
        browser.says("#told", "Saved: 1 edit made")
        self.assertEqual(self.folder.calls()[-1], "add 8 o 7")

    def to(self, css):
        """Goes on by Tab until an element has the focus."""
        for _ in range(90):
            if browser.run("return document.activeElement.matches(arguments[0])", css):
                return
            browser.keys(TAB)
        self.fail(f"{css} is not reached by Tab")

    def test_by_keyboard_alone(self):
        self.to("#ask [name=from]")
        browser.keys("3", TAB, "0", TAB, DATED, ENTER)
        browser.says("#answer", "(6 steps)")
        self.to("#edit-record [name=record]")
        browser.keys("3")
        self.to("#edit-record [value=lock]")
        browser.keys(ENTER)
        browser.says("#draft-count", "1 line")
        self.to("#edit-link [name=from]")
        browser.keys("8", TAB, "o", TAB, "7", ENTER)
        browser.says("#draft-count", "2 lines")
        self.to("#lines li:nth-child(2) button")
        browser.keys(ENTER)
        browser.says("#draft-count", "1 line")
        self.to("#save")
        browser.keys(ENTER)
        browser.says("#told", "Saved: 1 edit made")
        self.to("#undo-ask")
        browser.keys(ENTER)
        browser.says("#undo", "Undo would take back lock 3, whoever made it")
        browser.keys(ENTER)
        browser.until(lambda: self.folder.calls()[-1] == "undo")
        self.to("#look-closing")
        browser.keys(ENTER)
        browser.says("#closing", "Nothing is done yet")

    def test_nothing_leaves_and_nothing_is_complained_of(self):
        asked("3", "0")
        browser.says("#answer", "(6 steps)")
        names = browser.run("return performance.getEntriesByType('resource').map((entry) => entry.name)")
        self.assertTrue(names)
        self.assertEqual([name for name in names if not name.startswith(self.server.origin) and not name.startswith("data:")], [])
        self.assertEqual([line for line in browser.log() if self.server.origin in line], [])

    def test_both_sizes_light_and_dark(self):
        for width, height, phone in ((1280, 800, False), (390, 844, True)):
            grounds = []
            for dark in (False, True):
                browser.screen(width, height, phone, dark)
                self.opened()
                asked("3", "0")
                browser.says("#answer", "(6 steps)")
                inserted("8", "o", "7")
                browser.says("#draft-count", "1 line")
                self.assertLessEqual(browser.run("return document.documentElement.scrollWidth"), width)
                grounds.append(browser.run("return getComputedStyle(document.body).backgroundColor"))
                low = browser.run(CONTRAST)
                self.assertEqual(low, [], "words that cannot be read")
                browser.click("#cancel")
            self.assertNotEqual(*grounds)


# Visible words whose contrast with what is behind them is under 4.5.
CONTRAST = """
const numbers = (colour) => colour.match(/[\\d.]+/g).map(Number);
const linear = (v) => v / 255 <= 0.03928 ? v / 255 / 12.92 : ((v / 255 + 0.055) / 1.055) ** 2.4;
const light = (colour) => [0.2126, 0.7152, 0.0722].reduce((sum, part, i) => sum + part * linear(colour[i]), 0);
const behind = (node) => {
  for (; node; node = node.parentElement) {
    const colour = numbers(getComputedStyle(node).backgroundColor);
    if (colour.length < 4 || colour[3] > 0) return colour;
  }
  return [255, 255, 255];
};
const found = [];
for (const node of document.querySelectorAll("p, h1, h2, h3, h4, label, button, a, li, td, th, code, summary, span")) {
  if (!node.innerText?.trim() || !node.offsetParent || node.disabled) continue;
  const [a, b] = [light(numbers(getComputedStyle(node).color)), light(behind(node))].sort((x, y) => y - x);
  if ((a + 0.05) / (b + 0.05) < 4.5) found.push(node.innerText.slice(0, 40));
}
return found;
"""


def pictures(folder):
    """Pictures of the page at both sizes, light and dark."""
    setUpModule()
    house = Folder()
    with Server(house.path, "--names", house.put("names.txt", NAMES)) as server:
        for name, width, height, phone, dark, ends in (
            ("page", 1280, 800, False, False, "4"),
            ("page-dark", 1280, 800, False, True, "3"),
            ("page-phone", 390, 844, True, False, "4"),
            ("page-phone-dark", 390, 844, True, True, "3"),
        ):
            browser.screen(width, height, phone, dark)
            browser.go(server.origin)
            browser.says("#wire", "Connected")
            asked(ends, "0")
            browser.says("#answer", "Asked:")
            unlocked("0")
            inserted("8", "m", "0")
            browser.says("#effect", "In the question at hand")
            browser.run("document.activeElement.blur(); scrollTo(0, 0)")
            time.sleep(0.3)
            browser.shot(os.path.join(folder, f"{name}.png"))
            if phone:
                browser.run("document.querySelector('#draft').scrollIntoView()")
                browser.shot(os.path.join(folder, f"{name}-draft.png"))
            else:
                browser.run("document.querySelector('#curators').scrollIntoView()")
                browser.shot(os.path.join(folder, f"{name}-sheet.png"))
            browser.click("#cancel")
    tearDownModule()
    house.cleanup()


if __name__ == "__main__":
    if len(sys.argv) == 2 and os.path.isdir(sys.argv[1]):
        pictures(sys.argv[1])
    else:
        unittest.main(verbosity=1)
