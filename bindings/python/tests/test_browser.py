"""Tests of a catalogue in a browser."""

import glob
import hashlib
import json
import os
import unittest
import urllib.parse

import adf
from tests.browser import BROWSER, Browser
from tests.shared import Folder, changed, image_of, written


@unittest.skipUnless(BROWSER, "needs chromium")
class Index(Folder):
    def setUp(self):
        super().setUp()
        os.makedirs("disks/games")
        bad = changed(image_of(), 880, 440, 1)
        scripted = "games/<script>alert(1)<.aDf"
        for name, content in (("bad_sum.adf", bad), ("a\tbook\\cover.adf", image_of()), (scripted, b"X" + image_of()[1:]), ("b.adf", image_of())):
            written(f"disks/{name}", content)
        self.run_tool("catalogue", "--rescue", "disks", "out")
        self.address = f"file://{os.getcwd()}/out/index.html"
        self.browser = Browser()
        self.addCleanup(self.browser.process.kill)

    def test_sorts_filters_and_leads(self):
        browser = self.browser
        browser.open(self.address)
        every = browser.names()
        self.assertEqual((len(every), browser.value("shown.textContent")), (4, "4 shown"))
        head = "document.querySelector('#images th button')"
        browser.click(head)
        up = browser.names()
        browser.click(head)
        self.assertEqual((browser.value("heads[0].getAttribute('aria-sort')"), browser.names()), ("descending", up[::-1]))
        self.assertEqual(sorted(up), sorted(every))
        browser.click("filter")
        browser.ask("Input.insertText", text="BAD 880")
        self.assertEqual((browser.names(), browser.value("location.hash")), (["bad_sum.adf"], "#BAD%20880"))
        browser.click("document.querySelector('#images tbody tr:not([hidden]) a[href$=found]')")
        browser.until_event("Page.loadEventFired")
        found = browser.value("[...document.querySelectorAll('#found tbody tr')].map(row => row.cells[0].innerText + ' ' + row.cells[1].innerText)")
        self.assertEqual(sorted(found), ["sound c", "sound c/readme", "sound empty", "sound large", "sound none"])
        self.assertTrue(browser.value("document.body.innerText.includes('block 880: bad sum')"))
        self.assertEqual(browser.value("getComputedStyle(document.querySelector('.refused')).color"), "rgb(170, 0, 0)")
        session, browser.session = browser.session, {}
        browser.ask("Browser.setDownloadBehavior", behavior="allow", downloadPath=os.path.abspath("saved"), eventsEnabled=True)
        browser.session = session
        browser.click("document.querySelector('a[download]')")
        browser.until_event("Browser.downloadProgress", state="completed")
        self.assertEqual([message for message in browser.heard if message.get("method") == "Log.entryAdded"], [])
        browser.close()
        (path,) = glob.glob("saved/*.adf")
        with open(path, "rb") as file:
            self.assertEqual(adf.check(file.read()).files, 3)

    def until(self, expression, value):
        """An expression comes to a value."""
        self.assertEqual(self.browser.wait(expression, value), value)

    def test_finds_names_and_sums_of_files(self):
        browser, places = self.browser, "[...document.querySelectorAll('#places li')].map(line => line.innerText)"
        # The one that does not begin with DOS has lost its boot block alone, so all in it is found.
        readme = [f"{name}: c/readme" for name in ("a\\x09book\\x5ccover.adf", "b.adf", "bad_sum.adf", "games/<script>alert(1)<.aDf")]
        asked = (("c readme", "4 found"), ("READ \xdcbel", "4 found"), ("script alert", "1 found"), ("b\xfccher", "4 found"))
        asked += (("em", "4 found"), ("em ad", "4 found"), ("book", "1 found"), ("co", "1 found"), ("cover book", "1 found"), ("cover large", "1 found"))
        for text, told in (*asked, ("nothing at all", "0 found"), ("\\ < \" '", "")):
            browser.open("about:blank")
            browser.open(f"{self.address}#find={urllib.parse.quote(text)}")
            self.until("told.textContent", told)
        self.until("wanted.value", "\\ < \" '")
        browser.value("wanted.value = ''; wanted.focus()")
        browser.ask("Input.insertText", text="readme c")
        self.press("Enter", 13)
        self.until(f"JSON.stringify({places}.sort())", json.dumps(sorted(readme), separators=(",", ":"), ensure_ascii=False))
        browser.value("wanted.value = ''; wanted.focus()")
        browser.ask("Input.insertText", text=hashlib.sha256(b"Hello\n").hexdigest().upper())
        self.press("Enter", 13)
        self.until("told.textContent", "4 found")
        self.assertEqual([message for message in browser.heard if message.get("method") == "Log.entryAdded" and "ERR_FILE_NOT_FOUND" not in str(message)], [])
        browser.close()

    def press(self, key, code):
        """Presses a key."""
        text = {"text": "\r"} if key == "Enter" else {}
        for kind in ("keyDown", "keyUp"):
            self.browser.ask("Input.dispatchKeyEvent", type=kind, key=key, code=key, windowsVirtualKeyCode=code, **(text if kind == "keyDown" else {}))

    def test_is_used_by_keyboard(self):
        self.browser.open(self.address)
        seen = []
        for _ in range(60):
            self.press("Tab", 9)
            seen.append(self.browser.value("document.activeElement.id || document.activeElement.textContent"))
            if seen[-1] == "Verdict":
                self.press("Enter", 13)
                break
        self.assertIn("wanted", seen)
        self.assertIn("filter", seen)
        self.assertEqual(self.browser.value("heads[1].getAttribute('aria-sort')"), "ascending")
        self.browser.close()

    def test_names_tables_and_pictures(self):
        browser = self.browser
        browser.ask("Accessibility.enable")
        index = {("table", "What to do"), ("table", "Images"), ("searchbox", "Filter this page")}
        page = {("table", "Image"), ("table", "Findings"), ("table", "Found"), ("image", "Blocks of bad_sum.adf")}
        for address, names in ((self.address, index), (self.page("bad_sum"), page)):
            browser.open(address)
            nodes = browser.ask("Accessibility.getFullAXTree")["nodes"]
            told = {(node.get("role", {}).get("value"), node.get("name", {}).get("value")) for node in nodes if not node.get("ignored")}
            told |= {("image", name) for role, name in told if role == "img"}
            self.assertTrue(names <= told, names - told)
            self.assertFalse({role for role, name in told if role in ("table", "image", "img") and not name})
        browser.close()

    def page(self, name):
        (path,) = glob.glob(f"out/images/{name.replace('_', '-')}-*.html")
        return f"file://{os.getcwd()}/{path}"

    def test_is_read_at_any_width(self):
        browser = self.browser
        for width in (1280, 420):
            for scheme in ("light", "dark"):
                browser.ask("Emulation.setDeviceMetricsOverride", width=width, height=900, deviceScaleFactor=1, mobile=False)
                browser.ask("Emulation.setEmulatedMedia", features=[{"name": "prefers-color-scheme", "value": scheme}])
                browser.open(self.address)
                self.assertLessEqual(browser.value("document.documentElement.scrollWidth"), width)
                colours = browser.value("[getComputedStyle(document.body).color, getComputedStyle(document.body).backgroundColor].join()")
                self.assertEqual(colours, {"light": "rgb(34, 34, 34),rgb(255, 255, 255)", "dark": "rgb(221, 221, 221),rgb(27, 27, 27)"}[scheme])
                lines = "[...document.querySelectorAll('td.verdict')].every(cell => cell.getClientRects().length === 1 && cell.offsetWidth > 0)"
                self.assertTrue(browser.value(lines))
        browser.close()

    def test_takes_any_text_behind_its_name(self):
        for text, count in (("100%", 0), ("%62ad%20880", 1), ("script", 1)):
            self.browser.open("about:blank")
            self.browser.open(f"{self.address}#{text}")
            self.assertEqual(self.browser.value("shown.textContent"), f"{count} shown")
        self.browser.close()
