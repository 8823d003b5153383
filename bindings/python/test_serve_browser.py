"""The screen of `yadvorkhul serve` in headless Chromium: typing, pasting, undo, marks, keyboard alone, 390 px, print. Where YADVORKHUL_SHOTS
names a folder, it gets screenshots. Needs python3-selenium and chromium-driver."""

import base64
import json
import os
import shutil
import tempfile
import time
import unittest

from selenium import webdriver
from selenium.common.exceptions import StaleElementReferenceException
from selenium.webdriver.chrome.options import Options
from selenium.webdriver.chrome.service import Service
from selenium.webdriver.common.action_chains import ActionChains
from selenium.webdriver.common.by import By
from selenium.webdriver.common.keys import Keys

from serve_kit import WORD, Running, season

SHOTS = os.environ.get("YADVORKHUL_SHOTS")
DRIVER = os.environ.get("CHROMEDRIVER", "/usr/bin/chromedriver")


def opened():
    options = Options()
    for word in ("--headless=new", "--no-sandbox", "--disable-gpu", "--disable-dev-shm-usage", "--no-first-run", "--disable-background-networking", "--disable-component-update"):
        options.add_argument(word)
    options.set_capability("goog:loggingPrefs", {"browser": "ALL"})
    return webdriver.Chrome(options=options, service=Service(DRIVER))


class Screen(unittest.TestCase):
    @classmethod
    def setUpClass(cls):
        cls.running = Running(season())
        cls.planner = cls.running.client("anna")
        cls.browser = opened()
        cls.signed_in = None

    @classmethod
    def tearDownClass(cls):
        cls.browser.quit()
        cls.running.close()

    def setUp(self):
        self.assertEqual(self.planner.post("/import", {"case": season()}).status, 200)
        self.planner.post("/withdraw", {})
        self.size(1400, 1000)

    def tearDown(self):
        # the status of a refused write is a line of the console too; anything else is an error of ours
        odd = [line["message"] for line in self.browser.get_log("browser") if "the server responded with a status of 4" not in line["message"]]
        self.assertEqual(odd, [])

    # helpers -----------------------------------------------------------------------------------------------------------------------

    def size(self, width, height, dark=False):
        self.browser.execute_cdp_cmd("Emulation.setDeviceMetricsOverride", {"width": width, "height": height, "deviceScaleFactor": 1, "mobile": False})
        scheme = {"name": "prefers-color-scheme", "value": "dark" if dark else "light"}
        self.browser.execute_cdp_cmd("Emulation.setEmulatedMedia", {"features": [scheme]})

    def come_as(self, name):
        self.browser.get(f"http://127.0.0.1:{self.running.port}/sign-in")
        if Screen.signed_in != name:
            self.browser.delete_all_cookies()
            self.browser.get(f"http://127.0.0.1:{self.running.port}/sign-in")
            self.one("[name=name]").send_keys(name)
            self.one("[name=word]").send_keys(WORD + Keys.ENTER)
            Screen.signed_in = name
        self.until(lambda: self.all("[role=tab]"))

    def one(self, selector):
        return self.browser.find_element(By.CSS_SELECTOR, selector)

    def all(self, selector):
        return self.browser.find_elements(By.CSS_SELECTOR, selector)

    def run_script(self, script, *given):
        return self.browser.execute_script(script, *given)

    def until(self, true, seconds=40):
        end = time.monotonic() + seconds
        while time.monotonic() < end:
            try:
                found = true()
            except StaleElementReferenceException:  # the page drew it anew meanwhile
                found = None
            if found:
                return found
            time.sleep(0.05)
        self.fail("it did not come")

    def keys(self, *keys):
        chain = ActionChains(self.browser)
        for key in keys:
            chain.send_keys(key)
        chain.perform()

    def chord(self, modifier, key):
        ActionChains(self.browser).key_down(modifier).send_keys(key).key_up(modifier).perform()

    def focus(self, row, column, table=".lanes"):
        """The cell is focused as a click would do it."""
        self.run_script("document.querySelector(arguments[0]).dispatchEvent(new MouseEvent('mousedown', {bubbles: true, cancelable: true}))", f'{table} td[data-at="{row},{column}"]')

    def focused(self):
        return self.run_script("return document.activeElement.closest('td')?.dataset.at ?? document.activeElement.id ?? ''")

    def paste(self, text):
        self.run_script(
            "const data = new DataTransfer(); data.setData('text/plain', arguments[0]);"
            "document.activeElement.dispatchEvent(new ClipboardEvent('paste', {clipboardData: data, bubbles: true, cancelable: true}))",
            text,
        )

    def total(self):
        return self.one("#tiles .total dd").text

    def state(self):
        return self.planner.state()

    def open_tab(self, name):
        self.one(f"#tab-{name}").click()

    def shot(self, name):
        if SHOTS:
            image = self.browser.execute_cdp_cmd("Page.captureScreenshot", {"format": "png"})
            with open(os.path.join(SHOTS, name + ".png"), "wb") as out:
                out.write(base64.b64decode(image["data"]))

    # what people do ------------------------------------------------------------------------------------------------------------------

    def test_type_a_demand_and_see_the_total(self):
        self.come_as("anna")
        self.assertEqual(self.total(), "162,730")
        self.focus(12, 0)
        self.keys("230", Keys.ENTER)
        self.until(lambda: self.total() == "165,460")
        self.assertIn("Total +2,730 (1.68 %)", self.one("#effect").text)
        self.assertEqual(self.state()["tariff"]["demands"][0], 230)
        self.assertTrue(self.all(".lanes td.changed"))
        self.assertEqual(self.focused(), "12,0")  # the last row: there is none below
        self.shot("typed")

    def test_fast_typing_loses_nothing(self):
        self.come_as("anna")
        self.focus(2, 30)
        self.keys("91", Keys.ENTER, "62", Keys.ENTER, "113", Keys.ENTER, "84", Keys.ENTER)
        self.until(lambda: self.state()["tariff"]["supplies"][2:6] == [91, 62, 113, 84])
        self.until(lambda: self.focused() == "6,30")

    def test_escape_leaves_it(self):
        self.come_as("anna")
        self.focus(12, 3)
        self.keys("999", Keys.ESCAPE)
        self.assertFalse(self.all("td.editing"))
        self.assertEqual(self.one('.lanes td[data-at="12,3"]').text, "140")
        self.assertEqual(self.state()["tariff"]["demands"][3], 140)
        self.assertEqual(self.focused(), "12,3")

    def test_refused_in_a_sentence_with_the_cell_outlined(self):
        self.come_as("anna")
        self.focus(12, 1)
        self.keys("4001", Keys.ENTER)
        self.until(lambda: self.one("#wrong").is_displayed())
        self.assertEqual(self.one("#wrong").text, "Demand of Marseille: a whole number from 0 to 4,000, please. 4,001 is above that.")
        self.until(lambda: self.all('.lanes td[data-at="12,1"].wrong.editing input[aria-invalid="true"]'))
        self.shot("refused")
        self.keys("100", Keys.ENTER)  # the editor is back, with what was typed selected
        self.until(lambda: self.state()["tariff"]["demands"][1] == 100)
        self.until(lambda: not self.one("#wrong").is_displayed())
        self.focus(12, 2)
        self.keys("1", "-", "2", Keys.ENTER)
        self.until(lambda: "no whole number" in self.one("#wrong").text)
        self.keys(Keys.ESCAPE)

    def test_paste_a_block_whole_or_not_at_all(self):
        self.come_as("anna")
        before = self.state()["tariff"]["costs"]
        self.focus(2, 4)
        self.paste("7\t8\r\n1 009\t\u221210\r\n")
        self.until(lambda: self.state()["tariff"]["costs"] != before)
        costs = self.state()["tariff"]["costs"]
        self.assertEqual([row[4:6] for row in costs[2:4]], [[7, 8], [1009, -10]])
        self.until(lambda: "3 more changes" in self.one("#effect").text)
        for text, word in (
            ("1\t2\n3\tx", "row 2, column 2"),
            ("1\t2\n3", "not equally long"),
            ("\t".join("1" * 40), "there is room for"),
            ("1\t2\n3\t1000001", "1,000,001 is outside"),
            ("1\t2\n3\t4.5", "no whole number"),
            ("1\t2\n3\t1,009", "may be 1009 or a decimal"),
        ):
            self.focus(2, 4)
            self.paste(text)
            self.until(lambda: word in self.one("#wrong").text)
            self.assertEqual(self.state()["tariff"]["costs"], costs, text)
        self.assertTrue(self.all('.lanes td[data-at="3,5"].wrong'))

    def test_a_comma_is_taken_where_the_block_shows_what_it_means(self):
        self.come_as("paul")
        self.open_tab("production")
        self.focus(3, 0, ".entries")
        self.keys("1", ",", "234", Keys.ENTER)
        self.until(lambda: "may be 1234 or a decimal" in self.one("#wrong").text)
        self.keys(Keys.ESCAPE)
        self.focus(3, 0, ".entries")
        self.paste("1,234\n5,678")
        self.until(lambda: "row 1, column 1 of the block may be 1234 or a decimal" in self.one("#wrong").text)
        self.assertEqual(self.state()["table"][3:5], season()["table"][3:5])
        self.focus(3, 0, ".entries")
        self.paste("1,234\n5,678,901\n1'000")
        self.until(lambda: self.state()["table"][3:6] == [1234, 5678901, 1000])

    def test_an_edit_for_another_case_is_not_taken(self):
        self.come_as("anna")
        self.run_script("window.fetched = window.fetch; window.fetch = (path, ...more) => String(path).startsWith('/state') ? new Promise(() => {}) : window.fetched(path, ...more)")
        case = season()
        case["terminals"][0], case["terminals"][1] = case["terminals"][1], case["terminals"][0]
        self.assertEqual(self.planner.post("/import", {"case": case}).status, 200)
        self.focus(12, 0)
        self.keys("230", Keys.ENTER)
        self.until(lambda: "another case" in self.one("#wrong").text.lower())
        self.assertEqual(self.state()["tariff"]["demands"], case["demands"])

    def test_file_of_a_case_is_read_by_the_server(self):
        folder = tempfile.mkdtemp(prefix="yadvorkhul-given-")
        self.addCleanup(shutil.rmtree, folder, True)
        case = season()
        self.planner.post("/import", {"case": {**case, "runs": [0, 0], "ceilings": None}})
        self.come_as("anna")
        self.open_tab("files")
        self.assertFalse(self.all("#panel-files .left-out"))
        case["table"][7] = 2**63 + 1
        whole = json.dumps(case)
        for name, text, word in (("twice.json", whole[:-1] + ', "title": "x"}', "stands twice"), ("good.json", whole, "")):
            with open(os.path.join(folder, name), "w") as out:
                out.write(text)
            self.one("#import-files").send_keys(os.path.join(folder, name))
            self.run_script("[...document.querySelectorAll('#panel-files button')].find((b) => b.textContent.startsWith('Enter')).click()")
            self.until(lambda: self.one("#question").get_attribute("open"))
            self.one("#question-yes").click()
            self.until(lambda: word in self.one("#wrong").text if word else self.state()["table"][7] == str(2**63 + 1))
            self.run_script("document.querySelector('#import-files').value = ''")
        self.until(lambda: len(self.all("#panel-files .left-out")) == 2)
        self.assertIn("case.json has them", self.one("#panel-files .left-out").text)

    def test_copy_and_paste_by_keys(self):
        self.come_as("anna")
        self.focus(0, 0)
        self.chord(Keys.SHIFT, Keys.ARROW_RIGHT)
        self.assertEqual(len(self.all("td.selected")), 2)
        self.chord(Keys.CONTROL, "c")
        self.focus(5, 5)
        self.chord(Keys.CONTROL, "v")
        self.until(lambda: self.state()["tariff"]["costs"][5][5:7] == [43, -3])

    def test_undo_and_redo(self):
        self.come_as("anna")
        self.focus(12, 0)
        self.keys("200", Keys.ENTER)
        self.until(lambda: self.state()["tariff"]["demands"][0] == 200)
        self.focus(0, 1)
        self.keys("55", Keys.ENTER)
        self.until(lambda: self.state()["tariff"]["costs"][0][1] == 55)
        self.chord(Keys.CONTROL, "z")
        self.until(lambda: self.state()["tariff"]["costs"][0][1] == -3)
        self.one("#undo").click()
        self.until(lambda: self.total() == "162,730")
        self.chord(Keys.CONTROL, "y")
        self.until(lambda: self.state()["tariff"]["demands"][0] == 200)
        self.one("#redo").click()
        self.until(lambda: self.state()["tariff"]["costs"][0][1] == 55)
        self.until(lambda: self.one("#redo").get_attribute("aria-disabled") == "true")

    def test_marks_and_comparing(self):
        self.come_as("anna")
        self.one("#mark-new").click()
        self.until(lambda: self.one("#question").get_attribute("open"))
        self.one("#question-field").clear()
        self.one("#question-field").send_keys("As entered" + Keys.ENTER)
        self.until(lambda: self.all('.chip[aria-pressed="true"][data-mark="1"]'))
        self.focus(12, 0)
        self.keys("230", Keys.ENTER)
        self.until(lambda: "+2,730" in self.one("#tiles .total .difference").text)
        self.assertTrue(self.all(".chart path.was"))
        self.assertTrue(self.all(".lanes td.changed"))
        self.open_tab("compare")
        text = self.until(lambda: self.one(".compare").text)
        for word in ("1 As entered", "demand of Paris", "Holzminden to Paris", "162,730", "165,460"):
            self.assertIn(word, text)
        self.shot("compare")
        self.one("[data-act=back]").click()
        self.until(lambda: self.total() == "162,730")
        self.one("[data-act=name]").click()
        self.one("#question-field").clear()
        self.one("#question-field").send_keys("May" + Keys.ENTER)
        self.until(lambda: "May" in self.one("#chips").text)

    def test_smaller_first_supply_asks_first(self):
        self.come_as("anna")
        self.focus(0, 30)
        self.keys("1400", Keys.ENTER)
        self.until(lambda: self.one("#question").get_attribute("open"))
        self.assertIn("100 entries at its end are cut off", self.one("#question").text)
        self.shot("asks")
        self.keys(Keys.ESCAPE)
        self.until(lambda: self.run_script("return document.activeElement.matches('td.editing input')"))
        self.assertEqual(self.state()["tariff"]["supplies"][0], 1500)
        self.keys(Keys.ENTER)  # the editor is back, with what was typed
        self.until(lambda: self.one("#question").get_attribute("open"))
        self.one("#question-yes").click()
        self.until(lambda: len(self.state()["table"]) == 1401)
        self.one("#undo").click()
        self.until(lambda: self.state()["table"] == season()["table"])

    def test_production_tab(self):
        self.come_as("anna")
        self.open_tab("production")
        self.focus(3, 0, ".entries")
        self.paste("11\n12\n13")
        self.until(lambda: self.state()["table"][3:6] == [11, 12, 13])
        for name, value in (("from", "10"), ("to", "12"), ("value", "100"), ("step", "-7")):
            field = self.one(f"#panel-production [name={name}]")
            field.clear()
            field.send_keys(value)
        self.one("#panel-production form button").click()
        self.until(lambda: self.state()["table"][10:13] == [100, 93, 86])
        self.run_script("[...document.querySelectorAll('#panel-production button')].find((b) => b.textContent.startsWith('Square')).click()")
        self.until(lambda: self.one("#question").get_attribute("open"))
        self.one("#question-yes").click()
        self.until(lambda: self.state()["table"][:4] == [0, 100, 141, 173])
        self.shot("production")

    def test_bounds_tab(self):
        self.come_as("anna")
        self.open_tab("bounds")
        self.one("#panel-bounds form button").click()
        text = self.until(lambda: self.one("#panel-bounds .bounds").text)
        self.assertIn("can be the cheapest", text)
        self.assertTrue(self.all("#panel-bounds .band"))
        self.shot("bounds")

    def test_publish_with_a_warning(self):
        self.come_as("anna")
        self.open_tab("published")
        self.run_script("document.querySelector('#panel-published button').click()")
        self.until(lambda: self.one("#question").get_attribute("open"))
        self.assertIn("tells something of the production entries", self.one("#question").text)
        self.one("#question-yes").click()
        self.until(lambda: self.all("#panel-published .frozen td.used"))
        self.come_as("dora")
        self.open_tab("published")
        self.until(lambda: self.all("#panel-published .frozen td.used"))
        self.assertFalse(self.one("#panel-published .tools-row").is_displayed())
        self.assertNotIn("162,730", self.one("body").text)
        self.shot("published")

    def test_files_are_saved_or_refused_in_a_sentence(self):
        folder = tempfile.mkdtemp(prefix="yadvorkhul-saved-")
        self.addCleanup(shutil.rmtree, folder, True)
        self.browser.execute_cdp_cmd("Browser.setDownloadBehavior", {"behavior": "allow", "downloadPath": folder})
        self.come_as("anna")
        self.open_tab("files")
        for link in self.all("#panel-files .files a"):
            link.click()
            name = link.text
            self.until(lambda: os.path.exists(os.path.join(folder, name)), 120)  # the page draws a picture
        with open(os.path.join(folder, "production.csv"), "rb") as stream:
            self.assertEqual(len(stream.read().split(b"\r\n")), 1502)
        self.planner.do(["edit_entry", 1, 10**10])
        self.run_script("document.querySelector('#panel-files a[download=\"production.csv\"]').click()")
        self.until(lambda: "9,999,999,999" in self.one("#wrong").text)

    def test_no_plan_says_why(self):
        self.come_as("anna")
        self.focus(12, 0)
        self.keys("4000", Keys.ENTER)
        self.until(lambda: self.one("#none").is_displayed())
        self.assertIn("The terminals take more than depots and plants can give", self.one("#none").text)
        self.assertFalse(self.one("#tiles").is_displayed())

    def test_chart_by_keyboard_and_pointer(self):
        self.come_as("anna")
        self.run_script("document.querySelector('.chart').focus()")
        self.keys(Keys.ARROW_RIGHT)
        self.until(lambda: "Grasse 1,001" in self.one(".reading").text)
        self.keys(Keys.HOME)
        first = self.one(".reading").text
        self.assertEqual(self.one(".chart").get_attribute("aria-valuetext").replace("\u00a0", " "), first)
        ActionChains(self.browser).move_to_element(self.one(".chart")).perform()
        self.until(lambda: self.one(".reading").text != first)

    def test_what_others_do_comes(self):
        self.come_as("anna")
        self.planner.do(["edit_demand", 1, 170])
        self.until(lambda: self.one('.lanes td[data-at="12,0"]').text == "170")

    def test_depot_and_reader_see_no_cost_of_production(self):
        for name, editable in (("dora", 30 + 11), ("rita", 0)):
            self.come_as(name)
            self.until(lambda: self.all(".lanes td"))
            self.assertEqual([tab.text for tab in self.all("[role=tab]")], ["Tariff", "Files"])
            self.assertEqual(len(self.all('.lanes td[aria-readonly="false"]')), editable)
            self.assertFalse(self.one("#result").is_displayed() or self.one("#marks").is_displayed() or self.one("#undo").is_displayed())
            self.assertFalse(self.all(".chart"))
        self.come_as("dora")
        self.focus(12, 0)
        self.keys("161", Keys.ENTER)
        self.until(lambda: self.state()["tariff"]["demands"][0] == 161)
        self.focus(0, 30)
        self.keys("7")  # a_1 is not the depot's
        self.assertFalse(self.all("td.editing"))
        self.focus(3, 28)
        self.paste("1\t2\t70")  # two lanes and a stock: refused whole
        self.until(lambda: "Your role may not do this" in self.one("#wrong").text)
        self.assertEqual(self.state()["tariff"]["supplies"][3], 60)
        self.shot("depot")

    def test_plant_edits_entries(self):
        self.come_as("paul")
        self.assertEqual([tab.text for tab in self.all("[role=tab]")], ["Tariff", "Production", "Files"])
        self.open_tab("production")
        self.focus(0, 0, ".entries")
        self.keys("5", Keys.ENTER)
        self.until(lambda: self.state()["table"][0] == 5)
        self.assertFalse(self.all('.lanes td[aria-readonly="false"]'))

    def test_keyboard_alone(self):
        """From signing in to a comparison without the pointer."""
        Screen.signed_in = None
        self.browser.delete_all_cookies()
        self.browser.get(f"http://127.0.0.1:{self.running.port}/")
        self.until(lambda: self.run_script("return document.activeElement.name") == "name")
        self.keys("anna", Keys.TAB, WORD, Keys.ENTER)
        self.until(lambda: self.all("[role=tab]"))
        Screen.signed_in = "anna"
        self.tab_to("#mark-new")
        self.keys(Keys.ENTER)
        self.until(lambda: self.one("#question").get_attribute("open"))
        self.keys("Start", Keys.ENTER)
        self.until(lambda: self.all('.chip[data-mark="1"]'))
        self.tab_to(".lanes td")
        self.assertEqual(self.focused(), "0,0")
        self.chord(Keys.CONTROL, Keys.ARROW_DOWN)
        self.keys(Keys.ARROW_RIGHT)
        self.assertEqual(self.focused(), "12,1")
        self.keys(Keys.ENTER, "120", Keys.TAB)
        self.until(lambda: self.state()["tariff"]["demands"][1] == 120)
        self.until(lambda: self.focused() == "12,2")
        self.tab_to("#tab-plan", back=True)
        self.keys(Keys.ARROW_RIGHT, Keys.ARROW_RIGHT)
        self.until(lambda: self.all("#panel-compare .differs"))
        self.assertIn("Start", self.one(".compare").text)
        self.chord(Keys.CONTROL, "z")
        self.until(lambda: self.state()["tariff"]["demands"][1] == 90)

    def tab_to(self, selector, back=False):
        for _ in range(60):
            if self.run_script("return document.activeElement.matches(arguments[0])", selector):
                return
            if back:
                self.chord(Keys.SHIFT, Keys.TAB)
            else:
                self.keys(Keys.TAB)
        self.fail(f"{selector} is not reached by Tab")

    def test_small_screen(self):
        self.size(390, 844)
        self.come_as("anna")
        for tab in self.all("[role=tab]"):
            self.run_script("arguments[0].click()", tab)
            time.sleep(0.2)
            wide, room = self.run_script("return [document.documentElement.scrollWidth, document.documentElement.clientWidth]")
            self.assertEqual(wide, room, tab.text)
            self.assertLessEqual(room, 390)
            self.shot("small-" + tab.get_attribute("id"))
        self.run_script("document.querySelector('#tab-plan').click()")
        self.focus(12, 2)
        self.keys("50", Keys.ENTER)
        self.until(lambda: self.state()["tariff"]["demands"][2] == 50)

    def test_dark(self):
        self.size(1400, 1000, dark=True)
        self.come_as("anna")
        ground = self.run_script("return getComputedStyle(document.documentElement).backgroundColor")
        self.assertEqual(ground, "rgb(22, 25, 29)")
        self.shot("dark")

    def test_paper(self):
        self.come_as("anna")
        paper = self.browser.execute_cdp_cmd("Page.printToPDF", {"preferCSSPageSize": True})
        self.assertGreater(len(paper["data"]), 5000)
        self.browser.execute_cdp_cmd("Emulation.setEmulatedMedia", {"media": "print"})
        try:
            lanes = sum(drums > 0 for row in self.state()["plan"]["amounts"] for drums in row)
            self.assertEqual(len([row for row in self.all(".paper tbody tr") if row.is_displayed()]), lanes)
            self.assertFalse(self.one("#undo").is_displayed() or self.one(".tabs").is_displayed())
        finally:
            self.browser.execute_cdp_cmd("Emulation.setEmulatedMedia", {"media": ""})

    def test_everything_has_a_name_for_a_screen_reader(self):
        self.planner.do(["mark", 1], names={"1": "x"})
        self.come_as("anna")
        for tab in self.all("[role=tab]"):
            self.run_script("arguments[0].click()", tab)
            time.sleep(0.2)
            nameless = self.run_script(
                "return [...document.querySelectorAll('button, input:not([type=hidden]), textarea, [tabindex], a, summary')].filter((e) => e.checkVisibility() && "
                "!(e.getAttribute('aria-label') || e.getAttribute('aria-labelledby') || e.textContent.trim() || e.labels?.length || e.title)).map((e) => e.outerHTML.slice(0, 120))"
            )
            self.assertEqual(nameless, [], tab.text)
        self.assertEqual(self.run_script("return document.querySelectorAll('[id]').length"), self.run_script("return new Set([...document.querySelectorAll('[id]')].map((e) => e.id)).size"))

    def test_nothing_from_elsewhere(self):
        self.come_as("anna")
        asked = self.run_script("return performance.getEntriesByType('resource').map((e) => e.name)")
        self.assertTrue(asked)
        self.assertEqual([name for name in asked if not name.startswith(f"http://127.0.0.1:{self.running.port}/")], [])
        self.assertEqual(self.run_script("return document.querySelectorAll('script:not([src]), style, [style], [onclick]').length"), 0)

    def test_names_cannot_break_out(self):
        case = season()
        case["title"], case["sources"][0], case["terminals"][0] = "<script>alert(1)</script>", "<img src=x onerror=alert(1)>", "\u202egnp\" onfocus=\"x"
        self.assertEqual(self.planner.post("/import", {"case": case}).status, 200)
        self.come_as("anna")
        self.assertEqual(self.one("#title").text, "<script>alert(1)</script>")
        self.assertFalse(self.all("main img"))
        self.assertIn("<img src=x", self.one("#tiles").text)


if __name__ == "__main__":
    unittest.main()
