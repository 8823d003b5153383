"""What one drum more would change, in the app: the planner's alone, and nothing of the working case is touched."""

import os
import unittest

from serve_kit import Running, season
from yadvorkhul import Case
from yadvorkhul.again import as_json, one_more
from yadvorkhul.forms import fingerprint, plan_fingerprint


class More(unittest.TestCase):
    @classmethod
    def setUpClass(cls):
        cls.running = Running(season())

    @classmethod
    def tearDownClass(cls):
        cls.running.close()

    def test_planner(self):
        anna = self.running.client("anna")
        case = Case(**season())
        before = anna.get("/state").body
        told = anna.get("/one-more").told
        self.assertEqual(told["drums"], as_json(one_more(case)))
        self.assertEqual((told["case_fingerprint"], told["plan_fingerprint"]), (fingerprint(case), plan_fingerprint(case, case.plan())))
        self.assertEqual(anna.get("/state").body, before)
        self.assertEqual(anna.post("/do", {"calls": [["edit_demand", 1, 150]]}).status, 200)
        edited = case._replace(demands=[150] + case.demands[1:])
        self.assertEqual(anna.get("/one-more").told["drums"], as_json(one_more(edited)))
        self.assertEqual(anna.post("/do", {"calls": [["edit_demand", 1, case.demands[0]]]}).status, 200)

    def test_others(self):
        for name in ("paul", "dora", "rita"):
            answer = self.running.client(name).get("/one-more")
            self.assertEqual((answer.status, answer.told["refused"]["number"]), (403, 31))

    @unittest.skipUnless(os.path.exists(os.environ.get("CHROMEDRIVER", "/usr/bin/chromedriver")), "chromium-driver is not there")
    def test_screen(self):
        """The tab shows each change that the server tells."""
        import time

        from serve_kit import WORD
        from test_serve_browser import By, opened

        drums = self.running.client("anna").get("/one-more").told["drums"]
        browser = opened()
        self.addCleanup(browser.quit)
        browser.set_window_size(1400, 1000)
        browser.get(f"http://127.0.0.1:{self.running.port}/sign-in")
        browser.find_element(By.NAME, "name").send_keys("anna")
        browser.find_element(By.NAME, "word").send_keys(WORD + "\n")
        end = time.time() + 60
        rows = []
        while time.time() < end and len(rows) < len(drums):
            time.sleep(0.2)
            buttons = browser.find_elements(By.ID, "tab-more")
            if buttons and not rows:
                buttons[0].click()
            rows = browser.find_elements(By.CSS_SELECTOR, "#panel-more tbody tr")
        self.assertEqual(len(rows), len(drums))
        if os.environ.get("YADVORKHUL_SHOTS"):
            browser.save_screenshot(os.path.join(os.environ["YADVORKHUL_SHOTS"], "one-more-app.png"))
        self.assertIn("Grasse \u2192 Marseille", rows[0].text)
        self.assertIn("\u221238", rows[0].text)


if __name__ == "__main__":
    unittest.main()
