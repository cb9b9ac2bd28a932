"""Tests ledger_page.py: its numbers by hand, its page, and the program's records.

    [S10=/path/to/s10] python3 test_ledger_page.py

With S10 (or `s10` on the PATH) a ledger is made, and its page is that of its records. With Chromium (BROWSER, by default
`chromium`) the page is opened on a telephone's width, light and dark; without, that part is skipped and said to be.
"""

import html.parser
import os
import shutil
import subprocess
import sys
import tempfile
import unittest
from pathlib import Path

import ledger_page

HERE = Path(__file__).resolve().parent
PROGRAM = os.environ.get("S10") or shutil.which("s10")
BROWSER = shutil.which(os.environ.get("BROWSER", "chromium"))

RANGES = (
    "range,customer,service,country,first,last,used,voided,free,closed,day,date\r\n"
    "1,7,RA,GB,00000000,00000099,60,6,40,no,20030,2024-11-03\r\n"
    "2,7,RA,GB,00000100,00000199,0,0,100,yes,20030,2024-11-03\r\n"
    "3,8,EE,DE,00000000,00000009,0,0,10,no,20030,2024-11-03\r\n"
)
RANGE_HEADINGS, HEADINGS = RANGES.split("\r\n")[0] + "\r\n", "arrival,day,date,customer,number,identifier,range,state\r\n"


def issue(arrival, day, customer=7, identifier="RA000000005GB"):
    """Returns the record of an issue."""
    return f"{arrival},{day},{ledger_page.date_of(day)},{customer},{arrival},{identifier},1,issued\r\n"


# Thirty on day 19990, which is past the last thirty days; thirty on the two days at their ends.
ISSUES = HEADINGS + "".join(issue(at, 19990 if at < 30 else 20001 if at < 45 else 20030) for at in range(60))

# Customer 7 has 10 of RA GB left at 10 a day, and a million of CP GB at 10 a day. Of RA DE it drew the last one today, and of
# EE GB nothing. Customer 8 used its range of UA GB long ago, and the one of CP GB was withdrawn after a draw; that of EE GB was
# withdrawn before any.
MANY_RANGES = RANGE_HEADINGS + "".join(
    f"{number},{customer},{service},{country},00000000,{last:08d},{last + 1 - free},0,{free},{closed},20030,2024-11-03\r\n"
    for number, (customer, service, country, last, free, closed) in enumerate((
        (7, "RA", "GB", 309, 10, "no"),
        (7, "CP", "GB", 1000299, 1000000, "no"),
        (7, "EE", "GB", 99, 60, "no"),
        (7, "EE", "GB", 39, 40, "no"),
        (7, "RA", "DE", 0, 0, "no"),
        (8, "UA", "GB", 9, 0, "no"),
        (8, "CP", "GB", 9, 9, "yes"),
        (8, "EE", "GB", 9, 10, "yes"),
    ), 1)
)
MANY_ISSUES = HEADINGS + "".join(
    [issue(at, 20001 + at % 30, 7, "RA000000005GB" if at < 300 else "CP000000005GB") for at in range(600)]
    + [issue(600, 20030, 7, "RA000000005DE"), issue(601, 20030, 8, "CP000000005GB")]
)


class Shape(html.parser.HTMLParser):
    """The elements of a page: how often each stands, what they name, and those that are open."""

    VOID = {"meta"}

    def __init__(self, text):
        super().__init__()
        self.count, self.open, self.named = {}, [], []
        self.feed(text)
        self.close()

    def handle_starttag(self, tag, attrs):
        self.count[tag] = self.count.get(tag, 0) + 1
        self.named += [value for name, value in attrs if name in ("src", "href")]
        if tag not in self.VOID:
            self.open.append(tag)

    def handle_startendtag(self, tag, attrs):
        self.count[tag] = self.count.get(tag, 0) + 1

    def handle_endtag(self, tag):
        assert self.open.pop() == tag, tag


def parts():
    """Returns the records of the two reports."""
    return ledger_page.records(RANGES, ledger_page.RANGES), ledger_page.records(ISSUES, ledger_page.ISSUES)


class Numbers(unittest.TestCase):
    def test_stocks(self):
        # Customer 7 drew 30 in the last 30 days, one a day, and has 40 free in its open range.
        self.assertEqual([(7, "RA GB", 40, 30, 20070), (8, "EE DE", 10, 0, None)], ledger_page.stocks(*parts(), 20030))

    def test_many_services(self):
        many = ledger_page.records(MANY_RANGES, ledger_page.RANGES), ledger_page.records(MANY_ISSUES, ledger_page.ISSUES)
        self.assertEqual([
            (7, "RA DE", 0, 1, 20030),
            (8, "CP GB", 0, 1, 20030),
            (8, "UA GB", 0, 0, 20030),
            (7, "RA GB", 10, 300, 20031),
            (7, "CP GB", 1000000, 300, 120030),
            (7, "EE GB", 100, 0, None),
        ], ledger_page.stocks(*many, 20030))

    def test_run_out(self):
        for free, drawn, day in ((0, 5, 100), (0, 0, 100), (1, 30, 101), (1, 60, 101), (3, 60, 102), (10, 1, 400), (1, 0, None)):
            self.assertEqual(day, ledger_page.run_out(free, drawn, 100))

    def test_dates(self):
        for day, date in ((0, "1970-01-01"), (20030, "2024-11-03"), (2932896, "9999-12-31"), (2932897, "day 2932897")):
            self.assertEqual(date, ledger_page.date_of(day))

    def test_other_headings(self):
        for text in ("", "range,customer\r\n", HEADINGS, RANGES + "1,2\r\n"):
            with self.assertRaises(SystemExit):
                ledger_page.records(text, ledger_page.RANGES)


class Page(unittest.TestCase):
    def test_shape(self):
        text = ledger_page.page(*parts(), "Ledger <x>")
        shape = Shape(text)
        self.assertEqual([], shape.open)
        self.assertEqual([], shape.named)
        self.assertEqual(0, shape.count.get("script", 0))
        self.assertEqual(3, text.count('class="bar"'))
        self.assertEqual(3, shape.count["rect"])
        self.assertEqual(3 + 2 + 2, shape.count["tr"])
        self.assertIn("60 of 100 used, 6 void", text)
        self.assertIn('width:54.00%', text)
        # The stocks, by the day on which they run out.
        below = text[text.index("<h2>When serials run out</h2>"):]
        self.assertLess(below.index("2024-12-13"), below.index("nothing drawn"))
        self.assertIn("Ledger &lt;x&gt;", text)
        self.assertIn("prefers-color-scheme: dark", text)

    def test_empty(self):
        shape = Shape(ledger_page.page([], [], "Ledger"))
        self.assertEqual([], shape.open)

    def test_files(self):
        with tempfile.TemporaryDirectory() as folder:
            names = [Path(folder) / name for name in ("ranges", "issues")]
            for name, text in zip(names, (RANGES, ISSUES)):
                name.write_bytes(text.encode())
            made = subprocess.run([sys.executable, HERE / "ledger_page.py", "--csv", *names], capture_output=True, text=True, check=True)
            self.assertEqual(ledger_page.page(*parts(), "Ledger"), made.stdout)


@unittest.skipUnless(PROGRAM, "no program")
class Program(unittest.TestCase):
    def test_ledger(self):
        with tempfile.TemporaryDirectory() as folder:
            ledger = f"{folder}/ledger"
            subprocess.run([PROGRAM, "create", "--ledger", ledger, "--interval", "30", "--limit", "100"], check=True, capture_output=True)
            made = subprocess.run([sys.executable, HERE / "ledger_page.py", "--ledger", ledger, "--s10", PROGRAM], capture_output=True, text=True, check=True)
            self.assertEqual(ledger_page.page([], [], "Ledger ledger"), made.stdout)

    def test_no_ledger(self):
        with tempfile.TemporaryDirectory() as folder:
            made = subprocess.run([sys.executable, HERE / "ledger_page.py", "--ledger", f"{folder}/none", "--s10", PROGRAM], capture_output=True, check=False)
            self.assertEqual((3, b""), (made.returncode, made.stdout))


@unittest.skipUnless(BROWSER, "skipped: chromium")
class Browser(unittest.TestCase):
    def test_narrow(self):
        with tempfile.TemporaryDirectory() as folder:
            name = Path(folder) / "page.html"
            # The page says by its title whether it is wider than its window.
            probe = "<script>document.title = document.documentElement.scrollWidth <= innerWidth ? 'fits' : 'wide'</script></body>"
            name.write_text(ledger_page.page(*parts(), "Ledger").replace("</body>", probe), encoding="utf-8")
            for scheme in (), ("--blink-settings=preferredColorScheme=0",):
                words = [BROWSER, "--headless=new", "--no-sandbox", "--disable-gpu", f"--user-data-dir={folder}/profile", "--window-size=500,900", *scheme]
                shown = subprocess.run([*words, "--dump-dom", name.as_uri()], capture_output=True, text=True, timeout=120, check=True)
                self.assertIn("<title>fits</title>", shown.stdout)


if __name__ == "__main__":
    unittest.main()
