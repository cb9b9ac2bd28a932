"""Tests label.py: its labels are read back from pictures, by `zbarimg`.

    [S10=/path/to/s10] python3 test_label.py

It wants `zint`, `rsvg-convert`, `zbarimg` and the program (S10, or `s10` on the PATH). With `pdftoppm` the pages of a PDF are read
back too; without, that part is skipped and said to be.
"""

import os
import random
import re
import shutil
import subprocess
import sys
import tempfile
import unittest
from pathlib import Path

LABEL = Path(__file__).resolve().parent / "label.py"
PROGRAM = os.environ.get("S10") or shutil.which("s10")
SERIALS = [0, 99999999, *random.sample(range(1, 99999999), 15)]


def run(*command, text=""):
    return subprocess.run(command, input=text, capture_output=True, text=True, check=False)


def made(serials, service="RA"):
    """Returns the identifiers of these serials, as the program spells them."""
    lines = "".join(f"{service} {serial:08} GB\n" for serial in serials)
    return run(PROGRAM, "make", text=lines).stdout.split()


def seen_in(picture):
    """Returns the identifiers that the barcodes in a picture have, sorted."""
    return sorted(run("zbarimg", "--quiet", "--raw", str(picture)).stdout.split())


class LabelTest(unittest.TestCase):
    def setUp(self):
        folder = tempfile.TemporaryDirectory()
        self.addCleanup(folder.cleanup)
        self.folder = Path(folder.name)

    def label(self, *words, text=""):
        return run(sys.executable, str(LABEL), "--s10", PROGRAM, *words, text=text)

    def picture_of(self, svg):
        picture = svg.with_suffix(".png")
        done = run("rsvg-convert", "--dpi-x=200", "--dpi-y=200", f"--output={picture}", str(svg))
        self.assertEqual(done.stderr, "")
        return picture

    def test_each_label_reads_as_its_identifier(self):
        for service in ("RA", "CP", "EE", "VV"):
            for identifier in made(SERIALS[:4], service):
                file = self.folder / "label.svg"
                self.assertEqual(self.label(str(file), identifier).stderr, "")
                self.assertEqual(seen_in(self.picture_of(file)), [identifier])

    def test_text_is_spaced_as_people_read_it(self):
        file = self.folder / "label.svg"
        self.label(str(file), "RA473124829US")
        self.assertIn(">RA 473 124 829 US<", file.read_text(encoding="utf-8"))

    def test_sheet_has_sixteen_row_by_row(self):
        file, identifiers = self.folder / "sheet.svg", made(SERIALS[:16])
        self.assertEqual(self.label("--sheet", str(file), *identifiers).stderr, "")
        self.assertEqual(seen_in(self.picture_of(file)), sorted(identifiers))
        texts = re.findall(r'<text x="([\d.]+)" y="(\d+)".*?>(.*?)</text>', file.read_text(encoding="utf-8"))
        self.assertEqual([text.replace(" ", "") for _, _, text in texts], identifiers)
        self.assertEqual([(float(x), int(y)) for x, y, _ in texts], [(52.5 + 105 * (at % 2), 31 + 37 * (at // 2)) for at in range(16)])

    @unittest.skipUnless(shutil.which("pdftoppm"), "no pdftoppm")
    def test_pdf_has_a_page_for_each_sixteen(self):
        file, identifiers = self.folder / "sheet.pdf", made(SERIALS)
        self.assertEqual(self.label("--sheet", str(file), *identifiers).stderr, "")
        run("pdftoppm", "-r", "200", "-png", str(file), str(self.folder / "page"))
        pages = sorted(self.folder.glob("page*.png"))
        self.assertEqual([seen_in(it) for it in pages], [sorted(identifiers[:16]), identifiers[16:]])

    def test_replies_to_draws_are_read(self):
        file = self.folder / "labels.svg"
        one, two, three = made([0, 1, 2])
        replies = (
            f"reply draw customer 7 number 1 RA GB done day 20000 {one}\n"
            f"reply draw-many customer 7 number 2 RA GB 2 done day 20000 {two} {three}\n"
        )
        self.assertEqual(self.label("--sheet", str(file), text=replies).stderr, "")
        self.assertEqual(seen_in(self.picture_of(file)), [one, two, three])

    def test_what_is_refused_is_named_and_nothing_is_written(self):
        one = made([7])[0]
        none_free = "reply draw customer 7 number 1 RA GB none-free"
        for words, text, said in (
            ([], none_free, f"no identifier: {none_free}\n"),
            ([], "", "no identifier\n"),
            (["RA473124828US"], "", f"{PROGRAM}: refused check-digit\n"),
            ([one, one], "", f"twice: {one}\n"),
            (made([1, 2]), "", "2 pages want a name that ends in .pdf\n"),
        ):
            with self.subTest(said):
                file = self.folder / "label.svg"
                done = self.label(str(file), *words, text=text)
                self.assertEqual((done.returncode, done.stderr.removeprefix(f"{file}: ")), (1, said))
                self.assertFalse(file.exists())


if __name__ == "__main__":
    if PROGRAM is None:
        sys.exit("no program: set S10")
    if not shutil.which("pdftoppm"):
        print("skipped: the pages of a PDF: no pdftoppm")
    unittest.main()
