#!/usr/bin/env python3
"""Makes labels of item identifiers: each as a Code 128 barcode, and as text below it.

    s10 draw .. | label.py [--sheet] FILE     a label for each identifier of the replies on standard input
    label.py [--sheet] FILE ID..              a label for each of these identifiers

FILE ends in .svg (one page) or .pdf. A page is one label of 105 by 37 mm or, with --sheet, A4 with sixteen of them. The bars are
those of `zint`; `rsvg-convert` makes the PDF. `s10 check` reads each identifier before anything is drawn; PROGRAM is `s10` on the
PATH if --s10 does not name it. Nothing is written if a line is no reply with identifiers, an identifier is refused, or one is there
twice: then standard error says which, and the exit status is 1.
"""

import argparse
import re
import subprocess
import sys
import tempfile
from pathlib import Path

# Millimetres.
WIDTH, HEIGHT = 105, 37
PAGE_WIDTH, PAGE_HEIGHT, COLUMNS = 210, 297, 2
MODULE, BAR_TOP, BAR_HEIGHT, TEXT_BASE, TEXT_SIZE = 0.4, 5, 18, 31, 6
A_SHEET = 16
# What zint draws: the bars, two units to a module.
BAR = re.compile(r'<rect x="([\d.]+)" y="[\d.]+" width="([\d.]+)" height="[\d.]+" />')
UNITS = 2
DRAWN = re.compile(r"reply draw(?:-many)? .* done day \d+ ((?:[A-Z0-9]{13} ?)+)")


def run(command, text=""):
    """Returns what a command prints. Exits if it fails."""
    done = subprocess.run(command, input=text, capture_output=True, text=True, check=False)
    if done.returncode != 0:
        sys.exit(f"{command[0]}: {done.stdout.strip() or done.stderr.strip()}")
    return done.stdout


def identifiers_in(lines):
    """Returns the identifiers of replies to draws, in order. Exits at a line that is no such reply."""
    found = []
    for line in lines:
        drawn = DRAWN.fullmatch(line.rstrip("\n"))
        if not drawn:
            sys.exit(f"no identifier: {line.rstrip()}")
        found += drawn[1].split()
    return found


def check(program, identifiers):
    """Exits if an identifier is refused, or is there twice."""
    twice = sorted({it for it in identifiers if identifiers.count(it) > 1})
    if twice:
        sys.exit(f"twice: {' '.join(twice)}")
    run([program, "check"], "".join(f"{it}\n" for it in identifiers))


def spaced(identifier):
    """Returns the text that people read: RA 473 124 829 US."""
    return " ".join([identifier[:2], identifier[2:5], identifier[5:8], identifier[8:11], identifier[11:]])


def bars_of(identifier):
    """Returns the position and the width of each bar, in modules."""
    drawn = run(["zint", "--barcode=CODE128", f"--data={identifier}", "--notext", "--filetype=SVG", "--direct"])
    return [(float(x) / UNITS, float(width) / UNITS) for x, width in BAR.findall(drawn)]


def label(identifier, x, y):
    """Returns a label as a part of an SVG, with its upper left corner there."""
    bars = bars_of(identifier)
    left = x + (WIDTH - MODULE * sum(bars[-1])) / 2
    path = "".join(f"M{left + MODULE * at:.2f} {y + BAR_TOP}h{MODULE * width:.2f}v{BAR_HEIGHT}h{-MODULE * width:.2f}z" for at, width in bars)
    return (
        f'<path d="{path}" shape-rendering="crispEdges"/>\n'
        f'<text x="{x + WIDTH / 2}" y="{y + TEXT_BASE}" font-size="{TEXT_SIZE}" font-family="monospace" text-anchor="middle">'
        f"{spaced(identifier)}</text>\n"
    )


def page(identifiers, sheet):
    """Returns a page as an SVG: one label, or a sheet of at most sixteen, row by row."""
    width, height = (PAGE_WIDTH, PAGE_HEIGHT) if sheet else (WIDTH, HEIGHT)
    places = ((WIDTH * (at % COLUMNS), HEIGHT * (at // COLUMNS)) for at in range(A_SHEET))
    labels = "".join(label(it, *place) for it, place in zip(identifiers, places))
    size = f'width="{width}mm" height="{height}mm" viewBox="0 0 {width} {height}"'
    return f'<svg xmlns="http://www.w3.org/2000/svg" {size}>\n<rect width="{width}" height="{height}" fill="#fff"/>\n{labels}</svg>\n'


def write_pdf(path, pages):
    """Writes a PDF with these pages."""
    with tempfile.TemporaryDirectory() as folder:
        names = [Path(folder) / f"{at}.svg" for at in range(len(pages))]
        for name, text in zip(names, pages):
            name.write_text(text, encoding="utf-8")
        run(["rsvg-convert", "--format=pdf", f"--output={path}", *map(str, names)])


def main():
    parser = argparse.ArgumentParser(description="Makes labels of item identifiers.")
    parser.add_argument("--sheet", action="store_true", help="sixteen labels to a page of A4")
    parser.add_argument("--s10", metavar="PROGRAM", default="s10")
    parser.add_argument("file", metavar="FILE")
    parser.add_argument("ids", metavar="ID", nargs="*")
    words = parser.parse_args()
    identifiers = words.ids or identifiers_in(sys.stdin)
    if not identifiers:
        sys.exit("no identifier")
    check(words.s10, identifiers)
    each = A_SHEET if words.sheet else 1
    pages = [page(identifiers[at : at + each], words.sheet) for at in range(0, len(identifiers), each)]
    if words.file.endswith(".pdf"):
        write_pdf(words.file, pages)
    elif words.file.endswith(".svg") and len(pages) == 1:
        Path(words.file).write_text(pages[0], encoding="utf-8")
    else:
        sys.exit(f"{words.file}: {len(pages)} pages want a name that ends in .pdf")


if __name__ == "__main__":
    main()
