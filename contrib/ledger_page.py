#!/usr/bin/env python3
"""Makes one page of a ledger: its ranges, when they run out, and its issues by day.

    ledger_page.py --ledger FILE [--s10 PROGRAM] [--day D] > page.html
    ledger_page.py --csv RANGES ISSUES > page.html

Without --csv, `s10 report --snapshot --csv`, also with `--issues`, gives the records; PROGRAM is `s10` on the PATH if it is not
given. A server may serve the ledger meanwhile. The page needs no network and has no script. The last thirty days are
those up to the day of the report of the ranges. A stock is the free serials of one customer, service and country. It runs out
on the day on which it ends, if the customer goes on to draw as many from it each day as in those thirty days.
"""

import argparse
import csv
import datetime
import html
import io
import math
import subprocess
import sys
from collections import Counter
from pathlib import Path

RANGES = "range,customer,service,country,first,last,used,voided,free,closed,day,date".split(",")
ISSUES = "arrival,day,date,customer,number,identifier,range,state".split(",")
RECENT = 30
PLOTTED = 90

STYLE = """
:root { color-scheme: light dark; --ground: #fff; --ink: #1b1f24; --quiet: #59636e; --line: #d1d9e0;
  --used: #0969da; --voided: #bc4c00; --free: #dfe5eb; --closed: #8c959f; }
@media (prefers-color-scheme: dark) { :root { --ground: #0d1117; --ink: #e6edf3; --quiet: #9198a1; --line: #3d444d;
  --used: #4493f8; --voided: #f0883e; --free: #2a313c; --closed: #656c76; } }
* { box-sizing: border-box; }
body { margin: 0 auto; max-width: 60rem; padding: 1rem; background: var(--ground); color: var(--ink);
  font: 1rem/1.5 system-ui, sans-serif; }
h1 { font-size: 1.5rem; } h2 { font-size: 1.2rem; margin-top: 2rem; }
p, .quiet { color: var(--quiet); }
.wide { overflow-x: auto; }
table { border-collapse: collapse; width: 100%; font-variant-numeric: tabular-nums; }
th, td { padding: .3rem .6rem; border-bottom: 1px solid var(--line); text-align: left; white-space: nowrap; }
td.number, th.number { text-align: right; }
.bar { display: flex; height: .9rem; min-width: 6rem; border-radius: .2rem; overflow: hidden; background: var(--free); }
.bar span { display: block; height: 100%; }
.used { background: var(--used); } .voided { background: var(--voided); } .free { background: var(--free); }
.key span { display: inline-block; width: .8rem; height: .8rem; border-radius: .2rem; margin: 0 .3rem 0 1rem; }
.soon { color: var(--voided); font-weight: 600; }
svg { width: 100%; height: auto; display: block; }
svg rect { fill: var(--used); } svg text { fill: var(--quiet); font-size: 11px; } svg line { stroke: var(--line); }
@media print { body { max-width: none; padding: 0; } .bar span, .bar, .key span { print-color-adjust: exact;
  -webkit-print-color-adjust: exact; } h2 { break-after: avoid; } tr { break-inside: avoid; } }
"""


def records(text, headings):
    """Returns the records of a report as dictionaries. Exits if its headings are others."""
    rows = list(csv.reader(io.StringIO(text, newline="")))
    if not rows or rows[0] != headings:
        sys.exit(f"no report with the headings {','.join(headings)}")
    if any(len(row) != len(headings) for row in rows):
        sys.exit(f"a record does not have {len(headings)} fields")
    return [dict(zip(headings, row)) for row in rows[1:]]


def report(program, ledger, *options):
    """Returns what `s10 report` prints. Exits with its status if it fails."""
    done = subprocess.run([program, "report", "--ledger", ledger, "--snapshot", "--csv", *options], capture_output=True, text=False)
    if done.returncode:
        sys.stderr.buffer.write(done.stdout + done.stderr)
        sys.exit(done.returncode)
    return done.stdout.decode("ascii")


def date_of(day):
    """Returns the date of a day, or its number if Python's dates do not reach it."""
    try:
        return (datetime.date(1970, 1, 1) + datetime.timedelta(days=day)).isoformat()
    except OverflowError:
        return f"day {day}"


def run_out(free, drawn, day):
    """Returns the day on which `free` serials end at `drawn` in the last days up to `day`; none if they do not."""
    if not free:
        return day
    return day + math.ceil(free * RECENT / drawn) if drawn else None


def stocks(ranges, issues, day):
    """Returns each stock: customer, service with country, free serials, how many were drawn in the last days, and when it runs
    out. The first to run out is the first. Only open ranges count, and stocks that have none if something was drawn."""
    free, drawn = Counter(), Counter()
    for row in ranges:
        if row["closed"] == "no":
            free[int(row["customer"]), f'{row["service"]} {row["country"]}'] += int(row["free"])
    for row in issues:
        if day - RECENT < int(row["day"]) <= day:
            drawn[int(row["customer"]), f'{row["identifier"][:2]} {row["identifier"][-2:]}'] += 1
    found = [(*one, free[one], drawn[one], run_out(free[one], drawn[one], day)) for one in set(free) | set(drawn)]
    return sorted(found, key=lambda one: (math.inf if one[-1] is None else one[-1], one))


def bar(row):
    """Returns the bar of a range: its used serials, those of them that are void, and the others."""
    size = int(row["last"]) - int(row["first"]) + 1
    voided, used = int(row["voided"]), int(row["used"])
    parts = (("used", used - voided), ("voided", voided))
    spans = "".join(f'<span class="{name}" style="width:{100 * count / size:.2f}%"></span>' for name, count in parts)
    return f'<div class="bar" role="img" aria-label="{used} of {size} used, {voided} void">{spans}</div>'


def table(headings, rows, numbers=()):
    """Returns a table. The columns of `numbers` are on the right."""
    kind = [' class="number"' if name in numbers else "" for name in headings]
    head = "".join(f"<th{k}>{html.escape(name)}</th>" for k, name in zip(kind, headings))
    body = "".join("<tr>" + "".join(f"<td{k}>{cell}</td>" for k, cell in zip(kind, row)) + "</tr>\n" for row in rows)
    return f'<div class="wide"><table><thead><tr>{head}</tr></thead>\n<tbody>{body}</tbody></table></div>'


def range_rows(ranges):
    """Returns the cells of each range."""
    for row in ranges:
        name = f'{html.escape(row["service"])} {html.escape(row["country"])}'
        span = f'{html.escape(row["first"])}&ndash;{html.escape(row["last"])}'
        free = '<span class="quiet">withdrawn</span>' if row["closed"] == "yes" else f'{int(row["free"])}'
        yield (int(row["range"]), int(row["customer"]), name, span, bar(row), int(row["used"]), int(row["voided"]), free)


def stock_rows(found, day):
    """Returns the cells of each stock."""
    for customer, service, free, drawn, end in found:
        if end is None:
            when = '<span class="quiet">nothing drawn</span>'
        elif not free:
            when = '<span class="soon">none free</span>'
        else:
            when = f'<span class="soon">{date_of(end)}</span>' if end - day <= RECENT else date_of(end)
        yield customer, html.escape(service), free, drawn, f"{drawn / RECENT:.1f}", when


def plot(issues, day):
    """Returns the identifiers issued on each of the last days as an SVG."""
    first = day - PLOTTED + 1
    count = Counter(int(row["day"]) for row in issues if first <= int(row["day"]) <= day)
    top = max(count.values(), default=0) or 1
    width, height, left, below = 900, 220, 60, 24
    step = (width - left) / PLOTTED
    bars = []
    for at in range(PLOTTED):
        number = count[first + at]
        if number:
            tall = number / top * (height - below - 10)
            bars.append(f'<rect x="{left + at * step:.1f}" y="{height - below - tall:.1f}" width="{max(step - 1, 1):.1f}" '
                        f'height="{tall:.1f}"><title>{date_of(first + at)}: {number}</title></rect>')
    base = height - below
    return (f'<svg viewBox="0 0 {width} {height}" role="img" aria-label="Identifiers issued on each day from '
            f'{date_of(max(first, 0))} to {date_of(day)}">'
            f'<line x1="{left}" y1="{base}" x2="{width}" y2="{base}"/>{"".join(bars)}'
            f'<text x="{left - 6}" y="18" text-anchor="end">{top}</text>'
            f'<text x="{left - 6}" y="{base}" text-anchor="end">0</text>'
            f'<text x="{left}" y="{height - 6}">{date_of(max(first, 0))}</text>'
            f'<text x="{width}" y="{height - 6}" text-anchor="end">{date_of(day)}</text></svg>')


def page(ranges, issues, title):
    """Returns the page."""
    day = max([int(row["day"]) for row in ranges + issues], default=0)
    key = ('<p class="key"><span class="used"></span>used<span class="voided"></span>void'
           '<span class="free"></span>never issued</p>')
    names = ["range", "customer", "service", "serials", "", "used", "void", "free"]
    left = ["customer", "service", "free", f"drawn in {RECENT} days", "a day", "run out"]
    return f"""<!DOCTYPE html>
<html lang="en">
<head>
<meta charset="utf-8">
<meta name="viewport" content="width=device-width, initial-scale=1">
<title>{html.escape(title)}</title>
<style>{STYLE}</style>
</head>
<body>
<h1>{html.escape(title)}</h1>
<p>Day {day}, {date_of(day)}: {len(ranges)} ranges, {len(issues)} identifiers issued.</p>
<h2>Ranges</h2>
{key}
{table(names, range_rows(ranges), ("used", "void", "free"))}
<h2>When serials run out</h2>
<p>The free serials of a service and country run out on this day if the customer goes on as in the last {RECENT} days.</p>
{table(left, stock_rows(stocks(ranges, issues, day), day), left[2:5])}
<h2>Identifiers issued by day</h2>
{plot(issues, day)}
</body>
</html>
"""


def main():
    parser = argparse.ArgumentParser(description=__doc__.split("\n", 1)[0])
    source = parser.add_mutually_exclusive_group(required=True)
    source.add_argument("--ledger", metavar="FILE", help="the file that keeps the ledger")
    source.add_argument("--csv", nargs=2, metavar=("RANGES", "ISSUES"), help="the two reports, as files")
    parser.add_argument("--s10", metavar="PROGRAM", default="s10", help="the program")
    parser.add_argument("--day", metavar="D", help="the day of the report of the ranges; by default the clock's")
    asked = parser.parse_args()
    if asked.csv:
        ranges, issues = (Path(name).read_bytes().decode("ascii") for name in asked.csv)
        title = "Ledger"
    else:
        ranges = report(asked.s10, asked.ledger, *(["--day", asked.day] if asked.day else []))
        issues = report(asked.s10, asked.ledger, "--issues")
        title = f"Ledger {Path(asked.ledger).name}"
    sys.stdout.write(page(records(ranges, RANGES), records(issues, ISSUES), title))


if __name__ == "__main__":
    main()
