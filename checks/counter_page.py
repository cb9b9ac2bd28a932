#!/usr/bin/env python3
"""Tries contrib/page/s10.html in headless Chromium: it types, presses keys, and reads back what the page shows.

  python3 checks/counter_page.py                     runs the tests, then each wrong page, in which a named test must fail
  python3 checks/counter_page.py --picture FILE      takes the picture of contrib/README.md; needs `pngquant`

The expected texts are in counter_page.tsv. BROWSER names the browser, by default `chromium`. It is driven by the DevTools
protocol over a pipe.
"""

import contextlib
import json
import os
import random
import re
import subprocess
import sys
import tempfile
import time
from base64 import b64decode
from pathlib import Path

HERE = Path(__file__).resolve().parent
PAGE = HERE.parent / "contrib/page/s10.html"
BROWSER = os.environ.get("BROWSER", "chromium")
LANGUAGES = ("en", "de", "fr")
PATIENCE = 20  # seconds until a text must have appeared
PATIENCE_WITH_WRONG_PAGE = 5


class Failed(Exception):
    """The page is not as it must be."""


def same(what, expected, came):
    if expected != came:
        raise Failed(f"{what}\n  expected {expected!r}\n  came     {came!r}")


def holds(what, condition):
    if not condition:
        raise Failed(what)


# The browser.


class Browser:
    """Headless Chromium with a profile of its own."""

    def __init__(self, *words):
        self.profile = tempfile.TemporaryDirectory()
        from_us, to_browser = os.pipe()
        from_browser, to_us = os.pipe()
        options = ["--headless=new", "--remote-debugging-pipe", "--no-sandbox", "--disable-gpu", "--no-first-run"]
        options += ["--disable-extensions", "--disable-background-networking", "--disable-component-update"]
        options += ["--window-size=900,1000", f"--user-data-dir={self.profile.name}", *words]
        script = f'exec "$@" 3<&{from_us} 4>&{to_us}'
        self.process = subprocess.Popen(
            ["bash", "-c", script, "bash", BROWSER, *options, "about:blank"],
            pass_fds=(from_us, to_us), stdin=subprocess.DEVNULL, stdout=subprocess.DEVNULL, stderr=subprocess.DEVNULL,
        )  # fmt: skip
        os.close(from_us)
        os.close(to_us)
        self.to_browser, self.from_browser = to_browser, from_browser
        self.rest, self.number, self.events = b"", 0, []
        self.patience = PATIENCE

    def close(self):
        with contextlib.suppress(Failed, OSError):
            self.call("Browser.close")
        self.process.wait(timeout=60)
        os.close(self.to_browser)
        os.close(self.from_browser)
        for _ in range(20):  # The last of its processes may still write to the profile.
            with contextlib.suppress(OSError):
                self.profile.cleanup()
                break
            time.sleep(0.1)

    def receive(self):
        """Returns the next message of the browser."""
        while b"\0" not in self.rest:
            more = os.read(self.from_browser, 1 << 20)
            if not more:
                raise Failed("the browser ended")
            self.rest += more
        message, self.rest = self.rest.split(b"\0", 1)
        return json.loads(message)

    def call(self, method, session=None, **values):
        """Calls a method of the protocol, and returns its result. Events that come before it are kept."""
        self.number += 1
        message = {"id": self.number, "method": method, "params": values} | ({"sessionId": session} if session else {})
        data = json.dumps(message).encode() + b"\0"
        while data:
            data = data[os.write(self.to_browser, data) :]
        while True:
            came = self.receive()
            if came.get("id") != self.number:
                self.events.append(came)
            elif "error" in came:
                raise Failed(f"{method}: {came['error']['message']}")
            else:
                return came["result"]

    @contextlib.contextmanager
    def open(self, path, language="en", before="", scheme="light", has_script=True):
        """Opens the page in a tab. `before` is a script that runs first. Without `has_script` none runs."""
        target = self.call("Target.createTarget", url="about:blank")["targetId"]
        tab = Tab(self, target)
        try:
            if not has_script:
                tab.call("Emulation.setScriptExecutionDisabled", value=True)
            features = [{"name": "prefers-color-scheme", "value": scheme}]
            tab.call("Emulation.setEmulatedMedia", media="screen", features=features)
            if before:
                tab.call("Page.addScriptToEvaluateOnNewDocument", source=before)
            tab.load(f"{path.as_uri()}#lang={language}")
            yield tab
        finally:
            self.call("Target.closeTarget", targetId=target)


class Tab:
    """A tab with the page."""

    def __init__(self, browser, target):
        self.browser = browser
        self.session = browser.call("Target.attachToTarget", targetId=target, flatten=True)["sessionId"]
        for domain in ("Page", "Runtime", "Network", "Accessibility"):
            self.call(domain + ".enable")

    def call(self, method, **values):
        return self.browser.call(method, self.session, **values)

    def seen(self, method):
        """Returns what came with the events of this name in this tab."""
        mine = [event for event in self.browser.events if event.get("sessionId") == self.session]
        return [event["params"] for event in mine if event["method"] == method]

    def load(self, url):
        self.call("Page.navigate", url=url)
        end = time.monotonic() + 60
        while not self.seen("Page.loadEventFired"):
            holds("the page does not load", time.monotonic() < end)
            self.browser.events.append(self.browser.receive())

    def js(self, code):
        """Returns the value of an expression, which may be a promise."""
        came = self.call("Runtime.evaluate", expression=code, returnByValue=True, awaitPromise=True)
        if "exceptionDetails" in came:
            raise Failed(f"{code}: {came['result'].get('description')}")
        return came["result"].get("value")

    def until(self, what, code, expected):
        """Waits until an expression has the expected value."""
        end = time.monotonic() + self.browser.patience
        while (came := self.js(code)) != expected:
            if time.monotonic() > end:
                same(what, expected, came)
            time.sleep(0.05)

    def ready(self):
        self.until("the page starts", "document.getElementById('notice').hidden", True)
        return self

    def key(self, key, text="", code=0, modifiers=0):
        """Presses and releases a key. Shift is modifier 8, Control 2."""
        values = {"key": key, "windowsVirtualKeyCode": code, "modifiers": modifiers}
        self.call("Input.dispatchKeyEvent", type="keyDown", **values, **({"text": text} if text else {}))
        self.call("Input.dispatchKeyEvent", type="keyUp", **values)

    def tab(self, times=1, modifiers=0):
        for _ in range(times):
            self.key("Tab", code=9, modifiers=modifiers)

    def enter(self):
        self.key("Enter", "\r", 13)

    def type(self, text):
        """Types a text, key by key."""
        for letter in text:
            if letter == "\n":
                self.enter()
            else:
                self.key(letter, letter, ord(letter.upper()) if letter.isalnum() else 0)

    def command(self, name, key):
        """Presses Control and a key that has an editing command."""
        values = {"key": key, "windowsVirtualKeyCode": ord(key.upper()), "modifiers": 2}
        self.call("Input.dispatchKeyEvent", type="keyDown", commands=[name], **values)
        self.call("Input.dispatchKeyEvent", type="keyUp", **values)

    def paste(self, field, text):
        """Replaces the text of a field by the clipboard, into which another field is cut."""
        if text:
            self.js(
                "(() => { const at = document.createElement('textarea'); at.id = 'other'; document.body.append(at);"
                f"at.value = {json.dumps(text)}; at.select(); }})()"
            )
            self.command("cut", "x")
            self.js("document.getElementById('other').remove()")
        self.js(f"document.getElementById('{field}').focus(), document.getElementById('{field}').select()")
        if text:
            self.command("paste", "v")
        else:
            self.key("Delete", code=46)

    def focused(self):
        return self.js("document.activeElement.id")

    def says(self, what, status, expected):
        self.until(what, f"document.getElementById('{status}').textContent", expected)

    def rows(self, table):
        """Returns the texts of the cells of each row."""
        rows = f"document.querySelectorAll('#{table} tbody tr')"
        return self.js(f"Array.from({rows}, row => Array.from(row.cells, cell => cell.innerText))")


def expected_texts():
    """Returns the lines of counter_page.tsv: part, input, the text of each language, and the line of `s10 show`."""
    lines = (HERE / "counter_page.tsv").read_text(encoding="utf-8").split("\n")
    fields = [line.replace("~", "\u00a0").split("\t") for line in lines if line and not line.startswith("#")]
    return [(it[0], it[1], dict(zip(LANGUAGES, it[2:5], strict=True)), it[5] if it[0] == "hex" else None) for it in fields]


TEXTS = expected_texts()
COUNTS = {
    "check": {
        "en": "{n} identifiers: {good} valid, {bad} not valid.",
        "de": "{n} Sendungsnummern: {good} gültig, {bad} ungültig.",
        "fr": "{n} numéros d’envoi\u00a0: {good} valides, {bad} non valides.",
    },
    "hex": {
        "en": "{n} datagrams: {good} can be read, {bad} cannot.",
        "de": "{n} Datagramme: {good} lesbar, {bad} nicht lesbar.",
        "fr": "{n} datagrammes\u00a0: {good} lisibles, {bad} illisibles.",
    },
}
CUT = {"en": " The table shows the first 1000.", "de": " Die Tabelle zeigt die ersten 1000.", "fr": " Le tableau montre les 1000 premiers."}
NOTICE = {
    "en": "This browser cannot run this page. The page needs JavaScript and WebAssembly with 64-bit memory (memory64). "
    "Chrome and Edge have it from version 133, Firefox from version 134.",
    "de": "Dieser Browser kann diese Seite nicht ausführen. Sie braucht JavaScript und WebAssembly mit 64-Bit-Speicher (memory64). "
    "Chrome und Edge haben es ab Version 133, Firefox ab Version 134.",
    "fr": "Ce navigateur ne peut pas exécuter cette page. Elle a besoin de JavaScript et de WebAssembly avec une mémoire de 64 bits "
    "(memory64). Chrome et Edge l’ont à partir de la version 133, Firefox à partir de la version 134.",
}
# What the Tab key reaches from the first to the last: id, role and name in each language.
CONTROLS = [
    ("language", "combobox", *["Language / Sprache / Langue"] * 3),
    ("labels", "textbox", "Identifiers, one per line", "Sendungsnummern, eine pro Zeile", "Numéros d’envoi, un par ligne"),
    ("wrong-only", "checkbox", "Show only those that are not valid", "Nur ungültige zeigen", "Afficher seulement les numéros non valides"),
    ("clear-labels", "button", "Clear identifiers", "Sendungsnummern löschen", "Effacer les numéros"),
    ("service", "textbox", "Service (two letters)", "Dienst (zwei Buchstaben)", "Service (deux lettres)"),
    ("serial", "textbox", "Serial number (eight digits)", "Seriennummer (acht Ziffern)", "Numéro de série (huit chiffres)"),
    ("country", "textbox", "Country (two letters)", "Land (zwei Buchstaben)", "Pays (deux lettres)"),
    ("made", "textbox", "Identifier", "Sendungsnummer", "Numéro d’envoi"),
    ("hex", "textbox", "Datagrams in hex, one per line", "Datagramme in Hex, eines pro Zeile", "Datagrammes en hexadécimal, un par ligne"),
    ("clear-hex", "button", "Clear datagrams", "Datagramme löschen", "Effacer les datagrammes"),
]
HEADINGS = [
    ("S10 identifiers", "S10-Sendungsnummern", "Numéros d’envoi S10"),
    ("Check identifiers", "Sendungsnummern prüfen", "Vérifier des numéros d’envoi"),
    ("Make an identifier", "Sendungsnummer bilden", "Former un numéro d’envoi"),
    ("Read datagrams", "Datagramme lesen", "Lire des datagrammes"),
    ("About this page", "Über diese Seite", "À propos de cette page"),
]
COLUMNS = {
    "en": ["Line", "Identifier", "Result", "Line", "Meaning", "As “s10 show” prints it"],
    "de": ["Zeile", "Sendungsnummer", "Ergebnis", "Zeile", "Bedeutung", "Ausgabe von „s10 show“"],
    "fr": ["Ligne", "Numéro d’envoi", "Résultat", "Ligne", "Signification", "Sortie de «\u00a0s10 show\u00a0»"],
}


# The tests. Each has the fact as its name.


def identifiers_are_checked_in_each_language(browser, path):
    """Alone, and all at once as lines with an empty one between."""
    cases = [case for case in TEXTS if case[0] == "label"]
    for language in LANGUAGES:
        with browser.open(path, language) as tab:
            tab.ready()
            for _, label, texts, _ in cases:
                tab.paste("labels", label)
                tab.says(f"{language} {label}", "check-says", texts[language])
            tab.paste("labels", "\n\n".join(label for _, label, _, _ in cases))
            good = sum(not re.match("Not", texts["en"]) for _, _, texts, _ in cases)
            tab.says(language, "check-says", COUNTS["check"][language].format(n=len(cases), good=good, bad=len(cases) - good))
            for at, (row, (_, _, texts, _)) in enumerate(zip(tab.rows("check-table"), cases, strict=True)):
                sign = "✗" if texts["en"].startswith("Not") else "✓"
                same(f"{language} row {at}", [str(2 * at + 1), f"{sign} {texts[language]}"], [row[0], row[2]])


def the_wrong_character_is_marked(browser, path):
    cases = [
        ("RA473124828US", "RA 473 124 828 US", ["8", 10]), ("RA4731248X9US", "RA 473 124 8X9 US", ["X", 9]),
        ("ra4731248x9us", "ra 473 124 8x9 us", ["x", 9]), ("RA473124829Ü1", "RA 473 124 829 Ü1", ["Ü", 11]),
        ("1A473124829US", "1A 473 124 829 US", ["1", 0]), ("RA473124829US", "RA 473 124 829 US", None), ("RA47312", "RA47312", None),
    ]  # fmt: skip
    code = """(() => {
      const cell = document.querySelector('#check-table tbody td:nth-child(2)'), mark = cell && cell.querySelector('mark');
      if (!cell) return null;
      if (!mark) return [cell.innerText, null];
      const before = document.createRange(); before.setStart(cell, 0); before.setEndBefore(mark);
      return [cell.innerText, [mark.textContent, before.toString().replace(/ /g, "").length]]; })()"""
    with browser.open(path) as tab:
        tab.ready()
        for label, shown, mark in cases:
            tab.paste("labels", label)
            tab.until(label, code, [shown, mark])


def identifiers_are_made_in_each_language(browser, path):
    for language in LANGUAGES:
        with browser.open(path, language) as tab:
            tab.ready()
            for part, given, texts, _ in TEXTS:
                if part == "made":
                    fields, made = given.split("=")
                    for field, text in zip(("service", "serial", "country"), fields.split(","), strict=True):
                        tab.paste(field, text)
                    tab.says(f"{language} {given}", "make-says", texts[language])
                    tab.until(f"{language} {given}", "document.getElementById('made').value", made)


def datagrams_are_put_into_words_in_each_language(browser, path):
    cases = [case for case in TEXTS if case[0] == "hex"]
    for language in LANGUAGES:
        with browser.open(path, language) as tab:
            tab.ready()
            tab.paste("hex", "\n".join(given for _, given, _, _ in cases))
            good = sum(not texts["en"].startswith("Not ") for _, _, texts, _ in cases)
            tab.says(language, "hex-says", COUNTS["hex"][language].format(n=len(cases), good=good, bad=len(cases) - good))
            for at, (row, (_, given, texts, line)) in enumerate(zip(tab.rows("hex-table"), cases, strict=True)):
                sign = "✗" if texts["en"].startswith("Not ") else "✓"
                same(f"{language} {given}", [str(at + 1), f"{sign} {texts[language]}", line], row)
            tab.paste("hex", cases[0][1])
            tab.says(language, "hex-says", cases[0][2][language])


def the_longest_datagrams_are_read(browser, path):
    """A sheet of 16 is the longest. Longer ones are refused for their length, however long they are."""
    texts = [f"{ord('R'):02x}{ord('A'):02x}" + f"{serial:08}{check_digit(serial)}GB".encode().hex() for serial in range(16)]
    sheet = "5331028500000007000000015241474210" + "00" + "00004e20" + "".join(texts)
    shown = ", ".join(bytes.fromhex(text).decode() for text in texts)
    with browser.open(path) as tab:
        tab.ready()
        tab.paste("hex", sheet)
        says = "Reply to request 1 of customer 7 (draw 16 identifiers of RA GB): done on day 20000 (2024-10-04): "
        tab.says("a sheet of 16", "hex-says", f"{says}{shown}.")
        for more in (1, 100_000):
            tab.paste("hex", sheet + "00" * more)
            says = f"Not a datagram. It has {230 + more} bytes, which is not the length of its kind."
            tab.says(f"{more} more bytes", "hex-says", says)


def check_digit(serial):
    """Returns the check digit of a serial number, by the rule of UPU S10."""
    total = sum(int(digit) * weight for digit, weight in zip(f"{serial:08}", (8, 6, 4, 2, 3, 5, 9, 7), strict=True))
    return {10: 0, 11: 5}.get(11 - total % 11, 11 - total % 11)


def expected_result(label):
    """Returns the sentence about 13 printable characters without spaces, in English."""
    for at, letter in enumerate(label):
        is_letter = at in (0, 1, 11, 12)
        if is_letter and not re.fullmatch("[A-Za-z]", letter):
            return f"Not valid. Character {at + 1} is “{letter}” and must be a letter A to Z."
        if not is_letter and not re.fullmatch("[0-9]", letter):
            says = f"Not valid. Character {at + 1} is “{letter}” and must be a digit."
            if at == 10 and re.fullmatch("[A-Za-z]{2}[0-9]{8}[A-Za-z]{2}", label[:10] + label[11:]):
                says += f" The check digit would be {check_digit(int(label[2:10]))}."
            return says
    digit = check_digit(int(label[2:10]))
    if int(label[10]) != digit:
        return (
            f"Not valid. Character 11, the check digit, is {label[10]}. For this serial number it would be {digit}. "
            "Any of the nine digits may be wrong."
        )
    group = {"C": "parcel", "E": "EMS", "R": "registered", "V": "insured"}.get(label[0].upper(), "other")
    return f"Valid ({group})."


def many_lines_agree_with_another_program(browser, path):
    """900 lines by a seeded choice: a third as they are, a third with one character changed, a third with another check digit."""
    choice, labels = random.Random(1), []
    letters = "ABCDEFGHIJKLMNOPQRSTUVWXYZabcdefghijklmnopqrstuvwxyz"
    for at in range(900):
        serial = choice.randrange(100_000_000)
        label = choice.choices(letters, k=2) + list(f"{serial:08}{check_digit(serial)}") + choice.choices(letters, k=2)
        if at % 3 == 1:
            label[choice.randrange(13)] = choice.choice([chr(code) for code in range(33, 127)] + ["é", "９", "😀"])
        if at % 3 == 2:
            label[10] = choice.choice("0123456789")
        labels.append("".join(label))
    expected = [expected_result(label) for label in labels]
    good = sum(text.startswith("Valid") for text in expected)
    holds("both kinds are among the lines", 300 <= good <= 600)
    with browser.open(path) as tab:
        tab.ready()
        tab.paste("labels", "\n".join(labels))
        tab.says("counts", "check-says", COUNTS["check"]["en"].format(n=900, good=good, bad=900 - good))
        for label, text, row in zip(labels, expected, tab.rows("check-table"), strict=True):
            same(label, text, row[2][2:])


def a_long_list_is_counted_whole_and_filtered(browser, path):
    """5,000 lines, of which each hundredth is wrong."""
    lines = ["RA473124828US" if at % 100 == 99 else "RA473124829US" for at in range(5000)]
    for language in LANGUAGES:
        with browser.open(path, language) as tab:
            tab.ready()
            tab.paste("labels", "\n".join(lines))
            counts = COUNTS["check"][language].format(n=5000, good=4950, bad=50)
            tab.says(language, "check-says", counts + CUT[language])
            same("rows", 1000, len(tab.rows("check-table")))
            tab.js("document.getElementById('wrong-only').click()")
            tab.says(language, "check-says", counts)
            same("rows", [str(at) for at in range(100, 5001, 100)], [row[0] for row in tab.rows("check-table")])


def spaces_and_invisible_characters_do_not_matter(browser, path):
    with browser.open(path) as tab:
        tab.ready()
        labels = ["\tRA 473 124 829 US ", "RA\u00a0473\u202f124\u2009829\u00a0US", "\ufeffRA473124829US\u200b", "R A" + " " * 5000 + "473124829US"]
        for label in labels:
            tab.paste("labels", "RA4")
            tab.says("another text first", "check-says", "Not valid. It must have 13 characters and has 3.")
            tab.paste("labels", label)
            tab.says(repr(label), "check-says", "Valid (registered).")
        tab.paste("labels", " \n\t\n")
        tab.says("only spaces", "check-says", "")
        same("no table", True, tab.js("document.getElementById('check-table').hidden"))


def the_keyboard_alone_is_enough(browser, path):
    """Nothing is clicked and no script focuses: each step is a key."""
    with browser.open(path) as tab:
        tab.ready()
        same("the first focus", "labels", tab.focused())
        tab.type("ra473124829us\nRA473124828US")
        tab.says("two lines", "check-says", "2 identifiers: 1 valid, 1 not valid.")
        tab.tab()
        same("after Tab", "wrong-only", tab.focused())
        tab.key(" ", " ", 32)
        lines = "Array.from(document.querySelectorAll('#check-table tbody tr'), row => row.cells[0].innerText).join()"
        tab.until("only the wrong one", lines, "2")
        tab.tab()
        same("after Tab", "clear-labels", tab.focused())
        tab.enter()
        tab.says("cleared", "check-says", "")
        same("after the button", "labels", tab.focused())
        tab.tab(3)
        same("after three Tabs", "service", tab.focused())
        for text in ("cx", "12345678", "de"):
            tab.type(text)
            tab.tab()
        tab.says("made", "make-says", "The check digit is 5 (parcel).")
        same("after the fields", "made", tab.focused())
        same("the identifier is selected, to be copied", "CX 123 456 785 DE", tab.js("(at => at.value.slice(at.selectionStart, at.selectionEnd))(document.activeElement)"))
        tab.tab()
        tab.type("53310102 00000007 00000001 52414742")
        tab.says("hex", "hex-says", "Request 1 of customer 7: draw an identifier of RA GB.")
        tab.tab()
        tab.key(" ", " ", 32)
        tab.says("cleared", "hex-says", "")
        same("after the button", "hex", tab.focused())
        tab.tab(8, modifiers=8)
        same("back to the first", "language", tab.focused())
        tab.key("D", "D", 68)
        tab.says("German", "make-says", "Die Prüfziffer ist 5 (Paket).")
        tab.key("ArrowDown", code=40)
        tab.says("French", "make-says", "Le chiffre de contrôle est 5 (colis).")


def each_focus_is_visible(browser, path):
    for scheme in ("light", "dark"):
        with browser.open(path, scheme=scheme) as tab:
            tab.ready()
            tab.tab(modifiers=8)
            for name, *_ in CONTROLS:
                same("the order of the Tab key", name, tab.focused())
                code = "(s => [s.outlineStyle, s.outlineWidth, s.outlineColor])(getComputedStyle(document.activeElement))"
                colour = {"light": "rgb(11, 87, 208)", "dark": "rgb(138, 180, 248)"}[scheme]
                same(f"{scheme} {name}", ["solid", "3px", colour], tab.js(code))
                tab.tab()


def nodes_of(tab):
    """Returns role, name, description and properties of what a screen reader meets, in order."""
    nodes = tab.call("Accessibility.getFullAXTree")["nodes"]
    by_id, waiting = {node["nodeId"]: node for node in nodes}, [nodes[0]["nodeId"]]
    while waiting:
        node = by_id[waiting.pop()]
        waiting += [child for child in reversed(node.get("childIds", [])) if child in by_id]
        if not node.get("ignored"):
            properties = {it["name"]: it["value"].get("value") for it in node.get("properties", [])}
            name, description = (node.get(key, {}).get("value", "") for key in ("name", "description"))
            yield (node["role"]["value"], name, description, properties)


def a_screen_reader_has_names_in_each_language(browser, path):
    for at, language in enumerate(LANGUAGES):
        with browser.open(path, language) as tab:
            tab.ready()
            tab.paste("labels", "RA473124829US\nRA473124828US")
            tab.paste("hex", "5331")
            tab.until("rows", "document.querySelectorAll('tbody tr').length", 3)
            same("the language of the page", [language, HEADINGS[0][at]], tab.js("[document.documentElement.lang, document.title]"))
            nodes = list(nodes_of(tab))
            found = [it for it in nodes if it[3].get("focusable") and it[0] not in ("RootWebArea", "MenuListOption", "option")]
            controls = [(role, names[at]) for _, role, *names in CONTROLS]
            same(f"{language} controls", controls, [(role, name) for role, name, _, _ in found])
            for name in ("labels", "hex", "made"):
                index = [control[0] for control in CONTROLS].index(name)
                help_id = {"labels": "labels-help", "hex": "hex-help", "made": "make-help"}[name]
                same(f"{language} description of {name}", tab.js(f"document.getElementById('{help_id}').textContent"), found[index][2])
            same(f"{language} headings", [names[at] for names in HEADINGS], [name for role, name, _, _ in nodes if role == "heading"])
            same(f"{language} columns", COLUMNS[language], [name for role, name, _, _ in nodes if role == "columnheader"])
            live = [properties["live"] for role, _, _, properties in nodes if role == "status"]
            same(f"{language} statuses are read out", ["polite"] * 3, live)
            same(f"{language} made is read-only", True, found[7][3].get("readonly"))


CONTRAST = """(() => {
  const channel = v => (v /= 255) <= .04045 ? v / 12.92 : ((v + .055) / 1.055) ** 2.4;
  const parts = text => text.match(/[\\d.]+/g).map(Number);
  const luminance = ([r, g, b]) => .2126 * channel(r) + .7152 * channel(g) + .0722 * channel(b);
  const behind = at => {
    for (; at; at = at.parentElement) {
      const c = parts(getComputedStyle(at).backgroundColor);
      if (c.length < 4 || c[3] > 0) return c;
    }
  };
  const ratio = (a, b) => { const [x, y] = [luminance(a), luminance(b)].sort((p, q) => q - p); return (x + .05) / (y + .05); };
  const found = [];
  for (const at of document.body.querySelectorAll('*')) {
    if (!at.checkVisibility() || ['SCRIPT', 'OPTION'].includes(at.tagName)) continue;
    const text = Array.from(at.childNodes).filter(n => n.nodeType === 3).map(n => n.data.trim()).join('') || at.value;
    if (text) found.push([at.tagName + ' ' + text.slice(0, 30), ratio(parts(getComputedStyle(at).color), behind(at))]);
    const faint = parts(getComputedStyle(at, '::placeholder').color);
    if (at.placeholder) found.push(['placeholder ' + at.placeholder, ratio(faint, behind(at))]);
  }
  return { page: luminance(behind(document.body)), found };
})()"""


def texts_have_contrast_in_light_and_dark(browser, path):
    """4.5 to 1 or more for each text that is shown, as WCAG 2 asks for level AA. The notice too."""
    for scheme in ("light", "dark"):
        for before in ("", "delete globalThis.WebAssembly"):
            with browser.open(path, scheme=scheme, before=before) as tab:
                if not before:
                    tab.ready()
                    tab.paste("labels", "RA473124829US\nRA473124828US")
                    tab.paste("service", "R1")
                    tab.paste("hex", "5331\n53310206000000000000000200000001")
                    tab.until("rows", "document.querySelectorAll('tbody tr').length", 4)
                    tab.until("a word", "document.getElementById('make-says').textContent.length > 0", True)
                else:
                    tab.until("the notice", "document.getElementById('notice-why').textContent.length > 0", True)
                came = tab.js(CONTRAST)
                same(f"{scheme} page", scheme == "light", came["page"] > 0.5)
                holds("many texts are shown", len(came["found"]) > 30)
                same(f"{scheme} texts that are hard to read", [], [(text, ratio) for text, ratio in came["found"] if ratio < 4.5])


def a_narrow_window_needs_no_scrolling_sideways(browser, path):
    """320 pixels, as WCAG 2 asks for. Long words too."""
    for language in LANGUAGES:
        with browser.open(path, language) as tab:
            tab.ready()
            tab.call("Emulation.setDeviceMetricsOverride", width=320, height=900, deviceScaleFactor=1, mobile=False)
            tab.paste("labels", "RA473124829US\nRA473124828US\n" + "W" * 100)
            tab.paste("hex", "\n".join(case[1] for case in TEXTS if case[0] == "hex"))
            tab.until("rows", "document.querySelectorAll('#hex-table tbody tr').length > 20", True)
            widths = tab.js("(at => [innerWidth, at.clientWidth, at.scrollWidth])(document.documentElement)")
            holds(f"{language} {widths}", widths[0] == 320 and widths[2] <= widths[1])


def visible(tab, name):
    return tab.js(f"document.getElementById('{name}').checkVisibility()")


ENABLED = "Array.from(document.querySelectorAll('input, textarea, button, select')).filter(at => !at.disabled).map(at => at.id)"

# Without WebAssembly, and as an engine without memory64 refuses the module: the script that runs first, and the reason shown.
LACKING = (
    ("delete globalThis.WebAssembly", "ReferenceError: WebAssembly is not defined"),
    (
        "WebAssembly.instantiate = async () => { throw new WebAssembly.CompileError('invalid memory limits flags 0x5') }",
        "CompileError: invalid memory limits flags 0x5",
    ),
)


def a_browser_without_the_feature_shows_it_in_the_language(browser, path):
    for language in LANGUAGES:
        for before, why in LACKING:
            with browser.open(path, language, before=before) as tab:
                tab.says("the reason", "notice-why", why)
                same("the notice is shown", True, visible(tab, "notice"))
                same("its languages", [language], [other for other in LANGUAGES if visible(tab, "notice-" + other)])
                same("its text", NOTICE[language], tab.js(f"document.getElementById('notice-{language}').innerText"))
                same("it is read out", True, any(role == "alert" for role, *_ in nodes_of(tab)))
                same("fields that can be used", ["language"], tab.js(ENABLED))


def a_browser_without_script_shows_it_in_each_language(browser, path):
    """So does a browser that cannot read the script. The text without a script is the English one."""
    with browser.open(path, has_script=False) as tab:
        same("the notice is shown", True, visible(tab, "notice"))
        same("its languages", list(LANGUAGES), [language for language in LANGUAGES if visible(tab, "notice-" + language)])
        came = {language: tab.js(f"document.getElementById('notice-{language}').innerText") for language in LANGUAGES}
        same("its texts", NOTICE, came)
        same("fields that can be used", ["language"], tab.js(ENABLED))
        code = "Array.from(document.querySelectorAll('[data-text]'), at => at.textContent)"
        without = tab.js(code)
    with browser.open(path) as tab:
        same("the English texts", without, tab.ready().js(code))


def a_browser_with_the_feature_shows_no_notice(browser, path):
    with browser.open(path) as tab:
        tab.ready()
        same("the notice", False, visible(tab, "notice"))
        same("fields that cannot be used", 0, tab.js("document.querySelectorAll(':disabled').length"))
        same("exceptions", [], tab.seen("Runtime.exceptionThrown"))


def the_language_is_that_of_the_browser(browser, path):
    """Without a language in the address."""
    cases = [(["de-AT", "en"], "de"), (["fr-CH"], "fr"), (["pt", "fr"], "fr"), (["pt"], "en"), ([], "en")]
    for languages, expected in cases:
        before = f"Object.defineProperty(navigator, 'languages', {{ value: {json.dumps(languages)} }})"
        with browser.open(path, "", before=before) as tab:
            tab.ready()
            same(str(languages), [expected, expected], tab.js("[document.documentElement.lang, document.getElementById('language').value]"))


def nothing_is_loaded_and_nothing_can_be_sent(browser, path):
    image = "data:image/svg+xml,<svg xmlns=\"http://www.w3.org/2000/svg\"/>"
    load = f"i.onload = () => r('loaded'); i.onerror = () => r('refused'); i.src = '{image}'"
    with browser.open(path) as tab:
        tab.ready()
        tab.paste("labels", "RA473124829US")
        tab.says("valid", "check-says", "Valid (registered).")
        # A data: address needs no network, so that only the page's own policy refuses it.
        same("fetch", "refused", tab.js("fetch('data:,x').then(() => 'sent', () => 'refused')"))
        same("an image", "refused", tab.js(f"new Promise(r => {{ const i = new Image(); {load} }})"))
        urls = [event["request"]["url"].split("#")[0] for event in tab.seen("Network.requestWillBeSent")]
        same("requests", [path.as_uri()], [url for url in urls if not url.startswith("data:")])


TESTS = [
    identifiers_are_checked_in_each_language, the_wrong_character_is_marked, identifiers_are_made_in_each_language,
    datagrams_are_put_into_words_in_each_language, the_longest_datagrams_are_read, many_lines_agree_with_another_program,
    a_long_list_is_counted_whole_and_filtered, spaces_and_invisible_characters_do_not_matter, the_keyboard_alone_is_enough,
    each_focus_is_visible, a_screen_reader_has_names_in_each_language, texts_have_contrast_in_light_and_dark,
    a_narrow_window_needs_no_scrolling_sideways,
    a_browser_without_the_feature_shows_it_in_the_language, a_browser_without_script_shows_it_in_each_language,
    a_browser_with_the_feature_shows_no_notice, the_language_is_that_of_the_browser, nothing_is_loaded_and_nothing_can_be_sent,
]  # fmt: skip

# Wrong pages: what is replaced in s10.html, by what, and the test that must fail.
WRONG = [
    ("made.text[10], id:", "made.text[9], id:", identifiers_are_checked_in_each_language),
    ('"s10_read_label"', '"s10_read"', identifiers_are_checked_in_each_language),
    ("at: at + 1, char:", "at, char:", identifiers_are_checked_in_each_language),
    ("ascii = chars => ", "ascii = chars => true ? new TextEncoder().encode(chars.join('')) : ", many_lines_agree_with_another_program),
    ("n === 12 || n === 13", "n === 13", identifiers_are_checked_in_each_language),
    ("number: i + 1 }", "number: i }", identifiers_are_checked_in_each_language),
    ("es sind {n}.", "nötig sind {n}.", identifiers_are_checked_in_each_language),
    ("i === at ?", "i === at + 1 ?", the_wrong_character_is_marked),
    ("serial.length !== 8 || ", "", identifiers_are_made_in_each_language),
    ("ascii(upper(service))", "ascii(service)", identifiers_are_made_in_each_language),
    ("service.length !== 2", "false", identifiers_are_made_in_each_language),
    ("Le pays doit être", "Le service doit être", identifiers_are_made_in_each_language),
    ("status: byte(OUT + 9)", "status: byte(OUT + 10)", datagrams_are_put_into_words_in_each_language),
    ("OUT + 11 + 14 * i", "OUT + 11 + 13 * i", datagrams_are_put_into_words_in_each_language),
    ("last: u32(OUT + 16)", "last: u32(OUT + 12)", datagrams_are_put_into_words_in_each_language),
    ("abgelehnt, sie wurde nie vergeben", "abgelehnt, sie wurde vergeben", datagrams_are_put_into_words_in_each_language),
    ("n * 864e5", "n * 864e5 + 864e5", datagrams_are_put_into_words_in_each_language),
    ("MOST = 1024;", "MOST = 230;", the_longest_datagrams_are_read),
    (".charCodeAt(0) : 63", ".charCodeAt(0) : 65", many_lines_agree_with_another_program),
    ("says += ", "says + ", a_long_list_is_counted_whole_and_filtered),
    ("!wrongOnly || !one.good", "!wrongOnly || one.good", a_long_list_is_counted_whole_and_filtered),
    (r"[\s\p{Cc}\p{Cf}]", r"\s", spaces_and_invisible_characters_do_not_matter),
    ('id="clear-hex"', 'id="clear-hex" tabindex="-1"', the_keyboard_alone_is_enough),
    ('"change", () => { clearTimeout', '"never", () => { clearTimeout', the_keyboard_alone_is_enough),
    ('$("labels").focus();', "", the_keyboard_alone_is_enough),
    (":focus-visible { outline: 3px", ":focus-visible { outline: 0px", each_focus_is_visible),
    ('<label for="serial"', "<label", a_screen_reader_has_names_in_each_language),
    ('role="status" id="make-says"', 'id="make-says"', a_screen_reader_has_names_in_each_language),
    ("document.documentElement.lang = language;", "", a_screen_reader_has_names_in_each_language),
    ('aria-describedby="labels-help"', "", a_screen_reader_has_names_in_each_language),
    ("--quiet: #b0b1b8", "--quiet: #55565c", texts_have_contrast_in_light_and_dark),
    ("--good: #14612b", "--good: #7fd69a", texts_have_contrast_in_light_and_dark),
    ("(prefers-color-scheme: dark)", "(prefers-color-scheme: light)", texts_have_contrast_in_light_and_dark),
    ("td.id { white-space: normal }", "", a_narrow_window_needs_no_scrolling_sideways),
    ('<div id="notice" role="alert">', '<div id="notice" role="alert" hidden>', a_browser_without_the_feature_shows_it_in_the_language),
    (".hidden = other !== language", ".hidden = other === language", a_browser_without_the_feature_shows_it_in_the_language),
    ('<p lang="fr" id="notice-fr">', '<p lang="fr" id="notice-fr" hidden>', a_browser_without_script_shows_it_in_each_language),
    (">Check identifiers</h2>", ">Check labels</h2>", a_browser_without_script_shows_it_in_each_language),
    ('$("notice").hidden = true;', "", a_browser_with_the_feature_shows_no_notice),
    ('|| "en")', '|| "de")', the_language_is_that_of_the_browser),
    ("default-src 'none'", "default-src data:", nothing_is_loaded_and_nothing_can_be_sent),
    ("<body>", '<body><img src="nothing.png">', nothing_is_loaded_and_nothing_can_be_sent),
    ("default-src 'none';", "default-src 'none'; img-src data:;", nothing_is_loaded_and_nothing_can_be_sent),
]


def run(test, browser, path):
    """Runs a test. Returns why it failed, or None."""
    try:
        test(browser, path)
    except Failed as why:
        return str(why)
    return None


def take_picture(file):
    """The first two parts of the page, with four identifiers and one made."""
    browser = Browser("--force-device-scale-factor=1", "--disable-lcd-text")
    with browser.open(PAGE) as tab:
        tab.ready()
        tab.call("Emulation.setDeviceMetricsOverride", width=880, height=1000, deviceScaleFactor=1, mobile=False)
        for field, text in (("service", "RA"), ("serial", "47312482"), ("country", "US")):
            tab.paste(field, text)
        tab.paste("labels", "RA 473 124 829 US\nRA 473 124 828 US\nra 473 124 8o9 us\nRA 473 124 82 US")
        tab.until("rows", "document.querySelectorAll('tbody tr').length", 4)
        tab.js("document.activeElement.blur()")
        height = tab.js("document.getElementById('hex-title').getBoundingClientRect().top")
        clip = {"x": 0, "y": 0, "width": 880, "height": height - 16, "scale": 1}
        Path(file).write_bytes(b64decode(tab.call("Page.captureScreenshot", format="png", captureBeyondViewport=True, clip=clip)["data"]))
    browser.close()
    subprocess.run(["pngquant", "--force", "--strip", "--output", file, "32", file], check=True)


def try_wrong_pages(browser):
    """Returns the number of wrong pages with which the test that must fail does not."""
    passed = 0
    browser.patience = PATIENCE_WITH_WRONG_PAGE
    page = PAGE.read_text(encoding="utf-8")
    with tempfile.TemporaryDirectory() as folder:
        path = Path(folder) / "wrong.html"
        for old, new, test in WRONG:
            path.write_text(page.replace(old, new), encoding="utf-8")
            if old not in page or run(test, browser, path) is None:
                passed += 1
                print(f"not seen by {test.__name__}: {old} -> {new}", flush=True)
    print(f"{len(WRONG) - passed} wrong pages refused, {passed} not")
    return passed


def main():
    if len(sys.argv) == 3 and sys.argv[1] == "--picture":
        take_picture(sys.argv[2])
        return
    browser = Browser()
    failed = 0
    try:
        for test in TESTS:
            why = run(test, browser, PAGE)
            failed += why is not None
            if why:
                print(f"{test.__name__}: {why}", flush=True)
        print(f"{len(TESTS) - failed} tests passed, {failed} failed", flush=True)
        failed += try_wrong_pages(browser)
    finally:
        browser.close()
    sys.exit(failed != 0)


if __name__ == "__main__":
    main()
