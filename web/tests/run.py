#!/usr/bin/env python3
"""Tries the page in a real browser: a project that is served behind the front of examples/haproxy.cfg, and a headless
Chromium that goes through all views. Prints a line for each check, and `N passed, M failed`.

    python3 web/tests/run.py [FOLDER]

keeps screenshots in FOLDER, where one is named. It wants chromium, haproxy and openssl, as Debian's packages of these names
have them, and says in one line what is missing. The script `annotate` makes the program, or ANNOTATE names its file.

What is wanted was worked out from the texts and layers of project.py by hand, and never taken from the page.
"""

from __future__ import annotations

import json
import shutil
import signal
import sys
import time
from pathlib import Path
from typing import Any, Callable, List, Optional

SECONDS = 300
WANTED_PROGRAMS = ("chromium", "haproxy", "openssl")

missing_programs = [name for name in WANTED_PROGRAMS if shutil.which(name) is None]
if missing_programs:
    print(f"skipped: the page was not tried, for want of {', '.join(missing_programs)}")
    sys.exit(0)
sys.dont_write_bytecode = True
sys.path.insert(0, str(Path(__file__).resolve().parent))

from browser import Browser, Page  # noqa: E402
from project import LONG, ROME, FirstPage, Tried  # noqa: E402
from served import Haproxy, Served  # noqa: E402

# The lanes of the text view, line by line. A label stands in [], a mark in {}, and ≠ behind each that not every layer has.
LANES = """[...document.querySelectorAll('#text-lines li')].map((li) => [...li.querySelectorAll('dd')].map((dd) =>
  dd.dataset.lane + ': ' + [...dd.childNodes].map((node) => {
    const sign = node.classList?.contains('differs') ? '≠' : '';
    if (node.nodeName === 'MARK') return '{' + node.textContent + '}' + sign;
    if (node.classList?.contains('label')) return '[' + node.firstChild.textContent + ']' + sign;
    return node.textContent;
  }).join('')))"""
# The cells of a table, row by row.
ROWS = "[...document.querySelectorAll('%s tr')].map((row) => [...row.cells].map((cell) => cell.innerText.trim()))"
IS_OPEN = "!document.querySelector('%s').hidden && document.activeElement === document.querySelector('%s h1')"


class Checks:
    """Counts what is as it should be, and says what is not."""

    def __init__(self, folder: Optional[str]) -> None:
        self.passed = self.failed = 0
        self._folder = folder

    def same(self, name: str, wanted: Any, found: Any) -> None:
        if wanted == found:
            self.passed += 1
            print(f"passed: {name}", flush=True)
        else:
            self.failed += 1
            print(f"FAILED: {name}\n  wanted: {wanted!r}\n  found:  {found!r}", flush=True)

    def true(self, name: str, found: Any) -> None:
        self.same(name, True, bool(found))

    def group(self, work: Callable[..., None], *given: Any) -> None:
        """Does a group of checks. What breaks off within it is one failed check, and the other groups go on."""
        try:
            work(self, *given)
        except (RuntimeError, TimeoutError, KeyError, IndexError, TypeError) as error:
            self.same(f"the checks of {work.__name__} end", "well", f"{type(error).__name__}: {error}")

    def picture(self, page: Page, name: str) -> None:
        """Keeps a screenshot at 100 % and one at 200 %, where nothing may stand out of the window to the side."""
        for zoom, width in ((100, 1280), (200, 640)):
            page.resize(width, 1800 // (zoom // 100), zoom // 100)
            fits = page.run("document.documentElement.scrollWidth <= innerWidth")
            self.true(f"{name}: at {zoom} % the page is not wider than the window", fits)
            if self._folder:
                page.picture(f"{self._folder}/{name}-{zoom}.png")
        page.resize(1280, 900)


def go(page: Page, tried: Tried, person: str, view: str, section: str) -> bool:
    """Loads a view by its address, and waits until it is drawn and its heading has the focus."""
    load(page, tried, person, view)
    return bool(page.wait(IS_OPEN % (section, section)))


def load(page: Page, tried: Tried, person: str, view: str = "") -> None:
    page.go("about:blank")
    page.wait("location.href === 'about:blank'")
    page.go(tried.url(person, view))


def text_of(page: Page, selector: str) -> str:
    return str(page.run(f"document.querySelector({json.dumps(selector)}).innerText"))


def trouble(page: Page, name: str) -> str:
    """The refusal that is shown, once it is that of a name."""
    page.wait(f"document.querySelector('#trouble')?.innerText.includes('{name}')")
    return text_of(page, "#trouble")


# ---- the front


def front(checks: Checks, tried: Tried) -> None:
    for path in ("/page/", "/page/page.js", "/page/docs", "/docs"):
        status, fields, _ = tried.ask(path)
        checks.same(f"a stranger at {path}", (401, True), (status, "basic" in fields.get("www-authenticate", "").lower()))
    for path, kind in (("/page/", "html"), ("/page/style.css", "css"), ("/page/page.js", "javascript")):
        status, fields, body = tried.ask(path, "ann")
        file = Path(__file__).resolve().parents[1] / (path[len("/page/") :] or "index.html")
        checks.same(f"{path} is the file", (200, f"text/{kind}; charset=utf-8", True), (status, fields["content-type"], body == file.read_text(encoding="utf-8")))
    policy = fields["content-security-policy"]
    checks.true("the policy allows nothing by itself", policy.startswith("default-src 'none'; script-src 'self'; style-src 'self'; connect-src 'self';"))
    checks.true("no part of it allows what stands in line", "unsafe" not in policy)
    forged = {"Caller": "cur"}
    checks.same("a caller that is forged is not believed", 403, tried.ask("/page/agreement/pairs", "ann", fields=forged)[0])
    checks.same("and the page is told who it is", "ann", tried.ask("/page/docs", "ann", fields=forged)[1].get("caller"))
    for site, status in (("cross-site", 403), ("same-site", 403), ("same-origin", 409)):
        checks.same(f"a change from {site}", status, tried.ask("/page/docs/lima/snapshots", "cur", "POST", {"Sec-Fetch-Site": site})[0])
    checks.same("a link from another site", 200, tried.ask("/page/", "cur", fields={"Sec-Fetch-Site": "cross-site"})[0])


# ---- documents


def documents(checks: Checks, tried: Tried, page: Page) -> None:
    checks.true("the documents are shown", go(page, tried, "cur", "", "#documents"))
    checks.same("who is signed in", "cur, curator", text_of(page, "#who"))
    checks.same("how many there are", "24 documents, 4 annotators: 6 of 96 layers finished, 2 out.", text_of(page, "#documents-summary"))
    rows = page.run(ROWS % "#documents-table")
    checks.same("the head of the table", ["Document", "Characters", "__proto__", "ann", "bob", "cid", "Finished"], rows[0])
    # Nobody has finished these; of the last five one layer is committed, and of all others none.
    unfinished = [f"d{it:02}" for it in range(1, 16)] + ["lima", "empty", "hostile", "hebrew", "signs"]
    checks.same("the most unfinished layers stand first, of these the most that are missing", unfinished, [row[0] for row in rows[1:]])
    wanted = [
        ["lima", "19", "○ none", "○ none", "○ none", "✎ out 1", "0 of 4"],
        ["empty", "13", "○ none", "◐ open 0", "○ none", "○ none\n2 parked", "0 of 4"],
        ["hebrew", "47", "○ none", "◐ open 3\n⊘ ignored", "○ none", "○ none", "0 of 4"],
        ["signs", "16", "○ none", "◐ open 2", "✎ out", "○ none", "0 of 4"],
    ]
    found = {row[0]: row for row in rows}
    for row in wanted:
        checks.same(f"the row of {row[0]}", row, found.get(row[0]))
    checks.same("a draft behind a commit", "◐ open 3\n1 parked", found["hostile"][3])
    plain = [it.replace("cur:cur-secret@", "").split(" ", 1)[1] for it in page.requests]
    asked = [it[len(tried.address) :] for it in plain if it.startswith(f"{tried.address}/page/")]
    checks.same("all is asked of this front", [], [it for it in plain if not it.startswith(tried.address.replace("/news", "/")) and it != "about:blank"])
    checks.same("three files and three requests", [f"/page/{it}" for it in ("", "docs", "page.js", "progress", "roster", "style.css")], sorted(asked))
    checks.picture(page, "documents")
    page.click("#documents-after")
    page.wait("document.querySelector('#documents-shown').innerText.startsWith('21')")
    rows = page.run(ROWS % "#documents-table tbody")
    wanted = [
        ["long", "200000", "○ none", "◐ open 2500", "○ none", "◐ open 2499", "0 of 4"],
        ["rome", "20", "○ none", "✓ finished 2", "✓ finished 6", "○ none", "2 of 4"],
        ["many", "240", "○ none", "✓ finished 60", "✓ finished 0", "○ none", "2 of 4"],
        ["lanes", "36", "○ none", "◐ open 3", "✓ finished 6", "✓ finished 9", "2 of 4"],
    ]
    checks.same("the second page, in the same order", wanted, rows)
    page.choose("#documents-order", "finished")
    names = "[...document.querySelectorAll('#documents-table tbody tr')].map((row) => row.dataset.document)"
    checks.same("the most finished layers first, of the whole project", ["rome", "lanes", "many", "lima", "empty"], page.run(names)[:5])
    checks.same("from the first row on", "1 to 20 of 24", text_of(page, "#documents-shown"))
    before = len(page.requests)
    page.choose("#documents-order", "added")
    checks.same("as they were added", ["rome", "lima", "empty"], page.run(names)[:3])
    checks.same("without a request", before, len(page.requests))
    counting(checks, page)


def counting(checks: Checks, page: Page) -> None:
    """The spans that differ in the documents as they were added."""
    is_counted = "document.querySelector('#documents-table thead').innerText.includes('differ')"
    before = len(page.requests)
    page.click("#documents-count")
    page.wait(is_counted, 60)
    found = {row[0]: row for row in page.run(ROWS % "#documents-table")}
    counted = [
        ["rome", "20", "○ none", "✓ finished 2", "✓ finished 6", "○ none", "2 of 4", "2"],
        ["lanes", "36", "○ none", "◐ open 3", "✓ finished 6", "✓ finished 9", "2 of 4", "5"],
        ["many", "240", "○ none", "✓ finished 60", "✓ finished 0", "○ none", "2 of 4", "60"],
        ["signs", "16", "○ none", "◐ open 2", "✎ out", "○ none", "0 of 4", "–"],
    ]
    for row in counted:
        checks.same(f"what is counted in {row[0]}", row, found.get(row[0]))
    checks.same("by the seven layers of texts that have two or more", 7, len(page.requests) - before)
    checks.same("the most differing first", ["many", "lanes", "rome", "lima"], [row[0] for row in page.run(ROWS % "#documents-table tbody")][:4])
    checks.picture(page, "counted")
    page.click("#documents-after")
    page.wait("document.querySelector('#documents-shown').innerText.startsWith('21')")
    checks.same("the second page, as they were added", ["d13", "d14", "d15", "long"], [row[0] for row in page.run(ROWS % "#documents-table tbody")])
    page.click("#documents-count")
    page.wait(is_counted, 60)
    rows = page.run(ROWS % "#documents-table tbody")
    checks.same("what is counted in long", ["long", "200000", "○ none", "◐ open 2500", "○ none", "◐ open 2499", "0 of 4", "1"], rows[0])


# ---- one text


def rome(checks: Checks, tried: Tried, page: Page) -> None:
    go(page, tried, "cur", "#/documents", "#documents")
    page.choose("#documents-order", "added")
    before = len(page.requests)
    page.click("a[href='#/text/rome']")
    checks.true("a text is opened by a click", page.wait(IS_OPEN % ("#text", "#text")))
    checks.same("with six requests: text, configuration, four layers", 6, len(page.requests) - before)
    checks.same("its heading", "rome", text_of(page, "#text h1"))
    checks.same("what differs", "20 characters. 2 committed layers, none of __proto__, cid. 2 spans are not in every layer.", text_of(page, "#text-summary"))
    lanes = [["ann: [Person]{Ann} met [Person]{Bob} in Rome", "bob: [Person]{Ann} [Meet]≠{met}≠ [Person]{Bob} in [Location]≠{Rome}≠"]]
    checks.same("a lane for each layer", lanes, page.run(LANES))
    checks.same("the names before the lanes", ["ann", "bob"], page.run("[...document.querySelectorAll('#text-lines dt')].map((it) => it.innerText)"))
    page.click("#text-numbers summary")
    layers = [["__proto__", "○ nothing committed"], ["ann", "2", "0", "0", "0", "0"], ["bob", "4", "2", "1", "1", "0"], ["cid", "○ nothing committed"]]
    checks.same("the layers in numbers", layers, page.run(ROWS % "#text-layers tbody"))
    others = page.run("[...document.querySelectorAll('#text-others li')].map((it) => it.innerText.replace(/\\s+/g, ' '))")
    wanted = ["Relation ≠ not in every layer Located: Arg1 Ann, Arg2 Rome bob R1 Show", "Event ≠ not in every layer Meet met: Who Ann, Who2 Bob, Place Rome bob E1 Show"]
    checks.same("events and relations beside", wanted, others)
    checks.true("the client's lines", 'desk.add_span("Person", (0, 3))' in str(page.run("document.querySelector('#text-client').textContent")))
    checks.true("with the project's address", f'Project("{tried.address}", user="__proto__"' in str(page.run("document.querySelector('#text-client').textContent")))
    checks.picture(page, "rome")
    page.run("document.querySelector('#text h1').focus()")
    met = "[document.activeElement.textContent, document.activeElement.closest('dd')?.dataset.lane]"
    page.key("d")
    checks.same("d goes to the first difference", ["met", "bob"], page.run(met))
    page.key("d")
    checks.same("and to the next", ["Rome", "bob"], page.run(met))
    page.key("d")
    checks.same("and to the first again", ["met", "bob"], page.run(met))
    page.click("#text-difference")
    checks.same("a click goes to the next", ["Rome", "bob"], page.run(met))
    page.click("#text-difference")
    page.click("#text-difference")
    checks.same("and a second and a third", ["Rome", "bob"], page.run(met))
    page.click("#text-others li:nth-of-type(2) button")
    checks.same("Show goes to the event", ["met", "bob"], page.run(met))


def lanes(checks: Checks, tried: Tried, page: Page) -> None:
    go(page, tried, "cur", "#/text/lanes", "#text")
    first = [
        "ann: [Organization]≠[Person]≠{Ann}≠{ }≠[Person]{Bob}≠{ }≠[…Person]≠{Limit}≠ met Rome",
        "bob: [Person]≠{Ann}≠ [Person]{Bob} Limit [Meet]≠{met}≠ [Location]≠{Rome}≠",
        "cid: [Person]≠{Ann}≠ [Person]{Bob} Limit [Meet]≠{met}≠ [Location]≠{Rome}≠",
    ]
    found = page.run(LANES)
    checks.same("overlaps, fragments and lanes of three", first, found[0])
    checks.same("a blank line has one lane", 1, len(found[1]))
    checks.same("a line that nobody marked", ["ann: and no more", "bob: and no more", "cid: and no more"], found[2])
    page.click("#text-fold")
    names = page.run("[...document.querySelectorAll('#text-lines li')].map((li) => [...li.querySelectorAll('dt')].map((dt) => dt.innerText))")
    checks.same("lanes that are the same are drawn once", [["ann", "bob cid"], [""], ["ann bob cid"]], names)
    others = page.run("[...document.querySelectorAll('#text-others li')].map((it) => it.innerText.replace(/\\s+/g, ' '))")
    wanted = [
        "Class ≠ not in every layer Equiv: Bob, Ann Limit ann Show",
        "Event ≠ not in every layer Meet met: Who Bob, Who2 Ann, Place Rome bob E1, cid E8 Show",
        "Attribute ≠ not in every layer Confidence High of Meet met bob A1 Show",
        "Attribute ≠ not in every layer Confidence Low of Meet met cid A2 Show",
        'Reference ≠ not in every layer Wikipedia:1 Rome, "the city" of Rome cid N1, cid N2, cid N3 Show',
    ]
    checks.same("an event is the same whatever the IDs and the order of its arguments", wanted, others)
    checks.picture(page, "lanes")
    page.click("#text-fold")


def hostile(checks: Checks, tried: Tried, page: Page) -> None:
    go(page, tried, "cur", "#/text/hostile", "#text")
    wanted = [
        ["ann: [Person]{<script>}hacked=1</script> \"q\" & 'a' [Person]{<img} src=x onerror=hacked=1> U+202EgnirtsU+202C &amp; end"],
        ["ann: nullU+0000byte"],
    ]
    checks.same("markup, quotes and controls are text", wanted, page.run(LANES))
    checks.same("nothing of the text became markup", [0, 0], page.run("[document.querySelectorAll('main script, main img, main b').length, typeof hacked === 'undefined' ? 0 : 1]"))
    checks.true("a note neither", "AnnotatorNotes on <script>: <b onclick=hacked=1>bold</b> U+202Eover" in text_of(page, "#text-others"))
    checks.picture(page, "hostile")
    refused = page.run("(() => { try { document.querySelector('#status').innerHTML = '<b>x</b>'; return 'taken'; } catch (error) { return error.name; } })()")
    checks.same("markup from a script is refused by the policy", "TypeError", refused)
    page.run("(() => { const it = document.createElement('script'); try { it.textContent = 'hacked = 1'; document.body.append(it); } catch {} })()")
    checks.same("and so is a script in line", "undefined", page.run("typeof hacked"))


def writing(checks: Checks, tried: Tried, page: Page) -> None:
    go(page, tried, "cur", "#/text/hebrew", "#text")
    wanted = [["ann: [Person]{דנה} פגשה את Bob [Location]{בירושלים}."], ["ann: Eva met [Person]{דנה} in Oslo."]]
    checks.same("marks in Hebrew", wanted, page.run(LANES))
    sides = page.run("[...document.querySelectorAll('#text-lines dd')].map((it) => getComputedStyle(it).direction)")
    checks.same("each line has the direction of its first letter", ["rtl", "ltr"], sides)
    place = page.run("(() => { const [name, place] = [...document.querySelectorAll('#text-lines dd')[0].querySelectorAll('mark')].map((it) => it.getBoundingClientRect().x); return name > place; })()")
    checks.true("the first word stands on the right", place)
    checks.picture(page, "hebrew")
    go(page, tried, "cur", "#/text/signs", "#text")
    checks.same("offsets are characters", [["ann: U+FEFFe\u0301 \U0001f600 \U0001f469\u200d\U0001f680 [Person]{Bob} [Person]{x}"]], page.run(LANES))
    checks.picture(page, "signs")
    go(page, tried, "cur", "#/text/empty", "#text")
    checks.same("a layer with nothing marked", [["ann: Nothing here"]], page.run(LANES))


def long(checks: Checks, tried: Tried, page: Page) -> None:
    go(page, tried, "cur", "#/text/empty", "#text")
    page.run("document.activeElement.blur()")
    begun = time.monotonic()
    page.run("location.hash = '#/text/long'")
    checks.true("a text of 200,000 characters with 4,999 marks is shown", page.wait(IS_OPEN % ("#text", "#text"), 60))
    whole = time.monotonic() - begun
    begun = time.monotonic()
    page.key("n")
    checks.same("n goes to the next part", "Part 2 of 63: characters 3200 to 6400", page.wait("document.querySelector('#text-part').innerText.startsWith('Part 2') && document.querySelector('#text-part').innerText"))
    turned = time.monotonic() - begun
    print(f"seconds: {whole:.1f} for the long text, {turned:.2f} for its next part", flush=True)
    checks.true("within 60 seconds on a busy machine, and a part within 10", whole < 60 and turned < 10)
    checks.true("few elements stand there", page.run("document.querySelectorAll('*').length") < 5000)
    checks.same("offsets of the lines", ["3200", "3360"], page.run("[...document.querySelectorAll('#text-lines .offset')].slice(0, 2).map((it) => it.innerText)"))
    page.click("#text-difference")
    checks.same("the one difference, far behind", ["abcd", "199920", "ann"], page.run("[document.activeElement.textContent, document.activeElement.dataset.from, document.activeElement.closest('dd').dataset.lane]"))
    checks.same("in the last part", "Part 63 of 63: characters 198400 to 200000", text_of(page, "#text-part"))
    checks.same("the words shown are those of the text", LONG[198400:], page.run("[...document.querySelectorAll('#text-lines li')].map((li) => { const copy = li.querySelector('dd').cloneNode(true); copy.querySelectorAll('.label').forEach((it) => it.remove()); return copy.textContent; }).join('')"))
    checks.picture(page, "long")


# ---- curation

STATES = "[...document.querySelectorAll('#curation-items tbody tr')].map((row) => row.dataset.item + ' ' + row.querySelector('.verdict').className.split(' ')[1])"
CHOICES = "[...document.querySelectorAll('%s option')].map((it) => it.textContent)"
AROUND = "[...document.querySelectorAll('#curation-items .around mark')].map((it) => it.textContent)"
AROUND_ROME = ["Ann", "Bob", "Rome", "met", "met"]
ITEMS = ["ann/T1", "ann/T2", "bob/T3", "bob/T9", "bob/E1", "bob/R1"]


def states(**changed: str) -> List[str]:
    before = dict(zip(ITEMS, ["unanimous", "unanimous", "undecided", "undecided", "undecided", "undecided"]))
    return [f"{name} {changed.get(name.replace('/', '_'), state)}" for name, state in before.items()]


def settled(page: Page, words: str) -> str:
    """The line that says what came of a verdict."""
    page.wait(f"document.querySelector('#status').innerText.includes({json.dumps(words)})")
    return text_of(page, "#status")


def curate(checks: Checks, tried: Tried, page: Page) -> None:
    checks.true("the view of curation", go(page, tried, "cur", "#/curation", "#curation"))
    checks.true("says that there is no snapshot", text_of(page, "#curation-summary").startswith("No snapshot was taken yet."))
    choices = page.run(CHOICES % "#curation-document")
    checks.same("which documents can be curated", ["no document", "rome: 2 finished", "lima: 0 finished"], choices[:3])
    page.choose("#curation-document", "lima")
    page.wait("!document.querySelector('#curation-snap').disabled")
    page.click("#curation-snap")
    said = trouble(page, "TooFewFinished")
    checks.true("a refusal is shown by its name and what it names", "TooFewFinished, which names 0 (POST docs/lima/snapshots)" in said)
    checks.true("with what can be done", "two finished layers" in said)
    page.choose("#curation-document", "rome")
    page.click("#curation-snap")
    checks.same("a snapshot is taken", "Snapshot 1 was taken, of 2 layers of rome.", settled(page, "was taken"))
    checks.same("how far it is decided", ["1, rome: 4 undecided"], page.run(CHOICES % "#curation-number"))
    checks.same("the items in their order", states(), page.run(STATES))
    rows = page.run(ROWS % "#curation-items tbody")
    checks.same("who has them", ["ann bob", "ann bob", "bob", "bob", "bob", "bob"], [row[2] for row in rows])
    checks.same("how a span is told", "Person Ann 0 3 Ann met Bob in Rome", " ".join(rows[0][1].split()))
    checks.same("the words around", AROUND_ROME, page.run(AROUND))
    checks.same("an event, with the spans that can be told", "Meet:T9 Who:T1 Who2:T2 Place:T3 T9: Meet met T3: Location Rome Ann met Bob in Rome", " ".join(rows[4][1].split()))
    decide(checks, tried, page)
    checks.picture(page, "curation")
    page.click("#curation-curated summary")
    curated = "T1\tPerson 0 3\tAnn\nT2\tPerson 8 11\tBob\nT3\tLocation 15 19\tRome\nR1\tLocated Arg1:T1 Arg2:T3\n"
    page.wait("document.querySelector('#curation-curated pre').textContent !== ''")
    checks.same("the curated layer", curated, str(page.run("document.querySelector('#curation-curated pre').textContent")).rstrip("\n") + "\n")


def decide(checks: Checks, tried: Tried, page: Page) -> None:
    """Verdicts by key and by click, each looked for at the server."""
    row = "#curation-items tr[data-item='%s']"
    page.run("document.querySelector('#curation-items tbody tr').focus()")
    for _ in range(4):
        page.key("ArrowDown")
    checks.same("the arrow goes down", "bob/E1", page.run("document.activeElement.dataset.item"))
    page.key("a")
    checks.true("what an event needs is named", "NeedsItem, which names bob/T3" in trouble(page, "NeedsItem"))
    checks.same("and nothing was changed", states(), [" ".join(it) for it in tried.items(1)])
    page.click("#trouble button:last-of-type")
    checks.same("a button goes there", "bob/T3", page.run("document.activeElement.dataset.item"))
    page.key("a")
    checks.same("accepted by key", "bob/T3 is accepted. 1 verdict stands.", settled(page, "bob/T3"))
    checks.same("the server has it", states(bob_T3="accepted"), [" ".join(it) for it in tried.items(1)])
    checks.same("and the focus stays", "bob/T3", page.run("document.activeElement.dataset.item"))
    page.click(row % "bob/T9" + " button:nth-of-type(1)")
    checks.same("accepted by click", "bob/T9 is accepted. 2 verdicts stand.", settled(page, "bob/T9"))
    checks.same("the server has both", states(bob_T3="accepted", bob_T9="accepted"), [" ".join(it) for it in tried.items(1)])
    page.run(f"document.querySelector(\"{row % 'bob/T9'}\").focus()")
    page.key("r")
    checks.same("rejected by key", "bob/T9 is rejected. 2 verdicts stand.", settled(page, "rejected"))
    checks.same("the server has it rejected", states(bob_T3="accepted", bob_T9="rejected"), [" ".join(it) for it in tried.items(1)])
    page.key("u")
    checks.same("taken back by key", "bob/T9 is undecided. 1 verdict stands.", settled(page, "undecided"))
    page.click(row % "bob/R1" + " button:nth-of-type(1)")
    settled(page, "bob/R1")
    page.click(row % "ann/T2" + " button:nth-of-type(2)")
    checks.same("rejected by click", "ann/T2 is rejected. 3 verdicts stand.", settled(page, "ann/T2"))
    page.click(row % "ann/T2" + " button:nth-of-type(3)")
    checks.same("taken back by click", "ann/T2 is unanimous. 2 verdicts stand.", settled(page, "unanimous"))
    final = states(bob_T3="accepted", bob_R1="accepted")
    checks.same("two of its items are undecided", ["1, rome: 2 undecided"], page.run(CHOICES % "#curation-number"))
    checks.same("the server has what was decided", final, [" ".join(it) for it in tried.items(1)])
    checks.same("and the page shows it", final, page.run(STATES))
    page.click(row % "ann/T1" + " button:nth-of-type(1)")
    checks.true("what is in cannot be accepted", "already" in trouble(page, "AlreadyIn"))
    page.run(f"document.querySelector(\"{row % 'ann/T1'}\").focus()")
    page.key("r")
    checks.true("what is named cannot go out", "NeedsItem, which names bob/R1" in trouble(page, "NeedsItem"))


def more_items(checks: Checks, tried: Tried, page: Page) -> None:
    page.choose("#curation-document", "many")
    checks.same("the words around stay those of the snapshot", AROUND_ROME, page.run(AROUND))
    page.click("#curation-snap")
    settled(page, "Snapshot 2 was taken")
    checks.same("a second snapshot", "Snapshot 2 of 2, 2 layers of many: 60 items, 0 unanimous, 60 undecided, 0 accepted, 0 rejected.", text_of(page, "#curation-summary"))
    checks.same("with the words of its own document", ["w00", "w01"], page.run(AROUND)[:2])
    page.click("#curation-after")
    checks.same("the items behind the fiftieth", [f"ann/T{it} undecided" for it in range(51, 61)], page.run(STATES))
    page.run("document.querySelector('#curation-items tr[data-item=\"ann/T52\"]').focus()")
    page.key("a")
    settled(page, "ann/T52")
    checks.same("one of them is accepted", [("ann/T51", "undecided"), ("ann/T52", "accepted"), ("ann/T53", "undecided")], tried.items(2)[50:53])
    page.run("document.querySelector('#curation-items tr[data-item=\"ann/T53\"]').focus()")
    for key in ("a", "ArrowDown", "a", "ArrowDown", "a"):
        page.key(key)
    settled(page, "ann/T55")
    checks.same("keys given faster than the server answers", ["accepted"] * 4 + ["undecided"], [state for _, state in tried.items(2)[51:56]])
    checks.same("and the focus is where they led", "ann/T55", page.run("document.activeElement.dataset.item"))
    page.choose("#curation-filter", "decided")
    checks.same("only what is decided", [f"ann/T{it} accepted" for it in range(52, 56)], page.run(STATES))
    page.choose("#curation-filter", "undecided")
    checks.same("only what is not", 50, len(page.run(STATES)))
    page.choose("#curation-filter", "all")
    page.choose("#curation-document", "lanes")
    page.click("#curation-snap")
    settled(page, "Snapshot 3 was taken")
    page.click("#curation-items tr[data-item='bob/A1'] button:nth-of-type(1)")
    settled(page, "bob/A1 is accepted")
    words = page.run("document.querySelector('#curation-items tr[data-item=\"cid/N1\"] .quote').textContent")
    checks.same("a line with commas and quotes", 'Reference T5 Wikipedia:1 Rome, "the city"', words)
    page.click("#curation-items tr[data-item='cid/A2'] button:nth-of-type(1)")
    said = trouble(page, "AttributeThere")
    checks.true("a rule that would be broken is named", "AttributeThere, which names A1" in said and "would break this rule" in said)
    page.choose("#curation-number", "1")
    checks.true("the first one again", page.wait("document.querySelector('#curation-summary').innerText.startsWith('Snapshot 1 of 3, 2 layers of rome: 6 items, 2 unanimous, 2 undecided, 2 accepted')"))
    checks.same("with its words", AROUND_ROME, page.run(AROUND))
    # Of lanes bob and cid have all in common but an attribute each, of which one is accepted, and a reference.
    wanted = ["1, rome: 2 undecided", "2, many: 56 undecided", "3, lanes: 2 undecided"]
    checks.same("how far each snapshot is decided", wanted, page.run(CHOICES % "#curation-number"))
    page.click("nav a[href='#/documents']")
    page.wait(IS_OPEN % ("#documents", "#documents"))
    before = len(page.requests)
    page.click("nav a[href='#/curation']")
    page.wait(IS_OPEN % ("#curation", "#curation"))
    asked = sorted(it.split("/page/")[1] for it in page.requests[before:])
    checks.same("the view is four requests", ["docs/lanes/text", "progress", "snapshots", "snapshots/3/items"], asked)
    checks.same("which tell the same", wanted, page.run(CHOICES % "#curation-number"))
    load(page, tried, "cur", "#/curation/7")
    checks.true("a snapshot that is not there", "(GET snapshots/7/items)" in trouble(page, "NoSnapshot"))
    load(page, tried, "cur", "#/text/none")
    checks.true("a document that is not there", "Go to Documents" in trouble(page, "NoDocument"))


# ---- agreement


def agreement(checks: Checks, tried: Tried, page: Page) -> None:
    # Tokens that both label. ann and bob: on rome 5, many 60 and lanes 8, alike 3, 0 and 4. ann has Person on 2, 60, 2,
    # Organization on 0, 0, 1 and nothing on 3, 0, 5; bob has Person on 2, 0, 2, nothing on 1, 60, 4, Meet and Location on 1, 0, 1.
    units, agreed, chance = 73, 7, 64 * 4 + 8 * 65
    top, bottom = units * agreed - chance, units * units - chance
    # ann and cid: on lanes 8 and long 40000, alike 4 and 39999. Person on 2, 2500 and on 2, 2499; nothing on 5, 37500 and on 4, 37501.
    chance = 2502 * 2501 + 37505 * 37505
    second = 40008 * 40003 - chance, 40008 * 40008 - chance
    # Alpha: ordered pairs that are alike: 2 * 3 and 2 * 39999 where two label, and half of 2 * 16 on lanes, where three do.
    # Labels: Person 4, 60, 6, 4999; Organization 1; Meet and Location 1, 0, 2 each; nothing 4, 60, 13, 75001.
    alike, labels = 2 * (3 + 39999) + 16, (5069, 1, 3, 3, 75078)
    n, b = sum(labels), sum(it * (it - 1) for it in labels)
    alpha_top, alpha_bottom = 360360 * ((n - 1) * alike - b), 360360 * (n * (n - 1) - b)
    checks.true("the view of agreement", go(page, tried, "cur", "#/agreement", "#agreement"))
    checks.same("alpha", f"Krippendorff's alpha is 0.{10000 * alpha_top // alpha_bottom}, exactly {alpha_top}/{alpha_bottom}, over 40073 tokens with 80154 labels.", text_of(page, "#agreement-alpha"))
    kappa = f"-0.{10000 * -top // bottom:04}"
    other = f"0.{10000 * second[0] // second[1]}"
    wanted = [
        ["", "__proto__", "ann", "bob", "cid"],
        ["__proto__", "–", "undefined", "undefined", "undefined"],
        ["ann", "undefined", "–", kappa, other],
        ["bob", "undefined", kappa, "–", "1.0000"],
        ["cid", "undefined", other, "1.0000", "–"],
    ]
    checks.same("the matrix", wanted, page.run(ROWS % "#agreement-matrix"))
    page.point("[data-pair='ann bob']")
    checks.same("a fraction where the mouse points", f"ann and bob: kappa is {top}/{bottom}, or {kappa}; 7 of 73 tokens labelled alike.", text_of(page, "#agreement-figure"))
    page.run("document.querySelector('#agreement-matrix [tabindex=\"0\"]').focus()")
    for key in ("ArrowRight", "ArrowRight", "ArrowDown"):
        page.key(key)
    figure = f"ann and cid: kappa is {second[0]}/{second[1]}, or {other}; 40003 of 40008 tokens labelled alike."
    checks.same("and where the keyboard is", figure, text_of(page, "#agreement-figure"))
    page.key("ArrowDown")
    checks.same("and below", "bob and cid: kappa is 42/42, or 1.0000; 8 of 8 tokens labelled alike.", text_of(page, "#agreement-figure"))
    page.key("ArrowLeft")
    checks.same("the arrow goes over the diagonal", "bob ann", page.run("document.activeElement.dataset.pair"))
    checks.same("a cell is told to a reader of the screen", f"bob and ann: kappa is {top}/{bottom}, or {kappa}; 7 of 73 tokens labelled alike", page.run("document.activeElement.getAttribute('aria-label')"))
    checks.same("shades", ["kappa negative", "kappa step4", "kappa undefined"], page.run("['ann bob', 'bob cid', '__proto__ ann'].map((it) => document.querySelector(`[data-pair='${it}']`).className)"))
    checks.picture(page, "agreement")


# ---- other people


def annotator(checks: Checks, tried: Tried, page: Page) -> None:
    checks.true("an annotator sees the documents", go(page, tried, "ann", "", "#documents"))
    checks.same("and who she is", "ann, annotator", text_of(page, "#who"))
    checks.same("what she may see is said", "24 documents. You see your own layers, and no others.", text_of(page, "#documents-summary"))
    rows = page.run(ROWS % "#documents-table")
    checks.same("her column alone", ["Document", "Characters", "ann", "Layers missing"], rows[0])
    asked = [it.split("/page/")[1] for it in page.requests if "/page/" in it]
    heads = [it for it in page.requests if it.startswith("HEAD ")]
    checks.same("a HEAD for each cell", (20, True), (len(heads), all(it.endswith("/layers/ann") for it in heads)))
    checks.same("and nothing that is for curators", ["docs", "roster"], sorted(it for it in asked if "/layers/" not in it and it not in ("", "page.js", "style.css")))
    # Of the first twenty texts she has no layer of lima and d01 to d12.
    names = ["lima"] + [f"d{it:02}" for it in range(1, 13)] + ["rome", "empty", "hostile", "hebrew", "signs", "lanes", "many"]
    checks.same("what she has not done first", names, [row[0] for row in rows[1:]])
    cells = {row[0]: row[2:] for row in rows[1:]}
    checks.same("whether a layer is there", [["○ none", "1 of 1"], ["● marks", "0 of 1"], ["◐ empty", "0 of 1"]], [cells[it] for it in ("lima", "rome", "empty")])
    checks.same("the legend is that of her table", ["● marks", "◐ empty", "○ none"], page.run("[...document.querySelectorAll('#documents .legend:not([hidden]) .state')].map((it) => it.innerText)"))
    page.choose("#documents-order", "added")
    page.click("#documents-count")
    page.wait("document.querySelector('#documents-table thead').innerText.includes('differ')", 60)
    cells = {row[0]: row[2:] for row in page.run(ROWS % "#documents-table")}
    checks.same("how many annotations it has, classes aside", ["● 3", "0 of 1", "–"], cells["lanes"])
    checks.picture(page, "own")
    page.click("a[href='#/text/rome']")
    page.wait(IS_OPEN % ("#text", "#text"))
    checks.same("her lane alone", [["ann: [Person]{Ann} met [Person]{Bob} in Rome"]], page.run(LANES))
    checks.true("the client's lines have her name", 'user="ann"' in str(page.run("document.querySelector('#text-client').textContent")))
    for view in ("curation", "agreement"):
        before = len(page.requests)
        page.click(f"nav a[href='#/{view}']")
        page.wait(IS_OPEN % ("#curators-only", "#curators-only"))
        checks.true(f"{view} is for curators", "Only a curator" in text_of(page, "#curators-only"))
        checks.same(f"and nothing is asked for {view}", before, len(page.requests))
    checks.picture(page, "annotator")


def stranger(checks: Checks, tried: Tried, page: Page) -> None:
    load(page, tried, "eve")
    said = trouble(page, "NotAllowed")
    checks.true("somebody who is not on the roster is told so", "NotAllowed, which names Roster" in said and "not on the roster" in said)
    checks.same("and sees nothing", 5, page.run("document.querySelectorAll('main > section[hidden]').length"))


def gone(checks: Checks, tried: Tried, page: Page) -> None:
    """What is said where nobody answers."""
    go(page, tried, "cur", "#/documents/2", "#documents")
    tried.served.kill()
    page.click("#documents-count")
    checks.true("the server is gone", "sixty-four at a time" in trouble(page, "HTTP 503"))
    tried.end_front()
    page.click("#documents-count")
    checks.true("the front is gone", "could not be reached" in trouble(page, "NoAnswer"))


def alone(checks: Checks, page: Page) -> None:
    """A project with a single annotator."""
    served = Served(roster="ann,annotator\ncur,curator\n")
    front: Optional[Haproxy] = None
    try:
        served.project("cur").add_text("rome", ROME)
        with served.project("ann").desk("rome") as desk:
            desk.add_span("Person", (0, 3))
            desk.commit()
        front = Haproxy(served.port, ("ann", "cur"))
        page.go(front.url.replace("https://", "https://cur:cur-secret@") + "/page/")
        page.wait(IS_OPEN % ("#documents", "#documents"))
        checks.same("a single annotator's layer is shown", [["rome", "20", "◐ open 1", "0 of 1"]], page.run(ROWS % "#documents-table tbody"))
        page.click("a[href='#/text/rome']")
        page.wait(IS_OPEN % ("#text", "#text"))
        checks.same("and her lane", [["ann: [Person]{Ann} met Bob in Rome"]], page.run(LANES))
        page.click("nav a[href='#/agreement']")
        page.wait(IS_OPEN % ("#agreement", "#agreement"))
        checks.same("who agrees with nobody", [["ann", "–"]], page.run(ROWS % "#agreement-matrix tbody"))
        checks.same("the browser does not complain", [], page.complaints)
    finally:
        if front is not None:
            front.end()
        served.end()


def first_page(checks: Checks, page: Page) -> None:
    """What README.md says that a new user sees."""
    served = FirstPage()
    try:
        page.go(served.address.replace("https://", "https://cur:cur-secret@"))
        page.wait(IS_OPEN % ("#documents", "#documents"))
        checks.same("the lines of README.md show its project", [["rome", "20", "○ none", "○ none", "○ none", "0 of 3"]], page.run(ROWS % "#documents-table tbody"))
    finally:
        served.end()


# ---- all views


def keyboard(checks: Checks, tried: Tried, page: Page) -> None:
    """What Tab comes to, from the heading of a view on."""
    tabbed = {
        "#/documents/2": ("#documents", ["documents-order", "documents-count", "documents-before"]),
        "#/text/rome": ("#text", ["text-difference", "text-fold", "Show Located at character 0"]),
        "#/curation/1": ("#curation", ["curation-number", "curation-filter", "curation-document"]),
        "#/agreement": ("#agreement", ["Matrix of agreement", "__proto__ ann"]),
    }
    name = "document.activeElement.id || document.activeElement.dataset.pair || document.activeElement.getAttribute('aria-label')"
    for view, (section, wanted) in tabbed.items():
        go(page, tried, "cur", view, section)
        found = []
        for _ in wanted:
            page.key("Tab")
            found.append(page.run(name))
        checks.same(f"Tab in {view}", wanted, found)
        checks.same(f"all that is used in {view} has a name", [], page.unnamed())
        checks.same(f"{view} is marked among the views", 1, page.run("document.querySelectorAll('nav a[aria-current=page]').length"))
    go(page, tried, "cur", "#/curation/1", "#curation")
    checks.same("one row is come to by Tab, with its three buttons", 4, page.run("document.querySelectorAll('#curation-items tbody [tabindex=\"0\"]').length"))


def run(checks: Checks, tried: Tried, browser: Browser) -> None:
    checks.group(front, tried)
    page = browser.page()
    for work in (documents, rome, lanes, hostile, writing, long, curate, more_items, agreement, keyboard):
        checks.group(work, tried, page)
    # The two that a check of the policy made are wanted.
    wanted = [it for it in page.complaints if "Content Security Policy" not in it and "TrustedHTML" not in it and "TrustedScript" not in it]
    checks.same("the browser complains of nothing else", [], wanted)
    for work in (annotator, stranger):
        page = browser.page()
        checks.group(work, tried, page)
        checks.same(f"nor for the {work.__name__}", [], page.complaints)
    checks.group(gone, tried, browser.page())
    checks.group(alone, browser.page())
    checks.group(first_page, browser.page())


def end_at(*_: Any) -> None:
    raise SystemExit(f"the checks did not end within {SECONDS} seconds")


def main() -> int:
    folder = sys.argv[1] if len(sys.argv) > 1 else None
    if folder:
        Path(folder).mkdir(parents=True, exist_ok=True)
    checks = Checks(folder)
    tried: Optional[Tried] = None
    browser: Optional[Browser] = None
    try:
        signal.signal(signal.SIGALRM, end_at)
        signal.signal(signal.SIGTERM, end_at)
        signal.alarm(SECONDS)
        tried = Tried()
        browser = Browser("chromium")
        run(checks, tried, browser)
    finally:
        signal.alarm(0)
        if browser:
            browser.close()
        if tried:
            tried.end()
    print(f"{checks.passed} passed, {checks.failed} failed")
    return 0 if checks.failed == 0 and checks.passed > 0 else 1


if __name__ == "__main__":
    sys.exit(main())
