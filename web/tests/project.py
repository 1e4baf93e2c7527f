"""The projects that the page is tried on, served behind the front of examples/haproxy.cfg."""

from __future__ import annotations

import os
import re
import shutil
import signal
import ssl
import subprocess
import sys
import tempfile
import time
import urllib.error
import urllib.request
from base64 import b64encode
from pathlib import Path
from typing import Dict, List, Optional, Tuple

TOP = Path(__file__).resolve().parents[2]
sys.path.insert(0, str(TOP / "clients/python/tests"))

from served import PROGRAM, Haproxy, Served, free_port  # noqa: E402

from annotate_client import Project  # noqa: E402

# The front knows eve, and the project does not.
PEOPLE = ("__proto__", "ann", "bob", "cid", "cur", "eve")
ROSTER = "__proto__,annotator\nann,annotator\nbob,annotator\ncid,annotator\ncur,curator\n"

ROME = "Ann met Bob in Rome\n"
HOSTILE = "<script>hacked=1</script> \"q\" & 'a' <img src=x onerror=hacked=1> \u202egnirts\u202c &amp; end\nnull\x00byte\n"
HEBREW = "דנה פגשה את Bob בירושלים.\nEva met דנה in Oslo.\n"
# A mark at the start, a letter with an accent of its own, a face and a pilot of two characters with a joiner.
SIGNS = "\ufeffe\u0301 \U0001f600 \U0001f469\u200d\U0001f680 Bob x\n"
MANY = " ".join(f"w{number:02}" for number in range(60)) + "\n"
LONG = "abcd " * 40000


def spans(words: str, kind: str, step: int = 1, count: Optional[int] = None) -> str:
    """The .ann lines of spans over each step-th of the words of a text that are parted by one blank."""
    lines, at, number = [], 0, 0
    for place, word in enumerate(words.split()):
        if place % step == 0 and (count is None or number < count):
            number += 1
            lines.append(f"T{number}\t{kind} {at} {at + len(word)}\t{word}\n")
        at += len(word) + 1
    return "".join(lines)


LAYERS: Dict[Tuple[str, str], str] = {
    ("rome", "ann"): "T1\tPerson 0 3\tAnn\nT2\tPerson 8 11\tBob\n",
    ("rome", "bob"): (TOP / "examples/news.ann").read_text(encoding="utf-8"),
    ("lima", "cid"): "T1\tPerson 0 4\tJuan\n",
    ("empty", "ann"): "",
    ("hostile", "ann"): "T1\tPerson 0 8\t<script>\nT2\tPerson 36 40\t<img\n#1\tAnnotatorNotes T1\t<b onclick=hacked=1>bold</b> \u202eover\n",
    ("hebrew", "ann"): "T1\tPerson 0 3\tדנה\nT2\tLocation 16 24\tבירושלים\nT3\tPerson 34 37\tדנה\n",
    ("signs", "ann"): "T1\tPerson 10 13\tBob\nT2\tPerson 14 15\tx\n",
    ("lanes", "ann"): "T1\tOrganization 0 13\tAnn Bob Limit\nT2\tPerson 4 7\tBob\nT3\tPerson 0 3;8 13\tAnn Limit\n*\tEquiv T2 T3\n",
    ("lanes", "bob"): "T1\tPerson 4 7\tBob\nT2\tMeet 14 17\tmet\nT3\tLocation 18 22\tRome\nT4\tPerson 0 3\tAnn\n"
    "E1\tMeet:T2 Who:T1 Who2:T4 Place:T3\nA1\tConfidence E1 High\n",
    ("lanes", "cid"): "T5\tLocation 18 22\tRome\nT6\tMeet 14 17\tmet\nT7\tPerson 4 7\tBob\nT8\tPerson 0 3\tAnn\n"
    "E8\tMeet:T6 Place:T5 Who:T8 Who2:T7\nA2\tConfidence E8 Low\n"
    # One that is there three times is still in one layer of three.
    + "".join(f'N{number}\tReference T5 Wikipedia:1\tRome, "the city"\n' for number in (1, 2, 3)),
    ("many", "ann"): spans(MANY, "Person"),
    ("many", "bob"): "",
    ("long", "ann"): spans(LONG, "Person", 16),
    ("long", "cid"): spans(LONG, "Person", 16, 2499),
}
TEXTS: Dict[str, str] = {
    "rome": ROME,
    "lima": "Juan lives in Lima\n",
    "empty": "Nothing here\n",
    "hostile": HOSTILE,
    "hebrew": HEBREW,
    "signs": SIGNS,
    "lanes": "Ann Bob Limit met Rome\n\nand no more\n",
    "many": MANY,
    **{f"d{number:02}": f"text {number}\n" for number in range(1, 16)},
    "long": LONG,
}
# Spans that are parked and not committed.
DRAFTS: Dict[Tuple[str, str], Tuple[Tuple[int, int], ...]] = {("empty", "cid"): ((0, 7), (8, 12)), ("hostile", "ann"): ((9, 15),)}
# Layers that are on a desk all the while, one of them behind a commit, and one that is ignored.
OUT = (("signs", "bob"), ("lima", "cid"))
IGNORED = ("hebrew", "ann")
FINISHED = (("rome", "ann"), ("rome", "bob"), ("many", "ann"), ("many", "bob"), ("lanes", "bob"), ("lanes", "cid"))


class Tried:
    """The project, its server, and the front on a port of its own."""

    def __init__(self) -> None:
        self._front: Optional[Haproxy] = None
        self.served = Served(roster=ROSTER)
        try:
            self._fill()
            self._front = Haproxy(self.served.port, PEOPLE)
        except BaseException:
            self.end()
            raise
        self.address = self._front.url

    def _fill(self) -> None:
        curator = self.project("cur")
        for name, words in TEXTS.items():
            curator.add_text(name, words)
        for (name, annotator), lines in LAYERS.items():
            with self.project(annotator).desk(name) as desk:
                if lines:
                    desk.load(lines)
                desk.commit()
        for (name, annotator), places in DRAFTS.items():
            with self.project(annotator).desk(name) as desk:
                for place in places:
                    desk.add_span("Person", place)
        for name, annotator in FINISHED:
            self.project(annotator).finish(name)
        curator.ignore(*IGNORED)
        self._desks = [self.project(annotator).desk(name) for name, annotator in OUT]

    def project(self, caller: str) -> Project:
        return Project(f"http://127.0.0.1:{self.served.port}", caller, timeout=100)

    def url(self, person: str, view: str = "") -> str:
        """The address of the page with a person's name and password."""
        return self.address.replace("https://", f"https://{person}:{person}-secret@") + f"/page/{view}"

    def ask(self, path: str, person: str = "", method: str = "GET", fields: Optional[Dict[str, str]] = None) -> Tuple[int, Dict[str, str], str]:
        """What the front answers: status, fields and body. Status 0 is no answer."""
        sent = dict(fields or {})
        if person:
            sent["Authorization"] = "Basic " + b64encode(f"{person}:{person}-secret".encode()).decode()
        request = urllib.request.Request(self.address + path, method=method, headers=sent)
        try:
            with urllib.request.urlopen(request, timeout=20, context=ssl._create_unverified_context()) as answer:
                return answer.status, {key.lower(): value for key, value in answer.headers.items()}, answer.read().decode()
        except urllib.error.HTTPError as error:
            return error.code, {key.lower(): value for key, value in error.headers.items()}, error.read().decode()
        except OSError:
            return 0, {}, ""

    def items(self, number: int) -> List[Tuple[str, str]]:
        """The items of a snapshot and their states, asked of the server itself."""
        return [(item.name, item.state) for item in self.project("cur").items(number)]

    def end_front(self) -> None:
        if self._front is not None:
            self._front.end()
            self._front = None

    def end(self) -> None:
        self.end_front()
        self.served.end()


class FirstPage:
    """The project of README.md, served by the lines of its part "See it" as they stand there, but for the ports."""

    def __init__(self) -> None:
        self._folder = tempfile.TemporaryDirectory()
        folder = Path(self._folder.name)
        shutil.copytree(TOP / "examples", folder / "examples")
        (folder / "web").symlink_to(TOP / "web")
        (folder / "annotate").symlink_to(PROGRAM)
        page = (TOP / "README.md").read_text(encoding="utf-8")
        part = page.split("## See it\n", 1)[1].split("\n## ", 1)[0]
        lines = "\n".join(re.findall(r"^    (.*)$", part, re.MULTILINE))
        settings = (TOP / "examples/haproxy.cfg").read_text(encoding="utf-8")
        for port in ("8443", "8080", "8081"):
            free = str(free_port())
            lines, settings, part = lines.replace(port, free), settings.replace(port, free), part.replace(port, free)
        (folder / "examples/haproxy.cfg").write_text(settings, encoding="utf-8")
        self.address = re.findall(r"https://[^ ,]*/", part)[0]
        run = [PROGRAM, "found", "news.book", "examples/news.conf", "examples/roster.csv"]
        subprocess.run(run, cwd=folder, check=True, stdout=subprocess.DEVNULL)
        run = [PROGRAM, "add", "news.book", "cur", "rome", "examples/texts/rome.txt"]
        subprocess.run(run, cwd=folder, check=True, stdout=subprocess.DEVNULL)
        run = ["bash", "-c", lines]
        self._process = subprocess.Popen(run, cwd=folder, stdout=subprocess.DEVNULL, stderr=subprocess.DEVNULL, start_new_session=True)
        try:
            self._wait()
        except BaseException:
            self.end()
            raise

    def _wait(self) -> None:
        """Waits until the front answers that it wants a password."""
        until = time.monotonic() + 30
        while time.monotonic() < until:
            try:
                urllib.request.urlopen(self.address, timeout=5, context=ssl._create_unverified_context())
            except urllib.error.HTTPError:
                return
            except OSError:
                time.sleep(0.1)
        raise RuntimeError("the lines of README.md serve nothing")

    def end(self) -> None:
        os.killpg(self._process.pid, signal.SIGTERM)
        self._process.wait(10)
        self._folder.cleanup()
