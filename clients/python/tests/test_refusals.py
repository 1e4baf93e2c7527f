"""Each family of refusals, with what it names, its line and its status, as docs/http.md and docs/rules.md say."""

import os
import pickle
import re
import unittest
from functools import partial
from typing import Callable, Optional, Type

from served import TOP, ServedCase

from annotate_client import (
    BadRequest,
    DecisionRefused,
    DeskRefused,
    FileRefused,
    NotAllowed,
    NotConnected,
    NotThere,
    Refused,
    RuleBroken,
    ServerFault,
    StateRefused,
    Stopped,
)
from annotate_client.errors import FAMILIES, family_of


class Refusals(ServedCase):
    def refuses(
        self,
        family: Type[Refused],
        status: int,
        refused: str,
        of: Optional[str],
        ask: Callable[[], object],
        line: Optional[int] = None,
    ) -> Refused:
        with self.assertRaises(family) as caught:
            ask()
        error = caught.exception
        self.assertEqual((error.status, error.refused, error.of, error.line), (status, refused, of, line))
        return error

    def test_rules(self) -> None:
        with self.ann.desk("rome") as desk:
            self.refuses(RuleBroken, 409, "NothingToUndo", None, desk.undo)
            self.refuses(RuleBroken, 409, "NothingToRedo", None, desk.redo)
            desk.add_span("Person", (0, 3))
            error = self.refuses(RuleBroken, 422, "SameSpan", "T1", lambda: desk.add_span("Person", (0, 3)))
            self.assertEqual(str(error), "SameSpan T1 (status 422 of POST /desk/do)")
            self.refuses(RuleBroken, 422, "OutOfText", None, lambda: desk.add_span("Person", (0, 21)))
            self.refuses(RuleBroken, 422, "BadFragments", None, lambda: desk.add_span("Person", (5, 3)))
            self.refuses(RuleBroken, 422, "NotForUse", None, lambda: desk.add_span("Agent", (0, 3)))
            self.refuses(RuleBroken, 422, "NoSuch", "T9", lambda: desk.delete("T9"))
            desk.add_span("Meet", (4, 7))
            desk.add_event("Meet", "T2", [])
            # At a commit only: Meet is declared with Who+, and this one has none.
            self.refuses(RuleBroken, 422, "TooFew", "E1 Who", desk.commit)
            desk.add_arg("E1", "Who:T1")
            self.refuses(RuleBroken, 422, "InUse", "E1", lambda: desk.delete("T1"))
            self.assertEqual(desk.steps.done, 4)
            self.assertEqual(desk.commit(), 1)

    def test_a_refusal_that_is_pickled(self) -> None:
        error = self.refuses(NotThere, 404, "NoDocument", None, lambda: self.ann.text("oslo"))
        again = pickle.loads(pickle.dumps(error))
        self.assertEqual((type(again), str(again), again.__dict__), (NotThere, str(error), error.__dict__))

    def test_files(self) -> None:
        with self.ann.desk("rome") as desk:
            desk.add_span("Person", (0, 3))
            twice = "T1\tPerson 0 3\tAnn\nT1\tPerson 8 11\tBob\n"
            self.refuses(FileRefused, 422, "IdTwice", None, lambda: desk.load(twice), line=2)
            # The quote differs from the text at its character 2, from 0.
            wrong = "T1\tPerson 0 3\tAnn\n\nT2\tPerson 8 11\tBot\n"
            self.refuses(FileRefused, 422, "WrongText", "2", lambda: desk.load(wrong), line=3)
            city = "T1\tPerson 0 3\tAnn\nT2\tCity 15 19\tRome\n"
            self.refuses(RuleBroken, 422, "UnknownType", None, lambda: desk.load(city), line=2)
            same = "T1\tPerson 0 3\tAnn\nT2\tPerson 0 3\tAnn\n"
            self.refuses(RuleBroken, 422, "SameSpan", "T1", lambda: desk.load(same), line=2)
            # A refusal leaves the layer and what is done as they were.
            self.assertEqual((desk.layer().lines, desk.steps.done), (["T1\tPerson 0 3\tAnn"], 1))

    def test_people(self) -> None:
        eve = self.served.project("eve")
        self.refuses(NotAllowed, 401, "NotAllowed", "Roster", eve.docs)
        self.refuses(NotAllowed, 403, "NotAllowed", "Curator", self.ann.pairs)
        for project, status, of in ((self.ann, 403, "Curator"), (eve, 401, "Roster")):
            for ask in (project.roster, project.snapshots):
                self.refuses(NotAllowed, status, "NotAllowed", of, ask)
        self.refuses(NotAllowed, 401, "NotAllowed", "Roster", eve.progress)
        self.refuses(NotAllowed, 403, "NotAllowed", "Own", lambda: self.ann.layer("rome", "bob"))
        self.refuses(NotAllowed, 403, "NotAllowed", "Annotator", lambda: self.cur.desk("rome"))
        self.refuses(BadRequest, 401, "NoCaller", None, self.served.project(".eve").docs)
        self.refuses(BadRequest, 401, "NoCaller", None, self.served.project("zoë").docs)

    def test_what_is_not_there(self) -> None:
        self.refuses(NotThere, 404, "NoDocument", None, lambda: self.ann.text("oslo"))
        self.refuses(NotThere, 404, "NoDocument", None, lambda: self.ann.desk("oslo"))
        self.refuses(NotThere, 404, "NoLayer", None, lambda: self.cur.layer("rome", "ann"))
        self.refuses(NotThere, 404, "NoSnapshot", None, lambda: self.cur.items(1))
        for name in ("a b", "", "x/y", "..", "é", "a?b", "a#b"):
            self.refuses(BadRequest, 404, "NoRoute", None, partial(self.ann.text, name))

    def test_what_the_state_does_not_allow(self) -> None:
        self.refuses(StateRefused, 409, "DocumentThere", None, lambda: self.cur.add_text("rome", ""))
        self.refuses(StateRefused, 409, "NothingCommitted", None, lambda: self.ann.finish("rome"))
        self.refuses(StateRefused, 409, "TooFewFinished", "0", lambda: self.cur.take_snapshot("rome"))
        self.commit(self.ann, "", finish=True)
        self.refuses(StateRefused, 409, "Finished", None, lambda: self.ann.desk("rome"))
        self.refuses(StateRefused, 409, "NotIgnored", None, lambda: self.cur.readmit("rome", "ann"))
        self.cur.ignore("rome", "ann")
        self.refuses(StateRefused, 409, "AlreadyIgnored", None, lambda: self.cur.ignore("rome", "ann"))
        self.cur.reopen("rome", "ann")
        self.refuses(StateRefused, 409, "NotFinished", None, lambda: self.cur.reopen("rome", "ann"))

    def test_decisions(self) -> None:
        person = "T1\tPerson 0 3\tAnn\n"
        self.commit(self.ann, person, finish=True)
        self.commit(self.bob, person + "T2\tMeet 4 7\tmet\nE1\tMeet:T2 Who:T1\n", finish=True)
        self.cur.take_snapshot("rome")
        self.refuses(DecisionRefused, 409, "AlreadyIn", None, lambda: self.cur.accept(1, "ann/T1"))
        self.refuses(DecisionRefused, 409, "NotIn", None, lambda: self.cur.reject(1, "bob/T2"))
        self.refuses(DecisionRefused, 409, "NotDecided", None, lambda: self.cur.undecide(1, "bob/T2"))
        self.refuses(DecisionRefused, 409, "NeedsItem", "bob/T2", lambda: self.cur.accept(1, "bob/E1"))
        self.refuses(NotThere, 404, "NoItem", None, lambda: self.cur.accept(1, "cid/T1"))

    def test_bodies(self) -> None:
        with self.ann.desk("rome") as desk:
            self.refuses(BadRequest, 400, "BadBody", None, lambda: desk.add_span("Person"))
            self.refuses(BadRequest, 400, "BadBody", None, lambda: desk.delete("Ann"))
            self.assertEqual(desk.add_span("Person", (0, 3)), "T1")
        self.refuses(BadRequest, 413, "TextTooLong", None, lambda: self.cur.add_text("long", "x" * 200_001))

    def test_a_body_that_is_too_large_ends_the_connection(self) -> None:
        error = self.refuses(Stopped, 413, "TooLarge", None, lambda: self.cur.add_text("long", "x" * 5_000_000))
        self.assertTrue(error.ended)
        desk = self.ann.desk("rome")
        desk.add_span("Person", (0, 3))
        self.refuses(Stopped, 413, "TooLarge", None, lambda: desk.load("x" * 5_000_000))
        self.assertFalse(desk.is_open)
        with self.assertRaises(NotConnected):
            desk.layer()
        back = desk.reconnect()
        self.assertEqual((back.done, back.missing, back.unanswered, back.sure), (1, (), None, True))
        desk.park()

    def test_a_change_that_is_not_kept(self) -> None:
        with self.assertRaises(ServerFault) as caught:
            with self.ann.desk("rome") as desk:
                desk.add_span("Person", (0, 3))
                # A file that is gone is not written.
                os.remove(self.served.book)
                self.refuses(ServerFault, 500, "Keeper", None, desk.commit)
                self.assertEqual((desk.is_open, desk.steps.done), (True, 1))
        self.assertEqual(caught.exception.request, "POST /desk/park")
        self.assertFalse(desk.is_open)

    def test_each_name_of_the_pages_has_its_family(self) -> None:
        rules = (TOP / "docs/rules.md").read_text(encoding="utf-8")
        self.assertEqual(set(re.findall(r"^\| \d+ \| `(\w+)` \|", rules, re.MULTILINE)), RuleBroken.names)
        page = (TOP / "docs/http.md").read_text(encoding="utf-8")
        stops, routes = page.split("## The routes of a project", 1)
        named = re.compile(r"^\| (\w+) \| \d{3} \| ", re.MULTILINE)
        self.assertEqual(set(named.findall(stops)), Stopped.names)
        for name in named.findall(routes):
            self.assertIn(family_of(name), (BadRequest, DeskRefused), name)
        # In the table of routes the last column has what each refuses.
        rows = re.findall(r"^\| `.*\|$", routes, re.MULTILINE)
        refused = {name for row in rows for name in row.split("|")[-2].strip().split(", ")}
        self.assertIn("TooFewFinished", refused)
        for name in refused - {"", "a rule", "the same", "then as `docs/curation.md` says"}:
            self.assertIn(family_of(name), (NotThere, DeskRefused, StateRefused), name)
        curation = (TOP / "docs/curation.md").read_text(encoding="utf-8")
        for name in re.findall(r"^\| `(\w+)` \|", curation, re.MULTILINE):
            self.assertTrue(name == "Broken" or family_of(name) in (DecisionRefused, NotThere), name)
        self.assertEqual(len(set().union(*(it.names for it in FAMILIES))), sum(len(it.names) for it in FAMILIES))


if __name__ == "__main__":
    unittest.main()
