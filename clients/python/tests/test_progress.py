"""Who takes part, how far each is, and how far each snapshot is decided, as docs/formats.md tells it."""

import unittest

from served import Served, ServedCase

from annotate_client import Curation, Person, Progress


class WhoIsDone(ServedCase):
    def test_the_people(self) -> None:
        people = [("ann", "annotator"), ("bob", "annotator"), ("cid", "annotator"), ("cur", "curator")]
        self.assertEqual(self.cur.roster(), [Person(name, role) for name, role in people])

    def test_nothing_was_begun(self) -> None:
        self.assertEqual(self.cur.progress(), [Progress("rome", name, 0, "none", False, 0, 0) for name in ("ann", "bob", "cid")])

    def test_each_state(self) -> None:
        self.cur.add_text("oslo", "Eva met Ole in Oslo\n")
        # Two spans and a class, which is not counted; then a finished layer.
        self.commit(self.ann, "T1\tPerson 0 3\tAnn\nT2\tPerson 8 11\tBob\n*\tEquiv T1 T2\n", finish=True)
        # Two commits, each of one span, and a third span that is parked; a layer that is ignored.
        with self.bob.desk("rome") as desk:
            for place in ((0, 3), (8, 11)):
                desk.add_span("Person", place)
                desk.commit()
            desk.add_span("Location", (15, 19))
        self.cur.ignore("rome", "bob")
        # Three commands, of which one is undone, and no commit.
        with self.cid.desk("rome") as desk:
            for place in ((0, 3), (4, 7), (8, 11)):
                desk.add_span("Person", place)
            desk.undo()
        # A layer that is out and was never committed, and one that is out behind a commit.
        out = [self.ann.desk("oslo"), self.bob.desk("oslo")]
        out[1].add_span("Person", (0, 3))
        out[1].commit()
        self.assertEqual(
            self.cur.progress(),
            [
                Progress("rome", "ann", 1, "finished", False, 2, 0),
                Progress("rome", "bob", 2, "open", True, 2, 1),
                Progress("rome", "cid", 0, "none", False, 0, 2),
                Progress("oslo", "ann", 0, "out", False, 0, 0),
                Progress("oslo", "bob", 1, "out", False, 1, 0),
                Progress("oslo", "cid", 0, "none", False, 0, 0),
            ],
        )
        # An annotator is told the own rows.
        self.assertEqual(self.ann.progress(), [Progress("rome", "ann", 1, "finished", False, 2, 0), Progress("oslo", "ann", 0, "out", False, 0, 0)])
        for desk in out:
            desk.park()
        self.cur.reopen("rome", "ann")
        self.cur.readmit("rome", "bob")
        found = {(it.document, it.annotator): (it.state, it.ignored) for it in self.cur.progress()}
        self.assertEqual(found["rome", "ann"], ("open", False))
        self.assertEqual(found["rome", "bob"], ("open", False))
        self.assertEqual(found["oslo", "ann"], ("none", False))
        self.assertEqual(found["oslo", "bob"], ("open", False))

    def test_a_layer_that_was_out_at_a_crash_is_free(self) -> None:
        desk = self.ann.desk("rome")
        desk.add_span("Person", (0, 3))
        self.assertEqual(self.cur.progress()[0], Progress("rome", "ann", 0, "out", False, 0, 0))
        self.served.kill()
        self.served.start()
        cur = self.served.project("cur", self.served.port)
        self.assertEqual(cur.progress()[0], Progress("rome", "ann", 0, "none", False, 0, 0))

    def test_one_annotator(self) -> None:
        served = Served(roster="cur,curator\neve,annotator\nann,curator\n")
        self.addCleanup(served.end)
        cur = served.project("cur")
        self.assertEqual(cur.roster(), [Person("ann", "curator"), Person("cur", "curator"), Person("eve", "annotator")])
        self.assertEqual((cur.progress(), cur.snapshots()), ([], []))


class HowFarCurationIs(ServedCase):
    """The two layers of docs/curation.md, whose items are ann/T1, ann/T2, ann/E1, which both have, and bob/T3."""

    ANN = "T1\tPerson 0 3\tAnn\nT2\tMeet 4 7\tmet\nE1\tMeet:T2 Who:T1\n"
    BOB = "T1\tMeet 4 7\tmet\nT2\tPerson 0 3\tAnn\nE1\tMeet:T1 Who:T2\nT3\tLocation 15 19\tRome\n"

    def test_as_it_is_decided(self) -> None:
        self.assertEqual(self.cur.snapshots(), [])
        self.commit(self.ann, self.ANN, finish=True)
        self.commit(self.bob, self.BOB, finish=True)
        self.cur.take_snapshot("rome")
        self.assertEqual(self.cur.snapshots(), [Curation(1, "rome", 2, 4, 3, 0, 0, 1)])
        # One that all have and that is rejected stays among the unanimous.
        self.cur.accept(1, "bob/T3")
        self.cur.reject(1, "ann/E1")
        self.assertEqual(self.cur.snapshots(), [Curation(1, "rome", 2, 4, 3, 1, 1, 0)])
        self.cur.undecide(1, "bob/T3")
        self.assertEqual(self.cur.snapshots(), [Curation(1, "rome", 2, 4, 3, 0, 1, 1)])

    def test_several(self) -> None:
        self.cur.add_text("oslo", "Eva met Ole in Oslo\n")
        # Of oslo three layers: all have Eva, two of them Ole, one Oslo, and cid has nothing else.
        eva = "T1\tPerson 0 3\tEva\n"
        self.commit(self.ann, eva + "T2\tPerson 8 11\tOle\n", "oslo", finish=True)
        self.commit(self.bob, eva + "T2\tPerson 8 11\tOle\nT3\tLocation 15 19\tOslo\n", "oslo", finish=True)
        self.commit(self.cid, eva, "oslo", finish=True)
        # Of rome two layers with nothing in them, and a second snapshot of it once cid has finished too.
        self.commit(self.ann, "", finish=True)
        self.commit(self.bob, "", finish=True)
        for name in ("rome", "oslo"):
            self.cur.take_snapshot(name)
        self.commit(self.cid, "T1\tPerson 0 3\tAnn\n", finish=True)
        self.cur.take_snapshot("rome")
        self.cur.accept(2, "ann/T2")
        self.assertEqual(
            self.cur.snapshots(),
            [
                Curation(1, "rome", 2, 0, 0, 0, 0, 0),
                Curation(2, "oslo", 3, 3, 1, 1, 0, 1),
                Curation(3, "rome", 3, 1, 0, 0, 0, 1),
            ],
        )


if __name__ == "__main__":
    unittest.main()
