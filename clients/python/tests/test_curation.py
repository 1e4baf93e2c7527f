"""Curation as docs/curation.md tells it, agreement counted by hand, and examples/curate.py."""

import os
import subprocess
import sys
import unittest
from fractions import Fraction
from pathlib import Path

from served import EXAMPLES, HERE, Served, ServedCase

from annotate_client import Alpha, DecisionRefused, Item, Pair


class Curation(ServedCase):
    """The two layers of docs/curation.md."""

    ANN = "T1\tPerson 0 3\tAnn\nT2\tMeet 4 7\tmet\nE1\tMeet:T2 Who:T1\n"
    BOB = "T1\tMeet 4 7\tmet\nT2\tPerson 0 3\tAnn\nE1\tMeet:T1 Who:T2\nT3\tLocation 15 19\tRome\n"

    def setUp(self) -> None:
        super().setUp()
        self.commit(self.ann, self.ANN, finish=True)
        self.commit(self.bob, self.BOB, finish=True)
        self.assertEqual(self.cur.take_snapshot("rome").number, 1)

    def test_items(self) -> None:
        both = ("ann", "bob")
        self.assertEqual(
            self.cur.items(1),
            [
                Item("ann/T1", "Person 0 3\tAnn", both, "unanimous"),
                Item("ann/T2", "Meet 4 7\tmet", both, "unanimous"),
                Item("ann/E1", "Meet:T2 Who:T1", both, "unanimous"),
                Item("bob/T3", "Location 15 19\tRome", ("bob",), "undecided"),
            ],
        )
        self.assertEqual([(item.holder, item.id, item.is_in) for item in self.cur.items(1)][3], ("bob", "T3", False))

    def test_decisions(self) -> None:
        # Rejecting ann/T1 needs ann/E1 to be rejected first.
        with self.assertRaises(DecisionRefused) as caught:
            self.cur.reject(1, "ann/T1")
        self.assertEqual((caught.exception.refused, caught.exception.of), ("NeedsItem", "ann/E1"))
        self.assertEqual(self.cur.accept(1, "bob/T3"), 1)
        self.assertEqual(self.cur.reject(1, "ann/E1"), 2)
        self.assertEqual([item.state for item in self.cur.items(1)], ["unanimous", "unanimous", "rejected", "accepted"])
        curated = self.cur.curated(1)
        self.assertEqual(curated.lines, ["T1\tPerson 0 3\tAnn", "T2\tMeet 4 7\tmet", "T3\tLocation 15 19\tRome"])
        self.assertEqual(curated["T3"].id, "T3")
        # A verdict that is taken back: the item is in where it is unanimous.
        self.assertEqual(self.cur.undecide(1, "ann/E1"), 1)
        self.assertEqual(self.cur.undecide(1, "bob/T3"), 0)
        self.assertEqual(self.cur.curated(1).lines, self.ANN.splitlines())


class Tables(ServedCase):
    # What a table of items has to put in quotes: a comma, quotes, and both.
    TEXT = 'Ann, "Bob" and Rome'

    def test_cells_in_quotes(self) -> None:
        spans = 'T1\tPerson 0 4\tAnn,\nT2\tPerson 5 10\t"Bob"\nT3\tPerson 0 10\tAnn, "Bob"\n'
        self.commit(self.ann, spans, finish=True)
        self.commit(self.bob, "", finish=True)
        self.cur.take_snapshot("rome")
        lines = [item.line for item in self.cur.items(1)]
        self.assertEqual(lines, ["Person 0 4\tAnn,", 'Person 5 10\t"Bob"', 'Person 0 10\tAnn, "Bob"'])

    def test_a_long_line(self) -> None:
        # Longer than the module csv reads.
        self.cur.add_text("long", "x" * 10_000)
        spans = "".join(f"T{n}\tPerson {n} {n + 1}\tx\n" for n in range(1, 10_000))
        event = "Meet:T10000 Who:T1 " + " ".join(f"Who{n}:T{n}" for n in range(2, 10_000))
        self.assertGreater(len(event), 131_072)
        self.commit(self.ann, f"{spans}T10000\tMeet 0 1\tx\nE1\t{event}\n", "long", finish=True)
        self.commit(self.bob, "", "long", finish=True)
        self.cur.take_snapshot("long")
        self.assertEqual(self.cur.items(1)[-1].line, event)


class Agreement(ServedCase):
    """Five tokens: Ann met Bob in Rome."""

    def test_counted_by_hand(self) -> None:
        self.commit(self.ann, "T1\tPerson 0 3\tAnn\nT2\tPerson 8 11\tBob\n")
        self.commit(self.bob, "T1\tPerson 0 3\tAnn\nT2\tLocation 15 19\tRome\n")
        # Labels of ann: P 0 P 0 0, of bob: P 0 0 0 L. They agree on Ann, met and in: N = 5, D = 3.
        # E = 2 * 1 of Person, 3 * 3 of none, 0 * 1 of Location = 11; kappa = (5 * 3 - 11) / (5 * 5 - 11) = 4/14.
        self.assertEqual(
            self.cur.pairs(),
            [
                Pair("ann", "bob", 5, 3, Fraction(2, 7)),
                Pair("ann", "cid", 0, 0, None),
                Pair("bob", "cid", 0, 0, None),
            ],
        )
        # Ten labels: 3 P, 6 none, 1 L. Each of the 3 tokens agreed gives two equal pairs: A = 6.
        # B = 3 * 2 + 6 * 5 + 1 * 0 = 36; alpha = (9 * 6 - 36) / (10 * 9 - 36) = 18/54.
        self.assertEqual(self.cur.alpha(), Alpha(5, 10, Fraction(1, 3)))
        self.cur.ignore("rome", "bob")
        self.assertEqual(self.cur.pairs()[0], Pair("ann", "bob", 0, 0, None))
        self.assertEqual(self.cur.alpha(), Alpha(0, 0, None))
        self.cur.readmit("rome", "bob")
        self.assertEqual(self.cur.pairs()[0].kappa, Fraction(2, 7))

    def test_three_annotators(self) -> None:
        self.commit(self.ann, "T1\tPerson 0 3\tAnn\nT2\tPerson 8 11\tBob\n")
        self.commit(self.bob, "T1\tPerson 0 3\tAnn\nT2\tLocation 15 19\tRome\n")
        self.commit(self.cid, "T1\tPerson 0 3\tAnn\n")
        # cid: P 0 0 0 0. With ann: D = 4, E = 2 * 1 + 3 * 4 = 14, kappa = (20 - 14) / (25 - 14).
        # With bob: D = 4, E = 1 * 1 + 3 * 4 + 1 * 0 = 13, kappa = (20 - 13) / (25 - 13).
        self.assertEqual([pair.kappa for pair in self.cur.pairs()], [Fraction(2, 7), Fraction(6, 11), Fraction(7, 12)])
        # Fifteen labels: 4 P, 10 none, 1 L. Equal pairs, each of weight 1/2: three tokens that all agree on give 6
        # each, Bob (P 0 0) gives 2, Rome (0 L 0) gives 2: A = 22/2 = 11. B = 4 * 3 + 10 * 9 = 102.
        # alpha = (14 * 11 - 102) / (15 * 14 - 102) = 52/108.
        self.assertEqual(self.cur.alpha(), Alpha(5, 15, Fraction(13, 27)))

    def test_no_figure(self) -> None:
        self.commit(self.ann, "")
        self.commit(self.bob, "")
        # All tokens have the label of those without a span: no two labels could differ.
        self.assertEqual(self.cur.pairs()[0], Pair("ann", "bob", 5, 5, None))
        self.assertEqual(self.cur.alpha(), Alpha(5, 10, None))


class ByARule(ServedCase):
    """examples/curate.py, on layers of examples/."""

    def curate(self, snapshot: str) -> str:
        environment = {**os.environ, "PYTHONPATH": str(HERE.parent), "PYTHONDONTWRITEBYTECODE": "1"}
        script = [sys.executable, str(EXAMPLES / "curate.py"), f"http://127.0.0.1:{self.served.port}", "cur", snapshot]
        return subprocess.run(script, env=environment, check=True, stdout=subprocess.PIPE).stdout.decode("utf-8")

    def test_a_majority_of_three(self) -> None:
        marks = Path(EXAMPLES / "marks/rome.ann").read_text(encoding="utf-8")
        self.commit(self.ann, "T1\tPerson 0 3\tAnn\nT2\tOrganization 8 11\tBob\n", finish=True)
        self.commit(self.bob, marks, finish=True)
        # cid numbers otherwise, so that the event's arguments have other IDs, and has no relation.
        self.commit(
            self.cid,
            "T5\tPerson 0 3\tAnn\nT4\tPerson 8 11\tBob\nT3\tLocation 15 19\tRome\nT2\tMeet 4 7\tmet\n"
            "E7\tMeet:T2 Place:T3 Who:T4 Who2:T5\n",
            finish=True,
        )
        self.cur.take_snapshot("rome")
        # All have Ann; bob and cid have Bob as a person, Rome, met and the event; ann alone has Bob as an organization,
        # bob alone the relation. Items come by holder: ann/T1, then bob's T2, T3, T9, E1.
        wanted = (
            "T1\tPerson 0 3\tAnn\nT2\tPerson 8 11\tBob\nT3\tLocation 15 19\tRome\nT4\tMeet 4 7\tmet\n"
            "E1\tMeet:T4 Who:T1 Who2:T2 Place:T3\n"
        )
        self.assertEqual(self.curate("1"), wanted)
        # What somebody accepted against the rule goes out again, and what is in already needs no verdict.
        self.cur.accept(1, "bob/R1")
        self.cur.accept(1, "ann/T2")
        self.assertEqual(self.curate("1"), wanted)
        self.assertEqual(
            [item.state for item in self.cur.items(1)],
            ["unanimous", "rejected", "accepted", "accepted", "accepted", "accepted", "rejected"],
        )

    def test_what_depends_goes_out_first(self) -> None:
        self.commit(self.ann, "", finish=True)
        both = "T1\tPerson 0 3\tAnn\nT9\tMeet 4 7\tmet\nE1\tMeet:T9 Who:T1\nA1\tNegation E1\n"
        self.commit(self.bob, both, finish=True)
        self.commit(self.cid, both, finish=True)
        self.cur.take_snapshot("rome")
        wanted = "T1\tPerson 0 3\tAnn\nT2\tMeet 4 7\tmet\nE1\tMeet:T2 Who:T1\nA1\tNegation E1\n"
        self.assertEqual(self.curate("1"), wanted)
        # Of two layers one is no majority, though the other has nothing.
        self.cur.add_text("oslo", "Eva met Ole in Oslo\n")
        self.commit(self.ann, "", "oslo", finish=True)
        self.commit(self.bob, "T1\tPerson 0 3\tEva\n", "oslo", finish=True)
        self.cur.take_snapshot("oslo")
        self.assertEqual(self.curate("2"), "")

    def test_what_is_named_comes_in_first(self) -> None:
        self.served.end()
        self.served = Served("[entities]\nPerson\n[events]\nMeet\tThen*:Meet\n")
        self.addCleanup(self.served.end)
        self.cur = self.served.project("cur")
        self.cur.add_text("rome", self.TEXT)
        # The first event names the second, which is the later item.
        both = "T1\tMeet 0 3\tAnn\nT2\tMeet 4 7\tmet\nE1\tMeet:T1 Then:E2\nE2\tMeet:T2\n"
        for name, ann in (("ann", ""), ("bob", both), ("cid", both)):
            self.commit(self.served.project(name), ann, finish=True)
        self.cur.take_snapshot("rome")
        self.assertEqual(self.curate("1"), both)


if __name__ == "__main__":
    unittest.main()
