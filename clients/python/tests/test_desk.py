"""Every command and every route; what is expected follows docs/http.md and docs/formats.md."""

import unittest

from served import EXAMPLES, ServedCase

from annotate_client import (
    Argument,
    Attribute,
    Command,
    Document,
    Equivalence,
    Event,
    Normalization,
    Note,
    Relation,
    Snapshot,
    Span,
    Steps,
)


class Commands(ServedCase):
    def test_each_command(self) -> None:
        with self.ann.desk("rome") as desk:
            # A new annotation has the number behind the greatest of its letter, or 1.
            self.assertEqual(desk.add_span("Person", (0, 3)), "T1")
            self.assertEqual(desk.add_span("Person", (8, 11)), "T2")
            self.assertEqual(desk.add_span("Location", (15, 19)), "T3")
            self.assertEqual(desk.add_span("Meet", (4, 7)), "T4")
            self.assertEqual(desk.add_event("Meet", "T4", ["Who:T1"]), "E1")
            desk.add_arg("E1", "Place:T3")
            desk.add_arg("E1", "Who:T2")
            arguments = (Argument("Who", "T1"), Argument("Place", "T3"), Argument("Who", "T2"))
            self.assertEqual(desk.layer()["E1"], Event("E1", "Meet", "T4", arguments))
            self.assertEqual(desk.layer().lines[4], "E1\tMeet:T4 Who:T1 Place:T3 Who2:T2")
            desk.remove_arg("E1", "Place:T3")
            self.assertEqual(desk.add_relation("Located", "T1", "T3"), "R1")
            self.assertEqual(desk.set_attribute("Confidence", "E1", "High"), "A1")
            self.assertIsNone(desk.set_attribute("Confidence", "E1", "Low"))
            self.assertEqual(desk.set_attribute("Negation", "E1"), "A2")
            self.assertEqual(desk.set_note("T1", "AnnotatorNotes", "which Ann?"), "#1")
            self.assertIsNone(desk.set_note("T1", "AnnotatorNotes", "Ann\tthe first"))
            self.assertEqual(desk.set_reference("T3", "Wikipedia:Rome:City", "Rome"), "N1")
            self.assertIsNone(desk.set_reference("T3", "Wikipedia:Rome:City", "Roma"))
            desk.equate("Equiv", ["T2", "T1"])
            layer = desk.layer()
            # T, E, R, then classes with ascending members, then A, N and #.
            self.assertEqual(
                layer.ann,
                "T1\tPerson 0 3\tAnn\nT2\tPerson 8 11\tBob\nT3\tLocation 15 19\tRome\nT4\tMeet 4 7\tmet\n"
                "E1\tMeet:T4 Who:T1 Who2:T2\nR1\tLocated Arg1:T1 Arg2:T3\n*\tEquiv T1 T2\n"
                "A1\tConfidence E1 Low\nA2\tNegation E1\nN1\tReference T3 Wikipedia:Rome:City\tRoma\n"
                "#1\tAnnotatorNotes T1\tAnn\tthe first\n",
            )
            self.assertEqual(layer.spans[2], Span("T3", "Location", ((15, 19),), "Rome"))
            self.assertEqual(layer.events, (Event("E1", "Meet", "T4", (Argument("Who", "T1"), Argument("Who", "T2"))),))
            located = Relation("R1", "Located", Argument("Arg1", "T1"), Argument("Arg2", "T3"))
            self.assertEqual(layer.relations, (located,))
            self.assertEqual(layer.equivalences, (Equivalence("Equiv", ("T1", "T2")),))
            self.assertEqual(
                layer.attributes, (Attribute("A1", "Confidence", "E1", "Low"), Attribute("A2", "Negation", "E1", None))
            )
            self.assertEqual(layer.normalizations, (Normalization("N1", "T3", "Wikipedia", "Rome:City", "Roma"),))
            self.assertEqual(layer.notes, (Note("#1", "AnnotatorNotes", "T1", "Ann\tthe first"),))
            self.assertEqual((layer["R1"].id, "T9" in layer, "T4" in layer), ("R1", False, True))
            desk.unequate("Equiv", "T2")
            desk.clear_attribute("A2")
            desk.retype("T2", "Organization")
            desk.move("T2", (8, 9), (10, 11))
            self.assertEqual(desk.layer()["T2"], Span("T2", "Organization", ((8, 9), (10, 11)), "B b"))
            self.assertEqual(desk.layer().equivalences, ())
            desk.delete("R1")
            desk.purge("T1")
            # E1 names T1, A1 is of E1, and #1 of T1: all three go with it.
            self.assertEqual(
                desk.layer().lines,
                [
                    "T2\tOrganization 8 9;10 11\tB b",
                    "T3\tLocation 15 19\tRome",
                    "T4\tMeet 4 7\tmet",
                    "N1\tReference T3 Wikipedia:Rome:City\tRoma",
                ],
            )

    def test_undo_and_redo(self) -> None:
        with self.ann.desk("rome") as desk:
            desk.add_span("Person", (0, 3))
            desk.add_span("Person", (8, 11))
            self.assertEqual(desk.undo(), Steps(1, 1))
            self.assertEqual([span.id for span in desk.layer().spans], ["T1"])
            self.assertEqual(desk.redo(), Steps(2, 0))
            desk.undo()
            desk.add_span("Location", (15, 19))
            # What is accepted ends what could be redone.
            self.assertEqual(desk.steps, Steps(2, 0))
            desk.load("T7\tPerson 0 3\tAnn\n")
            self.assertEqual(desk.layer().lines, ["T7\tPerson 0 3\tAnn"])
            desk.undo()
            self.assertEqual([span.type for span in desk.layer().spans], ["Person", "Location"])
            self.assertEqual([(it.do, it.made) for it in desk.uncommitted], [("add-span", "T1"), ("add-span", "T2")])

    def test_commit_park_and_what_was_parked(self) -> None:
        with self.ann.desk("rome") as desk:
            desk.add_span("Person", (0, 3))
            self.assertEqual(desk.commit(), 1)
            self.assertEqual((desk.steps, desk.uncommitted), (Steps(0, 0), ()))
            desk.add_span("Person", (8, 11))
            desk.add_span("Location", (15, 19))
            desk.undo()
        self.assertFalse(desk.is_open)
        self.assertEqual(self.ann.layer("rome", "ann").lines, ["T1\tPerson 0 3\tAnn"])
        with self.ann.desk("rome") as desk:
            self.assertEqual((desk.steps, desk.revision, desk.uncommitted), (Steps(1, 1), 1, ()))
            self.assertEqual(desk.redo(), Steps(2, 0))
            self.assertEqual(desk.commit(), 2)
        self.assertEqual([span.id for span in self.ann.layer("rome", "ann").spans], ["T1", "T2", "T3"])

    def test_an_exception_parks(self) -> None:
        with self.assertRaisesRegex(ValueError, "of the user"):
            with self.ann.desk("rome") as desk:
                desk.add_span("Person", (0, 3))
                raise ValueError("of the user")
        with self.ann as project:
            left = project.desk("rome")
            self.assertEqual(left.steps.done, 1)
        self.assertFalse(left.is_open)
        # The layer is not out any more.
        self.ann.desk("rome").park()

    def test_the_desk_reads_its_text(self) -> None:
        with self.ann.desk("rome") as desk:
            self.assertEqual(desk.text()[8:11], "Bob")

    def test_a_command_given_by_its_fields(self) -> None:
        with self.ann.desk("rome") as desk:
            self.assertEqual(desk.do(Command("add-span", {"type": "Person", "at": "0 3"})), "T1")
            self.assertIsNone(desk.do(Command("load", {"ann": ""})))
            self.assertEqual(desk.layer().ann, "")


class Routes(ServedCase):
    def test_texts(self) -> None:
        self.assertEqual(self.cur.add_text("oslo", "Eva met Ole"), 3)
        self.assertEqual(self.ann.docs(), [Document("rome", 20), Document("oslo", 11)])
        self.assertEqual(self.ann.text("rome"), self.TEXT)
        # The configuration of examples/ is in the canonical form already.
        self.assertEqual(self.ann.configuration().split(), (EXAMPLES / "news.conf").read_text(encoding="utf-8").split())
        self.assertEqual(dict(self.ann.roles()), {"Meet": {"Who", "Place"}, "Pair": {"Member"}})

    def test_from_finished_to_reopened(self) -> None:
        self.commit(self.ann, "T1\tPerson 0 3\tAnn\n", finish=True)
        self.commit(self.bob, "T1\tPerson 0 3\tAnn\n", finish=True)
        self.assertEqual(self.cur.take_snapshot("rome"), Snapshot(1, 2))
        self.cur.reopen("rome", "ann")
        self.commit(self.ann, "", finish=True)
        self.assertEqual(self.cur.layer("rome", "ann").ann, "")
        self.assertEqual(self.cur.take_snapshot("rome"), Snapshot(2, 2))
        # What happens behind a snapshot does not change it.
        self.assertEqual(self.cur.curated(1).lines, ["T1\tPerson 0 3\tAnn"])
        self.assertEqual(self.cur.curated(2).lines, [])


class Characters(ServedCase):
    #       0123456789...: each of the signs beyond U+FFFF is one character, and two units of UTF-16.
    TEXT = "😀 Ann 𝕏 mét\r\nZoë\u2028Li\u0085x\n"

    def test_offsets_are_characters(self) -> None:
        self.assertEqual(self.ann.docs()[0].characters, 22)
        self.assertEqual(self.ann.text("rome"), self.TEXT)
        with self.ann.desk("rome") as desk:
            desk.add_span("Person", (2, 5))
            desk.add_span("Organization", (6, 7))
            desk.add_span("Person", (0, 1), (13, 16))
            desk.add_span("Location", (13, 21))
            desk.set_note("T1", "AnnotatorNotes", "ja 😀\u2028\u0085 nein")
            layer = desk.layer()
            self.assertEqual([self.TEXT[span.start : span.end] for span in layer.spans][:2], ["Ann", "𝕏"])
            # One space stands between two fragments; U+2028 and U+0085 end no line of the file.
            self.assertEqual([span.text for span in layer.spans], ["Ann", "𝕏", "😀 Zoë", "Zoë\u2028Li\u0085x"])
            self.assertEqual(layer.notes[0].text, "ja 😀\u2028\u0085 nein")
            self.assertEqual(len(layer.lines), 5)
            desk.add_span("Meet", (8, 16))
            # A line end is shown as a space: here there are two, CR and LF.
            self.assertEqual(desk.layer()["T5"].text, "mét  Zoë")
            # A layer that was written is read back.
            desk.load(desk.layer().ann)
            desk.commit()
        self.assertEqual(self.ann.layer("rome", "ann").lines[1], "T2\tOrganization 6 7\t𝕏")

    def test_a_large_text_and_a_large_layer(self) -> None:
        # 200,000 characters of four bytes each, every second one a token.
        text = "😀 " * 100_000
        self.assertEqual(self.cur.add_text("large", text), 100_000)
        self.assertEqual(self.ann.text("large"), text)
        ann = "".join(f"T{n + 1}\tPerson {2 * n} {2 * n + 1}\t😀\n" for n in range(10_000))
        with self.ann.desk("large") as desk:
            desk.load(ann)
            self.assertEqual(desk.layer().ann, ann)


if __name__ == "__main__":
    unittest.main()
