"""Several people at once: on different documents, on a layer that is taken over, and sixteen on one text."""

import shutil
import threading
import unittest
from typing import Callable, Dict, List

from served import Haproxy, Served, ServedCase

from annotate_client import DeskRefused, Project


class Two(ServedCase):
    def test_two_people_on_two_documents(self) -> None:
        self.cur.add_text("oslo", "Eva met Ole in Oslo\n")
        with self.ann.desk("rome") as one, self.bob.desk("oslo") as other:
            one.add_span("Person", (0, 3))
            other.add_span("Location", (15, 19))
            one.add_span("Person", (8, 11))
            one.commit()
            other.commit()
        self.assertEqual(self.cur.layer("rome", "ann").lines, ["T1\tPerson 0 3\tAnn", "T2\tPerson 8 11\tBob"])
        self.assertEqual(self.cur.layer("oslo", "bob").lines, ["T1\tLocation 15 19\tOslo"])

    def test_a_layer_that_is_out_and_a_takeover(self) -> None:
        first = self.ann.desk("rome")
        first.add_span("Person", (0, 3))
        first.commit()
        first.add_span("Person", (8, 11))
        with self.assertRaises(DeskRefused) as caught:
            self.ann.desk("rome")
        self.assertEqual((caught.exception.refused, caught.exception.status), ("LayerOut", 409))
        with self.ann.desk("rome", takeover=True) as second:
            # What was committed is there, and what was neither committed nor parked is not.
            self.assertEqual((second.revision, second.steps.done), (1, 0))
            self.assertEqual([span.id for span in second.layer().spans], ["T1"])
            for ask in (first.commit, first.park):
                with self.assertRaises(DeskRefused) as caught:
                    ask()
                self.assertEqual(caught.exception.refused, "NotYours")
            self.assertFalse(first.is_open)
            second.add_span("Location", (15, 19))
            self.assertEqual(second.commit(), 2)
        self.assertEqual([span.type for span in self.ann.layer("rome", "ann").spans], ["Person", "Location"])


    def test_a_project_parks_each_of_its_desks(self) -> None:
        self.cur.add_text("oslo", "Eva met Ole in Oslo\n")
        with self.assertRaises(DeskRefused) as caught:
            with self.ann as project:
                desks = [project.desk("rome"), project.desk("oslo")]
                for desk in desks:
                    desk.add_span("Person", (0, 3))
                self.served.project("ann").desk("rome", takeover=True).park()
        self.assertEqual((caught.exception.refused, caught.exception.request), ("NotYours", "POST /desk/park"))
        self.assertEqual([desk.is_open for desk in desks], [False, False])
        with self.served.project("ann").desk("oslo") as desk:
            self.assertEqual(desk.steps.done, 1)


class SixtyFour(ServedCase):
    def test_a_desk_on_each_connection(self) -> None:
        for place in range(64):
            self.cur.add_text(f"text{place}", "Ann")
        desks = [self.served.project("ann").desk(f"text{place}") for place in range(64)]
        # All connections that are served are taken now: each desk asks on its own, the configuration too.
        for desk in desks:
            desk.add_span("Person", (0, 3))
            self.assertEqual(desk.layer().lines, ["T1\tPerson 0 3\tAnn"])
            self.assertEqual(desk.text(), "Ann")
            desk.commit()
        for desk in desks:
            desk.park()


class Sixteen(unittest.TestCase):
    """Sixteen annotators mark every word that is theirs of one text, all at once."""

    WORDS = 320
    NAMES = [f"p{number:02}" for number in range(16)]

    def setUp(self) -> None:
        conf = "[entities]\nPerson\n[attributes]\nSure\tArg:Person\n"
        people = "".join(f"{name},annotator\n" for name in self.NAMES)
        self.served = Served(conf, people + "cur,curator\n")
        self.addCleanup(self.served.end)
        words = "".join(f"w{place:03} " for place in range(self.WORDS))
        self.assertEqual(self.served.project("cur").add_text("words", words), self.WORDS)
        self.wrote: Dict[int, List[str]] = {number: [] for number in range(16)}
        self.commits = {number: 0 for number in range(16)}
        self.done: List[int] = []

    def annotate(self, number: int, project: Project, start: threading.Barrier) -> None:
        text = project.text("words")
        start.wait()
        with project.desk("words") as desk:
            for place in range(number, self.WORDS, 16):
                # Each word has four characters and a space behind it.
                id = desk.add_span("Person", (5 * place, 5 * place + 4))
                word = text[5 * place : 5 * place + 4]
                self.wrote[number].append(f"{id}\tPerson {5 * place} {5 * place + 4}\t{word}")
                if place % 3 == 0:
                    # It has the greatest number, so that it is the next one's again.
                    desk.delete(id)
                    self.wrote[number].pop()
                if place % 5 == 0:
                    desk.commit()
                    self.commits[number] += 1
            desk.set_attribute("Sure", self.wrote[number][0].split("\t")[0])
            self.wrote[number].append(f"A1\tSure {self.wrote[number][0].split()[0]}")
            desk.commit()
            self.commits[number] += 1
        self.done.append(number)

    def work(self, project_of: Callable[[str], Project]) -> None:
        """Has all sixteen annotate at once, and looks at what the file has then."""
        start = threading.Barrier(16)
        threads = [threading.Thread(target=self.annotate, args=(number, project_of(name), start)) for number, name in enumerate(self.NAMES)]
        for thread in threads:
            thread.start()
        for thread in threads:
            thread.join()
        self.assertEqual(sorted(self.done), list(range(16)))
        self.served.kill()
        for number, lines in self.wrote.items():
            # Of the 20 words of each, 6 or 7 have a place that 3 divides, and 4 one that 5 divides.
            self.assertIn(len(lines), (14, 15))
            self.assertEqual(self.commits[number], 5)
            self.assertEqual(self.served.export(self.NAMES[number], "words"), "".join(f"{line}\n" for line in lines))
        # The founding, the text, and of each annotator the checkout, five commits and the park.
        self.assertEqual(self.served.run("compact", self.served.book, f"{self.served.book}.new"), "place 114\n")

    def test_the_file_has_what_each_wrote(self) -> None:
        self.work(self.served.project)

    @unittest.skipUnless(shutil.which("haproxy") and shutil.which("openssl"), "haproxy or openssl is missing")
    def test_behind_the_front_the_file_has_what_each_wrote(self) -> None:
        front = Haproxy(self.served.port, self.NAMES)
        self.addCleanup(front.end)
        self.work(lambda name: Project(front.url, user=name, password=f"{name}-secret", ca_file=front.certificate, timeout=60))


if __name__ == "__main__":
    unittest.main()
