"""Connections that are lost, servers that are killed, and what a reconnected desk says of it."""

import threading
import time
import unittest
from typing import Tuple

from served import Relay, ServedCase

from annotate_client import Command, ConnectionLost, Desk, DeskRefused, NotConnected, Project, Steps


def spans(desk: Desk) -> Tuple[str, ...]:
    return tuple(span.text for span in desk.layer().spans)


class Lost(ServedCase):
    def setUp(self) -> None:
        super().setUp()
        self.relay = Relay(self.served.port)
        self.addCleanup(self.relay.end)
        self.far = self.served.project("ann", self.relay.port)

    def test_a_connection_that_is_cut(self) -> None:
        desk = self.far.desk("rome")
        desk.add_span("Person", (0, 3))
        desk.add_span("Person", (8, 11))
        self.relay.cut()
        with self.assertRaises(ConnectionLost) as caught:
            desk.add_span("Location", (15, 19))
        error = caught.exception
        self.assertEqual((error.request, error.perhaps_done), ("POST /desk/do", True))
        self.assertEqual([command.made for command in error.uncommitted], ["T1", "T2"])
        self.assertIn("it may have been done", str(error))
        self.assertIn("commands not committed: 2", str(error))
        # Nothing is asked on a desk without its connection, and nothing is sent by itself.
        with self.assertRaises(NotConnected) as gone:
            desk.commit()
        self.assertFalse(gone.exception.perhaps_done)
        back = desk.reconnect()
        # The server parked what the connection held: both commands are there, and the third was never sent.
        self.assertEqual((back.revision, back.done, back.undone, back.missing), (0, 2, 0, ()))
        self.assertEqual((back.unanswered, back.carried_out, back.sure), (self.location(), False, True))
        self.assertEqual(spans(desk), ("Ann", "Bob"))
        self.assertEqual([command.made for command in desk.uncommitted], ["T1", "T2"])
        self.assertEqual(desk.commit(), 1)
        desk.park()

    @staticmethod
    def location() -> Command:
        return Command("add-span", {"type": "Location", "at": "15 19"})

    def test_an_answer_that_is_lost(self) -> None:
        with self.far.desk("rome") as desk:
            desk.add_span("Person", (0, 3))
            self.relay.lose = "answer"
            with self.assertRaises(ConnectionLost):
                desk.add_span("Location", (15, 19))
            back = desk.reconnect()
            self.assertEqual((back.done, back.missing), (2, ()))
            self.assertEqual((back.unanswered, back.carried_out, back.sure), (self.location(), True, True))
            self.assertEqual(spans(desk), ("Ann", "Rome"))

    def test_a_request_that_is_lost(self) -> None:
        with self.far.desk("rome") as desk:
            desk.add_span("Person", (0, 3))
            self.relay.lose = "request"
            with self.assertRaises(ConnectionLost):
                desk.add_span("Location", (15, 19))
            back = desk.reconnect()
            self.assertEqual((back.done, back.missing), (1, ()))
            self.assertEqual((back.unanswered, back.carried_out, back.sure), (self.location(), False, True))
            self.assertEqual(spans(desk), ("Ann",))

    def test_a_lost_answer_to_undo_and_redo(self) -> None:
        with self.far.desk("rome") as desk:
            desk.add_span("Person", (0, 3))
            desk.add_span("Person", (8, 11))
            for ask, steps in ((desk.undo, Steps(1, 1)), (desk.redo, Steps(2, 0))):
                self.relay.lose = "answer"
                with self.assertRaises(ConnectionLost):
                    ask()
                back = desk.reconnect()
                self.assertEqual((back.carried_out, back.sure, back.missing, desk.steps), (True, True, (), steps))

    def test_a_lost_answer_to_a_commit(self) -> None:
        with self.far.desk("rome") as desk:
            desk.add_span("Person", (0, 3))
            self.relay.lose = "answer"
            with self.assertRaises(ConnectionLost) as caught:
                desk.commit()
            self.assertTrue(caught.exception.perhaps_done)
            back = desk.reconnect()
            self.assertEqual((back.revision, back.done, back.missing), (1, 0, ()))
            self.assertEqual((back.unanswered, back.carried_out, back.sure), (Command("commit"), True, True))
            self.assertEqual((desk.uncommitted, desk.revision), ((), 1))
        self.assertEqual(self.ann.layer("rome", "ann").lines, ["T1\tPerson 0 3\tAnn"])

    def test_a_commit_that_did_not_arrive(self) -> None:
        with self.far.desk("rome") as desk:
            desk.add_span("Person", (0, 3))
            self.relay.lose = "request"
            with self.assertRaises(ConnectionLost):
                desk.commit()
            back = desk.reconnect()
            self.assertEqual((back.revision, back.done, back.missing, back.carried_out), (0, 1, (), False))
            self.assertEqual(desk.commit(), 1)

    def test_a_lost_read(self) -> None:
        with self.far.desk("rome") as desk:
            desk.add_span("Person", (0, 3))
            self.relay.lose = "answer"
            with self.assertRaises(ConnectionLost):
                desk.layer()
            back = desk.reconnect()
            self.assertEqual((back.done, back.unanswered, back.carried_out, back.sure), (1, None, None, True))

    def test_a_connection_that_ends_parks(self) -> None:
        desk = self.far.desk("rome")
        desk.add_span("Person", (0, 3))
        self.relay.cut()
        # The same annotator, elsewhere: the commands that the server parked are there.
        while True:
            try:
                other = self.ann.desk("rome")
                break
            except DeskRefused:
                time.sleep(0.05)
        self.assertEqual(other.steps, Steps(1, 0))
        # The first desk waits for the layer and says that it is out.
        with self.assertRaises(ConnectionLost):
            desk.layer()
        with self.assertRaises(DeskRefused) as caught:
            desk.reconnect(wait=0.3)
        self.assertEqual(caught.exception.refused, "LayerOut")
        other.commit()
        other.park()
        back = desk.reconnect()
        # A commit that this desk did not make fits nothing that it knows: so its command may be missing, or committed.
        self.assertEqual((back.revision, back.done, back.sure), (1, 0, False))
        self.assertEqual([command.made for command in back.missing], ["T1"])
        desk.park()

    def test_a_desk_is_reconnected_behind_its_with(self) -> None:
        with self.assertRaises(ConnectionLost):
            with self.far.desk("rome") as desk:
                desk.add_span("Person", (0, 3))
                self.relay.cut()
                desk.commit()
        with self.far:
            self.assertEqual(desk.reconnect().done, 1)
            self.assertEqual(desk.commit(), 1)
        self.assertFalse(desk.is_open)

    def test_nothing_is_resent_by_a_project(self) -> None:
        far = self.served.project("cur", self.relay.port)
        self.relay.lose = "answer"
        with self.assertRaises(ConnectionLost) as caught:
            far.add_text("oslo", "Eva met Ole")
        self.assertTrue(caught.exception.perhaps_done)
        self.assertEqual([document.name for document in far.docs()], ["rome", "oslo"])
        self.relay.lose = "request"
        with self.assertRaises(ConnectionLost):
            far.add_text("lima", "Juan")
        self.assertEqual([document.name for document in far.docs()], ["rome", "oslo"])


class Killed(ServedCase):
    def test_what_a_killed_server_loses_is_told(self) -> None:
        with self.ann.desk("rome") as desk:
            desk.add_span("Person", (0, 3))
        desk = self.ann.desk("rome")
        self.assertEqual(desk.steps, Steps(1, 0))
        desk.add_span("Person", (8, 11))
        desk.set_note("T2", "AnnotatorNotes", "which Bob?")
        self.served.kill()
        with self.assertRaises(ConnectionLost) as caught:
            desk.add_span("Location", (15, 19))
        self.assertEqual([command.do for command in caught.exception.uncommitted], ["add-span", "set-note"])
        with self.assertRaises(NotConnected) as gone:
            desk.reconnect(wait=0)
        self.assertFalse(gone.exception.perhaps_done)
        self.served.start()
        back = desk.reconnect()
        # What was parked before is there; what was given since, and neither committed nor parked, is not.
        self.assertEqual((back.done, back.sure, back.carried_out), (1, True, False))
        self.assertEqual([command.made for command in back.missing], ["T2", "#1"])
        self.assertEqual(spans(desk), ("Ann",))
        for command in back.missing:
            self.assertEqual(desk.do(command), command.made)
        self.assertEqual(desk.commit(), 1)
        desk.park()
        self.served.kill()
        self.assertEqual(
            self.served.export("ann", "rome"),
            "T1\tPerson 0 3\tAnn\nT2\tPerson 8 11\tBob\n#1\tAnnotatorNotes T2\twhich Bob?\n",
        )

    def test_a_restart_while_it_reconnects(self) -> None:
        desk = self.ann.desk("rome")
        desk.add_span("Person", (0, 3))
        self.assertEqual(desk.commit(), 1)
        desk.add_span("Person", (8, 11))
        self.served.kill()
        with self.assertRaises(ConnectionLost):
            desk.undo()
        later = threading.Timer(0.3, self.served.start)
        later.start()
        back = desk.reconnect(wait=20)
        later.join()
        # Here it cannot be told whether the undo was done before the server was killed: nothing is undone now.
        self.assertEqual((back.revision, back.done, back.undone), (1, 0, 0))
        self.assertEqual([command.made for command in back.missing], ["T2"])
        desk.park()

    def test_counts_that_fit_both(self) -> None:
        with self.ann.desk("rome") as desk:
            desk.add_span("Person", (0, 3))
        desk = self.ann.desk("rome")
        desk.undo()
        desk.add_span("Location", (15, 19))
        self.served.kill()
        with self.assertRaises(ConnectionLost):
            desk.layer()
        self.served.start()
        back = desk.reconnect()
        # One command is done, and it was so before: which of the two, the layer alone tells.
        self.assertEqual((back.done, back.sure, back.carried_out), (1, False, None))
        self.assertEqual([command.fields["at"] for command in back.missing], ["15 19"])
        self.assertEqual(spans(desk), ("Ann",))
        desk.park()

    def test_no_server(self) -> None:
        self.served.kill()
        with self.assertRaises(NotConnected) as caught:
            self.ann.docs()
        self.assertIn("it was not done", str(caught.exception))

    def test_a_server_that_does_not_answer(self) -> None:
        held = [self.cid_desk(place) for place in range(64)]
        # A sixty-fifth connection waits until one of these ends.
        hasty = Project(f"http://127.0.0.1:{self.served.port}", "ann", timeout=0.3)
        with self.assertRaises(ConnectionLost) as caught:
            hasty.docs()
        self.assertTrue(caught.exception.perhaps_done)
        for desk in held:
            desk.park()
        self.assertEqual(len(self.ann.docs()), 65)

    def cid_desk(self, place: int) -> Desk:
        self.cur.add_text(f"text{place}", "Ann")
        return self.cid.desk(f"text{place}")

    def test_only_a_lost_desk_is_reconnected(self) -> None:
        desk = self.ann.desk("rome")
        self.assertRaises(ValueError, desk.reconnect)
        desk.park()
        self.assertRaises(ValueError, desk.reconnect)
        self.assertRaises(NotConnected, desk.layer)


if __name__ == "__main__":
    unittest.main()
