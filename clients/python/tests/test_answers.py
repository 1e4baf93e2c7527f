"""What goes over the wire, against a server of this file whose answers are written by hand."""

import socket
import threading
import unittest
from typing import List

import served  # noqa: F401  # names the folder of the client

from annotate_client import Command, ConnectionLost, Desk, NotConnected, OtherAnswer, Project, ServerFault

OUT = '{"done":0,"revision":0,"undone":0}'


def answer(status: str, body: str, media: str = "application/json", last: bool = False) -> str:
    """An answer as docs/http.md shows it."""
    head = f"HTTP/1.1 {status}\r\nContent-Type: {media}\r\nContent-Length: {len(body.encode('utf-8'))}\r\nPlace: 3\r\n"
    return head + ("Connection: close\r\n" if last else "") + "\r\n" + body


class Answers(unittest.TestCase):
    def serve(self, *answers: str) -> Project:
        """A project whose server gives these answers in turn, and ends a connection behind one that is its last."""
        self.asked: List[bytes] = []
        self.connections = 0
        listener = socket.create_server(("127.0.0.1", 0))
        self.addCleanup(listener.close)
        threading.Thread(target=self._give, args=(listener, list(answers)), daemon=True).start()
        return Project(f"http://127.0.0.1:{listener.getsockname()[1]}", "ann", timeout=20)

    def desk(self, project: Project) -> Desk:
        """A desk whose connection ends with the test, without a park."""
        desk = project.desk("rome")
        self.addCleanup(desk._connection.end)
        return desk

    def _give(self, listener: socket.socket, answers: List[str]) -> None:
        while answers:
            connection, _ = listener.accept()
            self.connections += 1
            with connection, connection.makefile("rb") as input:
                while answers:
                    head = b""
                    while not head.endswith(b"\r\n\r\n"):
                        line = input.readline()
                        if not line:
                            break
                        head += line
                    if not head:
                        break
                    length = int(head.lower().split(b"content-length:")[1].split(b"\r\n")[0])
                    self.asked.append(head + input.read(length))
                    given = answers.pop(0)
                    connection.sendall(given.encode("utf-8"))
                    if "Connection: close" in given or not given:
                        break

    def test_what_is_sent(self) -> None:
        project = self.serve(
            answer("200 OK", OUT), answer("200 OK", '{"made":"T1"}'), answer("200 OK", '{"parked":true}')
        )
        with project.desk("rome") as desk:
            desk.add_span("Person", (0, 5), (16, 23))
        self.assertEqual(self.connections, 1)
        heads = [it.split(b"\r\n\r\n")[0].split(b"\r\n") for it in self.asked]
        self.assertEqual(
            [head[0] for head in heads],
            [b"POST /docs/rome/checkout HTTP/1.1", b"POST /desk/do HTTP/1.1", b"POST /desk/park HTTP/1.1"],
        )
        for head in heads:
            self.assertIn(b"Caller: ann", head)
            self.assertEqual(sum(field.startswith(b"Content-Length: ") for field in head), 1)
        self.assertTrue(self.asked[1].endswith(b'{"do": "add-span", "type": "Person", "at": "0 5;16 23"}'))

    def test_a_read_has_a_length_too(self) -> None:
        project = self.serve(answer("200 OK", '{"docs":[]}'))
        self.assertEqual(project.docs(), [])
        self.assertIn(b"\r\nContent-Length: 0\r\n", self.asked[0])

    def test_memory_that_does_not_end_the_connection(self) -> None:
        project = self.serve(
            answer("200 OK", OUT),
            answer("503 Service Unavailable", '{"refused":"Memory"}'),
            answer("200 OK", '{"revision":1}'),
        )
        desk = self.desk(project)
        with self.assertRaises(ServerFault) as caught:
            desk.commit()
        error = caught.exception
        self.assertEqual((error.refused, error.status, error.ended), ("Memory", 503, False))
        self.assertEqual(desk.commit(), 1)

    def test_memory_that_ends_the_connection(self) -> None:
        project = self.serve(
            answer("200 OK", OUT),
            answer("503 Service Unavailable", '{"refused":"Memory"}', last=True),
            answer("200 OK", '{"done":0,"revision":1,"undone":0}'),
        )
        desk = self.desk(project)
        with self.assertRaises(ServerFault) as caught:
            desk.commit()
        self.assertTrue(caught.exception.ended)
        with self.assertRaises(NotConnected):
            desk.commit()
        back = desk.reconnect()
        # The commit stands.
        self.assertEqual((back.unanswered, back.carried_out, back.sure), (Command("commit"), True, True))

    def test_an_answer_that_is_the_last(self) -> None:
        project = self.serve(answer("200 OK", OUT), answer("200 OK", '{"made":"T1"}', last=True))
        desk = self.desk(project)
        self.assertEqual(desk.add_span("Person", (0, 3)), "T1")
        # No second connection is opened for what belongs to the desk of the first.
        with self.assertRaises(NotConnected) as caught:
            desk.add_span("Person", (8, 11))
        self.assertEqual([command.made for command in caught.exception.uncommitted], ["T1"])
        self.assertEqual((self.connections, len(self.asked)), (1, 2))

    def test_an_answer_that_is_cut(self) -> None:
        project = self.serve(answer("200 OK", OUT), answer("200 OK", '{"made":"T1"}', last=True)[:-4])
        desk = self.desk(project)
        with self.assertRaises(ConnectionLost) as caught:
            desk.add_span("Person", (0, 3))
        self.assertTrue(caught.exception.perhaps_done)

    def test_answers_of_something_else(self) -> None:
        project = self.serve(answer("504 Gateway Timeout", "<html>504</html>", "text/html", last=True))
        with self.assertRaises(OtherAnswer) as caught:
            project.add_text("rome", "Ann")
        self.assertEqual((caught.exception.status, caught.exception.perhaps_done), (504, True))
        project = self.serve(answer("200 OK", "<html>welcome</html>", "text/html", last=True))
        with self.assertRaises(OtherAnswer):
            project.docs()
        project = self.serve(answer("200 OK", OUT), answer("502 Bad Gateway", "<html>502</html>", "text/html"))
        desk = self.desk(project)
        with self.assertRaises(OtherAnswer):
            desk.add_span("Person", (0, 3))
        # The front's connection to the server is gone, and the desk with it.
        self.assertFalse(desk.is_open)


if __name__ == "__main__":
    unittest.main()
