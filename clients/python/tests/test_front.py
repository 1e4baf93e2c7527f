"""A project behind a front with TLS, names and passwords, and a path: docs/operating.md, "Behind a front"."""

import shutil
import ssl
import tempfile
import unittest

from served import Front, ServedCase, make_certificate

from annotate_client import NotConnected, OtherAnswer, Project


@unittest.skipUnless(shutil.which("openssl"), "openssl is missing, which makes the front's certificate")
class BehindAFront(ServedCase):
    @classmethod
    def setUpClass(cls) -> None:
        cls.folder = tempfile.TemporaryDirectory()
        cls.addClassCleanup(cls.folder.cleanup)
        make_certificate(cls.folder.name)

    def setUp(self) -> None:
        super().setUp()
        self.front = Front(self.served.port, self.folder.name)
        self.addCleanup(self.front.end)

    def behind(self, user: str, password: str, path: str = "/news") -> Project:
        ca_file = self.front.certificate
        return Project(self.front.url + path, user=user, password=password, ca_file=ca_file, timeout=20)

    def test_a_desk_behind_the_front(self) -> None:
        with self.behind("ann", "ann-secret", "/news/") as project:
            with project.desk("rome") as desk:
                desk.add_span("Person", (0, 3))
                desk.add_span("Person", (8, 11))
                self.assertEqual(desk.commit(), 1)
            project.finish("rome")
        layer = self.behind("cur", "cur-secret").layer("rome", "ann")
        self.assertEqual([span.text for span in layer.spans], ["Ann", "Bob"])

    def test_a_wrong_password(self) -> None:
        with self.assertRaises(OtherAnswer) as caught:
            self.behind("ann", "bob-secret").docs()
        error = caught.exception
        self.assertEqual((error.status, error.perhaps_done, error.request), (401, False, "GET /docs"))
        self.assertIn("401 Unauthorized", str(error))

    def test_a_project_that_the_front_does_not_know(self) -> None:
        with self.assertRaises(OtherAnswer) as caught:
            self.behind("ann", "ann-secret", "/letters").docs()
        self.assertEqual(caught.exception.status, 404)

    def test_a_certificate_that_is_not_trusted(self) -> None:
        with self.assertRaises(NotConnected) as caught:
            Project(f"{self.front.url}/news", user="ann", password="ann-secret").docs()
        self.assertIsInstance(caught.exception.__cause__, ssl.SSLCertVerificationError)


class Addresses(unittest.TestCase):
    def test_what_is_no_address(self) -> None:
        for url in ("127.0.0.1:8080", "ftp://127.0.0.1/", "http://", "http://127.0.0.1:8080/?x=1"):
            with self.assertRaises(ValueError):
                Project(url, "ann")
        with self.assertRaises(ValueError):
            Project("http://127.0.0.1:8080")
        with self.assertRaises(ValueError):
            Project("http://127.0.0.1:8080", user="ann")


if __name__ == "__main__":
    unittest.main()
