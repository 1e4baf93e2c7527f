"""A project that is really served, and what may stand before it: a relay that cuts, and a front with passwords."""

from __future__ import annotations

import base64
import http.client
import os
import socket
import ssl
import subprocess
import sys
import tempfile
import threading
import time
import unittest
from http.server import BaseHTTPRequestHandler, ThreadingHTTPServer
from pathlib import Path
from typing import Any, Iterable, List, Optional

HERE = Path(__file__).resolve().parent
TOP = HERE.parents[2]
EXAMPLES = TOP / "examples"
sys.path.insert(0, str(HERE.parent))

from annotate_client import Project  # noqa: E402


def find_program() -> str:
    """The program that ANNOTATE names, or the one that the script `annotate` makes at its first call."""
    named = os.environ.get("ANNOTATE")
    if named:
        return str(Path(named).resolve())
    script = str(TOP / "annotate")
    subprocess.run([script, "--version"], check=True, stdout=subprocess.DEVNULL)
    said = subprocess.run([script, "which"], check=True, stdout=subprocess.PIPE, text=True).stdout
    return said.split(":", 1)[0]


PROGRAM = find_program()


def free_port() -> int:
    """A port of 127.0.0.1 that nobody has at the moment."""
    with socket.socket() as listener:
        listener.bind(("127.0.0.1", 0))
        port: int = listener.getsockname()[1]
        return port


class Served:
    """A project in a folder of its own, with the configuration and the people of examples/ where none are named."""

    def __init__(self, conf: Optional[str] = None, roster: Optional[str] = None) -> None:
        self._folder = tempfile.TemporaryDirectory()
        folder = Path(self._folder.name)
        self.book = str(folder / "news.book")
        (folder / "conf").write_text(conf or (EXAMPLES / "news.conf").read_text(encoding="utf-8"), encoding="utf-8")
        (folder / "roster").write_text(roster or (EXAMPLES / "roster.csv").read_text(encoding="utf-8"))
        self.run("found", self.book, str(folder / "conf"), str(folder / "roster"))
        self.port = free_port()
        self._process: Optional[subprocess.Popen[bytes]] = None
        self.start()

    @staticmethod
    def run(*words: str) -> str:
        """What the program prints, as text."""
        return subprocess.run([PROGRAM, *words], check=True, stdout=subprocess.PIPE).stdout.decode("utf-8")

    def start(self) -> None:
        self._process = subprocess.Popen([PROGRAM, "serve", self.book, str(self.port)])
        until = time.monotonic() + 30
        while time.monotonic() < until and self._process.poll() is None:
            try:
                socket.create_connection(("127.0.0.1", self.port)).close()
                return
            except OSError:
                time.sleep(0.02)
        self.kill()
        raise RuntimeError("the server did not start")

    def kill(self) -> None:
        """Ends the server as a crash does."""
        if self._process is not None:
            self._process.kill()
            self._process.wait()
            self._process = None

    def end(self) -> None:
        self.kill()
        self._folder.cleanup()

    def export(self, annotator: str, document: str) -> str:
        """The committed layer that stands in the file of the project, of which the server has to be gone."""
        return self.run("export", self.book, annotator, document)

    def project(self, caller: str, port: Optional[int] = None) -> Project:
        return Project(f"http://127.0.0.1:{port or self.port}", caller, timeout=20)


class ServedCase(unittest.TestCase):
    """A test on a project of examples/ with the text `rome`: Ann met Bob in Rome."""

    TEXT = "Ann met Bob in Rome\n"

    def setUp(self) -> None:
        self.served = Served()
        self.addCleanup(self.served.end)
        self.cur = self.served.project("cur")
        self.ann = self.served.project("ann")
        self.bob = self.served.project("bob")
        self.cid = self.served.project("cid")
        self.cur.add_text("rome", self.TEXT)

    def commit(self, project: Project, ann: str, document: str = "rome", finish: bool = False) -> None:
        """Makes the layer of a file that of a person."""
        with project.desk(document) as desk:
            desk.load(ann)
            desk.commit()
        if finish:
            project.finish(document)


class Relay:
    """A port from which bytes go to the server and back, until it is told to cut.

    `cut` ends all connections. `lose = "request"` ends the next connection on which something is asked, before the
    server has it; `lose = "answer"` ends it once the server has answered, and the answer is lost.
    """

    def __init__(self, port: int) -> None:
        self._target = port
        self.lose: Optional[str] = None
        self._open: List[socket.socket] = []
        self._listener = socket.create_server(("127.0.0.1", 0))
        self.port: int = self._listener.getsockname()[1]
        threading.Thread(target=self._accept, daemon=True).start()

    def _accept(self) -> None:
        while True:
            try:
                client, _ = self._listener.accept()
                server = socket.create_connection(("127.0.0.1", self._target))
            except OSError:
                return
            self._open += [client, server]
            for source, sink, loses in ((client, server, "request"), (server, client, "answer")):
                threading.Thread(target=self._pump, args=(source, sink, loses), daemon=True).start()

    def _pump(self, source: socket.socket, sink: socket.socket, loses: str) -> None:
        try:
            while True:
                piece = source.recv(65536)
                if not piece:
                    break
                if self.lose == loses:
                    self.lose = None
                    break
                sink.sendall(piece)
        except OSError:
            pass
        for it in (source, sink):
            self._shut(it)

    @staticmethod
    def _shut(it: socket.socket) -> None:
        try:
            it.shutdown(socket.SHUT_RDWR)
        except OSError:
            pass

    def cut(self) -> None:
        for it in self._open:
            self._shut(it)

    def end(self) -> None:
        self._shut(self._listener)
        self._listener.close()
        self.cut()
        for it in self._open:
            it.close()


class _FrontHandler(BaseHTTPRequestHandler):
    """What a front does, as examples/haproxy.cfg: passwords, `Caller` set from the name, and a path for the project."""

    protocol_version = "HTTP/1.1"
    people = {"ann": "ann-secret", "cur": "cur-secret"}
    target = 0
    behind: Optional[http.client.HTTPConnection] = None

    def log_message(self, format: str, *args: Any) -> None:
        """Says nothing."""

    def _serve(self) -> None:
        body = self.rfile.read(int(self.headers["Content-Length"]))
        said = self.headers.get("Authorization", "Basic ").split(" ", 1)[1]
        user, _, password = base64.b64decode(said).decode("utf-8").partition(":")
        if self.people.get(user) != password:
            self._answer(401, "text/html", b"<html>401 Unauthorized</html>")
        elif not self.path.startswith("/news/"):
            self._answer(404, "text/html", b"<html>404 Not Found</html>")
        else:
            # One connection to the server for each of a client's.
            self.behind = self.behind or http.client.HTTPConnection("127.0.0.1", self.target)
            self.behind.request(self.command, self.path[len("/news") :], body=body, headers={"Caller": user})
            answer = self.behind.getresponse()
            self._answer(answer.status, answer.headers["Content-Type"], answer.read())

    def _answer(self, status: int, media: str, body: bytes) -> None:
        self.send_response(status)
        self.send_header("Content-Type", media)
        self.send_header("Content-Length", str(len(body)))
        self.end_headers()
        self.wfile.write(body)

    do_GET = do_PUT = do_POST = _serve

    def finish(self) -> None:
        if self.behind is not None:
            self.behind.close()
        super().finish()


def make_certificate(folder: str) -> None:
    """A certificate of one's own making for 127.0.0.1, front.crt, with its key, front.key."""
    words = ["openssl", "req", "-x509", "-newkey", "ec", "-pkeyopt", "ec_paramgen_curve:prime256v1", "-nodes"]
    words += ["-days", "2", "-subj", "/CN=127.0.0.1", "-addext", "subjectAltName=IP:127.0.0.1"]
    words += ["-keyout", f"{folder}/front.key", "-out", f"{folder}/front.crt"]
    subprocess.run(words, check=True, stderr=subprocess.DEVNULL)


class Haproxy:
    """HAProxy before a server, with examples/haproxy.cfg but for its ports and with these people, each with a password as `ann-secret`."""

    def __init__(self, target: int, people: Iterable[str]) -> None:
        self._folder = tempfile.TemporaryDirectory()
        folder = Path(self._folder.name)
        make_certificate(self._folder.name)
        self.certificate = str(folder / "front.crt")
        (folder / "front.pem").write_text((folder / "front.key").read_text() + (folder / "front.crt").read_text())
        (folder / "web").symlink_to(TOP / "web")
        port = free_port()
        settings = (EXAMPLES / "haproxy.cfg").read_text(encoding="utf-8")
        for found, wanted in ((8443, port), (8080, target), (8081, free_port())):
            settings = settings.replace(f"127.0.0.1:{found}", f"127.0.0.1:{wanted}")
        users = "".join(f"    user {it} insecure-password {it}-secret\n" for it in people if f"user {it} " not in settings)
        settings = settings.replace("userlist people\n", f"userlist people\n{users}")
        (folder / "haproxy.cfg").write_text(settings, encoding="utf-8")
        words = ["haproxy", "-db", "-f", "haproxy.cfg"]
        self._process = subprocess.Popen(words, cwd=folder, stdout=subprocess.DEVNULL, stderr=subprocess.DEVNULL)
        self.url = f"https://127.0.0.1:{port}/news"
        until = time.monotonic() + 30
        while time.monotonic() < until and self._process.poll() is None:
            try:
                socket.create_connection(("127.0.0.1", port)).close()
                return
            except OSError:
                time.sleep(0.05)
        self.end()
        raise RuntimeError("the front did not start")

    def end(self) -> None:
        self._process.terminate()
        try:
            self._process.wait(10)
        except subprocess.TimeoutExpired:
            self._process.kill()
            self._process.wait()
        self._folder.cleanup()


class Front:
    """A front with TLS before a server, with the certificate of a folder."""

    def __init__(self, target: int, folder: str) -> None:
        self.certificate = f"{folder}/front.crt"
        handler = type("Handler", (_FrontHandler,), {"target": target})
        self._server = ThreadingHTTPServer(("127.0.0.1", 0), handler)
        self._server.daemon_threads = True
        context = ssl.SSLContext(ssl.PROTOCOL_TLS_SERVER)
        context.load_cert_chain(self.certificate, f"{folder}/front.key")
        self._server.socket = context.wrap_socket(self._server.socket, server_side=True)
        self.url = f"https://127.0.0.1:{self._server.server_address[1]}"
        threading.Thread(target=self._server.serve_forever, args=(0.05,), daemon=True).start()

    def end(self) -> None:
        self._server.shutdown()
        self._server.server_close()
