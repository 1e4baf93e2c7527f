"""One connection to the server, and what an answer says."""

from __future__ import annotations

import base64
import http.client
import json
import ssl
from dataclasses import dataclass
from typing import Dict, List, Mapping, Optional, Union
from urllib.parse import quote, urlsplit

from .errors import ConnectionLost, NotConnected, OtherAnswer, Refused, family_of

JSON = "application/json"
TEXT = "text/plain"
CSV = "text/csv"

Json = Mapping[str, object]


@dataclass(frozen=True)
class Answer:
    """What the server granted: the body of an answer whose status is 200 or 201, and its media type.

    Where a body is not what the server answers, reading it raises `OtherAnswer`.
    """

    request: str
    status: int
    media: str
    body: bytes

    def text(self, media: str = TEXT) -> str:
        """The body as text, which has to be of this media type."""
        if self.media != media:
            raise OtherAnswer(self.request, self.status, self.body)
        return self.body.decode("utf-8")

    def field(self, name: str) -> object:
        """A field of the body, which has to be an object in JSON."""
        found = _object(self.body) if self.media == JSON else {}
        if name not in found:
            raise OtherAnswer(self.request, self.status, self.body)
        return found[name]

    def number(self, name: str) -> int:
        """A field of the body that is a number."""
        found = self.field(name)
        if not isinstance(found, int):
            raise OtherAnswer(self.request, self.status, self.body)
        return found

    def name(self, name: str) -> Optional[str]:
        """A field of the body that is a text or null."""
        found = self.field(name)
        if found is not None and not isinstance(found, str):
            raise OtherAnswer(self.request, self.status, self.body)
        return found

    def rows(self, name: str) -> List[Json]:
        """A field of the body that is a list of objects."""
        found = self.field(name)
        if not isinstance(found, list):
            raise OtherAnswer(self.request, self.status, self.body)
        return found


def _object(body: bytes) -> Json:
    """The object that a body spells, or an empty one where it spells none."""
    try:
        found = json.loads(body)
    except ValueError:
        return {}
    return found if isinstance(found, dict) else {}


class Address:
    """Where a project is served, and as whom it is asked.

    Example:
        Address("http://127.0.0.1:8080", caller="ann")
        Address("https://127.0.0.1:8443/news", user="bob", password="bob-secret", ca_file="front.crt")
    """

    def __init__(
        self,
        url: str,
        *,
        caller: Optional[str] = None,
        user: Optional[str] = None,
        password: Optional[str] = None,
        ca_file: Optional[str] = None,
        timeout: float = 60.0,
    ) -> None:
        parts = urlsplit(url)
        if parts.scheme not in ("http", "https") or not parts.hostname or parts.query or parts.fragment:
            raise ValueError(f"{url!r} is not of the form http://HOST:PORT or https://HOST:PORT/PROJECT")
        if caller is None and user is None:
            raise ValueError("who asks is not said: name a caller, or a user with a password")
        if (user is None) != (password is None):
            raise ValueError("a user and a password belong together")
        self._host = parts.hostname
        self._port = parts.port
        self._path = quote(parts.path.rstrip("/"), safe="/%")
        self._timeout = timeout
        self._tls = ssl.create_default_context(cafile=ca_file) if parts.scheme == "https" else None
        self._fields: Dict[str, bytes] = {}
        if caller is not None:
            self._fields["Caller"] = caller.encode("utf-8")
        if user is not None and password is not None:
            secret = base64.b64encode(f"{user}:{password}".encode("utf-8"))
            self._fields["Authorization"] = b"Basic " + secret

    def ask_once(self, method: str, path: str, body: bytes = b"") -> Answer:
        """Asks on a connection of its own, which ends with the answer."""
        connection = Connection(self, f"{method} {path}")
        try:
            return connection.ask(method, path, body)
        finally:
            connection.end()

    def fields(self) -> Dict[str, Union[str, bytes]]:
        """The fields of a head that say who asks."""
        return dict(self._fields)

    def path(self, path: str) -> str:
        """A path of the project as one of the address."""
        return self._path + path

    def connect(self) -> http.client.HTTPConnection:
        """A new connection, which is open."""
        opened: http.client.HTTPConnection
        if self._tls is None:
            opened = http.client.HTTPConnection(self._host, self._port, timeout=self._timeout)
        else:
            opened = http.client.HTTPSConnection(self._host, self._port, timeout=self._timeout, context=self._tls)
        opened.connect()
        # Otherwise http.client would open another connection by itself, which has no desk.
        opened.auto_open = 0
        return opened


class Connection:
    """A connection that is asked one message after another, until one of the two sides ends it."""

    def __init__(self, address: Address, request: str) -> None:
        self._address = address
        self._http: Optional[http.client.HTTPConnection] = None
        try:
            self._http = address.connect()
        except OSError as error:
            raise NotConnected(request, _reason(error)) from error

    @property
    def is_open(self) -> bool:
        """Whether the connection may be asked again, as far as is known here."""
        return self._http is not None

    def end(self) -> None:
        """Ends the connection. A desk that it holds is parked by the server."""
        if self._http is not None:
            self._http.close()
            self._http = None

    def ask(self, method: str, path: str, body: bytes = b"") -> Answer:
        """Sends one message and reads its answer; raises what the answer refuses, or that none came."""
        request = f"{method} {path}"
        if self._http is None:
            raise NotConnected(request, "the connection is gone")
        fields = self._address.fields()
        fields["Content-Length"] = str(len(body))
        try:
            response = self._exchange(self._http, method, self._address.path(path), body, fields)
            media = response.headers.get_content_type()
            ended = response.will_close
            answered = response.read()
        except (OSError, http.client.HTTPException) as error:
            self.end()
            raise ConnectionLost(request, _reason(error), perhaps_done=True) from error
        except BaseException:
            # Where it was interrupted, the next answer would be taken for that of another message.
            self.end()
            raise
        if ended:
            self.end()
        if response.status not in (200, 201):
            raise _refusal(request, response.status, answered, ended)
        return Answer(request, response.status, media, answered)

    @staticmethod
    def _exchange(
        opened: http.client.HTTPConnection, method: str, path: str, body: bytes, fields: Dict[str, Union[str, bytes]]
    ) -> http.client.HTTPResponse:
        try:
            opened.request(method, path, body=body, headers=fields)
        except (BrokenPipeError, ConnectionResetError):
            # The server may have answered before it had the whole body, and have ended the connection.
            pass
        return opened.getresponse()


def _refusal(request: str, status: int, body: bytes, ended: bool) -> Union[Refused, OtherAnswer]:
    """What an answer that grants nothing says."""
    found = _object(body)
    refused, of, line = found.get("refused"), found.get("of"), found.get("line")
    if not isinstance(refused, str):
        return OtherAnswer(request, status, body)
    return family_of(refused)(
        refused,
        status,
        of=of if isinstance(of, str) else None,
        line=line if isinstance(line, int) else None,
        request=request,
        ended=ended,
    )


def _reason(error: Exception) -> str:
    """The words of an error, or its name where it has none."""
    return str(error) or type(error).__name__


def slug(name: str) -> str:
    """A name as one part of a path; a name that no document or person can have stays one that the server refuses."""
    return quote(name, safe="")
