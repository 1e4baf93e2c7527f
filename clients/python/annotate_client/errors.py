"""What can go wrong, as exceptions.

Everything that this package raises of its own is an `AnnotateError`:

- `Refused`: the server answered, and did not do what was asked. There is a class for each family of refusals.
- `ConnectionLost`: no answer came. What was asked may have been done.
- `OtherAnswer`: something answered that is not the annotation server, such as a front before it.
"""

from __future__ import annotations

from typing import ClassVar, Dict, FrozenSet, Optional, Tuple, Type

from .commands import Command


class AnnotateError(Exception):
    """Any failure that this package raises of its own.

    Example:
        try:
            project.finish("rome")
        except AnnotateError as error:
            print(error)
    """

    def __reduce__(self) -> Tuple[object, ...]:
        # With all that it has, so that it comes whole out of a pool of processes.
        return _restored, (type(self), self.args, self.__dict__)


def _restored(kind: Type[AnnotateError], args: Tuple[object, ...], fields: Dict[str, object]) -> AnnotateError:
    error = kind.__new__(kind, *args)
    error.__dict__.update(fields)
    return error


class Refused(AnnotateError):
    """The server refused what was asked, and nothing was changed (but see `ServerFault` and `Stopped`).

    Attributes:
        refused: the name of the refusal, as `SameSpan`; docs/http.md and docs/rules.md of the server have all.
        of: what the refusal names, as `T1`, or None where it names nothing.
        line: the line of the file that was loaded, from 1, or None where it was no file.
        status: the HTTP status, as 422.
        request: what was asked, as `POST /desk/do`.
        ended: whether this answer was the last of its connection.

    Example:
        try:
            desk.add_span("Person", (0, 3))
        except Refused as error:
            print(error.refused, error.of, error.status)  # SameSpan T1 422
    """

    names: ClassVar[FrozenSet[str]] = frozenset()

    def __init__(
        self,
        refused: str,
        status: int,
        *,
        of: Optional[str] = None,
        line: Optional[int] = None,
        request: str = "",
        ended: bool = False,
    ) -> None:
        self.refused = refused
        self.of = of
        self.line = line
        self.status = status
        self.request = request
        self.ended = ended
        where = "" if line is None else f"line {line}: "
        what = refused if of is None else f"{refused} {of}"
        super().__init__(f"{where}{what} (status {status} of {request})")


class BadRequest(Refused):
    """The message asks for nothing that there is: a path, a name or a body is not of its form.

    `NoRoute` also comes for a name of a document or a person that cannot be one, such as "a b".

    Example:
        try:
            project.text("a b")
        except BadRequest as error:
            print(error.refused)  # NoRoute
    """

    names = frozenset({"NoRoute", "NoMethod", "NoCaller", "BadBody", "TextTooLong"})


class NotAllowed(Refused):
    """The caller is not on the roster (`of` is `Roster`), or is not who may ask this (`Annotator`, `Curator`, `Own`).

    Example:
        try:
            project.pairs()
        except NotAllowed as error:
            print(error.of)  # Curator
    """

    names = frozenset({"NotAllowed"})


class NotThere(Refused):
    """There is no such document, layer, snapshot or item.

    Example:
        try:
            project.text("paris")
        except NotThere as error:
            print(error.refused)  # NoDocument
    """

    names = frozenset({"NoDocument", "NoLayer", "NoSnapshot", "NoItem"})


class DeskRefused(Refused):
    """The layer is on another desk (`LayerOut`, `NotYours`), or this connection has no desk, or has one already.

    Example:
        try:
            desk = project.desk("rome")
        except DeskRefused:  # LayerOut: whoever has it out loses what is not committed
            desk = project.desk("rome", takeover=True)
    """

    names = frozenset({"NoDesk", "DeskHeld", "NotYours", "LayerOut"})


class RuleBroken(Refused):
    """A command, a file, a commit or a decision would break a rule, which is named; docs/rules.md has each.

    Example:
        try:
            desk.delete("T1")
        except RuleBroken as error:
            print(error.refused, error.of)  # InUse E1
    """

    names = frozenset(
        {
            "UnknownType", "NotForUse", "BadFragments", "OutOfText", "SpanTooLong", "NoSuch", "WrongKind",
            "UnknownRole", "ArgumentType", "TooMany", "NoSuchArgument", "UnknownValue", "TooDeep", "SameSpan",
            "SameEvent", "SameRelation", "AttributeThere", "EquivMembers", "OverlapRefused", "InUse", "BadText",
            "LayerFull", "IdsUsedUp", "TooFew", "DeskFull", "NothingToUndo", "NothingToRedo",
        }
    )  # fmt: skip


class FileRefused(Refused):
    """A file that is loaded is not written as an .ann file is; `line` is the line of its first fault, from 1.

    Example:
        try:
            desk.load("T1\\tPerson 0 3\\tAnn\\nT1\\tPerson 8 11\\tBob\\n")
        except FileRefused as error:
            print(error.line, error.refused)  # 2 IdTwice
    """

    names = frozenset({"NotUtf8", "BadLine", "BadId", "IdTwice", "WrongText"})


class StateRefused(Refused):
    """The project or the layer is not in the state for it, as a layer that is finished or was never committed.

    Example:
        try:
            project.take_snapshot("rome")
        except StateRefused as error:
            print(error.refused, error.of)  # TooFewFinished 1
    """

    names = frozenset(
        {
            "Finished", "NotFinished", "NothingCommitted", "TooFewFinished", "DocumentThere", "AlreadyIgnored",
            "NotIgnored", "ProjectFull", "EntryTooLong",
        }
    )  # fmt: skip


class DecisionRefused(Refused):
    """A verdict on an item does not fit those that stand: docs/curation.md has each.

    Example:
        try:
            project.reject(1, "ann/T1")
        except DecisionRefused as error:
            print(error.refused, error.of)  # NeedsItem ann/E1
    """

    names = frozenset({"AlreadyIn", "NotIn", "NotDecided", "NeedsItem"})


class ServerFault(Refused):
    """The server could not: the change was not kept (500 `Keeper`), or memory ran out (503 `Memory`).

    Behind `Keeper` the change was not made, and may be asked again; where the server stops before its next change, look
    first whether it is there. Behind `Memory` nothing was done, but where `ended` is true, it may have been done.

    Example:
        try:
            desk.commit()
        except ServerFault as error:
            print(error.refused)  # Keeper
    """

    names = frozenset({"Keeper", "Memory"})


class Stopped(Refused):
    """The server could not take the message as one, and ended the connection: its head or its body is too large, say.

    The message was not served. A desk on that connection was parked by the server, as when a connection is lost.

    Example:
        try:
            project.add_text("long", "x" * 5_000_000)
        except Stopped as error:
            print(error.refused)  # TooLarge
    """

    names = frozenset({"BadHead", "TooLarge", "Encoded", "NeedsLength"})


FAMILIES: Tuple[Type[Refused], ...] = (
    BadRequest,
    NotAllowed,
    NotThere,
    DeskRefused,
    RuleBroken,
    FileRefused,
    StateRefused,
    DecisionRefused,
    ServerFault,
    Stopped,
)
"""The families of refusals; each name stands in one of them. A name that is in none is raised as `Refused` itself."""

_FAMILY_OF: Dict[str, Type[Refused]] = {name: family for family in FAMILIES for name in family.names}


def family_of(refused: str) -> Type[Refused]:
    """The class that is raised for the name of a refusal.

    Example:
        family_of("SameSpan")  # RuleBroken
    """
    return _FAMILY_OF.get(refused, Refused)


class ConnectionLost(AnnotateError):
    """No answer came: the connection ended, or the time for an answer passed. Nothing is ever sent again by itself.

    Attributes:
        request: what was asked, as `POST /desk/commit`.
        perhaps_done: whether it may have been done all the same, since it may have reached the server.
        uncommitted: of a desk, the commands that were answered and are neither committed nor parked, as far as is known
            here. `Desk.reconnect` finds out which of them are there.

    Example:
        try:
            desk.add_span("Person", (0, 3))
        except ConnectionLost as error:
            print(error.perhaps_done, error.uncommitted)
            back = desk.reconnect()
            print(back.carried_out, back.missing)
    """

    def __init__(self, request: str, reason: str, *, perhaps_done: bool) -> None:
        self.request = request
        self.reason = reason
        self.perhaps_done = perhaps_done
        self.uncommitted: Tuple[Command, ...] = ()
        super().__init__(request, reason)

    def __str__(self) -> str:
        ending = "it may have been done" if self.perhaps_done else "it was not done"
        waiting = f"; commands not committed: {len(self.uncommitted)}" if self.uncommitted else ""
        return f"no answer to {self.request}, {ending}: {self.reason}{waiting}"


class NotConnected(ConnectionLost):
    """Nothing was sent, for want of a connection: the server was not reached, or the desk's connection is gone.

    Example:
        try:
            project.docs()
        except NotConnected:
            print("is the server running?")
    """

    def __init__(self, request: str, reason: str) -> None:
        super().__init__(request, reason, perhaps_done=False)


class OtherAnswer(AnnotateError):
    """An answer that the annotation server does not give: of a front before it, or of something else at the address.

    Attributes:
        request: what was asked, as `GET /docs`.
        status: its HTTP status, as 401 where the front does not know the password.
        body: its body, as bytes.
        perhaps_done: whether what was asked may have been done all the same, as behind a 504 of a front.

    Example:
        try:
            project.docs()
        except OtherAnswer as error:
            print(error.status)  # 401
    """

    def __init__(self, request: str, status: int, body: bytes) -> None:
        self.request = request
        self.status = status
        self.body = body
        self.perhaps_done = not 400 <= status < 500
        ending = "it may have been done" if self.perhaps_done else "it was not done"
        shown = body[:200].decode("utf-8", "replace").strip()
        super().__init__(f"status {status} to {request} is no answer of the annotation server, {ending}: {shown}")
