"""A desk: one annotator's copy of a layer, on which it is edited until it is committed or parked."""

from __future__ import annotations

import time
from dataclasses import dataclass, replace
from types import TracebackType
from typing import TYPE_CHECKING, Dict, Iterable, List, NamedTuple, Optional, Sequence, Tuple, Type

from .commands import Command, Field
from .connection import Address, Answer, Connection, slug
from .errors import AnnotateError, ConnectionLost, DeskRefused, NotConnected, OtherAnswer, Refused, ServerFault
from .layer import Fragment, Layer, read_layer

if TYPE_CHECKING:
    from .project import Project

class Steps(NamedTuple):
    """How many commands are done on a desk now, and how many are undone.

    Example:
        desk.undo()  # Steps(done=1, undone=1)
    """

    done: int
    undone: int


@dataclass(frozen=True)
class Resumed:
    """What a desk has after `Desk.reconnect`.

    Attributes:
        revision: how often the layer was committed by now.
        done: how many commands are done on the desk, as the server says; `undone` likewise.
        missing: the commands that were answered and are not on the desk, in their order: `Desk.do` gives one again.
        unanswered: what was asked last and got no answer, or None.
        carried_out: whether that stands now; None where there was nothing, or where it cannot be told.
        sure: whether the counts told all this. They do not where they fit both the commands that were parked before and
            those given since, or neither, as where somebody took the layer over meanwhile. `missing` then has all
            commands that may be missing: look at `Desk.layer` before one is given again.

    Example:
        back = desk.reconnect()
        if back.sure:
            for command in back.missing:
                desk.do(command)
    """

    revision: int
    done: int
    undone: int
    missing: Tuple[Command, ...]
    unanswered: Optional[Command]
    carried_out: Optional[bool]
    sure: bool


@dataclass(frozen=True)
class _Held:
    """What a desk may hold: the revision of its layer, and the commands that are done and undone on it."""

    revision: int
    done: Tuple[Command, ...] = ()
    undone: Tuple[Command, ...] = ()

    @property
    def steps(self) -> Steps:
        return Steps(len(self.done), len(self.undone))

    def behind(self, command: Command) -> _Held:
        """What it holds behind a command that is accepted."""
        if command.do == "commit":
            return _Held(self.revision + 1)
        if command.do == "park":
            return self
        if command.do == "undo":
            return replace(self, done=self.done[:-1], undone=self.undone + self.done[-1:])
        if command.do == "redo":
            return replace(self, done=self.done + self.undone[-1:], undone=self.undone[:-1])
        return replace(self, done=self.done + (command,), undone=())

    @classmethod
    def found(cls, revision: int, steps: Steps) -> _Held:
        """What a checkout found: commands of which no more is known than that they were parked."""
        parked = tuple(Command("parked", {"number": str(number)}) for number in range(1, sum(steps) + 1))
        return cls(revision, parked[: steps.done], parked[steps.done :])


class Desk:
    """A layer that is checked out, on a connection of its own: `Project.desk` makes one.

    Used in a `with` statement it is parked at the end, behind an exception too: its commands are kept for the next
    checkout, and are no part of the annotator's layer until they are committed. A desk is for one thread at a time.

    Attributes:
        document: the name of the text.

    Example:
        with project.desk("rome") as desk:
            ann = desk.add_span("Person", (0, 3))
            desk.set_note(ann, "AnnotatorNotes", "which Ann?")
            desk.commit()
    """

    def __init__(self, project: Project, address: Address, document: str, *, takeover: bool = False) -> None:
        self._project = project
        self._address = address
        self.document = document
        self._given_up = False
        self._unanswered: Optional[Command] = None
        self._connection, self._held = self._check_out(takeover)
        # What the server keeps of the layer if it stops now: what was found at the checkout, or committed since.
        self._kept = self._held

    def _check_out(self, takeover: bool) -> Tuple[Connection, _Held]:
        path = f"/docs/{slug(self.document)}/{'takeover' if takeover else 'checkout'}"
        connection = Connection(self._address, f"POST {path}")
        try:
            answer = connection.ask("POST", path)
            steps = Steps(answer.number("done"), answer.number("undone"))
            return connection, _Held.found(answer.number("revision"), steps)
        except BaseException:
            connection.end()
            raise

    # ---- the life of a desk

    def __enter__(self) -> Desk:
        return self

    def __exit__(
        self,
        kind: Optional[Type[BaseException]],
        error: Optional[BaseException],
        trace: Optional[TracebackType],
    ) -> None:
        try:
            if self.is_open:
                self.park()
        except AnnotateError:
            if error is None:
                raise
        finally:
            self._connection.end()
            self._project._has(self, False)

    @property
    def is_open(self) -> bool:
        """Whether the desk has its connection still, as far as is known here.

        Example:
            desk.is_open  # False behind desk.park(), or where the connection was lost
        """
        return self._connection.is_open

    @property
    def revision(self) -> int:
        """How often the layer was committed, as the last checkout or commit said.

        Example:
            desk.revision  # 0 where nothing was committed yet
        """
        return self._held.revision

    @property
    def steps(self) -> Steps:
        """How many commands are done and undone on the desk, those that were parked on it too.

        Example:
            desk.steps.done  # 3
        """
        return self._held.steps

    @property
    def uncommitted(self) -> Tuple[Command, ...]:
        """The commands that this desk has given and that are done, but not committed, in their order.

        What was parked before the checkout is not among them, since only its number is known (`Desk.steps`).

        Example:
            [command.do for command in desk.uncommitted]  # ['add-span', 'set-note']
        """
        return tuple(command for command in self._held.done if command.do != "parked")

    def commit(self) -> int:
        """Makes what is on the desk the annotator's layer, and gives its revision. The desk goes on behind it.

        What was done before a commit cannot be undone behind it. A `RuleBroken` of the rule `TooFew` names an event
        that lacks arguments; the desk stays as it is.

        Example:
            desk.commit()  # 1
        """
        command = Command("commit")
        revision = self._ask(command, "POST", "/desk/commit").number("revision")
        self._held = self._kept = _Held(revision)
        return revision

    def park(self) -> None:
        """Gives the desk up and keeps its commands, which are there again at the next checkout. Its connection ends.

        Example:
            desk.park()
        """
        try:
            self._ask(Command("park"), "POST", "/desk/park").field("parked")
        except DeskRefused:
            # The layer is no longer this desk's, which is given up all the same.
            self._leave()
            raise
        self._leave()

    def _leave(self) -> None:
        self._given_up = True
        self._connection.end()
        self._project._has(self, False)

    def reconnect(self, *, wait: float = 10.0, takeover: bool = False) -> Resumed:
        """Checks the layer out again behind a lost connection, and says what of the desk is there. Gives no command.

        A server that sees a connection end parks its desk, so that all its commands are there again. A server that was
        stopped has what was committed, and what was parked before. While the server is not reached, or the layer is
        still out, this asks again for `wait` seconds, and then raises that refusal. With `takeover` the layer is taken
        from whatever desk has it: what was not committed there is lost.

        Which of these happened is told by counts, as long as nobody else works as this annotator (`Resumed.sure`).

        Example:
            try:
                desk.add_span("Person", (0, 3))
            except ConnectionLost:
                back = desk.reconnect()
                if back.sure and not back.carried_out:
                    desk.add_span("Person", (0, 3))
        """
        if self._given_up or self.is_open:
            raise ValueError("only a desk whose connection was lost is reconnected")
        until = time.monotonic() + wait
        while True:
            try:
                self._connection, found = self._check_out(takeover)
                self._project._has(self, True)
                return self._resume(found)
            except (NotConnected, DeskRefused):
                if time.monotonic() >= until:
                    raise
                time.sleep(0.1)

    def _resume(self, found: _Held) -> Resumed:
        """Tells by the revision and the counts which of the things that can have happened did."""
        unanswered, self._unanswered = self._unanswered, None
        before, known = self._held, self.uncommitted
        # Each thing that the desk may hold, and whether what got no answer stands in it.
        possible: List[Tuple[_Held, bool]] = [(before, False), (self._kept, False)]
        if unanswered is not None:
            possible.append((before.behind(unanswered), True))
        fitting = [it for it in possible if (it[0].revision, it[0].steps) == (found.revision, found.steps)]
        sure = bool(fitting) and all(it[0] == fitting[0][0] for it in fitting)
        self._held = fitting[0][0] if sure else found
        # What the server keeps from now on is what it has handed out.
        self._kept = self._held
        missing = list(known)
        for command in self._held.done + self._held.undone:
            if command in missing:
                missing.remove(command)
        if sure and found.revision > before.revision:
            missing = []
        stands = {it[1] for it in fitting}
        return Resumed(
            found.revision,
            found.steps.done,
            found.steps.undone,
            tuple(missing),
            unanswered,
            stands.pop() if unanswered is not None and sure and len(stands) == 1 else None,
            sure,
        )

    # ---- what is read

    def layer(self) -> Layer:
        """The layer as it stands on the desk now.

        Example:
            [span.text for span in desk.layer().spans]  # ['Ann']
        """
        lines = self._ask(None, "GET", "/desk").text()
        # On the desk's own connection, since another one may have to wait for one of the server's to end.
        roles = self._project._roles_by(lambda: self._ask(None, "GET", "/conf"))
        return read_layer(lines, roles)

    def text(self) -> str:
        """The text that the desk is for, over the desk's own connection.

        Example:
            desk.text()[0:3]  # 'Ann'
        """
        return self._ask(None, "GET", f"/docs/{slug(self.document)}/text").text()

    # ---- commands

    def do(self, command: Command) -> Optional[str]:
        """Gives a command, as one that `Resumed.missing` has, and gives the ID of the annotation that it made.

        Example:
            desk.do(Command("add-span", {"type": "Person", "at": "0 3"}))  # 'T1'
        """
        path = "/desk/load" if command.do == "load" else "/desk/do"
        made = self._ask(command, "POST", path, command.body()).name("made")
        self._held = self._held.behind(replace(command, made=made))
        return made

    def _make(self, command: Command) -> str:
        """Gives a command that always makes an annotation."""
        made = self.do(command)
        if made is None:
            raise ValueError(f"the server made nothing of {command}")
        return made

    def add_span(self, type: str, *at: Fragment) -> str:
        """Makes a span and gives its ID; each fragment is a start and an end in characters from 0, the end exclusive.

        Example:
            desk.add_span("Person", (0, 3))  # 'T1'
            desk.add_span("Location", (0, 5), (16, 23))  # 'T2'
        """
        return self._make(Command("add-span", {"type": type, "at": _spell(at)}))

    def retype(self, id: str, type: str) -> None:
        """Gives a span another type.

        Example:
            desk.retype("T1", "Organization")
        """
        self.do(Command("retype", {"id": id, "type": type}))

    def move(self, id: str, *at: Fragment) -> None:
        """Gives a span other fragments, each in characters from 0, the end exclusive.

        Example:
            desk.move("T1", (8, 11))
        """
        self.do(Command("move", {"id": id, "at": _spell(at)}))

    def add_event(self, type: str, trigger: str, args: Sequence[str] = ()) -> str:
        """Makes an event, stated by a span of its type, with arguments as `Who:T1`, and gives its ID.

        Roles stand as they are declared: of two arguments `Who` both are written `Who`, without a number.

        Example:
            desk.add_event("Meet", "T4", ["Who:T1", "Who:T2"])  # 'E1'
        """
        return self._make(Command("add-event", {"type": type, "trigger": trigger, "args": tuple(args)}))

    def add_arg(self, id: str, arg: str) -> None:
        """Gives an event one more argument, behind the others.

        Example:
            desk.add_arg("E1", "Place:T3")
        """
        self.do(Command("add-arg", {"id": id, "arg": arg}))

    def remove_arg(self, id: str, arg: str) -> None:
        """Takes the first such argument out of an event.

        Example:
            desk.remove_arg("E1", "Place:T3")
        """
        self.do(Command("remove-arg", {"id": id, "arg": arg}))

    def add_relation(self, type: str, first: str, second: str) -> str:
        """Makes a relation of two annotations and gives its ID.

        Example:
            desk.add_relation("Located", "T1", "T3")  # 'R1'
        """
        return self._make(Command("add-relation", {"type": type, "first": first, "second": second}))

    def set_attribute(self, type: str, of: str, value: Optional[str] = None) -> Optional[str]:
        """Sets an attribute of the annotation `of`, or gives the one that is there another value.

        Gives the ID of a new attribute, and None where there was one. An attribute without values takes none.

        Example:
            desk.set_attribute("Confidence", "E1", "High")  # 'A1'
            desk.set_attribute("Negation", "E1")  # 'A2'
        """
        fields: Dict[str, Field] = {"type": type, "of": of}
        if value is not None:
            fields["value"] = value
        return self.do(Command("set-attribute", fields))

    def clear_attribute(self, id: str) -> None:
        """Takes an attribute away, by its own ID.

        Example:
            desk.clear_attribute("A1")
        """
        self.do(Command("clear-attribute", {"id": id}))

    def equate(self, type: str, members: Sequence[str]) -> None:
        """Makes spans one class, with every class of the type that shares a member.

        Example:
            desk.equate("Equiv", ["T1", "T2"])
        """
        self.do(Command("equate", {"type": type, "members": tuple(members)}))

    def unequate(self, type: str, id: str) -> None:
        """Takes a span out of its class of a type; a class of one vanishes.

        Example:
            desk.unequate("Equiv", "T2")
        """
        self.do(Command("unequate", {"type": type, "id": id}))

    def set_note(self, of: str, type: str, text: str) -> Optional[str]:
        """Sets a note of a type on the annotation `of`, or gives the lowest such note another text.

        Gives the ID of a new note, and None where there was one.

        Example:
            desk.set_note("T1", "AnnotatorNotes", "which Ann?")  # '#1'
        """
        return self.do(Command("set-note", {"of": of, "type": type, "text": text}))

    def set_reference(self, of: str, entry: str, text: str) -> Optional[str]:
        """Says which entry of a store the annotation `of` stands for, as `Wikipedia:Rome`, or gives it another text.

        Gives the ID of a new reference, and None where there was one of this entry.

        Example:
            desk.set_reference("T3", "Wikipedia:Rome", "Rome")  # 'N1'
        """
        return self.do(Command("set-reference", {"of": of, "entry": entry, "text": text}))

    def delete(self, id: str) -> None:
        """Takes an annotation away, from its classes too; refused (`InUse`) where another annotation names it.

        Example:
            desk.delete("R1")
        """
        self.do(Command("delete", {"id": id}))

    def purge(self, id: str) -> None:
        """Takes an annotation away with all that names it, again and again.

        Example:
            desk.purge("T1")
        """
        self.do(Command("purge", {"id": id}))

    def load(self, ann: str) -> None:
        """Puts the layer of an .ann file in the place of what is on the desk; `undo` brings that back.

        The first fault of the file is raised with its line, from 1, as `FileRefused` or `RuleBroken`.

        Example:
            desk.load("T1\\tPerson 0 3\\tAnn\\n")
        """
        self.do(Command("load", {"ann": ann}))

    def undo(self) -> Steps:
        """Takes the last command back, and gives how many are done and undone then.

        Example:
            desk.undo()  # Steps(done=0, undone=1)
        """
        return self._step(Command("undo"), "/desk/undo")

    def redo(self) -> Steps:
        """Does what was undone last again, and gives how many are done and undone then.

        Example:
            desk.redo()  # Steps(done=1, undone=0)
        """
        return self._step(Command("redo"), "/desk/redo")

    def _step(self, command: Command, path: str) -> Steps:
        answer = self._ask(command, "POST", path)
        self._held = self._held.behind(command)
        return Steps(answer.number("done"), answer.number("undone"))

    def _ask(self, command: Optional[Command], method: str, path: str, body: bytes = b"") -> Answer:
        """Asks on the desk's connection, and remembers what got no answer."""
        request = f"{method} {path}"
        if not self.is_open:
            reason = "the desk was given up" if self._given_up else "the desk's connection is gone"
            gone = NotConnected(request, reason)
            gone.uncommitted = () if self._given_up else self.uncommitted
            raise gone
        self._unanswered = command
        try:
            answer = self._connection.ask(method, path, body)
        except ConnectionLost as error:
            error.uncommitted = self.uncommitted
            raise
        except OtherAnswer as error:
            if error.perhaps_done:
                self._connection.end()
            else:
                self._unanswered = None
            raise
        except Refused as error:
            if not (isinstance(error, ServerFault) and error.ended):
                self._unanswered = None
            raise
        self._unanswered = None
        return answer


def _spell(at: Iterable[Fragment]) -> str:
    """Fragments as a command has them."""
    return ";".join(f"{start} {end}" for start, end in at)
