"""A project that is served: its routes as methods."""

from __future__ import annotations

import json
from contextlib import ExitStack
from types import TracebackType
from typing import Callable, List, Optional, Set, Type

from .connection import CSV, Address, Answer, slug
from .desk import Desk
from .layer import Layer, Roles, read_layer, roles_of
from .tables import (
    Alpha,
    Curation,
    Document,
    Item,
    Pair,
    Person,
    Progress,
    Snapshot,
    read_alpha,
    read_items,
    read_pairs,
    read_progress,
    read_roster,
    read_snapshots,
)


class Project:
    """A project at an address, as one person sees it.

    Each method asks on a connection that ends with the answer, since the server serves sixty-four connections at a time:
    a project holds none, and may be used by several threads. A desk holds one. Used in a `with` statement, a project
    parks the desks that are still open at its end.

    Args:
        url: where it is served: `http://127.0.0.1:8080`, or `https://HOST:PORT/PROJECT` behind a front.
        caller: who asks, where the server is asked without a front.
        user, password: who asks, where a front knows people by passwords and sets the caller itself.
        ca_file: a file of certificates to trust in place of the system's, where the front's is of your own making.
        timeout: how many seconds are waited for each answer.

    Proxies that the environment names are not used.

    Example:
        with Project("http://127.0.0.1:8080", "cur") as project:
            project.add_text("rome", "Ann met Bob in Rome")
        with Project("https://HOST:8443/news", user="bob", password="bob-secret", ca_file="front.crt") as project:
            print(project.docs())
    """

    def __init__(
        self,
        url: str,
        caller: Optional[str] = None,
        *,
        user: Optional[str] = None,
        password: Optional[str] = None,
        ca_file: Optional[str] = None,
        timeout: float = 60.0,
    ) -> None:
        self._address = Address(url, caller=caller, user=user, password=password, ca_file=ca_file, timeout=timeout)
        self._roles: Optional[Roles] = None
        self._desks: Set[Desk] = set()

    def __enter__(self) -> Project:
        return self

    def __exit__(
        self,
        kind: Optional[Type[BaseException]],
        error: Optional[BaseException],
        trace: Optional[TracebackType],
    ) -> None:
        # Each is parked, also where the park of another is refused.
        desks = ExitStack()
        for desk in list(self._desks):
            desks.push(desk)
        desks.__exit__(kind, error, trace)

    def _has(self, desk: Desk, held: bool) -> None:
        """Remembers which desks are to be parked at the end."""
        if held:
            self._desks.add(desk)
        else:
            self._desks.discard(desk)

    def _ask(self, method: str, path: str, body: bytes = b"") -> Answer:
        return self._address.ask_once(method, path, body)

    # ---- texts

    def configuration(self) -> str:
        """The configuration of the project in its canonical text; it never changes.

        Example:
            project.configuration().split("\\n")[0]  # '[entities]'
        """
        return self._ask("GET", "/conf").text()

    def roles(self) -> Roles:
        """The roles that each type of events declares, from the configuration, which is asked for once.

        Example:
            project.roles()["Meet"]  # frozenset({'Who', 'Place'})
        """
        return self._roles_by(lambda: self._ask("GET", "/conf"))

    def _roles_by(self, ask: Callable[[], Answer]) -> Roles:
        """The roles, by a way to ask for the configuration where it was not asked for yet."""
        if self._roles is None:
            self._roles = roles_of(ask().text())
        return self._roles

    def docs(self) -> List[Document]:
        """The documents in the order in which they were added.

        Example:
            [document.name for document in project.docs()]  # ['rome']
        """
        rows = self._ask("GET", "/docs").rows("docs")
        return [Document(str(row["name"]), int(str(row["characters"]))) for row in rows]

    def text(self, name: str) -> str:
        """The text of a document. Offsets are indexes of this string.

        Example:
            project.text("rome")[0:3]  # 'Ann'
        """
        return self._ask("GET", f"/docs/{slug(name)}/text").text()

    def add_text(self, name: str, text: str) -> int:
        """Adds a document, as a curator, and gives the number of its tokens. A text never changes once it is there.

        A text has at most 200,000 characters; a name consists of letters, digits, `_`, `-` and `.`.

        Example:
            project.add_text("rome", "Ann met Bob in Rome")  # 5
        """
        return self._ask("PUT", f"/docs/{slug(name)}/text", text.encode("utf-8")).number("tokens")

    # ---- people

    def roster(self) -> List[Person]:
        """Who takes part, by name, as a curator.

        Example:
            project.roster()[0]  # Person(name='ann', role='annotator')
        """
        return read_roster(self._ask("GET", "/roster").text(CSV))

    def progress(self) -> List[Progress]:
        """How far each annotator is with each document, also where nothing was begun; an annotator is told the own rows.

        The documents come as they were added, and for each the annotators by name.

        Example:
            [it.annotator for it in project.progress() if it.document == "rome" and it.state != "finished"]  # ['cid']
        """
        return read_progress(self._ask("GET", "/progress").text(CSV))

    # ---- layers

    def desk(self, document: str, *, takeover: bool = False) -> Desk:
        """Checks the caller's layer of a document out, with what was parked on it: a desk, best in a `with` statement.

        Refused (`LayerOut`) where a desk has it already; with `takeover` that desk loses it, and what was neither
        committed nor parked there.

        Example:
            with project.desk("rome") as desk:
                desk.add_span("Person", (0, 3))
                desk.commit()
        """
        desk = Desk(self, self._address, document, takeover=takeover)
        self._has(desk, True)
        return desk

    def layer(self, document: str, annotator: str) -> Layer:
        """The layer that an annotator has committed, as a curator or as that annotator.

        Example:
            [span.text for span in project.layer("rome", "ann").spans]  # ['Ann']
        """
        lines = self._ask("GET", self._layer(document, annotator)).text()
        return read_layer(lines, self.roles())

    def finish(self, document: str) -> None:
        """Says that the caller's layer of a document is done, so that it can be curated. It must not be on a desk.

        Example:
            project.finish("rome")
        """
        self._ask("POST", f"/docs/{slug(document)}/finish").field("finished")

    def reopen(self, document: str, annotator: str) -> None:
        """Gives a finished layer back to its annotator, as a curator.

        Example:
            project.reopen("rome", "ann")
        """
        self._ask("POST", f"{self._layer(document, annotator)}/reopen").field("finished")

    def ignore(self, document: str, annotator: str) -> None:
        """Leaves a committed layer out of all figures of agreement, as a curator.

        Example:
            project.ignore("rome", "ann")
        """
        self._ask("POST", f"{self._layer(document, annotator)}/ignore").field("ignored")

    def readmit(self, document: str, annotator: str) -> None:
        """Counts a layer that was ignored again, as a curator.

        Example:
            project.readmit("rome", "ann")
        """
        self._ask("POST", f"{self._layer(document, annotator)}/readmit").field("ignored")

    @staticmethod
    def _layer(document: str, annotator: str) -> str:
        return f"/docs/{slug(document)}/layers/{slug(annotator)}"

    # ---- curation

    def take_snapshot(self, document: str) -> Snapshot:
        """Takes the finished layers of a document, two or more, as they stand now, as a curator.

        Example:
            project.take_snapshot("rome")  # Snapshot(number=1, layers=2)
        """
        answer = self._ask("POST", f"/docs/{slug(document)}/snapshots")
        return Snapshot(answer.number("snapshot"), answer.number("layers"))

    def snapshots(self) -> List[Curation]:
        """How far each snapshot is decided, in the order in which they were taken, as a curator.

        The server lists the items of all snapshots for it, anew with each call.

        Example:
            [(it.number, it.document, it.undecided) for it in project.snapshots()]  # [(1, 'rome', 3)]
        """
        return read_snapshots(self._ask("GET", "/snapshots").text(CSV))

    def items(self, snapshot: int) -> List[Item]:
        """The items of a snapshot, by the order of their holders and then of their IDs, as a curator.

        Example:
            [item.name for item in project.items(1) if item.state == "undecided"]  # ['bob/T3']
        """
        return read_items(self._ask("GET", f"/snapshots/{snapshot}/items").text(CSV))

    def curated(self, snapshot: int) -> Layer:
        """The curated layer of a snapshot: what is unanimous or accepted, and not rejected, as a curator.

        Example:
            print(project.curated(1).ann, end="")
        """
        return read_layer(self._ask("GET", f"/snapshots/{snapshot}/curated").text(), self.roles())

    def accept(self, snapshot: int, item: str) -> int:
        """Takes an item into the curated layer, as a curator, and gives how many verdicts stand then.

        Example:
            project.accept(1, "bob/T3")  # 1
        """
        return self._decide(snapshot, "decisions", item, "accept")

    def reject(self, snapshot: int, item: str) -> int:
        """Takes an item that is in out of the curated layer, as a curator, and gives how many verdicts stand then.

        An item that is not in cannot be rejected (`NotIn`); one that another item names goes out behind that one.

        Example:
            project.reject(1, "ann/E1")  # 2
        """
        return self._decide(snapshot, "decisions", item, "reject")

    def undecide(self, snapshot: int, item: str) -> int:
        """Takes the verdict on an item back, as a curator, and gives how many verdicts stand then.

        Example:
            project.undecide(1, "bob/T3")  # 1
        """
        return self._decide(snapshot, "undecisions", item, None)

    def _decide(self, snapshot: int, route: str, item: str, verdict: Optional[str]) -> int:
        fields = {"item": item} if verdict is None else {"item": item, "verdict": verdict}
        body = json.dumps(fields, ensure_ascii=False).encode("utf-8")
        return self._ask("POST", f"/snapshots/{snapshot}/{route}", body).number("decided")

    # ---- agreement

    def pairs(self) -> List[Pair]:
        """How far each two annotators agree, by Cohen's kappa as an exact fraction, as a curator.

        Example:
            [(pair.first, pair.second, pair.kappa) for pair in project.pairs()]  # [('ann', 'bob', Fraction(4, 9))]
        """
        return read_pairs(self._ask("GET", "/agreement/pairs").text(CSV))

    def alpha(self) -> Alpha:
        """How far all annotators agree, by Krippendorff's alpha as an exact fraction, as a curator.

        Example:
            project.alpha().alpha  # Fraction(5, 11)
        """
        return read_alpha(self._ask("GET", "/agreement/alpha").text(CSV))
