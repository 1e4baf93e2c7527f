"""A layer: what one person has marked on one text, or what a curator made of it.

All offsets count characters of the text from 0, and an end is the index behind the last character. Characters are those
of a Python string, so `text[start:end]` is what a fragment covers, beyond the first 65,536 characters of Unicode too.
"""

from __future__ import annotations

from dataclasses import dataclass, field
from typing import Dict, FrozenSet, List, Mapping, Tuple, Union

Fragment = Tuple[int, int]
"""A start and an end, in characters from 0, the end exclusive: `(0, 3)`."""

Roles = Mapping[str, FrozenSet[str]]
"""The roles that each type of events declares: `{"Meet": frozenset({"Who", "Place"})}`."""


@dataclass(frozen=True)
class Span:
    """A type on one or more fragments of the text, and the text that they cover; the trigger of an event too.

    Example:
        span = desk.layer()["T1"]
        print(span.type, span.start, span.end, span.text)  # Person 0 3 Ann
    """

    id: str
    type: str
    fragments: Tuple[Fragment, ...]
    text: str

    @property
    def start(self) -> int:
        """The first character of the first fragment, from 0.

        Example:
            span.start  # 0
        """
        return self.fragments[0][0]

    @property
    def end(self) -> int:
        """The index behind the last character of the last fragment.

        Example:
            span.end  # 3
        """
        return self.fragments[-1][1]


@dataclass(frozen=True)
class Argument:
    """What takes part in an event, and as what: the role as the configuration declares it, without a number behind it.

    Example:
        Argument(role="Who", id="T2")  # of `Who2:T2`, the second of its role
    """

    role: str
    id: str


@dataclass(frozen=True)
class Event:
    """An event: its type, the ID of the span that states it, and its arguments in their order.

    Example:
        event = desk.layer()["E1"]
        print([argument.id for argument in event.args if argument.role == "Who"])  # ['T1', 'T2']
    """

    id: str
    type: str
    trigger: str
    args: Tuple[Argument, ...]


@dataclass(frozen=True)
class Relation:
    """A relation of two annotations, the first as the first role of its type and the second as the second.

    Example:
        relation = desk.layer()["R1"]
        print(relation.type, relation.first.id, relation.second.id)  # Located T1 T3
    """

    id: str
    type: str
    first: Argument
    second: Argument


@dataclass(frozen=True)
class Attribute:
    """An attribute of the annotation `of`; `value` is None where the type has no values.

    Example:
        attribute = desk.layer()["A1"]
        print(attribute.type, attribute.of, attribute.value)  # Confidence E1 High
    """

    id: str
    type: str
    of: str
    value: Union[str, None]


@dataclass(frozen=True)
class Normalization:
    """What the annotation `of` stands for: an entry of a store, and a text.

    Example:
        reference = desk.layer()["N1"]
        print(reference.store, reference.entry, reference.text)  # Wikipedia Rome Rome
    """

    id: str
    of: str
    store: str
    entry: str
    text: str


@dataclass(frozen=True)
class Note:
    """A note of a type on the annotation `of`.

    Example:
        note = desk.layer()["#1"]
        print(note.type, note.of, note.text)  # AnnotatorNotes T1 which Ann?
    """

    id: str
    type: str
    of: str
    text: str


@dataclass(frozen=True)
class Equivalence:
    """Spans that are one class of a type, by their IDs in ascending order. It has no ID.

    Example:
        print(desk.layer().equivalences[0].members)  # ('T1', 'T2')
    """

    type: str
    members: Tuple[str, ...]


Annotation = Union[Span, Event, Relation, Attribute, Normalization, Note]
"""What has an ID in a layer."""


@dataclass(frozen=True)
class Layer:
    """All annotations of a layer by their sort, each by its number, and the .ann lines that they were read from.

    Example:
        layer = project.layer("rome", "ann")
        print(layer.ann, end="")  # T1 Person 0 3 Ann, with TABs
        for span in layer.spans:
            print(span.id, span.text)
    """

    ann: str
    spans: Tuple[Span, ...] = ()
    events: Tuple[Event, ...] = ()
    relations: Tuple[Relation, ...] = ()
    equivalences: Tuple[Equivalence, ...] = ()
    attributes: Tuple[Attribute, ...] = ()
    normalizations: Tuple[Normalization, ...] = ()
    notes: Tuple[Note, ...] = ()
    _by_id: Dict[str, Annotation] = field(default_factory=dict, repr=False, compare=False)

    def __getitem__(self, id: str) -> Annotation:
        """The annotation of an ID; a KeyError where there is none.

        Example:
            layer["T1"]
        """
        return self._by_id[id]

    def __contains__(self, id: object) -> bool:
        """Whether an annotation has the ID.

        Example:
            "T1" in layer  # True
        """
        return id in self._by_id

    @property
    def lines(self) -> List[str]:
        """The .ann lines, exactly as the server wrote them, without the line feeds behind them.

        Example:
            layer.lines  # ['T1\\tPerson 0 3\\tAnn']
        """
        return self.ann.split("\n")[:-1]


def read_layer(ann: str, roles: Roles) -> Layer:
    """A layer from the lines in which the server writes it.

    Roles are those that `roles_of` finds in the configuration: without them `Who2` might be the second `Who`, or a role
    of this very name.

    Example:
        read_layer("T1\\tPerson 0 3\\tAnn\\n", {}).spans[0].text  # 'Ann'
    """
    spans: List[Span] = []
    events: List[Event] = []
    relations: List[Relation] = []
    equivalences: List[Equivalence] = []
    attributes: List[Attribute] = []
    normalizations: List[Normalization] = []
    notes: List[Note] = []
    # Only a line feed ends a line: a text may hold other characters at which str.splitlines would part it.
    for line in ann.split("\n")[:-1]:
        id, rest = line.split("\t", 1)
        letter = id[:1]
        if letter == "T":
            spans.append(_span(id, rest))
        elif letter == "E":
            events.append(_event(id, rest, roles))
        elif letter == "R":
            type, first, second = rest.split(" ")
            relations.append(Relation(id, type, _argument(first), _argument(second)))
        elif letter == "*":
            type, *members = rest.split(" ")
            equivalences.append(Equivalence(type, tuple(members)))
        elif letter in ("A", "M"):
            type, of, *value = rest.split(" ")
            attributes.append(Attribute(id, type, of, value[0] if value else None))
        elif letter == "N":
            words, text = rest.split("\t", 1)
            _, of, reference = words.split(" ")
            store, entry = reference.split(":", 1)
            normalizations.append(Normalization(id, of, store, entry, text))
        elif letter == "#":
            words, text = rest.split("\t", 1)
            type, of = words.split(" ")
            notes.append(Note(id, type, of, text))
        else:
            raise ValueError(f"{line!r} is no line of an .ann file")
    with_ids: Tuple[List[Annotation], ...] = (
        [*spans],
        [*events],
        [*relations],
        [*attributes],
        [*normalizations],
        [*notes],
    )
    return Layer(
        ann,
        tuple(spans),
        tuple(events),
        tuple(relations),
        tuple(equivalences),
        tuple(attributes),
        tuple(normalizations),
        tuple(notes),
        {it.id: it for sort in with_ids for it in sort},
    )


def _span(id: str, rest: str) -> Span:
    words, text = rest.split("\t", 1)
    type, at = words.split(" ", 1)
    return Span(id, type, read_fragments(at), text)


def _event(id: str, rest: str, roles: Roles) -> Event:
    stated, *written = rest.split(" ")
    type, trigger = stated.split(":", 1)
    declared = roles.get(type, frozenset())
    arguments = (_argument(word) for word in written)
    return Event(id, type, trigger, tuple(Argument(declared_role(it.role, declared), it.id) for it in arguments))


def _argument(word: str) -> Argument:
    role, id = word.split(":", 1)
    return Argument(role, id)


def declared_role(written: str, declared: FrozenSet[str]) -> str:
    """The role that is declared, of one that may carry a number: the very name, else the longest before a number.

    Example:
        declared_role("Who2", frozenset({"Who", "Place"}))  # 'Who'
    """
    if written in declared:
        return written
    for end in range(len(written) - 1, max(0, len(written) - 10), -1):
        number = written[end:]
        if number.isascii() and number.isdigit() and number[0] != "0" and written[:end] in declared:
            return written[:end]
    return written


def roles_of(configuration: str) -> Roles:
    """The roles of each type of events, from a configuration in its canonical text.

    Example:
        roles_of("[events]\\nMeet\\tWho+:Agent, Place?:Location\\n")["Meet"]  # frozenset({'Who', 'Place'})
    """
    roles: Dict[str, FrozenSet[str]] = {}
    section = ""
    for line in configuration.split("\n"):
        if line.startswith("[") and line.endswith("]"):
            section = line
        elif section == "[events]" and line:
            name, _, pairs = line.lstrip("\t").partition("\t")
            marked = (pair.split(":", 1)[0] for pair in pairs.split(", ") if pair)
            roles[name.lstrip("!")] = frozenset(_without_mark(role) for role in marked)
    return roles


def _without_mark(role: str) -> str:
    """A role without the mark behind it that says how often it may stand."""
    return role.split("{", 1)[0].rstrip("?*+")


def read_fragments(at: str) -> Tuple[Fragment, ...]:
    """Fragments as they stand in a line.

    Example:
        read_fragments("0 5;16 23")  # ((0, 5), (16, 23))
    """
    pairs = (pair.split(" ") for pair in at.split(";"))
    return tuple((int(start), int(end)) for start, end in pairs)
