"""The rows that a project answers: people, documents and how far they are, snapshots, items and figures of agreement."""

from __future__ import annotations

import re
from dataclasses import dataclass
from fractions import Fraction
from typing import List, Optional, Tuple


@dataclass(frozen=True)
class Document:
    """A text of the project: its name and how many characters it has.

    Example:
        for document in project.docs():
            print(document.name, document.characters)
    """

    name: str
    characters: int


@dataclass(frozen=True)
class Person:
    """Somebody who takes part: the name, and the role, which is `annotator` or `curator`.

    Example:
        [person.name for person in project.roster() if person.role == "annotator"]  # ['ann', 'bob', 'cid']
    """

    name: str
    role: str


@dataclass(frozen=True)
class Progress:
    """How far an annotator is with a document.

    `revision` is how often the layer was committed, and `annotations` how many annotations it has since it was committed
    last, without classes. The state is `finished`; or else `out`, where a desk has the layer; or else `open`, where it was
    committed; or else `none`. `ignored` tells whether a curator leaves the layer out of the agreement, and `parked` is how
    many commands wait for the next checkout.

    Example:
        for it in project.progress():
            print(it.document, it.annotator, it.state, it.annotations)  # rome ann finished 2
    """

    document: str
    annotator: str
    revision: int
    state: str
    ignored: bool
    annotations: int
    parked: int


@dataclass(frozen=True)
class Snapshot:
    """The finished layers of a text as a curator took them: the snapshot's number, from 1, and how many layers it has.

    Example:
        snapshot = project.take_snapshot("rome")
        print(snapshot.number, snapshot.layers)  # 1 2
    """

    number: int
    layers: int


@dataclass(frozen=True)
class Curation:
    """How far a snapshot is decided: its number, its document, how many layers it has, and how many items these have.

    `unanimous` counts the items that every layer has, whatever was decided on them, and `accepted` and `rejected` the
    verdicts that stand; so an item that every layer has and that was rejected is counted under both. `undecided` counts
    the items that are not unanimous and have no verdict.

    Example:
        [it.number for it in project.snapshots() if it.undecided == 0]  # the snapshots that are done
    """

    number: int
    document: str
    layers: int
    items: int
    unanimous: int
    accepted: int
    rejected: int
    undecided: int


@dataclass(frozen=True)
class Item:
    """One thing that the layers of a snapshot say: its name, its line behind the ID, who has it, and its state.

    The state is `unanimous`, `undecided`, `accepted` or `rejected`. IDs in the line are those of the layer of `holder`.

    Example:
        for item in project.items(1):
            print(item.name, item.line, item.holders, item.state)
    """

    name: str
    line: str
    holders: Tuple[str, ...]
    state: str

    @property
    def holder(self) -> str:
        """Whose layer the item is named after: the first of those who have it.

        Example:
            item.holder  # 'ann' of ann/T1
        """
        return self.name.split("/", 1)[0]

    @property
    def id(self) -> str:
        """The ID of the item in the layer of its holder.

        Example:
            item.id  # 'T1' of ann/T1
        """
        return self.name.split("/", 1)[1]

    @property
    def is_in(self) -> bool:
        """Whether the item is in the curated layer.

        Example:
            [item.name for item in project.items(1) if not item.is_in]
        """
        return self.state in ("unanimous", "accepted")


@dataclass(frozen=True)
class Pair:
    """How far two annotators agree, over the tokens of all documents on which both have a committed layer.

    `units` are these tokens and `agreed` those that both label alike. `kappa` is Cohen's kappa as an exact fraction, or
    None where it is not defined: no two labels could differ, or there is no such token.

    Example:
        for pair in project.pairs():
            print(pair.first, pair.second, pair.kappa)  # ann bob 4/9
    """

    first: str
    second: str
    units: int
    agreed: int
    kappa: Optional[Fraction]


@dataclass(frozen=True)
class Alpha:
    """How far all annotators agree: Krippendorff's alpha for nominal labels, as an exact fraction.

    `units` are the tokens that two annotators or more label, and `values` their labels. `alpha` is None where it is not
    defined.

    Example:
        print(project.alpha().alpha)  # 5/11
    """

    units: int
    values: int
    alpha: Optional[Fraction]


_CELL = re.compile(r'(?:"([^"]*(?:""[^"]*)*)"|([^",\n]*))([,\n])')


def read_lines(csv: str) -> List[List[str]]:
    """All rows of a table, the header too where it has one. A cell in double quotes may hold commas, quotes and line feeds.

    Fields may be longer than those that the module csv reads.

    Example:
        read_lines('ann,"b, b"\\n')  # [['ann', 'b, b']]
    """
    rows: List[List[str]] = []
    row: List[str] = []
    for quoted, plain, ending in _CELL.findall(csv):
        row.append(quoted.replace('""', '"') or plain)
        if ending == "\n":
            rows.append(row)
            row = []
    return rows


def read_rows(csv: str) -> List[List[str]]:
    """The rows of a table behind its header.

    Example:
        read_rows('first,second\\nann,"b, b"\\n')  # [['ann', 'b, b']]
    """
    return read_lines(csv)[1:]


def read_roster(csv: str) -> List[Person]:
    """The people from their table, which has no header.

    Example:
        read_roster("ann,annotator\\ncur,curator\\n")[1].role  # 'curator'
    """
    return [Person(name, role) for name, role in read_lines(csv)]


def read_progress(csv: str) -> List[Progress]:
    """How far each annotator is with each document, from the table of progress.

    Example:
        table = "document,annotator,revision,state,ignored,annotations,parked\\nrome,ann,1,open,false,2,0\\n"
        read_progress(table)[0].state  # 'open'
    """
    return [
        Progress(document, annotator, int(revision), state, ignored == "true", int(annotations), int(parked))
        for document, annotator, revision, state, ignored, annotations, parked in read_rows(csv)
    ]


def read_snapshots(csv: str) -> List[Curation]:
    """How far each snapshot is decided, from the table of snapshots.

    Example:
        table = "snapshot,document,holders,items,unanimous,accepted,rejected,undecided\\n1,rome,2,6,2,1,0,3\\n"
        read_snapshots(table)[0].undecided  # 3
    """
    return [
        Curation(int(number), document, *(int(count) for count in counts))
        for number, document, *counts in read_rows(csv)
    ]


def read_items(csv: str) -> List[Item]:
    """The items of a snapshot from their table.

    Example:
        read_items("item,line,holders,state\\nann/T1,Person 0 3\\tAnn,ann bob,unanimous\\n")
    """
    return [Item(name, line, tuple(holders.split(" ")), state) for name, line, holders, state in read_rows(csv)]


def read_pairs(csv: str) -> List[Pair]:
    """The figures of each two annotators from their table.

    Example:
        read_pairs("first,second,units,agreed,top,bottom,kappa\\nann,bob,5,3,8,18,0.4444\\n")[0].kappa  # Fraction(4, 9)
    """
    return [
        Pair(first, second, int(units), int(agreed), _fraction(top, bottom))
        for first, second, units, agreed, top, bottom, _ in read_rows(csv)
    ]


def read_alpha(csv: str) -> Alpha:
    """The figure of all annotators from its table.

    Example:
        read_alpha("units,values,top,bottom,alpha\\n4,8,0,0,undefined\\n").alpha  # None
    """
    units, values, top, bottom, _ = read_rows(csv)[0]
    return Alpha(int(units), int(values), _fraction(top, bottom))


def _fraction(top: str, bottom: str) -> Optional[Fraction]:
    """A figure, or None where it has none, which is told by a bottom of 0."""
    return None if int(bottom) == 0 else Fraction(int(top), int(bottom))
