"""A client of the annotation server: projects, desks, layers, curation and agreement.

    from annotate_client import Project

    with Project("http://127.0.0.1:8080", "ann") as project:
        with project.desk("rome") as desk:
            desk.add_span("Person", (0, 3))
            desk.commit()
        print(project.layer("rome", "ann").spans)

All offsets are characters of the text from 0, and an end is the index behind the last character: `text[start:end]`.
What may go wrong is listed in `annotate_client.errors`.
"""

from .commands import Command
from .desk import Desk, Resumed, Steps
from .errors import (
    AnnotateError,
    BadRequest,
    ConnectionLost,
    DecisionRefused,
    DeskRefused,
    FileRefused,
    NotAllowed,
    NotConnected,
    NotThere,
    OtherAnswer,
    Refused,
    RuleBroken,
    ServerFault,
    StateRefused,
    Stopped,
)
from .layer import Argument, Attribute, Equivalence, Event, Layer, Normalization, Note, Relation, Span
from .project import Project
from .tables import Alpha, Curation, Document, Item, Pair, Person, Progress, Snapshot

__all__ = [
    "Alpha",
    "AnnotateError",
    "Argument",
    "Attribute",
    "BadRequest",
    "Command",
    "ConnectionLost",
    "Curation",
    "DecisionRefused",
    "Desk",
    "DeskRefused",
    "Document",
    "Equivalence",
    "Event",
    "FileRefused",
    "Item",
    "Layer",
    "NotAllowed",
    "NotConnected",
    "NotThere",
    "Normalization",
    "Note",
    "OtherAnswer",
    "Pair",
    "Person",
    "Progress",
    "Project",
    "Refused",
    "Relation",
    "Resumed",
    "RuleBroken",
    "ServerFault",
    "Snapshot",
    "Span",
    "StateRefused",
    "Steps",
    "Stopped",
]
