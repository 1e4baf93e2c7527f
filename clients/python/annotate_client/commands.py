"""A command on a desk, as it is sent and as it is remembered."""

from __future__ import annotations

import json
from dataclasses import dataclass, field
from typing import Mapping, Optional, Tuple, Union

Field = Union[str, Tuple[str, ...]]


@dataclass(frozen=True)
class Command:
    """What was asked of a desk: the word of the command, its fields, and the ID of the annotation that it made.

    The words and fields are those of docs/http.md; beside them `load` has the field `ann`, and `undo`, `redo`, `commit`
    and `park` have none. A `Command` can be given again by `Desk.do`.

    Example:
        Command("add-span", {"type": "Person", "at": "0 3"})
    """

    do: str
    fields: Mapping[str, Field] = field(default_factory=dict)
    made: Optional[str] = None

    def body(self) -> bytes:
        """The body of the message that asks for it.

        Example:
            Command("delete", {"id": "T1"}).body()  # b'{"do": "delete", "id": "T1"}'
        """
        if self.do == "load":
            return str(self.fields["ann"]).encode("utf-8")
        return json.dumps({"do": self.do, **self.fields}, ensure_ascii=False).encode("utf-8")
