#!/usr/bin/env python3
"""Curates a snapshot by a rule: what a majority of the holders have is in, and nothing else. Prints the curated layer.

    python3 examples/curate.py URL CURATOR SNAPSHOT

It needs the client, which `pip install ./clients/python` installs. On the project of docs/getting-started.md, once ann
and bob have finished `rome` and cur has taken a snapshot of it:

    ./annotate serve news.book 8080 &
    python3 examples/curate.py http://127.0.0.1:8080 cur 1

Whoever finished without a mark counts among the holders too.

The cells, which begin with `# %%`, may be run one by one in an editor that knows them.
"""

# %% The snapshot and its items
import sys
from typing import Set

from annotate_client import DecisionRefused, Item, Project, RuleBroken

if len(sys.argv) != 4:
    sys.exit(__doc__)
url, curator, snapshot = sys.argv[1], sys.argv[2], int(sys.argv[3])
project = Project(url, curator)
items = {item.name: item for item in project.items(snapshot)}
layers = next(it.layers for it in project.snapshots() if it.number == snapshot)


# %% The rule
def is_wanted(item: Item) -> bool:
    """Whether more than half of the layers have the item."""
    return 2 * len(item.holders) > layers


# %% Verdicts
brought: Set[str] = set()


def bring(name: str, verdict: str) -> None:
    """Accepts or rejects an item, behind the items that have to come in or go out first."""
    if items[name].is_in == (verdict == "accept") or name in brought:
        return
    decide = project.accept if verdict == "accept" else project.reject
    while True:
        try:
            decide(snapshot, name)
            brought.add(name)
            return
        except DecisionRefused as error:
            # Whoever has an item has what it names too, so what is needed first falls under the same verdict.
            if error.refused != "NeedsItem" or error.of is None:
                raise
            bring(error.of, verdict)


for item in items.values():
    try:
        bring(item.name, "accept" if is_wanted(item) else "reject")
    except RuleBroken as error:
        # Two items that a majority has each may exclude one another, as by a rule of overlaps: a person has to choose.
        print(f"{item.name} is left undecided: {error.refused}", file=sys.stderr)

# %% The curated layer
print(project.curated(snapshot).ann, end="")
