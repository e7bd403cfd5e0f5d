"""What the names of a query stand for: columns of its tables, and names that it gives itself."""
from __future__ import annotations

from dataclasses import dataclass, field
from typing import Iterator, NamedTuple, Optional, Sequence

from ..design.replicas import MOST_OF_A_VIEW
from ..errors import Refused
from ..schema import Schema
from ..values import Kind
from .core import Core
from .syntax import Name, Node, Select, walk
from .tokens import refuse

MOST_NAMED = 40  # names in a message


class Output(NamedTuple):
    """A column of a table or a query: its name, its kind, whether it is a measure of `facts`, which
    cannot be asked for by itself, and whether rows are grouped by it."""

    name: str
    kind: Optional[Kind]
    is_measure: bool = False
    is_key: bool = False


class Seen:
    """A table or a query of FROM, by the name that it has there."""

    def __init__(self, alias: str, outputs: Sequence[Output], core: Optional[Core] = None) -> None:
        self.alias, self.core = alias, core
        self.outputs = list(outputs)
        self.by_name = {output.name.lower(): output for output in reversed(self.outputs)}


@dataclass
class Column:
    """What a name has been found to be: a column of a table, in the scope of a SELECT."""

    scope: Scope
    seen: Seen
    output: Output


@dataclass
class Scope:
    """What is in sight within a SELECT, which perhaps stands within another one."""

    select: Select
    parent: Optional[Scope]
    text: str
    seen: list[Seen] = field(default_factory=list)
    correlated: list[Name] = field(default_factory=list)  # in queries of its items and its order

    @property
    def facts(self) -> Optional[Core]:
        """What is asked of single facts, if they are the table of this SELECT."""
        core = self.seen[0].core if self.seen else None
        return core if core and core.table.is_facts else None

    def outward(self) -> Iterator[Scope]:
        """This scope, and those around it."""
        scope: Optional[Scope] = self
        while scope:
            yield scope
            scope = scope.parent

    def find(self, node: Name) -> Optional[Column]:
        """The column that a name stands for; None if there is none."""
        for scope in self.outward():
            for seen in scope.seen:
                if node.table is None or node.table.lower() == seen.alias.lower():
                    output = seen.by_name.get(node.name.lower())
                    if output:
                        return Column(scope, seen, output)
        return None

    def own(self, node: Node) -> Optional[Output]:
        """The column of the only table here that an expression is; None if it is another one."""
        column = self.find(node) if isinstance(node, Name) else None
        return column.output if column and column.scope is self else None

    def alias(self, node: Name) -> Optional[str]:
        """The name of an item of this SELECT that a name is; None if it is none."""
        names = (item.alias for item in self.select.items if item.alias is not None)
        is_own = node.table is None
        return next((each for each in names if is_own and each.lower() == node.name.lower()), None)

    def has_measure(self, node: Node) -> bool:
        """Whether an expression has a measure of the facts of this SELECT."""
        return any(self.is_measure(each) for each in walk(node))

    def is_measure(self, node: Node) -> bool:
        """Whether an expression is a measure of the facts of this SELECT."""
        output = self.own(node)
        return output is not None and output.is_measure

    def refuse_name(self, node: Name) -> None:
        """Refuses a name, with those that there are."""
        named = f"{node.table}." if node.table else ""
        there = [
            output.name
            for scope in self.outward()
            for seen in scope.seen
            for output in seen.outputs
        ]
        unique = list(dict.fromkeys(there))[:MOST_NAMED]
        has = f"; there are {', '.join(unique)}" if unique else ""
        refuse("name", self.text, node.begin, f"no column has the name {named}{node.name}{has}")

    def refuse_single(self, place: int, what: str, hint: str = "") -> None:
        """Refuses what would need single facts, perhaps with what helps."""
        more = f": {hint}" if hint else ""
        refuse("group", self.text, place, f"{what}, and single facts are not kept{more}")


def missing_view(core: Core, schema: Schema) -> Refused:
    """The refusal of a question that no view answers, with the view that would do."""
    needs, views = core.needs(), "; ".join(view or "none" for view in schema.views)
    hint = f"load into a new folder with a view of {','.join(needs)}"
    parts = [f"no view has {' and '.join(needs)}", f"the views are of {views}"]
    return Refused(
        "refused notcovered", "; ".join(parts + ([hint] if len(needs) <= MOST_OF_A_VIEW else []))
    )
