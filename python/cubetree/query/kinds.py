"""The kinds of expressions: which of them are amounts or dates, as columns of tables are."""
from __future__ import annotations

from typing import Optional

from ..values import Kind
from .expressions import SUM
from .names import Scope
from .stored import is_date
from .syntax import Call, Case, Chain, Inner, Literal, Name, Node, Prefix

KEEPING = ("COALESCE", "IFNULL", "NULLIF")  # give a value of their first argument, or none


def kind_of(node: Node, scope: Scope) -> Optional[Kind]:
    """The kind of an expression; None if it is a plain text or number."""
    if isinstance(node, Name):
        column = scope.find(node)
        return column.output.kind if column else None
    if isinstance(node, Inner):
        outputs = node.query.outputs
        return outputs[0].kind if len(outputs) == 1 and not node.is_exists else None
    if isinstance(node, Call):
        return kind_of_call(node, scope)
    if isinstance(node, Prefix):
        return amounts(kind_of(node.item, scope))
    if isinstance(node, Case):
        values = [value for _, value in node.whens]
        return common_kind([*values, *filter(None, [node.otherwise])], scope)
    if isinstance(node, Chain) and node.level == SUM:
        return amounts(common_kind(node.items, scope))
    return None


def kind_of_call(node: Call, scope: Scope) -> Optional[Kind]:
    """The kind of the result of a function."""
    word = node.name.upper()
    if not node.items or node.over:
        return None
    if word == "SUM":
        return amounts(kind_of(node.items[0], scope))
    if word in ("MIN", "MAX"):
        return common_kind(node.items, scope)
    return kind_of(node.items[0], scope) if word in KEEPING else None


def amounts(kind: Optional[Kind]) -> Optional[Kind]:
    """A kind, if it is one of amounts."""
    return kind if kind and kind.name == "decimal" else None


def common_kind(nodes: list[Node], scope: Scope) -> Optional[Kind]:
    """The kind of all of some expressions. NULL has each kind, and a whole number is an amount."""
    plain = [node for node in nodes if isinstance(node, Literal) and node.kind in ("whole", "word")]
    kinds = {kind_of(node, scope) for node in nodes if node not in plain}
    kind = kinds.pop() if len(kinds) == 1 else None
    has_numbers = any(node.kind == "whole" for node in plain)
    return None if has_numbers and is_date(kind) else kind
