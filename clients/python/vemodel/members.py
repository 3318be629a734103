"""What methods take, and how it is spelled in a line."""
from __future__ import annotations

from collections.abc import Iterable, Mapping
from typing import Any, Literal, Optional, Union

#: A command's members; also a command of a batch, or an operation of `apply`, as docs/FORMAT.md spells it.
Members = Mapping[str, Any]
#: The attributes of a mark or of an element, in their order.
Attributes = Mapping[str, str]
#: What is wrapped round a range: a kind, or a kind and attributes.
Wrapper = Union[str, tuple[str, Attributes]]
#: Which way, and how far, the focus goes.
Direction = Literal["back", "ahead"]
Step = Literal["cluster", "word"]
#: How long a call may take; None is as long as the core lets each call take.
Seconds = Optional[float]


def given(**members: Any) -> Members:
    """Returns the members that aren't None."""
    return {name: value for name, value in members.items() if value is not None}


def pairs(attributes: Attributes | None) -> list[tuple[str, str]]:
    """Returns attributes as a line spells them."""
    return list((attributes or {}).items())


def wrapped(wrappers: Iterable[Wrapper]) -> list[Members]:
    """Returns wrappers as a line spells them."""
    named = [(it, None) if isinstance(it, str) else it for it in wrappers]
    return [{"kind": kind, "attrs": pairs(attributes)} for kind, attributes in named]
