"""The scripts of examples/, and how values are spelled in replies."""
from __future__ import annotations

import json
from pathlib import Path
from collections.abc import Iterator
from typing import Any

from vemodel import Ack, Changes, Core, Foreign, Grid, Node, Refused, Selection, Served

EXAMPLES = Path(__file__).resolve().parents[3] / "examples"


def scripts() -> Iterator[tuple[str, list[tuple[str, str]]]]:
    """Yields each script of examples/ as its name and its lines with their replies."""
    for script in sorted(EXAMPLES.glob("*.jsonl")):
        lines = script.read_bytes().split(b"\n")
        replies = script.with_suffix(".replies").read_bytes().split(b"\n")
        yield script.name, [(line.decode(), reply.decode()) for line, reply in zip(lines, replies) if reply]


def called(core: Core, line: str) -> str:
    """Returns what the method that a line names gives for its members, spelled as a reply; or the raw reply where there is none."""
    try:
        members = json.loads(line)
        method = getattr(core, members.pop("do"))
    except (ValueError, TypeError, KeyError, AttributeError):
        return core.line(line)
    if "from" in members:
        members["from_"] = members.pop("from")
    if "attrs" in members:
        members["attrs"] = dict(members["attrs"])
    for name in ("wrap_outer", "wrap_each"):
        if name in members:
            members[name] = [(it["kind"], dict(it.get("attrs", []))) for it in members[name]]
    try:
        return f"ok {spelled(method(**members))}"
    except Refused as refused:
        return f"no {refused}"
    except TypeError:  # a member is missing
        return core.line(line)


def spelled(value: Any) -> str:
    """Returns a value as a reply has it after `ok `."""
    if isinstance(value, Served):
        ranges = [f"{a} {b}" for a, b in value.conflict or ()]
        return " ".join([f"{value.accepted} of {value.of}"] + ["conflict", *ranges] * bool(ranges))
    if isinstance(value, Foreign):
        return f"foreign {value.foreign} dropped {value.dropped}"
    if isinstance(value, Ack):
        return f"ack {value.accepted}"
    if isinstance(value, Changes):
        return f"{value.length} {compact(value.patches)}"
    if isinstance(value, Grid):
        return f"{value.rows} {value.columns} {compact(value.cells)}"
    if isinstance(value, (Node, Selection)):
        return " ".join(map(str, value))
    if isinstance(value, list) and value[:1] == ["root"]:
        return tree(value)
    return compact(value)


def compact(value: Any) -> str:
    return json.dumps(value, ensure_ascii=False, separators=(",", ":"))


def tree(node: Any) -> str:
    return str(node) if isinstance(node, int) else "(" + " ".join([node[0], *map(tree, node[1:])]) + ")"
