"""How what a reply has after `ok ` is read, by what it gives."""
from __future__ import annotations

import json
import re

from .values import Ack, Cell, Changes, Foreign, Grid, Item, Node, Patch, Reference, Selection, Served, Tree


def number(reply: str) -> int:
    return int(reply)


def text(reply: str) -> str:
    return str(json.loads(reply))


def items(reply: str) -> list[Item]:
    return list(json.loads(reply))


def tree(reply: str) -> Tree:
    """Reads a tree as the core spells it: `(p 2)` is ["p", 2]."""
    stack: list[Tree] = [[]]
    for token in re.findall(r"[()]|[^() ]+", reply):
        if token == "(":
            stack.append([])
        elif token == ")":
            node = stack.pop()
            stack[-1].append(node)
        else:
            stack[-1].append(int(token) if token.isdecimal() else token)
    root: Tree = stack[0][0]
    return root


def node(reply: str) -> Node:
    kind, begin, end, state = reply.split(" ")
    return Node(kind, int(begin), int(end), state)


def references(reply: str) -> list[Reference]:
    return [Reference(*it) for it in json.loads(reply)]


def selection(reply: str) -> Selection:
    anchor, focus = reply.split(" ")
    return Selection(int(anchor), int(focus))


def changes(reply: str) -> Changes:
    length, patches = reply.split(" ")
    return Changes(int(length), [Patch(*it) for it in json.loads(patches)])


def grid(reply: str) -> Grid:
    rows, columns, cells = reply.split(" ")
    return Grid(int(rows), int(columns), [Cell(*it) for it in json.loads(cells)])


def served(reply: str) -> Served:
    accepted, _, of, *rest = reply.split(" ")
    a, b, c, d = [int(it) for it in rest[1:]] if rest else (0, 0, 0, 0)
    return Served(int(accepted), int(of), ((a, b), (c, d)) if rest else None)


def taken(reply: str) -> Foreign | Ack:
    word, count, *rest = reply.split(" ")
    return Ack(int(count)) if word == "ack" else Foreign(int(count), int(rest[1]))
