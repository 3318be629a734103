#!/usr/bin/env python3
"""Makes of the LLVM module of a static library for x86-64 the one for WebAssembly with a 64-bit memory, or compares two modules.

usage: tools/web.py FROM.ll TO.ll EXPORT..
       tools/web.py --compare ONE.ll OTHER.ll

Why: the prover's backend writes both, but for WebAssembly it knows no heap. All else is written alike for the two, and the rest
is done here as the backend does it where a crate has no heap:

- the layout of data and the attributes are WebAssembly's;
- each function first tests whether the stack has room for it, since no page below guards it;
- the host calls an export through a gate, which lets nothing in after a trap. A struct that an export gives, of two words, is written
  where its first parameter points to, by C's rules for WebAssembly.

An export takes numbers and pointers. It gives one of these, such a struct, or nothing; anything else is refused.

--compare says whether the two are the same but for the names of registers and blocks, and for where in its first block a function
tests the stack. tools/check-web has both made for a small crate, the one by the backend alone.
"""
from __future__ import annotations

import re
import sys
from collections.abc import Iterable, Iterator
from pathlib import Path

TRIPLE = "wasm64-unknown-unknown"
LAYOUT = "e-m:e-p:64:64-p10:8:8-p20:8:8-i64:64-i128:128-n32:64-S128-ni:1:10:20"
# The words by which clang writes a module as text, as it is.
AS_TEXT = ("-S", "-emit-llvm", "-x", "ir", "-Xclang", "-disable-llvm-passes")
CPU = re.compile(r'"target-cpu"="[^"]*"')
CPU_HERE = '"no-builtin-bcmp" "no-builtin-memcmp" "no-builtin-strlen" "target-cpu"="lime1"'

NAME = re.compile(r'@("[^"]+"|[\w.$]+)\(')
HEAD = re.compile(r"define (?P<result>.*) @(?P<name>[\w.$]+)\((?P<parameters>.*)\) (?P<attributes>#\d+) \{\n")
ALLOCA = re.compile(r"  %\w+ = alloca ")

# The stack lies at the lowest addresses, so that a frame that has no room begins below 16, or below 0.
TEST = """  %stack.at = call ptr @llvm.frameaddress.p0(i32 0)
  %stack.address = ptrtoaddr ptr %stack.at to i64
  %stack.ends = icmp slt i64 %stack.address, 16
  br i1 %stack.ends, label %stack.trap, label %stack.holds

stack.holds:
"""
TRAP = """
stack.trap:
  call void @llvm.trap()
  unreachable
}
"""
GATE = """define {result} @{name}({parameters}) {attributes} "wasm-export-name"="{name}" {{
start:
  %entered = call i1 @__rattle_enter()
  br i1 %entered, label %spent, label %run

spent:
  call void @__rattle_trap()
  unreachable

run:
  {call}
  call void @__rattle_leave()
  ret {given}
}}
"""
CALLED = {
    "__rattle_enter": "declare noundef zeroext i1 @__rattle_enter() nounwind\n",
    "__rattle_leave": "declare void @__rattle_leave() nounwind\n",
    "__rattle_trap": "declare void @__rattle_trap() nounwind\n",
    "llvm.frameaddress.p0": "declare ptr @llvm.frameaddress.p0(i32 immarg)\n",
    "llvm.trap": "declare void @llvm.trap()\n",
}


class Refused(Exception):
    """What the module is, that this doesn't know."""


def pieces(lines: Iterable[str]) -> Iterator[list[str]]:
    """Gives each function, as its lines, and each other line by itself."""
    piece: list[str] = []
    for line in lines:
        piece.append(line)
        if not piece[0].startswith("define ") or line == "}\n":
            yield piece
            piece = []


def name_of(line: str) -> str:
    """Returns the name of the function that a line defines or declares."""
    found = NAME.search(line)
    if not found:
        raise Refused(f"a function without a name: {line}")
    return found[1]


def for_web(lines: Iterable[str], exports: Iterable[str]) -> Iterator[str]:
    """Gives the lines of the module for WebAssembly. Raises Refused."""
    missing, called = {*exports}, dict(CALLED)
    for piece in pieces(lines):
        name = name_of(piece[0]) if piece[0].startswith(("define ", "declare ")) else ""
        if piece[0].startswith("declare "):
            called.pop(name, None)
        if name in missing and len(piece) > 1:
            missing.remove(name)
            yield from exported(piece)
        else:
            yield from tested(piece) if len(piece) > 1 else [outside(piece[0])]
    if missing:
        raise Refused(f"there is no function {', '.join(sorted(missing))}")
    yield from called.values()


def outside(line: str) -> str:
    """Returns a line that stands outside of functions."""
    if line.startswith("target datalayout"):
        return f'target datalayout = "{LAYOUT}"\n'
    if line.startswith("target triple"):
        return f'target triple = "{TRIPLE}"\n'
    return CPU.sub(CPU_HERE, line) if line.startswith("attributes #") else line


def tested(function: list[str]) -> list[str]:
    """Returns a function that tests the stack, once its frame is laid out."""
    frame = max((at for at, line in enumerate(function) if ALLOCA.match(line)), default=1)
    if function[1] != "start:\n" or "\n" in function[2:frame]:
        raise Refused(f"a function that isn't laid out at its start: {function[0]}")
    return [*function[: frame + 1], TEST, *function[frame + 1 : -1], TRAP]


def exported(function: list[str]) -> list[str]:
    """Returns the gate of an export, and the export as a function that the gate calls."""
    head = HEAD.fullmatch(function[0])
    if not head:
        raise Refused(f"an export like this: {function[0]}")
    result, name, parameters, attributes = head.groups()
    body = function[1:]
    if result.startswith("{"):
        result, parameters, body = "void", f"ptr noundef %out, {parameters}".rstrip(", "), through_pointer(body)
    elif result != "void" and not gives_what_it_calls(body):
        raise Refused(f"an export that gives something else than a number or a pointer: {function[0]}")
    inner = f'@"rattle::export {name}"'
    kind = result.split()[-1]
    call = f"call {kind} {inner}({parameters.replace(' noundef', '')})"
    gate = GATE.format(
        result=result,
        name=name,
        parameters=parameters,
        attributes=attributes,
        call=call if kind == "void" else f"%given = {call}",
        given=kind if kind == "void" else f"{kind} %given",
    )
    return [gate, "\n", f"define internal {result} {inner}({parameters}) noinline {attributes} {{\n", *body]


def gives_what_it_calls(body: list[str]) -> bool:
    """Returns whether what an export gives is what the function gave that it calls, and so no struct in a register."""
    return re.match(r"  %\w+ = call ", body[-3]) is not None


def through_pointer(body: list[str]) -> list[str]:
    """Returns the body of an export that writes the struct that it gives to %out, in place of a copy on the stack."""
    copied = re.fullmatch(r"  (%\w+) = load \{ i64, i64 \}, ptr (%\w+), align 8\n", body[-3])
    if not copied or body[-2] != f"  ret {{ i64, i64 }} {copied[1]}\n":
        raise Refused(f"an export that gives a struct in another way: {body[-3]}{body[-2]}")
    text = "".join(it for it in body[:-3] if not it.startswith(f"  {copied[2]} = alloca "))
    return [re.sub(rf"{copied[2]}\b", "%out", text), "  ret void\n", "}\n"]


TEST_AS_PRINTED = re.compile(
    r"  (%[\w.]+) = call ptr @llvm\.frameaddress\.p0\(i32 0\)\n"
    r"  (%[\w.]+) = ptrtoaddr ptr \1 to i64\n"
    r"  (%[\w.]+) = icmp slt i64 \2, 16\n"
    r"  br i1 \3, label %[\w.]+, label %[\w.]+\n"
    r"\n[\w.]+:\n"
)
TRAP_AS_PRINTED = re.compile(r"\n([\w.]+):\n  call void @llvm\.trap\(\)\n  unreachable\n")


def without_test(text: str) -> str:
    """Returns a function without its test of the stack, and a last line that says whether it had one. The backend has the test and
    what else traps go to one block, which is left out too."""
    test = TEST_AS_PRINTED.search(text)
    text = TEST_AS_PRINTED.sub("", text, count=1)
    traps = "|".join(map(re.escape, TRAP_AS_PRINTED.findall(text)))
    text = re.sub(rf"%(?:{traps})\b", "%trap", TRAP_AS_PRINTED.sub("", text)) if traps else text
    return f"{text}; {'with' if test else 'without'} a test of the stack\n"


def plain(piece: list[str], attributes: dict[str, str]) -> str:
    """Returns a function or another line with attributes spelled out, and registers and blocks named in the order in which they come."""
    text = re.sub(r":  +; .*", ":", "".join(piece))
    text = re.sub(r" (#\d+)(?=[\s,]|$)", lambda it: f" {attributes[it[1]]}", text)
    if len(piece) == 1:
        return text
    text = without_test(text)
    names: dict[str, str] = {}
    text = re.sub(r"^([\w.]+):", r"%\1:", text, flags=re.MULTILINE)
    return re.sub(r"%([\w.]+)", lambda it: "%" + names.setdefault(it[1], f"n{len(names)}"), text)


def parts(path: str) -> tuple[dict[str, str], list[str]]:
    """Returns the functions of a module by their names, and what else is in it."""
    found = [it for it in pieces(Path(path).read_text().splitlines(True)) if it[0] != "\n" and not it[0].startswith(";")]
    attributes = dict(re.findall(r"^attributes (#\d+) = (\{.*\})$", "".join(it[0] for it in found), re.MULTILINE))
    functions = {name_of(it[0]): plain(it, attributes) for it in found if len(it) > 1}
    others = [plain(it, attributes) for it in found if len(it) == 1 and not it[0].startswith(("attributes ", "source_filename"))]
    return functions, sorted(others)


def compare(one: str, other: str) -> int:
    """Says in what two modules differ. Returns the exit status: 0 where they are the same."""
    (functions, rest), (others, other_rest) = parts(one), parts(other)
    differ = [it for it in sorted({*functions, *others}) if functions.get(it) != others.get(it)]
    for name in differ:
        print(f"web: {name} differs:\n{functions.get(name, 'not there')}\n{others.get(name, 'not there')}")
    for line in sorted({*rest} ^ {*other_rest}):
        print(f"web: only in {one if line in rest else other}: {line}", end="")
    if not functions or differ or rest != other_rest:
        return 1
    print(f"web: {len(functions)} functions and all else are the same")
    return 0


def main(words: list[str]) -> int:
    if words[:1] == ["--compare"] and len(words) == 3:
        return compare(words[1], words[2])
    if len(words) < 3 or words[0].startswith("-"):
        print(__doc__, file=sys.stderr)
        return 2
    try:
        with open(words[0]) as lines, open(words[1], "w") as to:
            to.writelines(for_web(lines, words[2:]))
    except Refused as why:
        print(f"web: {words[0]} has {why}", file=sys.stderr)
        return 1
    return 0


if __name__ == "__main__":
    sys.exit(main(sys.argv[1:]))
