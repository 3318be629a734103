"""Values that have one hash, for those who look for them: shared by bench/cells and bench/hostile.

The hash is the one that the toolchain's indexmap takes where it is given none: each round multiplies two halves of 64 bits to 128 and folds
the product. Anyone can compute it backwards: a value whose first 16 bytes bring the state to that of the constant makes the next round give 0,
whatever comes after. Under another hash these are values like all others.
"""
from __future__ import annotations

import random
import string

MULTIPLIER, START, MASK = 0x9E3779B97F4A7C15, 0x243F6A8885A308D3, (1 << 64) - 1


def fold(a: int, b: int) -> int:
    product = a * b
    return (product & MASK) ^ (product >> 64)


def eight(text: bytes, at: int) -> int:
    return int.from_bytes(text[at : at + 8], "little")


def up_to_eight(text: bytes) -> int:
    count = len(text)
    if count >= 4:
        return int.from_bytes(text[:4], "little") | int.from_bytes(text[-4:], "little") << 32
    return text[0] | text[count // 2] << 8 | text[-1] << 16 if count else 0


def hashed(state: int, text: bytes) -> int:
    """Returns the state after a text."""
    count = len(text)
    if count <= 8:
        return fold(state ^ up_to_eight(text), MULTIPLIER ^ (2 * count))
    state = (state + count) & MASK
    for at in range(0, count - 16, 16):
        state = fold(eight(text, at) ^ state, eight(text, at + 8) ^ MULTIPLIER)
    return fold(eight(text, count - 16) ^ state, eight(text, count - 8) ^ MULTIPLIER)


def begin(before: tuple[str, ...]) -> str:
    """Returns 24 bytes with which a text begins that is hashed after these texts."""
    chance, state = random.Random(5), START
    for text in before:
        state = hashed(hashed(state, text.encode()), b"\xff")
    while True:
        head = "".join(chance.choices(string.ascii_letters + string.digits, k=16))
        sought = fold(eight(head.encode(), 0) ^ ((state + 32) & MASK), eight(head.encode(), 8) ^ MULTIPLIER).to_bytes(8, "little")
        # The rest has to be text that stands as it is in an attribute, in a page and in a line of JSON.
        if all(32 <= it < 127 and it not in b"\"&'<>\\" for it in sought):
            return head + sought.decode()


def values(count: int, *before: str) -> list[str]:
    """Returns so many texts of 32 bytes that have one hash where they are hashed after these, as an attribute's value is after its name."""
    first = begin(before)
    return [f"{first}{it:08x}" for it in range(count)]


def others(count: int) -> list[str]:
    """Returns as many texts, as long, of different hashes."""
    return [f"{it * 2654435761 % (1 << 32):08x}{'z' * 24}" for it in range(count)]
