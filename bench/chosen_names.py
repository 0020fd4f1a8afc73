#!/usr/bin/env python3
"""Writes a source of 1,048,576 bytes, or of as many as the argument says, whose declared names were chosen.

In a map with the hash of the kit's `IndexMap`, whose start is fixed, these names look alike (the first eight bits of their
hashes are 0 or 1, which count as the same) and begin in the first quarter of 8,192 groups, and so a search passes thousands of
the names before it. Each declaration has 11 bytes; there are 85,508 such names, and blanks fill the rest.

    python3 bench/chosen_names.py >chosen.awl
    time ./s7h load chosen.awl
"""
import itertools
import sys

START = 0x243F6A8885A308D3
MULTIPLIER = 0x9E3779B97F4A7C15
LOW = 2**64 - 1
FIRST = b"ABCDEFGHIJKLMNOPQRSTUVWXYZ"
LATER = FIRST + b"0123456789"
LENGTH = 5


def folded(a, b):
    product = a * b
    return product & LOW ^ product >> 64


def after_length(state):
    """The length is written as eight bytes before the items."""
    return folded(state ^ LENGTH, MULTIPLIER ^ 16)


def after_letter(state, letter):
    """Each item is written on its own, as one byte, which counts as the first, the middle and the last."""
    return folded(state ^ letter * 0x010101, MULTIPLIER ^ 2)


def after(state, letters):
    for letter in letters:
        state = after_letter(state, letter)
    return state


def chosen():
    start = after_length(START)
    last_step = MULTIPLIER ^ 2
    lasts = [(letter * 0x010101, letter) for letter in LATER]
    for front in itertools.product(FIRST, LATER, LATER, LATER):
        state = after(start, front)
        for mixed, letter in lasts:
            product = (state ^ mixed) * last_step
            found = product & LOW ^ product >> 64
            place = (found ^ found >> 32) & 0xFFFFFFFF
            if place >> 24 < 2 and place & 8191 < 2048:
                yield bytes(front) + bytes([letter])


def main():
    size = int(sys.argv[1]) if len(sys.argv) > 1 else 1_048_576
    head = b"FUNCTION_BLOCK FB 1\nVAR_TEMP\n"
    tail = b"END_VAR\nBEGIN\nEND_FUNCTION_BLOCK\nORGANIZATION_BLOCK OB 1\nBEGIN\nEND_ORGANIZATION_BLOCK\n"
    room = size - len(head) - len(tail)
    names = itertools.islice(chosen(), room // (LENGTH + 6))
    body = b"".join(name + b":BOOL;" for name in names)
    sys.stdout.buffer.write(head + body + b" " * (room - len(body)) + tail)


if __name__ == "__main__":
    main()
