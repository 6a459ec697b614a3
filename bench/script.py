#!/usr/bin/env python3
"""Writes a script of just under 1 MiB: 12 letters every 300 ms.

usage: script.py FILE [LINES]      (prints the number of lines)

Each line goes in a packet of its own, and two packets after the last one repeat the last texts (RFC 4103).
"""
import sys

LETTERS = "abcdefghijklmnopqrstuvwxyz"
TEXT = 12


def text(k):
    return "".join(LETTERS[(k + i) % 26] for i in range(TEXT))


def main():
    name = sys.argv[1]
    # four hours are the most that a script lasts
    lines = int(sys.argv[2]) if len(sys.argv) > 2 else 48000
    with open(name, "w", encoding="ascii") as out:
        for k in range(lines):
            out.write(f"{300 * k} {text(k)}\n")
    print(lines)


main()
