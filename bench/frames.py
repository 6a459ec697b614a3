#!/usr/bin/env python3
"""Writes frames of typed text: 12 letters every 300 ms, as bench/script.py has them as the lines of a script.

usage: frames.py FILE [FRAMES]      (prints the number of frames; 48000, if none are given)
"""
import struct
import sys

LETTERS = b"abcdefghijklmnopqrstuvwxyz"
TEXT = 12


def main():
    most = int(sys.argv[2]) if len(sys.argv) > 2 else 48000
    with open(sys.argv[1], "wb") as out:
        for k in range(most):
            text = bytes(LETTERS[(k + i) % 26] for i in range(TEXT))
            out.write(struct.pack(">IH", 300 * k, len(text)) + text)
    print(most)


main()
