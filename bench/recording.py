#!/usr/bin/env python3
"""Writes a recording of just under 4 MiB: one sender types 13 letters every 300 ms, in packets of 60 octets.

usage: recording.py FILE [PACKETS [SSRC [STREAMS]]]      (prints the number of packets; 61680 of 1001, if none are given)

Each packet has two redundant blocks (RFC 2198, RFC 4103) and 13 letters in each of its three texts. With STREAMS so many
senders take turns, the first with this SSRC and each next one with the next.
"""
import struct
import sys

LETTERS = b"abcdefghijklmnopqrstuvwxyz"
TEXT = 13


def text(k):
    return bytes(LETTERS[(k + i) % 26] for i in range(TEXT)) if k >= 0 else b""


def packet(k, ssrc):
    """60 octets: 12 of header, 9 of block headers, 3 texts of 13 octets."""
    mark = 0x80 if k == 0 else 0
    header = struct.pack(">BBHII", 0x80, mark | 100, k % 65536, 300 * k, ssrc)
    blocks = b""
    for back in (2, 1):
        old = text(k - back)
        offset = 300 * back if old else 16383
        blocks += struct.pack(">I", 0xE2000000 | offset << 10 | len(old))
    return header + blocks + b"\x62" + text(k - 2) + text(k - 1) + text(k)


def main():
    name = sys.argv[1]
    most = int(sys.argv[2]) if len(sys.argv) > 2 else 61680
    ssrc = int(sys.argv[3]) if len(sys.argv) > 3 else 1001
    streams = int(sys.argv[4]) if len(sys.argv) > 4 else 1
    with open(name, "wb") as out:
        out.write(b"#!rtpplay1.0 127.0.0.1/5004\n" + bytes(8) + b"\x7f\0\0\1\x13\x8c\0\0")
        for k in range(most):
            octets = packet(k // streams, ssrc + k % streams)
            # four hours are the most that a recording lasts
            at = min(300 * k, 14400000)
            out.write(struct.pack(">HHI", len(octets) + 8, len(octets), at) + octets)
    print(most)


main()
