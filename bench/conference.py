#!/usr/bin/env python3
"""Writes a conference into a folder, with a script for each leg: 12 letters a second for an hour, or so many minutes.

usage: bench/conference.py FOLDER [LEGS [MINUTES]]      (16, if no number is given)

`send` makes the recordings (leg-1.txt into leg-1.rtp with the SSRC 1001, and so on); then `mix conference.txt` is what is
measured.
"""
import os
import sys

folder = sys.argv[1]
legs = int(sys.argv[2]) if len(sys.argv) > 2 else 16
minutes = int(sys.argv[3]) if len(sys.argv) > 3 else 60
os.makedirs(folder, exist_ok=True)
with open(os.path.join(folder, "conference.txt"), "w", encoding="utf-8") as conference:
    conference.write("mixer 9000 0 0\n")
    for leg in range(1, legs + 1):
        conference.write(f"leg Speaker{leg} aware {1000 + leg} leg-{leg}.rtp to-{leg}.rtp\n")
for leg in range(1, legs + 1):
    with open(os.path.join(folder, f"leg-{leg}.txt"), "w", encoding="utf-8") as script:
        for second in range(60 * minutes):
            letters = "".join(chr(ord("a") + (leg + second + k) % 26) for k in range(12))
            script.write(f"{1000 * second + 60 * leg} {letters}\n")
