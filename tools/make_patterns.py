#!/usr/bin/env python3
"""Writes N patterns, one a line, always the same: the lines of the sample file over and over, each with a few bytes of its own."""
import sys

n, sample = int(sys.argv[1]), sys.argv[2]
with open(sample, "rb") as f:
    lines = []
    for line in f.read().split(b"\n"):
        try:
            line.decode()
            lines.append(line)
        except UnicodeDecodeError:
            pass
out = sys.stdout.buffer
for i in range(n):
    out.write(lines[i % len(lines)] + b"x%d" % i + b"\n")
