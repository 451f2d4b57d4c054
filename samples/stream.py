#!/usr/bin/env python3
"""Writes a stream of job files to standard output, as the jobs program reads it: each file preceded by its length, 32 bits, little end first.

    python3 samples/stream.py FILE..                      these job files, in this order
    python3 samples/stream.py --chains MODE JOINTS COUNT  so many chains of links, each scanned anew: JOINTS joints of three rows
"""

import pathlib
import random
import struct
import sys

import make


def chain(mode, joints, scan):
    """Links of a tenth of a metre that hang on a frame one from the other; each joint holds two ends together along three axes."""
    job = make.Job(limit=2000, mode=mode, linear=1e-6, angular=1e-6)
    job.body(0.0, (0.0, 0.0, 0.0))
    for _ in range(joints):
        job.body(2.0, (1200.0, 1200.0, 1200.0))
    scans = [[0.0] * 3] + [[scan.uniform(-2e-4, 2e-4) for _ in range(3)] for _ in range(joints)]
    at = lambda part, x: (x + scans[part][0], scans[part][1], scans[part][2])
    seen = [at(part, 0.1 * part - 0.05) for part in range(joints + 1)]
    for joint in range(joints):
        job.joint()
        points = (at(joint, 0.1 * joint), at(joint + 1, 0.1 * joint))
        for axis in [(1.0, 0.0, 0.0), (0.0, 1.0, 0.0), (0.0, 0.0, 1.0)]:
            job.pin(joint, joint + 1, seen, points, axis)
    return job.bytes()


def files(arguments):
    if arguments[:1] != ["--chains"]:
        return (pathlib.Path(name).read_bytes() for name in arguments)
    mode, joints, count = map(int, arguments[1:])
    scan = random.Random(1)
    return (chain(mode, joints, scan) for _ in range(count))


for file in files(sys.argv[1:]):
    sys.stdout.buffer.write(struct.pack("<I", len(file)) + file)
