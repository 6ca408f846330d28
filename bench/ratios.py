#!/usr/bin/env python3
"""Runs the bench program over files of texts and prints the times of reading as ratios to those of summing."""
import os
import sys

from timing import timed

program, folder = sys.argv[1], sys.argv[2]


def seconds(mode, times, path):
    with open(path, "rb") as file:
        return timed([program, "names", mode, str(times)], stdin=file).used


def ratio(path):
    times = 400
    spent = {}
    for mode in ("sum", "read"):
        spent[mode] = seconds(mode, times, path) - seconds(mode, 0, path)
    return spent["read"] / max(spent["sum"], 0.001), spent["read"] / times


def count(path):
    with open(path, "rb") as file:
        return sum(1 for _ in file)


for kind, aim in (("descriptors", 15), ("signatures", 25)):
    path = os.path.join(folder, kind)
    times, each = ratio(path)
    print("%s of a class library: %d texts, %.1f ms a pass, %.1f times a sum of the bytes (aim: at most %d)" % (kind, count(path), each * 1000, times, aim))
    for length in (1_000, 10_000, 100_000, 1_000_000):
        times, each = ratio(os.path.join(folder, "%s-%d" % (kind, length)))
        print("  texts of %7d bytes: %.1f ms a pass, %.1f times a sum" % (length, each * 1000, times))
