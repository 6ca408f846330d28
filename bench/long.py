#!/usr/bin/env python3
"""Writes files of a few long texts each into a folder, to see that the time grows with the length alone."""
import os
import sys

folder = sys.argv[1]
for length in (1_000, 10_000, 100_000, 1_000_000):
    many = max(1, 1_000_000 // length)
    inside = "Ljava/util/Map<TK;+Ljava/lang/String;>;" * (length // 39)
    with open(os.path.join(folder, "signatures-%d" % length), "w") as file:
        file.write(("F Lq/A<%s>;\n" % inside) * many)
    name = "javax/servlet/" * (length // 14) + "F"
    with open(os.path.join(folder, "descriptors-%d" % length), "w") as file:
        file.write(("f L%s;\n" % name) * many)
