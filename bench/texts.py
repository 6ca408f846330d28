#!/usr/bin/env python3
"""Descriptors and signatures of a Java class library, one a line: a letter for the kind, a blank, the text.

At most COUNT of them, and of these at most half are signatures. Kinds: f m for field and method descriptors, C M F for the signatures of classes, methods and fields.
Usage: texts.py FOLDER COUNT, where FOLDER holds class files (in subfolders too).
"""
import os
import sys

sys.path.insert(0, os.path.join(os.path.dirname(os.path.abspath(__file__)), "..", "tests"))
from class_names import ClassFile


def main():
    folder, count = sys.argv[1], int(sys.argv[2])
    kept = {"descriptors": [], "signatures": []}
    for path, _, names in sorted(os.walk(folder)):
        for name in sorted(names):
            if name.endswith(".class") and name != "module-info.class":
                with open(os.path.join(path, name), "rb") as file:
                    for kind, text in ClassFile(file.read()).texts:
                        kept["descriptors" if kind in "fm" else "signatures"].append((kind, text))
    signatures = kept["signatures"][: count // 2]
    descriptors = kept["descriptors"][: count - len(signatures)]
    out = sys.stdout.buffer
    for kind, text in descriptors + signatures:
        out.write(kind.encode() + b" " + text + b"\n")


main()
