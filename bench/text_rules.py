#!/usr/bin/env python3
"""Times the program of the text rules' bench, and sed with the same replacements.

Usage: text_rules.py PROGRAM FOLDER, where FOLDER is an empty folder to write into.
"""
import os
import random
import subprocess
import sys

from timing import timed

HALF = 50_000_000
RUNS = 3


def sources(count):
    """So many sources that begin alike, none of them within another."""
    return [f"javax.servlet.part{place:05d}." for place in range(count)]


def text(names):
    """An XML text of 50 MB: one line in two holds a class of one of these packages."""
    choice = random.Random(1)
    lines = []
    size = 0
    while size < HALF:
        name = choice.choice(names)
        other = choice.randrange(1_000_000)
        line = (
            f"  <servlet-class>{name}Class{other}</servlet-class>\n"
            f"  <description>just the jar of object {other}, a job in a project</description>\n"
        )
        lines.append(line)
        size += len(line)
    return "<web-app>\n" + "".join(lines) + "</web-app>\n"


def best(words):
    """The least time of some runs, in seconds, and what the last wrote."""
    runs = [timed(words, stdout=subprocess.PIPE) for _ in range(RUNS)]
    return min(run.seconds for run in runs), runs[-1].out


def write(path, content):
    with open(path, "w", encoding="utf-8") as out:
        out.write(content)


def main():
    program, folder = sys.argv[1:3]
    many = sources(10_000)
    few = random.Random(2).sample(many, 10)
    body = text(few)
    paths = {name: os.path.join(folder, name) for name in ("few", "many", "text", "script", "twice")}
    write(paths["few"], "".join(f"{name}={name.replace('javax', 'jakarta')}\n" for name in few))
    write(paths["many"], "".join(f"{name}={name.replace('javax', 'jakarta')}\n" for name in many))
    write(paths["text"], body)
    write(paths["twice"], body + body)
    write(paths["script"], "".join("s/{}/{}/g\n".format(name.replace(".", "\\."), name.replace("javax", "jakarta")) for name in few))
    ten, ten_said = best([program, "texts", paths["few"], paths["text"], "2"])
    thousands, thousands_said = best([program, "texts", paths["many"], paths["text"], "2"])
    if ten_said != thousands_said:
        sys.exit("ten and 10,000 rules differ")
    sed, said = best(["sed", "-f", paths["script"], paths["twice"]])
    if len(said) != 2 * int(ten_said.split()[2]):
        sys.exit("sed and the program differ")
    print(f"10 rules over 100 MB: {ten:.2f} s; sed: {sed:.2f} s; ratio {ten / sed:.2f}")
    print(f"10,000 rules over 100 MB: {thousands:.2f} s; ratio to 10 rules {thousands / ten:.2f}")


main()
