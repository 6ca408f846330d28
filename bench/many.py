"""The peak memory of runs by 1 and 4 workers over very many classes, and the time a file beside that among few."""

import itertools
import os
import shutil
import sys

from runs import classes_below, make, migrated, plain

FEW, MANY, ROUNDS = 6000, 111_889, 2
WORKERS = (1, 4)


def make_many(place, app, most):
    """Copies the classes below `classes` so often that there are so many, each time below a folder of its own: how
    many there are, and their bytes."""
    found, size = classes_below(place), 0
    for number, path in enumerate(itertools.islice(itertools.cycle(found), most)):
        inside = os.path.relpath(path, place + "/classes").replace("/", ".jar/", 1)
        target = f"{app}/{number // len(found)}/{inside}"
        os.makedirs(os.path.dirname(target), exist_ok=True)
        shutil.copy(path, target)
        size += os.path.getsize(target)
    return most, size


def main():
    program, place = sys.argv[1:]
    few, many = f"{place}/few", f"{place}/many"
    sizes = {few: make(place, few, FEW), many: make_many(place, many, MANY)}
    beside = {app: [] for app in sizes}
    runs = {(app, workers): [] for app in sizes for workers in WORKERS}
    for _ in range(ROUNDS):
        for app in sizes:
            beside[app].append(plain(place, app))
            for workers in WORKERS:
                runs[app, workers].append(migrated(program, place, app, workers))
    for app, (files, size) in sizes.items():
        print(f"{files} classes of {size} bytes: cp -r and sha256sum take {min(beside[app]):.2f} s")
        for workers in WORKERS:
            seconds, peak = min(it for it, _ in runs[app, workers]), max(it for _, it in runs[app, workers])
            print(f"  --workers {workers}: {seconds / min(beside[app]):.2f} times that ({seconds:.2f} s), with peak memory of {peak / 1e6:.0f} MB")
    print(f"the time a file among {MANY} to that among {FEW}, whose bytes are {sizes[many][1] / MANY / (sizes[few][1] / FEW):.2f} times as many a file:")
    print(f"  cp -r and sha256sum: {min(beside[many]) / MANY / (min(beside[few]) / FEW):.2f} times")
    for workers in WORKERS:
        each = [min(it for it, _ in runs[app, workers]) / sizes[app][0] for app in (few, many)]
        print(f"  --workers {workers}: {each[1] / each[0]:.2f} times")


main()
