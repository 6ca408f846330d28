"""Times runs by 1, 2 and 4 workers over few and over many real classes against a copy and the digests of the same files."""

import sys

from runs import digests, digests_with_instructions, make, migrated, plain

FEW, MANY, ROUNDS = 6000, 26000, 3
WORKERS = (1, 2, 4)


def measured(program, place, most):
    """Prints what so many classes take, and gives the seconds a file of the plain tools and of each number of workers."""
    app = f"{place}/app{most}"
    files, size = make(place, app, most)
    beside = []
    runs = {workers: [] for workers in WORKERS}
    for _ in range(ROUNDS):
        beside.append(plain(place, app))
        for workers in WORKERS:
            runs[workers].append(migrated(program, place, app, workers))
    least = min(beside)
    print(f"{files} classes of {size} bytes: cp -r and sha256sum take {least:.3f} s")
    print(f"  of these sha256sum takes {digests(app):.3f} s", end="")
    other = digests_with_instructions(app)
    print(f", where openssl takes {other:.3f} s" if other else "")
    each = {"cp -r and sha256sum": least / files}
    for workers in WORKERS:
        seconds = min(seconds for seconds, _ in runs[workers])
        peak = max(peak for _, peak in runs[workers])
        each[f"--workers {workers}"] = seconds / files
        print(f"  --workers {workers}: {seconds / least:.2f} times that ({seconds:.3f} s), with peak memory of {peak / size:.2f} times the files' bytes ({peak} bytes)")
    return files, each


def main():
    program, place = sys.argv[1:]
    few, each_of_few = measured(program, place, FEW)
    many, each_of_many = measured(program, place, MANY)
    print(f"the time a file among {many} to that among {few}:")
    for name, seconds in each_of_many.items():
        print(f"  {name}: {seconds / each_of_few[name]:.2f} times")


main()
