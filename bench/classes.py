"""Times the program over real classes against a copy and the digests of the same files, side by side."""

import sys

from runs import make, migrated, plain

FILES, ROUNDS = 6000, 5


def main():
    program, place = sys.argv[1:]
    app = f"{place}/app"
    _, size = make(place, app, FILES)
    beside, desk, peaks = [], [], []
    for _ in range(ROUNDS):
        beside.append(plain(place, app))
        seconds, peak = migrated(program, place, app, 1)
        desk.append(seconds)
        peaks.append(peak)
    print(f"time: {min(desk) / min(beside):.2f} times cp -r and sha256sum ({min(desk):.3f} s to {min(beside):.3f} s; aim: at most 4)")
    print(f"peak memory: {max(peaks) / size:.2f} times the files' bytes ({max(peaks)} of {size} bytes)")


main()
