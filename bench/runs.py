"""What the benches over a JDK's classes share: an application of so many of them, and the times of a run and of plain tools."""

import os
import shutil
import sys

from timing import timed

RULES = "java.util.*=renamed.util\njava.util=java.util\njavax.*=jakarta\njavax=javax\n"


def classes_below(place):
    """The paths of the classes below `classes`, in order."""
    found = []
    for folder, _, names in os.walk(f"{place}/classes"):
        found += [os.path.join(folder, name) for name in names if name.endswith(".class") and name != "module-info.class"]
    return sorted(found)


def make(place, app, most):
    """Copies so many of the classes below `classes`, evenly in the order of their paths, each below its own module: how many
    there are, and their bytes. Writes the rules beside them."""
    found = classes_below(place)
    chosen = found[:: max(1, len(found) // most)][:most]
    size = 0
    for path in chosen:
        target = f"{app}/{os.path.relpath(path, place + '/classes').replace('/', '.jar/', 1)}"
        os.makedirs(os.path.dirname(target), exist_ok=True)
        shutil.copy(path, target)
        size += os.path.getsize(target)
    os.makedirs(f"{place}/rules", exist_ok=True)
    with open(f"{place}/rules/renames.properties", "w") as rules:
        rules.write(RULES)
    return len(chosen), size


def plain(place, app):
    """The seconds of a copy and of the digests of the same files."""
    seconds = timed(["cp", "-r", app, f"{place}/copy"]).seconds
    seconds += digests(app)
    shutil.rmtree(f"{place}/copy")
    return seconds


def digests_with_instructions(app):
    """The seconds of the digests by a library that uses the processor's instructions for them, and none where it isn't installed."""
    if shutil.which("openssl") is None:
        return None
    return timed(["sh", "-c", f"find {app} -type f -print0 | xargs -0 openssl dgst -sha256"]).seconds


def digests(app):
    """The seconds of the digests of the files."""
    return timed(["sh", "-c", f"find {app} -type f -print0 | xargs -0 sha256sum"]).seconds


def migrated(program, place, app, workers):
    """The seconds of a run over the same files by so many workers, and its peak memory in bytes."""
    words = [program, "run", "--rules", f"{place}/rules", "--from", app, "--to", f"{place}/out", "--ledger", f"{place}/ledger"]
    run = timed(words + ["--workers", str(workers)], may_fail=True)
    if run.status not in (0, 2):
        sys.exit(f"the program ended with {run.status}")
    shutil.rmtree(f"{place}/out")
    for name in ("ledger", "ledger-wal"):
        if os.path.exists(f"{place}/{name}"):
            os.remove(f"{place}/{name}")
    return run.seconds, run.peak
