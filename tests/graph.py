"""What tests/graph.sh asks of an application's classes, answered without the program: class files are read by class_names.py, and
renames are looked up by the rule files themselves.

    graph.py compare OLD NEW RULES REPORT   each class's number of links, and that references follow; prints differences
    graph.py answer OLD RULES               the line of a clash of names or of a stranded class, if there is one
    graph.py jdeps OLD                      that jdeps finds no reference that class_names.py doesn't; prints differences

OLD and NEW are folders with an application before and after its migration. Counts go to standard error.
"""
import os
import re
import subprocess
import sys
from collections import defaultdict

from class_names import ClassFile

# How many differences are printed.
MOST = 20


def lines_of(file):
    """The keys and values of a property file without escapes."""
    for line in open(file, encoding="utf-8") if os.path.exists(file) else ():
        line = line.strip()
        if line and not line.startswith(("#", "!")):
            key, _, value = line.partition("=")
            yield key.strip(), value.strip()


class Rules:
    """The renames and the selection of a rule folder."""

    def __init__(self, folder):
        self.exact, self.below = {}, {}
        for key, value in lines_of(f"{folder}/renames.properties"):
            table = self.below if key.endswith(".*") else self.exact
            table[tuple(key.removesuffix(".*").split("."))] = value.split(".")
        patterns = list(lines_of(f"{folder}/selection.properties"))
        self.includes = [self.pattern(key) for key, value in patterns if not value]
        self.excludes = [self.pattern(key) for key, value in patterns if value == "!"]

    @staticmethod
    def pattern(text):
        return re.compile(".*".join(map(re.escape, text.split("*"))), re.S)

    def selects(self, path):
        fits = lambda patterns: any(it.fullmatch(path) for it in patterns)
        return (not self.includes or fits(self.includes)) and not fits(self.excludes)

    def renamed(self, name):
        """What a class name becomes."""
        *package, simple = name.split("/")
        source = tuple(package)
        if source and source in self.exact:
            return "/".join([*self.exact[source], simple])
        for length in range(len(source), 0, -1):
            target = self.below.get(source[:length])
            if target is not None:
                return "/".join([*target, *source[length:], simple])
        return name


class Read:
    """A class of an application: its name and the names that it holds, as texts."""

    def __init__(self, path):
        with open(path, "rb") as file:
            found = ClassFile(file.read())
        self.name = found.name.decode("utf-8", "surrogatepass")
        self.held = {name.decode("utf-8", "surrogatepass") for name in found.held}


def classes_below(folder):
    """Each class file below a folder by its path; those that can't be read are named on standard error and left out."""
    found = {}
    for at, _, names in os.walk(folder):
        for name in names:
            if name.endswith(".class"):
                path = os.path.join(at, name)
                try:
                    found[os.path.relpath(path, folder)] = Read(path)
                except (ValueError, KeyError, IndexError):
                    print(f"not read: {path}", file=sys.stderr)
    return found


def answer(old, rules):
    """The line of the first clash of names, else of the first stranded class, else nothing."""
    classes = classes_below(old)
    defined = {it.name for it in classes.values()}
    names = defined.union(*(it.held for path, it in classes.items() if rules.selects(path)))
    by_image = defaultdict(list)
    for name in names:
        by_image[rules.renamed(name)].append(name)
    clashes = [(name, min(set(by_image[rules.renamed(name)]) - {name}, key=as_bytes)) for name in defined
               if len(by_image[rules.renamed(name)]) > 1]
    if clashes:
        first, other = min(clashes, key=lambda it: as_bytes(it[0]))
        return f"migrate: 25 name clash {first} {other} {rules.renamed(first)}"
    left = [(as_bytes(path), as_bytes(name)) for path, it in classes.items() if not rules.selects(path)
            for name in it.held & defined if rules.renamed(name) != name]
    return "migrate: 26 stranded {} {}".format(*(it.decode() for it in min(left))) if left else ""


def as_bytes(text):
    return text.encode("utf-8", "surrogatepass")


def plain(shown):
    """The path that a report shows."""
    return re.sub(rb"\\([0-9a-f]{2})", lambda it: bytes([int(it[1], 16)]), shown.encode("ascii")).decode()


def lines_of_classes(report):
    """The target and the number of links of each class that a report names, by its path."""
    found = {}
    for line in open(report, encoding="ascii"):
        words = line.split()
        if words[0] == "written" and words[3] == "class":
            found[plain(words[1])] = plain(words[2]), int(words[-1].removeprefix("links="))
    return found


def compare(old, new, rules, report):
    """The differences between what a report and a target hold and what they should."""
    before, after, lines = classes_below(old), classes_below(new), lines_of_classes(report)
    defined = {it.name for it in before.values()}
    defined_after = {it.name for it in after.values()}
    links = changed = outside = 0
    if set(lines) != {path for path in before if rules.selects(path)}:
        yield "the report has other classes"
    for path, (target, told) in sorted(lines.items()):
        one, image = before[path], after.get(target)
        own = one.held & defined
        links += len(own)
        if told != len(own):
            yield f"{path}: links={told}, and it holds {len(own)} classes of the application"
        if image is None:
            yield f"{path}: no class is at {target}"
            continue
        changed += sum(rules.renamed(name) != name for name in own)
        outside += len(one.held - defined)
        if image.name != rules.renamed(one.name):
            yield f"{path}: its name became {image.name}"
        for name in sorted(image.held ^ {rules.renamed(name) for name in one.held}):
            yield f"{path}: {name} should{'' if name not in image.held else ' not'} be held"
        for name in sorted(own):
            if rules.renamed(name) not in defined_after:
                yield f"{path}: {rules.renamed(name)} is no class of the target, and {name} was one of the source"
        for name in sorted(one.held - defined):
            if rules.renamed(name) in defined_after:
                yield f"{path}: {rules.renamed(name)} is a class of the target, and {name} was none of the source"
    print(f"{len(before)} classes, {len(lines)} of them selected, which define {len(defined)} names; {links} references to classes "
          f"of the application, {changed} of them to classes that are renamed; {outside} to other classes", file=sys.stderr)


def jdeps_of(folder, paths):
    """The classes that jdeps finds in class files, by the name of the class that holds them."""
    found = defaultdict(set)
    for first in range(0, len(paths), 500):
        files = [os.path.join(folder, path) for path in paths[first:first + 500]]
        run = subprocess.run(["jdeps", "-v", "-filter:none", *files], capture_output=True, check=True)
        for line in run.stdout.decode().splitlines():
            edge = re.match(r"   (\S+) +-> (\S+) ", line)
            if edge:
                found[edge[1].replace(".", "/")].add(edge[2].replace(".", "/"))
    return found


def jdeps(old):
    """The references that jdeps finds and class_names.py doesn't. Of classes of one name one is taken, and no module."""
    own, same, more = {}, 0, 0
    for path, one in classes_below(old).items():
        if not path.endswith("module-info.class"):
            own.setdefault(one.name, (path, one.held))
    if not own:
        yield "no class"
    theirs = jdeps_of(old, [path for path, _ in own.values()])
    for name, (path, held) in sorted(own.items()):
        for other in sorted(theirs[name] - held):
            yield f"{path}: jdeps finds {other}"
        same += len(theirs[name] & held - {name})
        more += len(held - theirs[name] - {name})
    print(f"{len(own)} classes: {same} references that jdeps finds too, and {more} that it leaves out", file=sys.stderr)


def main(mode, *words):
    if mode == "answer":
        print(answer(words[0], Rules(words[1])) or "no line")
        return
    told = list(jdeps(*words) if mode == "jdeps" else compare(words[0], words[1], Rules(words[2]), words[3]))
    print(*told[:MOST], sep="\n" if told else "", end="\n" if told else "")
    if len(told) > MOST:
        print(f"and {len(told) - MOST} more")


main(*sys.argv[1:])
