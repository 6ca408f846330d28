"""Compares classes that Apache Tomcat's migration tool and this program made of the same libraries.

    peer.py FOLDER NAME..

FOLDER holds old/NAME.jar, peer/NAME.jar and ours/NAME.jar, each an archive that was unpacked. Each class is printed with
`javap -v -p`, indices of the constant pool are left out where their meaning stands beside them, and the three are compared line
by line. It prints a page: a table of the libraries, the differences by kind with what each kind means, the strings of ours that
name a class or a package of an API by its old name, and the `switch` statements over strings whose label is renamed. It ends
with 1 where a difference is of no kind that the page explains, and where such a string is left.
"""
import collections
import os
import re
import sys

from class_names import ClassFile
from printed import printed, resolved

sys.path.insert(0, os.path.join(os.path.dirname(os.path.abspath(__file__)), "..", "tools"))
import rules

# The set of ready rules that is tried.
READY = rules.SETS[0]

KINDS = {
    "prose": "A string that holds the name of a package among other words, as a message does: the peer exchanges it, this "
    "program renames strings that are a name as a whole.",
    "path": "A string with a name of a package written with `/`, as a path of a resource or a descriptor: the peer exchanges "
    "it, this program does so by direct rules alone.",
    "front": "A string that ends in a dot or a mark behind the name of a package, so that code joins it with more: the peer "
    "exchanges it, this program does so by direct rules alone.",
    "list": "A string of names with other marks between them: the peer exchanges each name, this program none.",
    "below": "A string without blanks in which a name stands beside other marks and that is no dotted name, as in code that a "
    "generator writes: the peer exchanges the name, this program doesn't.",
    "joined": "A text that the JVM joins with values (java.lang.invoke.StringConcatFactory; U+0001 stands for a value): the peer "
    "exchanges names in it, this program does so by direct rules alone.",
    "by class": "A name in `javax.annotation`: the peer renames the classes of JSR 250 one by one, this program the package, "
    "with the rule set that has it.",
    "unread": "A text of an attribute that no rule reads (SourceDebugExtension, or one unknown to the JVMS), or of an entry "
    "that nothing uses as a name: the peer exchanges it in the constant pool, whatever it is used for.",
    "ours alone": "A string that this program renames, and the peer doesn't.",
}


def name_in(folder, path):
    """A class's path under its old name, so that the three trees meet."""
    return re.sub(r"(^|/)jakarta/", r"\1javax/", path)


def string_of(line):
    """The string that a line shows: one that code loads, a constant, or a value of an annotation; or None."""
    found = re.search(r'// String (.*)$|ConstantValue: String (.*)$|="(.*)"$|^"(.*)"$', line)
    return next(part for part in found.groups() if part is not None) if found else None


def kind_of(old, peer, ours):
    """Of which kind a difference is, or None."""
    if "javax.annotation" in old or "javax/annotation" in old:
        return "by class"
    if peer == old:
        return "ours alone"
    if ours != old:
        return None
    if re.match("# .*\\\\u0001", old):
        return "joined"
    text = string_of(old)
    if text is None:
        return "unread"
    if re.search(r"\s", text):
        return "prose"
    if "/" in text:
        return "path"
    if re.fullmatch(r"[^.\w]*[\w$.]*[.:;]", text):
        return "front"
    if len(re.findall(r"javax\.", text)) > 1:
        return "list"
    return "below"


# A package or a class in a form of its own: a name with dots or with slashes, a descriptor, an array, a file, a service file, a
# front of either, or an import.
FORM = re.compile(
    r"(?:\[*L|/|/?META-INF/services/)?(javax[./][\w$./]*?)(?:;|\.class|[./]|\.\*)?(?:\\u0001)?")


def is_left(text, names):
    """Whether a string names a class or a package of an API that the rules rename."""
    found = FORM.fullmatch(text)
    if not found:
        return False
    name = found[1].replace("/", ".")
    package = name.rpartition(".")[0]
    return (name in names.get(package, ()) and rules.image(package, READY) != package
            or name in names and rules.image(name, READY) != name)


def hash_of(text):
    """java.lang.String.hashCode."""
    units = text.encode("utf-16-be", "surrogatepass")
    value = 0
    for at in range(0, len(units), 2):
        value = (31 * value + int.from_bytes(units[at:at + 2], "big")) & 0xFFFFFFFF
    return value - (1 << 32) if value >> 31 else value


def switches(old, ours):
    """The labels of switch statements over strings that are renamed: each string with its image."""
    keys, in_switch, after_hash = set(), False, 0
    for line, new in zip(old, ours):
        if "java/lang/String.hashCode:()I" in line:
            after_hash = 3
        elif re.match(r"[0-9]+: (lookup|table)switch", line) and after_hash:
            in_switch = True
        elif in_switch and re.match(r"-?[0-9]+: [0-9]+$", line):
            keys.add(int(line.split(":")[0]))
        elif in_switch and line == "}":
            in_switch = False
        elif re.match("descriptor: ", line):
            keys = set()
        after_hash -= after_hash > 0
        text, image = string_of(line), string_of(new)
        if text is not None and "// String " in line and text != image and hash_of(text) in keys:
            yield text, image


def joined_of(line):
    """The text that a line shows which the JVM joins with one value; or None."""
    found = re.fullmatch(r"# (\S*\\u0001)", line)
    return found and found[1]


def pool_texts(path):
    """The texts of a class's pool, with U+0001 as javap shows it."""
    with open(path, "rb") as file:
        texts = [entry[1] for entry in ClassFile(file.read()).pool.values() if entry[0] == 1]
    return {text.decode("utf-8", "replace").replace("\x01", "\\u0001") for text in texts}


def left_strings(folder, texts, name, names):
    """The strings of a library's classes that name an API by its old name. javap drops blanks at the end of a string, so the pool
    is asked whether the string is the name alone."""
    for path in sorted(texts):
        found = {text for line in texts[path] for text in (string_of(line), joined_of(line)) if text and is_left(text, names)}
        for text in sorted(found and found & pool_texts(os.path.join(folder, path))):
            yield name, path, text


def compared(folder, name, kinds, samples, labels, left):
    """One row of the table: classes, those that are alike, those that differ, those that one side lacks."""
    folders = [os.path.join(folder, side, name + ".jar") for side in ("old", "peer", "ours")]
    sides = [{path: resolved(lines) for path, lines in printed(it)} for it in folders]
    left += left_strings(folders[2], sides[2], name, rules.api_names())
    old, peer, ours = ({name_in(folder, path): text for path, text in side.items()} for side in sides)
    alike = 0
    lacking = set(peer) ^ set(ours)
    for path in sorted(set(peer) & set(ours) & set(old)):
        labels += [(name, path, *found) for found in switches(old[path], ours[path])]
        if peer[path] == ours[path]:
            alike += 1
            continue
        if not len(old[path]) == len(peer[path]) == len(ours[path]):
            kinds["of no kind"] += 1
            samples["of no kind"].append((name, path, "other lines", "", ""))
            continue
        for lines in zip(old[path], peer[path], ours[path]):
            if lines[1] != lines[2]:
                kind = kind_of(*lines) or "of no kind"
                kinds[kind] += 1
                samples[kind].append((name, path, *lines))
    both = len(set(peer) & set(ours))
    return name, both, alike, both - alike, len(lacking)


def main():
    folder, *names = sys.argv[1:]
    kinds, samples, labels, left = collections.Counter(), collections.defaultdict(list), [], []
    print("| Library | classes | alike | differ | on one side alone |")
    print("|---|---|---|---|---|")
    total = [0, 0, 0, 0]
    for name in names:
        row = compared(folder, name, kinds, samples, labels, left)
        total = [a + b for a, b in zip(total, row[1:])]
        print("| " + " | ".join(map(str, row)) + " |", flush=True)
    print("| all | " + " | ".join(map(str, total)) + " |\n")
    print("Differences by kind, in lines that javap prints:\n")
    for kind, count in kinds.most_common():
        print(f"{kind}: {count}. {KINDS.get(kind, 'Not explained.')}")
        for name, path, old, peer, ours in samples[kind][:3]:
            print(f"  {name} {path}\n    old  {old[-160:]}\n    peer {peer[-160:]}\n    ours {ours[-160:]}")
    if not kinds:
        print("none")
    print("\nStrings that are left, though they name a class or a package of an API:\n")
    for name, path, text in left:
        print(f"{name} {path}: {text}")
    if not left:
        print("none")
    print("\nSwitch statements over strings whose label is renamed. The code keeps the hash of the old string, so no string")
    print("reaches the renamed label: compile these classes again from their sources.\n")
    for name, path, text, image in labels:
        print(f"{name} {path}: {text} -> {image}")
    if not labels:
        print("none")
    sys.exit(1 if kinds["of no kind"] or total[3] or left else 0)


main()
