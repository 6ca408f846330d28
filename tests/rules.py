"""Runs the migrations of docs/RULES.md, and the commands of its last sections: rules.py PAGE PROGRAM READY FOLDER, where READY is the
folder of the ready rules. Prints a line for each that differs, and a count."""
import os
import re
import shutil
import subprocess
import sys

# How many migrations the page has, and the sections whose commands are run.
MIGRATIONS = 15
SECTIONS = ["What is left", "A migration and its way back"]
# What a block of commands begins with; every other block is what the commands before it print.
COMMANDS = ("migrate ", "mkdir ", "printf ")


def blocks(text):
    """What is named, and the indented block behind it, in order."""
    found = re.findall(
        r"^(`[^`\n]+`|The report|The rules|(?:Strings|Annotations) of `[^`\n]+`):\n\n((?:    .*\n|\n(?=    ))+)", text,
        re.MULTILINE)
    return [(name, re.sub("(?m)^    ", "", block)) for name, block in found]


def write(folder, name, text):
    path = os.path.join(folder, name)
    os.makedirs(os.path.dirname(path), exist_ok=True)
    with open(path, "w", encoding="utf-8") as file:
        file.write(text)


def printed(path):
    """What javap says of a class."""
    return subprocess.run(["javap", "-v", "-p", path], capture_output=True, text=True, check=True).stdout


def lines_of(pattern, path):
    """What a pattern finds in what javap says of a class, a line each."""
    return "".join(line + "\n" for line in re.findall(pattern, printed(path), re.MULTILINE))


def strings_of(path):
    """The strings of a class, in the order of its pool, as javap shows them."""
    return lines_of(r"^ +#[0-9]+ = String +#[0-9]+ +// (.*)$", path)


def annotations_of(path):
    """The types of the annotations of a class and its members, in their order."""
    return lines_of(r"^ +[0-9]+: #[0-9]+\(.*\n +([\w.$]+)", path)


def sources(folder):
    return [os.path.join(at, name) for at, _, names in os.walk(folder) for name in names]


def compile_below(folder):
    """Compiles `api`, which isn't migrated, and beside it `source` into the application."""
    path = []
    for part, to in (("api", "compiled"), ("source", "app")):
        files = sources(os.path.join(folder, part))
        if files:
            words = ["javac", "--release", "11", *path, "-d", os.path.join(folder, to), *files]
            subprocess.run(words, check=True)
            path = ["-cp", os.path.join(folder, to)]


def rules_of(ready, folder, text):
    """The folder of rules of a migration: the ready one that its text names, one that its commands make, or `rules`."""
    commands = [block for name, block in blocks(text) if name == "The rules"]
    named = re.search(r"^By `rules/([^`]+)`", text, re.MULTILINE)
    if named:
        return os.path.join(ready, named[1])
    if commands:
        shutil.copytree(ready, os.path.join(folder, "rules"))
        subprocess.run(["sh", "-e", "-c", commands[0]], cwd=folder, check=True)
        return "myrules"
    return "rules"


def differs(program, ready, folder, text):
    """The first part of a migration that differs, or None."""
    found = blocks(text)
    os.makedirs(os.path.join(folder, "app"))
    for name, block in found:
        if re.match("`(rules|app|source|api)/", name):
            write(folder, name.strip("`"), block)
    compile_below(folder)
    words = [program, "run", "--rules", rules_of(ready, folder, text), "--from", "app", "--to", "to", "--ledger", "ledger"]
    report = subprocess.run(words, cwd=folder, capture_output=True, text=True, check=False).stdout
    for name, block in found:
        if name == "The report":
            got = report
        elif name.startswith("Strings of"):
            got = strings_of(os.path.join(folder, name.split("`")[1]))
        elif name.startswith("Annotations of"):
            got = annotations_of(os.path.join(folder, name.split("`")[1]))
        elif name.startswith("`to/"):
            got = open(os.path.join(folder, name.strip("`")), encoding="utf-8").read()
        else:
            continue
        if got != block:
            return f"{name}\nwanted:\n{block}got:\n{got}"
    return None


def prints_otherwise(program, ready, folder, text):
    """What the commands of a section print where that isn't what stands there, or None. They run in a folder with the repository's
    rules and examples and an application `app`."""
    os.makedirs(folder)
    top = os.path.dirname(ready)
    for name in ("rules", "examples"):
        os.symlink(os.path.join(top, name), os.path.join(folder, name))
    shutil.copytree(os.path.join(top, "examples/first/app"), os.path.join(folder, "app"))
    there = os.environ | {"PATH": os.path.dirname(program) + os.pathsep + os.environ["PATH"]}
    wanted = got = ""
    for block in re.findall(r"^\n((?:    .*\n)+)", text, re.MULTILINE):
        block = re.sub("(?m)^    ", "", block)
        if block.startswith(COMMANDS):
            got += subprocess.run(["sh", "-c", block], cwd=folder, env=there, stdout=subprocess.PIPE, text=True, check=False).stdout
        else:
            wanted += block
    return None if got == wanted else f"\nwanted:\n{wanted}got:\n{got}"


def sections(page, mark):
    """The sections of a page whose titles begin with this mark, each with its title; none goes on behind a title of a higher rank."""
    parts = re.split(rf"^{mark} (.*)$", page, flags=re.MULTILINE)[1:]
    return [(title, re.split(r"^## ", text, flags=re.MULTILINE)[0]) for title, text in zip(parts[::2], parts[1::2])]


def main():
    page, program, ready, folder = sys.argv[1:]
    with open(page, encoding="utf-8") as file:
        page = file.read()
    tasks = [(title, differs, text) for title, text in sections(page, "###")]
    tasks += [(title, prints_otherwise, text) for title, text in sections(page, "##") if title in SECTIONS]
    passed = failed = 0
    for number, (title, task, text) in enumerate(tasks):
        fault = task(os.path.abspath(program), os.path.abspath(ready), os.path.join(folder, str(number)), text)
        passed, failed = passed + (fault is None), failed + (fault is not None)
        if fault is not None:
            print(f"differs: {title}: {fault}")
    print(f"{passed} passed, {failed} failed")
    sys.exit(1 if failed or passed != MIGRATIONS + len(SECTIONS) else 0)


main()
