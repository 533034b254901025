#!/usr/bin/env python3
"""What a reader of the main theorem has to believe: each definition that the clauses of `run` reach, and those of the traits of what it is handed,
by file, with its lines.

    python3 bench/believed.py            a table of files, with the lines of the definitions that are reached and of the file
    python3 bench/believed.py --names    each file with the definitions that are reached
    python3 bench/believed.py --rest     the files of specs/ from which nothing is reached
    python3 bench/believed.py --forms    how much of them each form of the program takes, by what `FormLeaves` says of it
    python3 bench/believed.py --page     the table with a head, as docs/BELIEVED.md has it, one by forms, and one of the kit's definitions

It begins with the imports of `crates/r53_cli/src/program.rt` that the contract of `run` names, and with those that the traits of streams, disks and the
network name in their clauses, which give what these tell its meaning (that of random words is a trait of the kit's `rand_core`). It goes on through the imports
of the definitions. A definition's lines are its own and the comment right above it. Structs and enums of the code are named as types, and not followed.
With the kit's sources, whose place `rt doc` tells, those of the kit that these definitions reach are counted too, and told apart.
"""
import os
import re
import shutil
import subprocess
import sys

TOP = os.path.dirname(os.path.dirname(os.path.abspath(__file__)))
# what `FormLeaves` says of each form begins with these
LEAVES = "r53_cli/specs/Sessions.antt"
FORMS = [("run", ["Runs"]), ("dump", ["Dumps"]), ("init", ["InitRuns"]), ("once", ["OnceLeaves", "HasCause"]), ("drill", ["Drills"])]
# the traits of what is handed in
TRAITS = ["r53_io/src/streams.rt", "r53_io/src/network.rt", "r53_disk/src/disk.rt"]
NAME = r"[^\s{},;:()\[\].=]+"
IMPORT = re.compile(r"(?:ghost )?use Rattle\.([\w.]+?)(?:\.\{([^}]*)\}|\s+as\s+(\w+))?;?\s*$", re.M)
MUTUAL = re.compile(r"^(?:abbrev |unfoldable )?mutual\b")
HEAD = re.compile(r"^(?:(?:pub|abbrev|unfoldable|opaque)\s+)*(?:(record|data)\s+)?(" + NAME + r")")


def kit():
    """The folder of the kit's crates; None where there is no kit."""
    if not shutil.which("rt"):
        return None
    page = subprocess.run(["rt", "doc"], capture_output=True, text=True).stdout.strip()
    folder = os.path.join(os.path.dirname(page), "rattle")
    return folder if os.path.isdir(folder) else None


KIT = kit()


def is_ours(path):
    return path.startswith(f"{TOP}/crates/")


def read(path):
    with open(path, encoding="utf-8") as file:
        return file.read()


def exports(crate):
    path = f"{TOP}/crates/{crate}/specs/Lib.antt"
    found = {}
    if os.path.isfile(path):
        for where, name in re.findall(r"^pub use Rattle\.([\w.]+?)(?: as (\w+))?$", read(path), re.M):
            found[name or where.split(".")[-1]] = where
    return found


def place_of(where):
    """The file of a module, behind every `pub use`; None of the code's types, and where there is no kit of its definitions."""
    for _ in range(20):
        parts = where.split(".")
        if KIT and len(parts) > 2 and parts[1] in ("specs", "proofs") and not os.path.isdir(f"{TOP}/crates/{parts[0]}"):
            path = f"{KIT}/{'/'.join(parts)}.antt"
            return path if os.path.isfile(path) else None
        if len(parts) != 3 or parts[1] != "specs":
            return None
        path = f"{TOP}/crates/{parts[0]}/specs/{parts[2]}.antt"
        if os.path.isfile(path):
            return path
        where = exports(parts[0]).get(parts[2], "")
    return None


def imports(text):
    """Names that a text imports, each with its file and its name there; modules by their short names."""
    names, modules = {}, {}
    for where, listed, short in IMPORT.findall(re.sub(r"\n[ \t]+", " ", text)):
        path = place_of(where)
        if not path:
            continue
        if listed:
            for it in listed.split(","):
                name, _, other = it.strip().partition(" as ")
                if name:
                    names[(other or name).strip()] = (path, name.strip())
        else:
            modules[short or where.split(".")[-1]] = path
    return names, modules


def parts_of(operator):
    return {it for it in operator.split("◌") if it}


def is_operator(name):
    return "◌" in name and bool(parts_of(name))


class File:
    def __init__(self, path):
        text = read(path)
        self.names, self.modules = imports(text)
        self.items, self.size = {}, text.count("\n")
        # definitions that cite one another are one item, by the names of all
        self.joint = {}
        lines, at, notes = text.split("\n"), None, []
        for line in lines:
            if line.startswith("--"):
                at = None
                notes.append(line)
            elif not line.strip():
                at = at if at and at.startswith("mutual") else None
                notes = []
            elif MUTUAL.match(line):
                at = f"mutual {len(self.joint)}"
                self.items[at] = [*notes, line]
            elif at and at.startswith("mutual") and line[0] == " ":
                self.items[at].append(line)
                found = re.match(r"\s+(?:pub )?(" + NAME + r") :", line)
                if found:
                    self.joint[found[1]] = at
            elif line[0] in " \t" or line.startswith(("}", ")")):
                if at:
                    self.items[at].append(line)
            elif line.startswith(("use ", "pub use ", "infix")):
                at = None
            else:
                found = HEAD.match(line)
                at = found[2] if found else None
                if at not in self.items and "◌" not in line:
                    # an equation of an operator begins with what stands before it
                    at = next((it for it in self.items if is_operator(it) and parts_of(it) <= set(line.split())), at)
                if at:
                    self.items.setdefault(at, []).extend([*notes, line])
                notes = []
        # an item goes on behind a blank line where its equations do
        self.words = {it: set(re.findall(r"[^\s{},;:()\[\]→×⊎λ]+", " ".join(x for x in rows if not x.startswith("--")))) for it, rows in self.items.items()}


FILES = {}


def file_of(path):
    if path not in FILES:
        FILES[path] = File(path)
    return FILES[path]


def reach(starts):
    seen, left = set(), list(starts)
    while left:
        path, name = left.pop()
        if (path, name) in seen:
            continue
        file = file_of(path)
        if name in file.joint:
            left.append((path, file.joint[name]))
            continue
        if name not in file.items:
            # a constructor or a field of one of the file's records and types; of the kit's also a name that is passed on
            if name in file.names and not is_ours(path):
                left.append(file.names[name])
                continue
            for it, words in file.words.items():
                if name in words and (path, it) not in seen and (is_ours(path) or re.search(r"\b(record|data)\b", file.items[it][0])):
                    left.append((path, it))
            continue
        seen.add((path, name))
        for word in file.words[name]:
            first, _, second = word.partition(".")
            if (word in file.items or word in file.joint) and word != name:
                left.append((path, word))
            elif word in file.names:
                left.append(file.names[word])
            elif first in file.modules and second:
                left.append((file.modules[first], second.split(".")[0]))
            elif first in file.names:
                left.append(file.names[first])
            elif first in file.items and first != name:
                left.append((path, first))
        for it in [*file.items, *file.names]:
            if is_operator(it) and it != name and parts_of(it) <= file.words[name]:
                left.append((path, it) if it in file.items else file.names[it])
    return seen


def lines_of(seen):
    return sum(len(file_of(path).items[name]) for path, name in seen if is_ours(path))


def of_traits():
    starts = []
    for path in TRAITS:
        trait = read(f"{TOP}/crates/{path}")
        words = set(re.findall(r"[\w']+", "".join(re.findall(r"^pub trait .*?^}", trait, re.M | re.S))))
        starts += [places for name, places in imports(trait)[0].items() if name in words]
    return starts


def by_forms():
    """Each form with the lines that it takes, those of the traits with them, and with those that no form before it takes."""
    path = f"{TOP}/crates/{LEAVES}"
    taken, rows = set(), []
    for form, names in FORMS:
        places = [(path, it) if it in file_of(path).items else file_of(path).names[it] for it in names]
        seen = reach(places + of_traits())
        rows.append((form, lines_of(seen), lines_of(seen - taken)))
        taken |= seen
    return rows


def main():
    if "--forms" in sys.argv:
        for row in by_forms():
            print(*row)
        return
    text = read(f"{TOP}/crates/r53_cli/src/program.rt")
    begin = text.index("pub fn run<")
    contract = text[begin : text.index("\n{", begin)]
    names, _ = imports(text)
    words = set(re.findall(r"[\w']+", contract))
    seen = reach([places for name, places in names.items() if name in words] + of_traits())
    files = {}
    for path, name in seen:
        files.setdefault(path, []).append(name)
    short = lambda path: os.path.relpath(path, f"{TOP}/crates" if is_ours(path) else KIT)
    size = lambda path: sum(len(file_of(path).items[it]) for it in files[path])
    if "--rest" in sys.argv:
        for at, _, listed in sorted(os.walk(f"{TOP}/crates")):
            if os.path.basename(at) == "specs":
                for it in sorted(listed):
                    path = f"{at}/{it}"
                    if it.endswith(".antt") and it != "Lib.antt" and path not in files:
                        print(short(path), read(path).count("\n"))
        return

    def table(paths, head):
        if "--page" in sys.argv:
            print(f"| {head} | Lines reached | Lines |\n|---|---|---|")
        for path in sorted(paths):
            print(f"| `{short(path)}` | {size(path)} | {file_of(path).size} |" + (" " + ", ".join(f"`{it}`" for it in sorted(files[path])) if "--names" in sys.argv else ""))
        if "--page" in sys.argv:
            print()
        print(f"{len(paths)} files, {sum(len(files[it]) for it in paths)} definitions, {sum(map(size, paths))} lines; {sum(file_of(it).size for it in paths)} lines of these files in all")

    if "--page" in sys.argv:
        print("# What a reader of the main theorem has to believe\n")
        print("Each file of definitions that the contract of `run` reaches, or the traits of the streams, the disks and the network that it is handed, with the lines of the definitions that")
        print("are reached and of the whole file. `bench/believed.py --page` makes this page; with `--names` it lists the definitions of each. Structs and enums of the code are named as types, and")
        print("not followed.\n")
    table([it for it in files if is_ours(it)], "File in `crates/`")
    if "--page" in sys.argv:
        print("\n## By form\n")
        print("What the case of `FormLeaves` for each form reaches, with the traits: a reader of one form alone takes that. The rest are the shape of a form and the clauses on words of none.\n")
        print("| Form | Lines reached | Of these, in none of the rows above |\n|---|---|---|")
        for row in by_forms():
            print("| `%s` | %d | %d |" % row)
    others = [it for it in files if not is_ours(it)]
    if others:
        print()
        if "--page" in sys.argv:
            print("## Of the kit\n")
            kit_name = subprocess.run(["rt", "version"], capture_output=True, text=True).stdout.split()[0]
            print(f"What these reach of the definitions of the kit ({kit_name}), which PREMISES takes for granted: what JSON is, hexadecimal digits, numbers in network order, addresses as texts, what a random")
            print("source gives, lists and options. What these stand on in turn of the kit's mathematics (its modules `lib` and `mathlib`) isn't followed.\n")
        table(others, "File of the kit")


main()
