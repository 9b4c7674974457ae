"""Writes a script of calls for `lufs drive`, and the same operations as commands of debugfs.

    make_script.py LINES SCRIPT COMMANDS

The calls are mixed over 40 directories: of ten lines about four make a file, two look at one, one lists a directory,
and the others remove a file, make a directory or remove one. The same number of lines gives the same script.
"""
import random
import sys

DIRECTORIES = 40


class Tree:
    """What the lines so far have made."""

    def __init__(self):
        self.files = [[] for _ in range(DIRECTORIES)]
        self.folders = [[] for _ in range(DIRECTORIES)]
        self.made = 0

    def new_name(self, kind):
        self.made += 1
        return f"{kind}{self.made:06}"


def line(tree, draw):
    """The next line, and the command of debugfs that does the same."""
    d = draw.randrange(DIRECTORIES)
    files, folders = tree.files[d], tree.folders[d]
    kind = draw.choices(["create", "stat", "list", "remove", "mkdir", "rmdir"], [40, 20, 10, 15, 8, 7])[0]
    if kind in ("stat", "remove") and not files or kind == "rmdir" and not folders:
        kind = "create"
    if kind == "create":
        name = tree.new_name("file")
        files.append(name)
        return f"create /d{d}/{name} 644", f"write /dev/null /d{d}/{name}"
    if kind == "stat":
        name = draw.choice(files)
        return f"stat /d{d}/{name}", f"stat /d{d}/{name}"
    if kind == "list":
        return f"list /d{d}", f"ls /d{d}"
    if kind == "remove":
        name = files.pop(draw.randrange(len(files)))
        return f"remove /d{d}/{name}", f"rm /d{d}/{name}"
    if kind == "mkdir":
        name = tree.new_name("folder")
        folders.append(name)
        return f"mkdir /d{d}/{name} 755", f"mkdir /d{d}/{name}"
    name = folders.pop(draw.randrange(len(folders)))
    return f"rmdir /d{d}/{name}", f"rmdir /d{d}/{name}"


def main():
    count, script, commands = int(sys.argv[1]), sys.argv[2], sys.argv[3]
    draw = random.Random(1)
    tree = Tree()
    lines = [(f"mkdir /d{d} 755", f"mkdir /d{d}") for d in range(min(count, DIRECTORIES))]
    lines += [line(tree, draw) for _ in range(count - len(lines))]
    with open(script, "w") as out:
        out.writelines(f"{call}\n" for call, _ in lines)
    with open(commands, "w") as out:
        out.writelines(f"{command}\n" for _, command in lines)


main()
