"""Edits of hosts: their lines, how each is made in a copy of the tree, and how many are made in one copy, in which the
environment chooses one of them."""
import re
from collections import defaultdict, namedtuple
from pathlib import Path

KINDS = ("file", "old", "new", "test")

# The old text of a file, and the new one.
Change = namedtuple("Change", "file old new")
# An edit: its name, its changes, and the words of its line 'test: ', by which cargo runs the test that has to fail.
Edit = namedtuple("Edit", "name changes test")

# The head of a function in Rust, as rustfmt lays it out: in the first column of its item.
HEAD = re.compile(r'( *)(?:pub(?:\([\w: ]+\))? )?(const )?(?:async )?(?:unsafe )?(?:extern "C" )?fn \w')
# The variable of the environment that chooses an edit.
VARIABLE = "WRONG_HOST_"


class Refused(Exception):
    """An edit that is none, or that does not fit."""


def read(file):
    """Reads the edit of a file."""
    changes, test, path, old = [], None, None, None
    for line in filter(None, Path(file).read_text().splitlines()):
        kind, _, words = line.partition(": ")
        if kind not in KINDS:
            raise Refused(f"{file}: a line begins with {', '.join(KINDS)}, and not so: {line}")
        if kind == "file":
            path = words
        elif kind == "test":
            test = words.split()
        elif kind == "old":
            old = words
        elif kind == "new":
            if path is None or old is None:
                raise Refused(f"{file}: there is no old text for this one: {words}")
            changes.append(Change(path, old, words))
            old = None
    if old is not None or not changes:
        raise Refused(f"{file}: there is no new text for the last old one")
    return Edit(Path(file).stem, changes, test)


def place(text, change):
    """Where the old text of the change stands, which has to be one place."""
    if text.count(change.old) != 1:
        raise Refused(f"{change.file} has this text {text.count(change.old)} times, and not once: {change.old}")
    return text.index(change.old)


def make(edit, folder):
    """Makes the edit in this copy of the tree."""
    for change in edit.changes:
        path = Path(folder) / change.file
        text = path.read_text()
        at = place(text, change)
        path.write_text(text[:at] + change.new + text[at + len(change.old):])


def bodies(text):
    """Where the bodies of the functions begin and end, as rustfmt lays them out: after the line of the head that ends
    with a brace, until the brace as far left as the head. Functions in others are left out, and those that cannot
    choose between two bodies: a constant one, and one whose result is a type without a name."""
    lines = text.splitlines(keepends=True)
    starts = [0]
    for line in lines:
        starts.append(starts[-1] + len(line))
    at = 0
    while at < len(lines):
        head, first = HEAD.match(lines[at]), at
        while head and not lines[at].rstrip().endswith(("{", ";", "}")):
            at += 1
        at += 1
        if not head or not lines[at - 1].rstrip().endswith("{"):
            continue
        end = lines.index(f"{head[1]}}}\n", at)
        if not head[2] and "-> impl " not in text[starts[first]:starts[at]]:
            yield starts[at], starts[end]
        at = end


def body_of(text, change):
    """The body in which the old text stands, which can be chosen."""
    at = place(text, change)
    for begin, end in bodies(text) if change.file.endswith(".rs") else ():
        if begin <= at and at + len(change.old) <= end:
            return begin, end
    raise Refused(f"{change.file}: this text is in no body of a function that can be chosen: {change.old}")


def choose(edits, top, folder):
    """Makes these edits in a copy of the tree `top`: a function has its own body and those of the edits that change it,
    and takes one of these only if the environment has the variable of that edit."""
    found = defaultdict(lambda: defaultdict(list))
    for edit in edits:
        for change in edit.changes:
            text = (Path(top) / change.file).read_text()
            found[change.file][body_of(text, change)].append((edit.name, change))
    for file, changed in found.items():
        text = (Path(top) / file).read_text()
        for (begin, end), changes in sorted(changed.items(), reverse=True):
            text = text[:begin] + chosen(text[begin:end], changes) + text[end:]
        (Path(folder) / file).write_text(text)


def chosen(body, changes):
    """The bodies of the edits, each if its variable is set, and otherwise the function's own."""
    edited = {}
    for name, change in changes:
        edited[name] = edited.get(name, body).replace(change.old, change.new)
    return "".join(f"if {condition(name)} {{\n{text}}} else " for name, text in edited.items()) + f"{{\n{body}}}\n"


def condition(name):
    """Whether the variable of the edit is set, which is found out once, as an expression in Rust."""
    is_set = f'std::env::var_os("{VARIABLE}{name}").is_some()'
    return f"{{ static IS_CHOSEN: std::sync::LazyLock<bool> = std::sync::LazyLock::new(|| {is_set}); *IS_CHOSEN }}"


def blamed(said, folder):
    """The names of the edits in whose bodies the compiler has found an error; `folder` is where it ran."""
    found = set()
    for path, line in re.findall(r"(?m)^error.*\n *--> (\S+?):(\d+):\d+$", said):
        above = (Path(folder) / path).read_text().splitlines()[:int(line)]
        found |= set(re.findall(rf'"{VARIABLE}(\w+)"', "\n".join(above))[-1:])
    return found
