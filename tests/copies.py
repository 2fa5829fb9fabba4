"""Copies of functions for wrong bodies, so that one check tries several edits of one function, or one of its head: such
an edit is made in a copy of the function under another name, with a copy of its proof, which nothing calls."""
import re
import shutil
from collections import namedtuple

from crates import IMPL_HEAD, functions_in, names_of

# A copy of a function: where the function stands in which file, its name, and the prover's names of both.
Copy = namedtuple("Copy", "path begin end name function copy")


def copy_of(crate, edit, number):
    """A copy, of this number, of the function that the edit changes; None if a change stands elsewhere, the function
    has closures or calls itself, or a trait requires it: then no copy can take its place."""
    path, text = edit.changes[0][0], crate.source[edit.changes[0][0]]
    for begin, end, function in functions_in(path, text):
        is_all = all(it == path and begin <= text.index(old) < end for it, old, _ in edit.changes)
        if is_all and names_of(crate, function) == edit.functions:
            (proved,) = edit.functions
            is_in_trait = function[1] and " for " in impl_head(text, begin)
            if is_in_trait or folder_of(crate.folder, proved).with_name(f"+{function[2]}").is_dir():
                return None
            return Copy(path, begin, end, function[2], proved, f"{proved}_copy{number}")
    return None


def folder_of(room, function):
    """Where the proof of the function lies."""
    return room.joinpath("proofs", *function.split("::")[1:])


def impl_head(text, at):
    """The head of the `impl` block that begins last before this place."""
    return IMPL_HEAD.findall(text[:at])[-1]


def lines_above(text, at):
    """The attributes above a head, which begin after an empty line, a comment or another item."""
    lines = []
    for line in reversed(text[:at].splitlines(keepends=True)):
        if not line.strip() or line.lstrip().startswith("//") or line.rstrip().endswith(("{", "}", ";")):
            break
        lines.append(line)
    return "".join(reversed(lines))


def write_function(crate, edit, room):
    """Adds the copy of the function, in which the edit is made, to the copy of the crate in `room`."""
    copy, text = edit.copy, crate.source[edit.copy.path]
    own = text[copy.begin:copy.end]
    for _, old, new in edit.changes:
        own = own.replace(old, new)
    name = copy.copy.rpartition("::")[2]
    own = lines_above(text, copy.begin) + re.sub(rf"\bfn {copy.name}\b", f"fn {name}", own, count=1)
    is_method = own.startswith(" ")
    with open(room / copy.path, "a", encoding="utf-8") as it:
        it.write(f"\n{impl_head(text, copy.begin)}{own}\n}}\n" if is_method else f"\n{own}\n")
    here, there = folder_of(crate.folder, copy.function), folder_of(room, copy.copy)
    if here.is_dir():
        shutil.copytree(here, there)
    at = copy.function.replace("::", ".").removeprefix(f"{crate.name}.")
    cited = re.compile(rf"\b(Rattle\.{crate.name}\.(?:proofs|specs\.contracts)\.){re.escape(at)}\b")
    for file in there.rglob("*.antt"):
        said = file.read_text(encoding="utf-8")
        file.write_text(cited.sub(rf"\g<1>{at}{name.removeprefix(copy.name)}", said), encoding="utf-8")
