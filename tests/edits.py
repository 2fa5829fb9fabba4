"""Wrong bodies and definitions: the changes that each makes, the functions that these change or the law that has to
fail, and which are tried together."""
import re
from collections import namedtuple

from copies import copy_of
from crates import functions_in, names_of

# The head of a function.
HEAD = re.compile(r"\bfn \w+ *[<(]")
CONSTANT = re.compile(r"(?m)^ *(?:pub(?:\([a-z]+\))? )?(?:const|static) (\w+):")

# A wrong body, or a wrong definition: its changes, each a path in the crate, the old text and the new one, and the
# prover's names of the functions that they change, or of the law that has to fail. `why` is what is wrong with the
# edit itself. If `copy` is there, the edit is made in this copy of its function.
Edit = namedtuple("Edit", "label changes functions why copy", defaults=[None])
# Edits of one crate that are tried in one check.
Round = namedtuple("Round", "crate edits")
# How many wrong definitions are tried in one check at most. The checks of krl_cached_table, with 25, and of
# krl_progress, with 19 and 15 wrong bodies, took 0.8 and 0.9 GB.
DEFINITIONS = 25


def changed_by(crate, path, at):
    """The functions that a change of the file changes at this place: the one around it; or, if a constant or
    a table stands there, those that name it."""
    text = crate.source[path]
    around = [it for begin, end, it in functions_in(path, text) if begin <= at < end]
    if around:
        return names_of(crate, around[-1])
    constants = [it[1] for it in CONSTANT.finditer(text) if it.start() <= at]
    if not constants:
        return set()
    word = re.compile(rf"\b{constants[-1]}\b")
    return {
        name
        for file, other in crate.source.items()
        for begin, end, function in functions_in(file, other)
        if word.search(other, begin, end)
        for name in names_of(crate, function)
    }


def read_edit(crate, file):
    """Reads an edit, and finds out whose it is."""
    label, path, old, changes, named, changed = f"{crate.name}/{file.name}", "", "", [], set(), set()
    bad = lambda why: Edit(label, [], set(), why)
    for line in file.read_text(encoding="utf-8").split("\n"):
        word, _, rest = line.partition(":")
        rest = rest[rest[:1] == " " :]
        if word == "file":
            path = rest.strip()
        elif word in ("law", "function"):
            if f"{crate.name}::{rest}" not in crate.functions:
                return bad(f"{rest} is no {word} that is proved")
            named.add(f"{crate.name}::{rest}")
        elif word == "old":
            old = rest
        elif word == "new":
            if path not in crate.source:
                return bad(f"there is no file {path} in src/ or specs/")
            found = crate.source[path].count(old) if old else 0
            if found != 1:
                return bad(f"its old text stands in {path} {found} times: {old}")
            changes.append((path, old, rest))
            if not is_definition(path):
                changed |= changed_by(crate, path, crate.source[path].index(old))
    functions = named or changed
    return Edit(label, changes, functions, None) if functions else bad("it changes no proved function, nor names a law")


def is_definition(path):
    return path.startswith("specs/")


def edited(source, edit):
    """The files with this edit made too, or None if one before it took its old text away."""
    texts = dict(source)
    for path, old, new in edit.changes:
        if texts[path].count(old) != 1:
            return None
        texts[path] = texts[path].replace(old, new)
    return texts


def apart(edits):
    """Those edits that change functions, and those that change definitions."""
    changes_a_definition = lambda edit: any(is_definition(path) for path, _, _ in edit.changes)
    return [it for it in edits if not changes_a_definition(it)], [it for it in edits if changes_a_definition(it)]


def stands_alone(edit):
    """Whether the edit would be in the way of others: it changes the head of a function, which its callers see."""
    return any(HEAD.search(old) for _, old, _ in edit.changes)


def in_copy(crate, edit, number):
    """The edit as one of a copy of its function, if there can be one: a list of one edit, or an empty one."""
    copy = copy_of(crate, edit, number)
    return [edit._replace(functions={copy.copy}, copy=copy)] if copy else []


def bodies_together(crate, edits, laws):
    """Returns those edits of functions that one check tries: of different functions, and not of these laws. One that is
    in the way of others is made in a copy of its function; if there can be none, it is left for another check."""
    taken, changed, source = [], set(laws), crate.source
    for number, edit in enumerate(edits):
        is_apart = changed & edit.functions or stands_alone(edit)
        texts = None if is_apart else edited(source, edit)
        if texts:
            taken, changed, source = [*taken, edit], changed | edit.functions, texts
        else:
            taken += in_copy(crate, edit, number)
    return taken or edits[:1]


def first_round(crate, edits):
    """Returns the edits of the next check: of functions, and of definitions whose laws these do not change."""
    bodies, definitions = apart(edits)
    bodies = bodies_together(crate, bodies, {it for edit in definitions for it in edit.functions})
    changed = {it for edit in bodies for it in edit.functions}
    return bodies + [it for it in definitions if not it.functions & changed][:DEFINITIONS]


def rounds_of(crate):
    """The crate's edits by the check that tries them, and those that can't be tried."""
    read = [read_edit(crate, it) for it in sorted((crate.folder / "wrong").glob("*.edit"))]
    left, rounds = [it for it in read if not it.why], []
    while left:
        taken = first_round(crate, left)
        rounds.append(Round(crate, taken))
        labels = {it.label for it in taken}
        left = [it for it in left if it.label not in labels]
    return rounds, [it for it in read if it.why]
