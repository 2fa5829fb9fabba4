"""Copies for wrong definitions, so that one check tries several: each has copies of its own of the modules that it
reaches, and of its law, and what the prover reports of these is about it only."""
import re
import shutil

from crates import functions_in
from edits import edited

# A line by which a module names one in its folder.
NODE = re.compile(r"(?m)^(?:pub )?mod (\w+)\n")
# What a source file takes from others.
USE = re.compile(r"(?ms)^(?:ghost )?use [^;]*;\n")


def folder_of(number):
    """Where the copies of the modules are, in specs/ and in proofs/."""
    return f"Copy{number}"


def law_of(number):
    """The module of the law over these copies."""
    return f"law{number}"


class Modules:
    """The modules of definitions and lemmas of a crate: the text of each, by its path in the crate without `.antt`. A
    function's own proof is in a folder of its name, which begins with a small letter."""

    def __init__(self, crate):
        self.crate, self.texts = crate, {}
        for part in "specs", "proofs":
            for file in sorted((crate.folder / part).rglob("*.antt")):
                path = file.relative_to(crate.folder).with_suffix("").as_posix()
                if path.split("/")[1][0].isupper() and path != f"{part}/Lib":
                    self.texts[path] = file.read_text(encoding="utf-8")
        self.name = re.compile(rf"\bRattle\.{crate.name}\.(specs|proofs)((?:\.\w+)+)")

    def module_at(self, name):
        """The path of the module that is named, itself or a part of it; None if it is none of these."""
        words = name[2].split(".")[1:]
        paths = ("/".join([name[1], *words[:count]]) for count in range(len(words), 0, -1))
        return next((it for it in paths if it in self.texts), None)

    def reaching(self, changed):
        """The modules that are changed, and those that cite one of them, directly or not."""
        cited = {it: {self.module_at(name) for name in self.name.finditer(text)} for it, text in self.texts.items()}
        reached, found = set(), set(changed)
        while found:
            reached |= found
            found = {it for it, names in cited.items() if names & found} - reached
        return reached

    def over(self, copied, number, text):
        """The text, in which the modules that are copied are the copies of this number."""
        at = f"Rattle.{self.crate.name}."
        place = lambda name: name[0].replace(at + name[1], f"{at}{name[1]}.{folder_of(number)}", 1)
        return self.name.sub(lambda name: place(name) if self.module_at(name) in copied else name[0], text)


def publish(room):
    """Lets the copies name every module."""
    for file in room.rglob("*.antt"):
        text = file.read_text(encoding="utf-8")
        if NODE.search(text):
            file.write_text(NODE.sub(r"pub mod \1\n", text), encoding="utf-8")


def write_modules(modules, texts, copied, number, room):
    """Writes the copies of the modules, some of which have these texts."""
    for module in copied:
        part, _, path = module.partition("/")
        file = room / part / folder_of(number) / f"{path}.antt"
        file.parent.mkdir(parents=True, exist_ok=True)
        text = texts.get(f"{module}.antt", modules.texts[module])
        file.write_text(modules.over(copied, number, text), encoding="utf-8")
    for part in {it.partition("/")[0] for it in copied}:
        write_nodes(room / part / folder_of(number))
        append(room / part / "Lib.antt", f"pub mod {folder_of(number)}\n")


def write_nodes(top):
    """Names the modules of each folder in the file of the folder."""
    for place in [top, *sorted(it for it in top.rglob("*") if it.is_dir())]:
        names = sorted({it.stem for it in place.iterdir()})
        file = place.with_suffix(".antt")
        text = NODE.sub("", file.read_text(encoding="utf-8")) if file.is_file() else ""
        file.write_text("".join(f"pub mod {it}\n" for it in names) + text, encoding="utf-8")


def append(file, text):
    with open(file, "a", encoding="utf-8") as it:
        it.write(text)


def write_law(modules, law, copied, number, room):
    """Writes the law over the copies, and its proof, and returns the prover's name of it."""
    crate = modules.crate
    *above, name = law.split("::")[1:]
    stands = ("".join(f"{it}::" for it in above), "", name)
    found = ((text, it) for path, text in crate.source.items() for it in functions_in(path, text) if it[2] == stands)
    text, (begin, end, _) = next(found)
    source = "".join(USE.findall(text)) + text[begin:end] + "\n"
    (room / f"src/{law_of(number)}.rt").write_text(modules.over(copied, number, source), encoding="utf-8")
    append(room / crate.root, f"pub mod {law_of(number)};\n")

    here, there = [room.joinpath("proofs", *it, name) for it in (above, [law_of(number)])]
    if here.is_dir():
        shutil.copytree(here, there)
    own = re.compile(rf"\b(Rattle\.{crate.name}\.(?:proofs|specs\.contracts))\.{'.'.join([*above, name])}\b")
    for file in there.rglob("*.antt"):
        text = modules.over(copied, number, file.read_text(encoding="utf-8"))
        file.write_text(own.sub(rf"\1.{law_of(number)}.{name}", text), encoding="utf-8")
    return f"{crate.name}::{law_of(number)}::{name}"


def write_definition(modules, edit, is_control, number, room):
    """Adds to the copy of the crate in `room` the law of this edit, over copies of what the edit reaches, and returns
    the prover's name of this law. As a control the copies are not edited."""
    copied = modules.reaching({path.removesuffix(".antt") for path, _, _ in edit.changes})
    texts = {} if is_control else edited(modules.crate.source, edit)
    write_modules(modules, texts, copied, number, room)
    (law,) = edit.functions
    return write_law(modules, law, copied, number, room)
