"""The types and constants that definitions take from the code, as docs/DECLARED.md prints them.

A definition imports a type of the code by `use Rattle.CRATE.specs.declared.FILE.TYPE`. The page has the declaration of
each such type, without its comments, and what stands for the types of its fields.
"""
import itertools
import re
import textwrap

USE = re.compile(r"(?m)^(?:ghost )?use Rattle\.([\w.]+?)(?:\.\{([^}]*)\}| as (\w+))?;?$")
FIELD_TYPE = re.compile(r"(?:: |\(|<|\[|, )([A-Z]\w*)")
# These are the same in definitions, or are stated at the head of the page.
PLAIN = {"Option", "Vec", "Result"}
WIDTH = 120

HEAD = """# The types that definitions take from the code

For reviewers. `tests/statement --write` makes this page from the sources, and `tests/statement` compares it with them.
A definition imports a type of the code by `use Rattle.CRATE.specs.declared.FILE.TYPE`, and its variants by
`TYPE.TheVariants as name`. Here is each type and constant that the files of *What to read to know what is proved* in
`docs/ARCHITECTURE.md` import, lowest first. In definitions a `u64` or `usize` is a number, `ℕ`, that knows no greatest
one; a `bool` is a `Bool`; a `Vec<T>` or `[T; n]` is a `List T`. A field is read as `h.span`. What a variant carries
follows it, in the order of its declaration: `write.Insert k v`.
"""
TABLE = """
## What stands for other types

These types have fields that their users do not see. Contracts and definitions see the value on the right, which the
type's `impl Model` names.

| Type | In definitions | Declared in |
| --- | --- | --- |
"""


def imports(text):
    """What the names of a file stand for: its modules, and its names as a module and a name there."""
    aliases, names = {}, {}
    for used, listed, alias in USE.findall(text):
        for name, _, other in [it.strip().partition(" as ") for it in listed.split(",") if it]:
            names[other or name] = (used, name)
        if not listed:
            aliases[alias or used.rpartition(".")[2]] = used
    return aliases, names


def joined(match):
    """A variant's fields, which stand on lines of their own, on one line."""
    return "{ " + " ".join(match[1].split()).rstrip(",") + " },"


def compact(declaration):
    """The declaration in few lines: in one if it fits, otherwise with one for each variant."""
    bare = re.sub(r"\{\n((?: {8}.*\n)+) {4}\},", joined, declaration)
    line = " ".join(bare.split()).replace(", }", " }")
    head, _, variants = bare.partition("{\n")
    if len(line) <= WIDTH:
        return line
    if not re.fullmatch(r"(?: {4}\w+(?:\([\w, ]+\))?,\n)+\}", variants):
        return bare
    lines = textwrap.fill(" ".join(variants[:-1].split()), WIDTH, initial_indent="    ", subsequent_indent="    ")
    return f"{head}{{\n{lines}\n}}"


def block(comment, declaration):
    """A declaration under its comment."""
    lines = textwrap.fill(comment, WIDTH, initial_indent="/// ", subsequent_indent="/// ")
    return f"{lines}\n{compact(declaration)}\n"


class Source:
    """A file of the code."""

    def __init__(self, path):
        self.path = path
        self.text = path.read_text(encoding="utf-8")

    def declaration(self, name):
        """The first sentence of the comment of a type or a constant, and its declaration without comments."""
        item = rf"((?:^///[^\n]*\n)+)(?:^#\[[^\n]*\n)*(^pub (?:const|struct|enum) {name}\b(?:[^\n]*[;}}]$|.*?^\}}$))"
        found = re.search(item, self.text, re.M | re.S)
        if not found:
            return None
        comment = " ".join(found[1].replace("///", "").split())
        bare = re.sub(r"(?m)^ *(?://|#\[).*\n", "", found[2])
        return re.split(r"(?<=\.) (?=[A-Z])", comment)[0], bare

    def model(self, name):
        """What stands for the type in definitions, with its module; or the type that it is another name of."""
        found = re.search(rf"^pub type {name} = (.*);$", self.text, re.M)
        if found:
            return found[1], ""
        found = re.search(rf"^impl(?:<\w+>)? Model for {name}\b.*?^\}}$", self.text, re.M | re.S)
        value = found and re.search(r"ghost Value = \{ (.*?) \};", found[0])
        if not value:
            return None
        inner = re.sub(r"(?m)^ +", "", found[0])
        return self.resolved(value[1], imports(inner)[1])

    @staticmethod
    def resolved(value, names):
        """The value in the words of the files that define it, and the module of the first of them, if it has a file."""
        module = next((names[it][0] for it in re.findall(r"\w+", value) if it in names), "")
        for other, (_, name) in names.items():
            value = re.sub(rf"\b{other}\b", name, value)
        has_file = module.startswith("krl_") and ".declared." not in module
        return re.sub(r"\b\w+\.(?=[A-Z])", "", value), module if has_file else None


class Declared:
    """The declarations that some definitions cite, and what stands for the types of their fields."""

    def __init__(self, top, cited):
        self.top = top
        self.crates = re.findall(r"(?m)^(krl_\w+)", (top / "crates.txt").read_text(encoding="utf-8"))
        self.sources = {}
        self.wanted = sorted({self.place(*it) for it in cited if ".declared." in it[0]}, key=self.rank)
        self.begun, self.shown, self.models, self.missing = set(), [], {}, []
        for place in self.wanted:
            self.show(place)

    @staticmethod
    def place(module, name):
        """The crate, the file and the item that a definition means by this."""
        crate, rest = module.split(".specs.declared.")
        file, _, item = rest.removesuffix(".TheVariants").rpartition(".")
        return crate, file.replace(".", "/"), name if item == "TheConstants" else item

    def rank(self, place):
        """Lower crates come first."""
        return self.crates.index(place[0]), place

    def source(self, crate, file):
        """The file of the code, if it is there."""
        path = self.top / "crates" / crate / "src" / f"{file}.rt"
        if path not in self.sources and path.is_file():
            self.sources[path] = Source(path)
        return self.sources.get(path)

    def show(self, place):
        """Shows this after all that it names."""
        if place in self.begun:
            return
        self.begun.add(place)
        source = self.source(*place[:2])
        found = source and source.declaration(place[2])
        if not found:
            self.missing.append(place)
            return
        for name in FIELD_TYPE.findall(found[1]):
            self.explain(place, name)
        self.shown.append((place, found))

    def explain(self, place, name):
        """Shows a type that a declaration names, or what stands for it."""
        declared = next((other for other in self.wanted if other[2] == name), None)
        if declared:
            self.show(declared)
        elif name not in PLAIN and name not in self.models:
            self.stand_for(place, name)

    def stand_for(self, place, name):
        """Finds what stands for the type: in this crate, or in another one."""
        for crate in sorted(self.crates, key=lambda it: it != place[0]):
            for path in sorted((self.top / "crates" / crate / "src").glob("*.rt")):
                model = self.source(crate, path.stem).model(name)
                if model:
                    self.models[name] = (*model, f"{crate}/src/{path.name}")
                    names = FIELD_TYPE.findall(f"({model[0]}") if model[1] == "" else []
                    return [self.explain(place, it) for it in names]
        return self.missing.append((place[0], place[1], name))

    def page(self):
        """The text of the page."""
        files = itertools.groupby(self.shown, key=lambda it: it[0][:2])
        blocks = (f"// {crate}/src/{file}.rt\n" + "".join(block(*it) for _, it in its) for (crate, file), its in files)
        return HEAD + "\n```rust\n" + "".join(blocks) + "```\n" + TABLE + "".join(self.rows())

    def rows(self):
        """What stands for each other type, a row each."""
        for name, (value, module, file) in sorted(self.models.items()):
            where = f", of `{module.replace('.specs.', '/specs/')}`" if module else ""
            yield f"| `{name}` | `{value}`{where} | `{file}` |\n"
