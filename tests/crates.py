"""The crates of the repository: what each uses, its functions, and how the prover gets its libraries."""
import pathlib
import re
import subprocess
import sys

TOP = pathlib.Path(__file__).resolve().parent.parent
# The root file of a library, and that of a program.
ROOTS = ("src/lib.rt", "src/main.rt")

HEAD = re.compile(r'(?m)^( *)(?:pub(?:\([a-z]+\))? )?(?:const )?(?:extern "C" )?fn (\w+)')
IMPL = re.compile(r"(?m)^impl\b(?:<[^{]*?>)? *(?:[\w:<>, ]+ for )?&?(\w+)")
IMPL_HEAD = re.compile(r"(?m)^impl\b[^{]*\{\n")


def stop(why):
    """Ends the script: nothing can be done."""
    print(f"{pathlib.Path(sys.argv[0]).name}: {why}", file=sys.stderr)
    sys.exit(2)


class Crate:
    """A crate of the repository."""

    def __init__(self, name, uses, proved):
        self.name = name
        self.folder = TOP / "crates" / name
        self.uses = uses
        self.below = sorted(reached(name, uses))
        self.functions = [it for it in proved if it.startswith(f"{name}::")]
        files = [*(self.folder / "src").rglob("*.rt"), *(self.folder / "specs").rglob("*.antt")]
        self.source = {str(it.relative_to(self.folder)): it.read_text(encoding="utf-8") for it in sorted(files)}
        self.root = next(it for it in ROOTS if it in self.source)

    def lacking_library(self):
        """A library below that is not built, if there is one."""
        built = lambda it: (TOP / "crates" / it / "out" / "rlib" / f"{it}.rlib").is_dir()
        return next((it for it in self.below if not built(it)), None)


def reached(name, uses):
    """The crates of the repository that this one reaches."""
    found = set()
    for it in uses[name]:
        if it in uses:
            found |= {it, *reached(it, uses)}
    return found


def read_uses():
    """What each crate uses, by crates.txt."""
    uses = {}
    for line in (TOP / "crates.txt").read_text(encoding="utf-8").split("\n"):
        head, colon, tail = line.partition("#")[0].partition(":")
        if colon:
            uses[head.split()[0]] = tail.split()
    return uses


def kit_folder():
    """Where the kit lies."""
    try:
        printed = subprocess.run(["rt", "doc"], stdout=subprocess.PIPE, text=True, check=True)
    except (OSError, subprocess.CalledProcessError):
        stop("'rt', the command of the Rattle kit, is not on the PATH")
    return pathlib.Path(printed.stdout.strip()).parent


def libraries(name, uses, kit):
    """The prover's words for what the crate uses, and for where that finds what it uses itself."""
    library = lambda it: TOP / "crates" / it / "out" / "rlib"
    words = []
    for it in ["std", *[it for it in uses[name] if it not in uses]]:
        words += ["--extern", f"{it}={kit}/rlibs/{it}.rlib"]
    words += ["-L", f"dependency={kit}/rlibs"]
    for it in [it for it in uses[name] if it in uses]:
        words += ["--extern", f"{it}={library(it)}/{it}.rlib"]
    for it in sorted(reached(name, uses)):
        words += ["-L", f"dependency={library(it)}"]
    return [*words, "--antt-project", kit / "rattle/logic/antt-project.json", "--logic-built", kit / "logic_built"]


def functions_in(path, text):
    """Each function of the text: where it begins and ends, and the prover's name of it as a pattern. The name
    of a method has its type, after which the name of a trait may stand."""
    module = "" if path in ROOTS else path[4:-3].replace("/", "::") + "::"
    for head in HEAD.finditer(text):
        indent, name = head.groups()
        end = re.compile(rf"(?m)^{indent}{{?}}").search(text, head.end())
        types = IMPL.findall(text[: head.start()]) if indent else []
        of = f"{types[-1]}[A-Za-z]*::" if types else ""
        yield head.start(), end.end() if end else len(text), (module, of, name)


def names_of(crate, function):
    """The prover's names of the function and of the closures in it."""
    module, of, name = function
    here = re.compile(rf"{crate.name}::{module}(fn::)?{of}{name}(?(1)::.*)$")
    found = {it for it in crate.functions if here.match(it)}
    if found or not of:
        return found
    # An impl may stand in another file than its type.
    anywhere = re.compile(rf"{crate.name}::(\w+::)*{of}{name}$")
    return {it for it in crate.functions if anywhere.match(it)}
