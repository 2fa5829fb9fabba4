"""The checks of wrong bodies: the copy that each reads, how the prover is asked, and what it printed."""
import functools
import os
import pathlib
import re
import shutil
import subprocess
import tempfile

from copies import write_function
from crates import HEAD, functions_in, libraries, names_of
from definitions import Modules, folder_of, law_of, publish, write_definition
from edits import apart, edited

# A line of a contract, whose braces are not those of a body.
CLAUSE = re.compile(r" *(requires|ensures|ghost)\b")

# What the prover reports if a proof cites a name that is not there, or another proof that cites one.
NAME_GONE = re.compile(r"has no field|is not in scope|has no `|was not admitted|is private to")


def write_copy(crate, edits, changed, room):
    """Writes a copy of the crate with the edits, in which the proof of each function not changed is a hole, and its
    body is empty, if it can be."""
    for part in ("src", "specs", "proofs"):
        if (crate.folder / part).is_dir():
            shutil.copytree(crate.folder / part, room / part)
    source = crate.source
    for edit in edits:
        source = source if edit.copy else edited(source, edit)
    for path, text in source.items():
        (room / path).write_text(emptied(crate, path, text, changed, room), encoding="utf-8")
    for edit in edits:
        if edit.copy:
            write_function(crate, edit, room)
    for function in crate.functions:
        if function not in changed:
            make_hole(crate, function, room)


def body_at(text, begin, end):
    """Where the braces of the body there open and close. None if it is empty, or there is none."""
    depth = 0
    for at in range(begin, end):
        if depth == 0 and text[at] == "{" and not CLAUSE.match(text, text.rfind("\n", 0, at) + 1):
            return None if text[at + 1] == "}" else (at, text.rindex("}", at, end))
        if depth == 0 and text[at] == ";":
            return None
        depth += (text[at] in "([{") - (text[at] in ")]}")
    return None


def emptied(crate, path, text, changed, room):
    """The text, in which the body of each function that is not changed does nothing and never ends: its callers see
    only its contract, and the prover has no model of the body to make. A constant function keeps its body, since
    others compute with it."""
    for begin, end, function in sorted(functions_in(path, text), reverse=True):
        names, body = names_of(crate, function), body_at(text, begin, end)
        is_kept = names & changed or any(is_recursive(it, room) for it in names)
        if names and body and not is_kept and "const" not in HEAD.match(text, begin)[0].split():
            text = f"{text[:body[0]]}{{ loop {{}} }}{text[body[1] + 1:]}"
    return text


def is_recursive(function, room):
    """Whether the function calls itself: then its folder begins with a plus."""
    folder = room.joinpath("proofs", *function.split("::")[1:])
    return folder.with_name(f"+{folder.name}").is_dir()


def make_hole(crate, function, room):
    """Puts a hole for the proof of the function. A closure keeps its proof, and so does a function that calls
    itself: more is stated there than the function's contract."""
    path = function.split("::")[1:]
    folder = room.joinpath("proofs", *path)
    if "fn" in path or "+" in function or is_recursive(function, room):
        return
    shutil.rmtree(folder, ignore_errors=True)
    folder.mkdir(parents=True)
    statement = f"Rattle.{crate.name}.proofs.{'.'.join(path)}.Statement.{{statement}}"
    proof = f"{path[-1]}_spec"
    text = f"use {statement}\n\npub {proof} : {{M : Type 1}} → statement M\n{proof} = ?\n"
    (folder / "Proof.antt").write_text(text, encoding="utf-8")


def prover_words(crate, functions, kit, kept):
    """Asks the prover about these functions as `rt ci` asks it about the whole crate, but that holes may stay."""
    words = [kit / "bin/rattle", "check", "--crate-name", crate.name, crate.root]
    words += libraries(crate.name, crate.uses, kit)
    words += ["--links", f"{crate.name}=", "--jobs", "1", "--allow-holes", *words_for_progress(kit)]
    if kept:
        words += ["--incremental", kept]
    for it in sorted(functions):
        words += ["--only", it]
    return words


@functools.cache
def words_for_progress(kit):
    """The word by which the prover prints a line as it ends with each function, if this release of the kit has it."""
    asked = [kit / "bin/rattle", "check", "--help"]
    has_word = "--progress" in subprocess.run(asked, stdout=subprocess.PIPE, text=True, check=True).stdout
    return ["--progress"] if has_word else []


def processor_seconds(process):
    """The seconds of a processor that a process has taken so far."""
    fields = pathlib.Path(f"/proc/{process}/stat").read_text(encoding="utf-8").rpartition(")")[2].split()
    return (int(fields[11]) + int(fields[12])) / os.sysconf("SC_CLK_TCK")


def timed(ran):
    """The lines that the prover prints; those of its progress state what each function took of a processor, but for the
    first one, before which it reads the libraries."""
    last = None
    for line in ran.stdout:
        if line.startswith("checked "):
            now = processor_seconds(ran.pid)
            if last:
                line = f"{line.partition(',')[0]}: {now - last:.0f} s\n"
            last = now
        yield line


def functions_of(crate, kit):
    """Asks the prover about the whole crate, as it stands, and returns the functions that are proved."""
    words = [kit / "bin/rattle", "check", "--crate-name", crate.name, crate.root]
    words += [*libraries(crate.name, crate.uses, kit), "--links", f"{crate.name}=", "--jobs", "1"]
    how = {"cwd": crate.folder, "stdin": subprocess.DEVNULL, "text": True, "errors": "replace"}
    ran = subprocess.run(words, stdout=subprocess.PIPE, stderr=subprocess.STDOUT, **how)
    return sorted(set(re.findall(rf"(?m)^fn ({crate.name}::\S+): proved", ran.stdout)))


def asked(crate, functions, room, kit, log, kept):
    """Asks the prover about these functions of the copy in `room`, and returns what it printed. Checks with one folder
    `kept` share what no edit changes."""
    words = prover_words(crate, functions, kit, kept)
    how = {"cwd": room, "stdin": subprocess.DEVNULL, "text": True, "errors": "replace"}
    with subprocess.Popen(words, stdout=subprocess.PIPE, stderr=subprocess.STDOUT, **how) as ran:
        said = "".join(timed(ran))
    if ran.returncode < 0:
        said = f"error: the check was killed, most likely for memory\n{said}"
    if log:
        with open(log, "a", encoding="utf-8") as it:
            it.write(f"== {crate.name}\n{said}")
    return said


def check(crate, edits, is_control, kit, log, kept):
    """Checks the functions of a copy of the crate with these edits; and the law of each edit of definitions, as it
    stands, and over copies that have the edit. Returns what the prover printed, and its names of the laws over copies,
    in the order of these edits. As a control nothing is edited."""
    bodies, definitions = apart(edits)
    if is_control:
        bodies = [it._replace(changes=[]) for it in bodies]
    functions, modules = {it for edit in edits for it in edit.functions}, Modules(crate)
    with tempfile.TemporaryDirectory(prefix="wrong-bodies-") as name:
        room = pathlib.Path(name)
        write_copy(crate, bodies, functions, room)
        if definitions:
            publish(room)
        copies = [write_definition(modules, it, is_control, number, room) for number, it in enumerate(definitions)]
        return asked(crate, functions | set(copies), room, kit, log, kept), copies


# ---- What the prover printed


def is_read(said):
    """Whether the prover read the crate."""
    return bool(re.search(r"(?m)^only=", said))


def first_error(said):
    """The first line that may show why the prover did not read the crate."""
    lines = [it for it in said.split("\n") if "error" in it] or said.split("\n")
    return lines[0][:200]


def errors_in(folder, said):
    """The errors that the prover reports in this folder of the crate, which is a pattern."""
    return re.findall(rf"(?m)^(?:\./)?{folder}/[^:]*:\d+:\d+: error: (.*)$", said)


def proof_of(function):
    """The folder of the function's own proof, as a pattern."""
    *above, name = [re.escape(it) for it in function.split("::")[1:]]
    return "/".join(["proofs", *above, rf"\+?{name}"])


def verdict(function, said, folder):
    """What was reported of the function: 'proved', 'open' if a goal of it is open, 'gone' if only names are gone that
    its proof cites, or the prover's own words. Its goals are those in the folder, which is a pattern."""
    found = re.search(rf"(?m)^fn {re.escape(function)}: (.*)$", said)
    line = found[1] if found else "nothing was reported of it"
    if re.match("no holes|depends on a hole", line):
        return "proved"
    if re.match("no proof: .*`search` did not prove", line):
        return "open"
    errors = errors_in(folder, said)
    if not line.startswith("not proved") or not errors:
        return line[:200]
    return "gone" if all(NAME_GONE.search(it) for it in errors) else "open"


def judge(found, is_control, refused):
    """Whether all is well with an edit of which this was reported, and the words that report it."""
    if is_control:
        well = all(it == "proved" for it in found.values())
        return well, "proved as it stands" if well else f"NOT PROVED AS IT STANDS: {found}"
    if "open" in found.values():
        return True, refused
    if "gone" in found.values():
        return False, "REFUSED ONLY SINCE A NAME IS GONE: change a value, and keep what the proof cites"
    return False, f"NOT REFUSED: {found}"


def took(functions, said):
    """What these functions took of a processor, if the prover reports its progress."""
    found = [int(it[2]) for it in re.finditer(r"(?m)^checked (\S+): (\d+) s$", said) if it[1] in functions]
    return f" in {sum(found)} s of a processor" if found else ""


def judge_body(edit, said, is_control):
    """Whether all is well with the edit of functions, and the words that report it."""
    found = {it: verdict(it, said, proof_of(it)) for it in sorted(edit.functions)}
    return judge(found, is_control, f"refused{took(edit.functions, said)}")


def judge_definition(edit, number, copy, said, is_control):
    """Whether all is well with the edit of definitions, and the words that report it. A goal of a lemma that its law
    stands on counts as one of the law."""
    (law,) = edit.functions
    as_it_stands = verdict(law, said, "proofs")
    if as_it_stands != "proved":
        return False, f"NOT PROVED AS IT STANDS: {as_it_stands}"
    faults = errors_in(f"specs/{folder_of(number)}", said)
    if faults:
        return False, f"BAD EDIT: the prover refuses the definitions themselves: {faults[0][:200]}"
    found = {law: verdict(copy, said, f"proofs/(?:{folder_of(number)}|{law_of(number)})")}
    return judge(found, is_control, f"refused by {law}{took({copy}, said)}")


def tried(crate, edits, kit, is_control, log, kept):
    """Tries these edits, and returns each with its judgement: in one check, if the prover can read them together.
    Edits that are read by themselves may not be read together, as when they make two functions call each other."""
    said, copies = check(crate, edits, is_control, kit, log, kept)
    if is_read(said):
        bodies, definitions = apart(edits)
        judged = [(it, *judge_body(it, said, is_control)) for it in bodies]
        numbered = enumerate(definitions)
        return judged + [(it, *judge_definition(it, i, copies[i], said, is_control)) for i, it in numbered]
    if len(edits) == 1 or is_control:
        return [(it, False, f"BAD EDIT: the prover can't read it: {first_error(said)}") for it in edits]
    half = len(edits) // 2
    return [it for part in (edits[:half], edits[half:]) for it in tried(crate, part, kit, is_control, log, kept)]
