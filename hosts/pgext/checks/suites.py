"""PostgreSQL's own tests, of regressions and of isolation, over a server with the extension and over one without it."""
import difflib
import platform
import re
import subprocess
from pathlib import Path

from checks.cluster import Cluster, run
from checks.processes import Failed, expect

# The program and the schedule of each suite.
SUITES = {"isolation": ("pg_isolation_regress", "isolation_schedule"), "regress": ("pg_regress", "parallel_schedule")}
# What lists all event triggers, and all functions that run as their owner: by these it may differ.
LISTS = {"event_trigger.out", "opr_sanity.out"}
OWN = re.compile(r"\bkrl_dropped\b|\bforget_dropped\b|^\(\d+ rows?\)$")
KEYRING = "/usr/share/keyrings/debian-archive-keyring.gpg"


def fetch_tests(installation):
    """Takes the sources of PostgreSQL from Debian, of the newest version that it has, and returns the folder of their
    tests. Nothing else of the machine changes."""
    folder = installation.folder / "postgresql"
    major = run(installation.given.pg_config, "--version").split()[1].split(".")[0]
    release = platform.freedesktop_os_release()["VERSION_CODENAME"]
    for name in ("lists/partial", "cache/archives/partial"):
        (folder / name).mkdir(parents=True)
    archives = {"debian": release, "debian-security": f"{release}-security"}
    lines = [f"deb-src [signed-by={KEYRING}] http://deb.debian.org/{it} {archives[it]} main\n" for it in archives]
    (folder / "sources.list").write_text("".join(lines), encoding="utf-8")
    apt = ["apt-get", f"-oDir::Etc::sourcelist={folder}/sources.list", "-oDir::Etc::sourceparts=-"]
    apt += [f"-oDir::State::lists={folder}/lists", f"-oDir::Cache={folder}/cache"]
    run(*apt, "update", cwd=folder)
    try:
        run(*apt, "source", "--download-only", f"postgresql-{major}", cwd=folder)
    except Failed:
        # The archive of security has lost its newest version at times.
        run(*apt, "source", "--download-only", f"postgresql-{major}/{release}", cwd=folder)
    run("tar", "xf", next(folder.glob("*.orig.tar.*")), "--strip-components=1", cwd=folder)
    return folder / "src/test"


def build_library(installation, tests):
    """Builds the functions in C that the tests of regressions call."""
    headers = run(installation.given.pg_config, "--includedir-server")
    library = installation.inside("pkglibdir") / "regress.so"
    run("cc", "-shared", "-fPIC", "-w", f"-I{headers}", "-o", library, tests / "regress/regress.c")


def run_suite(installation, tests, cluster, suite, *words):
    """Runs a suite. Returns what each of its tests has printed. Some fail over any server of another minor version."""
    program, schedule = SUITES[suite]
    program = Path(run(installation.given.pg_config, "--pgxs")).parent.parent / "test" / suite / program
    folder = cluster.folder / f"{suite}-{cluster.port}"
    folder.mkdir()
    where = {"inputdir": tests / suite, "schedule": tests / suite / schedule, "outputdir": folder, "user": "postgres",
             "bindir": installation.inside("bindir"), "host": cluster.folder, "port": cluster.port}
    if suite == "regress":
        where["dlpath"] = installation.inside("pkglibdir")
    with open(folder / "log", "w", encoding="utf-8") as log:
        how = {"cwd": folder, "stdin": subprocess.DEVNULL, "stdout": log, "stderr": log, "check": False}
        subprocess.run([program, *(f"--{name}={where[name]}" for name in where), *words], **how)
    results = {file.name: file.read_text(errors="replace").splitlines() for file in folder.glob("results/*.out")}
    if not results:
        raise Failed(f"{suite} did not run:\n{(folder / 'log').read_text(errors='replace')}")
    return results


def without_own(lines):
    """A list without the objects of the extension, whatever the widths of its columns are."""
    return [re.sub(r"[\s-]+", " ", line).strip() for line in lines if not OWN.search(line)]


def differences(name, before, after):
    """The lines in which a test differs with the extension from itself without it."""
    if name in LISTS:
        before, after = without_own(before), without_own(after)
    return list(difflib.unified_diff(before, after, f"{name} without krl", f"{name} with krl", n=2, lineterm=""))


def check(installation):
    """Fails if a test prints something else with the extension."""
    tests = fetch_tests(installation)
    build_library(installation, tests)
    plain = Cluster(installation, "plain", 5433, "shared_preload_libraries = ''")
    extended = Cluster(installation, "extended", 5432)
    for suite in SUITES:
        before = run_suite(installation, tests, plain, suite)
        after = run_suite(installation, tests, extended, suite, "--load-extension=krl")
        expect(f"which tests of {suite} have run", sorted(after), sorted(before))
        found = [line for name in sorted(before) for line in differences(name, before[name], after[name])]
        if found:
            raise Failed("\n".join([f"{suite} differs with the extension:", *found]))
        print(f"check: {len(after)} tests of {suite} do with the extension what they do without it", flush=True)
